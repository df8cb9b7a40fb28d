#!/usr/bin/env python3
"""Measures what a command costs beside many subscriptions: the flusher's processor time for a SEND that nobody hears, one that one subscription
hears, each delivery of one that 4,096 hear (or all but a few, if there are fewer), and a SUBSCRIBE with its UNSUBSCRIBE.

    python3 bench/subscriptions.py [PROGRAM] [--beside OTHER].. [--folder FOLDER] [--only COUNT]..

The flusher is the server's first thread, and the system says how long that ran. Each client has 16 subscriptions. Those that hear the wide topic have 15
to it and one to a topic of their own; the others have 16 topics of their own.
"""

import argparse
import contextlib
import pathlib
import select
import sys
import tempfile
import threading
import time

from lib.scenario import take_descriptors
from lib.stomp_client import Client
from measuring import MB, PROGRAM, machine, parsed
from serving import Server, make_journal

AREA = 512 * MB
EACH, LISTENERS = 16, 4_096
COUNTS = (1_000, 16_000, 260_000)
SENDS, WIDE_SENDS, PAIRS, WINDOW = 4_000, 16, 2_000, 16
WIDE = "/topic/wide"


# A masked pong without a text, which nobody asked for: it shows that a client still listens (RFC 6455, section 5.5.3).
PONG = b"\x8a\x80\x00\x00\x00\x00"
PONG_SECONDS = 10


class Readers:
    """Reads what all these clients get, in a thread of its own, and drops it."""

    def __init__(self, clients):
        self.sockets = {it.socket.fileno(): it.socket for it in clients}
        self.is_over = threading.Event()
        self.poll = select.epoll()
        for number in self.sockets:
            self.poll.register(number, select.EPOLLIN)
        self.thread = threading.Thread(target=self.read)

    def __enter__(self):
        self.thread.start()
        return self

    def __exit__(self, *_):
        self.is_over.set()
        self.thread.join()
        self.poll.close()

    def read(self):
        ponged = time.monotonic()
        while not self.is_over.is_set():
            for number, _ in self.poll.poll(0.5):
                if not self.sockets[number].recv(1 << 18):
                    raise SystemExit("a subscriber was disconnected")
            if time.monotonic() - ponged > PONG_SECONDS:
                ponged = time.monotonic()
                for it in self.sockets.values():
                    it.sendall(PONG)


def flusher_seconds(server):
    """How long the server's first thread has run."""
    number = server.process.pid
    return int(pathlib.Path(f"/proc/{number}/task/{number}/schedstat").read_text(encoding="ascii").split()[0]) / 1e9


def settle(client):
    """What a client asked for before is done, and so is what others had asked for."""
    client.publish("/topic/none", "x")
    time.sleep(0.2)
    client.publish("/topic/none", "x")


def crowd(server, count):
    """Clients with so many subscriptions in all, and how many of these hear the wide topic."""
    clients, listeners = [], 0
    for at in range(count // EACH):
        client = Client(server.port, timeout=120).connect()
        wide = min(EACH - 1, max(0, min(LISTENERS, count - 200) - listeners))
        for part in range(EACH):
            client.send("SUBSCRIBE", [("id", f"{part}"), ("destination", WIDE if part < wide else f"/topic/{at}.{part}")])
        listeners += wide
        clients.append(client)
    return clients, listeners


def cost(server, client, work, times):
    """How many microseconds the flusher ran for each of so many times."""
    settle(client)
    before = flusher_seconds(server)
    work()
    settle(client)
    return (flusher_seconds(server) - before) * 1e6 / times


def pairs(client):
    for at in range(PAIRS):
        client.send("SUBSCRIBE", [("id", "x"), ("destination", "/topic/other")])
        client.send("UNSUBSCRIBE", [("id", "x"), ("receipt", f"p{at}")])
        client.receipt(f"p{at}")


def figures(server, count):
    """The costs by name, in microseconds."""
    clients, listeners = crowd(server, count)
    with Readers(clients):
        costs = measured(server, clients, listeners)
    for one_of_them in clients:
        with contextlib.suppress(OSError):
            one_of_them.close()
    return costs


def measured(server, clients, listeners):
    client = Client(server.port, timeout=120).connect()
    own = f"/topic/{len(clients) - 1}.{EACH - 1}"
    none = cost(server, client, lambda: client.publish_all("/topic/none", ["x" * 100] * SENDS, WINDOW), SENDS)
    one = cost(server, client, lambda: client.publish_all(own, ["x" * 100] * SENDS, WINDOW), SENDS)
    wide = cost(server, client, lambda: client.publish_all(WIDE, ["x" * 100] * WIDE_SENDS, 1), WIDE_SENDS * listeners)
    both = cost(server, client, lambda: pairs(client), PAIRS)
    return {"SEND to none": none, "SEND to one": one, f"delivery to {listeners:,}": wide, "SUBSCRIBE and UNSUBSCRIBE": both}


def main():
    parser = argparse.ArgumentParser(description=__doc__, formatter_class=argparse.RawDescriptionHelpFormatter)
    parser.add_argument("program", nargs="?", type=pathlib.Path, default=PROGRAM)
    parser.add_argument("--beside", type=pathlib.Path, action="append", default=[], help="another built program, with which each case is run in turn")
    parser.add_argument("--folder", type=pathlib.Path, default=pathlib.Path(tempfile.gettempdir()), help="where the journals are made")
    parser.add_argument("--only", type=int, action="append", help="measure so many subscriptions alone")
    # Each case is run once.
    parser.set_defaults(runs=1)
    words = parsed(parser)
    take_descriptors()
    print(machine(), time.strftime("%Y-%m-%d %H:%M UTC", time.gmtime()))
    with tempfile.TemporaryDirectory(dir=words.folder) as name:
        journal = pathlib.Path(name) / "journal"
        for count in words.only or COUNTS:
            for program in [words.program, *(it.resolve() for it in words.beside)]:
                make_journal(program, journal, AREA)
                with Server(program, journal) as server:
                    for what, micros in figures(server, count).items():
                        print(f"  {count:>9,} {program.parent.parent.parent.parent.parent.name:<8} {what:<26} {micros:9.2f} us", flush=True)
    print(machine())
    return 0


if __name__ == "__main__":
    sys.exit(main())
