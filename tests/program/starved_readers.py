#!/usr/bin/env python3
"""Subscribers that read all that comes stay, while one client sends as fast as the server takes it, and other programs keep all processors
busy: the flusher waits for workers that get no processor, and does not fill the boxes of their clients. In the second scenario the worker of all
subscribers is the only one that comes after these programs, so that the flusher and the sender's worker are far quicker. Needs four processors.

    python3 tests/program/starved_readers.py [PROGRAM]
"""

import contextlib
import os
import pathlib
import select
import subprocess
import sys
import threading
import time

from lib import scenario
from lib.stomp_client import TEXT, Client, message_bytes, stomp_bytes

SUBSCRIBERS = 16
# Twice as many programs as there are processors.
BUSY = 2 * len(os.sched_getaffinity(0))
SECONDS = 10
BODY = "x" * 70
AT_ONCE = 500
TOPIC = "/topic/starved"
BEGIN = b"MESSAGE\n"
# How much the worker of all subscribers comes after others (nice), and for how many seconds they may go on to read what it has kept.
AFTER, REST = 5, 20
# With fewer processors that worker may get none for longer than it is waited for.
LEAST = 4


@contextlib.contextmanager
def busy_processors():
    """Programs that compute for as long as this lasts."""
    programs = [subprocess.Popen([sys.executable, "-c", "while True: pass"]) for _ in range(BUSY)]
    try:
        yield
    finally:
        for it in programs:
            it.kill()
            it.wait()


class Readers(threading.Thread):
    """Reads all that these clients get, and notes those that the server has disconnected."""

    def __init__(self, clients):
        super().__init__(daemon=True)
        self.sockets = {it.socket.fileno(): it.socket for it in clients}
        self.ends = dict.fromkeys(self.sockets, b"")
        self.messages, self.cut, self.is_over = 0, 0, False

    def run(self):
        poll = select.epoll()
        for number in self.sockets:
            poll.register(number, select.EPOLLIN)
        while not self.is_over:
            for number, _ in poll.poll(0.1):
                piece = self.take(self.sockets[number])
                self.count(number, piece)
                if not piece:
                    self.cut += 1
                    poll.unregister(number)

    def count(self, number, piece):
        """Counts the MESSAGEs that begin in what came; one may begin in two pieces."""
        both = self.ends[number] + piece
        self.messages += both.count(BEGIN)
        self.ends[number] = both[1 - len(BEGIN):]

    def take(self, sock):
        try:
            return sock.recv(1 << 20)
        except ConnectionError:
            return b""


def read_while_starved(broker, checks):
    """nobody who reads all that comes is disconnected"""
    clients = [Client(broker.port).connect() for _ in range(SUBSCRIBERS)]
    for it in clients:
        it.subscribe("s", TOPIC)
    readers = Readers(clients)
    readers.start()
    sender = Client(broker.port, timeout=60).connect()
    many = message_bytes(TEXT, stomp_bytes("SEND", [("destination", TOPIC)], BODY)) * AT_ONCE
    last = message_bytes(TEXT, stomp_bytes("SEND", [("destination", TOPIC), ("receipt", "r")], BODY))
    count, start = 0, time.monotonic()
    with busy_processors():
        while time.monotonic() - start < SECONDS:
            sender.socket.sendall(many + last)
            sender.receipt("r")
            count += AT_ONCE + 1
        took = time.monotonic() - start
        time.sleep(1)
    readers.is_over = True
    readers.join()
    checks.same("so many of them are", readers.cut, 0)
    checks.same("and each was sent what was sent", readers.messages, SUBSCRIBERS * count)
    checks.tell(f"{count * SUBSCRIBERS / took:,.0f} messages a second beside {BUSY} busy programs")
    for it in [*clients, sender]:
        it.close()


def worked(broker):
    """How long each thread of the broker has run, but for the first one, which is the flusher."""
    tasks = pathlib.Path(f"/proc/{broker.process.pid}/task")
    return {int(it.name): int((it / "schedstat").read_text(encoding="ascii").split()[0]) for it in tasks.iterdir() if it.name != str(broker.process.pid)}


def seated_together(broker):
    """Subscribers that one of two workers serves, and a sender that the other one serves: a client is given to the worker that has fewer."""
    clients = [Client(broker.port).connect() for _ in range(2 * SUBSCRIBERS)]
    for it in clients[::2]:
        it.close()
    time.sleep(0.5)
    return clients[1::2], Client(broker.port, timeout=60).connect()


def busiest(broker, do):
    """The thread that works most while something is done, and whether it works twice as long as any other."""
    before = worked(broker)
    do()
    time.sleep(0.5)
    taken = sorted((after - before[number], number) for number, after in worked(broker).items())
    return taken[-1][1], taken[-1][0] > 2 * taken[-2][0]


def send_many(sender, many):
    sender.socket.sendall(many)
    sender.receipt("r")


def read_while_their_worker_starves(broker, checks):
    """nobody is disconnected whose worker alone gets little of the processors"""
    with scenario.serving(broker.program, more=("--threads", "2")) as two:
        clients, sender = seated_together(two)
        for it in clients:
            it.subscribe("s", TOPIC)
        readers = Readers(clients)
        readers.start()
        one = message_bytes(TEXT, stomp_bytes("SEND", [("destination", TOPIC)], BODY))
        many = one * AT_ONCE + message_bytes(TEXT, stomp_bytes("SEND", [("destination", TOPIC), ("receipt", "r")], BODY))
        worker, is_theirs = busiest(two, lambda: send_many(sender, many))
        checks.check("one thread does their work", is_theirs)
        os.setpriority(os.PRIO_PROCESS, worker, AFTER)
        count, start = 1, time.monotonic()
        with busy_processors():
            while time.monotonic() - start < SECONDS:
                send_many(sender, many)
                count += 1
            took = time.monotonic() - start
        all_messages, end = SUBSCRIBERS * count * (AT_ONCE + 1), time.monotonic() + REST
        while readers.messages < all_messages and not readers.cut and time.monotonic() < end:
            time.sleep(0.1)
        readers.is_over = True
        readers.join()
        checks.same("so many are disconnected", readers.cut, 0)
        checks.same("and each was sent what was sent", readers.messages, all_messages)
        checks.tell(f"{all_messages / took:,.0f} messages a second, their worker {AFTER} after {BUSY} busy programs")


if __name__ == "__main__":
    if len(os.sched_getaffinity(0)) < LEAST:
        print(f"starved_readers: needs {LEAST} processors", file=sys.stderr)
        sys.exit(2)
    sys.exit(scenario.run(__doc__, [read_while_starved, read_while_their_worker_starves]))
