#!/usr/bin/env python3
"""Measures what a start takes after the loads whose commands cost most beside what the broker counts for them.

    python3 bench/dear_starts.py [PROGRAM] [--beside OTHER].. [--folder FOLDER] [--only CASE]..

A load runs over a new journal until SIGKILL, several times for different times, and `stompd show` opens the file each time: it repeats what a start
repeats. It prints the most processor seconds that it took, for each program in turn.
"""

import argparse
import pathlib
import resource
import subprocess
import sys
import tempfile
import time

from lib.scenario import take_descriptors
from lib.stomp_client import Client
from measuring import MB, PROGRAM, machine, parsed
from serving import Server, make_journal

AREA = 512 * MB
KILLS = 4


def until(end, step):
    """Calls a step with rising numbers until that moment."""
    number = 0
    while time.monotonic() < end:
        step(number)
        number += 1


def commits(server, end):
    """COMMITs of 64 SENDs to a topic that nobody hears."""
    client = Client(server.port, timeout=60).connect()

    def step(number):
        client.send("BEGIN", [("transaction", "t")])
        for _ in range(64):
            client.send("SEND", [("destination", "/topic/none"), ("transaction", "t")], "x")
        client.send("COMMIT", [("transaction", "t"), ("receipt", f"{number}")])
        client.receipt(f"{number}")

    until(end, step)


def subscriptions(server, end):
    """SUBSCRIBE and UNSUBSCRIBE in turn."""
    client = Client(server.port, timeout=60).connect()

    def step(number):
        for part in range(8):
            client.send("SUBSCRIBE", [("id", f"{part}"), ("destination", f"/topic/{part}")])
        for part in range(8):
            client.send("UNSUBSCRIBE", [("id", f"{part}")])
        client.publish("/topic/none", f"{number}")

    until(end, step)


def headers(server, end):
    """SENDs with 60 headers, to a topic with 16 listeners."""
    listeners = [Client(server.port, timeout=60).connect() for _ in range(16)]
    for listener in listeners:
        listener.subscribe("0", "/topic/wide")
    client = Client(server.port, timeout=60).connect()
    fields = [(f"h{at}", f"{at}") for at in range(60)]

    def step(number):
        for part in range(8):
            client.send("SEND", [("destination", "/topic/wide"), *fields], f"{part}")
        client.publish("/topic/none", f"{number}")
        for listener in listeners:
            for _ in range(8):
                listener.receive()

    until(end, step)


def names(server, end):
    """SENDs to 256 durable names, each acknowledged at once by its subscription."""
    listeners = [Client(server.port, timeout=60).connect(f"c{at}") for at in range(16)]
    for listener in listeners:
        for at in range(16):
            listener.subscribe(f"{at}", "/topic/durable", headers=[("activemq.subscriptionName", f"n{at}")])
    client = Client(server.port, timeout=60).connect()

    def step(number):
        client.publish("/topic/durable", f"{number}")
        for listener in listeners:
            for _ in range(16):
                listener.receive()

    until(end, step)


def full_readers(server, end):
    """A queue with 200 subscribers that have 16 messages in hand each, and one that takes all others."""
    readers = [Client(server.port, timeout=60).connect() for _ in range(200)]
    for reader in readers:
        reader.subscribe("0", "/queue/full", ack="client-individual")
    client = Client(server.port, timeout=60).connect()
    client.publish_all("/queue/full", [f"{at}" for at in range(3_200)], 16)
    taker = Client(server.port, timeout=60).connect()
    taker.subscribe("0", "/queue/full")

    def step(number):
        client.publish_all("/queue/full", [f"m{number}.{part}" for part in range(16)], 16)
        for _ in range(16):
            taker.receive()

    until(end, step)


def crowd(server, end):
    """16 MiB held, and as many sessions with 16 subscriptions each as descriptors allow, up to 8,192."""
    holder = Client(server.port, timeout=60).connect()
    holder.publish_all("/queue/held", ["x" * 65_536] * 255, 8)
    most = min(8_192, resource.getrlimit(resource.RLIMIT_NOFILE)[0] // 2 - 100)
    clients = []
    for at in range(most):
        client = Client(server.port, timeout=60).connect()
        for part in range(16):
            client.send("SUBSCRIBE", [("id", f"{part}"), ("destination", f"/topic/{at}.{part}")])
        clients.append(client)
    until(end, lambda number: holder.publish("/topic/none", f"{number}"))


CASES = {it.__name__: it for it in (commits, subscriptions, headers, names, full_readers, crowd)}


def most_seconds(program, load, journal):
    """The most processor seconds that `show` takes, over several kills."""
    most = 0.0
    for kill in range(1 if load is crowd else KILLS):
        make_journal(program, journal, AREA)
        with Server(program, journal) as server:
            load(server, time.monotonic() + 1 + kill)
        before = resource.getrusage(resource.RUSAGE_CHILDREN)
        subprocess.run([program, "show", journal], check=True, stdout=subprocess.DEVNULL)
        after = resource.getrusage(resource.RUSAGE_CHILDREN)
        most = max(most, after.ru_utime - before.ru_utime + after.ru_stime - before.ru_stime)
        journal.unlink()
    return most


def main():
    parser = argparse.ArgumentParser(description=__doc__, formatter_class=argparse.RawDescriptionHelpFormatter)
    parser.add_argument("program", nargs="?", type=pathlib.Path, default=PROGRAM)
    parser.add_argument("--beside", type=pathlib.Path, action="append", default=[], help="another built program, with which each case is run in turn")
    parser.add_argument("--folder", type=pathlib.Path, default=pathlib.Path(tempfile.gettempdir()), help="where the journals are made")
    parser.add_argument("--only", choices=CASES, action="append", help="measure this case alone")
    # Each case is run once.
    parser.set_defaults(runs=1)
    words = parsed(parser)
    take_descriptors()
    print(machine(), time.strftime("%Y-%m-%d %H:%M UTC", time.gmtime()))
    with tempfile.TemporaryDirectory(dir=words.folder) as name:
        for case in words.only or CASES:
            for program in [words.program, *(it.resolve() for it in words.beside)]:
                seconds = most_seconds(program, CASES[case], pathlib.Path(name) / "journal")
                print(f"  {case:<16} {program.name:<12} {seconds:8.2f} s of a processor", flush=True)
    print(machine())
    return 0


if __name__ == "__main__":
    sys.exit(main())
