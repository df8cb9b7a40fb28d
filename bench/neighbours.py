#!/usr/bin/env python3
"""Measures what a neighbour's receipts take while others do the dearest that they may: COMMITs to a topic with 255 readers, as fast as they can; SENDs to
60 readers, after the neighbour's topic was joined and left 30,000 times; and clients that connect, subscribe and leave all the time. README.md says what
was seen.

    python3 bench/neighbours.py [PROGRAM] [--beside OTHER].. [--seconds N]

Each OTHER is one more program: each case is run with all of them, in turn. The journals are made in the folder for temporary files (TMPDIR).
"""

import argparse
import contextlib
import pathlib
import statistics
import time

from lib import scenario
from lib.crowding import LONGEST, READERS, TOPIC, Pings, Waits, among_dear_frames, at_work, flood, held_up, listen, transaction, within
from lib.stomp_client import Client, stomp_message

# How many clients send COMMITs of how many SENDs.
CASES = [(16, 10), (64, 16), (64, 1)]

# How often the neighbour's topic is joined and left before, to how many readers how many others send, and how many clients come and go.
JOINS, BUSY_READERS, SENDERS, COMERS = 30_000, 60, 128, 32
NEWS = "/topic/news"


def receipts_of(broker, client, seconds):
    """What the receipts of SENDs to the joined topic take, one after another for so long."""
    waits, end = Waits(), time.monotonic() + seconds
    while (begun := time.monotonic()) < end:
        before = held_up(broker)
        client.publish(NEWS, "x")
        waits.add(time.monotonic() - begun, held_up(broker) - before)
    return waits


def join_and_leave(port):
    client = Client(port, timeout=LONGEST).connect()
    pair = stomp_message("SUBSCRIBE", [("id", "a"), ("destination", NEWS)]) + stomp_message("UNSUBSCRIBE", [("id", "a")])
    for _ in range(JOINS // 100):
        client.write(100 * pair)
        client.publish("/topic/none", "x")
    client.disconnect()


def come_and_go(port, pipe):
    """A process whose clients connect, subscribe to the topic, and leave without a word, until it is told to end. It answers how many came."""
    pipe.send(0)
    count = 0
    while not pipe.poll():
        with contextlib.suppress(OSError):
            some = [Client(port, timeout=LONGEST).connect() for _ in range(COMERS)]
            for one in some:
                one.send("SUBSCRIBE", [("id", "a"), ("destination", NEWS)])
            for one in some:
                one.close()
            count += len(some)
    pipe.send(count)


def beside_joins(broker, seconds):
    join_and_leave(broker.port)
    neighbour = Client(broker.port, timeout=LONGEST).connect()
    data = 16 * stomp_message("SEND", [("destination", "/topic/busy")], "x")
    with at_work(listen, broker.port, "/topic/busy", BUSY_READERS), at_work(flood, broker.port, SENDERS, data), Pings(broker) as pings:
        waits = receipts_of(broker, neighbour, seconds)
    return waits, pings.statuses, f"{SENDERS} senders to {BUSY_READERS} readers, after {JOINS} joins"


def beside_comers(broker, seconds):
    neighbour = Client(broker.port, timeout=LONGEST).connect()
    with at_work(listen, broker.port, TOPIC, READERS), at_work(flood, broker.port, 16, transaction(10)), at_work(come_and_go, broker.port) as comers, Pings(broker) as pings:
        waits = receipts_of(broker, neighbour, seconds)
        comers.send("end")
        count = comers.recv()
    return waits, pings.statuses, f"{count} clients that came, subscribed and left, and 16 that send COMMITs of 10"


def row(taken):
    return f"{statistics.median(taken) * 1e3:,.0f} | {within(taken, 99) * 1e3:,.0f} | {max(taken) * 1e3:,.0f}"


def show(what, program, waits, pings):
    print(f"{what}: {program}", flush=True)
    print(f"  milliseconds: median, 99th, most: {row(waits.without_others)}; by the clock {row(waits.by_clock)}; {len(waits.by_clock)} receipts", flush=True)
    print(f"  {len(pings) - pings.count(0)} of {len(pings)} pings failed", flush=True)


def main():
    parser = argparse.ArgumentParser(description=__doc__, formatter_class=argparse.RawDescriptionHelpFormatter)
    parser.add_argument("program", nargs="?", default=scenario.BUILT)
    parser.add_argument("--beside", action="append", default=[])
    parser.add_argument("--seconds", type=float, default=10)
    words = parser.parse_args()
    for clients, members in CASES:
        for program in [words.program, *words.beside]:
            with scenario.serving(pathlib.Path(program).resolve()) as broker:
                waits, pings, left = among_dear_frames(broker, clients, members, words.seconds)
            show(f"{clients} clients, COMMITs of {members}; left: {left}", program, waits, pings)
    for case in (beside_joins, beside_comers):
        for program in [words.program, *words.beside]:
            with scenario.serving(pathlib.Path(program).resolve()) as broker:
                waits, pings, what = case(broker, words.seconds)
            show(what, program, waits, pings)


if __name__ == "__main__":
    main()
