#!/usr/bin/env python3
"""A disk on which nothing is synced for a while. First more waits for it than a block of the journal takes: once it goes on, all of it is stored at once, block
after block. On another such disk the journal is removed while dear commands wait for one another: all clients hear of the end.
Needs Python 3 and a C compiler.

    python3 tests/program/slow_disk.py [PROGRAM]
"""

import os
import pathlib
import sys
import tempfile
import time

from lib import scenario
from lib.crowding import TOPIC, transaction
from lib.stomp_client import Client

# So many clients send so many bodies of so many bytes: six blocks (docs/PROTOCOL.md, "Limits"). All receipts come within so many seconds.
MANY, EACH, LARGE, AT_ONCE = 24, 4, 60_000, 0.75
# A topic with so many subscriptions, of so many clients. COMMITs of so many SENDs to it come from so many clients. Most of them wait for others.
LISTENERS, SUBSCRIPTIONS, MEMBERS, SENDERS = 16, 16, 16, 12
# A server that has failed ends within so many seconds.
LONGEST = 5


def held(broker):
    """No sync of a broker ends while this file is there."""
    return pathlib.Path(broker.how["env"]["SYNCS_HELD"])


def backlog(broker, checks):
    """More waits for the disk than a block takes, and nothing comes after it."""
    clients = [Client(broker.port).connect() for _ in range(MANY)]
    held(broker).touch()
    for client in clients:
        for number in range(EACH):
            client.send("SEND", [("destination", "/topic/none"), ("receipt", f"{number}")], "x" * LARGE)
    # All of it is in the ring by then.
    time.sleep(2)
    start = time.monotonic()
    held(broker).unlink()
    for client in clients:
        client.receipt(f"{EACH - 1}")
    took = time.monotonic() - start
    checks.check(f"what waited for the disk has its receipts within {AT_ONCE} s", took <= AT_ONCE, f"{took:.2f} s")
    for client in clients:
        client.close()


def lost_in_line(broker, checks):
    """The journal is removed while nothing is synced and dear commands wait for one another: each of their clients hears 1001, and the server ends."""
    listeners = [Client(broker.port).connect() for _ in range(LISTENERS)]
    for client in listeners:
        for number in range(SUBSCRIPTIONS):
            client.subscribe(f"{number}", TOPIC)
    senders = [Client(broker.port).connect() for _ in range(SENDERS)]
    # The broker counts how many listen.
    senders[0].publish(TOPIC, "x")
    held(broker).touch()
    for client in senders:
        client.write(transaction(MEMBERS))
    time.sleep(1)
    os.remove(broker.journal)
    start = time.monotonic()
    held(broker).unlink()
    checks.same("each client whose command waits hears 1001", [client.to_the_end()[1] for client in senders], SENDERS * [1001])
    status = broker.process.wait(timeout=4 * LONGEST)
    checks.same("the server ends with status 1", status, 1)
    checks.check(f"within {LONGEST} s", time.monotonic() - start <= LONGEST, time.monotonic() - start)


def main():
    program, checks = scenario.program_of(__doc__), scenario.Checks()
    for one in (backlog, lost_in_line):
        with tempfile.TemporaryDirectory() as folder, scenario.serving(program, env=scenario.slow_syncs(folder, SYNCS_HELD=f"{folder}/held")) as broker:
            scenario.try_one(one, broker, checks)
    return checks.status()


if __name__ == "__main__":
    sys.exit(main())
