#!/usr/bin/env python3
"""Subscriptions with long names: one client may have all that the protocol allows, and the clients of a desk share what their names may take of the
journal. Who would pass that ends with 1001, a line of the server says so, and nobody else notices.

    python3 tests/program/long_names.py [PROGRAM]
"""

import contextlib
import sys

from lib import scenario
from lib.stomp_client import Client, Closed

# A server keeps some descriptors for itself, and has 64 desks, to which clients come in turn.
OWN, DESKS = 160, 64
# The bytes of an `id`, and how many subscriptions a session may have (docs/PROTOCOL.md, "Limits").
ID_BYTES, MOST = 500, 16
# A session has 9 bytes, and a subscription to /topic/a 34 and those of its id. A desk of two clients has 16,384.
EACH, OWN_BYTES, DESK_BYTES = 34 + ID_BYTES, 9, 2 * 8_192


def name(number):
    return f"{number:03d}".ljust(ID_BYTES, "x")


def subscribe(client, count, first=0):
    """Subscribes so often, and answers how many were taken and with which code it was closed, if it was."""
    for number in range(count):
        try:
            client.subscribe(name(first + number), "/topic/a")
        except Closed as closed:
            return number, closed.code
    return count, None


def all_that_is_allowed(broker, checks):
    """a client has 16 subscriptions with ids of 500 bytes, and they hear"""
    client = Client(broker.port, timeout=20).connect()
    checks.same("all are taken", subscribe(client, MOST), (MOST, None))
    Client(broker.port, timeout=20).connect().send("SEND", [("destination", "/topic/a")], "all")
    heard = {client.receive().headers["subscription"] for _ in range(MOST)}
    checks.same("each hears a message", heard, {name(number) for number in range(MOST)})
    client.disconnect()


def a_desk_is_full(broker, checks):
    """the clients of a desk share what their names may take"""
    first = [Client(broker.port, timeout=20).connect() for _ in range(DESKS)]
    fits = (DESK_BYTES - 2 * OWN_BYTES) // EACH
    own = min(MOST, fits)
    checks.same("the first of each desk have all that they may", {subscribe(one, own) for one in first}, {(own, None)})
    second = [Client(broker.port, timeout=20).connect() for _ in range(DESKS)]
    left = fits - own
    checks.same("the second get what is left, and then end with 1001", {subscribe(one, MOST) for one in second}, {(left, 1001)})
    # Their closes are waited for for ten seconds.
    form = r"gave up (\d+) clients whose names have no room beside the others'"
    checks.same("the server's lines count them, though they keep their connections", broker.await_count(form, DESKS, 3), DESKS)
    for one in second:
        one.close()
    for number, one in enumerate(first):
        one.send("SEND", [("destination", "/topic/none"), ("receipt", f"{number}")], "x")
        one.receipt(f"{number}")
    checks.check("the others go on", True)
    third = [Client(broker.port, timeout=20).connect() for _ in range(DESKS)]
    checks.same("what they had is there again", {subscribe(one, left) for one in third}, {(left, None)})
    for one in first:
        one.send("UNSUBSCRIBE", [("id", name(0)), ("receipt", "u")])
        one.receipt("u")
    checks.same("and so is what an UNSUBSCRIBE ends", {subscribe(one, 1, left) for one in third}, {(1, None)})
    for one in first + third:
        with contextlib.suppress(OSError):
            one.close()


def main():
    program = scenario.program_of(__doc__)
    scenario.take_descriptors()
    checks = scenario.Checks()
    with scenario.serving(program) as broker:
        scenario.try_one(all_that_is_allowed, broker, checks)
    # So a desk has two clients at most.
    with scenario.serving(program, limits={"NOFILE": OWN + 2 * DESKS}) as broker:
        scenario.try_one(a_desk_is_full, broker, checks)
        checks.check("the broker still runs", broker.is_running(), broker.process.poll())
    return checks.status()


if __name__ == "__main__":
    sys.exit(main())
