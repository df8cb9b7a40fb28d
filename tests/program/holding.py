#!/usr/bin/env python3
"""Clients that would hold their worker: one that sends fragments without end, and one that answers a close with anything but its own. Each is served or
let go in its time, and the others don't wait.

    python3 tests/program/holding.py [PROGRAM]
"""

import sys
import threading
import time

from lib import scenario
from lib.stomp_client import CLOSE, CONTINUATION, PING, TEXT, Client, Closed, message_bytes

# For how many seconds a client's close is waited for.
LONGEST_CLOSE = 10
# For a busy machine.
SPARE = 4


def fragment(payload=b"", opcode=CONTINUATION):
    return message_bytes(opcode, payload, is_last=False)


class Dripping(threading.Thread):
    """Sends the same bytes again and again, until it is stopped or can't."""

    def __init__(self, client, data, pause=0.0):
        super().__init__(daemon=True)
        self.client, self.data, self.pause, self.goes_on, self.count = client, data, pause, True, 0
        self.start()

    def run(self):
        try:
            while self.goes_on:
                self.client.write(self.data)
                self.count += 1
                time.sleep(self.pause)
        except OSError:
            pass

    def stop(self):
        self.goes_on = False
        self.join(20)


def sends_fragments(broker, checks):
    """one that sends empty fragments without end hears what is sent to it, while it does"""
    client = Client(broker.port).connect()
    client.subscribe("s", "/topic/fragments")
    # The first fragment of a message that never ends; its worker reads on and on.
    client.write(fragment(opcode=TEXT))
    flood = Dripping(client, 500 * fragment())
    sender = Client(broker.port).connect()
    longest = 0.0
    for number in range(50):
        start = time.perf_counter()
        sender.publish("/topic/fragments", f"{number}")
        assert client.receive().body == f"{number}"
        longest = max(longest, time.perf_counter() - start)
    checks.check("each of 50 messages within a second", longest < 1, longest)
    checks.tell(f"{500 * flood.count} fragments, the longest delivery took {longest * 1000:.1f} ms")
    flood.stop()
    client.close()
    sender.disconnect()


def seconds_to_the_end(client, longest):
    """After how many seconds the server ends the connection; what comes before is read over."""
    start = time.monotonic()
    client.socket.settimeout(1)
    while time.monotonic() - start < longest:
        try:
            client.fill()
            client.buffer.clear()
        except TimeoutError:
            continue
        except (Closed, OSError):
            return time.monotonic() - start
    return None


def has_neighbours(broker, checks):
    """one that sends empty fragments as fast as it can, and one that answers a close so, hold up nobody at their workers"""
    # Nothing but the server ends these.
    flooder, parting = (Client(broker.port, timeout=60).connect() for _ in range(2))
    parting.send("DISCONNECT", [("receipt", "bye")])
    parting.receipt("bye")
    start = time.monotonic()
    floods = []
    for client in (flooder, parting):
        client.write(fragment(opcode=TEXT))
        floods.append(Dripping(client, 10_000 * fragment()))
    # There are 64 desks, so two of these share one with those.
    others, longest, unserved = [], 0.0, 0
    for _ in range(64):
        begun = time.monotonic()
        try:
            others.append(Client(broker.port, timeout=5).connect())
            others[-1].publish("/topic/none", "x")
        except TimeoutError:
            unserved += 1
        longest = max(longest, time.monotonic() - begun)
    checks.same("64 others are served", 64 - unserved, 64)
    checks.check("each within two seconds", longest < 2, longest)
    floods[1].join(max(0, start + LONGEST_CLOSE + SPARE - time.monotonic()))
    checks.check(f"the one that was told a close is let go within {LONGEST_CLOSE} seconds", not floods[1].is_alive())
    for flood in floods:
        flood.stop()
    for client in (flooder, parting, *others):
        client.close()


def answers_no_close(broker, checks):
    """one that answers the broker's close with drops of a message is let go once the time for its close is over"""
    for what, data in (("fragments", fragment(b"x")), ("pings", message_bytes(PING, b"x")), ("half a frame", b"\x81")):
        client = Client(broker.port).connect()
        client.send("DISCONNECT", [("receipt", "bye")])
        client.receipt("bye")
        if what == "fragments":
            client.write(fragment(opcode=TEXT))
        drops = Dripping(client, data, 0.5)
        waited = seconds_to_the_end(client, LONGEST_CLOSE + 20)
        drops.stop()
        client.close()
        fits = waited is not None and waited < LONGEST_CLOSE + SPARE
        checks.check(f"one that sends {what}, within {LONGEST_CLOSE} seconds", fits, waited)
        checks.tell(f"after {waited} s")


def answers_its_close(broker, checks):
    """one that answers the close as it should is let go at once"""
    client = Client(broker.port).connect()
    start = time.monotonic()
    client.send("DISCONNECT", [("receipt", "bye")])
    client.receipt("bye")
    _, code = client.to_the_end()
    client.send_message(CLOSE, b"\x03\xe8")
    waited = seconds_to_the_end(client, 20)
    checks.same("with 1000", code, 1000)
    checks.check("within a second", waited is not None and time.monotonic() - start < 1 + SPARE, waited)
    client.close()


if __name__ == "__main__":
    scenario.keep_journals_in_memory()
    sys.exit(scenario.run(__doc__, [sends_fragments, has_neighbours, answers_its_close, answers_no_close]))
