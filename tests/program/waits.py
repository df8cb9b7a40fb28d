#!/usr/bin/env python3
"""Looks for a wake-up that is lost: 640 clients send with random pauses, some to a topic that others hear, and nobody may wait over three quarters of a
second, for a receipt or for a message. (The flusher looks by itself each second, which would heal a lost wake-up.) Some send a burst, of which only the
last SEND asks for a receipt: it waits for room in its window, which the mark gives. First four clients, each at a desk of another worker if there are so
many, send such bursts one after another, so that nothing but the mark wakes the worker.

    python3 tests/program/waits.py [PROGRAM] [--minutes N] [--clients N] [--seed N]

A lost ring of a bell shows as a wait until something else wakes the thread, so most clients are silent most of the time. The longest wait stands beside
the percentiles. The journal is in memory (/dev/shm) if that has room: a disk that other programs keep busy may take over a second for a sync.
"""

import random
import select
import sys
import time

from lib import scenario
from lib.stomp_client import TEXT, Client, message_bytes, stomp_bytes

# In seconds: no wait may be longer, and this long a client pauses at most between two SENDs.
LONGEST_WAIT, LONGEST_PAUSE = 0.75, 4.0
# How many SENDs come before one with a receipt. A desk may have 16 under way.
BURSTS = (0, 0, 0, 1, 15, 16, 40)
# A topic's clients: one sends at a time, and all hear it.
ROOM = 4
# How many send bursts while the others do nothing, how many bursts each of them sends, and of how many SENDs: more than twice what a desk may have under
# way. Clients are dealt out to desks in turn, and so are desks to workers.
LONE, ALONE, LONE_BURST = 4, 1_000, 40


class Talker:
    """A client that sends now and then, and hears its room."""

    def __init__(self, port, number, chance):
        self.client, self.number, self.chance = Client(port).connect(), number, chance
        self.topic = f"/topic/room{number // ROOM}"
        self.client.subscribe("r", self.topic)
        self.count, self.heard, self.waits_since = 0, 0, None
        self.next = time.monotonic() + chance.uniform(0, LONGEST_PAUSE)

    def send(self, sent):
        self.count += 1
        name = f"{self.number} {self.count}"
        for _ in range(self.chance.choice(BURSTS)):
            self.client.send("SEND", [("destination", "/topic/none")], name)
        sent[name] = self.waits_since = time.monotonic()
        self.client.send("SEND", [("destination", self.topic), ("receipt", name)], name)

    def hear(self, sent, waits):
        """Hears what has come, and notes how long that was waited for."""
        while True:
            frame = self.client.receive()
            now = time.monotonic()
            assert frame.command in ("MESSAGE", "RECEIPT"), frame
            name = frame.body if frame.command == "MESSAGE" else frame.headers["receipt-id"]
            waits.append(now - sent[name])
            self.heard += frame.command == "MESSAGE"
            if frame.command == "RECEIPT":
                self.waits_since, self.next = None, now + self.chance.uniform(0, LONGEST_PAUSE)
            if not self.client.buffer and not self.client.hears_within(0):
                return


def alone(port):
    """One client after another sends bursts, of which only the last SEND asks for a receipt; how long each receipt was waited for."""
    clients, waits = [Client(port, timeout=10 * LONGEST_WAIT).connect() for _ in range(LONE)], []
    for client in clients:
        for number in range(ALONE):
            waits.append(burst(client, number))
            if waits[-1] > LONGEST_WAIT:
                break
    for client in clients:
        client.close()
    return waits


def burst(client, number):
    """Sends a burst; how long its receipt was waited for."""
    one = message_bytes(TEXT, stomp_bytes("SEND", [("destination", "/topic/none")]))
    last = message_bytes(TEXT, stomp_bytes("SEND", [("destination", "/topic/none"), ("receipt", f"{number}")]))
    start = time.monotonic()
    client.write((LONE_BURST - 1) * one + last)
    try:
        client.receipt(f"{number}")
    except TimeoutError:
        return 10 * LONGEST_WAIT
    return time.monotonic() - start


def talk(talkers, seconds):
    """Lets them talk for so long; how long each message and receipt was waited for."""
    poll, by_descriptor = select.epoll(), {}
    for one in talkers:
        by_descriptor[one.client.socket.fileno()] = one
        poll.register(one.client.socket, select.EPOLLIN)
    sent, waits, end = {}, [], time.monotonic() + seconds
    while time.monotonic() < end:
        now = time.monotonic()
        for one in talkers:
            if one.waits_since is None and one.next <= now:
                one.send(sent)
            if one.waits_since is not None and now - one.waits_since > 10 * LONGEST_WAIT:
                raise AssertionError(f"client {one.number} waits for a receipt for {now - one.waits_since:.1f} s")
        for descriptor, _ in poll.poll(0.002):
            by_descriptor[descriptor].hear(sent, waits)
    return sorted(waits)


def main():
    parser = scenario.words_of(__doc__)
    parser.add_argument("--minutes", type=float, default=10)
    parser.add_argument("--clients", type=int, default=640)
    parser.add_argument("--seed", type=int, default=random.randrange(2**32), help="of the pauses")
    words = parser.parse_args()
    print(f"seed {words.seed}", flush=True)
    chance, checks = random.Random(words.seed), scenario.Checks()
    scenario.keep_journals_in_memory()
    with scenario.serving(words.program) as broker:
        lone = alone(broker.port)
        checks.check(f"whoever sends alone waits {LONGEST_WAIT} s at most", max(lone) <= LONGEST_WAIT, f"{max(lone):.1f} s, among {len(lone)} bursts")
        checks.tell(f"{len(lone)} bursts of {LONE}, one at a time: the longest wait {max(lone) * 1000:.1f} ms")
        talkers = [Talker(broker.port, number, chance) for number in range(words.clients)]
        waits = talk(talkers, 60 * words.minutes)
    least = words.clients * words.minutes * 60 / LONGEST_PAUSE
    checks.check("they talked: each sent as often as its pauses allow", len(waits) >= least, len(waits))
    # What was sent last may be under way at the end.
    sent, heard = sum(one.count for one in talkers), sum(one.heard for one in talkers)
    checks.check("each message was heard by all of its room", heard >= ROOM * (sent - 2 * len(talkers)), (sent, heard))
    over = [wait for wait in waits if wait > LONGEST_WAIT]
    checks.same(f"no wait is over {LONGEST_WAIT} s", len(over), 0)
    half, most = waits[len(waits) // 2], waits[len(waits) * 99 // 100]
    checks.tell(f"{len(waits)} waits: half within {half * 1000:.1f} ms, 99 of 100 within {most * 1000:.1f}, the longest {waits[-1] * 1000:.1f}")
    return checks.status()


if __name__ == "__main__":
    sys.exit(main())
