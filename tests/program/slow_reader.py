#!/usr/bin/env python3
"""A subscriber that stops reading, while another sends to its topic: its outbox of 32 MiB is cut, and nobody else waits. steady_readers.py has one that
never reads again.

    python3 tests/program/slow_reader.py [PROGRAM]
"""

import sys
import time

from lib import scenario
from lib.stomp_client import Client

BODY = "x" * 16_000
# So many messages an outbox has room for at least: with its headers a message has less than 16,500 bytes.
OUTBOX = 32 * 1_048_576 // 16_500
# Enough to fill the outbox and what the two sockets keep, which is some megabytes.
MESSAGES = 2_800


class Flood:
    """Messages of 16,000 bytes to a topic, one at a time: each has its receipt, and a quick listener has it, before the next."""

    def __init__(self, port, topic):
        self.topic = topic
        self.sender, self.quick = Client(port).connect(), Client(port).connect()
        self.quick.subscribe("q", topic)
        self.longest_receipt = self.longest_delivery = 0.0

    def send(self, number):
        body = f"{number} {BODY}"
        start = time.perf_counter()
        self.sender.publish(self.topic, body)
        receipted = time.perf_counter()
        assert self.quick.receive().body == body
        self.longest_receipt = max(self.longest_receipt, receipted - start)
        self.longest_delivery = max(self.longest_delivery, time.perf_counter() - start)

    def tell(self, checks):
        longest = max(self.longest_receipt, self.longest_delivery)
        checks.check("no receipt of another and no delivery to another took over a second while it read nothing", longest <= 1, longest)
        checks.tell(f"the longest receipt took {self.longest_receipt * 1000:.1f} ms, the longest delivery {self.longest_delivery * 1000:.1f} ms")

    def leave(self):
        self.sender.disconnect()
        self.quick.disconnect()


def numbers_of(frames):
    return [int(frame.body.split(" ", 1)[0]) for frame in frames]


def reads_again(broker, checks):
    """one that reads again before it is given up hears what was kept for it, and then 1001"""
    slow = Client(broker.port, receive_bytes=65_536).connect()
    slow.subscribe("s", "/topic/flood")
    flood = Flood(broker.port, "/topic/flood")
    start = time.perf_counter()
    for number in range(MESSAGES):
        flood.send(number)
    flood.tell(checks)
    checks.tell(f"all in {time.perf_counter() - start:.1f} s")
    frames, code = slow.to_the_end()
    numbers = numbers_of(frames)
    checks.same("it hears 1001", code, 1001)
    checks.same("before that a front of what was sent, in order", numbers, list(range(len(numbers))))
    checks.check("of no less than an outbox, and not all", OUTBOX <= len(numbers) < MESSAGES, len(numbers))
    checks.tell(f"{len(numbers)} messages, and 1001 {time.perf_counter() - start:.1f} s after it stopped reading")
    slow.close()
    again = Client(broker.port).connect()
    again.subscribe("s", "/topic/flood")
    flood.send(MESSAGES)
    checks.same("when it comes back it hears what is sent from then on", numbers_of([again.receive()]), [MESSAGES])
    again.disconnect()
    flood.leave()


def answers_no_close(broker, checks):
    """what one holds whose outbox is cut goes to others once it has read what was kept for it, though it answers no close"""
    slow = Client(broker.port, receive_bytes=65_536).connect()
    slow.subscribe("h", "/queue/kept", "client-individual")
    kept = [frame.body for frame in slow.publish("/queue/kept", "kept")]
    checks.same("it holds a message of a queue", kept, ["kept"])
    slow.subscribe("s", "/topic/cut")
    flood = Flood(broker.port, "/topic/cut")
    for number in range(MESSAGES):
        flood.send(number)
    other = Client(broker.port).connect()
    waiting = [frame.body for frame in other.subscribe("h", "/queue/kept", "client-individual")]
    checks.same("another that subscribes is handed nothing yet", waiting, [])
    frames, code = slow.to_the_end()
    checks.same("it hears 1001", code, 1001)
    start = time.perf_counter()
    checks.same("the other is handed the message", other.receive().body, "kept")
    waited = time.perf_counter() - start
    checks.check("within 2 seconds", waited < 2, waited)
    slow.close()
    other.disconnect()
    flood.leave()


if __name__ == "__main__":
    scenario.keep_journals_in_memory()
    sys.exit(scenario.run(__doc__, [reads_again, answers_no_close]))
