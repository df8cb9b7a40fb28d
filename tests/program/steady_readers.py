#!/usr/bin/env python3
"""Subscribers that read slowly and steadily while 20 MiB wait for each: none is given up while it reads, though the poll hardly ever says that its
socket takes bytes, and though no ping can be sent while something waits. Two of them read fast at first, so that
the system lets their receive buffers grow, and opens a window that was full only once a sixteenth of it was read. One that reads nothing is given up. All are there at once, for two minutes.

    python3 tests/program/steady_readers.py [PROGRAM]
"""

import sys
import threading
import time

from lib import scenario
from lib.stomp_client import PING, PONG, Client, take_frame

BODY = "x" * 65_000
MESSAGES = 20 * 1_048_576 // len(BODY)
RATES = [40_000, 80_000, 110_000, 200_000]
GROWN_RATES = [12_000, 40_000]
# How many bytes these read fast.
FAST = 8 * 1_048_576
# Longer than the 80 seconds after which a silent client was given up that was never pinged, and than the fastest takes for all.
WATCHED = 120
# For how many seconds a client may take nothing of what is written to it.
LONGEST_WRITE = 60
# For a busy machine.
SPARE = 2


class Reader(threading.Thread):
    """A subscriber that reads so many bytes a second, and answers pings as it comes to them."""

    def __init__(self, port, rate, is_grown=False):
        super().__init__(daemon=True)
        self.rate, self.fast, self.count, self.pings, self.ended = rate, FAST if is_grown else 0, 0, 0, None
        self.client = Client(port, receive_bytes=None if is_grown else 65_536).connect()
        self.client.subscribe("s", "/topic/steady")

    def run(self):
        start = time.monotonic()
        self.client.socket.settimeout(5)
        while time.monotonic() - start < WATCHED:
            due = self.fast + int((time.monotonic() - start) * self.rate) - self.count
            if due < 1:
                time.sleep(0.02)
                continue
            try:
                piece = self.client.socket.recv(min(due, 65_536))
            except TimeoutError:
                continue
            except ConnectionResetError:
                piece = b""
            if not piece:
                self.ended = time.monotonic() - start
                return
            self.count += len(piece)
            self.client.buffer += piece
            self.answer_pings()

    def answer_pings(self):
        """Takes the whole frames that were read, and answers each ping."""
        while frame := take_frame(self.client.buffer):
            _, opcode, payload = frame
            if opcode == PING:
                self.pings += 1
                self.client.send_message(PONG, payload)


def read_steadily(broker, checks):
    """while some read at their rates none is given up, and one that reads nothing is, after 60 seconds or 120"""
    stuck, other = Client(broker.port, receive_bytes=65_536).connect(), Client(broker.port, timeout=2 * LONGEST_WRITE + 20).connect()
    stuck.subscribe("h", "/queue/held", "client-individual")
    held = [frame.body for frame in stuck.publish("/queue/held", "held")]
    checks.same("one that reads nothing from now on holds a message of a queue", held, ["held"])
    stuck.subscribe("s", "/topic/steady")
    other.subscribe("h", "/queue/held", "client-individual")
    readers = [Reader(broker.port, rate) for rate in RATES]
    readers += [Reader(broker.port, rate, is_grown=True) for rate in GROWN_RATES]
    sender = Client(broker.port, timeout=30).connect()
    start = time.monotonic()
    for reader in readers:
        reader.start()
    sender.publish_all("/topic/steady", [BODY] * MESSAGES, window=8)
    sent = time.monotonic() - start
    sender.disconnect()
    checks.same("another gets that message", other.receive().body, "held")
    waited = time.monotonic() - start
    # At the end of its time what waits is offered to its socket once more. If that has room then, it has as long again.
    most = 2 * LONGEST_WRITE + SPARE
    checks.check(f"{LONGEST_WRITE} to {most} seconds after its socket was full", LONGEST_WRITE <= waited <= most + sent, waited)
    checks.tell(f"after {waited:.1f} s; {MESSAGES} messages were sent in {sent:.1f} s")
    other.disconnect()
    for reader in readers:
        reader.join(WATCHED + 10)
        buffer = " from a buffer that has grown" if reader.fast else ""
        checks.same(f"one that reads {reader.rate} bytes a second{buffer} is there after {WATCHED} seconds", reader.ended, None)
        least = min(reader.fast + 0.9 * reader.rate * WATCHED, MESSAGES * len(BODY))
        checks.check("and has read at its rate, or all that there was", reader.count >= least, reader.count)
        checks.tell(f"{reader.count} bytes read, {reader.pings} pings answered")


if __name__ == "__main__":
    scenario.keep_journals_in_memory()
    sys.exit(scenario.run(__doc__, [read_steadily]))
