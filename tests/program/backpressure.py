#!/usr/bin/env python3
"""A client that sends without reading: while its answers wait, the server reads no more of it, and takes all that it sent once it reads. Nobody else
waits meanwhile.

    python3 tests/program/backpressure.py [PROGRAM]
"""

import select
import socket
import statistics
import sys
import time

from lib import scenario
from lib.stomp_client import TEXT, Client, message_bytes, stomp_bytes

# The RECEIPT of a SEND has as many bytes as its SEND, nearly. An outbox has fewer places than these frames, and sockets less room.
NAME, FRAMES = 1_000, 40_000
# A socket that takes no byte for so long is full.
FULL = 1.5
# A receipt of somebody else comes in this time.
NEIGHBOUR = 1.0


def numbered(number):
    return f"{number:06}".ljust(NAME, "x")


def frame(number):
    return message_bytes(TEXT, stomp_bytes("SEND", [("destination", "/topic/none"), ("receipt", numbered(number))]))


def send_until_full(client):
    """Sends frames until the socket takes no more. Answers how many were begun, and what of the last one is unsent."""
    sock = client.socket
    for number in range(FRAMES):
        left = memoryview(frame(number))
        while left:
            if not select.select([], [sock], [], FULL)[1]:
                return number + 1, bytes(left)
            # Only what can be sent without a wait.
            sock.setblocking(False)
            try:
                left = left[sock.send(left) :]
            except BlockingIOError:
                continue
            finally:
                sock.settimeout(10)
    return FRAMES, b""


def sends_and_reads_nothing(broker, checks):
    """a client that sends and reads nothing is read no further, hears all once it reads, and keeps nobody waiting"""
    client, other = Client(broker.port, receive_bytes=65_536).connect(), Client(broker.port).connect()
    client.socket.setsockopt(socket.SOL_SOCKET, socket.SO_SNDBUF, 65_536)
    begun, left = send_until_full(client)
    checks.check("its socket is full before all are sent", begun < FRAMES, begun)
    checks.tell(f"{begun} frames were begun")
    waits = []
    for number in range(50):
        before = time.monotonic()
        other.publish("/topic/none", f"{number}")
        waits.append(time.monotonic() - before)
    checks.check(f"another's receipts come within {NEIGHBOUR} s", max(waits) <= NEIGHBOUR, (statistics.median(waits), max(waits)))
    heard = 0
    client.socket.settimeout(10)
    for number in range(begun):
        if number == begun // 2 and left:
            # The server has read on by now.
            client.write(left)
            left = b""
        if client.receive().headers.get("receipt-id") != numbered(number):
            break
        heard += 1
    checks.same("each frame has its receipt, in order", heard, begun)
    checks.check("and it is served on", client.publish("/topic/none", "on") == [])
    client.close()
    other.close()


if __name__ == "__main__":
    scenario.keep_journals_in_memory()
    sys.exit(scenario.run(__doc__, [sends_and_reads_nothing]))
