#!/usr/bin/env python3
"""Breaks the protocol in each way that has a close code, and closes, with more bytes on the way that the server never looks at, and without reading meanwhile.
Each client hears the code, each of a hundred times, and then the stream's end and no reset (RFC 6455, section 7.1.1). Once they have left, the server has
nothing of them. Whoever has sent its close gets no message more, though its connection stays.

    python3 tests/program/closes.py [PROGRAM]
"""

import os
import struct
import sys
import time
from concurrent.futures import ThreadPoolExecutor

from lib import scenario
from lib.stomp_client import BINARY, CLOSE, TEXT, Client, message_bytes

TRIES = 100
# A close is waited for ten seconds. A connection that has ended, or a session whose client has sent its close, ends within so many.
SOON = 5
AT_ONCE = 10
# More than the sockets of a connection hold, so that most of it is on its way when the server says its close.
BEHIND = bytes(2 * 1_048_576)
RESERVED_BIT = 0x40

WAYS = {
    "sends a message of 2 MiB": (message_bytes(BINARY, BEHIND), 1009),
    "sends a frame with a reserved bit, and 2 MiB": (message_bytes(RESERVED_BIT | TEXT, b"Hello") + BEHIND, 1002),
    "sends a text that is no UTF-8, and 2 MiB": (message_bytes(TEXT, b"\xff") + BEHIND, 1007),
    "closes, and sends 2 MiB": (message_bytes(CLOSE, struct.pack(">H", 1000)) + BEHIND, 1000),
}


def read_to_the_end(client):
    """What the server sent until the stream's end, and how it ended."""
    read = bytearray()
    while True:
        try:
            piece = client.socket.recv(65_536)
        except OSError as error:
            return bytes(read), type(error).__name__
        if not piece:
            return bytes(read), "end"
        read += piece


def outcome(port, data):
    """The code of the close that a client hears which sends these bytes and then reads, and how its stream ends."""
    client = Client(port, timeout=20).connect()
    try:
        client.write(data)
    except OSError:
        pass
    # Anyone who reads late must hear it too.
    time.sleep(0.05)
    read, end = read_to_the_end(client)
    client.close()
    code = struct.unpack(">H", read[2:4])[0] if len(read) == 4 and read[0] == 0x80 | CLOSE else None
    return code, end


def descriptors(broker):
    return len(os.listdir(f"/proc/{broker.process.pid}/fd"))


def hear_their_codes(broker, checks):
    """each hears its code, and then the end"""
    before = descriptors(broker)
    with ThreadPoolExecutor(AT_ONCE) as pool:
        for way, (data, code) in WAYS.items():
            start = time.monotonic()
            outcomes = list(pool.map(lambda _: outcome(broker.port, data), range(TRIES)))
            heard = outcomes.count((code, "end"))
            others = sorted({str(one) for one in outcomes if one != (code, "end")})
            checks.check(f"one that {way} hears {code} and the end, {TRIES} of {TRIES} times", heard == TRIES, (heard, others))
            left, end = descriptors(broker), time.monotonic() + SOON
            while left > before and time.monotonic() < end:
                time.sleep(0.1)
                left = descriptors(broker)
            checks.same("its sockets are closed soon after it has left", left, before)
            checks.tell(f"in {time.monotonic() - start:.1f} s")


def get_no_more(broker, checks):
    """whoever has sent its close gets nothing more, though its connection stays: its message is another's"""
    closing, other = Client(broker.port).connect(), Client(broker.port, timeout=SOON).connect()
    closing.subscribe("0", "/queue/closing", ack="client")
    other.publish("/queue/closing", "whose")
    closing.receive()
    closing.send_message(CLOSE, struct.pack(">H", 1000))
    checks.same("it hears a close", closing.to_the_end(), ([], 1000))
    heard = other.subscribe("0", "/queue/closing", ack="client")
    checks.same("the other hears the message", [it.body for it in heard or [other.receive()]], ["whose"])
    for one in (closing, other):
        one.close()


if __name__ == "__main__":
    sys.exit(scenario.run(__doc__, [hear_their_codes, get_no_more]))
