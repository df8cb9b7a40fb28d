#!/usr/bin/env python3
"""Asks a running server for a WebSocket late and in parts: docs/PROTOCOL.md gives a client time between two parts of its
request, so each is to be accepted. Then clients that never open a session, each in its way, are to be let go once their
minute is over, and so is one that has opened its session and answers no ping, once its 80 seconds are; one that answers is to
be kept. That takes a minute and a half.

    python3 tests/program/handshakes.py [PROGRAM]
"""

import socket
import sys
import time

from lib.scenario import Checks, program_of, serving
from lib.stomp_client import PONG, TEXT, connect_message, handshake, message_bytes

REQUEST = handshake(0)
CONNECT = connect_message()
END_OF_LINE = message_bytes(TEXT, b"\n")
# One that nobody asked for, which says that the peer is there (RFC 6455, section 5.5.3).
UNASKED_PONG = message_bytes(PONG, b"")
TRIES = 20
# A minute to open a session; 80 seconds for one that has a session and answers no ping; and something for a busy machine.
LONGEST = 80 + 10


def is_accepted(port, pauses):
    """Whether a request is accepted that is sent in equal parts, with each of these pauses, in seconds, before one."""
    with socket.create_connection(("127.0.0.1", port), timeout=5) as one:
        one.setsockopt(socket.IPPROTO_TCP, socket.TCP_NODELAY, 1)
        size = -(-len(REQUEST) // len(pauses))
        try:
            for place, pause in enumerate(pauses):
                time.sleep(pause)
                one.sendall(REQUEST[place * size : (place + 1) * size])
            return one.recv(4_096).startswith(b"HTTP/1.1 101")
        except OSError:
            return False


def is_over(one):
    """Whether the server has ended that connection; what it sent before is read over."""
    one.setblocking(False)
    try:
        while data := one.recv(4_096):
            pass
        return data == b""
    except BlockingIOError:
        return False
    except OSError:
        return True


def let_go(port):
    """After how many seconds the server ended each connection, by how its client goes on; None if it did not."""
    dribble = REQUEST.replace(b"\r\nUpgrade", b"\r\nX-Long: " + b"x" * 20_000 + b"\r\nUpgrade")
    ways = {
        "says nothing": (b"", [b""]),
        "sends its request slowly": (b"", [dribble[place : place + 400] for place in range(0, 8_000, 400)]),
        "has its WebSocket and says no more": (REQUEST, [b""]),
        "sends line ends now and then": (REQUEST, [END_OF_LINE] * 50),
        "has its session, and answers no ping": (REQUEST, [CONNECT]),
        "has its session, and sends a pong now and then": (REQUEST, [CONNECT] + [UNASKED_PONG] * 50),
    }
    ends = dict.fromkeys(ways)
    open_ones = {way: socket.create_connection(("127.0.0.1", port)) for way in ways}
    start = time.monotonic()
    for way, one in open_ones.items():
        one.sendall(ways[way][0])
    for way, one in open_ones.items():
        # Anyone who asked for a WebSocket waits for the answer before it sends a frame (RFC 6455, section 4.1).
        if ways[way][0]:
            one.settimeout(5)
            one.recv(4_096)
    for second in range(0, LONGEST, 3):
        time.sleep(max(0, start + second - time.monotonic()))
        for way, one in list(open_ones.items()):
            if is_over(one):
                ends[way] = time.monotonic() - start
                open_ones.pop(way).close()
                continue
            more = ways[way][1]
            one.setblocking(True)
            try:
                one.sendall(more[second // 3] if second // 3 < len(more) else b"")
            except OSError:
                pass
    for one in open_ones.values():
        one.close()
    return ends


# Between how many seconds a client that goes on so is let go: after 20 seconds without the next part of its handshake, 60 without a session, and
# 80 without a word, with three more until this looks again.
ENDS = {
    "says nothing": (18, 30),
    "sends its request slowly": (57, 70),
    "has its WebSocket and says no more": (57, 70),
    "sends line ends now and then": (57, 70),
    "has its session, and answers no ping": (77, 91),
}


def is_in_time(way, end):
    """Whether a client that goes on so was let go when it had to be, or kept."""
    if way not in ENDS:
        return end is None
    least, most = ENDS[way]
    return end is not None and least <= end <= most


def main():
    program, checks = program_of(__doc__), Checks()
    with serving(program, 2_097_184) as server:
        for pauses in ((0,), (0.001,), (0.1,), (0, 0.05), (0.01, 0.01, 0.01, 0.01)):
            checks.same(f"with pauses of {pauses} s all are accepted", sum(is_accepted(server.port, pauses) for _ in range(TRIES)), TRIES)
        for way, end in let_go(server.port).items():
            told = "kept" if end is None else f"let go after {end:.0f} s"
            checks.check(f"a client that {way} is {told}", is_in_time(way, end))
    return checks.status()


if __name__ == "__main__":
    sys.exit(main())
