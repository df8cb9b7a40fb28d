#!/usr/bin/env python3
"""Stops a running server for 85 seconds, longer than a silent client is kept, and lets it go on: no client is given up for that, and what waited in the sockets
meanwhile is heard before anyone is. Another is stopped eight times for 9.5 seconds, with a second between, and no silent client is given up either, nor one
in the midst of its handshake.

    python3 tests/program/pauses.py [PROGRAM]
"""

import socket
import sys
import time

from lib import scenario
from lib.stomp_client import Client, Closed, WebSocket, connect_message, handshake

PAUSE = 85
IDLE = 70
PAUSES, SHORT_PAUSE = 8, 9.5
BODY = "x" * 60_000


def is_there(client):
    """Whether a client is served: what it sends is receipted."""
    try:
        client.publish("/topic/none", "x")
        return True
    except (Closed, OSError):
        return False


def hears(client, name):
    try:
        client.receipt(name)
        return True
    except (Closed, OSError):
        return False


def is_accepted(one, rest):
    """Whether a handshake of which the first half was sent before the pause is accepted once the rest is sent."""
    try:
        one.sendall(rest)
        return one.recv(4_096).startswith(b"HTTP/1.1 101")
    except OSError:
        return False


def pause(broker, checks):
    """clients that are idle, that wait for a receipt, that are greeting, and that read slowly"""
    port = broker.port
    idle = [Client(port, timeout=30).connect() for _ in range(IDLE)]
    sender = Client(port, timeout=30).connect()
    unopened = WebSocket(port, timeout=30)
    half = socket.create_connection(("127.0.0.1", port), timeout=30)
    request = handshake(port)
    half.sendall(request[:40])
    # What it doesn't read fills its socket, so that something waits for it.
    slow = Client(port, timeout=30, receive_bytes=65_536).connect()
    slow.subscribe("s", "/topic/slow")
    sender.publish_all("/topic/slow", [BODY] * 200, window=8)
    with broker.standing_still():
        time.sleep(PAUSE / 2)
        sender.send("SEND", [("destination", "/topic/none"), ("receipt", "waited")], "x")
        time.sleep(PAUSE / 2)
    checks.check("a SEND that waited in its socket is receipted", hears(sender, "waited"))
    bodies = 0
    try:
        while bodies < 200:
            bodies += slow.receive().command == "MESSAGE"
    except (Closed, OSError) as error:
        checks.tell(f"the slow one is gone: {error}")
    checks.same("one for which something waited gets all of it", bodies, 200)
    checks.check("a handshake is gone on with", is_accepted(half, request[40:]))
    time.sleep(2)
    checks.same("all idle clients are there", sum(is_there(client) for client in idle), IDLE)
    checks.check("and the sender", is_there(sender))
    unopened.write(connect_message(("host", "a")))
    try:
        opened = unopened.receive_message()[1].startswith(b"CONNECTED\n")
    except (Closed, OSError):
        opened = False
    checks.check("one that had its WebSocket opens its session", opened)


def several_pauses(broker, checks):
    """clients that are idle, and answer no ping meanwhile, and one that is greeting"""
    idle = [Client(broker.port, timeout=30).connect() for _ in range(IDLE)]
    half = socket.create_connection(("127.0.0.1", broker.port), timeout=30)
    request = handshake(broker.port)
    half.sendall(request[:40])
    for _ in range(PAUSES):
        with broker.standing_still():
            time.sleep(SHORT_PAUSE)
        time.sleep(1)
    checks.check("a handshake is gone on with", is_accepted(half, request[40:]))
    checks.same("all are there", sum(is_there(client) for client in idle), IDLE)


if __name__ == "__main__":
    sys.exit(scenario.run_side_by_side(__doc__, [pause, several_pauses]))
