#!/usr/bin/env python3
"""Clients that send rubbish, halves and nothing: each is told what the protocol says, and nobody else notices.

    python3 tests/program/rubbish.py [PROGRAM]
"""

import socket
import struct
import sys
import time

from lib import scenario
from lib.stomp_client import BINARY, CLOSE, PING, PONG, TEXT, Client, Closed, Refused, Stream, WebSocket, message_bytes

DESTINATION = "destination:/queue/rubbish\n"
SUBSCRIBE = "SUBSCRIBE\nid:a\n" + DESTINATION

# What a session that isn't open is told of a text, and then one that is.
OF_A_NEW_SESSION = {
    "HELLO\n\n\0": "E4 unknown command",
    "connect\naccept-version:1.2\n\n\0": "E4 unknown command",
    "\0": "E1 malformed frame",
    "SEND\n" + DESTINATION + "\nx\0": "E7 frame not expected here",
    "CONNECT\naccept-version:1.0,1.1\n\n\0": "E6 only version 1.2 is spoken",
    "CONNECT\n\n\0": "E6 only version 1.2 is spoken",
    "CONNECT\naccept-version:1.2\n\nbody\0": "E19 body not allowed",
}
OF_AN_OPEN_SESSION = {
    "SEND\nno colon\n\n\0": "E1 malformed frame",
    "SEND\n" + DESTINATION + "content-length:1\n\nxy\0": "E1 malformed frame",
    "SEND\n" + DESTINATION + "x:" + "y" * 8_192 + "\n\n\0": "E2 frame too large",
    "SEND\n" + DESTINATION + "a:b\n" * 64 + "\n\0": "E2 frame too large",
    "SEND\n" + DESTINATION + "content-length:65537\n\n": "E2 frame too large",
    "SEND\n" + DESTINATION + "\n" + "x" * 65_537: "E2 frame too large",
    "SEND\n" + DESTINATION + "x:a\\tb\n\n\0": "E3 undefined escape",
    "MESSAGE\n" + DESTINATION + "\n\0": "E4 unknown command",
    "SEND\n\nx\0": "E5 missing header",
    "CONNECT\naccept-version:1.2\n\n\0": "E7 frame not expected here",
    "SEND\ndestination:/elsewhere\n\nx\0": "E8 bad destination",
    "SEND\ndestination:/queue/" + "q" * 201 + "\n\nx\0": "E8 bad destination",
    2 * (SUBSCRIBE + "\n\0"): "E9 subscription id in use",
    "UNSUBSCRIBE\nid:a\n\n\0": "E10 unknown subscription id",
    "ACK\nid:1\n\n\0": "E11 unknown acknowledgement id",
    SUBSCRIBE.replace("queue", "topic") + "activemq.subscriptionName:n\n\n\0": "E13 durable subscription without client-id",
    2 * "BEGIN\ntransaction:t\n\n\0": "E15 transaction already begun",
    "COMMIT\ntransaction:t\n\n\0": "E16 transaction not begun",
    "".join(f"BEGIN\ntransaction:{name}\n\n\0" for name in range(5)): "E18 too many subscriptions or transactions",
    "".join(SUBSCRIBE.replace("id:a", f"id:{name}") + "\n\0" for name in range(17)): "E18 too many subscriptions or transactions",
    SUBSCRIBE + "\nbody\0": "E19 body not allowed",
    SUBSCRIBE + "ack:sometimes\n\n\0": "E20 bad header value",
    "ACK\nid:01\n\n\0": "E20 bad header value",
    "BEGIN\ntransaction:t\n\n\0" + 65 * ("SEND\n" + DESTINATION + "transaction:t\n\n\0"): "E17 transaction too large",
}


def still_served(broker, checks, what):
    """A client that comes now has a receipt."""
    client = Client(broker.port).connect()
    start = time.perf_counter()
    client.publish("/topic/none", "x")
    checks.check(f"after {what} others are served", time.perf_counter() - start < 1)
    client.disconnect()


def code_of(stream):
    """The code with which the server closes, whatever comes before; 0 if its stream ends without one."""
    try:
        while True:
            is_last, opcode, payload = WebSocket.take_frame(stream)
            if opcode == CLOSE:
                return int.from_bytes(payload[:2], "big")
    except Closed as closed:
        return closed.code


def subprotocols(broker, checks):
    """what is offered, and what is answered"""
    for offer, answer in ((None, None), ("v12.stomp", "v12.stomp"), ("v10.stomp , v12.stomp,v11.stomp", "v12.stomp")):
        head = WebSocket(broker.port, path="/any/path?at=all", offer=offer).head.lower()
        lines = [line.split(": ", 1)[1] for line in head.split("\r\n") if line.startswith("sec-websocket-protocol")]
        checks.same(f"offered {offer}", lines, [answer] if answer else [])
    for offer in ("v11.stomp", "V12.STOMP", "mqtt"):
        try:
            WebSocket(broker.port, offer=offer)
            status = "101"
        except Refused as refused:
            status = refused.status
        checks.same(f"offered {offer} alone: the status", status, "400")
    still_served(broker, checks, "a refused handshake")


def faults_of_a_session(broker, checks):
    """frames that are no STOMP, or not allowed: ERROR with its text, and 1002"""
    for text, expected in [*OF_A_NEW_SESSION.items(), *OF_AN_OPEN_SESSION.items()]:
        client = Client(broker.port)
        if text in OF_AN_OPEN_SESSION:
            client.connect()
        client.send_message(TEXT, text.encode())
        frames, code = client.to_the_end()
        told = [(frame.command, frame.headers.get("message")) for frame in frames]
        checks.same(f"{text[:24]!r}..: {expected}, 1002", (told, code), ([("ERROR", expected)], 1002))
        client.close()
    client = Client(broker.port).connect()
    client.send_message(BINARY, b"SEND\n" + DESTINATION.encode() + b"x:\xff\n\nx\0")
    frames, code = client.to_the_end()
    checks.same("a header that is no UTF-8: E20, 1002", (frames[0].headers["message"], code), ("E20 bad header value", 1002))
    still_served(broker, checks, "these")


def half_a_frame(broker, checks):
    """half a frame and then the end sends nothing; one that comes in pieces is sent"""
    frame = "SEND\n" + DESTINATION + "\nhalf and half\0"
    gone = Client(broker.port).connect()
    gone.send_message(TEXT, frame[:40].encode())
    gone.close()
    reset = Client(broker.port).connect()
    reset.write(message_bytes(TEXT, frame.encode())[:50])
    reset.socket.setsockopt(socket.SOL_SOCKET, socket.SO_LINGER, struct.pack("ii", 1, 0))
    reset.close()
    silent = Client(broker.port).connect()
    silent.send_message(TEXT, frame[:40].encode())
    stuck = Client(broker.port).connect()
    stuck.write(message_bytes(TEXT, frame.encode())[:20])
    still_served(broker, checks, "halves of frames")
    checks.check("one that is silent within a frame hears nothing for 2 seconds", not silent.hears_within(2))
    silent.send_message(TEXT, frame[40:].encode())
    for byte in frame.encode():
        silent.send_message(BINARY, bytes([byte]))
    for place, byte in enumerate(frame.encode()):
        opcode = TEXT if place == 0 else 0
        silent.write(message_bytes(opcode, bytes([byte]), is_last=place + 1 == len(frame)))
    found = [frame.body for frame in silent.subscribe("a", "/queue/rubbish")]
    checks.same("it goes on: the frame came in halves, a byte a message and a byte a fragment", found, ["half and half"] * 3)
    silent.disconnect()
    stuck.close()


def broken_messages(broker, checks):
    """frames of a WebSocket that break the protocol: 1002; a Text that is no UTF-8: 1007; one over 131,072 bytes: 1009"""
    text = b"SEND\n" + DESTINATION.encode() + b"\nx\0"
    masked = message_bytes(TEXT, text)
    over = struct.pack(">BBQ", 0x81, 0xFF, 131_073) + b"mask"
    cases = [
        ("a frame that isn't masked", message_bytes(TEXT, text, is_masked=False), 1002),
        ("a reserved bit", bytes([masked[0] | 0x40]) + masked[1:], 1002),
        ("an unknown opcode", bytes([0x83]) + masked[1:], 1002),
        ("a continuation of nothing", bytes([0x80]) + masked[1:], 1002),
        ("a ping of 126 bytes", message_bytes(PING, b"x" * 126), 1002),
        ("a ping in fragments", message_bytes(PING, b"x", is_last=False), 1002),
        ("a Text that is no UTF-8", message_bytes(TEXT, b"SEND\n\xff"), 1007),
        ("131,073 bytes announced", over, 1009),
        ("2^62 bytes announced", over[:2] + struct.pack(">Q", 2**62) + b"mask", 1009),
        ("two fragments of 70,000 bytes", message_bytes(TEXT, b"\n" * 70_000, is_last=False) + message_bytes(0, b"\n" * 70_000), 1009),
    ]
    for name, data, code in cases:
        client = Client(broker.port).connect()
        client.write(data)
        checks.same(f"{name}: {code}", code_of(client), code)
        client.close()
    client = Client(broker.port).connect()
    client.send_message(TEXT, b"\n" * 131_072)
    client.publish("/topic/none", "x")
    checks.check("131,072 bytes are accepted", True)
    client.disconnect()
    still_served(broker, checks, "these")


def pings_and_closes(broker, checks):
    """a ping is answered, and so is a close"""
    client = Client(broker.port).connect()
    client.send_message(PING, b"are you there")
    checks.same("a ping has its pong", client.receive_message(), (PONG, b"are you there"))
    client.send_message(CLOSE, struct.pack(">H", 1000))
    checks.same("a close has its close", code_of(client), 1000)
    client.close()
    for _ in range(100):
        Stream(broker.port).close()
    still_served(broker, checks, "100 connections that said nothing and went away")


SCENARIOS = [
    subprotocols,
    faults_of_a_session,
    half_a_frame,
    broken_messages,
    pings_and_closes,
]

if __name__ == "__main__":
    scenario.keep_journals_in_memory()
    sys.exit(scenario.run(__doc__, SCENARIOS))
