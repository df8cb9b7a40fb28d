#!/usr/bin/env python3
"""Asks a running server for what is no WebSocket, or none that it gives, and reads the answers to their end: the status, the
fields that belong to it, and a text of the length that is named. What is expected stands in RFC 6455 (sections 4.2 and 4.4), RFC 9110
(sections 9.3.2, 15.5.6 and 15.5.22) and RFC 9112 (section 3.2). No answer is lost in a reset, however much of a request is unread.

    python3 tests/program/refusals.py [PROGRAM]
"""

import socket
import sys

from lib.scenario import BriefChecks, program_of, serving
from lib.stomp_client import VERSION_1_2, stomp_bytes

KEY = "Sec-WebSocket-Key: dGhlIHNhbXBsZSBub25jZQ=="
HOST, UPGRADE, CONNECTION, VERSION = "Host: localhost", "Upgrade: websocket", "Connection: Upgrade", "Sec-WebSocket-Version: 13"
WHOLE = (HOST, UPGRADE, CONNECTION, KEY, VERSION)
GET, HEAD = "GET / HTTP/1.1", "HEAD / HTTP/1.1"
# How often each is asked for: a reset takes an answer only if it comes in time.
TRIES = 5


def request(line, *fields):
    return "\r\n".join((line, *fields, "", "")).encode()


# What is asked, the bytes, and the status of the answer.
ASKED = (
    ("a WebSocket", request(GET, *WHOLE), 101),
    ("a WebSocket, in other letters", request(GET, HOST.upper(), "upgrade:WebSocket", "CONNECTION: keep-alive, upgrade", KEY, VERSION.lower()), 101),
    ("a plain GET", request(GET, HOST), 426),
    ("a plain GET of HTTP/1.0", request("GET / HTTP/1.0", HOST), 426),
    ("a WebSocket by HTTP/1.0", request("GET / HTTP/1.0", *WHOLE), 426),
    ("an upgrade to something else", request(GET, HOST, "Upgrade: h2c", CONNECTION, KEY, VERSION), 426),
    ("no word of an upgrade in Connection", request(GET, HOST, UPGRADE, "Connection: keep-alive", KEY, VERSION), 426),
    ("a POST", request("POST / HTTP/1.1", HOST, "Content-Length: 2") + b"hi", 405),
    ("a POST whose body is still to come", request("POST / HTTP/1.1", HOST, "Content-Length: 2"), 405),
    ("a POST that asks for a WebSocket", request("POST / HTTP/1.1", *WHOLE), 405),
    ("a POST with a body of a megabyte", request("POST / HTTP/1.1", HOST, "Content-Length: 1048576") + bytes(1_048_576), 405),
    ("a POST with a body of 16 megabytes", request("POST / HTTP/1.1", HOST, "Content-Length: 16777216") + bytes(16_777_216), 405),
    ("a HEAD", request(HEAD, HOST), 405),
    ("a HEAD of no Host", request(HEAD), 400),
    ("a HEAD with a field of 70,000 bytes", request(HEAD, HOST, "X-Long: " + 70_000 * "x"), 431),
    ("version 8", request(GET, HOST, UPGRADE, CONNECTION, KEY, "Sec-WebSocket-Version: 8"), 426),
    ("no version", request(GET, HOST, UPGRADE, CONNECTION, KEY), 426),
    ("no key", request(GET, HOST, UPGRADE, CONNECTION, VERSION), 400),
    ("a key of 15 bytes", request(GET, HOST, UPGRADE, CONNECTION, "Sec-WebSocket-Key: dGhlIHNhbXBsZSBub25j", VERSION), 400),
    ("a key that is no base64", request(GET, HOST, UPGRADE, CONNECTION, "Sec-WebSocket-Key: ????????????????????????", VERSION), 400),
    ("no Host", request(GET, *WHOLE[1:]), 400),
    ("two Hosts", request(GET, HOST, *WHOLE), 400),
    ("Transfer-Encoding", request(GET, *WHOLE, "Transfer-Encoding: chunked"), 400),
    ("other subprotocols alone", request(GET, *WHOLE, "Sec-WebSocket-Protocol: v11.stomp"), 400),
    ("bytes after its request", request(GET, *WHOLE) + b"more", 400),
    ("no request", b"\x16\x03\x01\x02\x00\x01\x00\x01\xfc\x03\x03" + bytes(40), 400),
    ("a space before a colon", request(GET, *WHOLE, "X-Odd : 1"), 400),
    ("125 fields", request(GET, *WHOLE, *(f"X-{number}: 1" for number in range(120))), 431),
    ("a field of 17,000 bytes", request(GET, *WHOLE, "X-Long: " + 17_000 * "x"), 431),
    ("a field of 70,000 bytes", request(GET, *WHOLE, "X-Long: " + 70_000 * "x"), 431),
    ("a field of a megabyte", request(GET, *WHOLE, "X-Long: " + 1_048_576 * "x"), 431),
    # Neither field may appear more than once (RFC 6455, sections 11.3.1 and 11.3.5), whatever the case of its letters (RFC 9110, section 5.1).
    ("its key twice", request(GET, *WHOLE, KEY), 400),
    ("two keys", request(GET, *WHOLE, "sec-websocket-key: AAAAAAAAAAAAAAAAAAAAAA=="), 400),
    ("its version twice", request(GET, *WHOLE, VERSION), 400),
    ("two versions", request(GET, *WHOLE, "SEC-WEBSOCKET-VERSION: 8"), 400),
    ("STOMP with no WebSocket", stomp_bytes("CONNECT", [VERSION_1_2, ("host", "a")]), 400),
    ("that with the other command", stomp_bytes("STOMP", [VERSION_1_2, ("host", "a")]), 400),
    ("a field of 16,000 bytes", request(GET, *WHOLE, "X-Long: " + 16_000 * "x"), 101),
)

# An Origin, and the statuses if all are served, and if these are alone.
SERVED = ("http://localhost:8000", "null")
ORIGINS = (
    ((), 101, 101),
    (("Origin: http://localhost:8000",), 101, 101),
    (("origin:null",), 101, 101),
    (("Origin: http://localhost",), 101, 403),
    (("Origin: https://localhost:8000",), 101, 403),
    (("Origin: http://localhost:8000/",), 101, 403),
    (("Origin: http://localhost:8000", "Origin: http://evil.example"), 101, 403),
    (("Origin:",), 101, 403),
)


def answer(port, asked):
    """The head of the answer, and what follows it up to the end; of a WebSocket the head alone."""
    with socket.create_connection(("127.0.0.1", port), timeout=5) as one:
        data = b""
        try:
            one.sendall(asked)
            while more := one.recv(4_096):
                data += more
                if data.startswith(b"HTTP/1.1 101") and data.endswith(b"\r\n\r\n"):
                    break
        except ConnectionError as error:
            return f"{error} after {len(data)} bytes", b""
        head, _, body = data.partition(b"\r\n\r\n")
        return head.decode(errors="replace"), body


def faults(head, body, status, has_content):
    """What is wrong with an answer that should have that status."""
    line, *fields = head.split("\r\n")
    if not line.startswith(f"HTTP/1.1 {status} "):
        return [f"answered {line!r}, not {status}"]
    named = {name.lower(): value.strip() for name, _, value in (field.partition(":") for field in fields)}
    tokens = [token.strip().lower() for token in named.get("connection", "").split(",")]
    wrong = []
    if status == 101:
        if named.get("sec-websocket-accept") != "s3pPLMBiTxaQ9kYGzzhZRbK+xOo=":
            wrong.append("another accept key than that of RFC 6455, section 1.3")
        if (named.get("upgrade", "").lower(), "upgrade" in tokens) != ("websocket", True):
            wrong.append("no Upgrade: websocket, or no Connection: Upgrade")
        return wrong
    if "close" not in tokens:
        wrong.append("no Connection: close")
    if bool(body) != has_content or (body and named.get("content-length") != str(len(body))):
        wrong.append(f"a text of {len(body)} bytes, and Content-Length: {named.get('content-length')}")
    if status == 405 and named.get("allow") != "GET":
        wrong.append("no Allow: GET")
    if status == 426 and (named.get("upgrade"), named.get("sec-websocket-version"), "upgrade" in tokens) != ("websocket", "13", True):
        wrong.append("no Upgrade: websocket, or no Sec-WebSocket-Version: 13")
    return wrong


def main():
    program = program_of(__doc__)
    checks = BriefChecks(program)

    def check(port, what, asked, status):
        head, body = answer(port, asked)
        checks.same(f"faults of the answer to one that asks for {what}", faults(head, body, status, not asked.startswith(b"HEAD ")), [])
        if asked.startswith((b"CONNECT\n", b"STOMP\n")):
            checks.check(f"{what}: the answer names what is spoken", b"STOMP over WebSocket" in body, body)

    with serving(program, 2_097_184) as server:
        port = server.port
        for what, asked, status in TRIES * ASKED:
            check(port, what, asked, status)
        for fields, status, _ in ORIGINS:
            check(port, f"a WebSocket with {fields}, where all are served", request(GET, *WHOLE, *fields), status)
        # None of them has kept a worker.
        for _ in range(40):
            check(port, "a plain GET, again", request(GET, HOST), 426)
    with serving(program, 2_097_184, more=("--origin", SERVED[0], f"--origin={SERVED[1]}")) as server:
        for fields, _, status in ORIGINS:
            check(server.port, f"a WebSocket with {fields}, where {SERVED} are served", request(GET, *WHOLE, *fields), status)
    return checks.status()


if __name__ == "__main__":
    sys.exit(main())
