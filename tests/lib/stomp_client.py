"""STOMP 1.2 over WebSocket (RFC 6455), of Python's own library alone: what stands on the wire, as both ends make and read it, and clients."""

import base64
import collections
import os
import select
import socket
import struct

Frame = collections.namedtuple("Frame", "command headers body")

CONTINUATION, TEXT, BINARY, CLOSE, PING, PONG = 0, 1, 2, 8, 9, 10

ESCAPES = {"\\": "\\\\", "\r": "\\r", "\n": "\\n", ":": "\\c"}
MEANINGS = {"\\": "\\", "r": "\r", "n": "\n", "c": ":"}


def escape(text):
    return "".join(ESCAPES.get(letter, letter) for letter in text)


def unescape(text):
    pieces = text.split("\\")
    meant, at = [pieces[0]], 1
    while at < len(pieces):
        if pieces[at]:
            meant.append(MEANINGS[pieces[at][0]] + pieces[at][1:])
            at += 1
        else:
            # Two backslashes, and the text after them.
            meant.append("\\" + pieces[at + 1])
            at += 2
    return "".join(meant)


def stomp_bytes(command, headers=(), body=""):
    """A frame of STOMP."""
    spell = str if command == "CONNECT" else escape
    lines = [command] + [f"{spell(name)}:{spell(value)}" for name, value in headers]
    return ("\n".join(lines) + "\n\n" + body + "\0").encode()


# What opens a session (STOMP 1.2, "CONNECT").
VERSION_1_2 = ("accept-version", "1.2")


def stomp_message(command, headers=(), body=""):
    """A frame of STOMP, as a client's message on the wire."""
    return message_bytes(TEXT, stomp_bytes(command, headers, body))


def connect_message(*headers):
    """A CONNECT, as a client's message on the wire."""
    return stomp_message("CONNECT", [VERSION_1_2, *headers])


def frame_of(payload):
    """The frame of STOMP that a message of the server holds."""
    head, body = payload.split(b"\n\n", 1)
    command, *lines = head.decode().split("\n")
    spell = str if command == "CONNECTED" else unescape
    pairs = [tuple(spell(part) for part in line.split(":", 1)) for line in lines]
    # Of a repeated header the first counts.
    return Frame(command, dict(reversed(pairs)), body[:-1].decode())


def masked(payload, mask):
    """The payload with the mask laid over it; the same call takes it off."""
    laid = (mask * (len(payload) // 4 + 1))[: len(payload)]
    return (int.from_bytes(payload, "big") ^ int.from_bytes(laid, "big")).to_bytes(len(payload), "big")


def message_bytes(opcode, payload, is_masked=True, is_last=True):
    """One frame of a WebSocket, as it stands on the wire."""
    size, mask_bit = len(payload), 0x80 if is_masked else 0
    first = opcode | (0x80 if is_last else 0)
    if size < 126:
        head = struct.pack(">BB", first, mask_bit | size)
    elif size < 65_536:
        head = struct.pack(">BBH", first, mask_bit | 126, size)
    else:
        head = struct.pack(">BBQ", first, mask_bit | 127, size)
    if not is_masked:
        return head + payload
    mask = os.urandom(4)
    return head + mask + masked(payload, mask)


def take_frame(buffer, is_masked=False):
    """Takes a frame of a WebSocket from the front of a buffer: whether it is the last of its message, its opcode and its payload. `None` while it
    is not whole. A client masks its frames, and a server masks none."""
    if len(buffer) < 2:
        return None
    assert (buffer[1] & 0x80 != 0) == is_masked, f"a frame that begins {bytes(buffer[:2])!r}"
    size = buffer[1] & 0x7F
    head = 2 + {126: 2, 127: 8}.get(size, 0)
    if len(buffer) < head:
        return None
    if head > 2:
        size = int.from_bytes(buffer[2:head], "big")
    start = head + 4 if is_masked else head
    if len(buffer) < start + size:
        return None
    first, mask, payload = buffer[0], bytes(buffer[head:start]), bytes(buffer[start : start + size])
    del buffer[: start + size]
    return first & 0x80 != 0, first & 0x0F, masked(payload, mask) if is_masked else payload


def handshake(port, path="/", offer=None, headers=(), host="127.0.0.1"):
    """The head of a request that asks for a WebSocket."""
    key = base64.b64encode(os.urandom(16)).decode()
    lines = [f"GET {path} HTTP/1.1", f"Host: {host}:{port}", "Upgrade: websocket", "Connection: Upgrade"]
    lines += [f"Sec-WebSocket-Key: {key}", "Sec-WebSocket-Version: 13"]
    if offer:
        lines.append(f"Sec-WebSocket-Protocol: {offer}")
    lines += [f"{name}: {value}" for name, value in headers]
    return ("\r\n".join(lines) + "\r\n\r\n").encode()


class Closed(Exception):
    """The server has closed the connection. The code is that of its close frame: 1005 if that has none, and 0 if the stream ended without one."""

    def __init__(self, code):
        super().__init__(f"closed with {code}")
        self.code = code


class Refused(Exception):
    """The server has not accepted the handshake."""

    def __init__(self, status):
        super().__init__(f"the handshake was answered with {status}")
        self.status = status


class Stream:
    """A TCP connection to 127.0.0.1, and what was read of it and not taken."""

    def __init__(self, port, timeout=10, receive_bytes=None, segment_bytes=None, source=None):
        """With a small buffer, small segments, or an address of this machine that it comes from, if these are given."""
        self.socket = socket.socket()
        if receive_bytes:
            self.socket.setsockopt(socket.SOL_SOCKET, socket.SO_RCVBUF, receive_bytes)
        if segment_bytes:
            self.socket.setsockopt(socket.IPPROTO_TCP, socket.TCP_MAXSEG, segment_bytes)
        if source:
            self.socket.bind((source, 0))
        self.socket.settimeout(timeout)
        self.socket.connect(("127.0.0.1", port))
        self.socket.setsockopt(socket.IPPROTO_TCP, socket.TCP_NODELAY, 1)
        self.buffer = bytearray()

    def write(self, data):
        self.socket.sendall(data)

    def fill(self):
        """Waits for more bytes, up to the socket's timeout."""
        try:
            more = self.socket.recv(65_536)
        except ConnectionResetError:
            more = b""
        if not more:
            raise Closed(0)
        self.buffer += more

    def take(self, count):
        while len(self.buffer) < count:
            self.fill()
        taken = bytes(self.buffer[:count])
        del self.buffer[:count]
        return taken

    def take_head(self):
        """The bytes up to the first empty line, with it."""
        while b"\r\n\r\n" not in self.buffer:
            self.fill()
        return self.take(self.buffer.index(b"\r\n\r\n") + 4)

    def hears_within(self, seconds):
        """Whether bytes come, or the end, within that time."""
        return bool(select.select([self.socket], [], [], seconds)[0])

    def close(self):
        self.socket.close()


class WebSocket(Stream):
    """A WebSocket whose handshake was accepted; if `waits` is false, `hear_answer` says whether it is."""

    def __init__(self, port, path="/", offer=None, waits=True, **options):
        super().__init__(port, **options)
        self.write(handshake(port, path, offer))
        if waits:
            self.hear_answer()

    def hear_answer(self):
        """Waits for the answer to the handshake."""
        self.head = self.take_head().decode()
        status = self.head.split(" ", 2)[1]
        if status != "101":
            self.close()
            raise Refused(status)

    def send_message(self, opcode, payload):
        self.write(message_bytes(opcode, payload))

    def take_frame(self):
        """The next frame of the WebSocket: whether it is the last of its message, its opcode and its payload."""
        # Nothing is taken before all of it is there, so that a wait that was too long loses nothing.
        while (frame := take_frame(self.buffer)) is None:
            self.fill()
        return frame

    def has_message(self):
        """Whether a message, or the end, has come so far. Pings before it are answered."""
        while True:
            if self.buffer and self.buffer[0] & 0x0F != PING:
                return True
            if self.buffer:
                self.send_message(PONG, self.take_frame()[2])
            elif not self.hears_within(0):
                return False
            else:
                try:
                    self.fill()
                except Closed:
                    return True

    def receive_message(self):
        """The next message: its opcode and its payload. A ping is answered."""
        opcode, payload = None, b""
        while True:
            is_last, kind, piece = self.take_frame()
            if kind == CLOSE:
                raise Closed(int.from_bytes(piece[:2], "big") if piece else 1005)
            if kind == PING:
                self.send_message(PONG, piece)
            elif kind == PONG:
                return kind, piece
            else:
                opcode, payload = kind or opcode, payload + piece
                if is_last:
                    return opcode, payload


class Client(WebSocket):
    """A client of a broker."""

    def __init__(self, port, **options):
        super().__init__(port, offer="v12.stomp", **options)
        self.session = None

    def connect(self, client_id=None):
        self.write(connect_message(*([("client-id", client_id)] if client_id else [])))
        return self.connected()

    def connected(self):
        """Waits until its session is open."""
        connected = self.receive()
        assert connected.command == "CONNECTED", connected
        self.session = connected.headers["session"]
        return self

    def send(self, command, headers=(), body=""):
        self.send_message(TEXT, stomp_bytes(command, headers, body))

    def subscribe(self, name, destination, ack="auto", headers=()):
        """Subscribes, and answers the frames that came up to the receipt."""
        self.send("SUBSCRIBE", [("id", name), ("destination", destination), ("ack", ack), ("receipt", "s " + name), *headers])
        return self.receipt("s " + name)

    def publish(self, destination, body, headers=()):
        """Sends a message, and answers the frames that came up to its receipt."""
        self.send("SEND", [("destination", destination), ("receipt", "p " + body[:40]), *headers], body)
        return self.receipt("p " + body[:40])

    def publish_all(self, destination, texts, window=64):
        """Sends many messages, so many at a time, and returns once each has its receipt."""
        for start in range(0, len(texts), window):
            batch = range(start, min(start + window, len(texts)))
            for number in batch:
                self.send("SEND", [("destination", destination), ("receipt", f"{number}")], texts[number])
            for number in batch:
                self.receipt(f"{number}")

    def receive(self):
        """The next frame of STOMP. Each message of the server holds one."""
        kind, payload = self.receive_message()
        while kind == PONG:
            kind, payload = self.receive_message()
        return frame_of(payload)

    def receipt(self, name):
        """Reads on to that receipt, and answers the frames before it."""
        before = []
        while True:
            frame = self.receive()
            if frame.command == "RECEIPT" and frame.headers["receipt-id"] == name:
                return before
            if frame.command == "ERROR":
                raise AssertionError(f"told {frame.headers.get('message')} before the receipt {name}")
            before.append(frame)

    def to_the_end(self):
        """The frames up to the server's close, and its code."""
        frames = []
        while True:
            try:
                frames.append(self.receive())
            except Closed as closed:
                return frames, closed.code

    def disconnect(self):
        """Leaves as a client should: the receipt of its DISCONNECT says that all before was heard."""
        self.send("DISCONNECT", [("receipt", "bye")])
        before = self.receipt("bye")
        _, code = self.to_the_end()
        self.close()
        return before, code
