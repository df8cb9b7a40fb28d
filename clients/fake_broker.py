"""A broker that does only what a script has it do, for clients that have to cope with what a real one seldom does; and a relay to a real one that can
be cut."""

import base64
import contextlib
import hashlib
import re
import socket
import threading

from lib.stomp_client import BINARY, CLOSE, PING, PONG, TEXT, frame_of, message_bytes, stomp_bytes, take_frame

KEY_SUFFIX = b"258EAFA5-E914-47DA-95CA-C5AB0DC85B11"


class Link:
    """A connection of a client, with the request and the CONNECT that began it. `head` and `kind` are those of the frame that was taken last."""

    def __init__(self, connected, seconds):
        self.socket, self.buffer = connected, bytearray()
        self.socket.settimeout(seconds)

    def shake_hands(self):
        while b"\r\n\r\n" not in self.buffer:
            self.fill()
        self.request, self.buffer = self.buffer.split(b"\r\n\r\n", 1)
        key = re.search(rb"(?i)sec-websocket-key: *(\S+)", self.request)[1]
        accept = base64.b64encode(hashlib.sha1(key + KEY_SUFFIX).digest()).decode()
        lines = ["HTTP/1.1 101 Switching Protocols", "Upgrade: websocket", "Connection: Upgrade", f"Sec-WebSocket-Accept: {accept}"]
        self.socket.sendall(("\r\n".join([*lines, "Sec-WebSocket-Protocol: v12.stomp"]) + "\r\n\r\n").encode())
        return self

    def fill(self):
        more = self.socket.recv(65_536)
        if not more:
            raise ConnectionError("the client has left")
        self.buffer += more

    def take(self):
        """The next frame of STOMP, whose body stays bytes."""
        while True:
            while (frame := take_frame(self.buffer, is_masked=True)) is None:
                self.fill()
            _, kind, payload = frame
            if kind == CLOSE:
                raise ConnectionError("the client has closed")
            if kind == PING:
                self.socket.sendall(message_bytes(PONG, payload, is_masked=False))
            elif kind in (TEXT, BINARY):
                self.kind = kind
                self.head, body = payload.split(b"\n\n", 1)
                return frame_of(self.head + b"\n\n\0")._replace(body=body[:-1])

    def take_all(self, count):
        return [self.take() for _ in range(count)]

    def say(self, command, headers=(), body=""):
        self.socket.sendall(message_bytes(TEXT, stomp_bytes(command, headers, body), is_masked=False))

    def say_bytes(self, command, headers, body):
        """With a body that is no text, so the message is Binary."""
        payload = stomp_bytes(command, headers)[:-1] + body + b"\0"
        self.socket.sendall(message_bytes(BINARY, payload, is_masked=False))

    def open(self, session):
        self.connect = self.take()
        assert self.connect.command == "CONNECT", self.connect
        self.socket.sendall(message_bytes(TEXT, f"CONNECTED\nversion:1.2\nsession:{session}\nheart-beat:0,0\n\n\0".encode(), is_masked=False))
        return self

    def accept(self, frame):
        """Answers a frame with its receipt."""
        self.say("RECEIPT", [("receipt-id", frame.headers["receipt"])])

    def accept_next(self):
        """Takes a frame, answers it with its receipt, and tells it."""
        frame = self.take()
        self.accept(frame)
        return frame

    def refuse(self, message, frame=None):
        """Ends the session with an ERROR, which names the frame's receipt if one is given, and closes."""
        self.say("ERROR", [("message", message)] + ([("receipt-id", frame.headers["receipt"])] if frame else []))
        self.close(1002)

    def message(self, subscription, body, headers=(), number=1):
        added = [("subscription", subscription), ("message-id", f"{number}.0"), ("destination", "/topic/room")]
        self.say("MESSAGE", [*added, *headers], body)

    def close(self, code):
        self.socket.sendall(message_bytes(CLOSE, code.to_bytes(2, "big"), is_masked=False))
        self.socket.close()

    def drop(self):
        """The connection is gone without a close."""
        self.socket.close()


class FakeBroker:
    """Listens, and has the script take each connection."""

    def __init__(self, seconds=20):
        self.seconds, self.links, self.listener = seconds, [], socket.create_server(("127.0.0.1", 0))
        self.listener.settimeout(seconds)
        self.port = self.listener.getsockname()[1]

    def take_silent(self):
        """A connection whose handshake isn't answered."""
        self.links.append(Link(self.listener.accept()[0], self.seconds))
        return self.links[-1]

    def take(self, session="7"):
        """The next connection, with an open session."""
        return self.take_silent().shake_hands().open(session)

    def __enter__(self):
        return self

    def __exit__(self, *_):
        self.listener.close()
        for link in self.links:
            link.socket.close()


class Relay:
    """Passes bytes between clients and a broker, until it is cut: from then on each side sees a peer that is silent."""

    def __init__(self, port):
        self.target, self.listener, self.pairs = port, socket.create_server(("127.0.0.1", 0)), []
        self.port = self.listener.getsockname()[1]
        # How many bytes clients have sent.
        self.asked = 0
        threading.Thread(target=self.accept_all, daemon=True).start()

    def accept_all(self):
        while True:
            try:
                client = self.listener.accept()[0]
            except OSError:
                return
            pair = (client, socket.create_connection(("127.0.0.1", self.target)), threading.Event())
            self.pairs.append(pair)
            for source, sink, is_client in ((pair[0], pair[1], True), (pair[1], pair[0], False)):
                threading.Thread(target=self.carry, args=(source, sink, pair[2], is_client), daemon=True).start()

    def carry(self, source, sink, is_cut, is_client):
        try:
            while data := source.recv(65_536):
                if is_client:
                    self.asked += len(data)
                if not is_cut.is_set():
                    sink.sendall(data)
            if not is_cut.is_set():
                sink.shutdown(socket.SHUT_WR)
        except OSError:
            pass

    def cut(self):
        """Those that are connected now hear no more of each other, not even that the other has left."""
        for *_, is_cut in self.pairs:
            is_cut.set()

    def end(self):
        """The broker sees the end of those that were cut."""
        for client, server, is_cut in self.pairs:
            if is_cut.is_set():
                for it in (client, server):
                    # A close alone would wait for the thread that reads.
                    with contextlib.suppress(OSError):
                        it.shutdown(socket.SHUT_RDWR)
                    it.close()

    def __enter__(self):
        return self

    def __exit__(self, *_):
        self.listener.close()
        self.cut()
        self.end()
