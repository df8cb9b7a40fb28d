"""Clients of which there are a thousand and more in one thread: each subscribes to a topic, and never waits."""

import collections
import select
import socket
import time

from .stomp_client import BINARY, PING, PONG, TEXT, connect_message, frame_of, handshake, message_bytes, stomp_message, take_frame


class Member:
    """A client that is told when its socket can be read, and does what comes next then. Its stages are `request`, `session`, `subscription` and `ready`."""

    def __init__(self, port, topic):
        self.topic, self.buffer, self.stage, self.fault, self.is_over = topic, bytearray(), "request", None, False
        self.socket = socket.create_connection(("127.0.0.1", port))
        self.socket.setsockopt(socket.IPPROTO_TCP, socket.TCP_NODELAY, 1)
        self.socket.setblocking(False)
        self.write(handshake(port))

    def write(self, data):
        try:
            self.socket.sendall(data)
        except ConnectionError:
            self.is_over = True

    def read(self):
        """Reads what there is, and does what that asks for."""
        try:
            more = self.socket.recv(65_536)
        except BlockingIOError:
            return
        except ConnectionError:
            more = b""
        self.is_over = self.is_over or not more
        self.buffer += more
        # When what it reads came, in nanoseconds.
        self.now = time.monotonic_ns()
        if self.stage == "request" and b"\r\n\r\n" in self.buffer:
            self.hear_answer()
        while self.stage != "request" and (frame := take_frame(self.buffer)):
            _, opcode, payload = frame
            if opcode == PING:
                self.write(message_bytes(PONG, payload))
            elif opcode in (TEXT, BINARY):
                self.hear(payload)

    def hear_answer(self):
        """Hears what its handshake is answered with."""
        head, _, rest = bytes(self.buffer).partition(b"\r\n\r\n")
        if not head.startswith(b"HTTP/1.1 101"):
            self.fault, self.is_over = head, True
            return
        self.buffer[:] = rest
        self.stage = "session"
        self.write(connect_message())

    def hear(self, payload):
        """Hears what comes up to the receipt of its subscription."""
        if self.stage == "ready":
            self.hear_more(payload)
        elif self.stage == "session" and payload.startswith(b"CONNECTED\n"):
            self.stage = "subscription"
            self.write(stomp_message("SUBSCRIBE", [("id", "0"), ("destination", self.topic), ("receipt", "there")]))
        elif self.stage == "subscription" and payload.startswith(b"RECEIPT\n") and frame_of(payload).headers["receipt-id"] == "there":
            self.stage = "ready"
        elif self.stage == "subscription" and payload.startswith(b"MESSAGE\n"):
            # One that was sent before the receipt left.
            self.hear_more(payload)
        else:
            self.fault = payload

    def hear_more(self, payload):
        """Hears a frame of STOMP once it has subscribed."""
        raise NotImplementedError


class Crowd:
    """Members whose sockets are waited for at once."""

    def __init__(self):
        self.poll, self.members, self.lost = select.epoll(), {}, []

    def bring(self, members, at_once, longest):
        """Brings in so many at a time until each has its receipt, or is lost, or so many seconds are over. Answers how many are there."""
        coming, under_way, end = collections.deque(members), set(), time.monotonic() + longest
        while (coming or under_way) and time.monotonic() < end:
            while coming and len(under_way) < at_once:
                member = coming.popleft()()
                self.members[member.socket.fileno()] = member
                self.poll.register(member.socket, select.EPOLLIN)
                under_way.add(member)
            self.look(1)
            under_way = {it for it in under_way if it.stage != "ready" and not it.is_over}
        return sum(it.stage == "ready" for it in self.members.values())

    def look(self, seconds):
        """Lets those read for which something comes within that time. Answers whether it was so for any, and the other descriptors that have something."""
        events = self.poll.poll(seconds)
        for number, _ in events:
            member = self.members.get(number)
            if member:
                member.read()
                if member.is_over:
                    self.poll.unregister(number)
                    self.lost.append(member)
        return bool(events), [number for number, _ in events if number not in self.members]
