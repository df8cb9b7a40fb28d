"""Clients that mean no good, in processes of their own: what they do, and when the server has let each of them go. under_attack.py and soak.py share
them."""

import contextlib
import dataclasses
import multiprocessing
import select
import socket
import struct
import subprocess
import time
import typing

from lib.stomp_client import CONTINUATION, PING, TEXT, Client, Stream, WebSocket, connect_message, handshake, message_bytes, stomp_message

# How each is connected: what it does not read fills a small buffer.
HOW = {"timeout": 60, "receive_bytes": 4_096}
# How many bytes a flood offers its socket at a time.
PIECE = 65_536
# How often an attacker's place is looked at, in seconds.
GLANCE = 0.5


def connected(port):
    """One that has a connection to the server."""
    return Stream(port, **HOW)


def opened(port):
    """One that has its WebSocket."""
    return WebSocket(port, **HOW)


def in_session(port, source=None):
    """One that has its session, from an address of this machine."""
    return Client(port, source=source, **HOW).connect()


def parted(port):
    """One whose WebSocket the server has closed with 1000, and that is waited for to close it too."""
    one = in_session(port)
    one.send("DISCONNECT", [("receipt", "bye")])
    assert one.to_the_end()[1] == 1000
    return one


def after(begin, data):
    """One that begins so, and has then said this."""

    def beginning(port):
        one = begin(port)
        one.write(data)
        return one

    return beginning


@dataclasses.dataclass(frozen=True)
class Kind:
    """What an attacker does, and after how many seconds docs/PROTOCOL.md says that its place is free; `None` if it may stay."""

    name: str
    begin: typing.Callable
    free_after: int | None
    # What it sends again and again, as fast as it can.
    flood: bytes = b""
    reads: bool = False
    # Whether the seconds count from its last byte that was taken, and not from what it did at first.
    from_last: bool = False


def whole_of(data):
    """A message of these bytes."""
    assert len(data) <= 131_072, len(data)
    return message_bytes(TEXT, data)


REQUEST = handshake(0)
CONNECT = connect_message()
NOWHERE, UNREAD_TOPIC = ("destination", "/topic/none"), ("destination", "/topic/unread")
SEND = stomp_message("SEND", [NOWHERE], "x" * 100)
BIG = stomp_message("SEND", [UNREAD_TOPIC], "x" * 60_000)
PAIR = stomp_message("SUBSCRIBE", [("id", "a"), ("destination", "/topic/pairs")]) + stomp_message("UNSUBSCRIBE", [("id", "a")])
RECEIPTED = stomp_message("SEND", [NOWHERE, ("receipt", "r" * 2_000)], "x")
FRAGMENTS = 500 * message_bytes(CONTINUATION, b"", is_last=False)
FIRST_FRAGMENT = message_bytes(TEXT, b"", is_last=False)
# Each fills a message, which has 131,072 bytes at most.
NAMED_TRANSACTIONS = 2_978 * b"BEGIN\ntransaction:a\n\n\0ABORT\ntransaction:a\n\n\0"
SHORTEST_SENDS = 4_681 * b"SEND\ndestination:/topic/a\n\n\0"
LINE_ENDS = 131_072 * b"\n"

STALLED = [
    Kind("connect and say no byte", connected, 20),
    Kind("send half a head", after(connected, REQUEST[: len(REQUEST) // 2]), 20),
    Kind("send a head without its end", after(connected, REQUEST[:-2]), 20),
    Kind("have their WebSocket, and send half a CONNECT", after(opened, CONNECT[:12]), 60),
    Kind("send half the header of a message", after(in_session, SEND[:1]), 80),
    Kind("send half the payload of a message", after(in_session, SEND[: len(SEND) // 2]), 80),
    Kind("send half a frame of STOMP", after(in_session, message_bytes(TEXT, b"SEND\ndestination:/topic/none\n\nha")), 80),
    Kind("answer no close", parted, 10),
    Kind("were refused, and stay", after(connected, b"POST / HTTP/1.1\r\nHost: a\r\n\r\n"), 10),
]
FLOODS = [
    Kind("send pings, and read the pongs", in_session, None, 500 * message_bytes(PING, b"x" * 125), reads=True),
    Kind("send pings, and read nothing", in_session, 60, 500 * message_bytes(PING, b"x" * 125), from_last=True),
    Kind("send empty fragments", after(in_session, FIRST_FRAGMENT), None, FRAGMENTS),
    Kind("send pairs of SUBSCRIBE and UNSUBSCRIBE", in_session, None, 100 * PAIR),
    Kind("send messages of 5,956 BEGINs and ABORTs", in_session, None, whole_of(NAMED_TRANSACTIONS)),
    Kind("send messages of 4,681 SENDs", in_session, None, whole_of(SHORTEST_SENDS)),
    Kind("send messages of 131,072 line ends", in_session, None, whole_of(LINE_ENDS)),
    Kind("send SENDs, and read no receipt", in_session, 60, 30 * RECEIPTED, from_last=True),
    Kind("answer a close with fragments", after(parted, FIRST_FRAGMENT), 10, FRAGMENTS),
]
# One that is a client like any other, but never waits.
BUSY = Kind("send SENDs, and read their receipts", in_session, None, 100 * stomp_message("SEND", [NOWHERE, ("receipt", "r" * 100)]), reads=True)
# These two together: some send as fast as they can what the others never read.
UNREAD = Kind("subscribe, and read none of bodies of 60,000 bytes", after(in_session, stomp_message("SUBSCRIBE", [("id", "a"), UNREAD_TOPIC])), 60, from_last=True)
BODIES = Kind("send bodies of 60,000 bytes", in_session, None, BIG)


def half_open(source):
    """One whose peer is gone without a word, once the address is: no packet reaches it, and none comes."""
    return Kind("are half open", lambda port: in_session(port, source), 80)


def address_of(name):
    """An address as /proc/net/tcp has it."""
    (number,) = struct.unpack("=I", socket.inet_aton(name[0]))
    return f"{number:08X}:{name[1]:04X}"


def held_places(port):
    """The peers for whose connections the server has a descriptor: a socket that its program has closed has no inode any more."""
    held = set()
    with open("/proc/net/tcp") as table:
        for line in table:
            fields = line.split()
            if fields[1].endswith(f":{port:04X}") and fields[3] != "0A" and fields[9] != "0":
                held.add(fields[2])
    return held


class Attacker:
    def __init__(self, kind, port):
        self.kind = kind
        self.socket = kind.begin(port).socket
        self.address = address_of(self.socket.getsockname())
        self.since, self.gone, self.rest = time.monotonic(), None, b""
        self.socket.setblocking(False)

    def push(self):
        """Offers its socket more of its flood. It answers whether the socket still is one."""
        self.rest = self.rest or self.kind.flood
        try:
            sent = self.socket.send(self.rest[:PIECE])
        except BlockingIOError:
            return True
        except OSError:
            return False
        self.rest = self.rest[sent:]
        if self.kind.from_last:
            self.since = time.monotonic()
        return True

    def drop_what_came(self):
        try:
            return self.socket.recv(PIECE) != b""
        except BlockingIOError:
            return True
        except OSError:
            return False

    def events(self):
        return (select.EPOLLOUT if self.kind.flood else 0) | (select.EPOLLIN if self.kind.reads else 0)


def go_on(attackers, poll, seconds):
    """Lets each send and read for so long, in turn; one whose socket is over is left alone."""
    end = time.monotonic() + seconds
    while (left := end - time.monotonic()) > 0:
        for number, event in poll.poll(left):
            one = attackers[number]
            is_over = event & (select.EPOLLERR | select.EPOLLHUP)
            if not is_over and event & select.EPOLLOUT:
                is_over = not one.push()
            if not is_over and event & select.EPOLLIN:
                is_over = not one.drop_what_came()
            if is_over:
                poll.unregister(number)


def attack(kinds, port, orders):
    """A process: it begins one attacker of each of these kinds, tells so, and lets them go on until the places of all are free, or it is told to end."""
    attackers, poll = {}, select.epoll()
    for kind in kinds:
        one = Attacker(kind, port)
        attackers[one.socket.fileno()] = one
        poll.register(one.socket, one.events())
    orders.send("begun")
    while not orders.poll() and any(one.gone is None for one in attackers.values()):
        go_on(attackers, poll, GLANCE)
        held, now = held_places(port), time.monotonic()
        for one in attackers.values():
            if one.gone is None and one.address not in held:
                one.gone = now
    orders.send([(one.since, one.gone) for one in attackers.values()])


class Attack:
    """Attackers at work, one of each of these kinds, in a process of their own."""

    def __init__(self, kinds, port):
        self.orders, there = multiprocessing.Pipe()
        self.process = multiprocessing.Process(target=attack, args=(kinds, port, there), daemon=True)
        self.process.start()
        there.close()

    def begun(self):
        """Waits until all of them are at work."""
        assert self.orders.recv() == "begun"
        return self

    def end(self, within=0.0):
        """Ends them once the places of all are free, or that time is over, and answers for each after how many seconds its place was free;
        `None` if it was not."""
        if not self.orders.poll(within):
            with contextlib.suppress(OSError):
                self.orders.send("end")
        told = self.orders.recv()
        self.process.join()
        return [gone and gone - since for since, gone in told]


def last_words(broker):
    """How the broker has ended, and what it has told; if it still runs, what it has told so far."""
    with contextlib.suppress(subprocess.TimeoutExpired):
        broker.process.wait(2)
    return broker.process.poll(), broker.text()


def is_calm(broker, threads, longest=10):
    """Whether within that time a new client is served within a second, by a broker of so many threads."""
    end = time.monotonic() + longest
    while time.monotonic() < end:
        start = time.monotonic()
        Client(broker.port, timeout=30).connect().disconnect()
        if time.monotonic() - start < 1 and broker.count_of_threads() == threads:
            return True
    return False
