#!/usr/bin/env python3
"""Provokes each thing that a server counts and tells its operator, and looks whether it is told, with how often it came. docs/RUNNING.md has the lines.

    python3 tests/program/kinds.py [PROGRAM]

It takes one minute or two, in which it mostly waits, and needs Python 3, and `cc` for a disk that stands
still. Those that telling.py provokes are left out: clients without the subprotocol, those whose outbox is full, and those whose names have no room.
"""

import contextlib
import pathlib
import re
import resource
import shutil
import socket
import sys
import tempfile
import threading
import time

from lib import scenario
from lib.stomp_client import PING, PONG, Client, Closed, Refused, WebSocket, handshake

ORIGIN = "https://rooms.example"
LEAST_BUDGET, FEW = 16_777_216, 300
# A client that opens no session, and one that takes nothing, is given up after so many seconds; one that doesn't answer a close, after ten.
GIVEN_UP, UNANSWERED = 60, 10
# One that has sent half of its handshake may say nothing for so long.
HALF = 20
# A client that says nothing for so many seconds is sent a ping, up to so many.
QUIET, PINGS = 20, 3
# A silent client is given up after so many seconds. While a command of it waits for room, its silence doesn't count. It has more
# commands than may be under way, and its answers to pings would not be read.
SILENT, WAITING = 80, 40
# None is given up a second before that; and each was told within so many after it.
EARLY, LATE = 1, 6
# So many bytes of a subscriber's messages are more than sockets keep, and less than an outbox does.
UNREAD, EACH = 200, 60_000
# How many clients a full server has a place for, until it is known that they are no ping, and how many more it answers.
GUESTS = 16 + 4
# So many lines wait to be written at most.
UNTOLD = 64


def serving(program, journal_bytes=67_108_896, **options):
    return scenario.serving(program, journal_bytes, **options)


def status_of(port, request):
    with socket.create_connection(("127.0.0.1", port), timeout=5) as one:
        one.sendall(request)
        return one.recv(4096).split(b" ")[1].decode()


def asked(port, changes=(), headers=()):
    """A handshake in which lines are changed."""
    request = handshake(port, headers=headers).decode()
    for before, after in changes:
        assert before in request, request
        request = request.replace(before, after)
    return request.encode()


REQUESTS = (
    ("refused (\\d+) malformed requests \\(400\\)", "400", lambda port: b"\x00 no request\r\n\r\n"),
    ("refused (\\d+) pages of other origins \\(403\\)", "403", lambda port: asked(port, headers=[("Origin", "https://other.example")])),
    ("refused (\\d+) requests by another method than GET \\(405\\)", "405", lambda port: asked(port, [("GET ", "POST ")])),
    ("refused (\\d+) requests for no WebSocket \\(426\\)", "426", lambda port: b"GET / HTTP/1.1\r\nHost: a\r\n\r\n"),
    ("refused (\\d+) requests for another version of WebSocket \\(426\\)", "426", lambda port: asked(port, [("Version: 13", "Version: 8")])),
    ("refused (\\d+) requests with too large a head \\(431\\)", "431", lambda port: asked(port, headers=[("X-Long", "x" * 17_000)])),
)


def refused_requests(program, checks):
    """handshakes that are refused, each by its status"""
    with serving(program, more=["--origin", ORIGIN]) as server:
        for number, (form, status, request) in enumerate(REQUESTS, 1):
            seen = [status_of(server.port, request(server.port)) for _ in range(number)]
            checks.same(f"{form}: it is answered so", seen, [status] * number)
        for number, (form, _, _) in enumerate(REQUESTS, 1):
            checks.same(f"{form}: told, and how many", server.await_count(form, number, 3), number)


def full(program, checks):
    """a server that is full"""
    with serving(program, limits={"NOFILE": FEW}) as server:
        server.await_count(r"(\d+) clients allowed", 1, 3)
        allowed = server.count(r"(\d+) clients allowed")
        # As many leave in the midst of their handshakes, and keep nobody out.
        for one in [socket.create_connection(("127.0.0.1", server.port), timeout=5) for _ in range(allowed)]:
            one.sendall(handshake(server.port)[:40])
            one.close()
        time.sleep(2)
        clients = [Client(server.port).connect() for _ in range(allowed)]
        for _ in range(3):
            with contextlib.suppress(Refused):
                WebSocket(server.port)
                checks.check("one more is refused", False)
        form = r"refused (\d+) clients over the most that are taken \(503\)"
        checks.same("three over the most", server.await_count(form, 3, 3), 3)
        # So many may say nothing for two seconds. Whoever comes then is closed unanswered, and counted too.
        silent = [socket.create_connection(("127.0.0.1", server.port), timeout=5) for _ in range(GUESTS)]
        time.sleep(0.2)
        for _ in range(5):
            with socket.create_connection(("127.0.0.1", server.port), timeout=1) as one:
                checks.same("one more than may be silent is closed at once", one.recv(1), b"")
        checks.same("and counted", server.await_count(form, 3 + 5, 3), 3 + 5)
        for one in silent:
            one.close()
        for one in clients:
            one.close()


def no_descriptors(program, checks):
    """a server to which the system gives no descriptor any more"""
    with serving(program) as server:
        here = Client(server.port).connect()
        used = server.count_of_descriptors()
        soft, hard = resource.getrlimit(resource.RLIMIT_NOFILE)
        try:
            resource.prlimit(server.process.pid, resource.RLIMIT_NOFILE, (used, hard))
        except PermissionError:
            checks.tell("no descriptors: not tried, since this system lets nobody change the limits of another process")
            return
        waiting = socket.create_connection(("127.0.0.1", server.port), timeout=5)
        form = r"failed to accept (\d+) clients: out of descriptors or memory"
        checks.check("that is told", server.await_count(form, 1, 3) >= 1, server.text())
        time.sleep(1)
        # It rests for 20 ms after each.
        checks.check("and it is not tried more than fifty times a second", server.count(form) <= 150, server.count(form))
        here.publish("/topic/none", "who was there is served")
        resource.prlimit(server.process.pid, resource.RLIMIT_NOFILE, (soft, hard))
        waiting.sendall(handshake(server.port))
        checks.check("who waited is served once there are some", waiting.recv(64).startswith(b"HTTP/1.1 101"))
        waiting.close()


def most_memory(program, checks):
    """a client that holds most of all, and more than all may"""
    with serving(program, more=["--memory", str(LEAST_BUDGET)]) as server:
        sender, readers = Client(server.port).connect(), [Client(server.port, receive_bytes=4_096).connect() for _ in range(2)]
        for one in readers:
            one.subscribe("r", "/topic/large")
        for _ in range(LEAST_BUDGET // EACH):
            sender.publish("/topic/large", "x" * EACH)
        checks.check("one or both are given up", 1 <= server.await_count(r"gave up (\d+) clients that took the most memory", 1, 3) <= 2, server.text())
        checks.check("the sender is not", sender.publish("/topic/none", "served") == [])


class Slow:
    """Clients of one server that are given up after a time, and when that began for each kind: the first and the last of them."""

    def __init__(self, port):
        self.first, self.last = [], []
        # The one that is due first comes last: to fill a socket takes a busy machine its time.
        for kind in (self.takes_nothing, self.opens_nothing, self.answers_nothing):
            self.first.insert(0, time.monotonic())
            kind(port)
            self.last.insert(0, time.monotonic())

    def answers_nothing(self, port):
        self.silent = Client(port).connect()
        self.silent.send("DISCONNECT", [("receipt", "end")])
        self.silent.receipt("end")

    def opens_nothing(self, port):
        self.unopened = [WebSocket(port) for _ in range(2)]
        # One that was refused and stays is let go, and isn't one of these.
        self.refused = socket.create_connection(("127.0.0.1", port), timeout=5)
        self.refused.sendall(b"GET / HTTP/1.1\r\nHost: a\r\n\r\n")

    def takes_nothing(self, port):
        self.readers = [Client(port, receive_bytes=4_096).connect() for _ in range(3)]
        for one in self.readers:
            one.subscribe("r", "/topic/unread")
        sender = Client(port, timeout=20).connect()
        for _ in range(UNREAD):
            sender.publish("/topic/unread", "x" * EACH)
        sender.disconnect()


# In the order in which they become due: how many, the least seconds, and the most. A socket that takes nothing is offered more at the end of its time,
# and has as long again if the system finds room for some of it.
SLOW = (
    ("gave up (\\d+) clients that answered no ping or close", 1, UNANSWERED, UNANSWERED),
    ("gave up (\\d+) clients that opened no session in time", 2, GIVEN_UP, GIVEN_UP),
    ("gave up (\\d+) clients that took nothing for 60 s", 3, GIVEN_UP, 2 * GIVEN_UP),
)


class Quiet(threading.Thread):
    """A client that only answers pings: after how many seconds of silence each of them came, and whether it was disconnected."""

    def __init__(self, port):
        super().__init__(daemon=True)
        self.client, self.pings, self.has_ended = Client(port, timeout=4 * GIVEN_UP).connect(), [], False
        self.start()

    def run(self):
        last = time.monotonic()
        try:
            while True:
                _, kind, payload = self.client.take_frame()
                if kind == PING:
                    self.pings.append(time.monotonic() - last)
                    self.client.send_message(PONG, payload)
                    last = time.monotonic()
        except (Closed, OSError):
            self.has_ended = True


def given_up(program, checks):
    """clients that don't answer a close, open no session, or take nothing: none before its time, and each soon after; and one that only answers pings"""
    with serving(program) as server:
        quiet, slow = Quiet(server.port), Slow(server.port)
        for moment, form in sorted((first + least - EARLY, form) for (form, _, least, _), first in zip(SLOW, slow.first)):
            time.sleep(max(0, moment - time.monotonic()))
            checks.same(f"{form}: none before its time", server.count(form), 0)
        for (form, count, _, most), last in zip(SLOW, slow.last):
            checks.same(f"{form}: told, and how many", server.await_count(form, count, max(0, last + most + LATE - time.monotonic())), count)
        checks.same("and nobody else is given up", server.count(r"gave up (\d+)"), sum(count for _, count, _, _ in SLOW))
        checks.check("one that only answers pings is there", not quiet.has_ended)
        checks.check("and has one after each 20 s", len(quiet.pings) >= 2 and all(QUIET - EARLY <= it <= QUIET + LATE for it in quiet.pings), quiet.pings)


def half_asked(program, checks):
    """a client that sends half of its handshake"""
    form = r"gave up (\d+) clients that opened no session in time"
    with serving(program) as server, socket.create_connection(("127.0.0.1", server.port), timeout=5) as half:
        half.sendall(handshake(server.port)[:40])
        time.sleep(HALF - EARLY)
        checks.same("half a handshake is waited for", server.count(form), 0)
        checks.same("and then told", server.await_count(form, 1, EARLY + LATE), 1)


def pinged(program, checks):
    """a client that says nothing: it is sent three pings, and then is given up"""
    form = r"gave up (\d+) clients that answered no ping or close"
    with serving(program) as server:
        silent = Client(server.port).connect()
        for number in range(1, PINGS + 1):
            checks.check(f"ping {number} is not sent before its time", not silent.hears_within(QUIET - EARLY))
            checks.check(f"and then is sent: {number}", silent.hears_within(EARLY + LATE) and silent.take_frame()[1] == PING)
        time.sleep(QUIET - EARLY)
        checks.same("its answers are waited for", server.count(form), 0)
        checks.same("and then it is given up", server.await_count(form, 1, EARLY + LATE), 1)


def waits_for_room(program, checks):
    """a client whose commands wait for a disk that stands still"""
    if shutil.which("cc") is None:
        checks.tell(f"{waits_for_room.__doc__}: not tried, since there is no cc")
        return
    with tempfile.TemporaryDirectory(prefix="kinds-") as folder:
        held = pathlib.Path(folder) / "held"
        with serving(program, env=scenario.slow_syncs(folder, SYNCS_HELD=held)) as server:
            client = Client(server.port, timeout=20).connect()
            held.touch()
            for number in range(WAITING):
                client.send("SEND", [("destination", "/topic/none"), ("receipt", f"{number}")], "x")
            time.sleep(SILENT + LATE)
            checks.same("who waits for room is not given up for its silence", server.count(r"gave up (\d+)"), 0)
            held.unlink()
            for number in range(WAITING):
                client.receipt(f"{number}")
            checks.check("and has all receipts in the end", client.publish("/topic/none", "x") == [])


def left_out(program, checks):
    """lines that nobody reads: those over 64 are counted, and what was left out is told once somebody reads again"""
    # A small journal is compacted often, and each time has a line.
    with serving(program, 1_048_608, is_read=False) as server:
        server.fill_log()
        sender = Client(server.port, timeout=20).connect()
        # Some eight fill an area.
        for start in range(8 * 2 * UNTOLD):
            sender.publish("/topic/none", "x" * EACH)
        server.read()
        left = server.await_count(r"left out (\d+) lines that nobody read in time", 1, 5)
        lines = len(re.findall(r"^stompd: ", server.text(), re.M))
        checks.check("some were left out", left > 0, server.text()[-500:])
        checks.check(f"and {UNTOLD} at least are told", lines >= UNTOLD, lines)
        checks.check("the server serves on", sender.publish("/topic/none", "x") == [])


# The areas of a small journal, and the bodies that a queue keeps in it.
SMALL_AREA, SMALL = 65_536, 1_000


def small_journal(program, checks):
    """a compaction that leaves less than a quarter of an area, and no other"""
    form = r"journal nearly full: (\d+) of 65536 bytes are used after a compaction \(J4 is near\)"
    began = time.monotonic()
    with serving(program, 32 + 2 * SMALL_AREA) as server:
        sender = Client(server.port, timeout=20).connect()

        def keep(count):
            """Keeps so many messages, and has the journal compacted then."""
            sender.publish_all("/queue/kept", count * ["x" * SMALL])
            for _ in range(2 * SMALL_AREA // SMALL):
                sender.publish("/topic/none", "x" * SMALL)

        keep(SMALL_AREA // 2 // SMALL)
        time.sleep(0.5)
        checks.same("half an area that is kept is not reported", re.findall(form, server.text()), [])
        keep(SMALL_AREA // 4 // SMALL + 4)
        server.await_count(form, 1, 5)
        found = [int(it) for it in re.findall(form, server.text())]
        checks.check("over three quarters are, after the compaction", found and all(SMALL_AREA * 3 // 4 <= it <= SMALL_AREA for it in found), server.text())
        checks.check("and the server goes on", sender.publish("/topic/none", "x") == [])
        checks.check("each compaction tells that once", len(found) <= len(re.findall(r" compacted(?: slowly)?: ", server.text())), server.text())
        took = [int(it) for it in re.findall(r" compacted(?: slowly)?: \d+ bytes won in (\d+) ms", server.text())]
        checks.check("each compaction has a line, and all together took no longer than this", took and sum(took) <= 1_000 * (time.monotonic() - began), took)


if __name__ == "__main__":
    scenario.take_descriptors()
    SHORT = (refused_requests, full, no_descriptors, most_memory, left_out, small_journal)
    sys.exit(scenario.try_parts(__doc__, SHORT, (given_up, half_asked, pinged, waits_for_room)))
