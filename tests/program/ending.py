#!/usr/bin/env python3
"""Ends servers in good order, by the end of their standard input, while clients are at work. Needs Python 3, and `cc` for a slow disk.

    python3 tests/program/ending.py [PROGRAM] [--few]

A server that is asked to end at once tells so too, and one that ends by a fault ends though nobody reads what it tells. Each client hears 1001, also one that has no session yet and one to which much is still to be
written; the server ends with status 0 within five seconds; and what was receipted is there when it is started again. Clients that answer no close and
take nothing do not keep it. What waits for a slow disk is stored before the end;
with --few this is not tried if there is no `cc`.
"""

import contextlib
import pathlib
import shutil
import socket
import subprocess
import sys
import tempfile
import threading
import time

from lib import scenario
from lib.commands import shown
from lib.stomp_client import Client, Closed, connect_message, handshake

JOURNAL_BYTES = 67_108_896
# In seconds: a server has so long to end.
LONGEST = 5.0
# One that has nobody to wait for ends in this time, in the quickest of a few tries.
AT_ONCE, TRIES = 0.3, 4
# Whoever comes while it ends is let go in this time.
LET_GO = 1.0
QUIET, SENDERS, DEAF = 200, 16, 8
MOST = 250
# How many servers are asked to end at once.
STARTS = 60
# Each sync takes so many microseconds, meanwhile so many clients send so many messages each, of which 16 each are under way.
SLOW_SYNC, SLOWED, BURST, UNDER_WAY = 80_000, 64, 24, 16


class Sender:
    """Sends to a queue, with eight receipts under way, until it hears a close."""

    def __init__(self, port, number):
        self.client, self.number = Client(port).connect(), number
        self.receipted, self.code, self.fault = [], None, None
        self.thread = threading.Thread(target=self.run)
        self.thread.start()

    def run(self):
        try:
            self.send_all()
        except Closed as closed:
            self.code = closed.code
        except Exception as error:
            self.fault = error

    def send_all(self):
        sent = heard = 0
        while True:
            # All of them together stay under what may be held.
            while sent - heard < 8 and sent < MOST:
                body = f"{self.number} {sent}"
                try:
                    self.client.send("SEND", [("destination", f"/queue/q{self.number}"), ("receipt", body)], body)
                except ConnectionError:
                    # What was written to it before is still to be read, and last its close.
                    heard = -(10**9)
                sent += 1
            frame = self.client.receive()
            self.receipted.append(frame.headers["receipt-id"])
            heard += 1


def begun(program, journal, **options):
    return scenario.Broker(program, journal, more=("--until-eof",), **options)


def alone(server):
    return contextlib.nullcontext()


@contextlib.contextmanager
def left(server):
    client = Client(server.port).connect()
    client.disconnect()
    client.close()
    yield


@contextlib.contextmanager
def asking(server, request):
    with socket.create_connection(("127.0.0.1", server.port), timeout=5) as one:
        one.sendall(request)
        if request.endswith(b"\r\n\r\n"):
            assert one.recv(4096).startswith(b"HTTP/1.1 426 ")
        else:
            time.sleep(0.1)
        yield


# Who is there when a server is asked to end that has nobody to wait for.
IDLE = {
    "nobody has come": alone,
    "its client has left": left,
    "one that it refused stays": lambda server: asking(server, b"GET / HTTP/1.1\r\nHost: x\r\n\r\n"),
    "one is in the midst of its request": lambda server: asking(server, handshake(server.port)[:-2]),
}


def idle(program, journal, checks):
    """a server that has nobody to wait for"""
    for what, comes in IDLE.items():
        seen = []
        for _ in range(TRIES):
            server = begun(program, journal)
            server.process.stdin.write(b"not the end\n")
            time.sleep(0.1)
            checks.check("what its input has is no end", server.is_running())
            with comes(server):
                seen.append(server.end())
            checks.check("it says that it started, and that it was asked to end", len(server.told(" started: ")) == 1 and server.told(" ending: asked to"), server.text())
        checks.same(f"{what}: it ends with status 0", [status for status, _ in seen], [0] * TRIES)
        checks.check(f"{what}: the quickest within {AT_ONCE} s", min(seen)[1] <= AT_ONCE, seen)


def at_once(program, journal, checks):
    """asked to end at its start"""
    silent = 0
    for _ in range(STARTS):
        port = scenario.free_port()
        words = [program, "serve", journal, str(port), "--until-eof"]
        ran = subprocess.run(words, stdin=subprocess.DEVNULL, capture_output=True, text=True, timeout=30)
        silent += ran.returncode != 0 or not ran.stderr.endswith(" ending: asked to\n")
    checks.same(f"{STARTS} servers that are asked to end at once end so, and tell it last", silent, 0)


def unread_fault(program, journal, checks):
    """its journal is removed while nobody reads what it logs"""
    server = scenario.Broker(program, scenario.make_journal(program, journal.with_name("small"), 8_224), is_read=False)
    server.fill_log()
    pathlib.Path(server.journal).unlink()
    checks.same(f"a server with a fault and a full standard error ends with status 1 within {LONGEST} s", server.await_end(LONGEST), 1)


def unread(program, journal, checks):
    """asked to end while nobody reads what it tells"""
    server = begun(program, journal, is_read=False)
    server.fill_log()
    status, seconds = server.end()
    checks.check(f"a server whose standard error is full ends with status 0 within {LONGEST} s", status == 0 and seconds <= LONGEST, (status, seconds))


def at_work(program, journal, checks):
    """a server with clients of all kinds"""
    server = begun(program, journal)
    port = server.port
    quiet = [Client(port).connect() for _ in range(QUIET)]
    unopened = [Client(port) for _ in range(10)]
    reader = Client(port).connect()
    reader.subscribe("r", "/topic/much")
    writer = Client(port).connect()
    writer.publish_all("/topic/much", [f"{number} " + "x" * 50_000 for number in range(40)])
    # These take nothing, and answer nothing.
    deaf = [Client(port, receive_bytes=4_096).connect() for _ in range(DEAF)]
    senders = [Sender(port, number) for number in range(SENDERS)]
    time.sleep(1)
    status, seconds = server.end()
    checks.same("it ends with status 0", status, 0)
    checks.check(f"within {LONGEST} s", seconds <= LONGEST, seconds)
    codes = [one.to_the_end() for one in quiet]
    checks.same("each quiet client hears 1001", [code for _, code in codes], [1001] * QUIET)
    checks.same("and so does one without a session", [one.to_the_end()[1] for one in unopened], [1001] * len(unopened))
    frames, code = reader.to_the_end()
    checks.same("one to which much was to be written hears all of it, and 1001", (len(frames), code), (40, 1001))
    for one in senders:
        one.thread.join(10)
    checks.same("senders hear 1001", [(one.code, one.fault) for one in senders], [(1001, None)] * SENDERS)
    checks.check("and had receipts", all(len(one.receipted) > 10 for one in senders), [len(one.receipted) for one in senders])
    del deaf
    again = begun(program, journal, port=port)
    for one in senders:
        taker = Client(port).connect()
        taker.send("SEND", [("destination", f"/queue/q{one.number}")], "last")
        taker.send("SUBSCRIBE", [("id", "t"), ("destination", f"/queue/q{one.number}"), ("ack", "auto")])
        found = []
        while not found or found[-1] != "last":
            found.append(taker.receive().body)
        lost = [body for body in one.receipted if body not in found]
        checks.same(f"what was receipted to sender {one.number} is there", lost, [])
    checks.same("and it ends again", again.end()[0], 0)


def newcomers(port, seconds, found):
    """Comes to a server one client after another, from so many seconds on until nobody listens. Answers how long each was kept."""
    time.sleep(seconds)
    while True:
        try:
            one = socket.create_connection(("127.0.0.1", port), timeout=LONGEST)
        except OSError:
            return
        with one:
            came = time.monotonic()
            try:
                one.recv(1)
            except ConnectionError:
                pass
            found.append(time.monotonic() - came)
        time.sleep(0.02)


def text_size(text):
    return 4 + len(text)


def a_snapshot(program, journal, checks):
    """what is used of an area after an end in good order: a snapshot, and nothing that a start would repeat"""
    queue, bodies = "/queue/few", [f"{number}" for number in range(100)]
    server = begun(program, journal)
    client = Client(server.port).connect()
    client.publish_all(queue, bodies)
    checks.same("it ends with status 0", server.end()[0], 0)
    # Of a message: command, place, destination, how many headers, body. The session that was open is there without a name.
    messages = sum(8 + 4 + text_size(queue) + 2 + text_size(body) for body in bodies)
    state = 8 + 8 + (4 + 8 + 1) + 4 + (4 + text_size(queue) + 4 + messages) + 4
    seen = shown(program, "show", journal)
    checks.same("8 bytes of length, the snapshot, and a gate, with all of them", (seen["used"], seen["held"]), (8 + state + 1, len(bodies)))


def full_ring(program, journal, checks):
    """a server whose disk is slow, while as much waits for it as may"""
    server = begun(program, journal, env=scenario.slow_syncs(journal.parent, SLOW_SYNC=SLOW_SYNC))
    clients = [Client(server.port) for _ in range(SLOWED)]
    for one in clients:
        one.write(connect_message())
    for one in clients:
        one.receive()
    for number, one in enumerate(clients):
        for _ in range(BURST):
            one.send("SEND", [("destination", f"/queue/q{number}")], "x")
    time.sleep(0.1)
    kept = []
    coming = threading.Thread(target=newcomers, args=(server.port, 0.1, kept))
    coming.start()
    status, seconds = server.end()
    coming.join()
    checks.same("it ends with status 0", status, 0)
    checks.check(f"within {LONGEST} s", seconds <= LONGEST, seconds)
    checks.check("some came meanwhile", len(kept) >= 3, kept)
    checks.check(f"each was let go within {LET_GO} s", all(it <= LET_GO for it in kept), max(kept, default=0))
    stored = shown(program, "show", journal)["held"]
    checks.check("all that waited for the disk is stored", stored >= SLOWED * UNDER_WAY, f"{stored} of {SLOWED * BURST}, of which {SLOWED * UNDER_WAY} were under way")
    checks.tell(f"{stored} of {SLOWED * BURST} messages are stored, after {seconds:.1f} s")


def main():
    words = scenario.words_of(__doc__)
    words.add_argument("--few", action="store_true", help="without the slow disk if there is no cc")
    given = words.parse_args()
    program, checks = given.program, scenario.Checks()
    has_slow_disk = not given.few or shutil.which("cc") is not None
    if not has_slow_disk:
        checks.tell("a slow disk is not tried: there is no cc")
    for part in (idle, at_once, unread, unread_fault, at_work, a_snapshot, *((full_ring,) if has_slow_disk else ())):
        with tempfile.TemporaryDirectory(prefix="ending-") as folder:
            journal = pathlib.Path(folder) / "journal"
            part(program, scenario.make_journal(program, journal, JOURNAL_BYTES), checks)
    return checks.status()


if __name__ == "__main__":
    sys.exit(main())
