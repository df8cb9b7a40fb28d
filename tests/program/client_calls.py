#!/usr/bin/env python3
"""The system calls of the program's client, by strace: each read and write of its socket has a time limit of five seconds at most, and RECEIPTs that came
before the end of a connection count, though a write has found that end. A write of `move` that takes too long ends it, and a call that a signal
interrupts is made again. `listen` waits for a network that is away.

    python3 tests/program/client_calls.py [PROGRAM]

It needs Python 3 and strace, and takes a second.
"""

import re
import sys
import tempfile
import time

from lib.commands import run
from lib.fake_peer import CONNECTED, Peer, answering, close, connected, ending, one_after_another, receipted, saying
from lib.scenario import try_parts
from lib.tracing import need_strace, strace

# How long a step may take (docs/CLI.md, "Pings"), in seconds.
STEP = 5
# The handshake, CONNECT and two lines are written; each write after them finds that the connection has ended, once the first RECEIPT has come.
LINES, WRITTEN = b"one\ntwo\nthree\n", 4
ENDED = "sendto:error={}:delay_enter=300000:when=%d+" % (WRITTEN + 1)


def traced(program, words, given, *faults, calls="sendto,recvfrom,setsockopt"):
    """What the program came to, and the lines of its trace."""
    with tempfile.NamedTemporaryFile("r") as trace:
        status, _, said = run(*strace(trace.name, calls, *faults, has_texts=True), program, *words, given=given)
        return (status, said), trace.read().splitlines()


def ends_after(*steps):
    """A peer that accepts the handshake, does each of these once it has heard a frame, and is gone."""

    def act(peer):
        peer.shake()
        for step in steps:
            step(peer, peer.hear()[1])

    return act


def limit_in(line, kind):
    """How many seconds a call of that kind may take from this line of a trace on, if it says so."""
    found = re.search(rf"SO_{kind}TIMEO\w*, \"((?:\\x[0-9a-f]{{2}}){{16}})\"", line)
    span = bytes.fromhex(found[1].replace("\\x", "")) if found else b""
    return int.from_bytes(span[:8], "little") + int.from_bytes(span[8:], "little") / 1e6 if found else None


def limits(program, checks):
    """No read and no write of the socket may take longer than a step."""
    peer = Peer(ends_after(connected, receipted, receipted))
    seen, trace = traced(program, ["send", str(peer.port), "/queue/a", "x"], b"")
    peer.end()
    limit, counts = {"sendto": None, "recvfrom": None}, {"sendto": 0, "recvfrom": 0}
    for line in trace:
        for kind, call in (("SND", "sendto"), ("RCV", "recvfrom")):
            limit[call] = seconds if (seconds := limit_in(line, kind)) is not None else limit[call]
        if found := re.search(r"\b(sendto|recvfrom)\(", line):
            counts[found[1]] += 1
            checks.check(f"call {counts[found[1]]} of {found[1]} has a limit", limit[found[1]] is not None and 0 < limit[found[1]] <= STEP, limit[found[1]])
    checks.check("small packets are sent at once (TCP_NODELAY)", any(re.search(r"TCP_NODELAY, \[1\]", line) for line in trace))
    checks.check("there were writes and reads", counts["sendto"] >= 4 and counts["recvfrom"] >= 4, (seen, counts))


def receipts_before_the_end(program, checks):
    """A line whose RECEIPT came is taken, though a later write found the end before that was read."""

    lost = "stompd: no RECEIPT: the connection has ended; the server may have taken it, or not\nstompd: 1 lines before it were taken\n"
    for error in ("EPIPE", "ECONNRESET", "ECONNABORTED"):
        peer = Peer(ends_after(connected, receipted))
        (status, text), _ = traced(program, ["send", str(peer.port), "/queue/a", "--lines"], LINES, ENDED.format(error))
        peer.end()
        checks.check(f"the line before one that finds {error} is taken", status == 1 and text.startswith(lost), (status, text))


def a_write_that_waits(program, checks):
    """`move` ends with the step in which a write had no end, and waits for no answer to it."""

    peer = Peer(answering(connected, saying(b"MESSAGE\nsubscription:heard\nmessage-id:1.0\ndestination:/queue/a\nack:1\n\nx\0")))
    began = time.monotonic()
    # The handshake, CONNECT and SUBSCRIBE are written; what moves the message finds its time over, as after five seconds.
    (status, text), _ = traced(program, ["move", str(peer.port), "/queue/a", "/queue/b"], b"", "sendto:error=EAGAIN:when=4+")
    took = time.monotonic() - began
    peer.end()
    checks.check("it says that no answer came", status == 1 and "no answer within 5 s" in text, (status, text))
    checks.check("at once", took < STEP / 2, took)


def silence(program, checks):
    """A read of a listener may take 90 seconds, or what `--timeout` leaves if that is less; so it ends by what its time was."""

    def connects(peer):
        peer.shake()
        peer.hear()
        peer.say(CONNECTED)
        peer.hear()
        if b"DISCONNECT" in peer.hear()[1]:
            peer.say(b"RECEIPT\nreceipt-id:left\n\n\0")
            peer.hear()
            close(peer)
            peer.wait()

    for more, least, most, wanted in (
        ([], 80, 90, (1, "stompd: no more messages: nothing came for 90 s\n")),
        (["--timeout", "60"], 50, 60, (4, "stompd: no more messages: none came within --timeout\n")),
        (["--timeout", "900"], 80, 90, (1, "stompd: no more messages: nothing came for 90 s\n")),
    ):
        peer = Peer(connects)
        # The handshake and CONNECTED are read; the read after them finds its time over.
        seen, trace = traced(program, ["listen", str(peer.port), "/queue/a", *more], b"", "recvfrom:error=EAGAIN:when=3")
        peer.end()
        limits = [seconds for it in trace if (seconds := limit_in(it, "RCV")) is not None and seconds > STEP]
        checks.check(f"a read of a listener with {more} may take long", len(limits) == 1 and least < limits[0] <= most, limits)
        checks.same(f"and ends it with {more}", seen, wanted)


def interrupted(program, checks):
    """A call that a signal interrupts is made again."""
    for call in ("sendto", "recvfrom", "poll"):
        peer = Peer(ends_after(connected, receipted, receipted))
        seen, trace = traced(program, ["send", str(peer.port), "/queue/a", "x"], b"", f"{call}:error=EINTR:when=1+2", calls=call)
        peer.end()
        count = sum("EINTR" in it for it in trace)
        checks.check(f"{call} is made again", seen == (0, "") and count > 0, (seen, count))


def unreached(program, checks):
    """`listen` connects again once a network leads to the server, and the host has its address (connect(2), "Errors")."""
    message = b"MESSAGE\nsubscription:heard\nmessage-id:1.0\ndestination:/topic/a\n\nx\0"
    again = "stompd: no more messages: the connection has ended; connecting again\n"
    for error in ("ENETUNREACH", "EHOSTUNREACH", "ENETDOWN", "EADDRNOTAVAIL"):
        peer = Peer(one_after_another(answering(connected, ending), answering(connected, saying(message), receipted, lambda peer, _: close(peer))))
        words = ["listen", str(peer.port), "/topic/a", "--count", "1"]
        seen, trace = traced(program, words, b"", f"connect:error={error}:when=2..3", calls="connect")
        peer.end()
        checks.same(f"{error} passes", (seen, sum(error in it for it in trace)), ((0, again), 2))
    seen, _ = traced(program, ["send", "1", "/queue/a", "x"], b"", "connect:error=ENETUNREACH", calls="connect")
    checks.same("who does not wait says so", seen, (1, "stompd: no connection: no network leads there\n"))


if __name__ == "__main__":
    need_strace()
    sys.exit(try_parts(__doc__, (limits, receipts_before_the_end, a_write_that_waits, silence, interrupted, unreached)))
