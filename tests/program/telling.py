#!/usr/bin/env python3
"""Looks at the lines that a server tells its operator, and that a client's names get into none of them.

    python3 tests/program/telling.py [PROGRAM]

A server tells its start; what comes often is counted, and told at most once a second a kind; so is a reader that is too slow.
"""

import collections
import contextlib
import datetime
import re
import socket
import sys
import time

from lib import scenario
from lib.scenario import LINE
from lib.stomp_client import Client, Closed, handshake

JOURNAL_BYTES = 67_108_896
ELSEWHERE = 20
# In seconds, for what is told within two. Nothing else is told meanwhile: the line of a minute comes far later.
ALONE = 10


def by_the_clock(when):
    """A moment of Python's own count, in seconds since 1970."""
    return time.time() - (time.monotonic() - when)


def moment_of(line):
    """The moment that a line tells, in seconds since 1970."""
    told = datetime.datetime.strptime(LINE.fullmatch(line).group(1), "%Y-%m-%dT%H:%M:%SZ")
    return told.replace(tzinfo=datetime.timezone.utc).timestamp()


def serving(program, journal_bytes=JOURNAL_BYTES, **options):
    return scenario.serving(program, journal_bytes, **options)


def refused(port, request):
    with socket.create_connection(("127.0.0.1", port), timeout=5) as client:
        client.sendall(request)
        answer = b""
        while True:
            piece = client.recv(4096)
            if not piece:
                return answer.decode()
            answer += piece


def starts(program, checks):
    """what is told at the start"""
    with serving(program) as server:
        area = (JOURNAL_BYTES - 32) // 2
        checks.same("its start", server.told("started"), [f"started: journal of version 2, areas of {area} bytes, 0 messages held, 16384 clients allowed, 1073741824 bytes of memory for them"])
    with serving(program, more=["--memory", "16777216"]) as server:
        checks.check("its budget", any("16777216 bytes of memory" in line for line in server.told("started")), server.lines)
        checks.check("that its journal is small", server.told("journal small"), server.lines)
    with serving(program, journal_bytes=536_870_944) as server:
        checks.check("the start of a large one", server.told("started"), server.lines)
        checks.same("which is not small", server.told("journal small", 0.5), [])


def threads(program, checks):
    """as many threads serve as are asked for"""
    tasks = {}
    for count in (1, 3):
        with serving(program, more=["--threads", str(count)]) as server:
            server.told("started")
            tasks[count] = server.count_of_threads()
    checks.same("three threads are two more than one", tasks[3] - tasks[1], 2)


def counts(program, checks):
    """refusals that are counted"""
    with serving(program) as server:
        start, asked = time.monotonic(), 0
        while time.monotonic() - start < 3.5:
            asked += 1
            refused(server.port, b"GET / HTTP/1.1\r\nHost: x\r\n\r\n")
            answer = refused(server.port, handshake(server.port, offer="v10.stomp, v11.stomp"))
        checks.check("a client of other versions is told which is spoken", "v12.stomp" in answer and " 400 " in answer, answer)
        time.sleep(1.5)
        for word, least in (("no WebSocket (426)", 3), ("v12.stomp (400)", 3)):
            moments = [moment for moment, line in server.lines if word in line]
            checks.check(f"{word}: told again and again, while it comes", least <= len(moments) <= 7, len(moments))
            told = sum(int(re.search(r" refused (\d+) ", line)[1]) for _, line in server.lines if word in line)
            checks.same(f"{word}: all are counted", told, asked)
            gaps = [after - before for before, after in zip(moments, moments[1:])]
            checks.check(f"{word}: at most once a second", all(gap > 0.5 for gap in gaps), gaps)


def names(program, checks):
    """lines with no bytes of a client"""
    with serving(program) as server:
        client = Client(server.port).connect("secret\nstompd: forged")
        client.subscribe("i", "/queue/secret")
        # Fewer wait in these: the line names where most do.
        client.publish_all("/queue/a-few", ELSEWHERE * ["few"])
        client.publish_all("/queue/z-few", ELSEWHERE * ["few"])
        with contextlib.suppress(Closed, ConnectionError):
            for number in range(4_200):
                client.send("SEND", [("destination", "/queue/full-secret"), ("receipt", "secret")], "secret")
                if number % 16 == 15:
                    client.receive()
            client.to_the_end()
        checks.check("E12 is told", any(line.endswith(" ERRORs (E12)") for line in server.told("sent ", 20)), server.lines)
        for times in (1, 2):
            wrong = Client(server.port).connect()
            wrong.send("SUBSCRIBE", [("id", "w"), ("destination", "/queue/q"), ("ack", "never")])
            wrong.to_the_end()
            end = time.monotonic() + 20
            while len(found := server.told("(E20)", 20)) < times and time.monotonic() < end:
                time.sleep(0.05)
            checks.same(f"so is E20, the last code, which came {times} times", found, times * ["sent 1 ERRORs (E20)"])
        near = server.told("nearly full", 5)
        checks.same("once that nearly all is held", len(near), 1)
        form = r"nearly full: (\d+) of 4096 messages held, (\d+) of 16777216 bytes, (\d+) of them in queue /queue/full-secret \(E12 is near\)"
        found = re.fullmatch(form, near[0]) if near else None
        checks.check("as soon as nine tenths are, and where most are", found and 3_686 <= int(found[1]) <= 4_096 and int(found[3]) == int(found[1]) - 2 * ELSEWHERE, near)
        checks.check("each line is one of ours", all(LINE.fullmatch(line) for _, line in server.lines), server.lines)
        late = [by_the_clock(when) - moment_of(line) for when, line in server.lines if LINE.fullmatch(line)]
        checks.check("and its moment is the clock's", all(0 <= it <= 2 for it in late), (late, server.lines))
        plain = [line for _, line in server.lines if "nearly full" not in line]
        checks.check("and has no byte of a client, except the name of what is full", not any("secret" in line for line in plain), server.lines)
        checks.same("no client failed to be accepted", [line for _, line in server.lines if "failed to accept" in line], [])
        checks.check("and nothing is forged", not any("forged" in line for _, line in server.lines), server.lines)


class Holder:
    """A client that sends to a queue, and acknowledges what it gets of it."""

    def __init__(self, port):
        self.client, self.unacknowledged, self.count = Client(port, timeout=30).connect(), collections.deque(), 0
        self.client.subscribe("i", "/queue/q", "client-individual")

    def await_receipt(self):
        frames = self.client.receipt(f"{self.count}")
        self.unacknowledged += [frame.headers["ack"] for frame in frames if frame.command == "MESSAGE"]
        self.count += 1

    def fill(self, messages):
        for _ in range(messages):
            self.client.send("SEND", [("destination", "/queue/q"), ("receipt", f"{self.count}")], "x")
            self.await_receipt()

    def acknowledge(self, messages):
        for _ in range(messages):
            while not self.unacknowledged:
                self.unacknowledged.append(self.client.receive().headers["ack"])
            self.client.send("ACK", [("id", self.unacknowledged.popleft()), ("receipt", f"{self.count}")])
            self.await_receipt()


def around_the_limit(program, checks):
    """that nearly all is held, once for as long as it stays about that"""
    with serving(program) as server:
        holder = Holder(server.port)
        holder.fill(3_690)
        end = time.monotonic() + 3
        # Nine tenths of 4,096 are between these.
        while time.monotonic() < end:
            holder.acknowledge(8)
            holder.fill(8)
        time.sleep(1)
        checks.same("once around nine tenths", len(server.told("nearly full")), 1)
        # Under eight tenths, and over nine again.
        holder.acknowledge(450)
        holder.fill(460)
        time.sleep(1)
        checks.same("and again once it had fallen under eight tenths", len(server.told("nearly full")), 2)


def in_use(client):
    client.connect()
    client.subscribe("twice", "/topic/t")
    client.send("SUBSCRIBE", [("id", "twice"), ("destination", "/topic/t")])


def too_soon(client):
    # A session begins with CONNECT or STOMP.
    client.send("SEND", [("destination", "/topic/t")])


def errors(program, checks):
    """ERRORs by their codes, at most a line a second for each: the broker's, and those before a session begins"""
    for code, provoke in (("E9", in_use), ("E7", too_soon)):
        with serving(program) as server:
            start, sent = time.monotonic(), 0
            while time.monotonic() - start < 3.5:
                client = Client(server.port)
                provoke(client)
                answer = client.receive().headers["message"]
                if sent == 0:
                    checks.check(code, answer.startswith(f"{code} "), answer)
                client.close()
                sent += 1
            time.sleep(1.5)
            lines = server.told(f"({code})")
            checks.same(f"{code}: all are counted", sum(int(re.fullmatch(rf"sent (\d+) ERRORs \({code}\)", line)[1]) for line in lines), sent)
            checks.check(f"{code}: at most once a second", 2 <= len(lines) <= 6, lines)


def topics(program, checks):
    """that nearly all is held, by subscriptions of a topic"""
    with serving(program) as server:
        reader = Client(server.port, timeout=30).connect()
        reader.subscribe("t", "/topic/t", "client")
        Client(server.port, timeout=30).connect().publish_all("/topic/t", 3_700 * ["x"])
        near = server.told("nearly full", 5)
        form = r"nearly full: (\d+) of 4096 messages held, (\d+) of 16777216 bytes, 0 of them in topics \(E12 is near\)"
        found = re.fullmatch(form, near[0]) if len(near) == 1 else None
        # A message's size is the bytes of its destination and its body.
        is_right = found and int(found[2]) == len("/topic/tx") * int(found[1])
        checks.check("that is told, with the place as `stompd held` has it, and with their bytes", is_right, near)


def alone(program, checks):
    """an ERROR and a refusal to a server that does nothing else: neither waits for the line of each minute"""
    with serving(program) as server:
        for what, form, provoke in (("an ERROR", "sent 1 ERRORs (E7)", too_soon), ("a refusal", "refused 1 requests for no WebSocket (426)", None)):
            # Its last line is written, and its thread sleeps.
            time.sleep(2.5)
            if provoke:
                client = Client(server.port)
                provoke(client)
                client.to_the_end()
                client.close()
            else:
                refused(server.port, b"GET / HTTP/1.1\r\nHost: x\r\n\r\n")
            checks.same(f"{what} alone is told", server.told(form, ALONE), [form])


def slow(program, checks):
    """a subscriber that stops reading, and whose outbox is full"""
    with serving(program) as server:
        reader = Client(server.port, receive_bytes=65_536).connect()
        reader.subscribe("s", "/topic/t")
        # More than the 33,554,432 bytes of an outbox, and than what two sockets and a link keep.
        Client(server.port).connect().publish_all("/topic/t", ["x" * 64_000] * 700)
        checks.same("nothing is told while it is there", server.told("outbox", 0), [])
        _, code = reader.to_the_end()
        checks.same("it reads what was kept for it, and 1001", code, 1001)
        checks.same("the server tells it", server.told("outbox"), ["gave up 1 clients whose outbox was full"])


if __name__ == "__main__":
    sys.exit(scenario.try_parts(__doc__, (starts, threads, counts, names, around_the_limit, topics, errors, alone, slow)))
