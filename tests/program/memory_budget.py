#!/usr/bin/env python3
"""A server whose clients may hold 256 MiB together: 2,000 subscribe to a topic and read nothing, while somebody sends to it. Those who hold most are
given up, before they would be for taking nothing; one that reads everything and one that sends hear what is theirs at once; and the server lives
under a limit of memory that it would pass if all of them held what waits for them. Then 3,000 come to a topic and go; 1,500 send one message of 600 SENDs
each, to a server whose disk is so slow that these wait; and 400 send one message of 128 KiB each.

    python3 tests/program/memory_budget.py [PROGRAM]

It takes a minute or less, and needs strace and Python 3 alone.

- The limit is the system's, on data (RLIMIT_DATA): the budget, 256 KiB for each client, and 128 MiB. A client takes up to 128 KiB that the budget does not
  count: the places of its outbox (111 KB), and what its socket is read by. The rest is for what is being handed out, for what was given up and is not free
  yet, and for what the allocator loses.
- Each SEND is a frame for each of them, with a list of headers of its own; all of them together would take more than the limit. What the sockets take stays in
  the system: for those who read nothing it keeps little.
- The sender has 8 SENDs under way, each with a receipt. The reader has each message, in order. Each receipt, and each message, comes within a second.
"""

import contextlib
import os
import re
import sys
import threading
import time

from lib import scenario
from lib.stomp_client import TEXT, Client, connect_message, message_bytes, stomp_bytes
from lib.tracing import strace

TOPIC = "/topic/unread"
BUDGET = 268_435_456
STALLED = 2_000
BODY, MESSAGES, WINDOW = 100, 2_000, 8
# What the system lets the server have beside the budget: so much for each client, and so much for the rest.
EACH, REST = 262_144, 134_217_728
LIMIT = BUDGET + STALLED * EACH + REST
# The least budget that a server takes.
LEAST_BUDGET = 16_777_216
# How many come and go, and how much of their memory may stay, if the C library is told to keep nothing (docs/RUNNING.md, "Memory").
COMERS, STAYS = 3_000, 12_582_912
KEEPS_NOTHING = ":glibc.malloc.mxfast=0:glibc.malloc.tcache_count=0"
# As it ships, the same crowd may come so often, and then takes at most so many times what it took first.
RETURNS, GROWTH = 6, 4
# Of frames that wait: how many clients, with one message each of so many SENDs, so many at a time; how long a sync takes, in microseconds; what they
# may take beside the budget.
SENDERS, SENDS, WAVE, SYNC, WAITING_REST = 1_500, 600, 100, 100_000, 67_108_864
# Of the longest messages: how many clients send one each, by how many threads, of how many bytes at most, with how many headers a frame; and what they
# may take beside the budget.
LONGEST, THREADS, LONGEST_BYTES, HEADERS, LONGEST_REST = 400, 8, 131_072, (0, 60), 67_108_864
# A wait of an honest client, and after how many seconds a client is given up that takes nothing.
LONGEST_WAIT, TAKES_NOTHING = 1.0, 60
# After so many seconds all who went are gone.
GONE = 20


def given_up(broker, words):
    """How many clients were given up so, and when the first."""
    told = [(moment, int(line.split(" gave up ")[1].split()[0])) for moment, line in list(broker.lines) if f" {words}" in line and " gave up " in line]
    return sum(count for _, count in told), told[0][0] if told else None


class Reader(threading.Thread):
    """A subscriber that reads everything, and notes when each message came."""

    def __init__(self, port):
        super().__init__(daemon=True)
        self.client = Client(port, timeout=20).connect()
        self.client.subscribe("r", TOPIC)
        self.numbers, self.moments, self.fault = [], [], None
        self.start()

    def run(self):
        try:
            while len(self.numbers) < MESSAGES:
                self.numbers.append(int(self.client.receive().body.split(" ", 1)[0]))
                self.moments.append(time.monotonic())
        except Exception as fault:
            self.fault = fault


def stall(port):
    """Clients that subscribe, and read nothing of what comes then. The system keeps little for them: the size of a segment decides how much it keeps
    for the server."""
    all_of_them = [Client(port, timeout=60, receive_bytes=4_096, segment_bytes=536).connect() for _ in range(STALLED)]
    for one in all_of_them:
        one.subscribe("s", TOPIC)
    return all_of_them


def send_all(port, checks):
    """Sends all. When each was sent, and how long its receipt took."""
    sender, sent, waits = Client(port, timeout=20).connect(), [], []
    try:
        for number in range(MESSAGES + WINDOW):
            if number < MESSAGES:
                sent.append(time.monotonic())
                sender.send("SEND", [("destination", TOPIC), ("receipt", f"{number}")], f"{number} " + "x" * BODY)
            if number >= WINDOW:
                sender.receipt(f"{number - WINDOW}")
                waits.append(time.monotonic() - sent[number - WINDOW])
        sender.disconnect()
    except Exception as fault:
        checks.check(f"all {MESSAGES} SENDs have their receipts", False, (len(waits), fault))
    return sent, waits


def reads_nothing(broker, checks):
    """2,000 clients that read nothing harm themselves alone"""
    stalled = stall(broker.port)
    checks.tell(f"{STALLED} clients there: {broker.memory('VmRSS') // 1024} MiB, and {broker.memory('VmData') // 1024} MiB of data")
    reader = Reader(broker.port)
    start = time.monotonic()
    sent, waits = send_all(broker.port, checks)
    took = time.monotonic() - start
    reader.join(20)
    checks.check("the broker still runs", broker.is_running(), broker.lines[-3:])
    peak = broker.memory("VmHWM") * 1024
    checks.tell(f"{len(waits)} SENDs in {took:.1f} s; the longest receipt took {max(waits, default=0) * 1000:.0f} ms")
    checks.check(f"each receipt came within {LONGEST_WAIT} s", len(waits) == MESSAGES and max(waits) <= LONGEST_WAIT, max(waits, default=None))
    in_order = reader.numbers == list(range(len(reader.numbers)))
    checks.check("the reader has each message, in order", in_order and len(reader.numbers) == MESSAGES, f"{len(reader.numbers)} of {MESSAGES}, in order: {in_order}")
    late = [moment - before for before, moment in zip(sent, reader.moments)]
    checks.check(f"each within {LONGEST_WAIT} s", bool(late) and max(late) <= LONGEST_WAIT, max(late, default=None))
    checks.check("the reader was not dropped", reader.fault is None, reader.fault)
    time.sleep(1.5)
    most, first = given_up(broker, "clients that took the most memory")
    nothing, _ = given_up(broker, "clients that took nothing")
    checks.check("clients were given up that took the most memory", most > 0, broker.lines)
    if first:
        checks.check(f"the first before {TAKES_NOTHING} s", first - start < TAKES_NOTHING, first - start)
    checks.tell(f"{most} of them, the first after {(first or start) - start:.1f} s; {nothing} that took nothing")
    checks.check("and no more than there were", most <= STALLED, most)
    checks.check("some are left, since all together keep to the budget", most < STALLED, most)
    checks.check(f"at most {LIMIT >> 20} MiB at its peak", peak <= LIMIT, f"{peak >> 20} MiB")
    checks.tell(f"its peak was {peak >> 20} MiB; the budget is {BUDGET >> 20} MiB, and the limit {LIMIT >> 20} MiB")
    for one in stalled:
        one.close()


def as_shipped(more=""):
    """The environment in which `bin/serve` starts it, whose settings of the C library may have more."""
    asked = re.search(r"^tunables=(.*)$", (scenario.TOP / "bin" / "serve").read_text(encoding="utf-8"), re.M)[1]
    return {**os.environ, "GLIBC_TUNABLES": asked + more}


def come_and_go(broker, count):
    """So many clients come and go. Answers what the broker took more with them, in bytes."""
    before = broker.memory("VmRSS")
    comers = [Client(broker.port, timeout=20).connect() for _ in range(count)]
    for number, one in enumerate(comers):
        one.subscribe("s", f"/topic/{number % 100}")
    there = broker.memory("VmRSS") - before
    for one in comers:
        one.close()
    return there * 1024


def comers_again(broker, checks):
    """as it ships, what clients took that have left serves the next ones: the same crowd takes less and less more"""
    first, *later = [come_and_go(broker, COMERS // 6) for _ in range(RETURNS)]
    checks.check(f"after {RETURNS} times it is at most {GROWTH} times what they took first", first + sum(later) <= GROWTH * first, [it >> 10 for it in (first, *later)])
    checks.check("and the last time took less than the second", later[-1] <= later[0], [it >> 10 for it in later])


def what_is_empty(broker, checks):
    """with the settings of docs/RUNNING.md, what 3,000 clients took is given back once they have gone"""
    before = broker.memory("VmRSS")
    comers = [Client(broker.port, timeout=20).connect() for _ in range(COMERS)]
    for number, one in enumerate(comers):
        one.subscribe("s", f"/topic/{number % 100}")
        one.publish("/topic/none", "x")
    there = broker.memory("VmRSS") - before
    checks.check("they take more than may stay", there * 1024 > 2 * STAYS, f"{there >> 10} MiB")
    for one in comers:
        one.close()
    deadline = time.monotonic() + GONE
    stays = there
    while stays * 1024 > STAYS and time.monotonic() < deadline:
        time.sleep(0.5)
        stays = broker.memory("VmRSS") - before
    checks.check(f"at most {STAYS >> 20} MiB stay", stays * 1024 <= STAYS, f"{stays >> 10} MiB of {there >> 10}")
    checks.tell(f"{COMERS} clients took {there >> 10} MiB, of which {stays >> 10} stay")


def frames_that_wait(broker, checks):
    """frames that find the ring full count: those who hold most are given up, and give up what waits"""
    senders = [Client(broker.port, timeout=60) for _ in range(SENDERS)]
    for one in senders:
        one.write(connect_message())
    for one in senders:
        one.receive()
    time.sleep(1)
    before = broker.memory("VmRSS")
    message = message_bytes(TEXT, SENDS * stomp_bytes("SEND", [("destination", "/topic/none")]))
    for number, one in enumerate(senders):
        with contextlib.suppress(OSError):
            one.write(message)
        if number % WAVE == WAVE - 1:
            time.sleep(0.25)
    time.sleep(2)
    taken, (most, _) = broker.memory("VmRSS") - before, given_up(broker, "clients that took the most memory")
    checks.check("clients were given up that took the most memory", most > SENDERS / 2, f"{most} of {SENDERS}")
    checks.check(f"all took at most the budget and {WAITING_REST >> 20} MiB", taken * 1024 <= LEAST_BUDGET + WAITING_REST, f"{taken >> 10} MiB")
    checks.tell(f"{most} were given up; the server has {taken >> 10} MiB more than before them")
    for one in senders:
        one.close()


def send_each(clients, message):
    for one in clients:
        # Whoever was given up meanwhile is sent nothing.
        with contextlib.suppress(OSError):
            one.write(message)


def longest_messages(broker, checks):
    """messages as long as may be count with all that they take: clients that send one each keep to the budget at every moment"""
    for headers in HEADERS:
        senders = [Client(broker.port, timeout=60).connect() for _ in range(LONGEST)]
        before, gone = broker.memory("VmRSS"), given_up(broker, "clients that took the most memory")[0]
        broker.forget_peak()
        frame = stomp_bytes("SEND", [("destination", "/topic/none"), *((f"h{at}", "x") for at in range(headers))])
        message = message_bytes(TEXT, LONGEST_BYTES // len(frame) * frame)
        threads = [threading.Thread(target=send_each, args=(senders[at::THREADS], message)) for at in range(THREADS)]
        for one in threads:
            one.start()
        for one in threads:
            one.join()
        time.sleep(2)
        peak = broker.memory("VmHWM") - before
        most = given_up(broker, "clients that took the most memory")[0] - gone
        checks.check(f"with {headers} headers a frame all took at most the budget and {LONGEST_REST >> 20} MiB", peak * 1024 <= LEAST_BUDGET + LONGEST_REST, f"{peak >> 10} MiB")
        checks.check("some were given up, and some are left", 0 < most < LONGEST, most)
        checks.tell(f"{most} were given up; the peak was {peak >> 10} MiB more than before them")
        for one in senders:
            one.close()
        time.sleep(1)


def main():
    program = scenario.program_of(__doc__)
    scenario.take_descriptors()
    checks = scenario.Checks()
    start = time.monotonic()
    checks.check("docs/RUNNING.md has these settings", KEEPS_NOTHING[1:] in (scenario.TOP / "docs" / "RUNNING.md").read_text(encoding="utf-8"))
    least = ("--memory", str(LEAST_BUDGET))
    # Each sync is held up.
    slow = strace("/dev/null", "fdatasync", f"fdatasync:delay_enter={SYNC}") + ["--seccomp-bpf", "-qq"]
    for one, options in (
        (reads_nothing, {"more": ("--memory", str(BUDGET)), "limits": {"DATA": LIMIT}}),
        (comers_again, {"env": as_shipped()}),
        (what_is_empty, {"env": as_shipped(KEEPS_NOTHING)}),
        (frames_that_wait, {"more": least, "before": slow}),
        (longest_messages, {"more": least, "env": as_shipped()}),
    ):
        with scenario.serving(program, **options) as broker:
            scenario.try_one(one, broker, checks)
    checks.tell(f"{time.monotonic() - start:.1f} s")
    return checks.status()


if __name__ == "__main__":
    sys.exit(main())
