#!/usr/bin/env python3
"""`stompd copy` and `held` of a journal that is compacted twice while they read it: they stand still between two reads of the area, whose bytes
are others when they go on. Each then reads again, and answers what the journal holds.

    python3 tests/program/copies_meanwhile.py [PROGRAM]

It takes some ten seconds, and needs strace.
"""

import os
import pathlib
import random
import re
import signal
import subprocess
import sys
import tempfile
import time

from lib import scenario
from lib.commands import run, run_for_text
from lib.stomp_client import Client
from lib.tracing import need_strace, strace, text_of

# Two areas of 256 KiB, which some seventy SENDs fill. Their bodies have other lengths, so that blocks begin and end elsewhere each time.
JOURNAL_BYTES, BODIES = 524_320, (1_000, 6_000)
# So many messages are held whenever nothing is sent, and so many are sent at a time, and then acknowledged.
HELD, WINDOW = 10, 6
# The commands stand still before reads of these numbers, counted from the first one of the area's header on.
READS = {"held": range(2, 7, 2), "copy": range(1, 12, 2)}
# The most seconds that a command may take to come to that read, or to its end.
MOST = 20


class Load:
    """A client that sends to a queue and acknowledges, so that always as many are held."""

    def __init__(self, broker):
        self.client = Client(broker.port, timeout=20).connect()
        self.client.subscribe("q", "/queue/held", ack="client-individual")
        self.broker, self.waiting = broker, []
        self.send(HELD)

    def send(self, count):
        for at in range(count):
            self.client.send("SEND", [("destination", "/queue/held"), ("receipt", f"{at}")], "x" * random.randint(*BODIES))
        self.await_receipts(count)

    def acknowledge(self, count):
        while len(self.waiting) < count:
            self.waiting.append(self.client.receive().headers["ack"])
        for at in range(count):
            self.client.send("ACK", [("id", self.waiting.pop(0)), ("receipt", f"{at}")])
        self.await_receipts(count)

    def await_receipts(self, count):
        for at in range(count):
            self.waiting += [it.headers["ack"] for it in self.client.receipt(f"{at}") if it.command == "MESSAGE"]

    def compact_twice(self):
        """Sends and acknowledges until the journal was compacted twice more, and some blocks stand after that."""
        wanted, end = self.compactions() + 2, time.monotonic() + MOST
        while self.compactions() < wanted and time.monotonic() < end:
            self.send(WINDOW)
            self.acknowledge(WINDOW)
        return self.compactions() >= wanted

    def compactions(self):
        return self.broker.text().count(" compacted")


def first_read_of_area(program, words):
    """Which read of the process, from 1, is the first of an area: eight bytes at the offset 32 or after the first area."""
    with tempfile.TemporaryDirectory(prefix="reads-") as folder:
        run(*strace(f"{folder}/trace", "pread64"), program, *words)
        offsets = [re.search(r", (\d+), (\d+)\)\s+= \d+$", line) for line in text_of(f"{folder}/trace").splitlines() if "pread64(" in line]
    places = [(int(it[1]), int(it[2])) for it in offsets if it]
    # The header is read first: its six letters.
    start = places.index((6, 0))
    return next(at for at, (_, offset) in enumerate(places[start:], start + 1) if offset >= 32)


def await_stop(trace):
    """Whether the process stands still, by what strace writes."""
    end = time.monotonic() + MOST
    while time.monotonic() < end:
        if trace.exists() and "stopped by SIGSTOP" in trace.read_text(encoding="utf-8"):
            return True
        time.sleep(0.005)
    return False


def run_with_a_stop(program, words, read, meanwhile):
    """Runs a command, which stands still before that read while something is done. Answers its status and what it printed."""
    with tempfile.TemporaryDirectory(prefix="stopped-") as folder:
        trace = pathlib.Path(folder) / "trace"
        tracer = strace(trace, "pread64", f"pread64:signal=SIGSTOP:when={read}")
        process = subprocess.Popen([*tracer, program, *words], stdout=subprocess.PIPE, stderr=subprocess.PIPE, text=True)
        if not await_stop(trace):
            process.kill()
            raise AssertionError(f"it does not come to read {read}")
        done = meanwhile()
        os.kill(scenario.child_of(process.pid), signal.SIGCONT)
        out, err = process.communicate(timeout=MOST)
        return process.returncode, out, err, done


def reads_again(broker, checks):
    """each command reads again what was compacted meanwhile"""
    load = Load(broker)
    load.compact_twice()
    folder = pathlib.Path(broker.journal).parent
    copy = folder / "copy"
    for command, reads in READS.items():
        words = [command, broker.journal, *([str(copy), str(JOURNAL_BYTES), "--sparse"] if command == "copy" else [])]
        first = first_read_of_area(broker.program, words)
        for read in reads:
            copy.unlink(missing_ok=True)
            status, out, err, done = run_with_a_stop(broker.program, words, first + read - 1, load.compact_twice)
            what = f"{command}, stopped before read {read} of the area"
            if not done:
                checks.check(f"{what}: the journal was compacted twice meanwhile", False)
                return
            if status != 0:
                checks.check(f"{what}: it succeeds", False, (status, err))
                continue
            if command == "copy":
                out = run_for_text(broker.program, "held", copy)[1]
            checks.check(f"{what}: held", out.startswith(f"messages {HELD} of "), out)
        copy.unlink(missing_ok=True)


def main():
    program = scenario.program_of(__doc__)
    need_strace()
    checks = scenario.Checks()
    with scenario.serving(program, journal_bytes=JOURNAL_BYTES) as broker:
        scenario.try_one(reads_again, broker, checks)
    return checks.status()


if __name__ == "__main__":
    sys.exit(main())
