#!/usr/bin/env python3
"""Fails and stops each call of a start, and tears what a start writes back. Needs strace and Python 3 alone.

    python3 tests/program/start_calls.py [PROGRAM]

A server has stored some messages and was killed. Each call that the next start makes of the journal's file, up to its line `listening`, fails once
with EIO, and in another start the process is killed at it. Each time the journal then opens with all messages that had a receipt, and a start over
it serves. A start that fails says why in one line.

The first sync of a start writes some bytes of the header back. A loss of power may leave any bytes in their place: each of many such images shows
the same as the journal, and a start over some of them holds the same messages.
"""

import pathlib
import random
import re
import shutil
import sys
import tempfile

from lib.commands import held_or_fault, run
from lib.scenario import Broker, Checks, Unserved, make_journal, program_of
from lib.stomp_client import Client
from lib.tracing import need_strace, strace, text_of

JOURNAL_BYTES = 32 + 2 * 16_384
QUEUE, MESSAGES, BODY = "/queue/kept", 12, "x" * 300
# Calls that name the file, or one of its descriptors.
CALLS = "openat,flock,fstat,statx,newfstatat,lseek,fcntl,pread64,pwrite64,fdatasync,fsync,ftruncate"
# The header's bytes that mean nothing, by docs/JOURNAL.md: those behind the selector.
SLACK = range(17, 32)
IMAGES = 300
# What is told of a start that fails.
DEVICE, CANNOT_OPEN = "J3 device failed: input/output error", ": the system refuses it"


def prepared(program, folder):
    """A journal with messages, each with its receipt."""
    journal = make_journal(program, folder / "journal", JOURNAL_BYTES)
    broker = Broker(program, journal)
    client = Client(broker.port).connect()
    for number in range(MESSAGES):
        client.publish(QUEUE, f"{number} {BODY}")
    client.close()
    broker.kill()
    return journal


def start(program, journal, trace, *injected):
    """A start under strace, after which the server is killed: whether it listened, and its last line."""
    words = strace(trace, CALLS, *injected, path=journal)
    try:
        server = Broker(program, journal, before=words)
    except Unserved as fault:
        return False, (fault.told.splitlines() or [""])[-1]
    server.kill()
    return True, (server.text().splitlines() or [""])[-1]


def counts_of(trace):
    """How often each call was made."""
    counts = {}
    for line in text_of(trace).splitlines():
        if found := re.match(r"\d+ +(\w+)\(", line):
            counts[found[1]] = counts.get(found[1], 0) + 1
    return counts


def serves(program, journal):
    """Whether a start over it holds all messages."""
    Broker(program, journal).kill()
    return held_or_fault(program, journal)


def try_calls(program, folder, journal, checks):
    trace, copy = str(folder / "trace"), folder / "copy"
    shutil.copy(journal, copy)
    listens, line = start(program, copy, trace)
    checks.check("a start listens", listens, line)
    counts = counts_of(trace)
    checks.check("a start locks, reads, writes and syncs", {"openat", "flock", "pread64", "pwrite64", "fdatasync"} <= set(counts), counts)
    for name, count in sorted(counts.items()):
        for number in range(1, count + 1):
            for fault in ("error=EIO", "signal=SIGKILL"):
                what = f"{fault} at {name} {number} of {count}"
                shutil.copy(journal, copy)
                listens, line = start(program, copy, trace, f"{name}:{fault}:when={number}")
                if not listens and fault == "error=EIO":
                    # The first read is made while the file is opened.
                    is_open = name in ("pwrite64", "fdatasync") or (name == "pread64" and number > 1)
                    checks.check(f"{what}: one line says why", line.endswith((DEVICE,) if is_open else (DEVICE, CANNOT_OPEN)), line)
                checks.same(f"{what}: what the journal holds", held_or_fault(program, copy), MESSAGES)
                checks.same(f"{what}: and after another start", serves(program, copy), MESSAGES)


def fillings():
    """Many fillings of the bytes that are written back: all the same, one that differs, and any."""
    chance = random.Random(17)
    for byte in (0, 1, 0x30, 0x53, 0x7F, 0x80, 0xFF):
        yield bytes([byte] * len(SLACK))
    for place in range(len(SLACK)):
        yield bytes(0xFF if at == place else 0 for at in range(len(SLACK)))
    for _ in range(IMAGES):
        yield chance.randbytes(len(SLACK))


def tear_what_is_written_back(program, folder, journal, checks):
    """The range is that of the first write of a start."""
    trace, copy = str(folder / "trace"), folder / "copy"
    shutil.copy(journal, copy)
    start(program, copy, trace)
    writes = re.findall(r"pwrite64\(.*, (\d+), (\d+)\) += \d+", text_of(trace))
    checks.same("the first write of a start", writes[0], (str(len(SLACK)), str(SLACK.start)))
    before, content = run(program, "show", journal), journal.read_bytes()
    wrong = set()
    for number, filling in enumerate(fillings()):
        image = content[: SLACK.start] + filling + content[SLACK.stop :]
        copy.write_bytes(image)
        if run(program, "show", copy) != before:
            wrong.add(filling)
        if number % 40 == 0 and serves(program, copy) != MESSAGES:
            wrong.add(filling)
    checks.same("images that show anything else", wrong, set())


def main():
    program, checks = program_of(__doc__), Checks()
    checks.is_brief = True
    need_strace()
    with tempfile.TemporaryDirectory(prefix="start-") as name:
        folder = pathlib.Path(name).resolve()
        journal = prepared(program, folder)
        checks.same("what the journal holds before", held_or_fault(program, journal), MESSAGES)
        try_calls(program, folder, journal, checks)
        tear_what_is_written_back(program, folder, journal, checks)
    return checks.status()


if __name__ == "__main__":
    sys.exit(main())
