#!/usr/bin/env python3
"""A device that fails a sync, a start after that, and then a loss of power. After an `fsync` that failed Linux takes its pages for written: a process reads
what was written, and the device doesn't have it. Needs strace and Python 3 alone.

    python3 tests/program/lost_writes.py [PROGRAM]

A server stores messages and compacts its journal, and each of its syncs fails in turn. The next one starts over what the file reads as. The device
is played here, page by page, from a trace of both: a sync that fails leaves it as it was, and one that succeeds gives it the pages that were written since
the last one. At each call of the start the power fails, with none, the first half or the second half of these pages on the device; and what the
start has written since its last sync is there, or holds any bytes in its place. What the device holds then is a journal with all that had its
receipt.
"""

import pathlib
import sys
import tempfile

from lib import scenario
from lib.commands import held_or_fault
from lib.stomp_client import Client, Closed
from lib.tracing import SYNC, WRITE, Device, bytes_of, need_strace, strace, text_of

# Two areas of 32 KiB, so that a few large messages fill one.
JOURNAL_BYTES = 32 + 2 * 32_768
# How many messages are kept before, and in the life in which a sync fails; and how many more pass.
QUEUE, BEFORE, KEPT, PASSING, BODY = "/queue/kept", 1, 2, 14, "x" * 4_000
MOST_SYNCS = 200

def calls_of(trace):
    """The writes of a trace, and its syncs with whether they succeeded."""
    for line in text_of(trace).splitlines():
        if found := WRITE.search(line):
            yield "write", bytes_of(found[2]), int(found[3])
        elif found := SYNC.search(line):
            yield "sync", found[2] == "0"


class Life:
    """A server under strace, with its sync of that number failing, if one is given."""

    def __init__(self, program, folder, failing=None):
        self.trace = f"{folder}/trace"
        faults = [f"fdatasync:error=EIO:when={failing}"] if failing else []
        # Whether it listens, and whether no sync has failed since.
        self.serves = self.is_whole = True
        try:
            self.broker = scenario.Broker(program, f"{folder}/journal", before=strace(self.trace, "pwrite64,fdatasync", *faults, has_texts=True))
        except scenario.Unserved:
            self.serves = False

    def talk(self, kept, passing):
        """Stores so many messages that are kept, and so many that aren't; how many of the first have their receipt."""
        receipted = 0
        if not self.serves:
            return receipted
        try:
            client = Client(self.broker.port).connect()
            for number in range(kept):
                client.publish(QUEUE, f"{number} {BODY}")
                receipted += 1
            for number in range(passing):
                client.publish("/topic/nobody", f"{number} {BODY}")
        except (Closed, ConnectionError):
            self.is_whole = False
        return receipted

    def end(self):
        if self.serves:
            self.broker.kill() if self.is_whole else self.broker.await_end()
        return list(calls_of(self.trace))


def play(device, call):
    kind, *rest = call
    (device.write if kind == "write" else device.sync)(*rest)


def fail_once(program, folder, failing, checks):
    """A life whose sync of that number fails, and a start after it; whether that sync was reached."""
    journal, lost = f"{folder}/journal", f"{folder}/lost"
    pathlib.Path(journal).unlink(missing_ok=True)
    scenario.make_journal(program, journal, JOURNAL_BYTES)
    before = Life(program, folder)
    receipted = before.talk(BEFORE, 0)
    before.end()
    # All that was stored before is on the device.
    device = Device(pathlib.Path(journal).read_bytes())
    first = Life(program, folder, failing)
    receipted += first.talk(KEPT, PASSING)
    calls = first.end()
    for call in calls:
        play(device, call)
    if ("sync", False) not in calls:
        checks.check("a life in which no sync fails goes through", first.is_whole, receipted)
        return False
    second = Life(program, folder)
    seen = set()
    device.ranges = []
    for call in [None, *second.end()]:
        if call:
            play(device, call)
        for content in device.torn():
            pathlib.Path(lost).write_bytes(content)
            there = held_or_fault(program, lost)
            seen.add(there if isinstance(there, str) or there < receipted else "all")
    checks.same(f"sync {failing} fails: {receipted} messages with a receipt are there after each loss of power", seen, {"all"})
    return True


def main():
    program, checks = scenario.program_of(__doc__), scenario.Checks()
    need_strace()
    with tempfile.TemporaryDirectory(prefix="lost-") as folder:
        syncs = next(number for number in range(1, MOST_SYNCS) if not fail_once(program, folder, number, checks))
    checks.check("there were compactions", syncs > 2 * (KEPT + PASSING) + 5, syncs)
    return checks.status()


if __name__ == "__main__":
    sys.exit(main())
