#!/usr/bin/env python3
"""Starts each subcommand with each of the eight choices of closed standard streams: no file may get the number of one, so that nothing is written over
a journal.

    python3 tests/program/closed_streams.py [PROGRAM]

A journal that is shown has the same bytes afterwards. One that is served, with a client's receipts and compactions, is opened again after a kill, and
has what was acknowledged; `show` and `held` beside its server change nothing of it.
"""

import itertools
import os
import pathlib
import signal
import subprocess
import sys
import tempfile
import time

from lib.scenario import BriefChecks, free_port, program_of
from lib.stomp_client import Client

# Areas of 131,056 bytes, which SENDs of 60 KB to a topic fill at once.
SMALL_JOURNAL = "262144"
CLOSINGS = {0: "<&-", 1: ">&-", 2: "2>&-"}
CHOICES = [choice for size in range(4) for choice in itertools.combinations(CLOSINGS, size)]


class Checks(BriefChecks):
    def words(self, closed, *words):
        """The words of a shell that closes these streams and becomes the program."""
        closings = " ".join(CLOSINGS[it] for it in closed)
        return ["sh", "-c", f'exec "$@" {closings}', "sh", self.program, *map(str, words)]

    def run(self, closed, *words):
        done = subprocess.run(self.words(closed, *words), stdin=subprocess.DEVNULL, stdout=subprocess.PIPE, stderr=subprocess.PIPE, timeout=30)
        return done.returncode, done.stdout.decode()

    def journal(self, name):
        path = self.folder / name
        assert subprocess.run([self.program, "format", path, SMALL_JOURNAL], check=False).returncode == 0
        return path


def alone(checks, closed):
    """The subcommands that start no server."""
    name = "closed " + ("".join(map(str, closed)) or "none")
    checks.check(f"{name}: --version ends with 0", checks.run(closed, "--version")[0] == 0)
    checks.check(f"{name}: script ends with 0", checks.run(closed, "script")[0] == 0)
    made = checks.folder / f"made{name}"
    status, _ = checks.run(closed, "format", made, SMALL_JOURNAL)
    same = checks.journal(f"same{name}").read_bytes()
    checks.check(f"{name}: format makes a journal", status == 0 and made.read_bytes() == same, status)
    for command in ("show", "held"):
        status, wrote = checks.run(closed, command, made)
        checks.check(f"{name}: {command} ends with 0", status == 0, status)
        checks.check(f"{name}: {command} writes if it can", bool(wrote) == (1 not in closed), wrote)
        checks.check(f"{name}: {command} leaves the journal", made.read_bytes() == same)
    for words in (["serve", made, "0"], ["serve", checks.folder / "missing", "8080"], ["format", made, SMALL_JOURNAL]):
        status, _ = checks.run(closed, *words)
        checks.check(f"{name}: {words[0]} is refused", status in (1, 2), status)
        checks.check(f"{name}: a refused {words[0]} leaves the journal", made.read_bytes() == same)


def connected(port):
    end = time.monotonic() + 20
    while True:
        try:
            return Client(port).connect()
        except OSError:
            if time.monotonic() > end:
                raise
            time.sleep(0.05)


def served(checks, closed):
    """A server, with a compaction or two, and a look at its journal beside it."""
    name = "closed " + ("".join(map(str, closed)) or "none")
    journal, port = checks.journal(f"served{name}"), free_port()
    process = subprocess.Popen(checks.words(closed, "serve", journal, port), stdin=subprocess.DEVNULL, stdout=subprocess.DEVNULL, stderr=subprocess.DEVNULL)
    try:
        client = connected(port)
        client.publish("/queue/kept", "acknowledged")
        numbers = [os.readlink(f"/proc/{process.pid}/fd/{it}") for it in closed]
        checks.same(f"{name}: what has the numbers of closed streams", numbers, ["/dev/null"] * len(closed))
        for number in range(6):
            client.publish("/topic/nobody", f"{number}" + "x" * 60_000)
        before = journal.read_bytes()
        for command in ("show", "held"):
            status, _ = checks.run(closed, command, journal)
            checks.check(f"{name}: {command} beside the server ends with 0", status == 0, status)
            checks.check(f"{name}: {command} beside the server changes nothing", journal.read_bytes() == before)
        client.publish("/queue/kept", "acknowledged too")
    finally:
        process.send_signal(signal.SIGKILL)
        process.wait()
    status, wrote = checks.run((), "show", journal)
    checks.check(f"{name}: the journal is one after a kill", status == 0 and wrote.endswith("held 2\n"), (status, wrote))


def main():
    program = program_of(__doc__)
    with tempfile.TemporaryDirectory() as name:
        checks = Checks(program, pathlib.Path(name))
        for closed in CHOICES:
            alone(checks, closed)
            served(checks, closed)
    return checks.status()


if __name__ == "__main__":
    sys.exit(main())
