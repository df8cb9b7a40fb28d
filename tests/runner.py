"""The scripts that stand beside the gate, and what runs them: side by side, as many as there are processors, each with a temporary folder and ports of its
own (tests/lib/scenario.py). bin/test has the words for it.

A script that passes has a line; one that fails has all that it printed.
"""

import concurrent.futures
import contextlib
import dataclasses
import functools
import os
import pathlib
import shutil
import signal
import subprocess
import sys
import tempfile
import threading
import time

TOP = pathlib.Path(__file__).resolve().parent.parent
# Debian's own Python has Debian's packages.
DEBIAN_PYTHON = pathlib.Path("/usr/bin/python3")
# With this status a script says that it lacks a package.
LACKS = 2
# After so many seconds a script is ended, and has failed.
LONGEST = 3_600

# How it is tried whether a program does what scripts need it for: strace may trace and inject faults, there is a C compiler, and Node has a WebSocket.
TRIES = {
    "strace": ["strace", "-f", "-qq", "-o", os.devnull, "-e", "inject=fdatasync:error=EIO", "true"],
    "cc": ["cc", "--version"],
    "node": ["node", "--experimental-websocket", "-e", "process.exit(typeof WebSocket === 'function' ? 0 : 1)"],
}


@functools.cache
def works(name):
    if shutil.which(name) is None:
        return False
    return subprocess.run(TRIES[name], stdin=subprocess.DEVNULL, stdout=subprocess.DEVNULL, stderr=subprocess.DEVNULL).returncode == 0


@dataclasses.dataclass(frozen=True)
class Script:
    """A script with its further words. `light` are those with which bin/test runs it: it needs Python 3 alone then, or the programs that it `needs`, and
    ends soon. With `None` it is run only if it is asked for; so it is left out, which is told, if one of these is missing."""

    path: str
    words: str = ""
    light: str | None = None
    needs: tuple[str, ...] = ()
    # Whether it mostly waits: two of these run for each processor.
    waits: bool = False
    # Why it can't run beside others: it runs alone, after all that can.
    alone: str = ""

    def lacks(self):
        """Which of what it needs isn't there, or may not do here what it is needed for."""
        return [it for it in self.needs if not works(it)]

    def runs(self):
        if self.path.endswith(".sh"):
            return "sh"
        return DEBIAN_PYTHON if self.path.endswith("/independent.py") and DEBIAN_PYTHON.exists() else sys.executable


@dataclasses.dataclass(frozen=True)
class Call:
    script: Script
    words: str

    def name(self):
        return f"{self.script.path} {self.words}".rstrip()


@dataclasses.dataclass(frozen=True)
class Ending:
    call: Call
    status: int
    seconds: float
    processor_seconds: float
    told: str


SCRIPTS = [
    # Those that wait, the longest first, so that none of these is begun last.
    Script("clients/module.py", light="--engine Node --kills 1", needs=("node",), waits=True),
    Script("tests/program/steady_readers.py", light="", waits=True),
    Script("tests/program/figures.py", light="", waits=True),
    Script("tests/program/move.py", light="", waits=True),
    Script("tests/program/handshakes.py", light="", waits=True),
    Script("tests/program/client.py", light="", waits=True),
    Script("tests/program/client_goes_on.py", light="", waits=True),
    Script("tests/program/kinds.py", light="", waits=True),
    Script("tests/program/pauses.py", light="", waits=True),
    Script("tests/program/full_journal.py", light="", waits=True),
    Script("tests/program/telling.py", light="", waits=True),
    Script("tests/program/failing_disk.py", light="", needs=("strace",), waits=True),
    Script("tests/program/holding.py", light="", waits=True),
    Script("tests/program/serve_script.py", light="--few", waits=True),
    Script("tests/program/ping.py", light="", waits=True),
    Script("tests/program/replaced_journal.py", light="", waits=True),
    Script("tests/program/log_objects.py", light="", waits=True),
    # The others. bin/test runs these first ones whole by itself.
    Script("tests/scripts.py", "--everywhere"),
    Script("tests/program/statuses.py", light=""),
    Script("tests/program/version.py", light=""),
    Script("tests/program/client_calls.py", light="", needs=("strace",)),
    Script("tests/program/closed_streams.py", light=""),
    Script("tests/program/ending.py", light="--few", alone="it measures how soon newcomers are let go"),
    Script("tests/program/alerts.py", light=""),
    Script("tests/program/metrics.py", light=""),
    Script("tests/program/copies.py", light=""),
    Script("tests/program/copies_meanwhile.py", light="", needs=("strace",)),
    Script("tests/program/logins.py", light=""),
    Script("tests/program/trace_serve.py", light="", needs=("strace",)),
    Script("tests/program/lost_writes.py", light="", needs=("strace",)),
    Script("tests/program/start_calls.py", light="", needs=("strace",)),
    Script("tests/program/closes.py", light=""),
    Script("tests/program/slow_disk.py", light="", needs=("cc",)),
    Script("tests/program/refusals.py", light=""),
    Script("tests/program/no_memory.py"),
    Script("tests/attack/under_attack.py", alone="it measures receipts and memory"),
    Script("tests/attack/dear_frames.py", light="--few", alone="it measures receipts while clients take all processors"),
    Script("tests/attack/joins.py", light="--few"),
    Script("tests/program/memory_budget.py", alone="it measures receipts and memory"),
    Script("tests/program/holders.py", light=""),
    Script("tests/program/long_names.py", light=""),
    Script("tests/attack/soak.py", "--minutes 1", alone="it measures how soon a client is served"),
    Script("tests/program/waits.py", "--minutes 10", light="--minutes 0.5", alone="it measures the longest wait"),
    Script("tests/program/readiness.py"),
    Script("tests/program/unproved.py"),
    Script("tests/program/packing.py"),
    Script("tests/program/hardening.py"),
    Script("tests/program/manual.py"),
    Script("tests/program/rooms.py", light=""),
    Script("tests/program/crowd.py", light="", alone="it measures how soon 700 are connected, and what idle ones cost"),
    Script("tests/program/crowd.py", "--many", alone="it measures 10,000 clients"),
    Script("tests/program/backpressure.py", light="", alone="it measures that nobody else waits"),
    Script("tests/program/slow_reader.py", light="", alone="it measures that nobody else waits"),
    Script("tests/program/starved_readers.py", alone="it takes all processors"),
    Script("tests/program/unread.py", light=""),
    Script("tests/program/rubbish.py", light=""),
    Script("clients/independent.py"),
    Script("clients/browser.py"),
    Script("clients/module_types.py"),
    Script("clients/module_package.py"),
    Script("clients/proxies.py"),
    Script("clients/secure_page.py"),
    Script("clients/containers.py"),
    Script("clients/standby.py"),
    Script("tests/kills/kills.py", "--rounds 100", light="--rounds 20"),
    Script("tests/kills/kills.py", "--crowd --rounds 100"),
    Script("tests/kills/compactions.py", "--kills 100", alone="it measures how often a journal is compacted"),
    Script("tests/program/compaction_memory.py", light=""),
    Script("tests/kills/migrating.py", "--kills 100"),
    Script("tests/kills/making.py"),
]


class Calls:
    """Those that are under way, each with its group of processes, which is ended with it."""

    def __init__(self, program):
        self.program, self.lock, self.groups, self.is_over = program, threading.Lock(), set(), False

    def run(self, call):
        with tempfile.TemporaryDirectory(prefix="stompd-test-") as folder, tempfile.TemporaryFile() as told:
            words = [call.script.runs(), TOP / call.script.path, self.program, *call.words.split()]
            began = time.monotonic()
            with self.lock:
                if self.is_over:
                    raise KeyboardInterrupt
                process = subprocess.Popen(words, env={**os.environ, "TMPDIR": folder}, stdin=subprocess.DEVNULL, stdout=told, stderr=told, start_new_session=True)
                self.groups.add(process.pid)
            late = threading.Timer(LONGEST, end_group, [process.pid])
            late.start()
            _, status, used = os.wait4(process.pid, 0)
            late.cancel()
            seconds = time.monotonic() - began
            with self.lock:
                self.groups.discard(process.pid)
            process.returncode = os.waitstatus_to_exitcode(status)
            end_group(process.pid)
            told.seek(0)
            return Ending(call, process.returncode, seconds, used.ru_utime + used.ru_stime, told.read().decode(errors="replace"))

    def end(self):
        with self.lock:
            self.is_over = True
            for it in self.groups:
                end_group(it)


def end_group(number):
    with contextlib.suppress(ProcessLookupError):
        os.killpg(number, signal.SIGKILL)


def tell(ending, number, count):
    verdict = {0: "ok", LACKS: "LACKS"}.get(ending.status, f"FAILED with status {ending.status}")
    print(f"{number:3} of {count}  {verdict}  {ending.call.name()}  {ending.seconds:.0f} s, {ending.processor_seconds:.0f} of a processor", flush=True)
    if ending.status != 0:
        print(f"{ending.told.rstrip()}\n", flush=True)


def run_all(calls, program, processors):
    """Runs these, and answers how each ended."""
    under_way, endings = Calls(program), []
    alone = [it for it in calls if it.script.alone]
    waiting = [it for it in calls if it.script.waits]
    busy = [it for it in calls if it not in alone and it not in waiting]
    # All that wait take about one.
    at_once = max(1, processors - bool(waiting))

    def hear(futures):
        for it in concurrent.futures.as_completed(futures):
            endings.append(it.result())
            tell(endings[-1], len(endings), len(calls))

    with concurrent.futures.ThreadPoolExecutor(2 * processors) as patient, concurrent.futures.ThreadPoolExecutor(at_once) as eager:
        try:
            hear([*(patient.submit(under_way.run, it) for it in waiting), *(eager.submit(under_way.run, it) for it in busy)])
            for it in alone:
                hear([eager.submit(under_way.run, it)])
        finally:
            under_way.end()
    return endings


def tests_of(crate):
    """What the README of a crate names in its line `Tests: `: crates of tests, folders of tests/scripts, and scripts."""
    page = (TOP / "crates" / crate / "README.md").read_text(encoding="utf-8")
    lines = [it.removeprefix("Tests: ") for it in page.splitlines() if it.startswith("Tests: ")]
    return lines[0].split("; ") if len(lines) == 1 else []


def untested():
    """The crates whose README names no tests, or some that aren't there."""
    known = {it.path for it in SCRIPTS} | {f"{it.relative_to(TOP)}" for it in (TOP / "tests" / "scripts").rglob("")} | {it.parent.name for it in TOP.glob("crates/*/src")}
    return [it for it in sorted(it.parent.name for it in TOP.glob("crates/*/src")) if not tests_of(it) or not known.issuperset(tests_of(it))]


def chosen(only, is_whole):
    """The calls of these scripts, and the scripts that lack a program. One that is named runs with its light words, or else with those that it has."""
    scripts = [it for it in SCRIPTS if not only or any(word in f"{it.path} {it.words}" for word in only)]
    calls, unmet = [], []
    for it in scripts:
        if is_whole or (only and it.light is None):
            calls.append(Call(it, it.words))
        elif it.light is not None:
            (unmet if it.lacks() else calls).append(Call(it, it.light))
    return calls, unmet


def run(program, only=(), is_whole=False, processors=None):
    """Runs the scripts with one of these words in their path or words, or all; answers how many passed, and how many failed."""
    calls, unmet = chosen(only, is_whole)
    endings = run_all(calls, program, processors or len(os.sched_getaffinity(0)))
    statuses = [it.status for it in endings]
    passed, lacking = statuses.count(0), statuses.count(LACKS)
    for it in endings:
        if it.status not in (0, LACKS):
            print(f"FAILED  {it.call.name()}")
    for it in unmet:
        print(f"not run  {it.path}: {' and '.join(it.lacks())} is missing, or may not do here what it is needed for")
    failed = len(statuses) - passed - lacking
    print(f"{passed} scripts passed, {failed} failed, {lacking + len(unmet)} not run for want of a package, {len(SCRIPTS) - len(calls) - len(unmet)} left out", flush=True)
    return passed, failed + lacking
