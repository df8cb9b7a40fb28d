#!/usr/bin/env python3
"""Has each growth of memory refused in turn under the calls that may be refused one, and compares what they answer and leave with
what docs/PROTOCOL.md, docs/JOURNAL.md and docs/THREADS.md say. The comparing is done by tests (`refusal_tests` of the crates below), of
which each makes one such call, looks at what stands then, and says what it saw:

    whole      the call gave its whole answer
    refused    it was refused memory, said so, and left what it should
    unseen     memory was refused before the call, or after it

What they see otherwise fails them. They run in the gate too, where nothing is refused. Here each is run again and again: the first growth
is refused, then the second, and so on until a run meets no refusal.

    python3 tests/program/no_memory.py [PROGRAM] [--rt N] [--only WORD]

The tests are built by `rt test`, which proves them if they changed. A growth is refused by tests/program/refuse_memory.c, a library that is loaded
before the C library. With --rt N the toolchain's own runner (`rt try --test --fail-alloc N`) refuses the growth of that number too, and must
see the same; it compiles the tests anew for each number, which takes it half a minute and more.

PROGRAM, or else bin/stompd, runs a script likewise: it prints all, with status 0; or a front of that, with status 1 and `no memory`, or
`J3 device failed` if the disk in memory was refused it. Needs Python 3, `rt` and a C compiler; the status is 2 if one of these can't be run.
"""

import argparse
import collections
import mmap
import pathlib
import re
import shutil
import struct
import subprocess
import sys
import tempfile

from lib.scenario import TOP

RT = TOP / "bin" / "rt"
LIBRARY = TOP / "tests" / "program" / "refuse_memory.c"

# The crates, and the tests in them: what is called, and the test.
TESTS = {
    "broker_tests": (
        ("FrameReader::feed", "a_reader_that_is_refused_memory_has_failed"),
        ("Session::feed", "a_session_that_is_refused_memory_has_failed"),
        ("decode of a record", "a_record_for_which_memory_is_refused_is_not_called_damaged"),
        ("encode of a command", "a_command_for_whose_record_memory_is_refused_is_whole"),
        ("Broker::step", "a_broker_that_is_refused_memory_holds_nothing_but_its_count"),
        ("Broker::restart", "a_broker_whose_restart_is_refused_memory_holds_nothing"),
        ("decode_state", "a_snapshot_for_which_memory_is_refused_is_not_called_damaged"),
        ("encode_state", "a_state_for_whose_snapshot_memory_is_refused_is_whole"),
    ),
    "journal_tests": (("open", "a_journal_for_which_memory_is_refused_is_opened_the_next_time"),),
    "flush_tests": (("Flusher::compact", "a_compaction_for_which_memory_is_refused_leaves_the_state"),),
    "hub_tests": (
        ("flush_loop", "a_flusher_that_is_refused_memory_stops_and_loses_nothing"),
        ("worker", "a_worker_that_is_refused_memory_sends_nothing_else"),
        ("run_script", "a_script_that_is_refused_memory_prints_a_front_of_what_it_would"),
    ),
}

# More growths than any of them has.
MOST = 20_000

WORDS = ("whole", "refused", "unseen")

# With this status a script says that it lacks a package.
LACKS = 2

# What PROGRAM runs, and what it says if it is refused memory.
SCRIPT = b"""0 CONNECT%0Aaccept-version:1.2%0A%0A%00
0 SUBSCRIBE%0Aid:a%0Adestination:/queue/a%0Aack:client%0A%0A%00
1 CONNECT%0Aaccept-version:1.2%0A%0A%00
1 SEND%0Adestination:/queue/a%0Areceipt:r%0A%0Ahi%00
flush
0 ACK%0Aid:0%0A%0A%00
open
"""
REFUSALS = (b"stompd: no memory\n", b"stompd: J3 device failed\n")


class Refusing:
    """Runs the tests of a built program with one growth refused."""

    def __init__(self, program, library, folder):
        self.program, self.library, self.folder = program, library, folder
        self.counted = folder / "counted"
        listed = subprocess.run([program, "--list"], cwd=folder, capture_output=True, text=True, check=True).stdout
        # The full name of a test has the file that it stands in.
        self.names = {it.rpartition("::")[2]: it for it in re.findall(r"^(\w+::\w+)", listed, re.M)}

    def run(self, test, number):
        """What the test says if that growth is refused, and how many growths it came to; without a number none is."""
        self.counted.write_bytes(bytes(mmap.PAGESIZE))
        how = {"LD_PRELOAD": str(self.library), "COUNTED": str(self.counted), "REFUSED": str(number)}
        ran = subprocess.run([self.program, self.names[test]], env=how, cwd=self.folder, capture_output=True, text=True, errors="replace", timeout=60)
        (growths,) = struct.unpack("=q", self.counted.read_bytes()[:8])
        return said(ran), growths


def said(ran):
    """The word that a test says, or how it failed."""
    words = [it.strip() for it in ran.stdout.splitlines() if it.strip() in WORDS]
    if ran.returncode == 0 and len(words) == 1:
        return words[0]
    return f"status {ran.returncode}: {(ran.stdout + ran.stderr).strip()[-300:]}"


def refuse_each(refusing, test):
    """Refuses each growth in turn. Returns how often each word was said, and what was said otherwise, by the growth's number."""
    seen, wrong = collections.Counter(), {}
    first, _ = refusing.run(test, 0)
    if first != "whole":
        wrong[0] = f"nothing was refused, and it says {first}"
    for number in range(1, MOST):
        word, growths = refusing.run(test, number)
        if growths < number:
            if word != "whole":
                wrong[number] = word
            if not seen["refused"]:
                wrong[number] = "no growth of the call was refused"
            return seen, wrong
        seen[word] += 1
        if word not in WORDS:
            wrong[number] = word
    wrong[MOST] = "it has more growths"
    return seen, wrong


def built_tests(crate):
    """The program with the tests of a crate, which `rt test` proves and builds."""
    if not shutil.which("rt"):
        print("no_memory: rt is missing", file=sys.stderr)
        sys.exit(LACKS)
    words = [RT, "test"]
    ran = subprocess.run(words, cwd=TOP / "crates" / crate, capture_output=True, text=True, errors="replace")
    if ran.returncode:
        sys.exit(f"no_memory: the tests of {crate} don't pass\n{ran.stdout[-2000:]}{ran.stderr[-2000:]}")
    return TOP / "crates" / crate / "out" / f"{crate}_tests"


def built_library(folder):
    compiler = shutil.which("cc") or shutil.which("gcc") or shutil.which("clang")
    if not compiler:
        print("no_memory: a C compiler is missing", file=sys.stderr)
        sys.exit(LACKS)
    library = folder / "refuse_memory.so"
    subprocess.run([compiler, "-O1", "-fPIC", "-shared", "-o", library, LIBRARY], check=True)
    return library


def script_of(program, env):
    try:
        return subprocess.run([program, "script"], input=SCRIPT, env=env, capture_output=True, timeout=60)
    except OSError as error:
        print(f"no_memory: {program} can't be run: {error}", file=sys.stderr)
        sys.exit(LACKS)


def refuse_script(program, library, folder):
    """Refuses each growth of the program in turn while it runs a script: how many were refused, and what was wrong, by the growth's number."""
    counted = folder / "counted"
    counted.write_bytes(bytes(mmap.PAGESIZE))
    whole = script_of(program, None)
    wrong = {} if whole.returncode == 0 and whole.stdout else {0: f"nothing was refused, and it says {whole.stderr}"}
    refused = 0
    for number in range(1, MOST):
        counted.write_bytes(bytes(mmap.PAGESIZE))
        ran = script_of(program, {"LD_PRELOAD": str(library), "COUNTED": str(counted), "REFUSED": str(number)})
        is_whole = (ran.returncode, ran.stdout, ran.stderr) == (0, whole.stdout, b"")
        if struct.unpack("=q", counted.read_bytes()[:8])[0] < number:
            if not is_whole or not refused:
                wrong[number] = f"refused {refused}, and at last status {ran.returncode}: {ran.stderr}"
            return refused, wrong
        is_front = ran.returncode == 1 and whole.stdout.startswith(ran.stdout) and ran.stderr in REFUSALS
        refused += is_front
        if not is_whole and not is_front:
            wrong[number] = f"status {ran.returncode}: {ran.stdout} {ran.stderr}"
    wrong[MOST] = "it has more growths"
    return refused, wrong


def words_of_rt(crate, number):
    """What each test says if the toolchain's runner refuses that growth."""
    words = [RT, "try", "--test", "--fail-alloc", str(number)]
    ran = subprocess.run(words, cwd=TOP / "crates" / crate, capture_output=True, text=True, errors="replace")
    return dict(re.findall(r"^test \w+::(\w+) \.\.\. ok\n +(\w+)$", ran.stdout + ran.stderr, re.M))


def main():
    parser = argparse.ArgumentParser(description=__doc__, formatter_class=argparse.RawDescriptionHelpFormatter)
    parser.add_argument("program", nargs="?")
    parser.add_argument("--rt", type=int, metavar="N", help="the toolchain's runner refuses the growth of this number too")
    parser.add_argument("--only", default="", metavar="WORD", help="only the crates whose name has this word")
    given = parser.parse_args()
    failed = 0
    with tempfile.TemporaryDirectory(prefix="no-memory-") as room:
        folder = pathlib.Path(room)
        library = built_library(folder)
        refused, wrong = refuse_script(given.program or TOP / "bin" / "stompd", library, folder)
        failed += len(wrong)
        print(f"the program's script: {refused} growths refused, each in a run of its own", flush=True)
        for number, word in wrong.items():
            print(f"no_memory: the program's script: growth {number}: {word}", file=sys.stderr)
        for crate, tests in TESTS.items():
            if given.only not in crate:
                continue
            refusing = Refusing(built_tests(crate), library, folder)
            by_rt = words_of_rt(crate, given.rt) if given.rt else {}
            for call, test in tests:
                seen, wrong = refuse_each(refusing, test)
                if given.rt and by_rt.get(test) != refusing.run(test, given.rt)[0]:
                    wrong[given.rt] = f"by rt {by_rt.get(test)}"
                failed += len(wrong)
                print(f"{call}: {sum(seen.values())} growths refused, each in a run of its own; {', '.join(f'{seen[it]} {it}' for it in WORDS)}", flush=True)
                for number, word in wrong.items():
                    print(f"no_memory: {call}: growth {number}: {word}", file=sys.stderr)
    print(f"no_memory: {failed} failed")
    return 1 if failed else 0


if __name__ == "__main__":
    sys.exit(main())
