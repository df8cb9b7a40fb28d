#!/usr/bin/env python3
"""Measures the journal of the built program: what a flush costs, how long a journal takes to open, and what is written for
a command. README.md says what each figure means.

    python3 bench/journal.py [PROGRAM] [--runs N] [--folder FOLDER].. [--only CASE]..

PROGRAM is the built program; without it, the one that bin/stompd leaves in crates/stompd/out. The journals are made in each
FOLDER (/dev/shm, and the folder for temporary files), and removed. What is written is counted with strace, and left out
where that is missing.
"""

import pathlib
import re
import shutil
import statistics
import sys
import tempfile
import time

from measuring import MB, Times, arguments, machine, parsed, rounds, run, send_record
from serving import Load, Server, build_load, make_journal, shown

COMMANDS = 9_600


class Bench:
    def __init__(self, words, load, folder):
        self.program, self.runs = words.program, words.runs
        self.load, self.folder = load, folder
        self.journal = folder / "journal"


def flushed_script(count, every, connections):
    """A script of SENDs with receipts to a topic where nobody listens, from so many connections in turn, with a flush after
    so many, and what it prints."""
    lines, printed = [], []
    for connection in range(connections):
        lines.append(f"{connection} CONNECT%0Aaccept-version:1.2%0A%0A%00\n")
        printed.append(f"{connection} CONNECTED%0Aversion:1.2%0Asession:{connection}%0Aheart-beat:0,0%0A%0A%00\n")
    lines.append("flush\n")
    for number in range(count):
        lines.append(f"{number % connections} SEND%0Adestination:/topic/bench%0Areceipt:r{number}%0A%0Amessage {number}%00\n")
        printed.append(f"{number % connections} RECEIPT%0Areceipt-id:r{number}%0A%0A%00\n")
        if (number + 1) % every == 0:
            lines.append("flush\n")
    return "".join(lines).encode("ascii"), "".join(printed).encode("ascii")


def flushes(bench):
    """Commands a second through the disk in memory of `stompd script`: one connection and a flush a command, and four with
    eight commands each and a flush for all. Less the time for no commands."""
    print(f"stompd script, {COMMANDS:,} SENDs with receipts:")
    for every, connections in ((1, 1), (8, 1), (32, 4)):
        best = []
        for count in (0, COMMANDS):
            script, expected = flushed_script(count, every, connections)
            (bench.folder / "script").write_bytes(script)
            times = Times()
            for _ in rounds(3 * bench.runs):
                if run([bench.program, "script"], bench.folder / "script", times, bench.folder / "output") != expected:
                    sys.exit("flushes: the program printed something else than expected")
            best.append(times)
        seconds = best[1].best() - best[0].best()
        cpu = min(best[1].cpu) - min(best[0].cpu)
        print(f"  a flush every {every:>2}   {COMMANDS / seconds:>10,.0f} commands a second best   {cpu / COMMANDS * 1e6:6.2f} us of processor a command")


BODY = 100
# What a SEND takes in the journal, at most, with numbers of so many digits in its receipt and its body.
DIGITS = b"123456"
TAKES = send_record(b"/topic/none", (), DIGITS + b" " + BODY * b"x", DIGITS)


def show_seconds(bench):
    begun = time.perf_counter()
    shown(bench.program, bench.journal)
    return time.perf_counter() - begun


def serve_seconds(bench, filled):
    shutil.copyfile(filled, bench.journal)
    with Server(bench.program, bench.journal) as server:
        return server.started


def opens(bench):
    """Reading and folding journals of 1, 8 and 30 MB, by `stompd show` and from the start of `stompd serve` to `listening`,
    each less the same over an empty journal of that size."""
    filled = bench.folder / "filled"
    print(f"journals of SENDs with bodies of {BODY} bytes, filled by a running server that was killed:")
    for size in (1, 8, 30):
        make_journal(bench.program, filled, size * MB)
        empty_show, empty_serve = [], []
        for _ in range(bench.runs):
            empty_serve.append(serve_seconds(bench, filled))
            empty_show.append(show_seconds(bench))
        with Server(bench.program, filled) as server:
            Load(bench.load, server, "send", "/topic/none", int(size * MB * 0.97) // TAKES, BODY)
        show, serve = [], []
        for _ in range(bench.runs):
            shutil.copyfile(filled, bench.journal)
            show.append(show_seconds(bench))
            serve.append(serve_seconds(bench, filled))
        seen = shown(bench.program, filled)
        told = f"  {seen['used'] / MB:5.1f} MB, {seen['count']:>7,} commands:"
        for name, times, empty in (("show", show, empty_show), ("serve", serve, empty_serve)):
            seconds = min(times) - min(empty)
            told += f"   {name} {min(times) * 1e3:7.1f} ms ({statistics.median(times) * 1e3:.1f} median), empty {min(empty) * 1e3:.1f}, {seen['used'] / MB / seconds:6.1f} MB/s"
        print(told)


# A write into the journal's file, which is the first that is opened by its name.
WRITE = re.compile(r"pwrite64\((\d+), .*, \d+, \d+\) += (\d+)|<\.\.\. pwrite64 resumed>.*\) += (\d+)")


def written(trace):
    """How many bytes were written into the file, in how many writes, and how many syncs there were."""
    count_of_bytes = writes = syncs = 0
    for line in trace.read_text(encoding="ascii", errors="replace").splitlines():
        if found := WRITE.search(line):
            count_of_bytes += int(found.group(2) or found.group(3))
            writes += 1
        elif re.search(r"(fsync|fdatasync)(\(\d+\)| resumed>\)) += 0", line):
            syncs += 1
    return count_of_bytes, writes, syncs


def writes(bench):
    """What is written for a command of a running server, beside its record's bytes."""
    if not shutil.which("strace"):
        print("no strace here: what is written for a command is left out")
        return
    print("what a running server writes, by strace:")
    for connections, in_flight in ((1, 1), (1, 8), (31, 8)):
        make_journal(bench.program, bench.journal, 64 * MB)
        trace = bench.folder / "trace"
        before = ("strace", "-f", "-o", trace, "-e", "trace=pwrite64,fsync,fdatasync")
        with Server(bench.program, bench.journal, before) as server:
            Load(bench.load, server, "receipts", connections, in_flight, 2)
        seen = shown(bench.program, bench.journal)
        count_of_bytes, count, syncs = written(trace)
        # The start writes a snapshot and the selector. Each block has a sync behind it and one behind its gate.
        blocks = (syncs - 3) // 2
        records = seen["used"] - 41 - 9 * blocks
        print(
            f"  {connections:>2} connections, {in_flight} in flight: {seen['count']:>6,} commands in {blocks:>6,} blocks of {seen['count'] / blocks:5.2f}:"
            f" {count_of_bytes / seen['count']:6.1f} bytes a command, its record {records / seen['count']:6.1f}; {count / seen['count']:.2f} writes, {syncs / seen['count']:.2f} syncs"
        )


CASES = {case.__name__: case for case in (flushes, opens, writes)}


def main():
    parser = arguments("Measures the journal of stompd.")
    parser.add_argument("--folder", type=pathlib.Path, action="append", help="where the journals are made")
    parser.add_argument("--only", choices=CASES, action="append", help="measure this case alone")
    words = parsed(parser)
    folders = words.folder or [pathlib.Path("/dev/shm"), pathlib.Path(tempfile.gettempdir())]
    print(machine(), time.strftime("%Y-%m-%d %H:%M UTC", time.gmtime()))
    with tempfile.TemporaryDirectory() as built:
        load = build_load(pathlib.Path(built))
        for place, folder in enumerate(folders):
            with tempfile.TemporaryDirectory(dir=folder) as name:
                bench = Bench(words, load, pathlib.Path(name))
                print(f"{folder}:")
                for case in words.only or CASES:
                    # A script's disk is in memory, wherever the folder is.
                    if case != "flushes" or place == 0:
                        CASES[case](bench)
    print(machine())


if __name__ == "__main__":
    main()
