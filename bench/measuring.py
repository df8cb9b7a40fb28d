"""What the measurements share: running a program, its times, and how many bytes commands take in a journal."""

import argparse
import os
import pathlib
import platform
import resource
import statistics
import subprocess
import sys
import time

HERE = pathlib.Path(__file__).resolve().parent
PROGRAM = HERE.parent / "crates" / "stompd" / "out" / "stompd"

MB = 1_000_000
# A run that takes longer is stopped, and a case whose runs took as long together is not run again.
MOST_SECONDS = 55

# The bytes of a journal (docs/JOURNAL.md): an area of a script's disk, its front with nothing held, what a block has beside
# its records, and the record of a CONNECT.
AREA = 1_048_576
FRONT = 41
BLOCK = 9
CONNECT_RECORD = 11


def send_record(destination, headers, body, receipt=None):
    """How many bytes the record of a SEND has. `headers` are the kept ones."""
    kept = sum(8 + len(name) + len(value) for name, value in headers)
    return 8 + (1 if receipt is None else 5 + len(receipt)) + 1 + 4 + len(destination) + 2 + kept + 4 + len(body)


class Times:
    """What the runs of one case took."""

    def __init__(self):
        self.wall = []
        self.cpu = []

    def best(self):
        return min(self.wall)

    def median(self):
        return statistics.median(self.wall)


def cpu_seconds():
    used = resource.getrusage(resource.RUSAGE_CHILDREN)
    return used.ru_utime + used.ru_stime


def run(command, path, times, output):
    """Runs a command once on an input, and answers what it printed."""
    with open(path, "rb") as source, open(output, "wb") as sink:
        cpu, start = cpu_seconds(), time.perf_counter()
        done = subprocess.run(command, stdin=source, stdout=sink, stderr=subprocess.PIPE, timeout=MOST_SECONDS)
        times.wall.append(time.perf_counter() - start)
        times.cpu.append(cpu_seconds() - cpu)
    if done.returncode != 0:
        sys.exit(f"{command}: status {done.returncode}: {done.stderr.decode(errors='replace').strip()}")
    return output.read_bytes()


def rounds(runs):
    """The rounds of a case: as many as asked for, fewer where they take long."""
    start = time.perf_counter()
    for number in range(runs):
        if number and time.perf_counter() - start > MOST_SECONDS:
            return
        yield number


def machine():
    model = platform.processor() or "unknown processor"
    try:
        for line in open("/proc/cpuinfo", encoding="ascii", errors="replace"):
            if line.startswith("model name"):
                model = line.split(":", 1)[1].strip()
                break
    except OSError:
        pass
    return f"{os.cpu_count()} cores, {model}, load {os.getloadavg()[0]:.1f}"


def arguments(description, runs=5):
    """The parser of a measurement's words: the program, and how often each case is run."""
    parser = argparse.ArgumentParser(description=description)
    parser.add_argument("program", nargs="?", type=pathlib.Path, default=PROGRAM)
    parser.add_argument("--runs", type=int, default=runs, help=f"how often each case is run ({runs})")
    return parser


def parsed(parser):
    """The words, once it is seen that there is a program."""
    words = parser.parse_args()
    if words.runs < 1:
        parser.error("a case is run once at least")
    words.program = words.program.resolve()
    if not os.access(words.program, os.X_OK):
        sys.exit(f"no program at {words.program}: bin/stompd builds it (bin/stompd script < examples/receipt.script)")
    return words
