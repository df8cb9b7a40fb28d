#!/usr/bin/env python3
"""Runs `rt ci` at the top of a checkout and prints what each crate cost in processor minutes: its proof, its tests, and its must-fail edits.

    python3 tools/gate_cost.py [FOLDER]

Without FOLDER it is the checkout that this file stands in. Set RT_JOBS to the number of lanes, so that each proof is one process. What the gate
prints goes to gate-cost.log below the system's temporary folder. Stopped by Ctrl-C or SIGTERM, it ends the gate and prints what was spent until
then. Processes are looked at twice a second, so the last moments of each are missed and the sums are a little low. What an earlier run on the
machine has passed is kept by the toolchain and costs nothing again.
"""

import os
import pathlib
import signal
import subprocess
import sys
import tempfile
import time

TICKS = os.sysconf("SC_CLK_TCK")
PROVERS = ("rattle", "rattle-link", "clang")
KINDS = ("proof", "tests", "edits")


def is_below(pid, parents, top):
    """Whether the process was started, by however many others, by the one named top."""
    while pid in parents and pid != top:
        pid = parents[pid]
    return pid == top


def kind_of(words, folder):
    if "rt-edit-" in folder:
        return "edits"
    return "tests" if "--test" in words else "proof"


def look(seen, gate):
    """Notes the processor seconds that each prover below the gate has taken so far, with its crate and kind."""
    parents, found = {}, {}
    for pid in filter(str.isdigit, os.listdir("/proc")):
        try:
            with open(f"/proc/{pid}/stat", encoding="utf-8") as file:
                stat = file.read()
            fields = stat[stat.rfind(")") + 2 :].split()
            parents[pid] = fields[1]
            if stat[stat.find("(") + 1 : stat.rfind(")")] not in PROVERS:
                continue
            with open(f"/proc/{pid}/cmdline", encoding="utf-8", errors="replace") as file:
                words = file.read().split("\0")
            folder = os.readlink(f"/proc/{pid}/cwd")
        except OSError:
            continue
        if not words[0]:
            continue  # it has ended, and only waits for its parent
        crate = words[words.index("--crate-name") + 1] if "--crate-name" in words else "other"
        found[pid, fields[19]] = crate, kind_of(words, folder), (int(fields[11]) + int(fields[12])) / TICKS
    seen.update({key: cost for key, cost in found.items() if is_below(key[0], parents, gate)})


def told(seen):
    """Prints a line for each crate, the dearest first, and their sum."""
    minutes = {}
    for crate, kind, seconds in seen.values():
        row = minutes.setdefault(crate, dict.fromkeys(KINDS, 0.0))
        row[kind] += seconds / 60
    print(f"{'crate':18}{'proof':>8}{'tests':>8}{'edits':>8}{'sum':>8}   processor minutes")
    for crate, row in sorted(minutes.items(), key=lambda it: -sum(it[1].values())):
        print(f"{crate:18}" + "".join(f"{row[it]:8.1f}" for it in KINDS) + f"{sum(row.values()):8.1f}")
    print(f"{'all':42}{sum(sum(it.values()) for it in minutes.values()):8.1f}")


def main():
    top = sys.argv[1] if len(sys.argv) > 1 else pathlib.Path(__file__).resolve().parent.parent
    log = os.path.join(tempfile.gettempdir(), "gate-cost.log")
    seen, began = {}, time.monotonic()
    with open(log, "w", encoding="utf-8") as out:
        gate = subprocess.Popen(["rt", "ci"], cwd=top, stdin=subprocess.DEVNULL, stdout=out, stderr=subprocess.STDOUT, start_new_session=True)
        for number in (signal.SIGTERM, signal.SIGINT):
            signal.signal(number, lambda *_: os.killpg(gate.pid, signal.SIGTERM))
        while gate.poll() is None:
            look(seen, str(gate.pid))
            time.sleep(0.5)
    told(seen)
    with open(log, encoding="utf-8", errors="replace") as file:
        last = file.read().rstrip().rpartition("\n")[2]
    print(f"{(time.monotonic() - began) / 60:.0f} minutes on {len(os.sched_getaffinity(0))} processors; {last}")
    return gate.returncode


if __name__ == "__main__":
    sys.exit(main())
