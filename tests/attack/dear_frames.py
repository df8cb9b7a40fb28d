#!/usr/bin/env python3
"""The dearest frames that clients may send, as fast as they can: a neighbour has its receipts all the same, and `ping` is answered.

    python3 tests/attack/dear_frames.py [PROGRAM] [--seconds N] [--few]

A topic has 255 subscribers that read what comes. Clients send COMMITs of SENDs to it and never wait. One that behaves has a receipt at a time meanwhile:
none takes over a second, and each `ping` ends with 0. Beside other work the clock says too much: what counts is the time without that for which the
broker's flusher could run and had no processor. Both are told. With --few only the first of three cases is tried.
"""

import statistics
import sys

from lib import scenario
from lib.crowding import READERS, among_dear_frames, within

# How many clients send COMMITs of how many SENDs.
CASES = [(64, 16), (64, 1), (16, 10)]
# No receipt may take so long, in seconds.
MOST = 1.0


def told(taken):
    return f"{statistics.median(taken) * 1e3:.0f} ms at the median, {within(taken, 99) * 1e3:.0f} at the 99th percentile, {max(taken) * 1e3:.0f} at most"


def try_case(broker, checks, clients, members, seconds):
    waits, statuses, left = among_dear_frames(broker, clients, members, seconds)
    longest = max(waits.without_others)
    what = f"while {clients} clients send COMMITs of {members} SENDs to {READERS} readers"
    checks.check(f"{what}, no receipt takes over {MOST} s", longest <= MOST, f"{longest:.2f} s")
    checks.check("each `ping` is answered", statuses and not any(statuses), statuses)
    checks.same("all clients and readers are there at the end", left, [clients, READERS])
    checks.check("the broker still runs", broker.is_running(), broker.process.poll())
    checks.tell(f"{len(waits.by_clock)} receipts: {told(waits.without_others)}; by the clock {told(waits.by_clock)}")


def main():
    words = scenario.words_of(__doc__)
    words.add_argument("--seconds", type=float, default=6)
    words.add_argument("--few", action="store_true")
    words = words.parse_args()
    scenario.keep_journals_in_memory()
    checks = scenario.Checks()
    for clients, members in CASES[:1] if words.few else CASES:
        with scenario.serving(words.program) as broker:
            try_case(broker, checks, clients, members, words.seconds)
    return checks.status()


if __name__ == "__main__":
    sys.exit(main())
