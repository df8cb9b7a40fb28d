#!/usr/bin/env python3
"""What memory a compaction takes: 16 MiB are held, and the server writes them into the other area of its journal. A snapshot is written in pieces of 65,536
bytes, so it must never stand in memory as a whole. The server's resident memory may grow by 4 MiB at most while it compacts. Needs Python 3
alone, and Linux.

    python3 tests/program/compaction_memory.py [PROGRAM]
"""

import re
import sys
import time

from lib import scenario
from lib.stomp_client import Client

# Two areas of 32 MiB: what is held takes half of one.
JOURNAL_BYTES = 67_108_896
QUEUE, NOBODY = "/queue/kept", "/topic/nobody"
HELD, BODY = 255, 65_000
TRAFFIC = "x" * 1_000
UNDER_WAY = 8
# A whole snapshot of what is held would take 16 MiB.
MOST_GROWTH = 4 << 20
COMPACTED = re.compile(r" compacted(?: slowly)?: (\d+) bytes won in \d+ ms\n")


def fill_until(client, broker, wanted):
    """Sends to a topic that nobody hears until the journal was compacted so often."""
    end = time.monotonic() + 120
    while len(COMPACTED.findall(broker.text())) < wanted:
        assert time.monotonic() < end, "the journal is never compacted"
        client.publish_all(NOBODY, [TRAFFIC] * 500)


def memory_of_a_compaction(broker, checks):
    """16 MiB are held, and compacted three times"""
    client = Client(broker.port, timeout=60).connect()
    client.publish_all(QUEUE, ["x" * BODY] * HELD, UNDER_WAY)
    # What a compaction took and let go, an allocator may keep: the first one shows it.
    for turn in (1, 2, 3):
        broker.forget_peak()
        before = broker.memory("VmRSS") << 10
        fill_until(client, broker, turn)
        growth = (broker.memory("VmHWM") << 10) - before
        checks.check(f"compaction {turn} takes {MOST_GROWTH >> 20} MiB at most", growth <= MOST_GROWTH, f"{growth:,} bytes")
        checks.tell(f"{growth:,} bytes more than the {before:,} before")


def main():
    program = scenario.program_of(__doc__)
    checks = scenario.Checks()
    with scenario.serving(program, JOURNAL_BYTES) as broker:
        scenario.try_one(memory_of_a_compaction, broker, checks)
    print(f"{checks.failed} failed", flush=True)
    return checks.status()


if __name__ == "__main__":
    sys.exit(main())
