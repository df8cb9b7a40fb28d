#!/usr/bin/env python3
"""Measures how soon a server is there again after SIGKILL, by what was done before, and what receipts take beside the compactions that see to that.

    python3 bench/restarts.py [PROGRAM] [--beside OTHER].. [--long] [--folder FOLDER] [--only CASE]..

It prints a line for each case: the seconds from SIGKILL to the CONNECTED of a client that comes at once, after 1 and 10 seconds of the load, and with
--long after 60. Then it prints the median and the 99th of 100 of receipts' times, with nothing held and with 16 MiB. Each OTHER is one more program, with
which each case is run in turn. The journals have areas of 512 MB.
"""

import argparse
import pathlib
import sys
import tempfile
import time

from lib.scenario import take_descriptors
from lib.stomp_client import Client
from measuring import MB, PROGRAM, machine, parsed
from serving import Load, Server, build_load, make_journal

AREA = 512 * MB
# With bodies of so many bytes so many messages are 16 MiB, less what their destinations take.
LARGE, LARGE_BYTES = 255, 65_536
MEMBERS, UNDER_WAY = 16, 4


class Bench:
    def __init__(self, program, load, folder):
        self.program, self.load, self.journal = program, load, folder / "journal"

    def server(self):
        """A server over a new journal."""
        make_journal(self.program, self.journal, AREA)
        return Server(self.program, self.journal)

    def seconds_after(self, load, seconds):
        """From SIGKILL to CONNECTED, after a load of so many seconds."""
        with self.server() as server:
            load(self.load, server, seconds)
            begun = time.perf_counter()
        with Server(self.program, self.journal) as server:
            Client(server.port, timeout=600).connect().close()
            return time.perf_counter() - begun


def fan_out(subscribers):
    return lambda built, server, seconds: Load(built, server, "fanout", subscribers, seconds)


def receipts(built, server, seconds):
    return Load(built, server, "receipts", 31, 8, seconds)


def jobs(built, server, seconds):
    Load(built, server, "queue", 4, 4, seconds)


def transactions(built, server, seconds):
    """COMMITs of 16 SENDs each, some under way."""
    client, count, end = Client(server.port, timeout=60).connect(), 0, time.monotonic() + seconds
    while time.monotonic() < end:
        for at in range(count, count + UNDER_WAY):
            client.send("BEGIN", [("transaction", f"{at}")])
            for member in range(MEMBERS):
                client.send("SEND", [("destination", "/topic/none"), ("transaction", f"{at}")], f"{member}")
            client.send("COMMIT", [("transaction", f"{at}"), ("receipt", f"{at}")])
        for at in range(count, count + UNDER_WAY):
            client.receipt(f"{at}")
        count += UNDER_WAY
    client.close()


def hold(server):
    """Has the broker hold 16 MiB."""
    client = Client(server.port, timeout=60).connect()
    client.publish_all("/queue/held", ["x" * LARGE_BYTES] * LARGE, 8)
    client.close()


def held(built, server, seconds):
    hold(server)
    receipts(built, server, seconds)


CASES = {
    "fan-out to 16": fan_out(16),
    "fan-out to 250": fan_out(250),
    "fan-out to 1,000": fan_out(1_000),
    "a work queue": jobs,
    "transactions": transactions,
    "receipts": receipts,
    "receipts, 16 MiB held": held,
}


def tell_receipts(bench, seconds, holds):
    """What receipts take, one connection's beside 30 others'."""
    with bench.server() as server:
        if holds:
            hold(server)
        load = receipts(bench.load, server, seconds)
    median, most, longest = (load[f"receipt_{name}_us"] for name in ("median", "99th", "longest"))
    what = "16 MiB held" if holds else "nothing held"
    print(f"  receipts, {what:<15} {load['receipts_a_second']:>9,.0f} a second, {median:,.0f} us median, {most:,.0f} 99th, {longest / 1e3:,.1f} ms longest", flush=True)


def main():
    parser = argparse.ArgumentParser(description=__doc__, formatter_class=argparse.RawDescriptionHelpFormatter)
    parser.add_argument("program", nargs="?", type=pathlib.Path, default=PROGRAM)
    parser.add_argument("--beside", type=pathlib.Path, action="append", default=[], help="another built program, with which each case is run in turn")
    parser.add_argument("--long", action="store_true", help="also after 60 seconds of each load")
    parser.add_argument("--folder", type=pathlib.Path, default=pathlib.Path(tempfile.gettempdir()), help="where the journals are made")
    parser.add_argument("--only", choices=CASES, action="append", help="measure this case alone")
    # Each case is run once.
    parser.set_defaults(runs=1)
    words = parsed(parser)
    take_descriptors()
    times = [1, 10, 60] if words.long else [1, 10]
    print(machine(), time.strftime("%Y-%m-%d %H:%M UTC", time.gmtime()))
    with tempfile.TemporaryDirectory() as built, tempfile.TemporaryDirectory(dir=words.folder) as name:
        load = build_load(pathlib.Path(built))
        benches = [Bench(program, load, pathlib.Path(name)) for program in [words.program, *(it.resolve() for it in words.beside)]]
        for case in words.only or CASES:
            for bench in benches:
                taken = (f"{bench.seconds_after(CASES[case], seconds):8.2f} s after {seconds} s" for seconds in times)
                print(f"  {case:<22} {bench.program.name:<12} {';'.join(taken)}", flush=True)
        if not words.only:
            for holds in (False, True):
                for bench in benches:
                    print(f"  {bench.program.name}:")
                    tell_receipts(bench, 5, holds)
    print(machine())
    return 0


if __name__ == "__main__":
    sys.exit(main())
