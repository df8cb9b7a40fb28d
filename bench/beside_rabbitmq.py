#!/usr/bin/env python3
"""Measures the built program `stompd serve` beside RabbitMQ, in turns, with the same load. README.md says what each case means.

    python3 bench/beside_rabbitmq.py [PROGRAM] [--before OTHER] [--runs N] [--seconds N] [--folder FOLDER].. [--only CASE].. [--json FILE]

PROGRAM is the built program; without it, the one that bin/stompd leaves in crates/stompd/out. OTHER is an earlier one, which takes its
turn too. Debian's package rabbitmq-server has the other. What they keep is made in each FOLDER (/dev/shm, and the folder for temporary
files), and removed. All figures are written into FILE, which bench/picture.py draws.
"""

import functools
import json
import os
import pathlib
import statistics
import struct
import subprocess
import tempfile
import time

from lib.scenario import take_descriptors
from measuring import MB, arguments, machine, parsed
from rabbitmq import SPEAKS, RabbitMQ
from serve import GROWTHS, grown, tell, tell_rate
from serving import Load, Server, build_counting, build_load, build_slow_sync, make_journal

AREA = 64 * MB
# A broker holds 4,096 messages at most.
LONE = 4_000

# What a case is, the words of the load generator for it, but for the seconds, and the figure that it tells.
RATES = {
    "one": ("receipts of kept SENDs, one connection, 8 under way", ("kept", 1, 8), "receipts_a_second"),
    "many": ("receipts of kept SENDs, 31 connections, 8 under way each", ("kept", 31, 8), "receipts_a_second"),
    "jobs": ("jobs (SEND, MESSAGE, ACK), 4 senders, 4 workers", ("queue", 4, 4), "jobs_a_second"),
    "fanout": ("messages from one sender to 16 subscribers", ("fanout", 16), "messages_a_second"),
    "hall": ("messages from one sender to 250 subscribers", ("fanout", 250), "messages_a_second"),
    "room": ("messages from one sender to 1,000 subscribers", ("fanout", 1_000), "messages_a_second"),
}
STOMPD, RABBITMQ, BEFORE = "stompd", "RabbitMQ", "stompd before"


def kind_of(folder):
    """Whether a folder is in memory or on a disk."""
    system = subprocess.run(["stat", "--file-system", "--format=%T", folder], check=True, capture_output=True, text=True).stdout.strip()
    return "memory" if system in ("tmpfs", "ramfs") else "disk"


class Figures:
    """All figures of a run. They are in their file, if there is one, as soon as they are seen."""

    def __init__(self, path, words):
        date = time.strftime("%Y-%m-%d %H:%M UTC", time.gmtime())
        self.path, self.told = path, {"machine": machine(), "date": date, "runs": words.runs, "seconds": words.seconds, "folders": []}
        self.write()

    def write(self):
        if self.path:
            self.path.write_text(json.dumps(self.told, indent=1) + "\n", encoding="utf-8")

    def begin(self, folder):
        """What follows is of this folder."""
        self.told["folders"].append({"folder": str(folder), "kind": kind_of(folder), "cases": {}, "plain_syncs": []})

    def add(self, case, text, name, broker, runs, choose=max):
        """A broker's runs of a case. The figure of that name says which was the best."""
        told = self.told["folders"][-1]["cases"].setdefault(case, {"text": text, "figure": name, "brokers": {}})
        told["brokers"][broker] = {"best": choose(runs, key=lambda run: run[name]), "runs": runs}
        self.write()

    def add_syncs(self, load):
        self.told["folders"][-1]["plain_syncs"].append(load.figures)
        self.write()


class Bench:
    def __init__(self, words, built, folder, figures):
        self.programs = {STOMPD: words.program, **({BEFORE: words.before.resolve()} if words.before else {})}
        self.brokers = [*self.programs, RABBITMQ]
        self.runs, self.seconds, self.figures = words.runs, words.seconds, figures
        self.load, self.counter, self.counting = built
        self.folder, self.seen = folder, folder / "seen"

    def server(self, broker, environment=None):
        """A broker that has kept nothing yet."""
        if broker == RABBITMQ:
            return RabbitMQ(self.folder / "rabbitmq", environment)
        make_journal(self.programs[broker], self.folder / "journal", AREA, sparse=False)
        return Server(self.programs[broker], self.folder / "journal", environment=environment)

    def loaded(self, broker, server, *words):
        return Load(self.load, server, *words, environment={**os.environ, **(SPEAKS if broker == RABBITMQ else {})})

    def in_turns(self, *words):
        """The loads of a case for each broker, first one and then the other, each on a server of its own."""
        loads = {broker: [] for broker in self.brokers}
        for _ in range(self.runs):
            for broker, seen in loads.items():
                with self.server(broker) as server:
                    seen.append(self.loaded(broker, server, *words))
        return loads


def figures_of(load, rate):
    """What a load told, and what it took of the processors for what came at that rate."""
    return {**load.figures, "processors": load.server_busy, "load_processors": load.busy, "processor_us_each": load.cost(rate)}


def rate(bench, case):
    text, words, name = RATES[case]
    print(f"  {text}")
    for broker, loads in bench.in_turns(*words, bench.seconds).items():
        tell_rate(f"  {broker}", name, "a second", loads)
        bench.figures.add(case, text, name, broker, [figures_of(load, load[name]) for load in loads])


def latency(bench):
    """A receipt of a SEND that is kept and that nobody takes, one after another."""
    text, name = "a receipt of a kept SEND, one after another", "receipt_median_us"
    print(f"  {text}")
    for broker, loads in bench.in_turns("latency", LONE, 0, "/queue/kept").items():
        best, middle = min(loads, key=lambda load: load[name]), statistics.median(load[name] for load in loads)
        more = f" median in the best run, {middle:,.0f} in the middle one; {best['receipt_99th_us']:,.0f} 99th; {best.used(LONE / best.measured)}"
        tell(f"  {broker}", f"{best[name]:,.0f}", "us", more)
        bench.figures.add("latency", text, name, broker, [figures_of(load, LONE / load.measured) for load in loads], min)


def syncs(bench):
    """How many syncs each broker makes for its receipts, counted in a run of its own."""
    for case in ("one", "many", "jobs"):
        text, words, name = RATES[case]
        print(f"  syncs: {text}")
        for broker in bench.brokers:
            bench.seen.write_bytes(bytes(16))
            environment = {**os.environ, "LD_PRELOAD": str(bench.counter), "SYNCS_SEEN": str(bench.seen)}
            with bench.server(broker, environment) as server:
                before = struct.unpack("=QQ", bench.seen.read_bytes())[0]
                load = bench.loaded(broker, server, *words, bench.seconds)
                every = (struct.unpack("=QQ", bench.seen.read_bytes())[0] - before) / load.seconds
            each = f"{load[name] / every:,.1f}" if every else "no syncs for its"
            tell(f"  {broker}", f"{every:,.0f}", "syncs a second", f", {each} {name.split('_')[0]} a sync of {load[name]:,.0f} a second")
            run = {"syncs_a_second": every, **figures_of(load, load[name])}
            bench.figures.add(f"syncs_{case}", f"syncs: {text}", "syncs_a_second", broker, [run])


def growths(bench):
    """How often stompd's memory grows for each thing that is done."""
    for case, (text, words, name) in GROWTHS.items():
        print(f"  {text}")
        for broker in bench.programs:
            each = grown(bench, functools.partial(bench.server, broker), words, name)
            tell(f"  {broker}", f"{each:,.1f}", "each", " (the connections' own counted)")
            bench.figures.add(case, text, "growths_each", broker, [{"growths_each": each}])


CASES = ("latency", *RATES, "syncs", "growths")


def measure(bench, case):
    if case in RATES:
        rate(bench, case)
    else:
        {"latency": latency, "syncs": syncs, "growths": growths}[case](bench)


def disk(bench):
    """The times of a write and a sync on this disk, with nothing beside."""
    load = Load(bench.load, None, "syncs", bench.folder / "plain", 1_000, 0)
    (bench.folder / "plain").unlink()
    tell("a write and a sync", f"{load['sync_median_us']:,.1f}", "us median", f", {load['sync_99th_us']:,.1f} 99th")
    bench.figures.add_syncs(load)


def main():
    parser = arguments("Measures stompd serve beside RabbitMQ.", runs=3)
    parser.add_argument("--seconds", type=int, default=3, help="how long a load is measured (3)")
    parser.add_argument("--folder", type=pathlib.Path, action="append", help="where the brokers keep what they keep")
    parser.add_argument("--before", type=pathlib.Path, help="an earlier program, which takes its turn too")
    parser.add_argument("--only", choices=CASES, action="append", help="measure this case alone")
    parser.add_argument("--json", type=pathlib.Path, metavar="FILE", help="write all figures into this file too")
    words = parsed(parser)
    take_descriptors()
    folders = words.folder or [pathlib.Path("/dev/shm"), pathlib.Path(tempfile.gettempdir())]
    figures = Figures(words.json, words)
    print(figures.told["machine"], figures.told["date"])
    with tempfile.TemporaryDirectory() as built:
        place = pathlib.Path(built)
        libraries = build_load(place), build_slow_sync(place), build_counting(place)
        with RabbitMQ(place / "rabbitmq") as server:
            figures.told["rabbitmq"] = server.version()
            print(figures.told["rabbitmq"])
        for folder in folders:
            figures.begin(folder)
            with tempfile.TemporaryDirectory(dir=folder) as name:
                bench = Bench(words, libraries, pathlib.Path(name), figures)
                print(f"{folder}:")
                disk(bench)
                for case in words.only or CASES:
                    measure(bench, case)
                disk(bench)
    print(machine())


if __name__ == "__main__":
    main()
