#!/usr/bin/env python3
"""Measures the built program `stompd serve` over real files and loopback. README.md says what each figure means.

    python3 bench/serve.py [PROGRAM] [--beside OTHER].. [--runs N] [--seconds N] [--folder FOLDER].. [--only CASE]..

PROGRAM is the built program; without it, the one that bin/stompd leaves in crates/stompd/out. Each OTHER is one more: each case is run
with all of them, in turn. The journals are made in each FOLDER (/dev/shm, and the folder for temporary files), and removed.
"""

import concurrent.futures
import os
import pathlib
import statistics
import struct
import tempfile
import time

from lib.scenario import take_descriptors
from lib.stomp_client import Client
from measuring import MB, arguments, machine, parsed
from serving import Load, Server, build_counting, build_load, build_slow_sync, make_journal

AREA = 512 * MB
HELD = 4_000
# All that 31 connections have under way, eight each; a block has room for 256.
AT_ONCE = 248
PIECE = 65_536
# What a broker holds at most.
MOST_HELD = 1 << 24
CONNECTIONS = 8_000
# How many clients open how many connections each.
CLIENTS, EACH = 10, 1_000


# Durable names online under one topic, as many as may be: 16 of each connection.
NAMES, PER_CONNECTION = 256, 16
# How many SENDs to them, and how many COMMITs of how many SENDs.
SENDS, COMMITS, MEMBERS = 20, 3, 16
# The loads in which growths of memory are counted, and the figure of what has them.
GROWTHS = {
    "growths_message": ("growths of memory, a message to 16 subscribers", ("fanout", 16), "messages_a_second"),
    "growths_send": ("growths of memory, a SEND with its receipt", ("receipts", 31, 8), "receipts_a_second"),
}


class Bench:
    def __init__(self, program, words, load, slow, counting, folder):
        self.program, self.runs, self.seconds = program, words.runs, words.seconds
        self.load, self.slow, self.counting, self.journal = load, slow, counting, folder / "journal"
        self.plain, self.seen = folder / "syncs", folder / "seen"

    def server(self, environment=None, area=AREA):
        """A server over a new journal with areas of so many bytes."""
        make_journal(self.program, self.journal, area)
        return Server(self.program, self.journal, environment=environment)

    def loads(self, *words):
        """The loads of a case, each on a server of its own."""
        for _ in range(self.runs):
            with self.server() as server:
                yield Load(self.load, server, *words)

    def syncs(self, count=3_000, pause=0, environment=None):
        """The times of a block's two writes and two syncs on this disk, in a new file of the same size."""
        with open(self.plain, "wb") as file:
            file.truncate(2 * AREA)
        load = Load(self.load, None, "syncs", self.plain, count, pause, environment=environment)
        self.plain.unlink()
        return load

    def new_counts(self):
        """A file in which syncs are counted."""
        self.seen.write_bytes(bytes(16))
        return self.seen

    def counts(self):
        """How many syncs there were, and how many nanoseconds they took."""
        return struct.unpack("=QQ", self.seen.read_bytes())


def memory_of(number):
    """The bytes of memory that a process has."""
    return int(pathlib.Path(f"/proc/{number}/statm").read_text(encoding="ascii").split()[1]) * os.sysconf("SC_PAGE_SIZE")


def tell(text, figure, unit, more=""):
    print(f"  {text:<44} {figure:>10} {unit}{more}")


def tell_rate(text, name, unit, loads):
    """Tells the best and the median of some rates, and what the run of the best kept busy."""
    best = max(loads, key=lambda load: load[name])
    middle = statistics.median(load[name] for load in loads)
    more = f"best, {middle:,.0f} median; receipt {best['receipt_median_us']:,.0f} us median, {best['receipt_99th_us']:,.0f} 99th"
    refused = sum(load.figures.get("refused_handshakes", 0) for load in loads)
    more += f"; {refused:.0f} handshakes refused" if refused else ""
    tell(text, f"{best[name]:,.0f}", unit, f" {more}; {best.used(best[name])}")
    return best[name]


def syncs(bench):
    load = bench.syncs()
    for name, text in (("sync", "a write and a sync"), ("two_syncs", "a block's two writes and two syncs")):
        tell(text, f"{load[name + '_median_us']:,.1f}", "us median", f", {load[name + '_99th_us']:,.1f} 99th")
    return load


def one(bench):
    tell_rate("receipts, one connection, 8 in flight", "receipts_a_second", "a second", list(bench.loads("receipts", 1, 8, bench.seconds)))


def many(bench):
    tell_rate("receipts, 31 connections, 8 in flight", "receipts_a_second", "a second", list(bench.loads("receipts", 31, 8, bench.seconds)))


def slow(bench):
    """The same over syncs that are made slower: then all that the load has under way, in two syncs, is the most that there can be. What a sync
    takes is told as it is on an idle disk (median), and as the server's own syncs were (mean)."""
    for more in (500, 2_000):
        environment = {**os.environ, "LD_PRELOAD": str(bench.slow), "SLOW_SYNC": str(more)}
        pair = bench.syncs(500, environment=environment)["two_syncs_median_us"]
        with bench.server({**environment, "SYNCS_SEEN": str(bench.new_counts())}) as server:
            calls, spent = bench.counts()
            begun = time.perf_counter()
            load = Load(bench.load, server, "receipts", 31, 8, bench.seconds)
            seconds = time.perf_counter() - begun
            calls, spent = (now - then for now, then in zip(bench.counts(), (calls, spent)))
        rate, own = load["receipts_a_second"], spent / calls * 2 / 1e3
        told = f", {rate * pair / AT_ONCE / 1e4:.0f} % of {AT_ONCE} commands in two syncs of {pair:,.0f} us"
        told += f", {rate * own / AT_ONCE / 1e4:.0f} % in two of its own, {own:,.0f} us; {spent / seconds / 1e7:.0f} % of its time was in syncs"
        tell(f"the same, syncs slower by {more / 1e3:.1f} ms", f"{rate:,.0f}", "a second", told)


def fanout(bench):
    tell_rate("messages, one sender to 16 subscribers", "messages_a_second", "a second", list(bench.loads("fanout", 16, bench.seconds)))


def room(bench):
    tell_rate("messages, one sender to 1,000 subscribers", "messages_a_second", "a second", list(bench.loads("fanout", 1_000, bench.seconds)))


def connect(bench):
    """Connections with their sessions, eight at the same moment. Each is closed once it has its CONNECTED."""
    loads = list(bench.loads("connect", CONNECTIONS, 8))
    best = max(load["connections_a_second"] for load in loads)
    middle = statistics.median(load["connections_a_second"] for load in loads)
    tell("connections, 8 at a time", f"{best:,.0f}", "a second", f" best, {middle:,.0f} median")


def crowd(bench):
    """10,000 connections of ten clients at a time, each with its CONNECTED, and what of memory the server has then."""
    take_descriptors()
    with bench.server() as server:
        before = memory_of(server.process.pid)
        with concurrent.futures.ThreadPoolExecutor(CLIENTS) as pool:
            words = (bench.load, server, "idle", EACH, 10)
            loads = [pool.submit(Load, *words) for _ in range(CLIENTS)]
            time.sleep(8)
            kept = (memory_of(server.process.pid) - before) / (CLIENTS * EACH)
            longest = max(load.result()["opened_seconds"] for load in loads)
        tell("10,000 connections with their sessions", f"{longest:,.2f}", "s", f"; {kept / 1_000:,.0f} KB each")


def queue(bench):
    tell_rate("jobs, 4 producers, 4 consumers, acknowledged", "jobs_a_second", "a second", list(bench.loads("queue", 4, 4, bench.seconds)))


def latency(bench):
    """A receipt at a time, at once after the last one and on a server that has slept, beside the two syncs in the same run."""
    for text, count, pause in (("a receipt, one after another", 5_000, 0), ("a receipt, 5 ms after the last", 1_000, 5_000)):
        with bench.server() as server:
            load, pair = Load(bench.load, server, "latency", count, pause), bench.syncs(count, pause)
        median, syncs_median = load["receipt_median_us"], pair["two_syncs_median_us"]
        tell(text, f"{median:,.1f}", "us median", f", {load['receipt_99th_us']:,.1f} 99th; two syncs {syncs_median:,.1f}; over them {median - syncs_median:,.1f}")


def starts(bench):
    """From start to `listening`: on an empty journal, on one with 4,000 messages as they were sent, and as a snapshot."""
    empty, sent, kept = [], [], []
    for _ in range(bench.runs):
        with bench.server() as server:
            empty.append(server.started)
            Load(bench.load, server, "send", "/queue/held", HELD, 100)
        for times in (sent, kept):
            with Server(bench.program, bench.journal) as server:
                times.append(server.started)
    for text, times in (("an empty journal", empty), ("4,000 messages held, as they were sent", sent), ("4,000 messages held, from a snapshot", kept)):
        tell(f"start, {text}", f"{min(times) * 1e3:,.1f}", "ms best", f", {statistics.median(times) * 1e3:,.1f} median")


def again(bench):
    """From SIGKILL to the CONNECTED of a client that comes at once, with 16 MiB held."""
    taken = []
    for _ in range(bench.runs):
        with bench.server() as server:
            Load(bench.load, server, "send", "/queue/held", HELD, MOST_HELD // HELD - 16)
            begun = time.perf_counter()
        with Server(bench.program, bench.journal) as server:
            Client(server.port).connect().close()
            taken.append(time.perf_counter() - begun)
    tell("SIGKILL to CONNECTED, 16 MiB held", f"{min(taken) * 1e3:,.1f}", "ms best", f", {statistics.median(taken) * 1e3:,.1f} median, {max(taken) * 1e3:,.1f} worst")


def written(bench, size):
    """The seconds that a compaction's calls take on this disk: so many bytes in pieces, a sync, one byte, and a sync."""
    with open(bench.plain, "wb", buffering=0) as file:
        file.write(bytes(2 * size))
        os.fsync(file.fileno())
        begun = time.perf_counter()
        for at in range(0, size, PIECE):
            os.pwrite(file.fileno(), bytes(min(PIECE, size - at)), at)
        os.fsync(file.fileno())
        os.pwrite(file.fileno(), b"\1", 16)
        os.fsync(file.fileno())
        taken = time.perf_counter() - begun
    bench.plain.unlink()
    return taken


def compactions(bench):
    """Receipts while the journal is compacted each time that so much of it was written, with nothing held and with 4 MB."""
    for held, areas in ((0, (1, 8, 64, 512)), (HELD, (8, 64, 512))):
        for area in areas:
            with bench.server(area=area * MB) as server:
                if held:
                    Load(bench.load, server, "send", "/queue/held", held, 1_000)
                load = Load(bench.load, server, "receipts", 31, 8, bench.seconds)
            often = "none" if area == 512 else f"each {area} MB"
            more = f", {load['receipt_median_us']:,.0f} us median, {load['receipt_longest_us'] / 1e3:,.1f} ms longest"
            tell(f"{held} held, compactions: {often}", f"{load['receipts_a_second']:,.0f}", "receipts a second", more)
    taken = statistics.median(written(bench, 4 * MB + HELD * 40) for _ in range(9))
    tell("4 MB in pieces, three syncs, on this disk", f"{taken * 1e3:,.1f}", "ms median")


def idle(bench):
    with bench.server() as server:
        load = Load(bench.load, server, "idle", 64, 20)
    tell("64 idle connections, of one processor", f"{load.server_busy * 100:,.2f}", "%", f" over {load.seconds:.0f} s")


def grown(bench, server, words, name):
    """How often memory grows, by malloc or realloc, for each thing that is done. `server` starts one with an environment."""
    counted = bench.seen.with_name("growths")
    counted.write_bytes(bytes(8))
    with server({**os.environ, "LD_PRELOAD": str(bench.counting), "COUNTED": str(counted)}) as running:
        before = int.from_bytes(counted.read_bytes(), "little")
        load = Load(bench.load, running, *words, bench.seconds)
        # The load begins a second before it is measured.
        return (int.from_bytes(counted.read_bytes(), "little") - before) / (load[name] * (bench.seconds + 1))


def growths(bench):
    for text, words, name in GROWTHS.values():
        tell(text, f"{grown(bench, bench.server, words, name):,.1f}", "each", " (the connections' own counted)")


def listeners(port):
    """Connections that have all durable names of a topic among them."""
    for at in range(NAMES // PER_CONNECTION):
        client = Client(port, timeout=60).connect(f"client-{at}")
        for name in range(PER_CONNECTION):
            client.subscribe(f"{name}", "/topic/named", headers=[("activemq.subscriptionName", f"name-{name}")])
        yield client


def names(bench):
    """What a SEND to 256 durable names takes of the server's processors, and a COMMIT of 16 of them; and a SEND to another topic."""
    with bench.server() as server:
        heard, sender = list(listeners(server.port)), Client(server.port, timeout=60).connect()
        for text, count, ask in (
            ("a SEND to a topic with 256 durable names", SENDS, lambda at: sender.publish("/topic/named", f"{at}")),
            ("a COMMIT of 16 of them", COMMITS, lambda at: commit(sender, at)),
            ("a SEND to another topic", 50 * SENDS, lambda at: sender.publish("/topic/other", f"{at}")),
        ):
            cpu, begun = server.cpu(), time.perf_counter()
            for at in range(count):
                ask(at)
            longest = time.perf_counter() - begun
            tell(text, f"{(server.cpu() - cpu) / count * 1e3:,.2f}", "ms of a processor", f", {longest / count * 1e3:,.2f} ms until its receipt")
        for client in (*heard, sender):
            client.close()


def commit(client, at):
    client.send("BEGIN", [("transaction", f"{at}")])
    for member in range(MEMBERS):
        client.send("SEND", [("destination", "/topic/named"), ("transaction", f"{at}")], f"{member}")
    client.send("COMMIT", [("transaction", f"{at}"), ("receipt", f"commit {at}")])
    client.receipt(f"commit {at}")


CASES = {case.__name__: case for case in (one, many, slow, fanout, room, queue, connect, crowd, latency, names, growths, starts, again, compactions, idle)}


def main():
    parser = arguments("Measures stompd serve.", runs=3)
    parser.add_argument("--seconds", type=int, default=5, help="how long a load is measured (5)")
    parser.add_argument("--folder", type=pathlib.Path, action="append", help="where the journals are made")
    parser.add_argument("--beside", type=pathlib.Path, action="append", default=[], help="another built program, with which each case is run in turn")
    parser.add_argument("--only", choices=CASES, action="append", help="measure this case alone")
    words = parsed(parser)
    folders = words.folder or [pathlib.Path("/dev/shm"), pathlib.Path(tempfile.gettempdir())]
    print(machine(), time.strftime("%Y-%m-%d %H:%M UTC", time.gmtime()))
    with tempfile.TemporaryDirectory() as built:
        built = pathlib.Path(built)
        load, slower, counting = build_load(built), build_slow_sync(built), build_counting(built)
        for folder in folders:
            with tempfile.TemporaryDirectory(dir=folder) as name:
                programs = [words.program, *(other.resolve() for other in words.beside)]
                benches = [Bench(program, words, load, slower, counting, pathlib.Path(name)) for program in programs]
                print(f"{folder}:")
                syncs(benches[0])
                for case in words.only or CASES:
                    for bench in benches:
                        if words.beside:
                            print(f"  {bench.program}:")
                        CASES[case](bench)
                syncs(benches[0])
    print(machine())


if __name__ == "__main__":
    main()
