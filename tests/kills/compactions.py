#!/usr/bin/env python3
"""A journal that is compacted again and again while clients talk, and kills within that. Needs strace.

    python3 tests/kills/compactions.py [PROGRAM] [--seconds N] [--kills N] [--seed N]

Each client sends to a queue of its own, every fourth time a transaction, takes from it and acknowledges; so few messages are
held, and an area of 512 KiB is full several times a second. First a server runs so for a minute: no client is cut, each receipt
comes. Then the server is killed by SIGKILL again and again, at least every other time within a compaction, as a trace of its
system calls says: from the begin of the first write at an area's start to the end of the sync after the selector's write. After
each kill it is started again over the same file, and what is there is what tests/kills/kills.py asks for. Each compaction is told in
a line on standard error; a last server, whose standard error nobody reads, goes on all the same.
"""

import collections
import fcntl
import os
import random
import re
import signal
import sys
import tempfile
import threading
import time

from lib import kept, scenario
from lib.tracing import need_strace, strace

# Two areas of 512 KiB after a head of 32 bytes, whose byte 16 is the selector.
JOURNAL_BYTES = 1_048_608
AREA_STARTS = (32, 524_320)
SELECTOR = 16
TALKERS = 4
# Groups of messages that a talker has under way, and the bytes of a body beside its name.
UNDER_WAY = 8
# How many messages a talker has in hand and does not acknowledge yet: after a kill each of them has to be there again.
IN_HAND = 4
PADDING = "x" * 4_000
# Within this many seconds after a compaction has begun a kill comes that is aimed at it.
AIM = 0.0005

COMPACTED = re.compile(r"stompd: \S+ compacted(?: slowly)?: (\d+) bytes won in (\d+) ms\n")
WRITE = re.compile(r"pwrite64\(\d+, .*, (\d+), (\d+)(?:\)| <unfinished)")


class Talker(kept.Sender):
    """A client that sends to a queue of its own, takes from it, and acknowledges."""

    padding = " " + PADDING

    def __init__(self, port, name, seed):
        super().__init__(port, name, None, seed)
        self.queue = f"/queue/{name}"
        self.settled, self.had = set(), collections.Counter()
        # What it has in hand, first come first: each message with the header by which it is acknowledged.
        self.in_hand = collections.deque()
        # The groups that are under way, by their receipt, with the messages that are not settled.
        self.open, self.is_told_to_end = {}, False

    def go_on(self):
        self.client.send("SUBSCRIBE", [("id", "t"), ("destination", self.queue), ("ack", "client-individual")])
        while self.open or not self.is_told_to_end:
            self.acknowledge(0 if self.is_told_to_end else IN_HAND)
            if len(self.open) < UNDER_WAY and not self.is_told_to_end:
                group = self.send_some()
                self.open[group.bodies[0]] = (group, set(group.bodies))
            else:
                self.hear(self.client.receive())

    def hear(self, frame):
        if frame.command == "MESSAGE":
            body = short(frame.body)
            self.had[body] += 1
            self.in_hand.append((body, frame.headers["ack"]))
            return
        assert frame.command == "RECEIPT", frame
        told = frame.headers["receipt-id"]
        if told.startswith("ack "):
            self.settle(told.removeprefix("ack "))
        else:
            group, _ = self.open[told]
            group.is_receipted = True

    def acknowledge(self, left):
        """Acknowledges the first messages that it has in hand, until so many are left."""
        while len(self.in_hand) > left:
            body, ack = self.in_hand[0]
            self.client.send("ACK", [("id", ack), ("receipt", f"ack {body}")])
            self.in_hand.popleft()

    def settle(self, body):
        self.settled.add(body)
        for first, (group, left) in list(self.open.items()):
            left.discard(body)
            if not left and group.is_receipted:
                del self.open[first]


def short(body):
    """A body without its padding: the talker's name, and the number of the message."""
    return " ".join(body.split(" ")[:2])


class Watched(scenario.Broker):
    """A broker under strace, whose compactions are seen while they run."""

    # Whether somebody reads what it tells while it runs.
    is_heard = True

    def __init__(self, program, journal):
        super().__init__(program, journal, before=("strace",))

    def serve(self):
        self.folder = tempfile.TemporaryDirectory(prefix="compactions-")
        pipe = os.path.join(self.folder.name, "trace")
        os.mkfifo(pipe)
        self.compactions, self.runs, self.is_selected = 0, False, False
        # How long after the next begin of a compaction the server is killed, if it is aimed at; and that it was.
        self.aim, self.is_hit = None, threading.Event()
        self.watch = threading.Thread(target=self.watch_calls, args=(pipe,))
        self.watch.start()
        self.before, self.is_read = [*strace(pipe, "pwrite64,fdatasync"), "--seccomp-bpf", "-qq", "-s", "0"], self.is_heard
        super().serve()
        # What nobody reads is soon as much as the pipe holds.
        fcntl.fcntl(self.process.stderr, fcntl.F_SETPIPE_SZ, 4096)

    def won(self):
        """How many bytes each compaction is told to have won, and how many milliseconds its turn took."""
        told = [COMPACTED.fullmatch(line) for _, line in self.lines]
        return [(int(found.group(1)), int(found.group(2))) for found in told if found]

    def watch_calls(self, pipe):
        with open(pipe, encoding="ascii") as trace:
            for line in trace:
                self.see(line)

    def see(self, line):
        found = WRITE.search(line)
        if found:
            size, place = int(found.group(1)), int(found.group(2))
            if place in AREA_STARTS and size > 1:
                self.runs, self.is_selected = True, False
                self.shoot()
            self.is_selected = self.is_selected or (place == SELECTOR and size == 1)
        elif "fdatasync" in line and " = 0" in line and self.runs and self.is_selected:
            self.runs, self.is_selected = False, False
            self.compactions += 1

    def shoot(self):
        """Kills the server, if that is wanted, from the thread that reads the trace, since a compaction takes a millisecond."""
        if self.aim is None:
            return
        end = time.perf_counter() + self.aim
        while time.perf_counter() < end:
            pass
        os.kill(self.target, signal.SIGKILL)
        self.aim = None
        self.is_hit.set()

    def kill_within(self, aim):
        """Kills the server so long after the next compaction has begun."""
        self.target = self.number()
        self.aim = aim
        self.is_hit.wait(timeout=10)

    def close(self):
        self.watch.join()
        if not self.reader:
            self.read()
        super().close()
        self.folder.cleanup()


def begin(broker, name, chance):
    talkers = [Talker(broker.port, f"{name}.{number}", chance.random()) for number in range(TALKERS)]
    for one in talkers:
        one.thread.start()
    return talkers


def join(talkers):
    for one in talkers:
        one.thread.join()
        one.client.close()


def found_in(port, talker):
    return [short(body) for body in kept.take_all(port, talker.queue)]


def faults_of_a_talker(port, talker):
    """What is wrong, and how many messages were decided: those that nobody acknowledged, though they were handed out, and those of which the
    acknowledgement was receipted."""
    found = found_in(port, talker)
    in_hand = [body for body, _ in talker.in_hand]
    lost = [f"{body}: lost, although it was handed out and never acknowledged" for body in in_hand if body not in found]
    faults = [*kept.faults_of_a_round([talker], talker, found), *kept.faults_of_order([talker], found), *lost]
    return faults, len(in_hand) + len(talker.settled)


def under_load(broker, seconds, chance, checks):
    """A server whose journal is full several times a second, for so long."""
    # What its opening wrote is seen by now, and is not told.
    time.sleep(0.5)
    opened = broker.compactions
    talkers = begin(broker, "load", chance)
    before = broker.compactions
    time.sleep(seconds)
    compactions = broker.compactions - before
    for one in talkers:
        one.is_told_to_end = True
    join(talkers)
    checks.same("no client is cut", [repr(one.fault) for one in talkers if one.fault], [])
    checks.check("the broker still runs", broker.is_running(), broker.process.poll())
    waiting = [group.bodies for one in talkers for group in one.groups if not group.is_receipted]
    checks.same("each receipt came", waiting, [])
    checks.check("hundreds of compactions a minute", compactions >= 3 * seconds, compactions)
    left = [found_in(broker.port, one) for one in talkers]
    checks.same("and nothing is left of what was acknowledged", left, [[]] * TALKERS)
    time.sleep(1)
    if broker.is_heard:
        # How much depends on how much is held just then.
        told = broker.won()
        checks.same("each compaction is told", len(told), broker.compactions - opened)
        checks.check("with what it won", all(0 < bytes_won < 524_288 for bytes_won, _ in told), sorted(told)[:5])
    checks.tell(f"{sum(one.count for one in talkers)} messages, {compactions} compactions in {seconds} s")


class Unheard(Watched):
    """A broker whose standard error nobody reads while it runs."""

    is_heard = False


def one_kill(broker, name, chance, aimed):
    """Kills it under load, starts it again, and answers whether a compaction ran, and what is wrong."""
    talkers = begin(broker, name, chance)
    time.sleep(chance.uniform(0.02, 0.2))
    if aimed:
        broker.kill_within(chance.uniform(0, AIM))
    broker.kill()
    within = broker.runs
    join(talkers)
    if broker.has_failed():
        raise RuntimeError(f"the broker had ended by itself, with status {broker.process.returncode}")
    broker.serve()
    judged = [faults_of_a_talker(broker.port, one) for one in talkers]
    return within, [fault for faults, _ in judged for fault in faults], sum(count for _, count in judged)


def killed(broker, words, chance, checks):
    """The server is killed again and again, at least half of the kills within a compaction."""
    within = count = decided = 0
    while count < words.kills or within < words.kills // 2:
        runs, faults, judged = one_kill(broker, f"kill{count}", chance, aimed=count % 4 != 0)
        within, count, decided = within + runs, count + 1, decided + judged
        if faults:
            checks.check(f"kill {count}", False, faults[:5])
        if count > 20 * words.kills:
            break
    checks.check(f"at least {words.kills // 2} kills were within a compaction", within >= words.kills // 2, within)
    checks.check("at least ten messages a kill were decided", decided >= 10 * count, decided)
    checks.tell(f"{count} kills, {within} of them within a compaction; {decided} messages had to be there, or had to be gone")


def main():
    parser = scenario.words_of(__doc__)
    parser.add_argument("--seconds", type=int, default=60, help="how long the load goes on before the kills")
    parser.add_argument("--kills", type=int, default=100)
    parser.add_argument("--seed", type=int, default=random.randrange(2**32), help="of the moments and of what is sent")
    words = parser.parse_args()
    need_strace()
    print(f"seed {words.seed}", flush=True)
    chance, checks = random.Random(words.seed), scenario.Checks()
    with scenario.serving(words.program, JOURNAL_BYTES, Watched) as broker:
        under_load(broker, words.seconds, chance, checks)
        killed(broker, words, chance, checks)
    with scenario.serving(words.program, JOURNAL_BYTES, Unheard) as broker:
        under_load(broker, words.seconds / 4, chance, checks)
    checks.check("all that was receipted is there once, and nothing else", not checks.failed)
    return checks.status()


if __name__ == "__main__":
    sys.exit(main())
