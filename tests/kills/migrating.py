#!/usr/bin/env python3
"""Kills of a server that opens a journal of the first version, and so makes one of the second of it.

    python3 tests/kills/migrating.py [PROGRAM] [--old PROGRAM] [--kills N] [--seed N]

The journal is made here, byte by byte as docs/JOURNAL.md says (tests/lib/old_journal.py): 8 MB, of which the live area has 3.6 MB of
commands, with sessions open, messages in hand, durable names, and messages that a NACK has dropped by the old rule. With --old a
program that knows the first version alone says what it stands for, serves it, and at the end refuses what became of it.

Then a server opens a copy of it and is killed by SIGKILL meanwhile, again and again, at least every other time in the midst: the
new area is begun and the old one is still live, as the file says. After each kill `show` answers the count and what is held as
before, and the version by which the live area is to be read. The server is started again (every fourth time it is killed once more),
serves, and each message is there once, with its headers, in its place; what was dropped is not there, nor in /queue/dead.
"""

import collections
import contextlib
import os
import pathlib
import random
import signal
import statistics
import subprocess
import sys
import tempfile
import time

from lib import old_journal, scenario
from lib.commands import run, show
from lib.kept import DEAD, LAST_BODY
from lib.stomp_client import Client

# Two areas of 4 MiB.
AREA_BYTES = 4_194_304
RECORD_BYTES = 3_600_000
BODY_BYTES = 900
SELECTOR = 16
SECOND_AREA = old_journal.HEAD_BYTES + AREA_BYTES
# An area's first byte if it is of the second version.
SECOND_VERSION = b"\2"

# Of the durable names, by topic: the client's and the subscription's.
NAMES = {"/topic/news": ("anna", "news"), "/topic/later": ("carl", "later")}

BEFORE, MIDST, AFTER = "before the new area was begun", "in the midst", "after the new area was live"


class Journal:
    """The bytes of the old journal, and what they stand for."""

    def __init__(self, seed):
        chance = random.Random(seed)
        self.commands = old_journal.rooms_of_old(RECORD_BYTES, BODY_BYTES, seed)
        blocks = list(self.commands.blocks(chance))
        # The free area has what was there before: an old area, as a compaction leaves it.
        live, free = old_journal.area(blocks), old_journal.area(blocks[: len(blocks) // 2])
        self.content = old_journal.journal(AREA_BYTES, live, free)
        self.used = len(live)
        self.count, self.held = len(self.commands.records), self.commands.held()
        lines = self.commands.lines
        self.lines = {place: [message.number for message in lines[place].after_restart()] for place in lines}

    def write(self, path):
        path.write_bytes(self.content)


def take(port, destination, padding):
    """The numbers of the messages that wait there, each acknowledged, and those that are not as they were sent."""
    client_id, name = NAMES.get(destination, (None, None))
    reader = Client(port).connect(client_id)
    headers = [("activemq.subscriptionName", name)] if name else []
    waiting = reader.subscribe("r", destination, "client", headers)
    reader.send("SEND", [("destination", destination)], LAST_BODY)
    numbers, wrong = [], []
    for count in range(1, 10_000):
        frame = waiting.pop(0) if waiting else reader.receive()
        if frame.body == LAST_BODY or count % 8 == 0:
            reader.send("ACK", [("id", frame.headers["ack"])])
        if frame.body == LAST_BODY:
            break
        numbers.append(int(frame.headers.get("n", -1)))
        if not is_as_sent(frame, numbers[-1], padding):
            wrong.append(frame)
    reader.disconnect()
    return numbers, wrong


def is_as_sent(frame, number, padding):
    return frame.body == old_journal.body_of(number, padding) and old_journal.headers_of(number)[1:] == [
        (name, value) for name, value in frame.headers.items() if name == "said:by"
    ]


def faults_of_what_is_there(port, journal):
    """What is wrong with what a server has of the journal, all of which is taken."""
    for destination, numbers in [*journal.lines.items(), (DEAD, [])]:
        found, wrong = take(port, destination, "x" * BODY_BYTES)
        if found != numbers:
            counts = collections.Counter(found)
            lost = [number for number in numbers if number not in counts]
            twice = [number for number, count in counts.items() if count > 1]
            others = [number for number in counts if number not in set(numbers)]
            yield f"{destination}: lost {lost[:5]}, twice {twice[:5]}, of others {others[:5]}, or out of order"
        if wrong:
            yield f"{destination}: {len(wrong)} are not as they were sent, such as {wrong[0].headers}"


@contextlib.contextmanager
def served(program, path):
    broker = scenario.Broker(program, path)
    try:
        yield broker
    finally:
        broker.kill()


def by_the_old_program(program, journal, path, checks):
    """What a program of the first version says of the journal, and what it serves of it."""
    journal.write(path)
    seen = show(program, path)
    expected = {"version": 1, "area": 0, "used": journal.used, "count": journal.count, "held": journal.held}
    checks.same("the old program shows the journal as it was made", seen, expected)
    with served(program, path) as broker:
        faults = list(faults_of_what_is_there(broker.port, journal))
    checks.same("and serves what it stands for by the old rule", faults, [])


def there_is_no_way_back(program, path, checks):
    """What a program of the first version says of the file once a newer one has opened it."""
    status, _, said = run(program, "show", path)
    checks.same("the old program refuses what the new one has opened", (status, said.split(" at ")[0]), (1, "stompd: J2 damaged"))


class Watch:
    """The file of a journal while a server opens it."""

    def __init__(self, path):
        self.file = os.open(path, os.O_RDONLY)
        self.written = os.fstat(self.file).st_mtime_ns

    def state(self):
        if os.pread(self.file, 1, SELECTOR)[0] % 2 == 1:
            return AFTER
        is_begun = os.fstat(self.file).st_mtime_ns != self.written and os.pread(self.file, 1, SECOND_AREA) == SECOND_VERSION
        return MIDST if is_begun else BEFORE

    def wait_while(self, state, process):
        while self.state() == state and process.poll() is None:
            pass

    def close(self):
        os.close(self.file)


def start(program, path):
    """A server that begins to open the file."""
    words = [program, "serve", path, str(scenario.free_port())]
    return subprocess.Popen(words, stdout=subprocess.PIPE, stderr=subprocess.DEVNULL)


def end(process):
    process.send_signal(signal.SIGKILL)
    process.wait()
    process.stdout.close()


class Times:
    """How long an opening takes, and of that the midst; medians of some that nobody kills."""

    def __init__(self, program, journal, path):
        openings = [self.one(program, journal, path) for _ in range(5)]
        self.opening, self.midst = (statistics.median(column) for column in zip(*openings))

    @staticmethod
    def one(program, journal, path):
        journal.write(path)
        time.sleep(0.02)
        watch, begin = Watch(path), time.perf_counter()
        process = start(program, path)
        watch.wait_while(BEFORE, process)
        midst = time.perf_counter()
        watch.wait_while(MIDST, process)
        live = time.perf_counter()
        process.stdout.readline()
        opened = time.perf_counter()
        end(process)
        watch.close()
        return opened - begin, live - midst


def pause(seconds):
    """Waits more exactly than a sleep."""
    until = time.perf_counter() + seconds
    while time.perf_counter() < until:
        pass


def kill_an_opening(program, path, times, chance, is_aimed):
    """Kills a server while it opens the file, and answers what the file says of the moment."""
    # After the last write, so that the time of the next differs.
    time.sleep(0.02)
    watch = Watch(path)
    process = start(program, path)
    if is_aimed:
        watch.wait_while(BEFORE, process)
        # A few come too late, which is a moment too.
        pause(chance.uniform(0, 1.25 * times.midst))
    else:
        pause(chance.uniform(0, times.opening))
    end(process)
    state = watch.state()
    watch.close()
    return state


class Tally:
    """Counts what was seen over all kills."""

    def __init__(self):
        self.states, self.rounds, self.messages, self.longest_restart = collections.Counter(), 0, 0, 0.0

    def kills(self):
        return self.states.total()


def faults_of_a_kill(program, path, journal, state, was_switched):
    told = show(program, path)
    version = 2 if was_switched or state == AFTER else 1
    expected = {"version": version, "count": journal.count, "held": journal.held}
    seen = {word: told[word] for word in expected}
    if seen != expected:
        yield f"killed {state}, `show` tells {seen} and not {expected}"


def one_round(program, path, journal, times, chance, tally):
    """Kills one opening of a copy of the journal, or two, then opens it, and answers what is wrong."""
    journal.write(path)
    faults, was_switched = [], False
    for _ in range(2 if chance.random() < 0.25 else 1):
        if was_switched:
            break
        state = kill_an_opening(program, path, times, chance, is_aimed=tally.kills() % 4 != 0)
        tally.states[state] += 1
        faults += faults_of_a_kill(program, path, journal, state, was_switched)
        was_switched = state == AFTER
    begin = time.perf_counter()
    with served(program, path) as broker:
        tally.longest_restart = max(tally.longest_restart, time.perf_counter() - begin)
        faults += faults_of_what_is_there(broker.port, journal)
    told = show(program, path)
    if (told["version"], told["held"]) != (2, 0):
        faults.append(f"opened and drained, `show` tells {told}")
    tally.rounds += 1
    tally.messages += journal.held
    return faults


def killed(program, path, journal, words, chance, checks):
    """A server is killed again and again, at least half of the kills in the midst."""
    times, tally = Times(program, journal, path), Tally()
    checks.tell(f"an opening takes {times.opening * 1000:.0f} ms, of which the midst has {times.midst * 1000:.1f} ms")
    while tally.kills() < words.kills or tally.states[MIDST] < words.kills // 2:
        faults = one_round(program, path, journal, times, chance, tally)
        if faults:
            checks.check(f"kill {tally.kills()}", False, faults[:5])
        if tally.kills() > 20 * words.kills:
            break
    midst = tally.states[MIDST]
    checks.check(f"at least {words.kills // 2} kills were in the midst", midst >= words.kills // 2, midst)
    checks.tell(f"{tally.kills()} kills: " + ", ".join(f"{tally.states[state]} {state}" for state in (BEFORE, MIDST, AFTER)))
    checks.tell(f"{tally.rounds} restarts, of which the longest took {tally.longest_restart * 1000:.0f} ms; {tally.messages} messages taken after them")


def main():
    parser = scenario.words_of(__doc__)
    parser.add_argument("--old", type=pathlib.Path, metavar="PROGRAM", help="a program that knows the first version alone")
    parser.add_argument("--kills", type=int, default=100)
    parser.add_argument("--seed", type=int, default=random.randrange(2**32), help="of the journal and of the moments")
    words = parser.parse_args()
    print(f"seed {words.seed}", flush=True)
    chance, checks, journal = random.Random(words.seed), scenario.Checks(), Journal(words.seed)
    refused = journal.commands.refused
    checks.tell(f"{journal.count} commands in {journal.used} bytes; {journal.held} messages held, {len(refused)} refused and dropped")
    with tempfile.TemporaryDirectory(prefix="migrating-") as folder:
        path = pathlib.Path(folder) / "journal"
        if words.old:
            by_the_old_program(words.old, journal, path, checks)
        killed(words.program, path, journal, words, chance, checks)
        if words.old:
            there_is_no_way_back(words.old, path, checks)
    checks.check("after each kill the same was there, and each message once after the restart", not checks.failed)
    return checks.status()


if __name__ == "__main__":
    sys.exit(main())
