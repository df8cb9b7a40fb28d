#!/usr/bin/env python3
"""A server under attack: while 64 clients at a time stall, flood it or are half open, each kind in its way, others have their receipts, the broker's
memory stays within what docs/RUNNING.md says, and the place of each attacker is free again when docs/PROTOCOL.md says so.

    python3 tests/attack/under_attack.py [PROGRAM] [--neighbours]

With --neighbours only those that share a desk are tried. It takes some five minutes, and needs Python 3 alone; half-open clients need `ip`
and root, since they take a network of the script's own, and are left out if these are missing, which is said.

- 64 attackers of a kind come after 8 clients that behave. There are 64 desks, so each desk has an attacker then, and each of the 8 has one
  at its own desk.
- The 8 send in turn, one SEND with a receipt at a time. What 99 of 100 receipts take is compared with what it took on the same broker
  without that kind just before: it may be twenty times that and 200 ms more, in the best of three measurements, since this may run beside other
  work, and the figures are told.
- A place is free once the server has no descriptor for its connection any more, as /proc/net/tcp tells.
- Those that stall are all there at once, over one broker; meanwhile those that flood come one kind after another, each over a broker of its own.
- At the end one that sends SENDs with receipts shares its desk with an attacker, one of each kind in its turn. 99 of 100 of its receipts take no more
  than twice what they take while that attacker is at another desk, which another worker has. This may run beside other work, which comes and goes: so they are measured in
  turns, with the attacker elsewhere and beside, three times, and the best of each three tells. What the neighbour costs is there each time, what else
  runs is not. If other work takes half of the processors when it begins, 50 ms more are let pass, which is told: the system holds a worker up then
  that has much to do. If all other desks have a client that never waits it may be three times: the ring is full of what these have sent, so that one waits
  once round for room in its window, and once round for its own.
"""

import ctypes
import dataclasses
import os
import shutil
import subprocess
import sys
import time
import traceback

import attackers
from attackers import BODIES, BUSY, FLOODS, STALLED, UNREAD, Attack, half_open, held_places, is_calm, last_words
from lib import scenario
from lib.stomp_client import Client

DESKS = 64
COUNT = 64
OTHERS = 8
# How many subscribe to what they never read, and how many send to them.
READERS, WRITERS = 16, 4

# For how many seconds receipts are measured, and how many at least.
MEASURED = 3
LEAST = 200
# For how many seconds they are measured at most, and for how many one is waited for.
MOST, LONGEST = 10, 5
# What they may take in an attack, by what they take without: so many times that, and so many seconds more.
TIMES, MORE = 20, 0.2
# And if one shares its desk with an attacker, by what they take while that is at another desk: so many times that, or so many if all other desks
# have one that never waits; the best of so many rounds each, of so many seconds.
SHARED, AMONG, ROUNDS, ROUND = 2, 3, 3, 1
# So many seconds more if other work takes the processors: a worker that has much to do is held up by the system then, and one that sleeps is not.
HELD_UP = 0.05

# For a busy machine: how much later than it is said a place may be free, and how much earlier, since the server counts from what it saw first.
SPARE, EARLY = 8, 2

# What a connection may have at most, in KiB, without its outbox's messages: the places of the outbox, a message that comes, what one read gives, and
# what waits to be sent. And a full outbox with the headers of its frames, and what the broker holds, beside what the program has at the beginning.
CONNECTION = 111 + 128 + 4 + 1_024
OUTBOX = 50_000
HELD = 2 * 16_384

# How long no receipt may be waited for, whatever others do, in seconds.
LONGEST_WAIT = 1

CLONE_NEWNET = 0x40000000
GONE = "10.9.9.9"


def own_network():
    """Gives this process, and all that it starts, a network of its own, of which one address can be taken away. It answers whether it could."""
    if not shutil.which("ip") or ctypes.CDLL(None).unshare(CLONE_NEWNET):
        return False
    steps = ["link set lo up", "link add gone type veth", f"address add {GONE}/32 dev gone", "link set gone up"]
    return all(subprocess.run(["ip", *step.split()], stderr=subprocess.DEVNULL).returncode == 0 for step in steps)


@dataclasses.dataclass
class Receipts:
    """What receipts took, in seconds."""

    seconds: list

    def within(self, percent):
        return sorted(self.seconds)[len(self.seconds) * percent // 100]

    def longest(self):
        return max(self.seconds)

    def __str__(self):
        return f"{self.within(50) * 1000:.1f} and {self.within(99) * 1000:.1f} ms, {self.longest() * 1000:.1f} at most"


class Others:
    """Clients that behave, over a broker."""

    def __init__(self, broker, count=OTHERS):
        self.port = broker.port
        self.clients = [self.another() for _ in range(count)]

    def another(self):
        return Client(self.port, timeout=LONGEST).connect()

    def measure(self, measured=MEASURED):
        """What receipts take now. One that does not come ends the measurement, and is a failure."""
        seconds, start = [], time.monotonic()
        while time.monotonic() - start < measured or (len(seconds) < LEAST and time.monotonic() - start < MOST):
            place, begun = len(seconds) % len(self.clients), time.perf_counter()
            self.clients[place].publish("/topic/none", "x")
            seconds.append(time.perf_counter() - begun)
        return Receipts(seconds)


def judge_receipts(checks, kind, without, others):
    """What receipts of others take in an attack, measured again if other work may have held them up."""
    most, longest = TIMES * without.within(99) + MORE, 0.0
    for _ in range(ROUNDS):
        within = others.measure()
        longest = max(longest, within.longest())
        if within.within(99) <= most:
            break
    name = f"while {COUNT} clients {kind.name}, 99 of 100 receipts of others take at most {TIMES} times what they took, and {MORE * 1000:.0f} ms"
    checks.check(name, within.within(99) <= most, str(within))
    checks.check(f"and none of them waits over {LONGEST_WAIT} s", longest <= LONGEST_WAIT, f"{longest:.2f} s")
    checks.tell(f"half and 99 of 100 within {within}; without them {without}; {within.within(99) / without.within(99):.1f} times")


def judge_places(checks, kind, seconds):
    """Whether the places were free when they had to be."""
    if kind.free_after is None:
        checks.check(f"clients that {kind.name} are kept", all(one is None for one in seconds), seconds[:5])
        return
    freed = [one for one in seconds if one is not None]
    # At the end of its time what waits is offered to its socket once more. If that has room then, it has as long again.
    most = kind.free_after * (2 if kind.from_last else 1)
    name = f"clients that {kind.name} have lost their places after {most} s"
    checks.check(name, len(freed) == len(seconds) and max(freed) <= most + SPARE, f"{len(freed)} of {len(seconds)}")
    if freed:
        checks.tell(f"{len(freed)} of {len(seconds)}, after {min(freed):.1f} to {max(freed):.1f} s")
    if freed and not kind.flood and kind is not UNREAD:
        checks.check("and none before", min(freed) >= kind.free_after - EARLY, min(freed))


def judge_memory(checks, broker, start, connections, outboxes=0):
    peak = broker.memory("VmHWM")
    most = start + HELD + connections * CONNECTION + outboxes * OUTBOX
    checks.check(f"its memory is at most what {connections} connections and {outboxes} full outboxes may take", peak <= most, f"{peak} KiB")
    checks.tell(f"{peak / 1024:.0f} MiB at most, {start / 1024:.0f} before them; {most / 1024:.0f} would be allowed")


def stall(broker, checks, has_network):
    """Begins those that stall, a kind after another, and answers those that are under way. None of them has much to do with the processor."""
    others, start = Others(broker), broker.memory("VmRSS")
    without, under_way = others.measure(), []
    for kind in STALLED + ([half_open(GONE)] if has_network else []):
        under_way.append((kind, Attack([kind] * COUNT, broker.port).begun()))
        if kind not in STALLED:
            subprocess.run(["ip", "link", "delete", "gone"], check=True)
        judge_receipts(checks, kind, without, others)
    judge_memory(checks, broker, start, OTHERS + COUNT * len(under_way))
    return under_way


def flood(broker, checks, kind):
    """A kind that floods the server."""
    others, start = Others(broker), broker.memory("VmRSS")
    without = others.measure()
    broker.forget_peak()
    attack = Attack([kind] * COUNT, broker.port).begun()
    judge_receipts(checks, kind, without, others)
    # Not all of them take nothing from the beginning: each has to have sent enough before.
    seconds = attack.end(kind.free_after + 2 * SPARE if kind.free_after else 0)
    judge_memory(checks, broker, start, OTHERS + COUNT)
    judge_places(checks, kind, seconds)


def unread_bodies(broker, checks):
    """Bodies of 60,000 bytes, as fast as they can be sent, to a topic whose subscribers read nothing."""
    others, start = Others(broker), broker.memory("VmRSS")
    without = others.measure()
    broker.forget_peak()
    readers = Attack([UNREAD] * READERS, broker.port).begun()
    writers = Attack([BODIES] * WRITERS, broker.port).begun()
    judge_receipts(checks, UNREAD, without, others)
    seconds = readers.end(UNREAD.free_after + SPARE)
    writers.end()
    judge_memory(checks, broker, start, OTHERS + READERS + WRITERS, READERS)
    judge_places(checks, UNREAD, seconds)


def best(rounds):
    """Of measurements without something and with it, in turns, the best of each."""
    return [min(side, key=lambda receipts: receipts.within(99)) for side in zip(*rounds)]


def in_attack(broker, kind, one, places):
    """What receipts of one take while there is an attacker of this kind, and waits until it has gone: so many connections are there without it."""
    attack = Attack([kind], broker.port).begun()
    receipts = one.measure(ROUND)
    attack.end()
    end = time.monotonic() + LONGEST
    while len(held_places(broker.port)) != places and time.monotonic() < end:
        time.sleep(0.05)
    return receipts


def is_busy():
    """Whether other work takes half of the processors or more."""
    running = []
    for _ in range(20):
        with open("/proc/loadavg") as load:
            running.append(int(load.read().split()[3].split("/")[0]) - 1)
        time.sleep(0.05)
    return sum(running) / len(running) >= os.cpu_count() / 2


def judge_neighbour(checks, kind, without, times, more, pair):
    elsewhere, shared = pair
    name = f"beside one at its desk that is to {kind.name}, 99 of 100 receipts take at most {times} times what they take {without}"
    checks.check(name, shared.within(99) <= times * elsewhere.within(99) + more, str(shared))
    checks.tell(f"half and 99 of 100 within {shared}; {without} {elsewhere}; {shared.within(99) / elsewhere.within(99):.1f} times")


def share_a_desk(broker, checks):
    """One whose desk has nobody else, while each other desk has a client that never waits; and now and then there is one at its own desk too."""
    one, more = Others(broker, 1), HELD_UP if is_busy() else 0
    busy = Attack([BUSY] * (DESKS - 1), broker.port).begun()
    pair = best([(one.measure(ROUND), in_attack(broker, BUSY, one, DESKS)) for _ in range(ROUNDS)])
    judge_neighbour(checks, BUSY, "while all other desks have one", AMONG, more, pair)
    busy.end()


def have_a_neighbour(broker, checks):
    """One whose desk has nobody else, and one of each kind that floods in turn, and of some that stall, at another desk and at its own; the other
    desks have a client each that says nothing."""
    one, more = Others(broker, 1), HELD_UP if is_busy() else 0
    if more:
        checks.tell(f"other work takes the processors: {more * 1000:.0f} ms more are let pass")
    quiet = [attackers.in_session(broker.port) for _ in range(DESKS - 2)]
    for kind in [BUSY, BODIES, *FLOODS, *STALLED[::3]]:
        pair = best([elsewhere_and_beside(broker, kind, one) for _ in range(ROUNDS)])
        judge_neighbour(checks, kind, "while it is at another", SHARED, more, pair)
    for client in quiet:
        client.close()


def elsewhere_and_beside(broker, kind, one):
    """What receipts of one take while one of this kind is at the desk that has nobody, and then at its own, since each other has one."""
    elsewhere = in_attack(broker, kind, one, DESKS - 1)
    last = attackers.in_session(broker.port)
    shared = in_attack(broker, kind, one, DESKS)
    last.close()
    return elsewhere, shared


def over_another(program, checks, scenario_of):
    """Over a broker of its own, which has nothing to work off that others have sent."""
    with scenario.serving(program) as broker:
        threads = broker.count_of_threads()
        scenario_of(broker)
        checks.check("after it a new client is served within a second, by as many threads as before", is_calm(broker, threads), last_words(broker))


def attack_all(program, checks, has_network):
    """Those that stall over one broker, and meanwhile the others, a kind after another."""
    with scenario.serving(program) as broker:
        threads = broker.count_of_threads()
        stalled = stall(broker, checks, has_network)
        for kind in FLOODS:
            over_another(program, checks, lambda broker: flood(broker, checks, kind))
        over_another(program, checks, lambda broker: unread_bodies(broker, checks))
        over_another(program, checks, lambda broker: share_a_desk(broker, checks))
        over_another(program, checks, lambda broker: have_a_neighbour(broker, checks))
        for kind, attack in stalled:
            judge_places(checks, kind, attack.end(kind.free_after + SPARE))
        checks.check("after it a new client is served within a second, by as many threads as before", is_calm(broker, threads), last_words(broker))


def main():
    parser = scenario.words_of(__doc__)
    parser.add_argument("--neighbours", action="store_true", help="try only those that share a desk")
    words = parser.parse_args()
    scenario.take_descriptors()
    checks, began = scenario.Checks(), time.monotonic()
    has_network = not words.neighbours and own_network()
    if not has_network and not words.neighbours:
        checks.tell("half-open clients are left out: no network of its own was to be had, which takes `ip` and root")
    try:
        if words.neighbours:
            over_another(words.program, checks, lambda broker: have_a_neighbour(broker, checks))
        else:
            attack_all(words.program, checks, has_network)
    except Exception as error:
        traceback.print_exc()
        checks.check("it runs to its end", False, error)
    checks.tell(f"{time.monotonic() - began:.0f} s")
    return checks.status()


if __name__ == "__main__":
    sys.exit(main())
