#!/usr/bin/env python3
"""200 connections at once, of which each desk has three or four, and how they come and go.

    python3 tests/program/crowd.py [PROGRAM]
    python3 tests/program/crowd.py [PROGRAM] --many [--clients N] [--topics N] [--sends N] [--seconds N]

With --many there are 10,000 connections on 500 topics, 20 to a topic, which needs `ulimit -n 12000`. It tells how soon all are there, and what they cost
while they say nothing. Then 2,000 SENDs a second come, and it tells how soon each reaches its 20 subscribers. The clients are in four processes, each
of which waits for all of its sockets at once. Only what has to hold on any machine is checked: all are connected, each SEND reaches each subscriber of its
topic once, in order and within a second, and the broker goes on.
"""

import collections
import functools
import multiprocessing
import pathlib
import select
import socket
import sys
import time

from lib import scenario
from lib.members import Crowd, Member
from lib.stomp_client import Client

CROWD = 200

# For how many seconds nothing happens, and how much processor time the broker may take meanwhile.
IDLE = 3
IDLE_WORK = 0.3

# How many come at once, and how soon they are connected.
RUSH, RUSH_WAIT = 700, 0.5

# How often somebody comes and leaves.
COMINGS = 1_000

# Of the many: how many processes they are in, and how many of a process's clients are between their first packet and their receipt at a time.
PROCESSES, AT_ONCE = 4, 100

# For how long nothing happens while their processor time is measured, and how many connections send.
LONG_IDLE, SENDERS = 10, 20

# For how many seconds a process waits for its clients to be connected, and for what was sent last.
LONGEST, LAST = 120, 10


def a_full_house(broker, checks):
    """each of 200 clients hears each other in one room"""
    crowd = [Client(broker.port).connect() for _ in range(CROWD)]
    for client in crowd:
        client.subscribe("a", "/topic/crowd")
    for number, client in enumerate(crowd):
        client.send("SEND", [("destination", "/topic/crowd")], f"{number}")
    heard = [[client.receive().body for _ in range(CROWD)] for client in crowd]
    checks.same("each hears all 200", sorted(heard[0], key=int), [f"{number}" for number in range(CROWD)])
    checks.check("all in the same order", all(one == heard[0] for one in heard), heard)
    for client in crowd:
        client.disconnect()


def nothing_to_do(broker, checks):
    """while 200 clients say nothing and hear nothing the broker sleeps"""
    crowd = [Client(broker.port).connect() for _ in range(CROWD)]
    for client in crowd:
        client.publish("/topic/none", "x")
    before = broker.processor_seconds()
    time.sleep(IDLE)
    taken = broker.processor_seconds() - before
    checks.check(f"it takes less than {IDLE_WORK} s of processor time in {IDLE} s", taken < IDLE_WORK, taken)
    for client in crowd:
        client.disconnect()


def standing_still(broker, checks):
    """clients that come while the broker stands still wait for it, each with its connection"""
    count = min(RUSH, int(pathlib.Path("/proc/sys/net/core/somaxconn").read_text(encoding="ascii")))
    with broker.standing_still():
        rush = [socket.socket() for _ in range(count)]
        for one in rush:
            one.setblocking(False)
            one.connect_ex(("127.0.0.1", broker.port))
        # One that finds no room asks again after a second.
        time.sleep(RUSH_WAIT)
        connected = sum(bool(select.select([], [one], [], 0)[1]) for one in rush)
    checks.same(f"all {count} are connected within {RUSH_WAIT} s", connected, count)
    for one in rush:
        one.close()
    Client(broker.port).connect().publish("/topic/none", "x")


def comings_and_goings(broker, checks):
    """clients come and leave, with a word, without one, and before they are greeted, and those that stay notice nothing"""
    crowd = [Client(broker.port).connect() for _ in range(CROWD)]
    crowd[0].subscribe("a", "/topic/comings")
    for number in range(COMINGS):
        client = Client(broker.port, waits=number % 3 != 2)
        if number % 3 == 2:
            client.close()
            continue
        client.connect().publish("/topic/comings", f"{number}")
        if number % 3 == 0:
            client.disconnect()
        else:
            client.close()
    heard = [crowd[0].receive().body for number in range(COMINGS) if number % 3 != 2]
    checks.same("each that spoke was heard", heard, [f"{number}" for number in range(COMINGS) if number % 3 != 2])
    for client in crowd:
        client.publish("/topic/none", "x")
    checks.check("all that stayed have a receipt", True)
    for client in crowd:
        client.disconnect()


class Subscriber(Member):
    """One of the many, which keeps what it heard, and when."""

    def __init__(self, port, number):
        super().__init__(port, f"/topic/{number}")
        self.number, self.heard = number, []

    def hear_more(self, payload):
        if payload.startswith(b"MESSAGE\n"):
            self.heard.append((payload[payload.index(b"\n\n") + 2 : -1], self.now))
        else:
            self.fault = payload


def crowd(port, topics, orders):
    """A process: it connects its clients, tells so, and listens until it is told to stop, and then until nothing comes any more. It tells what each heard."""
    clients, stopping = Crowd(), None
    orders.send(clients.bring([functools.partial(Subscriber, port, topic) for topic in topics], AT_ONCE, LONGEST))
    clients.poll.register(orders.fileno(), select.EPOLLIN)
    while stopping is None or time.monotonic() < stopping:
        came, others = clients.look(0.2)
        if others:
            orders.recv()
            clients.poll.unregister(orders.fileno())
            stopping = time.monotonic() + LAST
        elif stopping and not came:
            break
    orders.send([(client.number, client.heard) for client in clients.members.values()])
    orders.send([client.fault for client in clients.members.values() if client.fault])
    orders.send(len(clients.lost))


def send_all(broker, topics, sends, seconds):
    """Sends so many a second to topics in turn, each with its number and the moment, and answers how many were sent to each topic."""
    senders = [Client(broker.port).connect() for _ in range(SENDERS)]
    sent = collections.Counter()
    start = time.monotonic()
    for number in range(sends * seconds):
        ahead = start + number / sends - time.monotonic()
        if ahead > 0:
            time.sleep(ahead)
        topic = number * 7 % topics
        senders[topic % SENDERS].send("SEND", [("destination", f"/topic/{topic}")], f"{number} {time.monotonic_ns()}")
        sent[topic] += 1
    took = time.monotonic() - start
    for sender in senders:
        sender.disconnect()
    return sent, took


def percentile(values, percent):
    return sorted(values)[min(len(values) - 1, len(values) * percent // 100)]


def judge(checks, told, sent, per_topic):
    """Checks what was heard, and tells how long it took."""
    last, wrong = {}, 0
    for topic, heard in told:
        numbers = [int(body.split()[0]) for body, _ in heard]
        if len(numbers) != sent[topic] or numbers != sorted(set(numbers)):
            wrong += 1
        for body, now in heard:
            number, moment = map(int, body.split())
            last[number] = max(last.get(number, 0), now - moment)
    checks.check("each subscriber has heard each SEND to its topic once, in order", not wrong, f"{wrong} have not")
    if last:
        figures = ", ".join(f"{name} {percentile(last.values(), at) / 1e6:.1f} ms" for name, at in (("half", 50), ("99 of 100", 99)))
        checks.check("no SEND takes over a second", max(last.values()) <= 1e9, f"{max(last.values()) / 1e9:.1f} s")
        checks.tell(f"a SEND has reached its last of {per_topic} subscribers after: {figures}, at most {max(last.values()) / 1e6:.1f} ms")


def many(broker, checks, words):
    before = broker.memory("VmRSS")
    topics = [number % words.topics for number in range(words.clients)]
    start = time.monotonic()
    ends = []
    for place in range(PROCESSES):
        here, there = multiprocessing.Pipe()
        process = multiprocessing.Process(target=crowd, args=(broker.port, topics[place::PROCESSES], there), daemon=True)
        process.start()
        ends.append(here)
    ready = sum(end.recv() for end in ends)
    checks.tell(f"{ready} clients connected and subscribed in {time.monotonic() - start:.1f} s")
    checks.same("all are connected", ready, words.clients)
    each = (broker.memory("VmRSS") - before) / max(1, ready)
    checks.tell(f"{each:.0f} KB each, {broker.memory('VmRSS') / 1024:.0f} MB in all, {broker.count_of_threads()} threads")
    time.sleep(1)
    taken = broker.processor_seconds()
    time.sleep(LONG_IDLE)
    taken = broker.processor_seconds() - taken
    checks.tell(f"{taken / LONG_IDLE * 100:.1f} % of a processor while none says anything, pings and their answers counted")
    taken = broker.processor_seconds()
    sent, took = send_all(broker, words.topics, words.sends, words.seconds)
    checks.tell(f"{sum(sent.values()) / took:.0f} SENDs a second, {(broker.processor_seconds() - taken) / took:.2f} processors")
    time.sleep(1)
    for end in ends:
        end.send("stop")
    told = [heard for end in ends for heard in end.recv()]
    checks.same("none hears what it has not asked for", [fault for end in ends for fault in end.recv()][:5], [])
    judge(checks, told, sent, words.clients // words.topics)
    checks.same("none was let go", sum(end.recv() for end in ends), 0)


def given():
    parser = scenario.words_of(__doc__)
    parser.add_argument("--many", action="store_true", help="10,000 connections on 500 topics")
    parser.add_argument("--clients", type=int, default=10_000)
    parser.add_argument("--topics", type=int, default=500)
    parser.add_argument("--sends", type=int, default=2_000)
    parser.add_argument("--seconds", type=int, default=10)
    words = parser.parse_args()
    if not words.many and any(getattr(words, it) != parser.get_default(it) for it in ("clients", "topics", "sends", "seconds")):
        parser.error("these words go with --many")
    return words


def main():
    words = given()
    scenario.take_descriptors()
    scenario.keep_journals_in_memory()

    def many_at_once(broker, checks):
        """so many connections, each on a topic with others"""
        many(broker, checks, words)

    few = [a_full_house, nothing_to_do, standing_still, comings_and_goings]
    return scenario.run_over(words.program, [many_at_once] if words.many else few)


if __name__ == "__main__":
    sys.exit(main())
