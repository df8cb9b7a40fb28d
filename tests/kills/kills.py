#!/usr/bin/env python3
"""Kills the broker by SIGKILL at random moments, under load, and looks after each restart what is there.

    python3 tests/kills/kills.py [PROGRAM] [--rounds N] [--seed N] [--senders N]
    python3 tests/kills/kills.py [PROGRAM] --crowd [--rounds N] [--seed N] [--clients N]

In each round senders send to one queue, several receipts in flight, every fourth time a transaction. A worker takes from the queue, acknowledges most, and
refuses every fifth. Then the broker is killed and started again over the same file. A reader takes all that is there, in the queue and in /queue/dead:

- a message whose receipt came, and that nobody acknowledged, once;
- a message whose acknowledgement had its receipt, never;
- a message whose refusal had its receipt, once, in /queue/dead; one whose refusal had none, once, in the one or the other;
- a message whose receipt did not come, once or never, but the messages of a transaction all or none;
- the messages of a sender in the order in which it sent them, and nothing that wasn't sent.

With --crowd a thousand connections send, and no worker takes. Each subscribes to one of 50 topics. Once all are there they send to the queue, and every
tenth to its topic too. What a client heard has to be its own: the receipts that it asked for, each once, and what was sent to its topic. All of them
are in one thread, which waits for their sockets at once.

A SIGKILL ends the program, not the machine: what the program had written is there for the system. What a lost machine leaves is the crash model's matter.
"""

import functools
import random
import sys
import time

from lib import scenario
from lib.kept import DEAD, MOST_OF_A_ROUND, QUEUE, Group, Sender, Totals, Worker, faults_of_a_round, faults_of_order, faults_of_refusals, take_all, tell
from lib.members import Crowd, Member
from lib.stomp_client import frame_of, stomp_message

# The topics of a crowd, and the receipts that each of it waits for at a time.
TOPICS, IN_FLIGHT = 50, 2
# How many of a crowd are between their first packet and their subscription at a time, and for how many seconds all may take to be there.
AT_ONCE, LONGEST = 200, 60


def kill_under_load(broker, name, chance, count):
    """A round up to the kill: the senders and the worker, once they all have noticed."""
    most = MOST_OF_A_ROUND // count
    senders = [Sender(broker.port, f"{name}.{number}", most, chance.random()) for number in range(count)]
    worker = Worker(broker.port)
    everybody = [*senders, worker]
    for one in everybody:
        one.thread.start()
    time.sleep(chance.uniform(0.001, 0.25))
    broker.kill()
    for one in everybody:
        one.thread.join()
        one.client.close()
    return senders, worker


def start_again(broker, totals):
    start = time.perf_counter()
    broker.serve()
    totals.longest_restart = max(totals.longest_restart, time.perf_counter() - start)


def a_round(broker, name, chance, count, totals):
    """Kills and starts the broker, and answers what is wrong then."""
    senders, worker = kill_under_load(broker, name, chance, count)
    if broker.has_failed():
        return [f"it had ended by itself, with status {broker.process.returncode}"]
    start_again(broker, totals)
    found, dead = take_all(broker.port), take_all(broker.port, DEAD)
    totals.add(senders, worker, found + dead)
    # Within each of the two a sender's messages stand in order.
    orders = [fault for there in (found, dead) for fault in faults_of_order(senders, there)]
    return [*faults_of_a_round(senders, worker, found + dead), *faults_of_refusals(worker, found, dead), *orders]


class SendingMember(Member):
    """One of a crowd, which sends to the queue."""

    def __init__(self, port, name, number, most, chance):
        super().__init__(port, f"/topic/{number % TOPICS}")
        self.name, self.number, self.most, self.chance = name, number, most, chance
        self.groups, self.waiting, self.count = [], {}, 0

    def hear_more(self, payload):
        frame = frame_of(payload)
        if frame.command == "RECEIPT" and frame.headers["receipt-id"] in self.waiting:
            self.waiting.pop(frame.headers["receipt-id"]).is_receipted = True
            self.go_on()
        elif frame.command != "MESSAGE" or frame.headers["destination"] != self.topic or frame.body != self.topic:
            self.fault = payload

    def go_on(self):
        while self.count < self.most and len(self.waiting) < IN_FLIGHT and not self.is_over:
            self.send_some()

    def send_some(self):
        """A message, or every fourth time a transaction. It is kept before it is sent: of what was sent in part nothing is known."""
        size = min(self.chance.randint(2, 3) if self.chance.random() < 0.25 else 1, self.most - self.count)
        group = Group([f"{self.name} {self.count + place}" for place in range(size)])
        first = group.bodies[0]
        self.groups.append(group)
        self.waiting[first] = group
        self.count += size
        if size == 1:
            self.write(stomp_message("SEND", [("destination", QUEUE), ("receipt", first)], first))
            return
        parts = [stomp_message("BEGIN", [("transaction", first)])]
        parts += [stomp_message("SEND", [("destination", QUEUE), ("transaction", first)], body) for body in group.bodies]
        self.write(b"".join([*parts, stomp_message("COMMIT", [("transaction", first), ("receipt", first)])]))

    def send_to_topic(self):
        self.write(stomp_message("SEND", [("destination", self.topic)], self.topic))


class Nobody:
    """The worker of a round that has none."""

    had, settled, refused, fault = {}, set(), set(), None


class SendingCrowd(Crowd):
    """The clients of a round."""

    def send_until(self, moment):
        """All begin to send, and go on until that moment."""
        for member in self.members.values():
            member.go_on()
            if member.number % 10 == 0:
                member.send_to_topic()
            if time.monotonic() >= moment:
                return
            self.look(0)
        while time.monotonic() < moment:
            self.look(max(0, moment - time.monotonic()))

    def hear_the_end(self):
        """Hears what the killed broker had sent."""
        end = time.monotonic() + 10
        while any(not it.is_over for it in self.members.values()) and time.monotonic() < end:
            self.look(0.1)
        for member in self.members.values():
            member.socket.close()
        self.poll.close()


def a_round_of_a_crowd(broker, name, chance, count, totals):
    """Kills and starts the broker, and answers what is wrong then."""
    crowd, most = SendingCrowd(), MOST_OF_A_ROUND // count
    ready = crowd.bring([functools.partial(SendingMember, broker.port, f"{name}.{number}", number, most, chance) for number in range(count)], AT_ONCE, LONGEST)
    members = list(crowd.members.values())
    if ready < count:
        return [f"{count - ready} of {count} were not there after {LONGEST} s"]
    crowd.send_until(time.monotonic() + chance.uniform(0.01, 0.6))
    closed = [f"{it.name} was closed before the kill" for it in members if it.is_over]
    broker.kill()
    if broker.has_failed():
        return [f"it had ended by itself, with status {broker.process.returncode}"]
    crowd.hear_the_end()
    start_again(broker, totals)
    found = take_all(broker.port)
    totals.add(members, Nobody, found)
    return [*closed, *faults_of_a_round(members, Nobody, found), *faults_of_order(members, found)]


def given():
    parser = scenario.words_of(__doc__)
    parser.add_argument("--crowd", action="store_true", help="a thousand connections send, and no worker takes")
    parser.add_argument("--rounds", type=int, default=100, help="how often the broker is killed")
    parser.add_argument("--seed", type=int, default=random.randrange(2**32), help="of the moments and of what is sent")
    parser.add_argument("--senders", type=int, help="without --crowd (4)")
    parser.add_argument("--clients", type=int, help="with --crowd (1,000)")
    words = parser.parse_args()
    if words.senders and words.crowd or words.clients and not words.crowd:
        parser.error("a crowd has --clients, and no --senders")
    words.count = (words.clients or 1_000) if words.crowd else (words.senders or 4)
    return words


def main():
    words = given()
    print(f"seed {words.seed}", flush=True)
    scenario.take_descriptors()
    chance, checks, totals = random.Random(words.seed), scenario.Checks(), Totals()
    one_round = a_round_of_a_crowd if words.crowd else a_round
    with scenario.serving(words.program) as broker:
        for number in range(words.rounds):
            faults = one_round(broker, f"{number}", chance, words.count, totals)
            if faults:
                checks.check(f"kill {number}", False, faults[:5])
            if not broker.is_running():
                break
    by = f" with {words.count} connections" if words.crowd else ""
    checks.check(f"killed {words.rounds} times{by}: all that was receipted is there once, and nothing else", not checks.failed)
    checks.check("the load was one: some messages had no receipt at the kill", totals.unknown > 0)
    checks.check("and far more had one", 10 * words.rounds < totals.receipted, totals.receipted)
    tell(checks, totals, words.rounds)
    return checks.status()


if __name__ == "__main__":
    sys.exit(main())
