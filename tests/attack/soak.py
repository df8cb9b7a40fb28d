#!/usr/bin/env python3
"""A day in ten minutes: clients that send and receive what is kept, attackers, compactions, kills and restarts, in one run.

    python3 tests/attack/soak.py [PROGRAM] [--minutes N] [--seed N]

A life of the broker takes some five seconds. In each life senders send to a queue and to a topic, every fourth time a transaction, with receipts; a
worker takes from the queue, and a client with a durable name from the topic: they acknowledge most, and refuse every fifth; the second leaves
without a word now and then, and comes again. Meanwhile there is one attacker of each kind of tests/attack/under_attack.py, and the journal, of two areas of 4 MiB, is
compacted. Every third life ends calmly: the attackers are gone, and the senders have their receipts. Then the broker is killed, is started again over
the same file, and:

- what is there is what tests/kills/kills.py asks for: what was receipted is there, or was acknowledged or refused; nothing is there twice, and so on;
- within ten seconds a new client is served within a second, by as many threads as at the beginning; so it is in the calm, too;
- at the end, the memory of the broker before its kills is compared: the middle one of the last third of the lives with that of the first third.

The seed chooses what is sent and when; `--seed N` has the same asked for again, though not of the same threads.
"""

import random
import sys
import time
import traceback

from attackers import BODIES, FLOODS, STALLED, UNREAD, Attack, is_calm, last_words
from lib import kept, scenario
from lib.stomp_client import Client

# Two areas of 4 MiB after a head of 32 bytes.
JOURNAL_BYTES = 8_388_640

# For how many seconds a life's load goes on, from when its attackers are at work.
LIFE = (3.5, 4.5)
# What all senders of a life send at most, so that what is held has room.
SENDERS, MOST = 4, 3_600

TOPIC = "/topic/news"
CLIENT_ID, NAME = "reader", ("activemq.subscriptionName", "n")

# How much more memory the last lives may take than the first.
FLAT = 1.5
# For how long a client waits for its next frame, on a busy machine.
PATIENCE = 60


class Sender(kept.Sender):
    """Sends a life long, and to one of the two."""

    padding = " " + "x" * 200

    def __init__(self, port, name, queue, seed):
        super().__init__(port, name, MOST // SENDERS, seed)
        self.queue = queue
        self.client.socket.settimeout(PATIENCE)

    def send_some(self):
        # So that it has not sent all when the broker is killed.
        time.sleep(self.random.uniform(0, 3 * LIFE[1] * SENDERS / MOST))
        return super().send_some()

    def end(self):
        """Has it send no more, and wait for what is under way."""
        self.most = self.count


def name_of(body):
    """A message without its padding."""
    return body.removesuffix(Sender.padding)


class Worker(kept.Worker):
    """Takes from the queue."""

    def __init__(self, port):
        super().__init__(port)
        self.client.socket.settimeout(PATIENCE)

    def answer(self, frame):
        super().answer(frame._replace(body=name_of(frame.body)))


class Reader(Worker):
    """Takes from the topic, under its durable name. It leaves now and then, without a word, and comes again: what it has not acknowledged then
    comes again too."""

    def __init__(self, port, seed):
        super().__init__(port)
        self.port, self.random, self.comings = port, random.Random(seed), 0

    def go_on(self):
        while True:
            self.client.close()
            self.client = Client(self.port, timeout=PATIENCE).connect(CLIENT_ID)
            self.client.send("SUBSCRIBE", [("id", "w"), ("destination", TOPIC), ("ack", "client-individual"), NAME])
            self.comings += 1
            self.take(self.random.randint(100, 400))

    def take(self, count):
        """Hears so many frames."""
        for _ in range(count):
            frame = self.client.receive()
            if frame.command == "ERROR":
                # The session before this one has not ended yet.
                assert frame.headers["message"].startswith("E14 "), frame
                time.sleep(0.02)
                return
            if frame.command == "RECEIPT":
                body = frame.headers["receipt-id"]
                (self.refused if kept.is_refused(body) else self.settled).add(body)
            else:
                self.answer(frame)

    def answer(self, frame):
        body = name_of(frame.body)
        assert body not in self.settled | self.refused, f"{body} came again, although it was settled"
        super().answer(frame)
        self.had[body] = 1


class Run:
    """What was seen over all lives."""

    def __init__(self, broker, checks, chance):
        self.broker, self.checks, self.chance = broker, checks, chance
        self.threads, self.lives = broker.count_of_threads(), 0
        self.memory, self.comings, self.totals, self.compactions = [], 0, kept.Totals(), 0

    def crew(self):
        """The clients of a life: senders to the queue and to the topic, and who takes from either."""
        port, name = self.broker.port, self.lives
        places = [kept.QUEUE, TOPIC] * (SENDERS // 2)
        senders = [Sender(port, f"{name}.{number}", queue, self.chance.random()) for number, queue in enumerate(places)]
        return senders, Worker(port), Reader(port, self.chance.random())

    def live(self):
        """A life of the broker, up to its kill, and what is there after it."""
        attack = Attack([*STALLED, *FLOODS, UNREAD, BODIES], self.broker.port).begun()
        senders, worker, reader = self.crew()
        everybody = [*senders, worker, reader]
        for one in everybody:
            one.thread.start()
        time.sleep(self.chance.uniform(*LIFE))
        self.memory.append(self.broker.memory("VmRSS"))
        if self.lives % 3 == 2:
            attack.end()
            self.be_calm(senders)
        assert self.broker.is_running(), last_words(self.broker)
        self.broker.kill()
        self.compactions += self.broker.text().count(" compacted")
        for one in everybody:
            one.thread.join(2 * PATIENCE)
            one.client.close()
        if self.lives % 3 != 2:
            attack.end()
        stuck = [one for one in everybody if one.thread.is_alive()]
        self.lives += 1
        self.comings += reader.comings
        self.serve_again()
        faults = [f"{one}: stuck" for one in stuck] + self.faults(senders, worker, reader)
        if faults:
            self.checks.check(f"life {self.lives}", False, faults[:5])

    def be_calm(self, senders):
        """Lets the senders have what they wait for. Anyone who comes now is served."""
        for one in senders:
            one.end()
        for one in senders:
            one.thread.join(PATIENCE)
        if any(one.thread.is_alive() for one in senders):
            self.checks.check(f"life {self.lives + 1}: the senders have their receipts in the calm", False)
        if not is_calm(self.broker, self.threads):
            self.checks.check(f"life {self.lives + 1}: a new client is served within a second in the calm", False, self.broker.count_of_threads())

    def serve_again(self):
        start = time.perf_counter()
        self.broker.serve()
        self.totals.longest_restart = max(self.totals.longest_restart, time.perf_counter() - start)
        if not is_calm(self.broker, self.threads):
            self.checks.check(f"after kill {self.lives} a new client is served within a second", False, self.broker.count_of_threads())

    def faults(self, senders, worker, reader):
        """What is wrong with what is there."""
        port = self.broker.port
        dead = [name_of(body) for body in kept.take_all(port, kept.DEAD)]
        places = [
            (worker, [name_of(body) for body in kept.take_all(port)], [one for one in senders if one.queue == kept.QUEUE]),
            (reader, [name_of(body) for body in kept.take_all(port, TOPIC, CLIENT_ID, [NAME], PATIENCE)], [one for one in senders if one.queue == TOPIC]),
        ]
        faults = []
        for taker, found, its_senders in places:
            names = tuple(one.name + " " for one in its_senders)
            its_dead = [body for body in dead if body.startswith(names)]
            self.totals.add(its_senders, taker, found + its_dead)
            faults += kept.faults_of_a_round(its_senders, taker, found + its_dead)
            faults += kept.faults_of_refusals(taker, found, its_dead)
            faults += [fault for there in (found, its_dead) for fault in kept.faults_of_order(its_senders, there)]
        return faults

    def tell(self):
        kept.tell(self.checks, self.totals, self.lives)
        self.checks.tell(f"{self.compactions} compactions; the reader of the topic came {self.comings} times")
        third = max(1, len(self.memory) // 3)
        first, last = (sorted(part)[third // 2] for part in (self.memory[:third], self.memory[-third:]))
        self.checks.check(f"the last lives take at most {FLAT} times the memory of the first", last <= FLAT * first, (first, last))
        self.checks.tell(f"{first / 1024:.0f} MiB, then {last / 1024:.0f}; {min(self.memory) / 1024:.0f} to {max(self.memory) / 1024:.0f} in all")


def soak(broker, checks, chance, seconds):
    """Lives, for so long."""
    reader = Client(broker.port).connect(CLIENT_ID)
    reader.subscribe("w", TOPIC, "client-individual", [NAME])
    reader.disconnect()
    run, end = Run(broker, checks, chance), time.monotonic() + seconds
    while run.lives < 3 or time.monotonic() < end:
        run.live()
    checks.check(f"killed {run.lives} times: all that was receipted is there, and nothing is there twice", not checks.failed)
    checks.check("there was something to do: compactions, and messages without a receipt", run.compactions and run.totals.unknown)
    checks.check("and receipts came: a hundred a life at least", run.totals.receipted >= 100 * run.lives, run.totals.receipted)
    run.tell()


def main():
    parser = scenario.words_of(__doc__)
    parser.add_argument("--minutes", type=float, default=10)
    parser.add_argument("--seed", type=int, default=random.randrange(2**32), help="of what is sent, and when")
    words = parser.parse_args()
    print(f"seed {words.seed}", flush=True)
    scenario.take_descriptors()
    checks = scenario.Checks()
    with scenario.serving(words.program, JOURNAL_BYTES) as broker:
        try:
            soak(broker, checks, random.Random(words.seed), 60 * words.minutes)
        except Exception as error:
            traceback.print_exc()
            checks.check("it runs to its end", False, (error, last_words(broker)))
    return checks.status()


if __name__ == "__main__":
    sys.exit(main())
