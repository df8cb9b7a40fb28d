"""Clients under load that keep what they sent and what they heard of it, and what is wrong with what is there after a kill."""

import collections
import random
import threading
import time

from .stomp_client import Client, Closed

QUEUE = "/queue/kept"
# Where refused messages wait.
DEAD = "/queue/dead"
# Receipts that a sender has in flight. The broker itself takes 16 commands of a connection at a time.
IN_FLIGHT = 16
# What the senders of a round send at most, so that no more than 4,096 messages are held.
MOST_OF_A_ROUND = 3_600
LAST_BODY = "the last one"


class Group:
    """What one receipt tells of: a message, or the messages of a transaction."""

    def __init__(self, bodies):
        self.bodies = bodies
        self.is_receipted = False


class Loader:
    """A client in a thread of its own, which goes on until the broker is gone."""

    def __init__(self, port):
        self.client = Client(port).connect()
        # What ended it, if that isn't the end of its stream.
        self.fault = None
        self.thread = threading.Thread(target=self.run)

    def run(self):
        try:
            self.go_on()
        except ConnectionError:
            pass
        except Closed as closed:
            self.fault = closed if closed.code else None
        except Exception as error:
            self.fault = error


class Sender(Loader):
    """Keeps what it sent and what was receipted."""

    # Where it sends to, and what stands after the name of each message.
    queue, padding = QUEUE, ""

    def __init__(self, port, name, most, seed):
        super().__init__(port)
        self.name, self.most = name, most
        self.random = random.Random(seed)
        self.groups = []
        self.count = 0

    def go_on(self):
        waiting = []
        while self.count < self.most or waiting:
            if self.count < self.most and len(waiting) < IN_FLIGHT:
                waiting.append(self.send_some())
            else:
                self.hear_receipt(waiting.pop(0))

    def send_some(self):
        """A message, or every fourth time a transaction; what its receipt tells of."""
        size = self.random.randint(2, 5) if self.random.random() < 0.25 else 1
        # It is kept before it is sent: of what was sent in part nothing is known.
        group = Group([f"{self.name} {self.count + place}" for place in range(size)])
        self.groups.append(group)
        self.count += size
        if size == 1:
            self.client.send("SEND", [("destination", self.queue), ("receipt", group.bodies[0])], group.bodies[0] + self.padding)
        else:
            self.send_transaction(group.bodies)
        return group

    def send_transaction(self, bodies):
        within = ("transaction", bodies[0])
        self.client.send("BEGIN", [within])
        for body in bodies:
            self.client.send("SEND", [("destination", self.queue), within], body + self.padding)
        self.client.send("COMMIT", [within, ("receipt", bodies[0])])

    def hear_receipt(self, group):
        before = self.client.receipt(group.bodies[0])
        assert not before, before
        group.is_receipted = True


def is_refused(body):
    """Whether the worker refuses it."""
    return int(body.split(" ")[1]) % 5 == 0


class Worker(Loader):
    """Takes from the queue and acknowledges or refuses; keeps how often it had each message, and what was receipted of either."""

    def __init__(self, port):
        super().__init__(port)
        self.had, self.settled, self.refused = collections.Counter(), set(), set()

    def go_on(self):
        self.client.send("SUBSCRIBE", [("id", "w"), ("destination", QUEUE), ("ack", "client-individual")])
        while True:
            frame = self.client.receive()
            if frame.command == "RECEIPT":
                body = frame.headers["receipt-id"]
                (self.refused if is_refused(body) else self.settled).add(body)
            else:
                self.answer(frame)

    def answer(self, frame):
        assert frame.command == "MESSAGE", frame
        self.had[frame.body] += 1
        self.client.send("NACK" if is_refused(frame.body) else "ACK", [("id", frame.headers["ack"]), ("receipt", frame.body)])
        # Slower than the senders, so that something is left in the queue.
        time.sleep(0.001)


def take_all(port, destination=QUEUE, client_id=None, headers=(), timeout=10):
    """The bodies of all that waits there, each acknowledged, up to a message that is sent last."""
    reader = Client(port, timeout=timeout).connect(client_id)
    frames = reader.subscribe("r", destination, "client-individual", headers)
    reader.send("SEND", [("destination", destination)], LAST_BODY)
    found = []
    while not found or found[-1] != LAST_BODY:
        frame = frames.pop(0) if frames else reader.receive()
        assert frame.command == "MESSAGE", frame
        found.append(frame.body)
        reader.send("ACK", [("id", frame.headers["ack"])])
    reader.disconnect()
    return found[:-1]


def faults_of_a_group(group, there, worker):
    """What is wrong with a group, by how often each of its messages was found."""
    was_had = any(body in worker.had for body in group.bodies)
    untouched = [body for body in group.bodies if body not in worker.had]
    missing = [body for body in untouched if body not in there]
    if missing and (group.is_receipted or was_had):
        yield f"{missing}: lost"
    if missing and len(missing) < len(untouched):
        yield f"{group.bodies}: there in part"


def faults_of_a_round(senders, worker, found):
    """What is wrong with what was found."""
    there = collections.Counter(found)
    sent = {body for sender in senders for group in sender.groups for body in group.bodies}
    yield from (f"{one}: {one.fault!r}" for one in [*senders, worker] if one.fault)
    yield from (f"{body}: there {count} times" for body, count in there.items() if count > 1)
    yield from (f"{body}: handed out {count} times in one session" for body, count in worker.had.items() if count > 1)
    yield from (f"{body}: nobody sent it in this round" for body in [*there, *worker.had] if body not in sent)
    yield from (f"{body}: there although its acknowledgement was receipted" for body in worker.settled if body in there)
    for group in (group for sender in senders for group in sender.groups):
        yield from faults_of_a_group(group, there, worker)


def faults_of_order(senders, found):
    for sender in senders:
        numbers = [int(body.split(" ")[1]) for body in found if body.startswith(sender.name + " ")]
        if numbers != sorted(numbers):
            yield f"sender {sender.name}: out of order"


def faults_of_refusals(worker, found, dead):
    """What is wrong with where refused messages were found."""
    there = set(found) | set(dead)
    yield from (f"{body}: lost, although it was refused" for body in worker.had if is_refused(body) and body not in there)
    yield from (f"{body}: not in {DEAD}, although its refusal was receipted" for body in worker.refused if body not in dead)
    yield from (f"{body}: in {DEAD}, although nobody refused it" for body in dead if not is_refused(body) or body not in worker.had)


class Totals:
    """What was seen over all rounds."""

    def __init__(self):
        self.sent = self.receipted = self.unknown = self.unknown_kept = self.settled = self.refused = self.found = 0
        self.longest_restart = 0.0

    def add(self, senders, worker, found):
        kept = set(found)
        for group in (group for sender in senders for group in sender.groups):
            size = len(group.bodies)
            self.sent += size
            self.receipted += size if group.is_receipted else 0
            self.unknown += 0 if group.is_receipted else size
            self.unknown_kept += 0 if group.is_receipted else sum(body in kept or body in worker.had for body in group.bodies)
        self.settled += len(worker.settled)
        self.refused += len(worker.refused)
        self.found += len(found)


def tell(checks, totals, rounds):
    checks.tell(f"{totals.sent} messages sent, {totals.receipted} receipted, {totals.settled} acknowledged and {totals.refused} refused with a receipt")
    checks.tell(f"of {totals.unknown} without a receipt {totals.unknown_kept} were kept")
    checks.tell(f"{totals.found} found after {rounds} restarts, of which the longest took {totals.longest_restart * 1000:.0f} ms")
