"""A journal of the first version: its bytes, as docs/JOURNAL.md has them, and what it stands for by that version's rule of NACK."""

import collections
import random

HEAD_BYTES = 32
NAME = b"STOMPJ01"
# The state before the first command.
EMPTY_SNAPSHOT = bytes(32)
MOST_IN_HAND = 16
MODES = {"auto": 0, "client": 1, "client-individual": 2}

Message = collections.namedtuple("Message", "command place number")


def number_bytes(value, size):
    return value.to_bytes(size, "big")


def text_bytes(text):
    return number_bytes(len(text.encode()), 4) + text.encode()


def optional_bytes(text):
    return b"\0" if text is None else b"\1" + text_bytes(text)


def open_operation(client_id):
    return b"\1" + optional_bytes(client_id)


def send_operation(destination, headers, body):
    kept = b"".join(text_bytes(name) + text_bytes(value) for name, value in headers)
    return b"\2" + text_bytes(destination) + number_bytes(len(headers), 2) + kept + text_bytes(body)


def subscribe_operation(name, destination, mode, durable_name):
    return b"\3" + text_bytes(name) + text_bytes(destination) + number_bytes(MODES[mode], 1) + optional_bytes(durable_name)


def ack_operation(delivery):
    return b"\5" + number_bytes(delivery, 8)


def nack_operation(delivery):
    return b"\6" + number_bytes(delivery, 8)


def commit_operation(members):
    return b"\7" + number_bytes(len(members), 2) + b"".join(members)


LOST_CONNECTION = b"\x09\1"


def record(session, operation, receipt=None):
    return number_bytes(session, 8) + optional_bytes(receipt) + operation


def area(blocks):
    """An area of the first version: the highest byte of its first length is 0."""
    framed = [b"\1" + number_bytes(len(block), 8) + block for block in blocks]
    return number_bytes(len(EMPTY_SNAPSHOT), 8) + EMPTY_SNAPSHOT + b"".join(framed) + b"\0"


def journal(area_bytes, live, free):
    """A file whose area 0 is live."""
    assert len(live) <= area_bytes, len(live)
    head = NAME + number_bytes(area_bytes, 8)
    return head.ljust(HEAD_BYTES, b"\0") + live.ljust(area_bytes, b"\0") + free.ljust(area_bytes, b"\0")


class Line:
    """The line of a queue or of a durable name, and what the one subscription that takes from it has in hand."""

    def __init__(self, mode):
        # None if nobody takes from it.
        self.mode = mode
        self.waiting, self.in_hand = collections.deque(), {}

    def hand_out(self, delivery):
        """Hands out what can be, from that delivery's number on, and answers the next one's."""
        while self.mode and self.waiting and len(self.in_hand) < MOST_IN_HAND:
            self.in_hand[delivery] = self.waiting.popleft()
            delivery += 1
        return delivery

    def settle(self, delivery):
        settled = [one for one in self.in_hand if one == delivery or (self.mode == "client" and one < delivery)]
        return [self.in_hand.pop(one) for one in settled]

    def after_restart(self):
        """Its messages, by number: what was in hand stands in it again."""
        return sorted([*self.in_hand.values(), *self.waiting])


class Commands:
    """Commands in their order, each with its record, and what they lead to."""

    def __init__(self):
        self.records, self.record_bytes, self.next_delivery, self.messages = [], 0, 0, 0
        self.lines = {}
        # The numbers of the messages that a NACK has dropped, and of those that were acknowledged.
        self.refused, self.done = [], []

    def command(self, session, operation, receipt=None):
        """Adds one, and answers its number."""
        self.records.append(record(session, operation, receipt))
        self.record_bytes += len(self.records[-1])
        return len(self.records) - 1

    def open(self, client_id=None):
        return self.command(0, open_operation(client_id))

    def lose(self, session):
        self.command(session, LOST_CONNECTION)

    def subscribe(self, session, name, destination, mode, durable_name=None):
        self.command(session, subscribe_operation(name, destination, mode, durable_name), "s")
        self.lines[destination] = Line(mode)

    def send(self, session, destination, padding, count=1, settled=None):
        """Sends so many messages to a destination: by one COMMIT if they are several, or if one of its deliveries is refused with them."""
        members = [] if settled is None else [self.settle(destination, settled, True)]
        command, line = len(self.records), self.lines.setdefault(destination, Line(None))
        for _ in range(count):
            members.append(send_operation(destination, headers_of(self.messages), body_of(self.messages, padding)))
            line.waiting.append(Message(command, len(members) - 1, self.messages))
            self.messages += 1
        self.command(session, members[0] if len(members) == 1 else commit_operation(members), "r" if command % 3 == 0 else None)
        self.next_delivery = line.hand_out(self.next_delivery)

    def answer(self, session, destination, delivery, is_refused):
        """Acknowledges a delivery, or refuses it."""
        self.command(session, self.settle(destination, delivery, is_refused))
        self.next_delivery = self.lines[destination].hand_out(self.next_delivery)

    def settle(self, destination, delivery, is_refused):
        settled = [message.number for message in self.lines[destination].settle(delivery)]
        (self.refused if is_refused else self.done).extend(settled)
        return nack_operation(delivery) if is_refused else ack_operation(delivery)

    def held(self):
        return sum(len(line.waiting) + len(line.in_hand) for line in self.lines.values())

    def blocks(self, chance):
        """Their records in blocks, each of as many as a batch may have."""
        at = 0
        while at < len(self.records):
            size = chance.randint(1, 32)
            yield b"".join(self.records[at : at + size])
            at += size


def headers_of(number):
    return [("n", f"{number}"), ("said:by", "one\\two")] if number % 5 == 0 else [("n", f"{number}")]


def body_of(number, padding):
    return f"{number} {padding}"


def rooms_of_old(records_bytes, body_bytes, seed):
    """Commands whose records have so many bytes: a worker at a queue, a queue that nobody reads, a durable subscriber, and one that is away.
    The worker and the subscriber have messages in hand, and have refused some; their sessions are open."""
    chance, commands, padding = random.Random(seed), Commands(), "x" * body_bytes
    away = commands.open("carl")
    commands.subscribe(away, "d", "/topic/later", "client-individual", "later")
    commands.lose(away)
    commands.lines["/topic/later"].mode = None
    readers = {"/queue/jobs": commands.open("ben"), "/topic/news": commands.open("anna")}
    commands.subscribe(readers["/queue/jobs"], "w", "/queue/jobs", "client")
    commands.subscribe(readers["/topic/news"], "d", "/topic/news", "client-individual", "news")
    sender = commands.open()
    places = ["/queue/jobs", "/topic/news"] * 4 + ["/queue/left", "/topic/later"]
    while commands.record_bytes < records_bytes:
        destination = chance.choice(places)
        in_hand = sorted(commands.lines[destination].in_hand) if destination in readers else []
        if in_hand and chance.random() < 0.03:
            # The worker's settles all before it: one of the first, so that the most stay.
            commands.answer(readers[destination], destination, chance.choice(in_hand[:4]), chance.random() < 0.6)
        elif in_hand and chance.random() < 0.02:
            commands.send(readers[destination], destination, padding, 3, in_hand[0])
        elif chance.random() < 0.02:
            sender = commands.open()
        else:
            commands.send(sender, destination, padding, chance.choice([1, 1, 1, 1, 1, 4]))
    return commands
