#!/usr/bin/env python3
"""What nobody reads: a queue, what workers refuse, and a durable subscription whose client is away, until no message has room; how that is
seen, and how room is made again: docs/RUNNING.md, "No room for messages".

    python3 tests/program/unread.py [PROGRAM]
"""

import sys
import time

from lib import scenario
from lib.commands import run_for_text, shown
from lib.kept import DEAD
from lib.stomp_client import Client

# As many messages as may be held.
MOST = 4_096
NO_ROOM = "E12 no room for the message"


def refusal(broker, destination):
    """What the ERROR says that one more SEND is answered with, and the code of the close; nothing and none if it is receipted."""
    sender = Client(broker.port).connect()
    sender.send("SEND", [("destination", destination), ("receipt", "r")], "one more")
    frame = sender.receive()
    if frame.command == "RECEIPT":
        sender.close()
        return None, None
    _, code = sender.to_the_end()
    sender.close()
    return frame.headers.get("message"), code


def held(broker):
    """What `show` says of the journal, once the server is stopped."""
    broker.kill()
    count = shown(broker.program, "show", broker.journal)["held"]
    broker.serve()
    return count


def places(broker):
    """What `held` says beside the running server: the totals, and how many messages wait where."""
    _, printed, _ = run_for_text(broker.program, "held", broker.journal)
    messages, held_bytes, *lines, topics = printed.splitlines()
    assert topics == "0 0 topics", topics
    lots = [line.split(" ", 2) for line in lines]
    totals = int(messages.removeprefix("messages ").removesuffix(" of 4096")), int(held_bytes.removeprefix("bytes ").removesuffix(" of 16777216"))
    return totals, [(int(count), int(size), place) for count, size, place in lots]


def fill(broker, destination):
    sender = Client(broker.port).connect()
    sender.publish_all(destination, [f"{number}" for number in range(MOST)])
    sender.disconnect()


def size_of(destination, texts):
    """What messages with no headers count for: their destination and their text."""
    return sum(len(destination) + len(text) for text in texts)


def all_is_refused(broker, checks, destination, place):
    checks.same("one more is refused, and its connection closed", refusal(broker, destination), (NO_ROOM, 1002))
    checks.same("and so is one to another queue", refusal(broker, "/queue/another"), (NO_ROOM, 1002))
    listener = Client(broker.port).connect()
    listener.subscribe("l", "/topic/heard")
    checks.same("and one to a topic that somebody listens to", refusal(broker, "/topic/heard"), (NO_ROOM, 1002))
    listener.close()
    checks.same("but none to a topic that nobody listens to", refusal(broker, "/topic/silent"), (None, None))
    size = size_of(destination, [f"{number}" for number in range(MOST)])
    checks.same("`held` tells where they wait, beside the server", places(broker), ((MOST, size), [(MOST, size, place)]))
    checks.same("and so does the line `held` of `show`, once it is stopped", held(broker), MOST)


def an_unread_queue(broker, checks):
    """4,096 messages in a queue that nobody reads"""
    fill(broker, "/queue/left")
    all_is_refused(broker, checks, "/queue/left", "queue /queue/left")
    reader = Client(broker.port).connect()
    waiting, bodies = reader.subscribe("r", "/queue/left", "client-individual"), []
    while len(bodies) < MOST:
        frame = waiting.pop(0) if waiting else reader.receive()
        bodies.append(frame.body)
        reader.send("ACK", [("id", frame.headers["ack"])])
    reader.disconnect()
    checks.same("a reader that acknowledges empties it, in order", bodies, [f"{number}" for number in range(MOST)])
    checks.same("nothing is held then", held(broker), 0)
    checks.same("and a message has room", refusal(broker, "/topic/t"), (None, None))


def many_places(broker, checks):
    """messages in some queues and under a durable name: where most wait stands first, and what a client has and has not acknowledged counts"""
    client, _ = subscribe_durably(broker)
    client.disconnect()
    sender = Client(broker.port).connect()
    sender.publish_all("/queue/few", ["x"] * 3)
    sender.publish_all("/queue/many", ["yy"] * 40)
    sender.publish_all("/topic/news", ["zzz"] * 20)
    reader = Client(broker.port).connect()
    reader.subscribe("r", "/queue/few", "client-individual")
    expected = [(40, 40 * 13, "queue /queue/many"), (20, 20 * 14, "durable client-id:away activemq.subscriptionName:n"), (3, 3 * 11, "queue /queue/few")]
    totals = 63, 40 * 13 + 20 * 14 + 3 * 11
    checks.same("`held` tells so, beside the server", places(broker), (totals, expected))
    for subscriber, destination in ((reader, None), (sender, "/queue/many")):
        if destination:
            subscriber.subscribe("m", destination, "auto")
        subscriber.disconnect()
    checks.same("what was handed out and acknowledged is gone", places(broker)[1], expected[1:])
    client = Client(broker.port).connect("away")
    client.send("UNSUBSCRIBE", [("activemq.subscriptionName", "n")])
    client.subscribe("f", "/queue/few", "auto")
    client.disconnect()
    checks.same("and nothing is held at the end", places(broker), ((0, 0), []))


def what_workers_refuse(broker, checks):
    """refused messages count as they did, in another place, until somebody takes them from there"""
    texts = [f"{number}" for number in range(10)]
    sender = Client(broker.port).connect()
    sender.publish_all("/queue/jobs", texts)
    worker = Client(broker.port).connect()
    waiting = worker.subscribe("w", "/queue/jobs", "client")
    worker.send("NACK", [("id", waiting[6].headers["ack"]), ("receipt", "n")])
    worker.receipt("n")
    left, refused = size_of("/queue/jobs", texts[7:]), size_of(DEAD, texts[:7])
    expected = (10, left + refused), [(7, refused, f"queue {DEAD}"), (3, left, "queue /queue/jobs")]
    checks.same("`held` tells where they are, beside the server", places(broker), expected)
    worker.send("ACK", [("id", waiting[9].headers["ack"])])
    worker.disconnect(), sender.disconnect()
    checks.same("and so it does once nothing else is held, after a restart", (held(broker), places(broker)[1]), (7, [(7, refused, f"queue {DEAD}")]))
    operator = Client(broker.port).connect()
    waiting = operator.subscribe("o", DEAD, "client")
    checks.same("an operator has them all, in order", [frame.body for frame in waiting], texts[:7])
    operator.send("ACK", [("id", waiting[3].headers["ack"])])
    operator.send("NACK", [("id", waiting[6].headers["ack"]), ("receipt", "n")])
    operator.receipt("n")
    operator.disconnect()
    checks.same("and nothing is held once they are acknowledged, or refused again", places(broker), ((0, 0), []))


def subscribe_durably(broker):
    client = Client(broker.port).connect("away")
    waiting = client.subscribe("d", "/topic/news", "client-individual", [("activemq.subscriptionName", "n")])
    return client, waiting


def an_abandoned_name(broker, checks):
    """4,096 messages for a durable subscription whose client does not come back"""
    subscribe_durably(broker)[0].disconnect()
    fill(broker, "/topic/news")
    all_is_refused(broker, checks, "/topic/news", "durable client-id:away activemq.subscriptionName:n")
    client, waiting = subscribe_durably(broker)
    for number in range(100):
        frame = waiting.pop(0) if waiting else client.receive()
        client.send("ACK", [("id", frame.headers["ack"])])
    client.disconnect()
    checks.same("what its client acknowledges is gone", held(broker), MOST - 100)
    client = Client(broker.port).connect("away")
    client.send("UNSUBSCRIBE", [("activemq.subscriptionName", "n"), ("receipt", "given up")])
    client.receipt("given up")
    client.disconnect()
    checks.same("the name is given up, and nothing is held", held(broker), 0)
    checks.same("and a message has room", refusal(broker, "/queue/room"), (None, None))


def auto(broker, checks):
    """an `auto` subscriber is handed all of them at once: its outbox has room for them, also if it reads nothing at first"""
    for receive_bytes, seconds in ((None, 0), (65_536, 3)):
        fill(broker, "/queue/many")
        reader = Client(broker.port, receive_bytes=receive_bytes).connect()
        reader.send("SUBSCRIBE", [("id", "r"), ("destination", "/queue/many"), ("receipt", "s")])
        time.sleep(seconds)
        bodies = [frame.body for frame in reader.receipt("s")]
        checks.check("all of them come before the receipt, once, in order", bodies == [f"{number}" for number in range(MOST)], len(bodies))
        reader.disconnect()
        checks.same("nothing is held then", held(broker), 0)


if __name__ == "__main__":
    sys.exit(scenario.run(__doc__, [auto, many_places, what_workers_refuse, an_unread_queue, an_abandoned_name]))
