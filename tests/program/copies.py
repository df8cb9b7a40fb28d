#!/usr/bin/env python3
"""What `stompd sessions`, `held` and `copy` say and make of the journal of a server that runs: open sessions and what they subscribe to, durable names
without messages, what subscriptions of topics hold, and copies of another size that hold the same. Also their JSON objects.

    python3 tests/program/copies.py [PROGRAM]
"""

import json
import pathlib
import subprocess
import sys
import threading

from lib import scenario
from lib.scenario import JOURNAL_BYTES, Broker
from lib.stomp_client import Client

# Enough for some messages, and too small for 300 of 1,000 bytes.
SMALL, TOO_SMALL = 4_194_336, 262_176
COPIES = 20


def printed(broker, word, *words):
    """The lines of a command over the broker's journal."""
    done = subprocess.run([broker.program, word, broker.journal, *words], capture_output=True, text=True, check=True)
    return done.stdout.splitlines()


def place_of_copy(broker, name):
    return str(pathlib.Path(broker.journal).with_name(name))


def names_sessions(broker, checks):
    """each open session has a line with its client-id, and each subscription one with what is not acknowledged"""
    client = Client(broker.port).connect("a shop")
    client.subscribe("0", "/queue/named", ack="client-individual")
    client.subscribe("1", "/topic/kept", headers=[("activemq.subscriptionName", "news")])
    # What it sends comes to it before the receipt.
    came = [frame.body for text in ("one", "two") for frame in client.publish("/queue/named", text) if frame.command == "MESSAGE"]
    checks.same("both come", came, ["one", "two"])
    other = Client(broker.port).connect()
    lines = printed(broker, "sessions")
    numbers = [line.split()[1] for line in lines if line.startswith("session ")]
    checks.same("two sessions", len(numbers), 2)
    checks.same("the first has a name", lines[0], f"session {numbers[0]} client-id:a shop")
    checks.same("the other has none", lines[1], f"session {numbers[1]}")
    checks.check("a queue's subscription, with two unacknowledged",
                 f"subscription {numbers[0]} id:0 destination:/queue/named ack:client-individual unacknowledged:2" in lines, lines)
    checks.check("a durable one, with its name",
                 f"subscription {numbers[0]} id:1 destination:/topic/kept ack:auto activemq.subscriptionName:news unacknowledged:0" in lines, lines)
    checks.same("and no more lines", len(lines), 4)
    client.close()
    other.disconnect()


def says_what_is_held(broker, checks):
    """a durable name that holds nothing is named, and what a subscription of a topic holds stands at the end"""
    reader = Client(broker.port).connect()
    reader.subscribe("t", "/topic/held", ack="client")
    sender = Client(broker.port).connect()
    sender.publish("/topic/held", "12345")
    reader.receive()
    lines = printed(broker, "held")
    checks.check("the name", "0 0 durable client-id:a shop activemq.subscriptionName:news" in lines, lines)
    messages, count, what = lines[-1].split()
    checks.same("one message of the topic", (messages, what), ("1", "topics"))
    checks.check("of at least its body", int(count) >= 5, lines[-1])
    reader.close()
    sender.disconnect()


def shown_name(text):
    """A name as the lines of `held` have it (docs/PROTOCOL.md: what is not printable ASCII, and %, as %XX)."""
    return "".join(chr(it) if 0x20 <= it < 0x7F and it != 0x25 else f"%{it:02X}" for it in text.encode())


def object_of(broker, word, checks):
    """What a command prints with --json over the broker's journal."""
    lines = printed(broker, word, "--json")
    checks.same(f"{word} --json prints one line", len(lines), 1)
    return json.loads(lines[0])


def prints_objects(broker, checks):
    """with --json the same stands in one JSON object, with numbers as numbers and names as they are"""
    client_id, name, number, queue, topic = 'caf\u00e9 "1" \\', 'n"\n\t\u00fc\\%', '0"\\\r', "/queue/objects", "/topic/objects"
    client = Client(broker.port).connect(client_id)
    client.subscribe(number, queue, ack="client")
    client.subscribe("1", topic, headers=[("activemq.subscriptionName", name)])
    client.publish(queue, "12345")
    other = Client(broker.port).connect()
    other.subscribe("t", "/topic/plain", ack="client")
    other.publish("/topic/plain", "x")
    seen = object_of(broker, "sessions", checks)
    first = next(it["session"] for it in seen["sessions"] if it["client-id"] == client_id)
    checks.check("the other session has no client-id", any(it["client-id"] is None for it in seen["sessions"]), seen)
    mine = {it["id"]: it for it in seen["subscriptions"] if it["session"] == first}
    checks.same("a queue's subscription", mine.get(number),
                {"session": first, "id": number, "destination": queue, "ack": "client", "activemq.subscriptionName": None, "unacknowledged": 1})
    checks.same("a durable one", mine.get("1"),
                {"session": first, "id": "1", "destination": topic, "ack": "auto", "activemq.subscriptionName": name, "unacknowledged": 0})
    checks.same("as many as there are lines", len(seen["sessions"]) + len(seen["subscriptions"]), len(printed(broker, "sessions")))
    lines, held = printed(broker, "held"), object_of(broker, "held", checks)
    checks.same("the totals", [f"messages {held['messages']} of {held['messages_limit']}", f"bytes {held['bytes']} of {held['bytes_limit']}"], lines[:2])
    queues = [f"{it['messages']} {it['bytes']} queue {shown_name(it['destination'])}" for it in held["queues"]]
    names = [f"{it['messages']} {it['bytes']} durable client-id:{shown_name(it['client-id'])} activemq.subscriptionName:{shown_name(it['activemq.subscriptionName'])}" for it in held["durables"]]
    checks.same("each queue and durable name", sorted(queues + names), sorted(lines[2:-1]))
    checks.same("the topics", f"{held['topics']['messages']} {held['topics']['bytes']} topics", lines[-1])
    checks.check("one message of the queue", [it["messages"] for it in held["queues"] if it["destination"] == queue] == [1] and held["topics"]["messages"] == 1, held)
    checks.check("the durable name with its topic", {"client-id": client_id, "activemq.subscriptionName": name, "destination": topic, "messages": 0, "bytes": 0} in held["durables"], held)
    shown = dict(it.split(" ") for it in printed(broker, "show"))
    checks.same("show has the same", {key: str(it) for key, it in object_of(broker, "show", checks).items()}, shown)
    client.disconnect()
    other.disconnect()


def copies_a_running_journal(broker, checks):
    """copies into larger and smaller files hold what the journal holds, and a server over one hands it out"""
    sender = Client(broker.port).connect()
    for at in range(300):
        sender.publish("/queue/copied", f"{at:04}" + 996 * "x")
    held = printed(broker, "held")
    for name, size in (("large", 2 * JOURNAL_BYTES), ("small", SMALL)):
        copy = place_of_copy(broker, name)
        printed(broker, "copy", copy, str(size), "--sparse")
        done = subprocess.run([broker.program, "held", copy], capture_output=True, text=True, check=True)
        checks.same(f"the {name} one holds the same", done.stdout.splitlines(), held)
    other = Broker(broker.program, place_of_copy(broker, "small"))
    try:
        reader = Client(other.port).connect()
        # What a SUBSCRIBE hands out comes before its RECEIPT.
        came = [frame for frame in reader.subscribe("q", "/queue/copied") if frame.command == "MESSAGE"]
        bodies = [frame.body[:4] for frame in came + [reader.receive() for _ in range(300 - len(came))]]
        checks.same("all messages in order", bodies, [f"{at:04}" for at in range(300)])
        reader.disconnect()
    finally:
        other.kill()
    checks.same("the journal still holds all", printed(broker, "held"), held)
    sender.disconnect()


def refuses_a_copy(broker, checks):
    """a copy that is too small is not left there, and a file that is there stays"""
    for name, size, status, text in (("tiny", TOO_SMALL, 1, "too small"), ("small", SMALL, 1, "small")):
        copy = pathlib.Path(place_of_copy(broker, name))
        before = copy.stat().st_mtime_ns if copy.exists() else None
        done = subprocess.run([broker.program, "copy", broker.journal, copy, str(size)], capture_output=True, text=True)
        checks.same(f"status of {name}", done.returncode, status)
        checks.check("one line says why", done.stderr.count("\n") == 1 and text in done.stderr, done.stderr)
        after = copy.stat().st_mtime_ns if copy.exists() else None
        checks.same("the file is as it was", after, before)


def copies_beside_load(broker, checks):
    """copies beside a sender that never stops each hold a beginning of what it sent"""
    sender, sent, goes_on = Client(broker.port).connect(), [0], threading.Event()

    def send():
        while not goes_on.is_set():
            sender.publish("/topic/loaded", f"{sent[0]}")
            sent[0] += 1

    keeper = Client(broker.port).connect("keeper")
    keeper.subscribe("k", "/topic/loaded", headers=[("activemq.subscriptionName", "all")])
    keeper.close()
    thread = threading.Thread(target=send)
    thread.start()
    counts = []
    for at in range(COPIES):
        before, copy = sent[0], place_of_copy(broker, f"load-{at}")
        printed(broker, "copy", copy, str(JOURNAL_BYTES), "--sparse")
        after = sent[0]
        done = subprocess.run([broker.program, "held", copy], capture_output=True, text=True, check=True)
        line = next(it for it in done.stdout.splitlines() if it.endswith("client-id:keeper activemq.subscriptionName:all"))
        counts.append((before, int(line.split()[0]), after + 1))
        pathlib.Path(copy).unlink()
        if sent[0] > 3_000:
            break
    goes_on.set()
    thread.join()
    checks.check("each has what had its receipt before, and nothing that was sent later", all(a <= b <= c for a, b, c in counts), counts)
    sender.disconnect()


if __name__ == "__main__":
    sys.exit(scenario.run(__doc__, [names_sessions, says_what_is_held, prints_objects, copies_a_running_journal, refuses_a_copy, copies_beside_load]))
