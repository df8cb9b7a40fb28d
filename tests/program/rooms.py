#!/usr/bin/env python3
"""Clients that talk to the built program over sockets: a room of two, a receipt for each kind of frame, and a durable subscriber whose broker is killed.
tests/scripts has what else connections hear.

    python3 tests/program/rooms.py [PROGRAM]
"""

import sys
import time

from lib import scenario
from lib.kept import DEAD, take_all
from lib.stomp_client import Client


def bodies(frames):
    return [frame.body for frame in frames if frame.command == "MESSAGE"]


def send_all(port, destination, texts):
    client = Client(port).connect()
    for text in texts:
        client.publish(destination, text)
    client.disconnect()


def lose(client):
    """Goes away without a word. The broker hears of it a moment later."""
    client.close()
    time.sleep(0.3)


def a_room_of_two(broker, checks):
    """what one says is heard by both, with the headers that it sent"""
    one, other = Client(broker.port).connect(), Client(broker.port).connect()
    one.subscribe("a", "/topic/room")
    other.subscribe("b", "/topic/room")
    sent = [("content-type", "text/plain"), ("said:by", "one\\two\nthree")]
    heard = one.publish("/topic/room", "hello, öäü", sent)
    checks.same("the one who says it hears it before its receipt", bodies(heard), ["hello, öäü"])
    frame = other.receive()
    number = frame.headers["message-id"]
    expected = {"subscription": "b", "message-id": number, "destination": "/topic/room", "content-length": "13", **dict(sent)}
    checks.same("the other hears it, headers and all", (frame.command, frame.headers), ("MESSAGE", expected))
    checks.same("both hear one message under one number", heard[0].headers["message-id"], number)
    checks.same("who says DISCONNECT is told 1000", one.disconnect(), ([], 1000))
    other.close()


def receipts(broker, checks):
    """each kind of frame that asks for a receipt has it, in its turn, spelled as it was asked for"""
    client = Client(broker.port).connect()
    to_queue, within = ("destination", "/queue/receipts"), ("transaction", "t")
    client.subscribe("q", "/queue/receipts", "client-individual")
    first = client.publish("/queue/receipts", "x")[0].headers["ack"]
    second = client.publish("/queue/receipts", "y")[0].headers["ack"]
    frames = [
        ("ACK", [("id", first)]),
        ("NACK", [("id", second)]),
        ("BEGIN", [within]),
        ("SEND", [to_queue, within]),
        ("ABORT", [within]),
        ("BEGIN", [within]),
        ("COMMIT", [within]),
        ("UNSUBSCRIBE", [("id", "q")]),
        ("DISCONNECT", []),
    ]
    names = [f"{place}:{command}\\ of a\nlong\rname" for place, (command, _) in enumerate(frames)]
    for name, (command, headers) in zip(names, frames):
        client.send(command, [*headers, ("receipt", name)])
    heard, code = client.to_the_end()
    seen = [(frame.command, frame.headers.get("receipt-id")) for frame in heard]
    checks.same("nine receipts in their order", seen, [("RECEIPT", name) for name in names])
    checks.same("and then 1000", code, 1000)
    checks.same("what was refused meanwhile is in /queue/dead", take_all(broker.port, DEAD), ["y"])


def a_durable_subscriber(broker, checks):
    """it goes away, also with the broker, and finds what was sent meanwhile when it comes back under its name"""
    name = [("activemq.subscriptionName", "news")]
    reader = Client(broker.port).connect("anna")
    reader.subscribe("d", "/topic/news", "client-individual", name)
    reader.disconnect()
    send_all(broker.port, "/topic/news", ["one", "two", "three"])
    reader = Client(broker.port).connect("anna")
    frames = reader.subscribe("d", "/topic/news", "client-individual", name)
    checks.same("what was sent while it was away", bodies(frames), ["one", "two", "three"])
    reader.send("ACK", [("id", frames[0].headers["ack"]), ("receipt", "a")])
    reader.receipt("a")
    lose(reader)
    send_all(broker.port, "/topic/news", ["four"])
    broker.again()
    send_all(broker.port, "/topic/news", ["five"])
    found = take_all(broker.port, "/topic/news", "anna", name)
    checks.same("all but the acknowledged one, after a SIGKILL of the broker", found, ["two", "three", "four", "five"])
    reader = Client(broker.port).connect("anna")
    reader.send("UNSUBSCRIBE", [("id", "d"), *name, ("receipt", "u")])
    reader.receipt("u")
    reader.disconnect()
    send_all(broker.port, "/topic/news", ["six"])
    found = take_all(broker.port, "/topic/news", "anna", name)
    checks.same("nothing once the name was given up", found, [])


if __name__ == "__main__":
    sys.exit(scenario.run(__doc__, [a_room_of_two, receipts, a_durable_subscriber]))
