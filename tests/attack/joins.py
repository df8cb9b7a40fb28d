#!/usr/bin/env python3
"""Who joins a topic and leaves it again keeps nobody from sending there.

    python3 tests/attack/joins.py [PROGRAM] [--joins N] [--few]

One client subscribes to a topic and unsubscribes, again and again, and is gone. Clients then send to another topic with 60 readers, as fast as they
can. A SEND and a COMMIT of 16 SENDs to the first topic have their receipts all the same, within seconds. So have two pings in a row, whose topic was joined
so too. With --few there are fewer joins and senders.
"""

import subprocess
import sys
import time

from lib import scenario
from lib.crowding import at_work, flood, listen
from lib.stomp_client import Client, stomp_message

NEWS, BUSY, PINGED = "/topic/news", "/topic/busy", "/topic/stompd-ping"
BUSY_READERS = 60
# In how many seconds each receipt has to come.
MOST = 8


def join_and_leave(port, topic, joins):
    """One client joins the topic so often, leaves it each time, and is gone."""
    client = Client(port, timeout=60).connect()
    pair = stomp_message("SUBSCRIBE", [("id", "a"), ("destination", topic)]) + stomp_message("UNSUBSCRIBE", [("id", "a")])
    for start in range(0, joins, 100):
        for _ in range(min(100, joins - start)):
            client.write(pair)
        client.publish("/topic/none", "x")
    client.disconnect()


def seconds_of(send, client, name):
    """What the receipt of this takes, or `None` if it doesn't come in time."""
    begun = time.monotonic()
    try:
        send(client, name)
    except TimeoutError:
        return None
    return time.monotonic() - begun


def send_one(client, name):
    client.send("SEND", [("destination", NEWS), ("receipt", name)], "x")
    client.receipt(name)


def commit_many(client, name):
    client.send("BEGIN", [("transaction", name)])
    for _ in range(16):
        client.send("SEND", [("destination", NEWS), ("transaction", name)], "x")
    client.send("COMMIT", [("transaction", name), ("receipt", name)])
    client.receipt(name)


def ping_twice(broker):
    words = [broker.program, "ping", str(broker.port)]
    return [subprocess.run(words, capture_output=True, text=True, check=False, timeout=60).returncode for _ in range(2)]


def try_case(broker, checks, joins, senders):
    for topic in (NEWS, PINGED):
        join_and_leave(broker.port, topic, joins)
    what = f"after {joins} joins by a client that is gone, and while {senders} clients send to {BUSY_READERS} readers"
    data = 16 * stomp_message("SEND", [("destination", BUSY)], "x")
    with at_work(listen, broker.port, BUSY, BUSY_READERS), at_work(flood, broker.port, senders, data):
        for name, send in (("SEND", send_one), ("COMMIT of 16 SENDs", commit_many)):
            client = Client(broker.port, timeout=MOST).connect()
            taken = [seconds_of(send, client, f"{name} {number}") for number in range(3)]
            checks.check(f"{what}, each {name} has its receipt within {MOST} s", None not in taken, taken)
            checks.tell(f"{name}: " + ", ".join("none" if it is None else f"{it * 1e3:.0f} ms" for it in taken))
            client.close()
        checks.same("two pings in a row are answered", ping_twice(broker), [0, 0])
    checks.check("the broker still runs", broker.is_running(), broker.process.poll())


def main():
    words = scenario.words_of(__doc__)
    words.add_argument("--joins", type=int, default=30_000)
    words.add_argument("--few", action="store_true")
    words = words.parse_args()
    scenario.keep_journals_in_memory()
    checks = scenario.Checks()
    joins = min(words.joins, 2_000) if words.few else words.joins
    for senders in (64,) if words.few else (64, 128):
        with scenario.serving(words.program) as broker:
            try_case(broker, checks, joins, senders)
    return checks.status()


if __name__ == "__main__":
    sys.exit(main())
