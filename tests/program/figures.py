#!/usr/bin/env python3
"""Looks at the line in which a server says once a minute how it does: each of its figures against what clients did, and that it comes each minute to one
that does nothing, whatever else is logged meanwhile. Needs Python 3 alone, and waits for two minutes.

    python3 tests/program/figures.py [PROGRAM]
"""

import json
import re
import socket
import sys
import tempfile
import time

from lib import scenario
from lib.stomp_client import Client

# Two areas of 32 MiB.
JOURNAL_BYTES = 67_108_896
LONGEST = 130
# It comes each minute. So many seconds may pass on a busy machine.
MINUTE, LATE = 60, 4
LINE = re.compile(
    r"doing: (\d+) connections, (\d+) bytes of memory for them, (\d+) commands, (\d+) frames out, (\d+) ERRORs, (\d+) messages held,"
    r" (\d+) bytes held, (\d+) dead letters, (\d+) bytes used, (\d+) commands to repeat"
)


def do_something(port):
    """Leaves two connections, five messages of which two are dead, and two ERRORs, one before its session; answers the clients, and the count of commands and of frames."""
    one, other = Client(port).connect(), Client(port).connect()
    one.subscribe("q", "/queue/work", ack="client-individual")
    for at in range(5):
        other.publish("/queue/work", f"{at}")
    delivered = [one.receive() for _ in range(5)]
    for refused in delivered[:2]:
        one.send("NACK", [("id", refused.headers["ack"]), ("receipt", "dead")])
        one.receipt("dead")
    wrong = Client(port).connect()
    wrong.send("UNSUBSCRIBE", [("id", "unknown")])
    assert "E10" in wrong.receive().headers["message"]
    wrong.close()
    early = Client(port)
    early.send("UNSUBSCRIBE", [("id", "unknown")])
    assert "E7" in early.receive().headers["message"]
    early.close()
    # CONNECTs, a SUBSCRIBE, SENDs, NACKs and a wrong UNSUBSCRIBE; and CONNECTED, RECEIPTs, MESSAGEs and ERRORs.
    return (one, other), 3 + 1 + 5 + 2 + 1, 3 + 1 + 5 + 5 + 2 + 2


def figures(program, checks):
    with scenario.serving(program, JOURNAL_BYTES) as server:
        clients, commands, frames = do_something(server.port)
        found = server.told(" doing: ", LONGEST)
        match = LINE.fullmatch(found[0]) if found else None
        checks.check("the line comes", match, found)
        if match:
            compare([int(it) for it in match.groups()], commands, frames, checks)
        for client in clients:
            client.close()


def idle(program, checks):
    """A server over five messages, with no client and one refused request: the log's objects, each with when it came."""
    with tempfile.TemporaryDirectory(prefix="figures-") as folder:
        journal = scenario.make_journal(program, f"{folder}/journal", JOURNAL_BYTES)
        server = scenario.Broker(program, journal)
        Client(server.port).connect().publish_all("/queue/work", ["x"] * 5)
        server.kill()
        server = scenario.Broker(program, journal, more=("--json",))
        began = time.monotonic()
        # In the midst of the second minute: what is logged then puts nothing off.
        time.sleep(1.5 * MINUTE)
        ask_in_vain(server.port)
        time.sleep(max(0, began + 2 * MINUTE + LATE - time.monotonic()))
        server.kill()
        found = [(when - began, json.loads(line)) for when, line in server.lines]
        started = [it["messages"] for _, it in found if it["kind"] == "started"]
        checks.same("a server says at its start how many messages it holds", started, [5])
        told = [(when, it) for when, it in found if it["kind"] == "doing"]
        checks.same("an idle server says twice in two minutes how it does", len(told), 2)
        for number, (when, it) in enumerate(told, 1):
            checks.check(f"idle minute {number}: in time", number * MINUTE - 1 < when < number * MINUTE + LATE, when)
            seen = it["connections"], it["memory_bytes"], it["messages"], it["errors"], it["dead_letters"]
            checks.same(f"idle minute {number}: its figures", seen, (0, 0, 5, 0, 0))
        checks.check("what was logged meanwhile", any(it["kind"] == "refused" for _, it in found), found)


def ask_in_vain(port):
    with socket.create_connection(("127.0.0.1", port), timeout=5) as one:
        one.sendall(b"GET / HTTP/1.1\r\nHost: a\r\n\r\n")
        one.recv(4_096)


def compare(found, commands, frames, checks):
    connections, memory, counted, published, refused, messages, held, dead, used, to_repeat = found
    checks.same("connections", connections, 2)
    checks.check("their memory", 0 < memory < 1 << 20, memory)
    # The session of a connection that has ended may end by one more command.
    checks.check("commands", commands <= counted <= commands + 1, (counted, commands))
    checks.same("frames", published, frames)
    checks.same("ERRORs", refused, 2)
    checks.same("messages", messages, 5)
    checks.check("their bytes", 5 < held < 5_000, held)
    checks.same("dead letters", dead, 2)
    checks.check("bytes used", 0 < used < 100_000, used)
    checks.same("all commands would be repeated", to_repeat, counted)


if __name__ == "__main__":
    sys.exit(scenario.try_parts(__doc__, (figures,), (idle,)))
