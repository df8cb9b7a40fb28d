#!/usr/bin/env python3
"""Looks at the log of `stompd serve --json`: whether each line is one JSON object of the table in docs/CLI.md ("Objects of the log"), with the members that
stand there and the right numbers, whatever bytes a file's or a queue's name has.

    python3 tests/program/log_objects.py [PROGRAM]
"""

import contextlib
import datetime
import json
import pathlib
import re
import socket
import sys
import tempfile
import time

from lib import scenario
from lib.commands import run, run_for_text
from lib.scenario import TOP
from lib.stomp_client import Client, Closed, handshake

JOURNAL_BYTES = 67_108_896
# RFC 3339, section 5.6, in UTC and to the second.
MOMENT = re.compile(r"\d{4}-\d\d-\d\dT\d\d:\d\d:\d\dZ")
# What a JSON string escapes (RFC 8259, section 7), and what it may not.
FILE_NAME = 'jour"nal\\ \u00fc\t\x01.j'
CLIENT, NAME = 'c"\u00fc', 'n"\u00fc'
# A server holds that many at most (docs/PROTOCOL.md, "Limits"), and says so from nine tenths on.
MOST_MESSAGES, MANY = 4_096, 3_687


def table():
    """The members of each kind, in their order, and those of them that are texts."""
    text = (TOP / "docs" / "CLI.md").read_text(encoding="utf-8").partition("### Objects of the log")[2].partition("\n## ")[0]
    found = {}
    for row in re.findall(r"^\| (`.*)$", text, re.M):
        kinds, members, *_ = (it.strip() for it in row.split("|"))
        if kinds == "`kind`":
            continue
        for kind in re.findall(r"`(\w+)`", kinds):
            found[kind] = [(name, bool(said)) for name, said in re.findall(r"`(\w+)`(, text)?", members)]
    return found


class Server(scenario.Broker):
    """A server whose log is objects."""

    def objects(self, kind):
        return [it for _, line in list(self.lines) for it in [json.loads(line)] if it["kind"] == kind]

    def awaited(self, kind, seconds=4):
        """The first object of that kind, once there is one; without the moment."""
        end = time.monotonic() + seconds
        while time.monotonic() < end and not self.objects(kind):
            time.sleep(0.05)
        return next(({name: value for name, value in it.items() if name != "time"} for it in self.objects(kind)), None)


@contextlib.contextmanager
def serving(program, journal, *more):
    server = Server(program, journal, more=("--json", *more))
    try:
        yield server
    finally:
        server.kill()


def by_the_table(name, lines, checks):
    """Each line is an object of the table, and nothing else is in the log."""
    rows, wrong = table(), []
    for line in lines:
        try:
            found = json.loads(line)
            pairs = json.loads(line, object_pairs_hook=list)
        except ValueError:
            wrong.append(line)
            continue
        members = rows.get(found.get("kind"))
        names = [name for name, _ in pairs]
        if members is None or names != ["time", "kind", *(name for name, _ in members)]:
            wrong.append(line)
        elif any(not isinstance(found[name], str if is_text else int) for name, is_text in members) or not MOMENT.fullmatch(found["time"]):
            wrong.append(line)
        elif abs(time.time() - datetime.datetime.strptime(found["time"], "%Y-%m-%dT%H:%M:%S%z").timestamp()) > 120:
            wrong.append(line)
    checks.check(f"{name}: it has lines, and each is an object of the table", lines and not wrong, wrong)


def a_life(program, folder, checks):
    """a server from its journal's making to its end"""
    journal = folder / FILE_NAME
    with serving(program, journal, "--new", str(JOURNAL_BYTES), "--until-eof", "--memory", "33554432") as server:
        checks.same("the journal was made", server.awaited("made"), {"kind": "made", "file": str(journal)})
        area = (JOURNAL_BYTES - 32) // 2
        began = {"kind": "started", "version": 2, "area_bytes": area, "messages": 0, "clients": 16384, "memory_bytes": 33554432}
        checks.same("it has started", {**(server.awaited("started") or {}), "clients": 16384}, began)
        for _ in range(3):
            with socket.create_connection(("127.0.0.1", server.port), timeout=5) as one:
                one.sendall(handshake(server.port, offer="v10.stomp"))
                one.recv(4096)
        time.sleep(1.2)
        counted = [it["count"] for it in server.objects("refused") if it["why"] == "other_protocol"]
        checks.same("all refusals are counted", sum(counted), 3)
        wrong = Client(server.port).connect()
        wrong.send("UNSUBSCRIBE", [("id", "unknown")])
        checks.check("an ERROR came", "E10" in wrong.receive().headers["message"])
        checks.same("it is counted by its code", server.awaited("errors"), {"kind": "errors", "code": 10, "count": 1})
        keeper = Client(server.port).connect()
        keeper.publish_all("/queue/kept", 7 * ["kept"])
        checks.same("it ends in good order", server.end()[0], 0)
        lines = server.text().splitlines(keepends=True)
        checks.same("its last line says that", json.loads(lines[-1])["kind"], "ending")
        by_the_table("a life", lines, checks)
        checks.same("and nothing else came", {it["kind"] for it in map(json.loads, lines)} - {"opening"}, {"made", "started", "journal_small", "refused", "errors", "ending"})
    with serving(program, journal, "--until-eof") as server:
        checks.same("its start says how many messages are held", (server.awaited("started") or {}).get("messages"), 7)


def nearly_full(program, folder, checks):
    """a durable name that holds nearly all, with characters that JSON escapes"""
    with serving(program, folder / "crowded", "--new", str(JOURNAL_BYTES)) as server:
        named = Client(server.port).connect(CLIENT)
        named.subscribe("d", "/topic/news", headers=[("activemq.subscriptionName", NAME)], ack="client")
        named.disconnect()
        sender = Client(server.port, timeout=30).connect()
        sender.publish_all("/topic/news", ["x"] * MANY)
        found = server.awaited("nearly_full") or {}
        checks.same("the limits", (found.get("messages_limit"), found.get("bytes_limit")), (MOST_MESSAGES, 16_777_216))
        checks.check("and how many are held", 0.9 * MOST_MESSAGES <= found.get("messages", 0) == found.get("most") <= MANY, found)
        # As `held` spells it: with %XX for bytes that no line may have as they are.
        shown = run_for_text(program, "held", folder / "crowded")[1]
        checks.check("the place is that of `held`", found.get("place") and found["place"] in shown and 'durable client-id:c"' in found["place"], (found, shown[:300]))
        by_the_table("nearly full", server.text().splitlines(), checks)


def faults(program, folder, checks):
    """a server that is not started, and one whose journal is removed"""
    status, _, said = run(program, "serve", folder / "missing", scenario.free_port(), "--json")
    by_the_table("a missing journal", said.splitlines(), checks)
    wanted = {"kind": "fault", "text": f"cannot open: {folder / 'missing'}: there is no such file; --new BYTES makes one"}
    last = json.loads(said.splitlines()[-1])
    checks.same("a missing journal ends it with 1, and its fault is the last object", (status, last), (1, {"time": last["time"], **wanted}))
    journal = folder / "removed"
    with serving(program, journal, "--new", str(JOURNAL_BYTES)) as server:
        journal.unlink()
        checks.same("a removed journal ends it with 1", server.await_end(), 1)
        checks.same("and says so", server.awaited("fault"), {"kind": "fault", "text": "J3 device failed: the file was removed"})
        by_the_table("a removed journal", server.text().splitlines(), checks)


def reopened(program, folder, checks):
    """a journal that gets full, and is opened again"""
    with serving(program, folder / "small", "--new", "1048608") as server:
        with contextlib.suppress(Closed, ConnectionError, OSError):
            sender = Client(server.port, timeout=20).connect()
            for number in range(400):
                sender.publish("/queue/kept", "x" * 4_000)
        checks.same("it says when it is opened again", server.awaited("reopening", 10), {"kind": "reopening", "seconds": 1})
        checks.same("and why", (server.objects("fault") or [{}])[0].get("text"), "J4 journal full")
        by_the_table("a full journal", server.text().splitlines(), checks)


def main():
    program = scenario.program_of(__doc__)
    checks = scenario.Checks()
    with tempfile.TemporaryDirectory(prefix="log-objects-") as folder:
        for part in (a_life, nearly_full, faults, reopened):
            part(program, pathlib.Path(folder), checks)
    return checks.status()


if __name__ == "__main__":
    sys.exit(main())
