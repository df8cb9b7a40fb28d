#!/usr/bin/env python3
"""A journal that is full: the server logs it, its clients are disconnected, and the program opens the journal again after a pause that
grows, at the same port. All that was receipted is there then. It takes a minute, in which it mostly waits.

    python3 tests/program/full_journal.py [PROGRAM]
"""

import sys
import time

from lib import scenario
from lib.stomp_client import Client, Closed

# Two areas of 64 KiB.
JOURNAL_BYTES = 131_104
BODY = "x" * 1_000
# What a server logs before its end.
LOGGED = (" started: ", " compacted: ", " compacted slowly: ", " journal small: ", " journal nearly full: ")
FULL = "stompd: J4 journal full\n"
# An opened journal of this size is ready at once; a busy machine gets a minute.
PATIENCE = 60

# After a server that ran for so long, in seconds, the next pause is the shortest again.
LONG = 66
# More than an area has room for, and many more than a worker's window of 16 lets in at a time.
UNASKED = 64
LONG_BODY = "x" * 4_000


def send_until_closed(client):
    """The bodies whose receipts came, and the code with which the connection was closed."""
    receipted = []
    while True:
        body = f"{len(receipted)} {BODY}"
        try:
            client.publish("/queue/full", body)
        except Closed as closed:
            return receipted, closed.code
        except ConnectionError:
            return receipted, 0
        receipted.append(body)


def serving(program):
    return scenario.serving(program, JOURNAL_BYTES, more=("--until-eof",))


def pause_after(server, number=1):
    """The lines before the end of that number by a full journal, and the one after it, which says how long the pause is."""
    end = time.monotonic() + PATIENCE
    while True:
        lines = [line for _, line in list(server.lines)]
        ends = [at for at, line in enumerate(lines) if line == FULL]
        if len(ends) >= number and len(lines) > ends[number - 1] + 1:
            return lines[: ends[0]], lines[ends[number - 1] + 1]
        if time.monotonic() > end:
            return lines, ""
        time.sleep(0.02)


def opened_again(seconds):
    return f"stompd: opening the journal again in {seconds} s, which makes room\n"


def one_at_a_time(program, checks):
    """a client that waits for each receipt, and one that says nothing"""
    with serving(program) as server:
        there = server.count_of_threads(), server.count_of_descriptors()
        sender, idle = Client(server.port).connect(), Client(server.port).connect()
        receipted, code = send_until_closed(sender)
        # It may have made room before, and logs that first.
        logged, pause = pause_after(server)
        checks.check("it logs nothing but its start and what compactions won before it serves no more", all(any(word in line for word in LOGGED) for line in logged), logged)
        checks.same("and then when it opens the journal again", pause, opened_again(1))
        paused = time.monotonic()
        checks.check("messages were receipted before", len(receipted) >= 20, len(receipted))
        checks.same("who sends is closed with 1001", code, 1001)
        checks.same("who is silent is closed with 1001", idle.to_the_end(), ([], 1001))
        checks.tell(f"{len(receipted)} messages of some 1,000 bytes were receipted, in an area of 65,536 bytes")
        checks.check("it listens again, at the same port", server.listens())
        # Its own are gone soon after it listens.
        end = time.monotonic() + PATIENCE
        while (counts := (server.count_of_threads(), server.count_of_descriptors())) != there and time.monotonic() < end:
            time.sleep(0.1)
        checks.same("with as many threads and descriptors as before", counts, there)
        checks.check("after that second", time.monotonic() - paused >= 0.9, time.monotonic() - paused)
        reader = Client(server.port).connect()
        found = [frame.body for frame in reader.subscribe("r", "/queue/full")]
        checks.check("and has each of them once, in order", found[: len(receipted)] == receipted, len(found))
        checks.check("and at most the one without a receipt after them", len(found) <= len(receipted) + 1, len(found))
        reader.close()
        again, code = send_until_closed(Client(server.port).connect())
        checks.same("the next sender is closed with 1001", code, 1001)
        checks.same("and the next pause is twice as long", pause_after(server, 2)[1], opened_again(2))
        status, seconds = server.end()
        checks.same("the end of its input breaks the pause off, with status 0", status, 0)
        checks.check("and at once", seconds < 1, seconds)


def all_at_once(program, checks):
    """a client that waits for no receipt"""
    with serving(program) as server:
        eager = Client(server.port).connect()
        for number in range(UNASKED):
            eager.send("SEND", [("destination", "/queue/full"), ("receipt", f"{number}")], f"{number} {LONG_BODY}")
        heard, code = eager.to_the_end()
        receipted = [frame.headers["receipt-id"] for frame in heard]
        checks.same("who sends without waiting for receipts is closed with 1001", code, 1001)
        checks.same("after the receipts of its first messages", receipted, [f"{number}" for number in range(len(receipted))])
        checks.check("of some and not of all", 0 < len(receipted) < UNASKED, len(receipted))
        checks.check("it listens again", server.listens())
        reader = Client(server.port).connect()
        found = [frame.body.split(" ")[0] for frame in reader.subscribe("r", "/queue/full")]
        checks.same("and has each that was receipted, in order", found[: len(receipted)], receipted)
        reader.close()


def nobody_reads(program, checks):
    """standard error is full and unread while the journal becomes full"""
    with scenario.serving(program, JOURNAL_BYTES, more=("--until-eof",), is_read=False) as server:
        server.fill_log()
        receipted, _ = send_until_closed(Client(server.port).connect())
        checks.check("messages were receipted", len(receipted) >= 20, len(receipted))
        checks.check("it listens again all the same", server.listens())
        reader = Client(server.port).connect()
        found = [frame.body for frame in reader.subscribe("r", "/queue/full")]
        checks.check("and has each of them", found[: len(receipted)] == receipted, len(found))
        reader.close()
        checks.same("and ends in good order", server.end()[0], 0)


def after_a_minute(program, checks):
    """a server that ran for over a minute: the next pause is the shortest"""
    with serving(program) as server:
        for number, (seconds, rest) in enumerate(((1, 0), (2, 0), (1, LONG)), 1):
            checks.check("it serves", number == 1 or server.listens())
            time.sleep(rest)
            send_until_closed(Client(server.port).connect())
            checks.same(f"after {rest} s at rest the next pause is of {seconds} s", pause_after(server, number)[1], opened_again(seconds))


if __name__ == "__main__":
    sys.exit(scenario.try_parts(__doc__, (one_at_a_time, all_at_once, nobody_reads), (after_a_minute,)))
