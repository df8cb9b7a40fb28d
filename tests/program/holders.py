#!/usr/bin/env python3
"""What clients hold counts for as long as they hold it, and whoever holds most is the one that is given up: a server whose clients may hold 16 MiB
together, the least that there is. First three clients sit at each desk. One of them, at three desks in turn, holds most, and three neighbours at
another desk hold more than that together: only the first is given up, and at once, though its worker sleeps. Then more heads come than have room, none of
which ends. Then each of the ways in which a client may hold something is taken over and over, to many times the budget and given back each time: nobody is
given up.

    python3 tests/program/holders.py [PROGRAM]
"""

import contextlib
import os
import socket
import sys
import time

from lib import scenario
from lib.stomp_client import TEXT, Client, Closed, handshake, message_bytes, stomp_bytes

# The least budget, and the desks of a server. A client comes to the desk that has the fewest, so the one of number N to desk N modulo 64.
BUDGET, DESKS, A_DESK = 16_777_216, 64, 3
# Members of transactions: the bytes of a body, and how many a transaction may have of these.
MEMBER, A_TRANSACTION = 4_000, 64
# Who holds most, one after another, and how many members; three at another desk, and how many each.
MOSTS, MOST_MEMBERS, NEIGHBOURS, NEIGHBOUR_MEMBERS = (DESKS, 6 + DESKS, 3 * DESKS - 1), 125, (5, 5 + DESKS, 5 + 2 * DESKS), 80
# All others get a member more in each round, until one is given up: at most so many rounds.
ROUNDS = 25
# How often the budget is passed by what is held and given back.
OVER = 2
# A message that fills what a message may have.
LONGEST = 131_072
# A head under the limit, with no end.
HEAD = 16_000
# A client that is disconnected is told so at once; one that isn't, is looked at for so long.
QUIET = 0.3
# Of clients at the desks of other workers one after another gets so many members more, in so many steps at most. From the last ones before the budget
# was passed, so many steps are sure to be under it, and so many to pass it. A worker that has nothing to do sleeps for so many seconds, and whoever holds
# most is given up within the others.
STEP, STEPS, UNDER, OVER_IT, SLEEP, AT_ONCE = 16, 300, 6, 12, 2.2, 0.5
# So many heads are more than the budget. Those over it are let go within so many seconds; a client may be in the midst of its head for 20.
MANY_HEADS, LET_GO = BUDGET // HEAD + 100, 6
# How many heads over the limit stay open at once: with 16,000 bytes each they have more than the budget.
REFUSED = 1_200


class Member:
    """A client that sends members of transactions, each with a receipt."""

    def __init__(self, port):
        self.client, self.sent = Client(port, timeout=20).connect(), 0

    def grow(self, members):
        for number in range(self.sent, self.sent + members):
            name = f"{number // A_TRANSACTION}"
            if number % A_TRANSACTION == 0:
                self.client.send("BEGIN", [("transaction", name)])
            self.client.send("SEND", [("destination", "/queue/never"), ("transaction", name), ("receipt", f"{number}")], "x" * MEMBER)
        for number in range(self.sent, self.sent + members):
            self.client.receipt(f"{number}")
        self.sent += members

    def is_served(self):
        return is_served(self.client)


def is_served(client):
    try:
        client.publish("/topic/none", "x")
    except (Closed, ConnectionError):
        return False
    return True


def grow_until_one_is_given_up(clients, most, others):
    """One after another of the others gets a member more, until the one that holds most hears something that is no ping. Answers who ended meanwhile."""
    for _ in range(ROUNDS):
        for number in others:
            try:
                clients[number].grow(1)
            except (Closed, ConnectionError):
                return [number]
            if clients[most].client.has_message():
                return []
    return []


def most_of_all(broker, checks):
    """of 192 clients, three a desk, the one that holds most is given up and nobody else, though three at one desk hold more together; and again, once
    these have left"""
    for most in MOSTS:
        clients = [Member(broker.port) for _ in range(DESKS * A_DESK)]
        clients[most].grow(MOST_MEMBERS)
        for number in NEIGHBOURS:
            clients[number].grow(NEIGHBOUR_MEMBERS)
        others = [number for number in range(len(clients)) if number not in (most, *NEIGHBOURS)]
        gone = grow_until_one_is_given_up(clients, most, others)
        time.sleep(QUIET)
        checks.same("nobody who held less was given up as it grew", gone, [])
        left = [number for number, one in enumerate(clients) if not one.is_served()]
        checks.same(f"client {most} is given up, which holds most, and nobody else", left, [most])
        for one in clients:
            one.client.close()
        # What they held counts no more once their ends are heard.
        time.sleep(2)


def grow_by_steps(most, others, first, steps):
    """Others get members, one after another, until the one that holds most is given up, or all steps are done. Answers after which step it was."""
    for step in range(first, first + steps):
        with contextlib.suppress(Closed, ConnectionError):
            others[step % len(others)].grow(STEP)
        if most.client.has_message():
            return step
    return None


def most_of_a_sleeping_worker(broker, checks):
    """whoever holds most is given up as soon as others pass the budget, though its worker sleeps"""
    workers = len(os.sched_getaffinity(broker.process.pid))
    if workers == 1:
        checks.tell("not tried: with one processor there is one worker")
        return
    # The desks are dealt out in turn, so the others sit with other workers.
    seated = lambda: [Member(broker.port) for _ in range(DESKS)]
    clients = seated()
    most, others = clients[0], [one for number, one in enumerate(clients) if number % workers]
    most.grow(A_TRANSACTION * 4 - 8)
    last = grow_by_steps(most, others, 0, STEPS)
    checks.check("it is given up once others pass the budget", last is not None, STEPS)
    for one in clients:
        one.client.close()
    time.sleep(SLEEP)
    clients = seated()
    most, others = clients[0], [one for number, one in enumerate(clients) if number % workers]
    most.grow(A_TRANSACTION * 4 - 8)
    before = (last or 0) - UNDER
    grow_by_steps(most, others, 0, before)
    time.sleep(SLEEP)
    checks.check("not before, for as long as its worker sleeps", not most.client.has_message())
    grow_by_steps(most, others, before, OVER_IT)
    checks.check("and then at once", most.client.hears_within(AT_ONCE) and most.client.has_message())
    for one in clients:
        one.client.close()


def is_let_go(one):
    """Whether a socket that doesn't wait, and to which nothing is said, has ended."""
    try:
        return one.recv(1) == b""
    except BlockingIOError:
        return False
    except ConnectionResetError:
        return True


def heads_over_the_budget(broker, checks):
    """of heads that have no end, which are more than the budget, those that are over it are let go"""
    front = handshake(0)[:-2] + b"X-Long: "
    head = front + b"x" * (HEAD - len(front))
    left = [socket.create_connection(("127.0.0.1", broker.port), timeout=20) for _ in range(MANY_HEADS)]
    for one in left:
        with contextlib.suppress(ConnectionError):
            one.sendall(head)
        one.setblocking(False)
    sockets, end = list(left), time.monotonic() + LET_GO
    while len(left) > BUDGET // HEAD and time.monotonic() < end:
        time.sleep(0.1)
        left = [one for one in left if not is_let_go(one)]
    checks.check(f"of {MANY_HEADS} at most {BUDGET // HEAD} are left", 0 < len(left) <= BUDGET // HEAD, len(left))
    # Counts are told once a second.
    time.sleep(2)
    left = [one for one in left if not is_let_go(one)]
    checks.same("the others are told", broker.count(r"gave up (\d+) clients that took the most memory"), MANY_HEADS - len(left))
    for one in sockets:
        one.close()


def what_is_taken(broker, checks):
    """readers of a day: what they took holds nothing more"""
    readers = [Client(broker.port, timeout=20).connect() for _ in range(20)]
    for one in readers:
        one.subscribe("r", "/topic/day")
    sender = Client(broker.port, timeout=20).connect()
    # A place of an outbox has some 100 bytes: all of these have more than the budget.
    messages, window = 5 * BUDGET // 4 // (100 * len(readers)), 200
    for start in range(0, messages, window):
        sender.publish_all("/topic/day", ["x"] * window)
        for one in readers:
            for _ in range(window):
                one.receive()
    checks.check(f"after {start + window} messages each of {len(readers)} readers is served", all(map(is_served, readers)))
    checks.check("the sender too", is_served(sender))
    for one in (*readers, sender):
        one.close()


def what_waited(broker, checks):
    """what waited for a slow reader holds nothing more once it has read it"""
    sender = Client(broker.port, timeout=20).connect()
    for number in range(OVER + 1):
        reader = Client(broker.port, timeout=20).connect()
        reader.subscribe("r", f"/topic/late/{number}")
        # Three fifths of the budget, of which the sockets take some.
        count = 3 * BUDGET // 5 // 60_000
        sender.publish_all(f"/topic/late/{number}", ["y" * 60_000] * count, window=8)
        for _ in range(count):
            reader.receive()
        checks.check("who read late is served, and all others", is_served(reader) and is_served(sender))


def members_that_ended(broker, checks):
    """members that were committed, aborted or refused hold nothing more"""
    client = Client(broker.port, timeout=20).connect()
    for number in range(OVER * BUDGET // (60 * MEMBER)):
        client.send("BEGIN", [("transaction", "t")])
        for _ in range(60):
            client.send("SEND", [("destination", "/topic/none"), ("transaction", "t")], "x" * MEMBER)
        end = "COMMIT" if number % 2 else "ABORT"
        client.send(end, [("transaction", "t"), ("receipt", f"{number}")])
        client.receipt(f"{number}")
    checks.check("whoever committed and aborted them is served", is_served(client))
    leaver = [Member(broker.port) for _ in range(8)]
    for _ in range(OVER):
        for one in leaver:
            one.grow(A_TRANSACTION * 4 - 8)
        for one in leaver:
            one.client.close()
        leaver = [Member(broker.port) for _ in range(8)]
        time.sleep(0.5)
    checks.check("those who come after others that left theirs are served", all(one.is_served() for one in leaver) and is_served(client))
    for one in leaver:
        one.client.close()


def messages_that_were_read(broker, checks):
    """messages as long as may be hold nothing more once they were carried out, whole or in fragments"""
    client = Client(broker.port, timeout=20).connect()
    frame = stomp_bytes("SEND", [("destination", "/topic/none")], "z" * 60_000)
    both = frame + stomp_bytes("SEND", [("destination", "/topic/none"), ("receipt", "both")], "z" * 60_000)
    checks.check("two of these fit into a message", len(both) <= LONGEST, len(both))
    for _ in range(OVER * BUDGET // LONGEST):
        client.write(message_bytes(TEXT, both))
        client.receipt("both")
    checks.check("whoever sent them is served", is_served(client))
    client.close()


def heads_that_were_refused(broker, checks):
    """heads that were refused, or left before their end, hold nothing more"""
    witness = Client(broker.port, timeout=20).connect()
    front = handshake(0)[:-2] + b"X-Long: "
    head = front + b"x" * (HEAD - len(front))
    for start in range(0, OVER * BUDGET // HEAD, 200):
        some = [socket.create_connection(("127.0.0.1", broker.port), timeout=20) for _ in range(200)]
        for one in some:
            one.sendall(head)
        for at, one in enumerate(some):
            # Half of them go on over the limit, and hear that.
            if at % 2:
                one.sendall(b"x" * 2_000)
                checks.check("a head over the limit is answered 431", one.recv(64).startswith(b"HTTP/1.1 431"), start) if at == 1 else one.recv(64)
            one.close()
        time.sleep(0.1)
    over = [socket.create_connection(("127.0.0.1", broker.port), timeout=20) for _ in range(REFUSED)]
    for one in over:
        one.sendall(head + b"x" * 2_000)
    answers = [one.recv(64)[:12] for one in over]
    checks.same("each of many that are open at once is answered 431", set(answers), {b"HTTP/1.1 431"})
    for one in over:
        one.close()
    checks.check("others are served on", is_served(witness))
    witness.close()


SCENARIOS = (what_is_taken, what_waited, members_that_ended, messages_that_were_read, heads_that_were_refused)


def main():
    program = scenario.program_of(__doc__)
    scenario.take_descriptors()
    scenario.keep_journals_in_memory()
    checks, start = scenario.Checks(), time.monotonic()
    for one in (most_of_all, most_of_a_sleeping_worker, heads_over_the_budget):
        with scenario.serving(program, more=("--memory", str(BUDGET))) as broker:
            scenario.try_one(one, broker, checks)
    # One broker for all, so that what an earlier one left counted is found by the next.
    with scenario.serving(program, more=("--memory", str(BUDGET))) as broker:
        for one in SCENARIOS:
            scenario.try_one(one, broker, checks)
        checks.check("the broker still runs", broker.is_running(), broker.process.poll())
        checks.check("nobody was given up", "gave up" not in broker.text(), broker.text())
    checks.tell(f"{time.monotonic() - start:.1f} s")
    return checks.status()


if __name__ == "__main__":
    sys.exit(main())
