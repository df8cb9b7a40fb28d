#!/usr/bin/env python3
"""Commands of the client end when they should, and only then: though they are stopped and go on, while a network, a name or a place is away, beside those who
send back what is moved, and at a server that is full. Compares with docs/CLI.md.

    python3 tests/program/client_goes_on.py [PROGRAM]
"""

import contextlib
import os
import pathlib
import re
import shutil
import signal
import socket
import subprocess
import sys
import tempfile
import threading
import time

from lib.commands import NONE, told
from lib.commands import run_for_text as run
from lib.fake_peer import CONNECT, LEAVE, Peer, answering, closing, connected, ending, nothing, one_after_another, receipted, saying
from lib.scenario import serving, try_parts
from lib.stomp_client import Client

# How long each answer of some peers takes, in seconds, and how long a command is stopped and goes on meanwhile.
SLOW, STOPPED = 0.7, 0.1
# How many messages a server holds (docs/PROTOCOL.md, "Limits").
HELD = 4096
DURABLE = ("--durable", "kiosk", "news")
HELD_NAME = "no more messages: ERROR: E14 durable subscription unknown, in use or of another topic"
WAITS = HELD_NAME + "; waiting up to 90 s for another session to end"
AGAIN = told("no more messages: the connection has ended; connecting again")
ERROR = b"ERROR\nmessage:E14 durable subscription unknown, in use or of another topic\n\n\0"

closed = closing(1000)


def delivery(number, body=b"x"):
    head = b"MESSAGE\nsubscription:heard\nmessage-id:%d.0\ndestination:/queue/a\nack:%d\ncontent-length:%d\n" % (number, number, len(body))
    return head + b"\n" + body + b"\0"


def slowly(step):
    def act(peer, frame):
        time.sleep(SLOW)
        step(peer, frame)

    return act


def with_stops(program, words, given):
    """What a command comes to that is stopped and goes on, again and again."""
    process = subprocess.Popen([program, *map(str, words)], stdin=subprocess.PIPE, stdout=subprocess.PIPE, stderr=subprocess.PIPE)
    process.stdin.write(given)
    process.stdin.close()
    end = time.monotonic() + 60
    while process.poll() is None and time.monotonic() < end:
        process.send_signal(signal.SIGSTOP)
        time.sleep(STOPPED)
        process.send_signal(signal.SIGCONT)
        time.sleep(STOPPED)
    process.kill()
    seen = process.wait(), process.stdout.read().decode(), process.stderr.read().decode()
    process.stdout.close()
    process.stderr.close()
    return seen


# What each command is called with, what answers it, and what it prints.
STOPS = {
    "ping": ([], b"", [connected, receipted, receipted, closed], r"receipt after \d+\.\d{3} ms\n"),
    "send": (["/queue/a", "x"], b"", [connected, receipted, receipted, closed], ""),
    "send --lines": (["/queue/a"], b"one\ntwo\n", [connected, receipted, receipted, receipted, closed], ""),
    "listen": (["/queue/a", "--settle", "--count", 1], b"", [connected, saying(delivery(1)), nothing, receipted, closed], "x\n"),
    "move": (["/queue/a", "/queue/b", "--count", 1], b"", [connected, saying(delivery(1)), receipted, receipted, closed], "moved 1 messages\n"),
    "forget": (["kiosk", "news"], b"", [connected, receipted, receipted, closed], ""),
}


def stops(program, checks):
    """Ctrl-Z and fg, or a debugger, end no command: what the system interrupts then is done again (signal(7), "Interruption of system calls")."""
    for name, (words, given, steps, printed) in STOPS.items():
        peer = Peer(answering(*map(slowly, steps)))
        command, *more = name.split()
        seen = with_stops(program, [command, peer.port, *words, *more], given)
        peer.end()
        checks.check(f"{name} is stopped and goes on", seen[0] == 0 and re.fullmatch(printed, seen[1]) and seen[2] == "", (seen, peer.fault))
    with serving(program) as broker:
        listener = subprocess.Popen([program, "listen", str(broker.port), "/queue/a", "--settle", "--count", "1"], stdout=subprocess.PIPE, stderr=subprocess.PIPE)
        time.sleep(0.5)
        for _ in range(3):
            listener.send_signal(signal.SIGSTOP)
            time.sleep(STOPPED)
            listener.send_signal(signal.SIGCONT)
            time.sleep(STOPPED)
        run(program, "send", broker.port, "/queue/a", "after")
        checks.same("a listener that waits hears what comes after that", (*listener.communicate(timeout=20), listener.returncode), (b"after\n", b"", 0))


def send_all(program, broker, destination, count):
    """So many messages, from 0 on."""
    done = run(program, "send", broker.port, destination, "--lines", given=b"".join(b"%d\n" % it for it in range(count)))
    assert done == (0, "", ""), done


def held(program, broker):
    """How many messages each queue holds."""
    lines = subprocess.run([program, "held", broker.journal], capture_output=True, text=True, check=True).stdout.splitlines()
    return {it.split(" ", 2)[2]: int(it.split(" ", 1)[0]) for it in lines[2:-1]}


def refusing(broker, destination, ready):
    """A worker that refuses each message, until its connection is closed."""
    client = Client(broker.port, timeout=30).connect()
    client.send("SUBSCRIBE", [("id", "w"), ("destination", destination), ("ack", "client-individual")])
    ready.append(client)
    with contextlib.suppress(OSError, Exception):
        while True:
            frame = client.receive_message()[1]
            client.send("NACK", [("id", re.search(rb"^ack:(.*)$", frame, re.M)[1].decode())])


def circles(program, checks):
    """A move takes what was there when it began, and ends, though all of it comes back."""
    with serving(program) as broker:
        send_all(program, broker, "/queue/a", 10)
        workers = []
        worker = threading.Thread(target=refusing, args=(broker, "/queue/jobs", workers))
        worker.start()
        run(program, "move", broker.port, "/queue/a", "/queue/dead", "--count", 10)
        while not workers:
            time.sleep(0.05)
        began = time.monotonic()
        seen = run(program, "move", broker.port, "/queue/dead", "/queue/jobs", "--timeout", 5)
        took = time.monotonic() - began
        checks.same("beside a worker that refuses", seen, (0, "moved 10 messages\n", ""))
        checks.check("it ends", took < 15, took)
        workers[0].socket.shutdown(socket.SHUT_RDWR)
        worker.join()
        time.sleep(1)
        checks.same("and nothing is lost", sum(held(program, broker).values()), 10)
    with serving(program) as broker:
        send_all(program, broker, "/queue/a", 20)
        began = time.monotonic()
        seen = run(program, "move", broker.port, "/queue/a", "/queue/a", "--to", broker.port, "--timeout", 5)
        checks.same("FROM and TO are the same place", seen, (0, "moved 20 messages\n", ""))
        checks.same("which holds them", held(program, broker), {"queue /queue/a": 20})
    greeting = b"CONNECTED\nversion:1.2\nsession:7\nheart-beat:0,0\n\n\0"
    for what, more, number, wanted in (
        ("a message of a later command is left", [], 8, (0, "moved 1 messages\n", "")),
        ("one of an earlier command is not", ["--timeout", 1], 6, (0, "moved 2 messages\n", "")),
        ("so many are waited for, later ones too", ["--count", 2], 8, (0, "moved 2 messages\n", "")),
    ):
        peer = Peer(answering(saying(greeting), saying(delivery(5) + delivery(number)), receipted, receipted, receipted))
        began = time.monotonic()
        seen = run(program, "move", peer.port, "/queue/a", "/queue/b", *(more or ["--timeout", 30]))
        took = time.monotonic() - began
        peer.end()
        checks.same(what, seen, wanted)
        checks.check(f"{what}: at once", took < 10, took)


def full_server(program, checks):
    """A message needs no room at a server that holds it: what is given back counts before what is taken (docs/PROTOCOL.md, "The broker")."""
    with serving(program, journal_bytes=64 << 20) as broker:
        send_all(program, broker, "/queue/a", HELD)
        seen = run(program, "send", broker.port, "/queue/a", "one more")
        checks.same("the server is full", seen, (1, "", told("no RECEIPT: ERROR: E12 no room for the message")))
        checks.same("a move needs no room", run(program, "move", broker.port, "/queue/a", "/queue/b", "--count", 40), (0, "moved 40 messages\n", ""))
        checks.same("and all are there", held(program, broker), {"queue /queue/a": HELD - 40, "queue /queue/b": 40})
        status, printed, said = run(program, "ping", broker.port)
        checks.check("a ping needs none either", (status, said) == (0, "") and printed.startswith("receipt after "), (status, printed, said))


def gone(_):
    """A peer that ends the connection without a word."""


def pings(program, checks):
    """A ping concerns nobody: what it sends goes to no subscription (STOMP 1.2, "BEGIN", "COMMIT"). A server that ends connections unanswered is full."""
    with serving(program) as broker:
        run(program, "listen", broker.port, "/topic/stompd-ping", *DURABLE, "--timeout", 1)
        for _ in range(5):
            status, printed, said = run(program, "ping", broker.port)
            checks.check("it is answered", (status, said) == (0, ""), (status, printed, said))
        checks.same("and nothing is held of it", list(held(program, broker).values()), [0])
    peer = Peer(answering(connected, receipted, receipted, closed))
    run(program, "ping", peer.port)
    peer.end()
    wanted = [CONNECT, b"BEGIN\ntransaction:ping\n\n\0COMMIT\ntransaction:ping\nreceipt:sent\n\n\0", LEAVE]
    checks.same("what it says", [payload for _, payload in peer.heard[:3]], wanted)
    peer = Peer(one_after_another(gone, gone, answering(connected, receipted, receipted, closed)))
    status, _, said = run(program, "ping", peer.port)
    peer.end()
    checks.same("a server that has a place again is asked again", (status, said, peer.fault), (0, "", None))
    with socket.create_server(("127.0.0.1", 0)) as listener:
        is_over = threading.Event()

        def ends_all():
            listener.settimeout(0.2)
            while not is_over.is_set():
                with contextlib.suppress(TimeoutError):
                    listener.accept()[0].close()

        thread = threading.Thread(target=ends_all)
        thread.start()
        began = time.monotonic()
        seen = run(program, "ping", listener.getsockname()[1])
        took = time.monotonic() - began
        is_over.set()
        thread.join()
    checks.same("one that never has is full, and alive", seen, (3, "", told("no handshake: the connection has ended")))
    checks.check("after five seconds", 4.5 < took < 9, took)
    peer = Peer(gone)
    seen = run(program, "ping", peer.port)
    peer.end()
    checks.same("one that ends is dead", seen, (1, "", told("no connection: nobody listens there")))


def counts(program, checks):
    """--count counts each message once, though some come again after a connection is lost, since their ACKs were. So none that was printed is held."""
    bodies = [delivery(it, b"%d" % it) for it in range(1, 6)]
    peer = Peer(
        one_after_another(
            answering(connected, saying(b"".join(bodies[:3])), nothing, nothing, ending),
            answering(connected, saying(b"".join(bodies)), nothing, nothing, receipted, closed),
            answering(connected, saying(b"".join(bodies[2:])), nothing, nothing, receipted, closed),
            answering(connected, saying(bodies[4]), nothing, receipted, closed),
        )
    )
    seen = run(program, "listen", peer.port, "/queue/a", "--settle", "--count", 5)
    peer.end()
    checks.same("five messages, of which three come twice", (seen, peer.fault), ((0, "1\n2\n3\n1\n2\n3\n4\n5\n", AGAIN), None))
    with serving(program) as broker:
        send_all(program, broker, "/queue/a", 50)
        checks.same("and as many as are asked for", run(program, "listen", broker.port, "/queue/a", "--settle", "--count", 49)[::2], (0, ""))
        checks.same("are taken", held(program, broker), {"queue /queue/a": 1})


def words(program, checks):
    """`-V` is `--version`, and each `--help` says how to get the same text with status 0."""
    checks.same("-V", run(program, "-V"), run(program, "--version"))
    for more in ([], ["listen"]):
        status, printed, said = run(program, *more, "--help")
        checks.check(f"the last words of {more} --help", (status, printed) == (2, "") and said.strip().endswith("stompd help prints it to standard output, with 0"), said)
        checks.same(f"which does so: {more}", run(program, "help", *more), (0, said, ""))
    top = pathlib.Path(__file__).resolve().parent.parent.parent
    named = subprocess.run([top / "bin" / "stompd", "-V"], capture_output=True, text=True, env={**os.environ, "STOMPD": str(program)})
    checks.same("STOMPD names the program of bin/stompd", (named.returncode, named.stdout), run(program, "-V")[:2])
    with tempfile.TemporaryDirectory() as folder:
        # A checkout where nothing is built, and no toolchain.
        shutil.copytree(top / "bin", pathlib.Path(folder, "bin"))
        lost = subprocess.run([pathlib.Path(folder, "bin", "stompd"), "--version"], capture_output=True, text=True, env={"PATH": "/usr/bin:/bin"})
    checks.check("without rt one line says what to do", lost.returncode == 1 and lost.stdout == "" and lost.stderr.count("\n") == 1 and "STOMPD=" in lost.stderr, lost)


def held_names(program, checks):
    """A durable name that another session has is waited for, since that session's client may be gone, and that is told once."""
    taken = answering(connected, saying(delivery(1)), nothing, receipted, closed)
    refused = answering(connected, saying(ERROR))
    peer = Peer(one_after_another(refused, refused, taken))
    seen = run(program, "listen", peer.port, "/topic/a", *DURABLE, "--settle", "--count", 1)
    peer.end()
    checks.same("by listen", (seen, peer.fault), ((0, "x\n", told(WAITS)), None))
    peer = Peer(one_after_another(refused, refused, answering(connected, saying(delivery(1)), receipted, receipted, closed)))
    seen = run(program, "move", peer.port, "/topic/a", "/queue/b", *DURABLE, "--count", 1)
    peer.end()
    checks.same("by move", (seen, peer.fault), ((0, "moved 1 messages\n", told(WAITS)), None))
    with serving(program) as broker:
        other = subprocess.Popen([program, "listen", str(broker.port), "/topic/t", *DURABLE], stdout=subprocess.DEVNULL, stderr=subprocess.DEVNULL)
        time.sleep(1)
        seen = run(program, "listen", broker.port, "/topic/t", *DURABLE, "--timeout", 3)
        checks.same("no longer than --timeout says", seen, (4, "", told(WAITS) + told(NONE)))
        listener = subprocess.Popen([program, "listen", str(broker.port), "/topic/t", *DURABLE, "--settle", "--count", "1"], stdout=subprocess.PIPE, stderr=subprocess.PIPE)
        time.sleep(2)
        other.kill()
        other.wait()
        time.sleep(2)
        run(program, "send", broker.port, "/topic/t", "at last")
        checks.same("until the other has ended", (*listener.communicate(timeout=20), listener.returncode), (b"at last\n", told(WAITS).encode(), 0))
    peer = Peer(answering(connected, saying(ERROR.replace(b"E14 durable subscription unknown, in use or of another topic", b"E8 bad destination"))))
    seen = run(program, "listen", peer.port, "/topic/a", *DURABLE)
    peer.end()
    checks.same("another ERROR ends it", seen, (1, "", told("no more messages: ERROR: E8 bad destination")))


if __name__ == "__main__":
    sys.exit(try_parts(__doc__, (words, stops, circles, full_server, pings, counts, held_names)))
