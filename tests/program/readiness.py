#!/usr/bin/env python3
"""Looks for a client that is left because the poll doesn't tell of it again: bytes and the end that come at once, bytes that fill a read, bytes that come
while a client is being served, or while nothing of it is read. Then it counts the reads that were made in vain. Needs Python 3, and strace for the count.

    python3 tests/program/readiness.py [PROGRAM]

A poll that is edge-triggered tells of a socket once (epoll(7)), so a server that takes a socket for empty has to be right. To have it meet all that a
client sent in one event, the broker is stopped (SIGSTOP) while the client sends. Nothing may take longer than five seconds: the first ping, which
wakes a client that was left, is sent after twenty.
"""

import collections
import contextlib
import pathlib
import re
import shutil
import signal
import socket
import struct
import subprocess
import sys
import tempfile
import time

from lib import scenario
from lib.stomp_client import Client, Stream, connect_message, handshake, stomp_message

LONGEST = 5.0
# What one read of the server asks for after a handshake.
READ = 4_096
# How often one waits for a receipt and sends at once, and how many reads in vain that may take, those of the handshake counted.
LONE, IN_VAIN = 500, 20


@contextlib.contextmanager
def stopped(broker):
    """The broker stands still meanwhile, so that it finds all that comes in one event."""
    with broker.standing_still():
        yield
        # What was sent comes to its socket.
        time.sleep(0.05)


def send_frame(name, size):
    """A SEND with that receipt, as a message of so many bytes on the wire, from 200 up to 65,535."""
    headers = [("destination", "/topic/none"), ("receipt", name)]
    least = len(stomp_message("SEND", headers, "x" * 130))
    made = stomp_message("SEND", headers, "x" * (130 + size - least))
    assert len(made) == size, (len(made), size)
    return made


def receipt_within(client, name):
    """Whether that receipt comes in time, and nothing before it."""
    client.socket.settimeout(LONGEST)
    frame = client.receive()
    return (frame.command, frame.headers.get("receipt-id")) == ("RECEIPT", name)


def ends_within(stream):
    """Whether the server ends the stream in time."""
    stream.socket.settimeout(LONGEST)
    try:
        while stream.socket.recv(65_536):
            pass
    except ConnectionResetError:
        pass
    except TimeoutError:
        return False
    return True


def the_end_comes_with_bytes(broker, checks):
    """what a client sends with its end is heard, and then the end is"""
    hearer = Client(broker.port).connect()
    hearer.subscribe("h", "/topic/ends")
    client = Client(broker.port).connect()
    with stopped(broker):
        client.send("SEND", [("destination", "/topic/ends")], "last")
        client.socket.shutdown(socket.SHUT_WR)
    hearer.socket.settimeout(LONGEST)
    checks.same("another hears what came with the end", hearer.receive().body, "last")
    checks.check("and the server ends the connection", ends_within(client))
    hearer.disconnect()


def a_handshake_ends_within(broker, checks):
    """a client that ends within its handshake is let go"""
    stream = Stream(broker.port)
    with stopped(broker):
        stream.write(handshake(broker.port)[:40])
        stream.socket.shutdown(socket.SHUT_WR)
    checks.check("the server ends the connection", ends_within(stream))


def a_handshake_fills_a_read(broker, checks):
    """what comes behind a handshake that just fills a read is heard"""
    stream = Stream(broker.port)
    # Its socket is known to the poll before anything comes.
    time.sleep(0.3)
    request = handshake(broker.port, headers=[("X-Pad", "")])
    request = request.replace(b"X-Pad: ", b"X-Pad: " + (READ - len(request)) * b"x")
    assert len(request) == READ, len(request)
    with stopped(broker):
        stream.write(request + connect_message(("host", "localhost")))
    stream.socket.settimeout(LONGEST)
    heard = b""
    with contextlib.suppress(TimeoutError):
        while b"CONNECTED" not in heard and (more := stream.socket.recv(READ)):
            heard += more
    checks.check("its CONNECT is answered", b"CONNECTED" in heard, heard)
    stream.close()


def a_reset_comes_with_bytes(broker, checks):
    """a client that resets its connection is let go: what it held goes to another"""
    holder = Client(broker.port).connect()
    holder.subscribe("h", "/queue/resets", "client-individual")
    holder.publish("/queue/resets", "x")
    other = Client(broker.port).connect()
    other.subscribe("h", "/queue/resets", "client-individual")
    with stopped(broker):
        holder.send("SEND", [("destination", "/topic/none")], "y")
        # With this a close sends a reset.
        holder.socket.setsockopt(socket.SOL_SOCKET, socket.SO_LINGER, struct.pack("ii", 1, 0))
        holder.close()
    other.socket.settimeout(LONGEST)
    checks.same("another is handed it", other.receive().body, "x")
    other.disconnect()


def bytes_fill_reads(broker, checks):
    """bytes that just fill a read, or several, and one byte more or less, are all heard"""
    client = Client(broker.port).connect()
    for size in (READ - 1, READ, READ + 1, 2 * READ - 1, 2 * READ, 2 * READ + 1, 3 * READ):
        with stopped(broker):
            client.write(send_frame(str(size), size))
        checks.check(f"a message of {size} bytes", receipt_within(client, str(size)))
    with stopped(broker):
        for number in range(64):
            client.write(send_frame(f"n{number}", READ // 4))
    checks.check("64 messages, of which four fill a read", all(receipt_within(client, f"n{number}") for number in range(64)))
    client.disconnect()


def bytes_come_in_between(broker, checks):
    """bytes that come while the client is served are heard: a message in two pieces, of which the second comes at any moment"""
    client = Client(broker.port).connect()
    longest = 0.0
    for number in range(2_000):
        message = send_frame(str(number), 200)
        client.write(message[:100])
        wait = time.perf_counter() + (number % 200) * 1e-6
        while time.perf_counter() < wait:
            pass
        begun = time.perf_counter()
        client.write(message[100:])
        if not receipt_within(client, str(number)):
            break
        longest = max(longest, time.perf_counter() - begun)
    checks.check("each has its receipt in time", number == 1_999 and longest < LONGEST, longest)
    client.disconnect()


def bytes_come_unread(broker, checks):
    """what comes while a client takes nothing, so that nothing of it is read, is heard once it takes what is its own"""
    sender, slow = Client(broker.port).connect(), Client(broker.port, receive_bytes=4_096).connect()
    slow.subscribe("s", "/topic/unread")
    for number in range(64):
        sender.publish("/topic/unread", f"{number} " + "z" * 60_000)
    slow.send("SEND", [("destination", "/topic/none"), ("receipt", "late")], "")
    time.sleep(1)
    slow.socket.settimeout(LONGEST)
    checks.same("it has its messages first, and then its receipt", len(slow.receipt("late")), 64)
    for client in (sender, slow):
        client.disconnect()


def reads_in_vain(program, checks):
    """one that sends again with each receipt causes no read that finds nothing"""
    with tempfile.TemporaryDirectory(prefix="stompd-readiness-") as folder:
        trace = pathlib.Path(folder) / "trace"
        with scenario.serving(program) as broker:
            words = ["strace", "-f", "-qq", "-e", "trace=read,recvfrom,recvmsg,readv", "-o", trace, "-p", str(broker.process.pid)]
            tracer = subprocess.Popen(words, stderr=subprocess.PIPE)
            time.sleep(1)
            client = Client(broker.port).connect()
            for number in range(LONE):
                client.publish("/topic/none", f"{number}")
            client.disconnect()
            tracer.send_signal(signal.SIGINT)
            tracer.wait()
        told = trace.read_text(errors="replace")
        vain = collections.Counter(re.findall(r"= -1 (\w+)", told))
        read = len(re.findall(r"= [1-9]\d*$", told, re.M))
    checks.check("its reads were traced", read >= LONE, (read, tracer.stderr.read()))
    checks.tell(f"{LONE} lone receipts: {dict(vain)}")
    checks.check(f"at most {IN_VAIN} reads of {LONE} lone receipts are in vain", vain["EAGAIN"] <= IN_VAIN, vain)


def main():
    program, checks = scenario.program_of(__doc__), scenario.Checks()
    scenarios = [
        the_end_comes_with_bytes, a_handshake_ends_within, a_handshake_fills_a_read, a_reset_comes_with_bytes, bytes_fill_reads, bytes_come_in_between,
        bytes_come_unread
    ]
    with scenario.serving(program) as broker:
        for one in scenarios:
            scenario.try_one(one, broker, checks)
        checks.check("the broker still runs", broker.is_running(), broker.process.poll())
    if shutil.which("strace") is None:
        print("readiness.py needs strace for the count of reads", file=sys.stderr)
        return 1 if checks.failed else 2
    reads_in_vain(program, checks)
    return checks.status()


if __name__ == "__main__":
    sys.exit(main())
