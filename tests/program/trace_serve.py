#!/usr/bin/env python3
"""Traces the system calls of `stompd serve` over a real file while clients talk to it, and compares them with what
docs/JOURNAL.md says. No contract can know this. Needs strace and Python 3 alone; the gate does not run it.

    python3 tests/program/trace_serve.py [PROGRAM]

- The file is opened once, and its lock is that of the descriptor that is read and written. It is had before the file's size is
  looked at, and before anything is read or written.
- A start is bytes 17 to 31 of the header as they read, a sync, the snapshot of the restart into the area that is not live, a sync, the selector and a sync, and only
  then `listening`.
- A block is one write of its length, its records and a closed gate, a sync, one write of one byte that opens the gate
  before it, and a sync. Nothing else is written into the file.
- What the clients sent stands in the blocks, once each, with the bytes that its record has.
- No CONNECTED, RECEIPT or MESSAGE leaves a socket before the sync after the gate of its command's block.
- A client's socket sends small packets at once (TCP_NODELAY).
- The journal's path is looked up at each 64th sync, and each second, and not with each sync.
"""

import collections
import pathlib
import re
import struct
import sys
import tempfile
import threading
import time

from lib.scenario import Broker, make_journal, program_of
from lib.stomp_client import Client
from lib.tracing import bytes_of, need_strace, strace

AREA = 65_536
HEAD = 32
CALLS = "accept,accept4,setsockopt,openat,flock,?fstat,?newfstatat,?statx,pread64,pwrite64,pwritev,write,writev,sendto,sendmsg,fsync,fdatasync,ftruncate"


class Wrong(Exception):
    """What was seen and should not be."""


def check(holds, text):
    if not holds:
        raise Wrong(text)


class Call:
    """A call of the system: its name, its words and its answer, and at which lines it began and ended."""

    def __init__(self, name, words, begun):
        self.name, self.words, self.begun = name, words, begun
        self.ended = self.answer = None

    def end(self, more, answer, line):
        self.words += more
        self.answer, self.ended = answer, line

    def descriptor(self):
        found = re.match(r"(\d+)", self.words)
        return int(found.group(1)) if found else None

    def data(self):
        """The bytes of all the texts in its words."""
        return b"".join(bytes_of(text) for text in re.findall(r'"((?:\\x[0-9a-f]{2})*)"', self.words))

    def place(self):
        return int(self.words.rsplit(",", 1)[1])


WHOLE = re.compile(r"(\d+) +(\w+)\((.*)\) += (-?\d+)(?: .*)?$")
BEGUN = re.compile(r"(\d+) +(\w+)\((.*?)(?: <unfinished \.\.\.>|\) += \?.*)$")
ENDED = re.compile(r"(\d+) +<\.\.\. (\w+) resumed>(.*)\) += (-?\d+)(?: .*)?$")


def calls_of(trace):
    """The calls of a trace, in the order in which they began. One that had not ended has no answer."""
    calls, open_calls = [], {}
    for number, line in enumerate(trace.read_text().splitlines()):
        if found := BEGUN.match(line):
            thread, name, words = found.groups()
            open_calls[thread] = Call(name, words, number)
            calls.append(open_calls[thread])
        elif found := ENDED.match(line):
            thread, name, more, answer = found.groups()
            check(open_calls[thread].name == name, f"line {number}: another call ended than had begun")
            open_calls.pop(thread).end(more, int(answer), number)
        elif found := WHOLE.match(line):
            _, name, words, answer = found.groups()
            calls.append(Call(name, words, number))
            calls[-1].end("", int(answer), number)
    return calls


def text(data):
    return struct.pack(">I", len(data)) + data


def send_record(session, receipt, destination, body):
    front = struct.pack(">Q", session) + b"\1" + text(receipt) + b"\2"
    return front + text(destination) + struct.pack(">H", 0) + text(body)


OPEN_RECORD = bytes(8) + b"\0\1\0"


class Reader:
    """Reads the parts of records."""

    def __init__(self, data):
        self.data, self.at = data, 0

    def take(self, count):
        check(self.at + count <= len(self.data), "a record passes its block's end")
        self.at += count
        return self.data[self.at - count : self.at]

    def number(self, count):
        return int.from_bytes(self.take(count), "big")

    def text(self):
        return self.take(self.number(4))

    def optional(self):
        return self.text() if self.number(1) else None

    def record(self):
        """The kind of the next record, its receipt and its bytes. Only the kinds that these clients cause are known."""
        start = self.at
        self.number(8)
        receipt, kind = self.optional(), self.number(1)
        if kind == 1:
            self.optional()
        elif kind == 2:
            self.text()
            check(self.number(2) == 0, "a SEND has headers that it was not given")
            self.text()
        elif kind == 3:
            self.text(), self.text(), self.number(1), self.optional()
        elif kind == 9:
            check(self.number(1) == 1, "a session ended otherwise than by a lost connection")
        else:
            raise Wrong(f"a record of kind {kind}")
        return kind, receipt, self.data[start : self.at]


class Journal:
    """The calls at a journal's file, taken one after the other."""

    def __init__(self, calls, path):
        opened = [call for call in calls if call.name == "openat" and path.encode() == call.data()]
        check(len(opened) == 1, "the file is not opened once: its lock is not that of what is read and written")
        self.file = opened[0].answer
        own = [call for call in calls if call.name != "openat" and call.descriptor() == self.file and call.begun > opened[0].begun]
        check(bool(own) and own[0].name == "flock", "the file is not locked before all else")
        check(own[0].answer == 0 and "LOCK_EX" in own[0].words, "the file's exclusive lock is not had")
        sizes = [call for call in own if call.name in ("fstat", "newfstatat", "statx")]
        check(bool(sizes) and sizes[0].begun > own[0].ended, "the file's size is not looked at after the lock")
        check(not any(call.name == "flock" for call in own[1:]), "the file's lock is taken again or given up")
        # What is read of it may come anywhere: before a write, and each second.
        names = ("pwrite64", "pwritev", "write", "writev", "fsync", "fdatasync", "ftruncate")
        self.calls = [call for call in own if call.name in names]
        self.at = 0

    def has_next(self, count=1):
        # A call under way when the server was killed has no answer.
        calls = self.calls[self.at : self.at + count]
        return len(calls) == count and calls[-1].ended is not None

    def next(self, what):
        check(self.has_next(), f"{what} is missing")
        call = self.calls[self.at]
        self.at += 1
        check(call.answer >= 0, f"{what}: {call.name} failed")
        return call

    def sync(self, what):
        call = self.next(what)
        check(call.name == "fdatasync", f"{what}: {call.name} in place of a sync")
        return call

    def write(self, what):
        call = self.next(what)
        check(call.name == "pwrite64", f"{what}: {call.name} in place of a write")
        data = call.data()
        check(call.answer == len(data), f"{what}: not written in one call")
        return call.place(), data


def start(journal, live, snapshot):
    """Checks a start: recovery's sync, the snapshot into the other area in one write or more, and the switch.
    Answers the call that ended it."""
    place, data = journal.write("the header")
    check(place == 17 and data == bytes(HEAD - 17), f"the header is written back as {data} at {place}")
    journal.sync("recovery's sync")
    front, idle = b"", HEAD + AREA * (1 - live)
    # The highest byte tells the second version.
    wanted = struct.pack(">Q", 2 << 56 | len(snapshot)) + snapshot + b"\0"
    while len(front) < len(wanted):
        place, data = journal.write("the snapshot")
        check(place == idle + len(front), f"the snapshot is written at {place}")
        front += data
    check(front == wanted, "another snapshot is written than that of the restart")
    journal.sync("the snapshot's sync")
    place, data = journal.write("the selector")
    check(place == 16 and len(data) == 1 and data[0] % 2 == 1 - live, f"the selector is written as {data} at {place}")
    return journal.sync("the selector's sync"), idle + 8 + len(snapshot)


def blocks(journal, gate):
    """The blocks after a gate: their records' bytes, and the call that ended each."""
    while journal.has_next():
        place, data = journal.write("a block")
        check(place == gate + 1, f"a block is written at {place} and not after its gate at {gate}")
        length = int.from_bytes(data[:8], "big")
        check(length > 0 and len(data) == 9 + length and data[-1] == 0, "a block is not its length, its records and a closed gate")
        if not journal.has_next(3):
            # The server was killed before the block's end: nobody may have heard of it.
            return
        journal.sync("a block's sync")
        check(journal.write("a gate") == (gate, b"\1"), "a gate is not opened by one byte")
        yield data[8:-1], journal.sync("a gate's sync")
        gate += 9 + length


def durable(journal, gate, count):
    """What stands in the blocks, in order: kind, receipt, bytes, number, and the line after which it is durable."""
    found = []
    for data, synced in blocks(journal, gate):
        reader = Reader(data)
        while reader.at < len(data):
            found.append((*reader.record(), count + len(found), synced.ended))
    return found


# The kinds of the records that these clients cause.
OPEN, SEND, SUBSCRIBE, END = 1, 2, 3, 9

# What a frame that leaves a socket says: of which command it is.
SPOKEN = re.compile(rb"(?:CONNECTED\n[^\0]*?session:(\d+)|RECEIPT\nreceipt-id:([^\n]+)|MESSAGE\n[^\0]*?message-id:(\d+)\.)")


def heard(calls, found, journal):
    """Checks that nothing left a socket before its command was durable, and answers how many frames did."""
    numbers = {number: line for _, _, _, number, line in found}
    receipts = {receipt: line for _, receipt, _, _, line in found if receipt is not None}
    count = 0
    for call in calls:
        if call.name not in ("write", "writev", "sendto", "sendmsg") or call.descriptor() in (1, 2, journal.file):
            continue
        for session, receipt, message in SPOKEN.findall(call.data()):
            line = receipts.get(receipt) if receipt else numbers.get(int(session or message))
            check(line is not None, f"{(session, receipt, message)} leaves, and its command is in no block")
            check(call.begun > line, f"{(session, receipt, message)} leaves before its command is durable")
            count += 1
    return count


def one_at_a_time(port):
    """A client that waits for each receipt. The records of what it asks for."""
    client = Client(port).connect()
    records = [OPEN_RECORD]
    for number in range(40):
        name, body = f"r{number}", "x" * number
        client.send("SEND", [("destination", "/queue/kept"), ("receipt", name)], body)
        client.receipt(name)
        records.append(send_record(0, name.encode(), b"/queue/kept", body.encode()))
    return records, client


def many_at_once(port):
    """Four clients in threads, with eight commands under way each. The receipts that they asked for."""

    def talk(place):
        client = Client(port).connect()
        client.send("SUBSCRIBE", [("id", "s"), ("destination", "/topic/room"), ("receipt", f"s{place}")])
        client.receipt(f"s{place}")
        for number in range(80):
            client.send("SEND", [("destination", "/topic/room"), ("receipt", f"m{place}-{number}")], "x")
            if number % 8 == 7:
                client.receipt(f"m{place}-{number}")
        time.sleep(0.5)
        client.close()

    threads = [threading.Thread(target=talk, args=(place,)) for place in range(4)]
    for thread in threads:
        thread.start()
    for thread in threads:
        thread.join()
    return {f"s{place}".encode() for place in range(4)} | {f"m{place}-{n}".encode() for place in range(4) for n in range(80)}


def frames_for(found):
    """How many frames these commands ask for: one for each session and receipt, and one of each SEND for each subscription before it, as long as
    that has its session."""
    frames, listeners = 0, collections.Counter()
    for kind, receipt, data, _, _ in found:
        session = int.from_bytes(data[:8], "big")
        frames += (kind == OPEN) + (receipt is not None)
        if kind == SUBSCRIBE:
            listeners[session] += 1
        elif kind == SEND:
            frames += sum(listeners.values())
        elif kind == END:
            del listeners[session]
    return frames


def held_state(count, messages):
    """The snapshot of so many commands, and these messages in a queue; no session, no subscription."""
    line = b"".join(
        struct.pack(">QI", number, 0) + text(b"/queue/kept") + struct.pack(">H", 0) + text(body) for number, body in messages
    )
    queue = struct.pack(">I", 1) + text(b"/queue/kept") + struct.pack(">I", len(messages)) + line
    return struct.pack(">QQII", count, 0, 0, 0) + queue + struct.pack(">I", 0)


def listens_after(calls, ended):
    for call in calls:
        if call.name == "write" and call.descriptor() == 1:
            check(call.begun > ended.ended, "it says that it listens before its journal is open")
            return
    raise Wrong("it does not say that it listens")


def sends_at_once(calls):
    """Each client's socket sends small packets at once, from before its first bytes on."""
    came = {call.answer: call for call in calls if call.name in ("accept", "accept4") and call.answer is not None and call.answer >= 0}
    check(came, "nobody came")
    for number, call in came.items():
        set_so = [it for it in calls if it.name == "setsockopt" and it.descriptor() == number and "TCP_NODELAY, [1]" in it.words and it.begun > call.ended]
        check(set_so, f"small packets of the socket {number} wait")
        written = [it.begun for it in calls if it.name in ("write", "writev", "sendto", "sendmsg") and it.descriptor() == number and it.begun > call.ended]
        check(not written or set_so[0].begun < min(written), f"small packets of the socket {number} wait at first")


def first_run(program, folder, path):
    """An empty journal, and a client that waits for each receipt."""
    trace = folder / "first.trace"
    server = Broker(program, path, before=strace(trace, CALLS, has_texts=True))
    records, client = one_at_a_time(server.port)
    server.kill()
    client.close()
    calls = calls_of(trace)
    journal = Journal(calls, path)
    ended, gate = start(journal, 0, bytes(32))
    listens_after(calls, ended)
    sends_at_once(calls)
    found = durable(journal, gate, 0)
    count = heard(calls, found, journal)
    check([data for _, _, data, _, _ in found] == records, "the blocks hold other records than what the client asked for")
    lines = [line for *_, line in found]
    check(len(set(lines)) == len(lines), "two commands of a client that waits stand in one block")
    check(count == len(records), f"{count} frames left for {len(records)} commands")
    print(f"trace_serve: a start, {len(records)} commands of a client that waits, each a block of its own")


def looks(calls, path, seconds):
    """Checks that the path is looked up seldom, since only its folder's time is compared at each sync."""
    syncs = sum(call.name == "fdatasync" for call in calls)
    found = sum(call.name in ("newfstatat", "statx") and call.data() == path.encode() for call in calls)
    most = syncs // 64 + seconds + 3
    check(found <= most, f"the path was looked up {found} times at {syncs} syncs in {seconds:.1f} s")


def second_run(program, folder, path):
    """The journal with 40 messages held, and four clients at once."""
    trace = folder / "second.trace"
    began = time.monotonic()
    server = Broker(program, path, before=strace(trace, CALLS, has_texts=True))
    asked = many_at_once(server.port)
    server.kill()
    calls = calls_of(trace)
    looks(calls, path, time.monotonic() - began)
    journal = Journal(calls, path)
    messages = [(1 + number, b"x" * number) for number in range(40)]
    ended, gate = start(journal, 1, held_state(41, messages))
    listens_after(calls, ended)
    found = durable(journal, gate, 41)
    frames = heard(calls, found, journal)
    receipts = [receipt for _, receipt, *_ in found if receipt is not None]
    check(sorted(receipts) == sorted(asked), "the blocks hold other commands than what the clients asked for")
    wanted = frames_for(found)
    check(frames == wanted, f"{frames} frames left, and not {wanted}")
    count = len({line for *_, line in found})
    print(f"trace_serve: a start with 40 messages held, {len(found)} commands of four clients in {count} blocks, {frames} frames after them")


def main():
    program = program_of(__doc__)
    need_strace()
    with tempfile.TemporaryDirectory() as name:
        folder = pathlib.Path(name)
        path = make_journal(program, str(folder / "journal"), HEAD + 2 * AREA)
        try:
            first_run(program, folder, path)
            second_run(program, folder, path)
        except Wrong as wrong:
            sys.exit(f"trace_serve: {wrong}")
    print("trace_serve: ok")


if __name__ == "__main__":
    main()
