#!/usr/bin/env python3
"""Measures the built program `stompd script`, and compares it with a plain Rust reader. README.md says what each figure means.

    python3 bench/run.py [PROGRAM] [--runs N] [--broker]

PROGRAM is the built program; without it, the one that bin/stompd leaves in crates/stompd/out. Inputs and outputs are made
in a temporary folder. Every output is compared with what the protocol says that it is.
"""

import os
import pathlib
import shutil
import statistics
import subprocess
import sys
import tempfile
import threading
import time

from measuring import AREA, BLOCK, CONNECT_RECORD, FRONT, HERE, MB, MOST_SECONDS, Times, arguments, machine, parsed, rounds, run, send_record

LONGEST_LINE = 1_048_576

TOPIC = b"/topic/bench"
CONNECT = b"CONNECT\naccept-version:1.2\n\n\0"
LAST = b"SEND\ndestination:/topic/bench\nreceipt:last\n\nend\0"
LAST_RECORD = send_record(TOPIC, (), b"end", b"last")


def show(data):
    """Bytes as the text of a script."""
    plain = range(0x20, 0x7F)
    return b"".join(b"%c" % o if o in plain and o != 0x25 else b"%%%02X" % o for o in data)


def connected(session):
    return b"0 CONNECTED%%0Aversion:1.2%%0Asession:%d%%0Aheart-beat:0,0%%0A%%0A%%00\n" % session


def receipt(name):
    return b"0 RECEIPT%0Areceipt-id:" + name + b"%0A%0A%00\n"


def small_frame(number):
    """A SEND of 100 bytes to a topic, and the bytes of its record."""
    head = b"SEND\ndestination:/topic/bench\ncontent-type:text/plain\n\n"
    body = b"message %d " % number
    body += b"x" * (100 - len(head) - len(body) - 1)
    return head + body + b"\0", send_record(TOPIC, [(b"content-type", b"text/plain")], body)


def large_frame(number):
    """A SEND to a topic with 60,000 letters announced, and the bytes of its record."""
    head = b"SEND\ndestination:/topic/bench\ncontent-length:60000\n\n"
    body = bytes([97 + number % 26]) * 60_000
    return head + body + b"\0", send_record(TOPIC, (), body)


class Part:
    """Whole frames, as lines of a script and as a stream."""

    def __init__(self):
        self.text, self.stream, self.frames, self.room = [], [], 0, 0

    def add(self, text, frame, record):
        self.text.append(text)
        self.stream.append(frame)
        self.frames += 1
        self.room += record + BLOCK


class Input:
    """A script of SENDs between a CONNECT and a SEND with a receipt, the stream of its bytes, and what it prints.

    The journal is opened again before a part that might not fit into its area any more, and the connection begins anew.
    `piece` is in which pieces the plain reader gets the stream."""

    def __init__(self, folder, name, piece=65_536):
        self.name = name
        self.piece = piece
        self.script = folder / (name + ".script")
        self.stream = folder / (name + ".stream")
        self.text, self.data, self.printed = [], [], []
        self.frames = self.commands = self.used = 0

    def begin(self):
        """Begins with an area that has nothing but its front."""
        self.text.append(b"0 " + show(CONNECT) + b"\nflush\n")
        self.data.append(CONNECT)
        self.printed.append(connected(self.commands))
        self.frames, self.commands = self.frames + 1, self.commands + 1
        self.used = FRONT + CONNECT_RECORD + LAST_RECORD + 2 * BLOCK

    def add(self, part):
        if self.used + part.room > AREA:
            self.text.append(b"flush\nopen\n")
            self.printed.append(b"open %d 0\n" % self.commands)
            self.begin()
        self.text += part.text
        self.data += part.stream
        self.frames, self.commands = self.frames + part.frames, self.commands + part.frames
        self.used += part.room

    def end(self):
        self.script.write_bytes(b"".join(self.text) + b"0 " + show(LAST) + b"\nflush\n")
        self.stream.write_bytes(b"".join(self.data) + LAST)
        self.frames += 1
        self.expected = b"".join(self.printed) + receipt(b"last")
        self.text = self.data = self.printed = None
        return self

    def megabytes(self):
        return self.script.stat().st_size / MB

    def stream_megabytes(self):
        return self.stream.stat().st_size / MB


def whole_frames(folder, name, make_frame, size, longest=LONGEST_LINE):
    """A script of about so many bytes, with as many whole frames on a line as it takes."""
    made, part, length, number, total = Input(folder, name), Part(), 2, 0, 0
    made.begin()
    while total < size:
        frame, record = make_frame(number)
        shown = show(frame) if len(frame) < 1_000 else show(frame[:100]) + frame[100:-1] + b"%00"
        # A line and an area end before what they have no room for.
        if length + len(shown) > longest or FRONT + 200 + part.room + record + BLOCK > AREA:
            part.text = [b"0 ", *part.text, b"\n"]
            made.add(part)
            part, length = Part(), 2
        part.add(shown, frame, record)
        length += len(shown)
        total += len(shown)
        number += 1
    part.text = [b"0 ", *part.text, b"\n"]
    made.add(part)
    return made.end()


def single_bytes(folder, name, size):
    """A script of about so many bytes, with one byte of the stream on a line."""
    shown = [b"0 " + show(bytes([byte])) + b"\n" for byte in range(256)]
    made, number, total = Input(folder, name, piece=1), 0, 0
    made.begin()
    while total < size:
        part = Part()
        frame, record = small_frame(number)
        part.add(b"".join(shown[byte] for byte in frame), frame, record)
        made.add(part)
        total += len(part.text[0])
        number += 1
    return made.end()


def measure(bench, case, is_compared):
    """Runs the program on an input, and the plain reader in turn with it where it is compared."""
    program, plain, raw = Times(), Times(), Times()
    for _ in rounds(bench.runs):
        if run([bench.program, "script"], case.script, program, bench.output) != case.expected:
            sys.exit(f"{case.name}: the program printed something else than expected")
        if not is_compared:
            continue
        for words, path, times in ((["script"], case.script, plain), (["raw", str(case.piece)], case.stream, raw)):
            said = run([bench.plain, *words], path, times, bench.output)
            if not said.startswith(b"%d frames," % case.frames):
                sys.exit(f"{case.name}: the plain reader found {said.decode()}")
    return case, program, plain, raw


def tell_speed(text, size, times, start=None):
    """Tells a speed; less what the program takes on an empty script, where that is given."""
    wall, cpu = (start.best(), min(start.cpu)) if start else (0, 0)
    print(
        f"  {text:<42} {size / (times.best() - wall):8.1f} MB/s best {size / (times.median() - wall):8.1f} median"
        f"   cpu {(min(times.cpu) - cpu) / size * 1000:8.2f} ns/byte"
    )


def tell_ratio(text, program, plain):
    by_wall, by_cpu = plain.best() / program.best(), min(plain.cpu) / min(program.cpu)
    print(f"  {text:<42} {by_wall:8.2f} by time {by_cpu:10.2f} by cpu")


def start_times(bench, folder):
    """What the program takes on an empty script."""
    empty, times = folder / "empty.script", Times()
    empty.write_bytes(b"")
    for _ in rounds(4 * bench.runs):
        run([bench.program, "script"], empty, times, bench.output)
    return times


def speeds(bench, folder):
    compared = (
        ("small frames", whole_frames(folder, "small-50", small_frame, 50 * MB)),
        ("large bodies", whole_frames(folder, "large-50", large_frame, 50 * MB)),
        ("one byte a piece", single_bytes(folder, "single-5", 5 * MB - 200)),
    )
    others = (
        ("SENDs of 100 bytes, lines of 1 MB, 10 MB", whole_frames(folder, "small-10", small_frame, 10 * MB)),
        ("SENDs of 100 bytes, lines of 1 MB, 1 MB", whole_frames(folder, "small-1", small_frame, MB)),
        ("the same, lines of 20,000 bytes, 50 MB", whole_frames(folder, "short-50", small_frame, 50 * MB, 20_000)),
        ("the same, lines of 20,000 bytes, 1 MB", whole_frames(folder, "short-1", small_frame, MB, 20_000)),
        ("the same, one byte a line, 1 MB", single_bytes(folder, "single-1", MB)),
    )
    measured = {text: measure(bench, case, bench.plain is not None) for text, case in compared}
    small, large, single = measured.values()
    rest = [(text, measure(bench, case, False)) for text, case in others]
    start = start_times(bench, folder)
    print(f"start, an empty script: {start.best() * 1000:.2f} ms best, {start.median() * 1000:.2f} median")
    print("stompd script, MB of script, less the start:")
    shown = [("SENDs of 100 bytes, lines of 1 MB, 50 MB", small), *rest[:4]]
    shown += [("the same, one byte a line, 5 MB", single), *rest[4:], ("bodies of 60,000 bytes, 50 MB", large)]
    for text, (case, program, _, _) in shown:
        tell_speed(text, case.megabytes(), program, start)
    case, program, _, _ = small
    print(f"  {'frames a second of the first':<42} {case.frames / program.best():8.0f} best {case.frames / program.median():8.0f} median")
    if bench.plain:
        tell_plain(measured)


def tell_plain(measured):
    print("plain reader on the same scripts, MB of script:")
    for text, (case, _, plain, _) in measured.items():
        tell_speed(text, case.megabytes(), plain)
    print("plain reader on the bytes alone, in pieces of 65,536 or of one, MB of stream:")
    for text, (case, _, _, raw) in measured.items():
        tell_speed(text, case.stream_megabytes(), raw)
    print("speed of stompd script as a part of the plain reader's on the same script:")
    for text, (_, program, plain, _) in measured.items():
        tell_ratio(text, program, plain)


COMMANDS = 200_000
WINDOW = 10_000
FLUSH_EVERY = 8


def commands_script(folder):
    """A script of SENDs with receipts to a topic where nobody listens, what it prints, and how many lines are printed once
    so many receipts are. The journal is opened again after each 10,000, so that its area has room."""
    lines, expected, printed, last = [], [], {}, 0
    for number in range(COMMANDS):
        if number % WINDOW == 0:
            # A CONNECT for each time that the connection began.
            count = number + number // WINDOW
            lines += [b"open\n"] if number else []
            expected += [b"open %d 0\n" % count] if number else []
            lines.append(b"0 " + show(CONNECT) + b"\nflush\n")
            expected.append(connected(count))
        lines.append(b"0 SEND%%0Adestination:/topic/bench%%0Areceipt:r%d%%0A%%0Amessage %d%%00\n" % (number, number))
        if (number + 1) % FLUSH_EVERY == 0:
            lines.append(b"flush\n")
        expected.append(receipt(b"r%d" % number))
        printed[number + 1] = len(expected)
    script = folder / "commands.script"
    script.write_bytes(b"".join(lines))
    return script, b"".join(expected), printed


def run_commands(bench, script, expected, marks):
    """Runs the script, and answers when as many lines had come as each mark says, counted from the start."""
    with open(script, "rb") as source:
        start = time.perf_counter()
        child = subprocess.Popen([bench.program, "script"], stdin=source, stdout=subprocess.PIPE)
    watch = threading.Timer(MOST_SECONDS, child.kill)
    watch.start()
    printed, count, waiting, reached = [], 0, list(marks), {}
    while block := os.read(child.stdout.fileno(), 65_536):
        now = time.perf_counter() - start
        printed.append(block)
        count += block.count(b"\n")
        while waiting and count >= waiting[0]:
            reached[waiting.pop(0)] = now
    child.stdout.close()
    status = child.wait()
    watch.cancel()
    if status != 0 or b"".join(printed) != expected:
        sys.exit(f"commands: status {status}, or something else was printed than expected")
    return reached


def commands(bench, folder):
    script, expected, printed = commands_script(folder)
    windows = [held for held in (1_000, 10_000, 100_000, 190_000) if held + WINDOW <= COMMANDS]
    marks = sorted({printed[held] for held in (*windows, *(held + WINDOW for held in windows), COMMANDS)})
    found = [run_commands(bench, script, expected, marks) for _ in rounds(bench.runs)]
    whole = [reached[printed[COMMANDS]] for reached in found]
    print(f"commands: {COMMANDS:,} SENDs with receipt to a topic, one a line, a flush every {FLUSH_EVERY}, an open every {WINDOW:,}:")
    print(f"  {'commands a second':<42} {COMMANDS / min(whole):8.0f} best {COMMANDS / statistics.median(whole):8.0f} median")
    for held in windows:
        costs = [(reached[printed[held + WINDOW]] - reached[printed[held]]) / WINDOW * 1e6 for reached in found]
        print(f"  {f'a command, {held:,} to {held + WINDOW:,} before':<42} {min(costs):8.2f} us best   {statistics.median(costs):8.2f} median")


class Talk:
    """A script of whole frames, one on a line, and what it prints. Every frame that asks the broker for something has the
    next command number; BEGIN and the members of a transaction ask it for nothing."""

    def __init__(self, connections=1):
        self.lines, self.printed, self.number = [], [], 0
        for connection in range(connections):
            self.say(connection, "CONNECT%0Aaccept-version:1.2%0A%0A%00")
            self.hear(connection, f"CONNECTED%0Aversion:1.2%0Asession:{connection}%0Aheart-beat:0,0%0A%0A%00")

    def say(self, connection, text, commands=1):
        self.lines.append(f"{connection} {text}\n")
        self.number += commands

    def hear(self, connection, text):
        self.printed.append(f"{connection} {text}\n")

    def subscribe(self, connection, destination, mode):
        self.say(connection, f"SUBSCRIBE%0Aid:s%0Adestination:{destination}%0Aack:{mode}%0A%0A%00")

    def send(self, connection, destination):
        self.say(connection, f"SEND%0Adestination:{destination}%0A%0Ax%00")

    def message(self, connection, destination, number, ack=""):
        self.hear(connection, f"MESSAGE%0Asubscription:s%0Amessage-id:{number}.0%0Adestination:{destination}{ack}%0Acontent-length:1%0A%0Ax%00")


def sends(turns):
    """SENDs to a topic where nobody listens."""
    talk = Talk()
    for _ in range(turns):
        talk.send(0, "/topic/t")
    return talk


def deliveries(turns, held):
    """SENDs to a queue whose subscriber takes each at once, beside a queue that holds so many."""
    talk = Talk()
    for _ in range(held):
        talk.send(0, "/queue/held")
    talk.subscribe(0, "/queue/q", "auto")
    for _ in range(turns):
        talk.message(0, "/queue/q", talk.number)
        talk.send(0, "/queue/q")
    return talk


def acknowledgements(turns, held):
    """A subscriber with 16 unacknowledged messages and so many more in the queue: in each round a SEND, and an ACK, which
    has the next message handed out."""
    talk = Talk()
    talk.subscribe(0, "/queue/q", "client-individual")
    first = talk.number
    for place in range(held + 16):
        if place < 16:
            talk.message(0, "/queue/q", first + place, f"%0Aack:{place}")
        talk.send(0, "/queue/q")
    numbers = list(range(first, talk.number))
    for number in range(turns):
        numbers.append(talk.number)
        talk.send(0, "/queue/q")
        talk.say(0, f"ACK%0Aid:{number}%0A%0A%00")
        talk.message(0, "/queue/q", numbers[number + 16], f"%0Aack:{number + 16}")
    return talk


def transactions(turns):
    """Transactions of four SENDs to a topic where nobody listens, each with a receipt of its COMMIT."""
    talk = Talk()
    for number in range(turns):
        talk.say(0, "BEGIN%0Atransaction:t%0A%0A%00", 0)
        for _ in range(4):
            talk.say(0, "SEND%0Adestination:/topic/t%0Atransaction:t%0A%0Ax%00", 0)
        talk.say(0, f"COMMIT%0Atransaction:t%0Areceipt:r{number}%0A%0A%00")
        talk.hear(0, f"RECEIPT%0Areceipt-id:r{number}%0A%0A%00")
    return talk


def fan_out(turns, subscribers):
    """SENDs to a topic with so many subscribers, each on a connection of its own."""
    talk = Talk(subscribers)
    for connection in range(subscribers):
        talk.subscribe(connection, "/topic/t", "auto")
    for _ in range(turns):
        for place in range(subscribers):
            talk.message(place, "/topic/t", talk.number)
        talk.send(0, "/topic/t")
    return talk


OUT = 16 * 16


def session_ends(turns, waiting):
    """Sessions that end with 256 deliveries out, 16 of each of 16 subscriptions of a queue, where so many messages more
    wait: in each round one connects, subscribes and is gone, and its messages go back to the front of the line."""
    talk, delivery = Talk(), 0
    first = talk.number
    for _ in range(OUT + waiting):
        talk.send(0, "/queue/q")
    for _ in range(turns):
        talk.hear(1, f"CONNECTED%0Aversion:1.2%0Asession:{talk.number}%0Aheart-beat:0,0%0A%0A%00")
        talk.say(1, "CONNECT%0Aaccept-version:1.2%0A%0A%00")
        for place in range(OUT):
            subscription, nth = divmod(place, 16)
            if nth == 0:
                talk.say(1, f"SUBSCRIBE%0Aid:s{subscription}%0Adestination:/queue/q%0Aack:client%0A%0A%00")
            talk.hear(
                1,
                f"MESSAGE%0Asubscription:s{subscription}%0Amessage-id:{first + place}.0%0Adestination:/queue/q"
                f"%0Aack:{delivery}%0Acontent-length:1%0A%0Ax%00",
            )
            delivery += 1
        talk.lines.append("lost 1\n")
        talk.number += 1
    return talk


def seconds_of(bench, folder, talk):
    """The least time that the program takes for a talk."""
    script, times = folder / "talk.script", Times()
    script.write_text("".join([*talk.lines, "flush\n"]), encoding="ascii")
    expected = "".join(talk.printed).encode("ascii")
    for _ in rounds(bench.runs):
        if run([bench.program, "script"], script, times, bench.output) != expected:
            sys.exit("deliveries: the program printed something else than expected")
    return times.best()


# As many as the area of a script's journal has room for.
ROUNDS = 8_000
ENDS = 200


def cost(bench, folder, make, *words, turns=ROUNDS):
    """What a round costs: the time for so many, less that for none, by their number."""
    return (seconds_of(bench, folder, make(turns, *words)) - seconds_of(bench, folder, make(0, *words))) / turns


def broker(bench, folder):
    print(f"the broker, {ROUNDS:,} rounds each:")
    for text, commands, make, words in (
        ("SENDs", 1, sends, ()),
        ("SENDs, each delivered at once", 1, deliveries, (0,)),
        ("SENDs and ACKs, client-individual", 2, acknowledgements, (40,)),
        ("BEGIN, four SENDs and COMMIT, frames", 6, transactions, ()),
    ):
        print(f"  {text:<42} {commands / cost(bench, folder, make, *words):8.0f} a second")
    for text, make in (("SEND and its delivery", deliveries), ("SEND, ACK and the next delivery", acknowledgements)):
        few, many = (cost(bench, folder, make, held) for held in (40, 4_000))
        print(f"  {text:<42} {few * 1e6:8.2f} us with 40 held {many * 1e6:8.2f} with 4,000   ratio {many / few:.2f}")
    # With 256 out, 3,744 more are 4,000 held: a session's end puts 256 back, whatever waits behind them.
    few, many = (cost(bench, folder, session_ends, waiting, turns=ENDS) for waiting in (40, 4_000 - OUT))
    print(f"  {'a session with 256 deliveries out, and its end':<42} {few * 1e6:8.2f} us with 40 waiting {many * 1e6:8.2f} with 3,744   ratio {many / few:.2f}")
    for subscribers in (1, 4, 16):
        each = cost(bench, folder, fan_out, subscribers) / subscribers
        print(f"  {f'a MESSAGE of a topic to {subscribers}':<42} {each * 1e6:8.2f} us")


def build_plain(folder):
    """The plain reader, where there is a Rust compiler."""
    if not shutil.which("rustc"):
        print("no rustc here: the plain reader is left out")
        return None
    built = folder / "plain_reader"
    subprocess.run(["rustc", "--edition", "2024", "-O", HERE / "plain_reader.rs", "-o", built], check=True)
    return built


class Bench:
    def __init__(self, program, runs, folder):
        self.program = program
        self.runs = runs
        self.output = folder / "output"
        self.plain = build_plain(folder)


def main():
    parser = arguments("Measures stompd script.")
    parser.add_argument("--broker", action="store_true", help="measure the broker alone")
    words = parsed(parser)
    print(machine())
    with tempfile.TemporaryDirectory() as folder:
        bench = Bench(words.program, words.runs, pathlib.Path(folder))
        if not words.broker:
            speeds(bench, pathlib.Path(folder))
            commands(bench, pathlib.Path(folder))
        broker(bench, pathlib.Path(folder))
    print(machine())


if __name__ == "__main__":
    main()
