#!/usr/bin/env python3
"""Has single calls of the system fail under the built program, and compares what it tells and leaves then with what
docs/CLI.md and docs/JOURNAL.md say. No contract can know what the system answers of a real file. Needs strace and
Python 3 alone; the gate does not run it.

    python3 tests/program/failing_disk.py [PROGRAM]

- If a write or a sync of `stompd format` fails, it ends with status 1 and one line, and the file is gone again. If the
  file system has no room for its zeros, the line says so.
- The folder of a new file is synced last, and `show`, `held` and `sessions` open a journal for reading only.
- If its name becomes a link while it is made, what that leads to stays as it is. So does a file that takes its name meanwhile. A limit on the
  size of files is told, and a file system without hard links.
- If a read of `stompd show` fails, it is `J3 device failed`, and nothing is printed.
- If `stompd serve` has no memory to open its file, or the disk is full while it opens its journal, it says that. start_calls.py has each other call of a
  start fail.
- While it opens its journal it says each second for how long.
- If the header changes between the reading and the first sync, nothing is written back.
- If no thread starts that a start needs, or a read of standard input fails, the server ends. A client whose socket can't be watched is closed, and takes
  no place.
- A compaction that a slow disk makes slow is logged with the time that it took.
- If one of a block's fails, the server ends so, and the block's command gets no receipt; the commands before it are in
  the journal.
- If its file is removed and no time of its folder says so, or a block is overwritten before its gate opens, the server ends. replaced_journal.py loses
  files in other ways.
- If a block's sync fails after half a second, in which a client has asked for more than its window lets in, that client
  hears 1001: its worker, which sleeps until the mark rises, is woken.
"""

import contextlib
import os
import pathlib
import re
import resource
import signal
import socket
import subprocess
import sys
import tempfile
import time

from lib.commands import run_for_text
from lib.scenario import BriefChecks, Broker, Unserved, make_journal, program_of
from lib.stomp_client import Client, Refused, WebSocket
from lib.tracing import PAGE, need_strace, strace, text_of

# Areas of 4,096 bytes.
SMALLEST = 8_224
DEVICE_FAILED = "stompd: J3 device failed\n"
# Of a server it says why.
FAILED = "stompd: J3 device failed: {}\n"
INPUT_OUTPUT, OVERWRITTEN = FAILED.format("input/output error"), FAILED.format("the file was overwritten")
CANNOT_OPEN = "stompd: cannot open: FILE: the system refuses it\n"
NO_LINKS = "stompd: cannot open: FILE: there are no hard links here; make it elsewhere, and move it\n"
FOREIGN = "stompd: cannot open: FILE.new: it is there, and no unfinished journal; rename or remove it\n"
NO_SPACE = "stompd: no space left for the file\n"
TOO_LARGE = "stompd: cannot open: FILE: no file may be so large here\n"


def eio(call, number, more=""):
    return f"{call}:error=EIO{more}:when={number}"


class Checks(BriefChecks):
    def path(self, name):
        return str(self.folder / name)

    def make(self, name):
        return make_journal(self.program, self.path(name), SMALLEST)

    def trace(self):
        return text_of(self.path("trace"))

    def before(self, calls, *injected, path=None):
        return strace(self.path("trace"), calls, *injected, path=path)

    def run(self, before, *words, **how):
        return run_for_text(*before, self.program, *words, **how)

    def was_injected(self, what):
        self.same(f"{what}: calls that failed", self.trace().count("(INJECTED)"), 1)

    def fails(self, what, before, words, told):
        """It ends so, since one of its calls has failed."""
        self.same(what, self.run(before, *words), (1, "", told))
        self.was_injected(what)

    def makes_none(self, what, before, words, told):
        """The same of `format`, after which there is no file."""
        path = self.path("made")
        self.fails(what, before, ["format", *words[:-1], path, words[-1]], told.replace("FILE", path))
        self.same(f"{what}: what is there", [it for it in (path, path + ".new") if os.path.exists(it)], [])

    @contextlib.contextmanager
    def serving(self, path, before=(), **options):
        server = Broker(self.program, path, before=before, **options)
        try:
            yield server
        finally:
            server.kill()

    def starts_in_vain(self, what, path, before, told, **options):
        """A server ends so in place of listening."""
        try:
            with self.serving(path, before, **options):
                seen = "it listens"
        except Unserved as fault:
            seen = fault.status, last_line(fault.told)
        self.same(what, seen, (1, told))

    def ends(self, what, server, told):
        """A server that runs ends so, by itself."""
        status = server.await_end(60)
        self.same(what, (status, last_line(server.text())), (1, told))


def last_line(text):
    """What a server told last: before that it has told its start."""
    return (text.splitlines(keepends=True) or [""])[-1]


def await_that(holds):
    deadline = time.monotonic() + 30
    while not holds():
        if time.monotonic() > deadline:
            raise RuntimeError("it does not come")
        time.sleep(0.01)


def formatting(checks):
    """A new file is locked and sized under another name; its zeros are written, unless it is to be sparse; then header, front and name are written,
    each synced. It is linked to its own name, which is synced with the folder."""
    cases = [("flock", 1, CANNOT_OPEN), ("ftruncate", 1, CANNOT_OPEN), ("fsync", 1, CANNOT_OPEN), ("link,linkat", 1, CANNOT_OPEN), ("fsync", 2, CANNOT_OPEN)]
    cases += [(call, number, DEVICE_FAILED) for call, most in (("pwrite64", 4), ("fdatasync", 3)) for number in range(1, most + 1)]
    for option, further in (((), [("pwrite64", 5, DEVICE_FAILED)]), (("--sparse",), [])):
        for call, number, text in cases + further:
            checks.makes_none(f"format {option} without {call} {number}", checks.before(call, eio(call, number)), [*option, SMALLEST], text)


def naming(checks):
    """The folder that gets a new file is synced last, and `show` opens a journal for reading alone."""
    path = checks.path("opened")
    for name, where in ((path, "/"), ("bare", checks.folder)):
        checks.run([*checks.before("fsync"), "-y"], "format", name, SMALLEST, cwd=where)
        synced = re.findall(r"fsync\(\d+<([^>]*)>\) += 0", checks.trace())
        checks.same(f"what is synced last of {name}", synced[-1:], [os.path.realpath(checks.folder)])
    for subcommand in ("show", "held", "sessions"):
        checks.same(f"{subcommand} opens a journal", checks.run(checks.before("open,openat", path=path), subcommand, path)[0], 0)
        opened = re.findall(r"O_(?:RDONLY|WRONLY|RDWR)", checks.trace())
        checks.same(f"how {subcommand} opens a journal", set(opened), {"O_RDONLY"})


@contextlib.contextmanager
def formatting_slowly(checks, path, told):
    """A `format` that rests at its first sync: FILE.new is there, and FILE isn't yet."""
    words = [*checks.before("fsync", "fsync:delay_enter=500000:when=1"), checks.program, "format", path, str(SMALLEST)]
    made = subprocess.Popen(words, stdout=subprocess.PIPE, stderr=subprocess.PIPE)
    await_that(lambda: os.path.exists(path + ".new"))
    yield
    _, errors = made.communicate(timeout=60)
    checks.same(f"{path} is meddled with", (made.returncode, errors.decode()), (1, told.replace("FILE", path)))


def linking(checks):
    """A file system without hard links is told, and a file that took the name meanwhile stays."""
    for error in ("EPERM", "EOPNOTSUPP", "ENOSYS", "EMLINK"):
        checks.makes_none(f"format with {error} at its link", checks.before("link,linkat", f"link,linkat:error={error}"), [SMALLEST], NO_LINKS)
    path = checks.path("taken")
    with formatting_slowly(checks, path, "stompd: cannot open: FILE: it is there already\n"):
        pathlib.Path(path).write_bytes(b"mine")
    checks.same("a name that is taken meanwhile: what is there", (pathlib.Path(path).read_bytes(), os.path.exists(path + ".new")), (b"mine", False))


def swapping(checks):
    """A file that is being made loses the name under which it is made to a link to another file, which stays as it is."""
    path, other = checks.path("swapped"), pathlib.Path(checks.path("other"))
    other.write_bytes(b"x" * PAGE)
    with formatting_slowly(checks, path, FOREIGN):
        os.rename(path + ".new", path + ".away")
        os.symlink(other, path + ".new")
    checks.same("a link in a new file's place: what it leads to", other.read_bytes() == b"x" * PAGE, True)
    checks.same("a link in a new file's place: it stays", (os.path.islink(path + ".new"), os.path.lexists(path)), (True, False))


def filling(checks):
    """Of a file of 1 MiB and some bytes, 16 whole pieces of zeros are written and a last one. The first has no room, or the ninth."""
    size = 1_048_576 + 32
    for error, text in (("ENOSPC", NO_SPACE), ("EDQUOT", NO_SPACE), ("EIO", DEVICE_FAILED)):
        for number in (1, 9, 17):
            before = checks.before("pwrite64", f"pwrite64:error={error}:when={number}", path=checks.path("made.new"))
            checks.makes_none(f"format with {error} at piece {number}", before, [size], text)
    path, sparse = checks.path("filled"), checks.path("sparse")
    checks.same("a format with room", checks.run([], "format", path, size), (0, "", ""))
    checks.same("its room is there", os.stat(path).st_blocks * 512 >= size, True)
    checks.same("a sparse format", checks.run([], "format", "--sparse", sparse, size), (0, "", ""))
    checks.same("takes less room", os.stat(sparse).st_blocks < os.stat(path).st_blocks, True)


def progress(checks):
    """A file of 64 MiB is told of while its zeros are written, a line a second at most, and a smaller one is not."""
    lines = []
    for size in (67_108_864, 67_108_863):
        path, start = checks.path(f"large-{size}"), time.monotonic()
        status, output, errors = checks.run(checks.before("pwrite64", "pwrite64:delay_enter=20000", path=path + ".new"), "format", path, size)
        checks.same(f"format of {size} bytes, slowly", (status, output), (0, ""))
        lines.append(errors.splitlines())
        told = [re.fullmatch(r"stompd: ([0-9]+) of 64 MiB are written", line) for line in lines[-1]]
        parts = [int(it[1]) for it in told if it]
        fits = len(parts) == len(told) and parts == sorted(set(parts)) and all(it <= 64 for it in parts)
        checks.same(f"{size} bytes: what is told", fits and len(lines[-1]) <= time.monotonic() - start, True)
        os.remove(path)
    checks.same("the large one is told of, the smaller is not", (len(lines[0]) > 2, lines[1]), (True, []))


def limiting(checks):
    """A limit on the size of files is told, with the signal for it ignored and not, and nothing is left."""
    for handler in (signal.SIG_IGN, signal.SIG_DFL):
        for option in ((), ("--sparse",)):
            what, path = f"format {option} over the limit, with {handler.name}", checks.path("limited")
            limited = lambda: (signal.signal(signal.SIGXFSZ, handler), resource.setrlimit(resource.RLIMIT_FSIZE, (PAGE, PAGE)))
            seen = checks.run([], "format", *option, path, SMALLEST, preexec_fn=limited, restore_signals=False)
            checks.same(what, seen, (1, "", TOO_LARGE.replace("FILE", path)))
            checks.same(f"{what}: the file is there", os.path.exists(path), False)


def showing(checks):
    """Each read of the file fails in turn. They are counted among all: a loader may read other files before."""
    path = checks.make("shown")
    checks.run([*checks.before("pread64"), "-y"], "show", path)
    calls = [line for line in checks.trace().splitlines() if "pread64(" in line]
    numbers = [number for number, line in enumerate(calls, 1) if f"<{path}>" in line]
    checks.same("show reads the file", bool(numbers), True)
    for number in numbers:
        checks.fails(f"show without pread64 {number}", checks.before("pread64", eio("pread64", number)), ["show", path], DEVICE_FAILED)


def held_streams(checks):
    """Without `/dev/null` in the places of standard streams nothing else is opened."""
    path = checks.make("held-streams")
    before = pathlib.Path(path).read_bytes()
    for number in (1, 2, 3):
        for words in (("show", path), ("serve", path, 8080)):
            refused = checks.before("openat", f"openat:error=EACCES:when={number}", path="/dev/null")
            checks.fails(f"{words[0]} without /dev/null {number}", refused, words, "stompd: cannot open: /dev/null: permission denied\n")
    checks.same("without /dev/null: the file is as it was", pathlib.Path(path).read_bytes() == before, True)


def opening(checks):
    """What is told of a start that has no memory, or no room."""
    path = checks.make("starting")
    checks.starts_in_vain("serve without memory to open it", path, checks.before("openat", "openat:error=ENOMEM", path=path), "stompd: no memory\n")
    for error, text in (("ENOSPC", "no space left"), ("EDQUOT", "no space left"), ("EROFS", "the system refused a call")):
        before = checks.before("fdatasync", f"fdatasync:error={error}:when=2")
        checks.starts_in_vain(f"serve with {error} at a sync", path, before, FAILED.format(text))
        checks.was_injected(f"serve with {error} at a sync")


def slow_opening(checks):
    """A server whose first read takes two and a half seconds says so after each of them, and nothing of the kind once it listens."""
    path = checks.make("slow")
    with checks.serving(path, checks.before("pread64", "pread64:delay_enter=2500000:when=1", path=path)) as server:
        time.sleep(1.5)
    told = [line for line in server.text().splitlines() if "opening the journal" in line]
    checks.same("a slow opening is told", told, [f"stompd: opening the journal, {seconds} s so far" for seconds in (1, 2)])


def changed_header(checks):
    """Somebody writes into the header of a journal that is being opened, once it was read: that is found before any of it is written back."""
    path, trace = checks.make("changed-header"), pathlib.Path(checks.path("trace"))
    trace.unlink(missing_ok=True)
    words = checks.before("pread64,pwrite64", "pread64:delay_enter=2000000:when=2", path=path)
    server = subprocess.Popen([*words, checks.program, "serve", path, "8080"], stdin=subprocess.DEVNULL, stdout=subprocess.PIPE, stderr=subprocess.PIPE)
    # The first read is that of the header.
    await_that(lambda: trace.exists() and ", 32, 0) = 32" in trace.read_text())
    with open(path, "r+b") as file:
        file.seek(31)
        file.write(b"x")
    changed = pathlib.Path(path).read_bytes()
    output, errors = server.communicate(timeout=60)
    checks.same("a header that changes during a start", (server.returncode, output, last_line(errors.decode())), (1, b"", OVERWRITTEN))
    checks.same("a header that changes during a start: the file", pathlib.Path(path).read_bytes() == changed, True)
    checks.same("a header that changes during a start: writes", trace.read_text().count("pwrite64("), 0)


def threads(checks):
    """A start needs a thread for its standard input, one that says how long it takes, one for each worker, one that accepts, and one for the log."""
    path = checks.make("thread")
    for number in range(1, 7):
        before = checks.before("clone,clone3", f"clone,clone3:error=EAGAIN:when={number}")
        checks.starts_in_vain(f"serve without thread {number}", path, before, "stompd: cannot start a thread\n", more=("--threads", "2", "--until-eof"))
        checks.was_injected(f"serve without thread {number}")


def failing_input(checks):
    """A read of standard input that a signal breaks off is made again. One that fails is the end of it."""
    for error, ends in (("EINTR", False), ("EIO", True)):
        what, path, fifo = f"a read of standard input with {error}", checks.make(f"input-{error}"), checks.path(f"fifo-{error}")
        os.mkfifo(fifo)
        with open(fifo, "r+b", buffering=0) as given:
            before = checks.before("read", f"read:error={error}:when=1", path=fifo)
            with checks.serving(path, before, more=("--until-eof",), stdin=given) as server:
                try:
                    status = server.process.wait(timeout=10 if ends else 1)
                except subprocess.TimeoutExpired:
                    status = None
        checks.same(what, (status, " ending: asked to\n" in server.text()), (0, True) if ends else (None, False))
        checks.was_injected(what)


def slow_log(checks):
    """Each write of the log takes 40 ms. A server without clients that is asked to end doesn't end before its last line, and each line is one write."""
    path, log = checks.make("slow-log"), pathlib.Path(checks.path("log"))
    with open(log, "wb") as errors:
        before = checks.before("write", "write:delay_enter=40000", path=log)
        with checks.serving(path, before, more=("--until-eof",), stderr=errors) as server:
            await_that(lambda: log.read_bytes().endswith(b" are wanted (J4 is possible)\n"))
            status, _ = server.end()
    checks.same("a slow log: its status and its last line", (status, log.read_text().endswith(" ending: asked to\n")), (0, True))
    checks.same("a slow log: writes, and lines", checks.trace().count("write("), log.read_text().count("\n"))


def answer_at(port):
    """A connection to that port, or the status by which it is refused."""
    try:
        return WebSocket(port)
    except Refused as refused:
        return refused.status


def unwatched(checks):
    """The system doesn't watch the socket of a client: it is closed, and takes no place of the few that a server with few descriptors has."""
    path, places = checks.make("unwatched"), 2
    before = checks.before("epoll_ctl", "epoll_ctl:error=ENOSPC:when=2")
    with checks.serving(path, before, more=("--threads", "1"), limits={"NOFILE": 160 + places}) as server:
        first = Client(server.port).connect()
        with socket.create_connection(("127.0.0.1", server.port), timeout=10) as closed:
            checks.same("a client that can't be watched is closed", closed.recv(1), b"")
        checks.was_injected("a client that can't be watched")
        # Its socket is closed a moment before its place is free.
        answers, deadline = [answer_at(server.port)], time.monotonic() + 10
        while answers == ["503"] and time.monotonic() < deadline:
            time.sleep(0.05)
            answers = [answer_at(server.port)]
        answers.append(answer_at(server.port))
        checks.same("the next one has its place, and one more has none", [getattr(it, "head", it)[:12] for it in answers], ["HTTP/1.1 101", "503"])
        first.close()


def slow_compaction(checks):
    """Each sync takes 60 ms, and a compaction makes two. All of them take no longer than this."""
    path, began = checks.make("slowly-compacted"), time.monotonic()
    with checks.serving(path, checks.before("fdatasync", "fdatasync:delay_enter=60000", path=path)) as server:
        client = Client(server.port).connect()
        for _ in range(10):
            client.publish("/topic/none", "x" * 1_000)
        client.close()
    took, errors = 1_000 * (time.monotonic() - began), server.text()
    slowly = [int(it) for it in re.findall(r" compacted slowly: \d+ bytes won in (\d+) ms\n", errors)]
    checks.same("slow compactions are told as slow", bool(slowly) and " compacted: " not in errors, True)
    checks.same(f"with the time that they took, {slowly} ms of {took:.0f}", all(it >= 120 for it in slowly) and sum(slowly) <= took, True)


def frames_to_the_end(client):
    """The commands of the frames up to the end of the connection."""
    try:
        return [frame.command for frame in client.to_the_end()[0]]
    except ConnectionError:
        return []
    except TimeoutError:
        return ["no end"]


def send(client):
    client.send("SEND", [("destination", "/queue/kept"), ("receipt", "r")], "x")


def asleep(checks):
    what, path = "a sync that fails late", checks.make("late")
    with checks.serving(path, checks.before("fdatasync", eio("fdatasync", 6, ":delay_enter=500000"))) as server:
        client = Client(server.port).connect()
        for _ in range(32):
            send(client)
        checks.same(f"{what}: what a client with a full window hears", client.to_the_end(), ([], 1001))
        checks.ends(what, server, INPUT_OUTPUT)
        checks.was_injected(what)


def storing(checks):
    """The CONNECT is the first block, and what is sent the second: a write, a sync, the gate's write, and a sync. A gate that
    is written stands in the file, be it synced or not."""
    for call, number, count in (("pwrite64", 6, 1), ("fdatasync", 6, 1), ("pwrite64", 7, 1), ("fdatasync", 7, 2)):
        what, path = f"a block without {call} {number}", checks.make(f"stored-{call}-{number}")
        with checks.serving(path, checks.before(call, eio(call, number))) as server:
            client = Client(server.port).connect()
            send(client)
            checks.same(f"{what}: what the client hears", frames_to_the_end(client), [])
            checks.ends(what, server, INPUT_OUTPUT)
            checks.was_injected(what)
        status, shown, _ = checks.run([], "show", path)
        checks.same(f"{what}: what is held", (status, shown.splitlines()[3:]), (0, [f"count {count}", f"held {count - 1}"]))


def overwritten_block(checks):
    """A block is overwritten by what stood there before, while its sync goes on: its gate isn't opened, and its command has no receipt."""
    what, path = "a block that is overwritten", checks.make("overwritten-block")
    with checks.serving(path, checks.before("fdatasync", "fdatasync:delay_enter=2000000:when=6", path=path)) as server:
        client = Client(server.port).connect()
        before = pathlib.Path(path).read_bytes()
        send(client)
        await_that(lambda: pathlib.Path(path).read_bytes() != before)
        with open(path, "r+b") as file:
            file.write(before)
        checks.same(f"{what}: what the client hears", frames_to_the_end(client), [])
        checks.ends(what, server, OVERWRITTEN)
    checks.same(f"{what}: the file", pathlib.Path(path).read_bytes() == before, True)


def removed_at_one_time(checks):
    """The file is removed, and its folder has the same time of its last change as before. It is one after the last write, so that it says nothing."""
    what, folder = "a file that is removed, and no time says so", pathlib.Path(checks.path("of-one-time"))
    folder.mkdir()
    path, then = checks.make("of-one-time/journal"), time.time() + 1_000
    os.utime(folder, (then, then))
    with checks.serving(path) as server:
        client = Client(server.port).connect()
        client.publish_all("/topic/nobody", ["x"] * 10, window=1)
        os.remove(path)
        os.utime(folder, (then, then))
        send(client)
        checks.same(f"{what}: what the client hears", frames_to_the_end(client), [])
        checks.ends(what, server, FAILED.format("the file was removed"))


def main():
    program = program_of(__doc__)
    need_strace()
    with tempfile.TemporaryDirectory() as name:
        checks = Checks(str(program), pathlib.Path(name).resolve())
        disks = (formatting, naming, linking, filling, progress, swapping, limiting, showing, held_streams)
        starts = (opening, slow_opening, changed_header, threads, failing_input, slow_log, unwatched, slow_compaction, storing)
        for part in disks + starts + (overwritten_block, removed_at_one_time, asleep):
            part(checks)
    return checks.status()


if __name__ == "__main__":
    sys.exit(main())
