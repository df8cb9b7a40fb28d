#!/usr/bin/env python3
"""Runs the built program on good and bad words, files and ports, and compares its status and what it writes to standard
output and standard error with what docs/CLI.md says.

    python3 tests/program/statuses.py [PROGRAM]
"""

import contextlib
import errno
import fcntl
import json
import os
import pathlib
import resource
import socket
import struct
import subprocess
import sys
import tempfile
import time

from lib.old_journal import area, journal, open_operation, record, send_operation, subscribe_operation
from lib.commands import FULL, UNWRITTEN, run_for_text, told
from lib.scenario import BriefChecks, Broker, free_port, program_of

# What may be written: just this text, some text that is not ours to say, or nothing. Of None nothing is looked at.
SOME = object()
NOTHING = ""


def unopened(name, why):
    return told(f"cannot open: {name}: {why}")


def missing(name):
    return unopened(name, "there is no such file")


def unserved(name):
    return unopened(name, "there is no such file; --new BYTES makes one")


def bad(word, why):
    return told(f"'{word}': {why}")


SIZES = "a size is a number of bytes under 2^64, or of K, M or G (1,024 of each), as 64M, 64MB or 64MiB"
PORTS = "PORT is a number from 1 to 65535"
THREADS = "--threads takes a number from 1 to 64"
MEMORY = "--memory takes a number of bytes from 16777216 (16M) on, and under 2^64"
ORIGINS = "an origin is what a browser sends: SCHEME://HOST or SCHEME://HOST:PORT in small letters, with nothing after it"
VERSION = "stompd 0.2.0"
EMPTY = "messages 0 of 4096\nbytes 0 of 16777216\n0 0 topics\n"
# What each command prints of an empty journal with --json.
OBJECTS = {
    "show": {"version": 2, "area": 0, "used": 41, "count": 0, "held": 0},
    "held": {"messages": 0, "messages_limit": 4096, "bytes": 0, "bytes_limit": 16777216, "queues": [], "durables": [], "topics": {"messages": 0, "bytes": 0}},
    "sessions": {"sessions": [], "subscriptions": []},
}
# Areas of 4,096 bytes.
SMALLEST = 8_224
# In seconds.
AT_ONCE = 0.3
# No multiple of what is written at a time.
LIMITED = 3_000_000


class Checks(BriefChecks):
    def run(self, words, status, output, errors, given=b"", **how):
        """Runs the program, in a folder or under limits if these are given, and compares its status and its two outputs."""
        ended, wrote, said = run_for_text(self.program, *words, given=given, **how)
        fits = all(bool(seen) if wanted is SOME else wanted is None or seen == wanted for seen, wanted in ((wrote, output), (said, errors)))
        self.check(f"{words} at {given[-40:]}", fits and ended == status, (ended, wrote, said))

    @contextlib.contextmanager
    def serving(self, journal, port, *more):
        server = Broker(self.program, journal, port=int(port), more=more)
        try:
            yield server
        finally:
            server.kill()


def scripts(checks):
    """What a script prints is compared by tests/scripts.py."""
    checks.run(["script"], 0, NOTHING, NOTHING)
    checks.run(["script"], 1, NOTHING, told("line 1 not understood"), b"0 " + b"%0A" * 400_000 + b"\n")
    checks.run(["script"], 1, NOTHING, UNWRITTEN, b"0 CONNECT%0Aaccept-version:1.2%0A%0A%00\nflush\n", sink=FULL)


def word(length):
    """What an area of the second version begins with: its version, and the length of its snapshot."""
    return b"\2" + struct.pack(">Q", length)[1:]


def formats(checks, folder):
    file, other = str(folder / "journal"), str(folder / "other")
    checks.run(["format", file, SMALLEST], 0, NOTHING, NOTHING)
    made = pathlib.Path(file).read_bytes()
    front = b"STOMPJ02" + struct.pack(">Q", 4_096) + bytes(16) + word(32) + bytes(33)
    checks.check("the bytes of an empty journal", made == front + bytes(SMALLEST - len(front)), made[:80])
    checks.check("only its owner may read a journal", os.stat(file).st_mode & 0o777 == 0o600, oct(os.stat(file).st_mode))
    # After -- no word is an option, and a port or size may have leading zeros.
    for again in ([file, SMALLEST], ["--", file, SMALLEST], [file, "--", SMALLEST], [file, SMALLEST, "--"], [file, "18446744073709551615"]):
        checks.run(["format", *again], 1, NOTHING, unopened(file, "it is there already"))
    for few in (SMALLEST - 1, "31", "0"):
        checks.run(["format", other, few], 1, NOTHING, told("J8 disk too small"))
        checks.run(["format", file, few], 1, NOTHING, told("J8 disk too small"))
    deep = str(folder / "none" / "journal")
    checks.run(["format", deep, SMALLEST], 1, NOTHING, unopened(deep, "there is no such folder"))
    for number in ("8224x", "+8224", "0x2020", "8 224", "", "18446744073709551616", "99999999999999999999", "K", "kb", "MiB", "8 K", "8K ", "8X", "1T", "16777216T", "1KK", "1MMB", "1MBB", "1Mi", "1B", "1iB", "K1", "1K1", "+9K", "9\u212a",
                   "17179869184G", "17179869184gib", "17592186044416MB", "18014398509481984KiB"):
        checks.run(["format", other, number], 2, NOTHING, bad(number, SIZES))
    checks.check("refused words make no file", not os.path.exists(other))
    checks.check("refused words change no file", pathlib.Path(file).read_bytes() == made)
    units = [(f"9{it}", 9 * 1_024) for it in ("K", "k", "KB", "kb", "Kb", "kB", "KiB", "kib", "KIB")] + [(f"1{it}", 1_048_576) for it in ("M", "m", "MB", "mb", "MiB", "mib")]
    for text, size in (*units, ("009K", 9 * 1_024)):
        path = folder / text
        checks.run(["format", "--sparse", str(path), text], 0, NOTHING, NOTHING)
        checks.check(f"{text} are {size} bytes", path.stat().st_size == size, path.stat().st_size)
    for text in ("1G", "1g", "1GB", "1gb", "1GiB", "1gib"):
        huge = folder / text
        checks.run(["format", str(huge), "--sparse", text], 0, NOTHING, NOTHING)
        checks.check(f"{text} are 2^30 bytes", huge.stat().st_size == 1 << 30)
    checks.run(["copy", file, other, "8x"], 2, NOTHING, bad("8x", SIZES))
    zeros, odd = str(folder / "zeros"), str(folder / "odd")
    checks.run(["format", zeros, f"000{SMALLEST}"], 0, NOTHING, NOTHING)
    checks.check("leading zeros count for nothing", pathlib.Path(zeros).read_bytes() == made)
    checks.run(["format", odd, SMALLEST + 1], 0, NOTHING, NOTHING)
    sparse, after = str(folder / "sparse"), str(folder / "--sparse")
    checks.run(["format", "--sparse", sparse, SMALLEST], 0, NOTHING, NOTHING)
    checks.check("a sparse journal has the same bytes", pathlib.Path(sparse).read_bytes() == made)
    checks.run(["format", "--", after, SMALLEST], 0, NOTHING, NOTHING)
    checks.check("after -- a word is a file", pathlib.Path(after).read_bytes() == made)
    checks.check("a byte over is there, and no area has it", pathlib.Path(odd).read_bytes() == made + b"\0")
    for size in (100_000, 100_001):
        path = folder / str(size)
        checks.run(["format", str(path), str(size)], 0, NOTHING, NOTHING)
        data = path.read_bytes()
        checks.check(f"{size} bytes have two areas of 49,984", len(data) == size and data[8:16] == struct.pack(">Q", 49_984), data[:16])


def unfinished(checks, folder):
    """Each command that makes a file leaves what is there under its name, and under the name with which it is made: one that is locked, or that somebody may need."""
    room = folder / "room"
    room.mkdir()
    made, draft = room / "draft", room / "draft.new"
    foreign = unopened(draft, "it is there, and no unfinished journal; rename or remove it")
    there, is_locked = unopened(made, "it is there already"), unopened(draft, "it is locked, since another stompd makes the file")
    drafts = [(lambda data=data: draft.write_bytes(data), draft.unlink, foreign) for data in (b"mine", b"STOMPJ02", bytes(7) + b"x")]
    drafts += [(draft.mkdir, draft.rmdir, foreign), (lambda: draft.symlink_to(folder / "zeros"), draft.unlink, foreign)]
    taken = [(lambda: made.write_bytes(b"mine"), made.unlink, there), (lambda: made.symlink_to("nowhere"), made.unlink, there)]
    for words in (["format", made, SMALLEST], ["copy", folder / "zeros", made, SMALLEST], ["serve", made, free_port(), "--new", SMALLEST]):
        words = [str(it) for it in words]
        for make, remove, text in drafts + (taken if words[0] != "serve" else []):
            make()
            before = state(room)
            checks.run(words, 1, NOTHING, text)
            checks.same(f"{words[0]}: what is there stays", state(room), before)
            remove()
        with draft.open("wb") as lock:
            fcntl.flock(lock, fcntl.LOCK_EX)
            checks.run(words, 1, NOTHING, is_locked)
        draft.unlink()
    draft.write_bytes(bytes(8) + b"x")
    checks.run(["format", str(made), SMALLEST], 0, NOTHING, NOTHING)
    checks.check("what a killed run left is made anew", not draft.exists() and made.read_bytes() == (folder / "zeros").read_bytes())


def state(folder):
    return sorted((it.name, it.lstat().st_ino, it.read_bytes() if it.is_file() else None) for it in folder.iterdir())


def places(checks, folder):
    """A bare name is one of the current folder; a file has all of its room, if it isn't sparse; and the system's limit on files is kept."""
    checks.run(["format", "bare", LIMITED], 0, NOTHING, NOTHING, cwd=folder)
    checks.same("a bare name is made in the current folder", (folder / "bare").stat().st_size, LIMITED)
    checks.check("with all of its room", (folder / "bare").stat().st_blocks * 512 >= LIMITED)
    checks.run(["format", "bare", LIMITED], 1, NOTHING, unopened("bare", "it is there already"), cwd=folder)
    # The one that counts, under the one that it may be raised to.
    limit = lambda: resource.setrlimit(resource.RLIMIT_FSIZE, (LIMITED, resource.getrlimit(resource.RLIMIT_FSIZE)[1]))
    checks.run(["format", "most", LIMITED], 0, NOTHING, NOTHING, cwd=folder, preexec_fn=limit)
    checks.run(["format", "more", LIMITED + 1], 1, NOTHING, unopened("more", "no file may be so large here"), cwd=folder, preexec_fn=limit)
    checks.same("what was refused has left nothing", sorted(it.name for it in folder.glob("mo*")), ["most"])


def broken(folder):
    """Files that are no journals, or damaged ones, and what is told of them."""
    # Of an empty journal that was never opened: its first area is live.
    good = (folder / "zeros").read_bytes()
    length = struct.pack(">Q", 4_096)
    cases = {
        "J1 not a journal": (bytes(64), b"", good[:31], b"STOMPX01" + good[8:]),
        "J7 unknown version": (b"STOMPJ09" + good[8:],),
        "J8 disk too small": (good[:-1], good[:8] + struct.pack(">Q", 4_095) + good[16:], good[:8] + b"\xff" * 8 + good[16:]),
        # A snapshot whose length is not that of a state, one that leaves the area, and an area of no version.
        "J2 damaged at 40": (good[:32] + word(31) + good[40:],),
        "J2 damaged at 32": (good[:32] + word(4_088) + good[40:], good[:32] + b"\3" + good[33:]),
        # An open gate with an empty block after it, and with a block that is no record.
        "J2 damaged at 73": (good[:72] + b"\1" + good[73:],),
        "J2 damaged at 81": (good[:72] + b"\1" + struct.pack(">Q", 1) + b"\xff\0" + good[83:],),
    }
    assert good[8:16] == length
    for text, files in cases.items():
        for number, data in enumerate(files):
            path = folder / f"{text[:2]}-{text[-2:]}-{number}"
            path.write_bytes(data)
            yield path, data, told(text)


def shows(checks, folder):
    shown = "version 2\narea 0\nused 41\ncount 0\nheld 0\n"
    before = (folder / "journal").read_bytes()
    checks.run(["show", str(folder / "journal")], 0, shown, NOTHING)
    checks.check("show writes nothing into the file", (folder / "journal").read_bytes() == before)
    checks.run(["held", str(folder / "journal")], 0, EMPTY, NOTHING)
    checks.check("held writes nothing into the file", (folder / "journal").read_bytes() == before)
    for further in (["--", str(folder / "journal")], [str(folder / "journal"), "--"]):
        checks.run(["show", *further], 0, shown, NOTHING)
    checks.run(["show", "--", "--no-such-file"], 1, NOTHING, missing("--no-such-file"))
    for command, wanted in OBJECTS.items():
        status, printed, said = run_for_text(checks.program, command, "--json", folder / "journal")
        checks.same(f"{command} --json prints one line", (status, said, printed.count("\n"), printed[-1:]), (0, NOTHING, 1, "\n"))
        checks.same(f"{command} --json prints an object", json.loads(printed), wanted)
        checks.run([command, str(folder / "journal"), "--json"], 0, printed, NOTHING)
    checks.run(["show", "--", "--json"], 1, NOTHING, missing("--json"))
    # Nobody writes the FIFO: who opened it for reading would wait.
    specials = (str(folder / "fifo"), os.devnull)
    os.mkfifo(specials[0])
    for command in (["show"], ["held"], *([it, "--json"] for it in OBJECTS)):
        checks.run([*command, str(folder / "journal")], 1, NOTHING, UNWRITTEN, sink=FULL)
        checks.run([*command, str(folder / "missing")], 1, NOTHING, missing(folder / "missing"))
        checks.run([*command, str(folder)], 1, NOTHING, unopened(folder, "it is a directory"))
        for special in specials:
            checks.run([*command, special], 1, NOTHING, unopened(special, "it is no file"))
        for path, data, text in broken(folder):
            checks.run([*command, str(path)], 1, NOTHING, text)
            checks.check(f"{path.name} is left as it was", path.read_bytes() == data)


def old_journal(folder):
    """A journal of the first version, which a server rewrites as one of the second. A client subscribes durably to a topic, and sends there and to a queue."""
    path = folder / "old"
    operations = (open_operation("c1"), subscribe_operation("d", "/topic/t", "client", "n"), send_operation("/topic/t", [], "x"), send_operation("/queue/q", [], "y"))
    path.write_bytes(journal(4_096, area([b"".join(record(0, it) for it in operations)]), b""))
    return path


def too_full(checks, folder):
    """A journal of the first version whose one block nearly fills its area: each of the messages takes two bytes more in a snapshot."""
    path = folder / "too-full"
    operations = [open_operation(None), *138 * [send_operation("/queue/q", [], "x")]]
    path.write_bytes(journal(4_096, area([b"".join(record(0, it) for it in operations)]), b""))
    for further in ([], ["--json"]):
        status, printed, said = run_for_text(checks.program, "serve", path, free_port(), *further)
        # A slow machine may say how long it takes.
        lines = [it for it in said.splitlines() if "opening" not in it]
        checks.same(f"no start fits into it {further}: status, output and lines", (status, printed, len(lines)), (1, NOTHING, 2))
        if further:
            checks.same("that is told as an object, and then the fault", [json.loads(it)["kind"] for it in lines], ["too_full", "fault"])
        else:
            checks.check("that is told, and what helps", lines[0].startswith("stompd: what the journal holds ") and "docs/RUNNING.md" in lines[0], lines)
            checks.same("and then the fault", lines[-1], "stompd: J4 journal full")


def soon(checks, folder):
    """What ends by a fault ends at once: nobody waits for its line to be read."""
    took = []
    for _ in range(4):
        began = time.monotonic()
        checks.run(["serve", str(folder / "missing"), str(free_port())], 1, NOTHING, unserved(folder / "missing"))
        took.append(time.monotonic() - began)
    checks.check(f"the quickest of four within {AT_ONCE} s", min(took) <= AT_ONCE, took)


def serves(checks, folder):
    with socket.socket() as taken:
        taken.bind(("127.0.0.1", 0))
        taken.listen()
        port = str(taken.getsockname()[1])
        before = old_journal(folder).read_bytes()
        # Used are a snapshot of 32 bytes and a block of 109, each with its length before it and its gate after it.
        checks.run(["show", str(folder / "old")], 0, "version 1\narea 0\nused 159\ncount 4\nheld 2\n", NOTHING)
        in_use = unopened(f"port {port}", "another program listens there")
        for name in ("missing", "journal", "old"):
            checks.run(["serve", str(folder / name), port], 1, NOTHING, in_use)
        checks.check("a start that fails leaves an old journal as it was", (folder / "old").read_bytes() == before)
    none = str(folder / "missing")
    for further in ([none, port], [none, f"0{port}"], [none, "65535"], ["--", none, port], [none, "--", port], [none, port, "--"]):
        checks.run(["serve", *further], 1, NOTHING, unserved(none))
    for further in ([none, "--port", port], [none, f"--port={port}"]):
        checks.run(["serve", *further], 2, NOTHING, bad("--port", "there is no such option: the port stands by itself, as in stompd serve FILE 8080"))
    checks.run(["serve", str(folder), port], 1, NOTHING, unopened(folder, "it is a directory"))
    for special in (str(folder / "fifo"), os.devnull):
        checks.run(["serve", special, port], 1, NOTHING, unopened(special, "it is no file"))
    for path, data, text in broken(folder):
        checks.run(["serve", str(path), port], 1, NOTHING, text)
        checks.check(f"{path.name} is left as it was", path.read_bytes() == data)
    for number in ("0", "65536", "http", "80x", "+80", "", "99999999999999999999"):
        checks.run(["serve", str(folder / "journal"), number], 2, NOTHING, bad(number, PORTS))
    for size in ("8224x", "+8224", "", "18446744073709551616", "1T", "64X", "64MM", "m"):
        for new in (["--new", size], [f"--new={size}"]):
            checks.run(["serve", str(folder / "journal"), port, *new], 2, NOTHING, bad(size, SIZES))
            checks.run(["serve", none, port, *new], 2, NOTHING, bad(size, SIZES))
    checks.run(["serve", none, port, "--new", SMALLEST - 1], 1, NOTHING, told("J8 disk too small"))
    deep = str(folder / "none" / "journal")
    checks.run(["serve", deep, port, "--new", SMALLEST], 1, NOTHING, unopened(deep, "there is no such folder"))
    checks.check("refused sizes make no file", not os.path.exists(none) and not os.path.exists(none + ".new"))
    new_journals(checks, folder, port)
    for origin in ("https://chat.example/", "https://chat.example/room", "chat.example", "http://Chat.example", "http://", "://x", "http//x", ""):
        checks.run(["serve", str(folder / "journal"), port, "--origin", "null", "--origin", origin], 2, NOTHING, bad(origin, ORIGINS))
    for number in ("0", "65", "18446744073709551616", "x", "+3", ""):
        for threads in (["--threads", number], [f"--threads={number}"]):
            checks.run(["serve", str(folder / "journal"), port, *threads], 2, NOTHING, bad(number, THREADS))
    for number in ("0", "16777215", "18446744073709551616", "15M", "15mib", "16T", "16MM", "m", "+16777216", ""):
        for memory in (["--memory", number], [f"--memory={number}"]):
            checks.run(["serve", str(folder / "journal"), port, *memory], 2, NOTHING, bad(number, MEMORY))
    journal = str(folder / "journal")
    with checks.serving(journal, port, "--memory", "16mb") as serving:
        with socket.create_connection(("127.0.0.1", int(port)), timeout=5):
            pass
        checks.check("a connection that says nothing ends no server", serving.is_running())
        # All of 127.0.0.0/8 is this machine: a server that listens at every address of it is reached at another one too.
        with socket.socket() as elsewhere:
            checks.check("it listens at 127.0.0.1 alone", elsewhere.connect_ex(("127.0.0.2", int(port))) == errno.ECONNREFUSED)
        checks.run(["serve", journal, free_port()], 1, NOTHING, unopened(journal, "another server has its lock"))
        # A reader of the journal alone asks for no lock.
        checks.run(["held", journal], 0, EMPTY, NOTHING)
        checks.run(["show", journal], 0, SOME, NOTHING)
    # The lock goes with its server.
    with checks.serving(journal, port):
        pass


def new_journals(checks, folder, port):
    """A missing journal is made and served; one that is there is served as it is."""
    made, zeros = folder / "new journal", folder / "zeros"
    before = zeros.read_bytes()
    for path, size in ((made, "9kib"), (made, "10K"), (zeros, "10K")):
        with checks.serving(path, port, "--new", size):
            pass
        checks.run(["held", str(path)], 0, EMPTY, NOTHING)
    checks.check("it has the bytes that were asked for first", made.stat().st_size == 9 * 1_024, made.stat().st_size)
    checks.check("and all of its room", made.stat().st_blocks * 512 >= 9 * 1_024, made.stat().st_blocks)
    copy = folder / "a copy"
    checks.run(["copy", str(made), str(copy), LIMITED], 0, NOTHING, NOTHING)
    checks.check("so has a copy", copy.stat().st_blocks * 512 >= LIMITED, copy.stat().st_blocks)
    checks.check("only its owner may read it", made.stat().st_mode & 0o777 == 0o600, oct(made.stat().st_mode))
    checks.check("a journal that is there keeps its size", zeros.stat().st_size == SMALLEST)
    for number in range(4):
        both = folder / f"both {number}"
        starts = [subprocess.Popen([checks.program, "serve", both, str(free_port()), "--new", "9kib"], stdout=subprocess.PIPE, stderr=subprocess.PIPE) for _ in range(2)]
        listening = [bool(it.stdout.readline()) for it in starts]
        checks.same("of two that make a journal at once one serves", sorted(listening), [False, True])
        for one, listens in zip(starts, listening):
            if listens:
                one.kill()
            said = one.communicate(timeout=60)[1].decode()
            # The one that serves may be killed before its first line.
            checks.check("and the other tells of the lock", listens or (one.returncode == 1 and "lock" in said.splitlines()[-1]), (one.returncode, said))
        checks.run(["held", str(both)], 0, EMPTY, NOTHING)
    zeros.write_bytes(before)


def words(checks, folder):
    file = str(folder / "journal")
    # tests/program/version.py looks at the note that bin/build adds.
    last = pathlib.Path(checks.program).read_bytes()[-64:]
    note = last.removeprefix(b"stompd-built:").decode().rstrip() if last.startswith(b"stompd-built:") else ""
    checks.run(["--version"], 0, f"{VERSION}{note}\n", NOTHING)
    checks.run(["--version"], 1, NOTHING, UNWRITTEN, sink=FULL)
    for bad in (["--version", "show", file], ["held"], ["held", file, "x"], ["format", "--sparse", file]):
        checks.run(bad, 2, NOTHING, None)
    twice = ["serve", file, "80", "--threads", "2", "--threads=3"]
    for bad in (twice, ["serve", file, "80", "--threads"], ["show", "--threads", "2", file]):
        checks.run(bad, 2, NOTHING, SOME)
    twice = ["serve", file, "80", "--memory", "16777216", "--memory=16777216"]
    for bad in (twice, ["serve", file, "80", "--memory"], ["show", "--memory", "16777216", file]):
        checks.run(bad, 2, NOTHING, SOME)
    for bad in (["serve", file, "80", "--new", "1M", "--new=1M"], ["serve", file, "80", "--new"], ["format", "--new", "1M", file, "8224"]):
        checks.run(bad, 2, NOTHING, SOME)
    for bad in (["serve", file, "80", "--origin"], ["show", "--origin", "null", file], ["show", "--sparse", file], ["show", file, "--json", "--json"], ["format", file, "8224", "--json"], ["script", "--json"]):
        checks.run(bad, 2, NOTHING, SOME)
    none = ([], ["flash"], ["--flash"], ["script", "x"], ["show"], ["show", file, "x"], ["format", file], ["format", file, "1", "2"])
    for bad in (*none, ["serve", file], ["serve", file, "80", "x"], ["--help"], ["show", "--help"]):
        checks.run(bad, 2, NOTHING, SOME)
    unknown = f"error: unrecognized subcommand 'relay'\n\nUsage: {pathlib.Path(checks.program).name} <COMMAND>\n\nFor more information, try '--help'.\n"
    checks.run(["relay"], 2, NOTHING, unknown)
    for bad in (["relay"], ["script", "more"], ["--help"], ["show"]):
        with tempfile.TemporaryFile() as given:
            given.write(b"flush\n")
            given.seek(0)
            subprocess.run([checks.program, *bad], stdin=given, stdout=subprocess.DEVNULL, stderr=subprocess.DEVNULL, timeout=60)
            read = os.lseek(given.fileno(), 0, os.SEEK_CUR)
        checks.check(f"{bad} read nothing", read == 0, read)
    for bad in ([b"\xff"], ["script", b"\xff"], ["show", b"\xff"], ["format", b"\xff", SMALLEST], ["serve", b"\xff", "80"]):
        checks.run(bad, 2, NOTHING, NOTHING)


def main():
    checks = Checks(program_of(__doc__))
    with tempfile.TemporaryDirectory() as name:
        folder = pathlib.Path(name)
        scripts(checks)
        formats(checks, folder)
        unfinished(checks, folder)
        places(checks, folder)
        shows(checks, folder)
        serves(checks, folder)
        too_full(checks, folder)
        soon(checks, folder)
        words(checks, folder)
    return checks.status()


if __name__ == "__main__":
    sys.exit(main())
