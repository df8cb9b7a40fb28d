#!/usr/bin/env python3
"""Kills of `stompd format`, `stompd copy` and `stompd serve --new` at each of their system calls that touch files, and losses of power at each. Needs strace and
Python 3 alone.

    python3 tests/kills/making.py [PROGRAM]

- After each kill nothing stands at the file's name, or the whole journal: `held` and `sessions` print of it what they print of the one that was copied. The
  same command again, not killed, makes it. If the kill came when `FILE.new` already had a journal's name, it says so and leaves that file as it was.
- The device is played here, page by page, from a trace. At each call the power fails, with none, the first half, the second half or all of the pages that were
  written since the last sync. What the device holds of the file, under whatever name, is then refused by a named error, or is the whole journal; and under
  the file's own name it is the whole one.
"""

import os
import pathlib
import re
import shutil
import signal
import subprocess
import sys
import tempfile

from lib.commands import run_for_text
from lib.scenario import BriefChecks, Broker, child_of, free_port, make_journal, program_of
from lib.stomp_client import Client
from lib.tracing import SYNC, WRITE, Device, bytes_of, need_strace, strace, text_of

# The journal that is copied, and the copy: areas that hold some messages of several pages.
JOURNAL_BYTES, COPY_BYTES, SMALLEST = 524_320, 262_176, 8_224
MESSAGES, BODY = 24, "x" * 3_000

CALLS = "openat,ftruncate,fallocate,pwrite64,write,pread64,fsync,fdatasync,flock,link,linkat,unlink,unlinkat,rename,renameat,renameat2,newfstatat,statx,fstat,lseek"
CALL = re.compile(r"^\d+ +(\w+)\(")
EMPTY = "messages 0 of 4096\nbytes 0 of 16777216\n0 0 topics\n"
# What is told of a file that is no journal, or not all of one.
REFUSED = re.compile(r"stompd: (J1 not a journal|J2 damaged at \d+|J7 unknown version|J8 disk too small)\n")

OPENED = re.compile(r'openat\(AT_FDCWD, "([^"]*)", [^)]*O_CREAT[^)]*\) += (\d+)')
SIZED = re.compile(r"ftruncate\((\d+), (\d+)\) += 0")
LINK = re.compile(r'link(?:at)?\((?:AT_FDCWD, )?"([^"]*)", (?:AT_FDCWD, )?"([^"]*)"[^)]*\) += 0')


def named(escaped):
    return bytes_of(escaped).decode()


class Making:
    """A command that makes the file `made` of its folder, and what that holds then."""

    def __init__(self, name, words, held, sessions="", serves=False):
        self.name, self.words, self.held, self.sessions, self.serves = name, words, held, sessions, serves

    def run(self, program, path, before=()):
        """Runs it over that path, after these words; the status, and what it told. A server is ended once it listens, and has no status."""
        words = [*before, program, *[it.replace("FILE", str(path)) for it in self.words]]
        process = subprocess.Popen(words, stdin=subprocess.DEVNULL, stdout=subprocess.PIPE, stderr=subprocess.PIPE)
        if self.serves and process.stdout.readline().startswith(b"listening"):
            os.kill(child_of(process.pid) if before else process.pid, signal.SIGKILL)
            process.communicate(timeout=60)
            return None, ""
        errors = process.communicate(timeout=60)[1]
        return process.returncode, errors.decode()


def state_of(program, making, path):
    """Whether a file there is the whole journal, is refused, or is neither."""
    held, sessions, shown = (run_for_text(program, word, path) for word in ("held", "sessions", "show"))
    if (held[:2], sessions[:2], shown[0]) == ((0, making.held), (0, making.sessions), 0):
        return "whole"
    if all(status == 1 and REFUSED.fullmatch(told) for status, _, told in (held, sessions, shown)):
        return "refused"
    return f"neither: {held} {sessions} {shown}"


class Folder:
    """A folder of one run."""

    def __init__(self, top):
        self.path = pathlib.Path(tempfile.mkdtemp(dir=top))
        self.made, self.draft, self.trace = self.path / "made", self.path / "made.new", self.path.with_suffix(".trace")

    def remove(self):
        shutil.rmtree(self.path)
        self.trace.unlink(missing_ok=True)


def calls_of(checks, making, top):
    """The name of each call of a run that isn't killed, with its number among those of that name, from the first that has the file's name on."""
    folder = Folder(top)
    status, told = making.run(checks.program, folder.made, strace(folder.trace, CALLS))
    checks.same(f"{making.name}: it succeeds", (status, told), (None, "") if making.serves else (0, ""))
    checks.same(f"{making.name}: and makes", state_of(checks.program, making, folder.made), "whole")
    checks.same(f"{making.name}: and leaves nothing else", [it.name for it in folder.path.iterdir()], ["made"])
    lines, found, counts = folder.trace.read_text(errors="replace").splitlines(), [], {}
    first = next(at for at, line in enumerate(lines) if '/made' in line and "execve" not in line)
    # A server's last call that is tried is the one by which the folder has the file's name for good.
    last = next((at for at, line in enumerate(lines) if "unlink" in line and "made.new" in line), len(lines)) + 4 if making.serves else len(lines)
    for at, line in enumerate(lines[:last]):
        if call := CALL.match(line):
            counts[call[1]] = counts.get(call[1], 0) + 1
            if at >= first:
                found.append((call[1], counts[call[1]]))
    folder.remove()
    return found


def kill_at(checks, making, top, call, number):
    folder = Folder(top)
    what = f"{making.name}, killed at {call} {number}"
    status, _ = making.run(checks.program, folder.made, strace(folder.trace, call, f"{call}:signal=KILL:when={number}"))
    checks.check(f"{what}: it was killed", status in (-signal.SIGKILL, 128 + signal.SIGKILL), status)
    is_made = folder.made.exists()
    if is_made:
        checks.same(f"{what}: what stands there", state_of(checks.program, making, folder.made), "whole")
    before = folder.draft.read_bytes() if folder.draft.exists() else None
    again = making.run(checks.program, folder.made)
    if is_made:
        told = (None, "") if making.serves else (1, f"stompd: cannot open: {folder.made}: it is there already\n")
        checks.same(f"{what}: again", again, told)
    elif before and before.startswith(b"STOMPJ02"):
        checks.same(f"{what}: again", again, (1, f"stompd: cannot open: {folder.draft}: it is there, and no unfinished journal; rename or remove it\n"))
        checks.same(f"{what}: what was left stays", folder.draft.read_bytes(), before)
        checks.same(f"{what}: and is", state_of(checks.program, making, folder.draft), "whole")
    else:
        checks.same(f"{what}: again", again, (None, "") if making.serves else (0, ""))
        checks.same(f"{what}: what stands there then", state_of(checks.program, making, folder.made), "whole")
        checks.same(f"{what}: and nothing else", [it.name for it in folder.path.iterdir()], ["made"])
    folder.remove()


def lose_power(checks, making, top):
    """Plays the device of a run that isn't killed, and looks at what it holds at each call."""
    folder = Folder(top)
    making.run(checks.program, folder.made, strace(folder.trace, "openat,ftruncate,pwrite64,fsync,fdatasync,link,linkat", has_texts=True))
    device, names, descriptors, looked = Device(), set(), set(), {}
    for number, line in enumerate(text_of(folder.trace).splitlines()):
        if (found := OPENED.search(line)) and named(found[1]).startswith(str(folder.made)):
            descriptors.add(found[2])
            names.add(named(found[1]))
        elif "openat(" in line and "O_RDWR" in line and (found := re.search(r'openat\(AT_FDCWD, "([^"]*)".*\) += (\d+)', line)) and named(found[1]) in names:
            descriptors.add(found[2])
        elif (found := SIZED.search(line)) and found[1] in descriptors:
            device.size(int(found[2]))
        elif (found := WRITE.search(line)) and found[1] in descriptors:
            device.write(bytes_of(found[2]), int(found[3]))
        elif (found := SYNC.search(line)) and found[1] in descriptors and found[2] == "0":
            device.sync()
        elif (found := LINK.search(line)) and named(found[1]) in names:
            names.add(named(found[2]))
        for content in set(device.losses()) if names else ():
            if content not in looked:
                (folder.path / "image").write_bytes(content)
                looked[content] = state_of(checks.program, making, folder.path / "image")
            allowed = ("whole",) if str(folder.made) in names else ("whole", "refused")
            checks.check(f"{making.name}, power lost at line {number} of its trace", looked[content] in allowed, (looked[content], line[:80]))
    checks.check(f"{making.name}: images that were looked at", len(looked) > 2, len(looked))
    checks.check(f"{making.name}: some are refused, and one is whole", {"refused", "whole"} <= set(looked.values()), set(looked.values()))
    folder.remove()


def source_of(checks, top):
    """A journal with messages, and an open session with a subscription and messages in hand."""
    path = f"{top}/source"
    make_journal(checks.program, path, JOURNAL_BYTES)
    broker = Broker(checks.program, path)
    client = Client(broker.port).connect("a shop")
    for number in range(MESSAGES):
        client.publish("/queue/kept", f"{number} {BODY}")
    client.subscribe("0", "/queue/kept", ack="client-individual")
    broker.kill()
    held, sessions = run_for_text(checks.program, "held", path), run_for_text(checks.program, "sessions", path)
    checks.check("the source has messages and a session", str(MESSAGES) in held[1] and "session" in sessions[1], (held, sessions))
    return path, held[1], sessions[1]


def main():
    checks = BriefChecks(program_of(__doc__))
    need_strace()
    with tempfile.TemporaryDirectory() as top:
        path, held, sessions = source_of(checks, top)
        makings = [
            Making("format", ["format", "FILE", str(SMALLEST)], EMPTY),
            Making("format --sparse", ["format", "--sparse", "FILE", str(SMALLEST)], EMPTY),
            Making("copy", ["copy", path, "FILE", str(COPY_BYTES)], held, sessions),
            Making("serve --new", ["serve", "FILE", str(free_port()), "--new", str(COPY_BYTES)], EMPTY, serves=True),
        ]
        for making in makings:
            for call, number in calls_of(checks, making, top):
                kill_at(checks, making, top, call, number)
            lose_power(checks, making, top)
    return checks.status()


if __name__ == "__main__":
    sys.exit(main())
