#!/usr/bin/env python3
"""Tries bin/serve, the shell script that finds or builds the program and has it serve: over the built program, and over stand-ins for it.
Needs Linux and Python 3 alone; the gate does not run it.

    python3 tests/program/serve_script.py [PROGRAM] [--few]

- With --new a first start makes the journal and serves it. Without it a missing journal ends it, with a line that says how to make one.
- A program that is missing, a port that is none and words that the program does not know are refused.
- SIGTERM ends it with status 143, SIGINT with 130, SIGHUP with 129, at whatever moment, and no server of it is left.
- What the server writes to standard error is there at once, and its fault is the last line. It has the settings of the C library, and as many
  descriptors as there may be. Each option of `stompd serve` takes effect, and without words for them FILE is rooms.journal and PORT 8080.
- Nothing of it stays in the temporary folder.
- A server is waited for, a second signal of any kind changes nothing, and one that doesn't end is killed after eight seconds.
- A build that fails or is broken off ends it, and with --proved only a proved program serves.
- It goes on if nobody reads what is logged any more, serves though standard error was full before, and leaves nothing behind then. It ends in good
  order if a signal comes to all of its process group. If it is killed, its server ends in good order.

With --few there are fewer moments.
"""

import contextlib
import itertools
import json
import os
import pathlib
import random
import re
import resource
import select
import shutil
import signal
import socket
import subprocess
import sys
import tempfile
import time

from lib.scenario import TOP, BriefChecks, free_port, words_of
from lib.stomp_client import Client, handshake

SERVE = TOP / "bin" / "serve"
STATUSES = {signal.SIGTERM: 143, signal.SIGINT: 130, signal.SIGHUP: 129}
# From these sizes on the C library gives memory back at once.
TUNABLES = "glibc.malloc.mmap_threshold=131072:glibc.malloc.trim_threshold=4194304"
# What a running server tells has its moment in front.
EVENT = re.compile(r"stompd: \d{4}-\d\d-\d\dT")
# The version of the program, if a file beside the program has it.
VERSION = re.compile(r"serve: stompd \d+\.")
# What is logged each second while a journal is made or opened.
OPENING = re.compile(r"stompd: opening the journal, \d+ s so far$")
# A first start writes and syncs 512 MiB, which a busy disk takes its time for. In seconds.
PATIENCE = 120
# For how long the script waits for a server that it ends, in seconds.
GRACE = 8
# Signals at random moments.
MOMENTS, FEW_MOMENTS = 40, 5


class Checks(BriefChecks):
    def __init__(self, program, folder, has_few):
        super().__init__(program, folder)
        self.moments = FEW_MOMENTS if has_few else MOMENTS

    def stand_in(self, text):
        """A program that begins with these lines of shell, and goes on as the built one."""
        path = pathlib.Path(tempfile.mkdtemp(dir=self.folder)) / "program"
        path.write_text(f'#!/bin/sh\n{text}\nexec "{self.program}" "$@"\n', encoding="utf-8")
        path.chmod(0o755)
        return path


def as_from_a_terminal():
    """No signal is ignored, whatever this script was started by, and there are fewer descriptors than there may be."""
    most = resource.getrlimit(resource.RLIMIT_NOFILE)[1]
    resource.setrlimit(resource.RLIMIT_NOFILE, (most // 2, most))
    for it in STATUSES:
        signal.signal(it, signal.SIG_DFL)


class Start:
    """A run of bin/serve."""

    every = []

    def __init__(self, program, *words, script=SERVE, errors=subprocess.PIPE, temporary=None):
        environment = {**os.environ, "STOMPD": str(program)} if program else {it: os.environ[it] for it in os.environ if it != "STOMPD"}
        environment = {**environment, "TMPDIR": str(temporary)} if temporary else environment
        how = {"stdin": subprocess.DEVNULL, "stdout": subprocess.PIPE, "stderr": errors, "env": environment}
        self.process = subprocess.Popen([script, *map(str, words)], preexec_fn=as_from_a_terminal, start_new_session=True, text=True, **how)
        Start.every.append(self)

    def listens(self, seconds=PATIENCE):
        """Whether the server says within that time that it listens."""
        return bool(select.select([self.process.stdout], [], [], seconds)[0]) and self.process.stdout.readline().startswith("listening ")

    def end(self, sent=None, seconds=PATIENCE):
        """The status, and what was told besides the program's version, the events of a running server and for how long a journal was opened, once it has ended
        by itself or by that signal."""
        if sent:
            self.process.send_signal(sent)
        _, told = self.process.communicate(timeout=seconds)
        return self.process.returncode, "".join(line for line in told.splitlines(keepends=True) if not any(it.match(line) for it in (VERSION, EVENT, OPENING)))

    def kill_all(self):
        """Ends it and all that it has started, as a lost machine does."""
        with contextlib.suppress(ProcessLookupError):
            os.killpg(self.process.pid, signal.SIGKILL)
        if self.process.returncode is None:
            self.process.communicate()


def running_over(file):
    """The processes in whose words that file stands."""
    found = []
    for words in pathlib.Path("/proc").glob("[0-9]*/cmdline"):
        with contextlib.suppress(OSError):
            if str(file).encode() in words.read_bytes():
                found.append(words.parent.name)
    return found


def beside(file):
    """What stands in the file's folder under longer names."""
    return sorted(it.name for it in file.parent.iterdir() if it.name.startswith(f"{file.name}."))


def group_of(start):
    """The processes of a start's group, by what they were called with. Those that have ended have no words."""
    found = []
    for words in pathlib.Path("/proc").glob("[0-9]*/cmdline"):
        with contextlib.suppress(OSError):
            if os.getpgid(int(words.parent.name)) == start.process.pid and (said := words.read_bytes()):
                found.append(said.replace(b"\0", b" ").decode(errors="replace").strip())
    return found


def wait_until(holds, seconds=PATIENCE):
    end = time.monotonic() + seconds
    while not holds():
        assert time.monotonic() < end, "it does not come"
        time.sleep(0.005)


def new_file(checks):
    return pathlib.Path(tempfile.mkdtemp(dir=checks.folder)) / "rooms.journal"


def publish(port, body):
    client = Client(port).connect()
    client.publish("/queue/kept", body)
    client.close()


def found_in(port):
    reader = Client(port).connect()
    found = [frame.body for frame in reader.subscribe("r", "/queue/kept")]
    reader.close()
    return found


def words_and_programs(checks):
    file = new_file(checks)
    plain = file.parent / "plain"
    shutil.copy2(checks.program, plain)
    plain.chmod(0o644)
    for program in (file.parent / "missing", file.parent, plain):
        status, logged = Start(program, file, free_port()).end()
        checks.same(f"{program} as the program", (status, logged), (1, f"serve: there is no program {program}\n"))
    plain.unlink()
    for words, where in ((["--help"], "stdout"), (["-h"], "stdout"), (["--none"], "stderr")):
        done = subprocess.run([SERVE, *words], capture_output=True, text=True, timeout=PATIENCE)
        usage = "bin/serve [--proved] [--new] [FILE [PORT [OPTION..]]]\n"
        expected = (0, usage, "") if where == "stdout" else (2, "", f"serve: {usage}")
        checks.same(f"{words} print how it is called", (done.returncode, done.stdout, done.stderr), expected)
    for words in (["--port"], [file, "eighty"], [file, "80", "--origin", "o", "p"]):
        checks.same(f"{words} are refused", Start(checks.program, *words).end()[0], 2)
    status, logged = Start(checks.program, file, free_port()).end()
    checks.check("a missing journal is not made unasked, and the line says how it is made", status == 1 and "there is no such file" in logged and "--new" in logged, (status, logged))
    checks.same("and nothing is made", list(file.parent.iterdir()), [])


def a_first_start(checks):
    file, port, temporary = new_file(checks), free_port(), pathlib.Path(tempfile.mkdtemp(dir=checks.folder))
    first = Start(checks.program, "--new", file, port, temporary=temporary)
    checks.check("a first start serves", first.listens())
    checks.same("and has left nothing in the temporary folder", list(temporary.iterdir()), [])
    publish(port, "before")
    client = Client(port).connect()
    status, logged = first.end(signal.SIGTERM)
    checks.same("and ends by SIGTERM", (status, logged), (143, f"stompd: made the journal {file}\n"))
    checks.same("its clients are closed with 1001", client.to_the_end()[1], 1001)
    checks.same("only its owner may read the journal", file.stat().st_mode & 0o777, 0o600)
    checks.same("nothing is left beside the journal", beside(file), [])
    inode = file.stat().st_ino
    for sent in (signal.SIGINT, signal.SIGHUP, signal.SIGTERM):
        again = Start(checks.program, file, port)
        checks.check("the next start serves", again.listens())
        checks.same(f"it ends by {sent.name}", again.end(sent), (STATUSES[sent], ""))
        wait_until(lambda: not running_over(file))
    last = Start(checks.program, "--new", file, port)
    checks.check("--new serves a journal that is there", last.listens())
    checks.same("what was sent is there", found_in(port), ["before"])
    checks.same("in the same file", file.stat().st_ino, inode)
    last.kill_all()


def signals_at_any_moment(checks):
    file, port = new_file(checks), free_port()
    subprocess.run([checks.program, "format", "--sparse", file, "64M"], check=True)
    for number in range(checks.moments):
        start = Start(checks.program, file, port)
        # By then the shell has mostly set its traps; before, a signal ends it as any program, and it has started no server.
        wait_until(lambda: running_over(file))
        time.sleep(random.uniform(0.01, 0.06))
        sent = random.choice(list(STATUSES))
        start.process.send_signal(sent)
        status, _ = start.end(random.choice([None, sent]))
        checks.check(f"{sent.name} at moment {number}", status in (STATUSES[sent], -sent), status)
        wait_until(lambda: not running_over(file))


def what_the_server_logs(checks):
    file = new_file(checks)
    words, given, line = file.parent / "words", file.parent / "given", "stompd: compacted: 3120 bytes won in 2 ms\n"
    program = checks.stand_in(f"""printf '%s\\n' "$@" > "{words}"
echo "$GLIBC_TUNABLES" "$(ulimit -n)" > "{given}"
printf '{line[:-1]}\\n' >&2""")
    options = "--origin http://here:1 --threads 3 --memory 16777216 --origin null"
    start = Start(program, "--new", file, free_port(), *options.split())
    checks.same("what it logs is there while it runs", start.process.stderr.readline(), line)
    checks.check("and it listens then", start.listens())
    passed = ["--until-eof", "--new", "536870944", *options.split()]
    checks.same("the options are passed on", words.read_text().splitlines()[3:], passed)
    most = resource.getrlimit(resource.RLIMIT_NOFILE)[1]
    checks.same("it has the C library's settings, and all descriptors that it may have", given.read_text(), f"{TUNABLES} {most}\n")
    checks.same("it ends as ever", start.end(signal.SIGTERM)[0], 143)
    os.environ["GLIBC_TUNABLES"] = "glibc.malloc.arena_max=1"
    try:
        start = Start(program, file, free_port())
        checks.check("it serves with other settings of the C library", start.listens())
    finally:
        del os.environ["GLIBC_TUNABLES"]
    checks.same("which are kept", given.read_text(), f"glibc.malloc.arena_max=1 {most}\n")
    checks.same("and ends", start.end(signal.SIGTERM)[0], 143)
    spaced = checks.stand_in(f"""printf '%s\\n' "$@" > "{words}"
exit 7""")
    checks.same("a word with a space ends it as its program does", Start(spaced, file, "80", "--origin", "two words", "*").end()[0], 7)
    checks.same("and each word is passed on whole", words.read_text().splitlines()[-3:], ["--origin", "two words", "*"])
    bare = checks.stand_in(f"""echo "$*" > "{words}"
exit 7""")
    checks.same("without words it ends as its program does", Start(bare).end()[0], 7)
    checks.same("which had the file and the port of the first lines of the script", words.read_text(), "serve rooms.journal 8080 --until-eof\n")
    checks.same("with a file alone it ends as its program does", Start(bare, "--new", "some.journal").end()[0], 7)
    checks.same("which had that file, and the port of the first lines", words.read_text(), "serve some.journal 8080 --until-eof --new 536870944\n")


def the_fault_is_last(checks):
    """The version is logged before the server starts, however soon that fails."""
    file = new_file(checks)
    fault = checks.stand_in("echo 'stompd: J3 device failed' >&2; exit 1")
    (fault.parent / "VERSION").write_text("stompd 1.2.3, not proved\n", encoding="utf-8")
    for _ in range(checks.moments):
        start = Start(fault, file, free_port())
        logged = start.process.communicate(timeout=PATIENCE)[1]
        checks.same("a server that fails ends it, and its fault is the last line", (start.process.returncode, logged), (1, "serve: stompd 1.2.3, not proved\nstompd: J3 device failed\n"))


def options(checks):
    """Each option of docs/CLI.md, given after PORT, does what that page says."""
    usage = re.search(r"^`stompd serve FILE PORT (.*?)` listens", (TOP / "docs" / "CLI.md").read_text(encoding="utf-8"), re.M)[1]
    # --until-eof is the script's own: it ends its server so.
    checks.same("these are all options", sorted(re.findall(r"--[a-z-]+", usage)), ["--json", "--memory", "--new", "--origin", "--threads", "--until-eof"])
    threads = []
    for count in (2, 7):
        file, port = new_file(checks), free_port()
        start = Start(checks.program, file, port, "--origin", "http://here:1", "--threads", str(count), "--memory", "16M", "--new", "64M", "--json")
        checks.check("it serves", start.listens())
        server = child_with(start, "serve")
        threads.append(len(os.listdir(f"/proc/{server}/task")))
        checks.same("--new makes a journal of that size", file.stat().st_size, 64 << 20)
        for origin, status in (("http://here:1", "101"), ("http://there:1", "403")):
            with socket.create_connection(("127.0.0.1", port), timeout=PATIENCE) as page:
                page.sendall(handshake(port, offer="v12.stomp", headers=[("Origin", origin)]))
                checks.same(f"--origin: a page of {origin} is answered", page.recv(4_096).decode().split()[1], status)
        start.process.send_signal(signal.SIGTERM)
        logged = [json.loads(line) for line in start.process.communicate(timeout=PATIENCE)[1].splitlines() if not VERSION.match(line)]
        checks.same("--json and --memory: an object says how much clients may hold", [it["memory_bytes"] for it in logged if it["kind"] == "started"], [16 << 20])
    checks.same("--threads: with five threads more it has five more", threads[1] - threads[0], 5)


def servers_that_end_late(checks):
    """A server is waited for, a second signal is none, and after eight seconds it is killed."""
    file = new_file(checks)
    began, told, done = (file.parent / it for it in ("began", "told", "done"))
    slow = checks.stand_in(f': > "{began}"; cat > /dev/null; : > "{told}"; sleep 1; : > "{done}"; exit 0')
    for first, second in itertools.product(STATUSES, STATUSES):
        what = f"{second.name} after {first.name}"
        start, sent = Start(slow, file, free_port()), time.monotonic()
        wait_until(began.exists)
        start.process.send_signal(first)
        wait_until(told.exists)
        checks.same(f"{what} while its server ends changes nothing", start.end(second)[0], STATUSES[first])
        ended = time.monotonic()
        checks.check(f"{what}: its server has ended by itself, and is no longer waited for", done.exists() and ended - sent < GRACE, ended - sent)
        with contextlib.suppress(AssertionError):
            wait_until(lambda: not group_of(start), GRACE / 2)
        checks.same(f"{what}: nor is anything else of it left, which would wait until then", group_of(start), [])
        for it in (began, told, done):
            it.unlink(missing_ok=True)
    deaf = checks.stand_in(f': > "{began}"; exec sleep 600')
    start = Start(deaf, file, free_port())
    wait_until(began.exists)
    sent = time.monotonic()
    checks.same("a server that doesn't end is killed", start.end(signal.SIGTERM)[0], 143)
    checks.check(f"after {GRACE} seconds", GRACE - 0.5 < time.monotonic() - sent < GRACE + 4, time.monotonic() - sent)


def child_with(start, word):
    """The process of a start's group among whose words that one stands, and that is no shell."""
    for words in pathlib.Path("/proc").glob("[0-9]*/cmdline"):
        with contextlib.suppress(OSError, ProcessLookupError):
            said = words.read_bytes().split(b"\0")
            if word.encode() in said and os.getpgid(int(words.parent.name)) == start.process.pid and not said[0].endswith(b"sh"):
                return int(words.parent.name)
    return None


def full_pipe():
    """A pipe that takes nothing more, with both of its ends."""
    reads, writes = os.pipe()
    os.set_blocking(writes, False)
    for size in (4_096, 64, 1):
        with contextlib.suppress(BlockingIOError):
            while True:
                os.write(writes, b"x" * size)
    os.set_blocking(writes, True)
    return reads, writes


def nobody_reads(checks):
    file, port = new_file(checks), free_port()
    start = Start(checks.program, "--new", file, port)
    checks.check("it serves", start.listens())
    start.process.stdout.close()
    start.process.stderr.close()
    publish(port, "though nobody reads")
    checks.same("it goes on if its reader has left", (start.process.poll(), found_in(port)), (None, ["though nobody reads"]))
    start.process.send_signal(signal.SIGTERM)
    checks.same("and ends in good order", start.process.wait(PATIENCE), 143)
    reads, writes = full_pipe()
    version = file.parent / "VERSION"
    shutil.copy2(checks.program, file.parent / "program")
    version.write_text("stompd 1.2.3, not proved\n", encoding="utf-8")
    for _ in range(checks.moments):
        start = Start(file.parent / "program", file, port, errors=writes)
        checks.check("it serves though standard error was full before", start.listens())
        start.process.send_signal(signal.SIGTERM)
        checks.same("and ends in good order then too", start.process.wait(PATIENCE), 143)
        checks.same("and nothing of it is left, though still nobody reads", group_of(start), [])
    os.close(reads)
    os.close(writes)


def a_signal_to_the_group(checks):
    for sent, status in STATUSES.items():
        file, port = new_file(checks), free_port()
        start = Start(checks.program, "--new", file, port)
        checks.check("it serves", start.listens())
        client = Client(port).connect()
        os.killpg(start.process.pid, sent)
        checks.same(f"{sent.name} to its group: its clients hear 1001", client.to_the_end()[1], 1001)
        checks.same("it ends as by one to itself", start.end(), (status, f"stompd: made the journal {file}\n"))


def a_killed_script(checks):
    """If the script is killed, the server ends in the same way: nobody else holds the other end of its input, and the server has no more of the script's."""
    file, port = new_file(checks), free_port()
    subprocess.run([checks.program, "format", "--sparse", file, "64M"], check=True)
    (file.parent / "VERSION").write_text("stompd 1.2.3, not proved\n", encoding="utf-8")
    shutil.copy2(checks.program, file.parent / "program")
    # Standard error is full.
    reads, writes = full_pipe()
    start = Start(file.parent / "program", file, port, errors=writes)
    checks.check("it serves", start.listens())
    server = child_with(start, "serve")
    held = {it.name: os.readlink(it) for it in pathlib.Path(f"/proc/{server}/fd").iterdir()}
    checks.same("its server has one file of the script, its input", [it for it in held if held[it].endswith(" (deleted)")], ["0"])
    client = Client(port).connect()
    start.process.kill()
    checks.same("its clients are closed with 1001 if it is killed", client.to_the_end()[1], 1001)
    with contextlib.suppress(AssertionError):
        wait_until(lambda: child_with(start, "serve") is None, GRACE)
    checks.same("and its server ends", child_with(start, "serve"), None)
    os.close(reads)
    os.close(writes)


def builds(checks):
    """A copy of the script stands beside a stand-in for bin/build."""
    top, file, port = pathlib.Path(tempfile.mkdtemp(dir=checks.folder)), new_file(checks), free_port()
    (top / "bin").mkdir()
    (top / "crates" / "stompd" / "out").mkdir(parents=True)
    script, build = shutil.copy2(SERVE, top / "bin"), top / "bin" / "build"
    (top / "crates" / "stompd" / "out" / "stompd").symlink_to(checks.program)

    def with_build(text, *words):
        build.write_text(f"#!/bin/sh\n{text}\n", encoding="utf-8")
        build.chmod(0o755)
        return Start(None, *words, "--new", file, port, script=script)

    checks.same("a build that fails ends it", with_build("echo 'stompd: the build of x failed' >&2; exit 1").end(), (1, "stompd: the build of x failed\n"))
    for sent, status in STATUSES.items():
        heard, began = file.parent / f"heard-{sent.name}", file.parent / f"began-{sent.name}"
        start = with_build(f"trap ': > \"{heard}\"; exit 143' TERM; : > \"{began}\"; while :; do sleep 0.02; done")
        wait_until(began.exists)
        checks.same(f"{sent.name} while it builds", start.end(sent), (status, ""))
        checks.check("the build is told to end, and has ended", heard.exists())
    heard, began = file.parent / "heard late", file.parent / "began early"
    start = with_build(f"trap '' TERM; : > \"{began}\"; sleep 1.5; trap ': > \"{heard}\"; exit 143' TERM; while :; do sleep 0.02; done")
    wait_until(began.exists)
    checks.same("a signal that a build loses while it starts", start.end(signal.SIGTERM, GRACE), (143, ""))
    checks.check("is sent again until the build has ended", heard.exists())
    checks.check("no journal was made", not file.exists())
    asked = file.parent / "asked"
    asks = f"echo \"$*\" >> '{asked}'"
    unproved = file.parent / "unproved"
    unproved.mkdir()
    shutil.copy2(checks.program, unproved / "stompd")
    (unproved / "VERSION").write_text("stompd 1.2.3, not proved\n", encoding="utf-8")
    start = with_build(f"{asks}; echo '{unproved}/stompd'")
    checks.check("a program whose path the build prints serves", start.listens())
    checks.same("it is that program", os.readlink(f"/proc/{child_with(start, 'serve')}/exe"), str(unproved / "stompd"))
    start.process.send_signal(signal.SIGTERM)
    checks.check("its version is logged", "serve: stompd 1.2.3, not proved\n" in start.process.communicate()[1])
    start = with_build(asks, "--proved")
    checks.check("with --proved what was built serves", start.listens())
    checks.same("and ends", start.end(signal.SIGTERM)[0], 143)
    checks.same("the build was asked for any program, and then for the proved one", asked.read_text().splitlines(), ["--any", ""])
    start = with_build("exit 0")
    checks.check("what was built serves", start.listens())
    checks.same("and ends", start.end(signal.SIGTERM)[0], 143)
    (top / "stompd").symlink_to(checks.program)
    start = with_build("echo 'stompd: the build of x failed' >&2; exit 1")
    checks.check("a program at the top serves, and nothing is built", start.listens())
    checks.same("and ends so", start.end(signal.SIGTERM), (143, ""))


def an_archive(checks):
    """The script of an archive has its program beside it, and nothing to build."""
    top, file, port = pathlib.Path(tempfile.mkdtemp(dir=checks.folder)), new_file(checks), free_port()
    script = shutil.copy2(SERVE, top)
    shutil.copy2(checks.program, top / "stompd")
    start = Start(None, "--new", file, port, script=script)
    checks.check("the program beside the script serves", start.listens())
    checks.same("it is that program", os.readlink(f"/proc/{child_with(start, 'serve')}/exe"), str(top / "stompd"))
    checks.same("and ends", start.end(signal.SIGTERM)[0], 143)
    link = file.parent / "linked"
    link.symlink_to(script)
    start = Start(None, file, port, script=link)
    checks.check("by a link to the script too", start.listens())
    checks.same("which ends so", start.end(signal.SIGTERM)[0], 143)


SCENARIOS = [
    words_and_programs,
    a_first_start,
    signals_at_any_moment,
    what_the_server_logs,
    the_fault_is_last,
    options,
    servers_that_end_late,
    nobody_reads,
    a_signal_to_the_group,
    a_killed_script,
    builds,
    an_archive,
]


def try_one(checks, scenario):
    """Runs a scenario, and ends all that it has started. What it raises is a failed check."""
    try:
        scenario(checks)
    except Exception as error:
        checks.check(f"{scenario.__name__} runs to its end", False, repr(error))
    finally:
        for start in Start.every:
            start.kill_all()
        Start.every.clear()


def main():
    parser = words_of(__doc__)
    parser.add_argument("--few", action="store_true", help="fewer moments")
    words = parser.parse_args()
    with tempfile.TemporaryDirectory(prefix="stompd-serve-") as folder:
        checks = Checks(words.program, pathlib.Path(folder), words.few)
        for scenario in SCENARIOS:
            try_one(checks, scenario)
    return checks.status()


if __name__ == "__main__":
    sys.exit(main())
