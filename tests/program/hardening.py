#!/usr/bin/env python3
"""The commands of deploy/stompd.service under the restrictions that it names: they make a journal, serve it and end as without them.

    python3 tests/program/hardening.py [PROGRAM] [--unit FILE]

No systemd runs. Its lists of system calls are taken from `systemd-analyze`, and a filter of the same calls, address families and kinds of memory is put
before each command, with no capabilities, the unit's umask and, if this is root, another user. What is forbidden is refused to a command under it. Where
systemd-analyze can, it rates the unit too. Needs systemd-analyze (Debian: systemd) and the kernel's headers (linux-libc-dev), on x86-64; without them
it ends with status 2. --unit tries another unit, as one that forbids what is needed.
"""

import ctypes
import os
import pathlib
import re
import shutil
import signal
import socket
import struct
import subprocess
import sys
import tempfile
import time

from lib import scenario
from lib.scenario import TOP
from lib.stomp_client import Client

HEADER = pathlib.Path("/usr/include/x86_64-linux-gnu/asm/unistd_64.h")
NOBODY = 65_534
# Of linux/seccomp.h, linux/prctl.h, linux/filter.h and linux/audit.h.
ALLOW, REFUSE, NO_NEW_PRIVILEGES, SECCOMP, FILTER, DROP = 0x7FFF0000, 0x00050001, 38, 22, 2, 24
LOAD, EQUAL, AND, RETURN, X86_64 = 0x20, 0x15, 0x54, 0x06, 0xC000003E
NUMBER, ARCHITECTURE, FIRST, THIRD = 0, 4, 16, 32
WRITE, EXECUTE = 2, 4
# Less exposed than this, by the scale of systemd, from 0 to 10.
MOST_EXPOSED = 2.0


class Unit:
    def __init__(self, file):
        self.lines = [line.partition("=")[::2] for line in file.read_text(encoding="utf-8").splitlines() if "=" in line and line[0] not in "#["]

    def all(self, name):
        return [value for it, value in self.lines if it == name]

    def one(self, name):
        (value,) = self.all(name)
        return value


def expanded(names):
    """Calls of these names and groups."""
    calls = set()
    for name in names:
        if not name.startswith("@"):
            calls.add(name)
            continue
        told = subprocess.run(["systemd-analyze", "syscall-filter", "--no-pager", name], capture_output=True, text=True, check=True).stdout
        # Its first two lines are the name and what it is.
        calls |= expanded([it.strip() for it in told.splitlines()[1:] if it.strip() and not it.strip().startswith("#")])
    return calls


def allowed_calls(unit):
    """The first line says what is allowed, the others take away and add."""
    allowed = set()
    for line in unit.all("SystemCallFilter"):
        calls = expanded(line.removeprefix("~").split())
        allowed = allowed - calls if line.startswith("~") else allowed | calls
    return allowed


def filter_of(unit):
    """The program of the kernel's filter."""
    numbers = {name: int(number) for name, number in re.findall(r"#define __NR_(\w+) (\d+)", HEADER.read_text(encoding="ascii"))}
    code = [(LOAD, 0, 0, ARCHITECTURE), (EQUAL, 1, 0, X86_64), (RETURN, 0, 0, REFUSE), (LOAD, 0, 0, NUMBER)]
    families = [getattr(socket, it) for it in unit.one("RestrictAddressFamilies").split()]
    allow = [(RETURN, 0, 0, ALLOW)]
    of_family = [part for it in families for part in ((EQUAL, 0, 1, it), *allow)]
    code += when(numbers["socket"], [(LOAD, 0, 0, FIRST), *of_family, (RETURN, 0, 0, REFUSE)])
    if unit.one("MemoryDenyWriteExecute") == "yes":
        for name, kinds in (("mmap", WRITE | EXECUTE), ("mprotect", EXECUTE)):
            code += when(numbers[name], [(LOAD, 0, 0, THIRD), (AND, 0, 0, kinds), (EQUAL, 0, 1, kinds), (RETURN, 0, 0, REFUSE), *allow])
    for it in sorted(numbers[name] for name in allowed_calls(unit) if name in numbers):
        code += when(it, allow)
    return [*code, (RETURN, 0, 0, REFUSE)]


def when(number, then):
    """Does this if the call has that number."""
    return [(EQUAL, 0, len(then), number), *then]


class Restricted:
    """Starts commands under a unit's restrictions."""

    def __init__(self, unit):
        self.umask, self.libc = int(unit.one("UMask"), 8), ctypes.CDLL(None, use_errno=True)
        code = filter_of(unit)
        self.code = ctypes.create_string_buffer(b"".join(struct.pack("HBBI", *it) for it in code))
        self.program = ctypes.create_string_buffer(struct.pack("HxxxxxxP", len(code), ctypes.addressof(self.code)))

    def enter(self):
        os.umask(self.umask)
        if os.geteuid() == 0:
            for capability in range(64):
                self.libc.prctl(DROP, capability, 0, 0, 0)
            os.setgroups([])
            os.setgid(NOBODY)
            os.setuid(NOBODY)
        assert self.libc.prctl(NO_NEW_PRIVILEGES, 1, 0, 0, 0) == 0 and self.libc.prctl(SECCOMP, FILTER, self.program, 0, 0) == 0

    def start(self, words, **more):
        return subprocess.Popen(words, preexec_fn=self.enter, **more)

    def run(self, words, **more):
        with self.start(words, stdout=subprocess.PIPE, stderr=subprocess.PIPE, start_new_session=True, **more) as process:
            try:
                out, said = process.communicate(timeout=20)
            except subprocess.TimeoutExpired:
                os.killpg(process.pid, signal.SIGKILL)
                return None, "no end within 20 s"
        return process.returncode, (out + said).decode()


def forbidden(restricted, checks):
    """A command that tries what the unit forbids, each in a line of Python."""
    tries = {
        "a socket of another family": "import socket; socket.socket(socket.AF_UNIX)",
        "another root": "import os; os.chroot('/')",
        "a change of the clock": "import time; time.clock_settime(time.CLOCK_REALTIME, 0)",
        "another priority": "import os; os.setpriority(os.PRIO_PROCESS, 0, 5)",
        "memory to write and to execute": "import mmap; mmap.mmap(-1, 4096, prot=mmap.PROT_WRITE | mmap.PROT_EXEC)",
    }
    for what, line in tries.items():
        status, said = restricted.run(["/usr/bin/python3", "-c", f"import sys\ntry:\n    {line}\nexcept PermissionError:\n    sys.exit(77)"])
        checks.same(f"{what} is refused", status, 77) if status != 1 else checks.check(f"{what} is refused", False, said)


def used(broker_port):
    """Has clients use a server: rooms, a queue, durable names, and many that leave without a word."""
    crowd = [Client(broker_port).connect() for _ in range(60)]
    for client in crowd:
        client.subscribe("s", "/topic/room")
    crowd[0].publish("/topic/room", "to all")
    heard = sum(client.receive().body == "to all" for client in crowd[1:])
    # A journal of 8 MiB is compacted meanwhile.
    for number in range(300):
        crowd[1].publish("/queue/jobs" if number % 15 == 0 else "/topic/none", "x" * 50_000)
    durable = Client(broker_port).connect("kiosk")
    durable.subscribe("d", "/topic/news", headers=[("activemq.subscriptionName", "d")])
    for client in (*crowd, durable):
        client.close()
    return heard


def try_service(unit, restricted, opt, folder, port, checks):
    """Runs the unit's commands, in a folder of their own, with a small journal and at another port."""
    here = lambda line: line.replace("/opt/stompd/", f"{opt}/").replace("/var/lib/stompd", str(folder)).replace("512M", "8M").replace("8080", str(port))
    shell = lambda name: ["/bin/sh", "-c", re.fullmatch(r"/bin/sh -c '(.*)'", here(unit.one(name)))[1]]
    # A file may replace what the unit sets. systemd splits what stands without braces.
    variables = dict(it.split("=", 1) for it in unit.one("Environment").split())
    for turn, more in (("first", ""), ("second", "--threads 2 --json")):
        variables["STOMPD_OPTIONS"] = more
        words = [word for it in here(unit.one("ExecStart")).split() for word in (variables[it[1:]].split() if it[0] == "$" and it[1] != "{" else [re.sub(r"\$\{(\w+)\}", lambda name: variables[name[1]], it)])]
        before = restricted.run(shell("ExecStartPre"))
        checks.same(f"the {turn} start is prepared", before, (0, ""))
        if before != (0, ""):
            return
        with restricted.start(words, stderr=subprocess.PIPE, stdout=subprocess.DEVNULL) as server:
            try:
                status, said = restricted.run(shell("ExecStartPost"), env={**os.environ, "MAINPID": str(server.pid)})
                checks.check(f"the {turn} start is answered", status == 0 and said.startswith("receipt after "), said)
                checks.same("each client hears", used(port) if status == 0 else None, 59)
                # The server looks after its file each second.
                time.sleep(1.5)
            finally:
                server.send_signal(signal.SIGTERM)
                _, log = server.communicate(timeout=20)
        checks.same("it ends as the unit expects", server.returncode, int(unit.one("SuccessExitStatus")))
        ending, allowed = ('"kind":"ending"', '"clients":16384') if more else ("ending: asked to", "16384 clients allowed")
        checks.check("in good order, with no failure", ending in log.decode() and "J3" not in log.decode(), log.decode())
        checks.check("with all its clients counted", allowed in log.decode(), log.decode())
    journal = folder / "rooms.journal"
    checks.same("nobody else may read what it made", [it.stat().st_mode & 0o077 for it in folder.iterdir()], [0] * 2)
    held = subprocess.run([opt / "stompd", "held", journal], capture_output=True, text=True, check=True).stdout
    checks.check("and it holds what was acknowledged", held.startswith("messages 40 "), held)


def rate(file, checks):
    """What systemd says of the unit, as far as this one can say it of a file."""
    rated = subprocess.run(["systemd-analyze", "security", "--offline=true", "--no-pager", file], capture_output=True, text=True)
    found = re.search(r"Overall exposure level for .*: ([\d.]+)", rated.stdout)
    if found is None:
        checks.tell("the unit was not rated: this systemd-analyze rates no files")
        return
    checks.check(f"its exposure is at most {MOST_EXPOSED}", float(found[1]) <= MOST_EXPOSED, found[1])


def main():
    parser = scenario.words_of(__doc__)
    parser.add_argument("--unit", type=pathlib.Path, default=TOP / "deploy" / "stompd.service")
    words = parser.parse_args()
    program, unit, checks = words.program, Unit(words.unit), scenario.Checks()
    if shutil.which("systemd-analyze") is None or not HEADER.exists():
        print(f"hardening.py needs systemd-analyze and {HEADER}", file=sys.stderr)
        return 2
    scenario.take_descriptors()
    restricted = Restricted(unit)
    rate(words.unit, checks)
    forbidden(restricted, checks)
    with tempfile.TemporaryDirectory(prefix="stompd-hardening-") as room:
        opt, folder = pathlib.Path(room) / "opt", pathlib.Path(room) / "var"
        for it in (opt, folder):
            it.mkdir()
        shutil.copy(program, opt / "stompd")
        shutil.copy(TOP / "bin" / "serve", opt / "serve")
        for it in (pathlib.Path(room), opt):
            it.chmod(0o755)
        if os.geteuid() == 0:
            os.chown(folder, NOBODY, NOBODY)
        try_service(unit, restricted, opt, folder, scenario.free_port(), checks)
    return checks.status()


if __name__ == "__main__":
    sys.exit(main())
