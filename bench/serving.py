"""Servers and load for the measurements: starts `stompd serve`, and runs the load generator against it."""

import os
import pathlib
import shutil
import signal
import subprocess
import sys
import time

from lib.scenario import child_of, free_port, processor_seconds_of
from measuring import HERE, cpu_seconds

HEADER = 32
# What the load generator prints when the time that it measures begins and ends.
MOMENTS = ("measured_from", "measured_to")


def build_load(folder):
    """The load generator, which needs a C compiler."""
    if not shutil.which("cc"):
        sys.exit("no C compiler here (cc): the load generator can't be built")
    built = folder / "load"
    subprocess.run(["cc", "-O2", "-Wall", "-o", built, HERE / "load.c", HERE / "client.c"], check=True)
    return built


def build_slow_sync(folder):
    """A library that makes each sync of a program slower."""
    built = folder / "slow_sync.so"
    subprocess.run(["cc", "-O2", "-Wall", "-shared", "-fPIC", "-o", built, HERE / "slow_sync.c"], check=True)
    return built


def build_counting(folder):
    """A library that counts a program's growths of memory."""
    built = folder / "counting.so"
    subprocess.run(["cc", "-O2", "-Wall", "-shared", "-fPIC", "-o", built, HERE.parent / "tests" / "program" / "refuse_memory.c"], check=True)
    return built


def make_journal(program, path, area, *, sparse=True):
    """A new journal with areas of so many bytes."""
    pathlib.Path(path).unlink(missing_ok=True)
    options = ["--sparse"] if sparse else []
    done = subprocess.run([program, "format", *options, path, str(HEADER + 2 * area)], capture_output=True, text=True)
    if done.returncode != 0:
        sys.exit(f"no journal could be made: {done.stderr.strip()}")


def shown(program, path):
    """What `stompd show` says: its numbers by name."""
    done = subprocess.run([program, "show", path], check=True, capture_output=True, text=True)
    return {name: int(value) for name, value in (line.split(" ") for line in done.stdout.splitlines())}


class Measured:
    """A running broker, which is killed at the end."""

    def __enter__(self):
        return self

    def __exit__(self, *_):
        self.kill()

    def cpu(self):
        """How many seconds of processor time it has taken."""
        return processor_seconds_of(self.process.pid)


class Server(Measured):
    """A running server. `started` is how many seconds it took until it listened. `before` are the words of a program that
    runs it as its one child."""

    def __init__(self, program, journal, before=(), environment=None):
        self.port = free_port()
        self.is_child = bool(before)
        begun = time.perf_counter()
        words = [*before, program, "serve", journal, str(self.port)]
        self.process = subprocess.Popen(words, stdout=subprocess.PIPE, stderr=subprocess.PIPE, env=environment)
        line = self.process.stdout.readline()
        self.started = time.perf_counter() - begun
        if line != b"listening %d\n" % self.port:
            sys.exit(f"the server does not listen: {line!r} {self.process.stderr.read().decode(errors='replace')}")

    def kill(self):
        os.kill(child_of(self.process.pid) if self.is_child else self.process.pid, signal.SIGKILL)
        self.process.wait()
        self.process.stdout.close()
        self.process.stderr.close()


class Load:
    """The load generator, against one server or none. `figures` are what it printed, `measured` how many seconds it measured."""

    def __init__(self, built, server, *words, environment=None):
        self.server, self.figures = server, {}
        mode, *rest = (str(word) for word in words)
        place = [str(server.port)] if server else []
        before, begun = cpu_seconds(), time.perf_counter()
        looks = [(begun, 0, server.cpu() if server else 0)]
        with subprocess.Popen([built, mode, *place, *rest], stdout=subprocess.PIPE, stderr=subprocess.PIPE, text=True, env=environment) as process:
            for name, value in (line.split(" ") for line in process.stdout):
                if name in MOMENTS:
                    looks.append(self._look(processor_seconds_of(process.pid)))
                else:
                    self.figures[name] = float(value)
            told = process.stderr.read()
        if process.returncode != 0:
            ended = server and server.process.poll() is not None
            sys.exit(f"{words}: {told.strip()}" + (f"; the server ended: {server.process.stderr.read()}" if ended else ""))
        looks.append(self._look(cpu_seconds() - before))
        self.seconds = looks[-1][0] - begun
        # Without a measured time all of it counts.
        first, last = looks[1:-1] or looks
        self.measured = last[0] - first[0]
        # Processors that the load generator and the server kept busy meanwhile.
        self.busy, self.server_busy = ((last[at] - first[at]) / self.measured for at in (1, 2))

    def _look(self, own):
        """The time, and the processor seconds of the load generator and of the server."""
        return time.perf_counter(), own, self.server.cpu() if self.server else 0

    def __getitem__(self, name):
        return self.figures[name]

    def cost(self, rate):
        """Microseconds of the server's processors for each of what came at that rate."""
        return self.server_busy / rate * 1e6

    def used(self, rate):
        """What of the processors was used for what came at that rate, in words."""
        return f"processors: server {self.server_busy:.2f}, load {self.busy:.2f}; {self.cost(rate):,.1f} us of the server's each"
