"""What the scripts share: a broker over a journal in a temporary folder, and a line for each check."""

import argparse
import concurrent.futures
import contextlib
import io
import os
import pathlib
import random
import re
import resource
import select
import shutil
import signal
import socket
import subprocess
import sys
import tempfile
import threading
import time
import traceback

TOP = pathlib.Path(__file__).resolve().parent.parent.parent
BUILT = TOP / "crates" / "stompd" / "out" / "stompd"

# Two areas of 512 MiB. The file is sparse: it takes what is written. Most scripts see no compaction so.
JOURNAL_BYTES = 1_073_741_856

# A line of the log: `stompd: `, the moment (RFC 3339, section 5.6, in UTC), and what happened.
LINE = re.compile(r"stompd: (\d{4}-\d\d-\d\dT\d\d:\d\d:\d\dZ) (.*)\n")

# Where a journal in memory is, and how many bytes have to be free there.
MEMORY, ROOM_FOR_JOURNAL = pathlib.Path("/dev/shm"), 1 << 30


def keep_journals_in_memory():
    """From now on journals are made in memory, if that has room. This is for scripts that look how long clients keep each other waiting: a disk that other
    programs keep busy may take seconds for a sync, and each receipt waits for that."""
    if MEMORY.is_dir() and shutil.disk_usage(MEMORY).free >= ROOM_FOR_JOURNAL:
        tempfile.tempdir = str(MEMORY)


class Ports:
    """A range of ports, below those that the system gives to clients, that no other process has from here: it holds a name of the network's for it."""

    FIRST, SPAN = 10_000, 200

    def __init__(self):
        end = int(pathlib.Path("/proc/sys/net/ipv4/ip_local_port_range").read_text(encoding="ascii").split()[0])
        ranges = range(max(end - self.FIRST, 2_000) // self.SPAN)
        self.process, self.count = os.getpid(), 0
        for number in random.sample(ranges, len(ranges)):
            self.held, self.first = socket.socket(socket.AF_UNIX), self.FIRST + number * self.SPAN
            with contextlib.suppress(OSError):
                self.held.bind(f"\0stompd tests, ports from {self.first}")
                return
            self.held.close()
        raise RuntimeError("other tests have all the ports")

    def next(self):
        self.count += 1
        return self.first + self.count % self.SPAN


class Shared:
    """What the threads of this process share."""

    lock, ports = threading.Lock(), None


def free_port():
    """A port at which nobody listens, and that no other test takes. It isn't bound to find that out: a process that another thread is just starting would
    have it bound for a moment longer."""
    with Shared.lock:
        # A child of a fork takes a range of its own.
        if Shared.ports is None or Shared.ports.process != os.getpid():
            Shared.ports = Ports()
        while True:
            port = Shared.ports.next()
            with socket.socket() as probe:
                if probe.connect_ex(("127.0.0.1", port)) != 0:
                    return port


def take_descriptors():
    """Lets this process, and those that it starts, have as many sockets as the system allows."""
    _, most = resource.getrlimit(resource.RLIMIT_NOFILE)
    resource.setrlimit(resource.RLIMIT_NOFILE, (most, most))


def child_of(number):
    """The one child of a process: the server of a program that traces it."""
    return int(pathlib.Path(f"/proc/{number}/task/{number}/children").read_text(encoding="ascii"))


def processor_seconds_of(number):
    """The processor time that a process has taken, in its own code and in the system's."""
    # After the name, which is in brackets, the fields begin with the third.
    fields = pathlib.Path(f"/proc/{number}/stat").read_text(encoding="ascii").rsplit(") ", 1)[1].split()
    return (int(fields[11]) + int(fields[12])) / os.sysconf("SC_CLK_TCK")


class Unserved(RuntimeError):
    """A broker does not say that it listens: the status with which it ended, and what it told."""

    def __init__(self, status, told):
        super().__init__(f"the broker does not serve: {told}")
        self.status, self.told = status, told


class Broker:
    """The program, serving a journal. What it logs is read all the while."""

    def __init__(self, program, journal, port=None, more=(), before=(), limits=None, is_read=True, **how):
        """With `more` words of its command line, behind words as those of strace, and under limits by their names in `resource`. How is for Popen."""
        self.program, self.journal, self.port, self.more, self.before = program, journal, port or free_port(), more, before
        self.how = {"stdin": subprocess.PIPE if "--until-eof" in more else subprocess.DEVNULL, "stderr": subprocess.PIPE, **how}
        if limits:
            self.how["preexec_fn"] = lambda: [set_limit(*it) for it in limits.items()]
        self.is_read = is_read
        self.serve()

    def serve(self):
        # Its lines, each with the moment at which it came.
        self.lines, self.reader = [], None
        words = [*self.before, self.program, "serve", self.journal, self.port, *self.more]
        self.process = subprocess.Popen(list(map(str, words)), stdout=subprocess.PIPE, bufsize=0, **self.how)
        if self.is_read:
            self.read()
        if not self.listens():
            with contextlib.suppress(subprocess.TimeoutExpired):
                self.process.wait(10)
            self.kill()
            raise Unserved(self.process.returncode, self.text())

    def listens(self, seconds=60):
        """Whether it says that it listens, at its start or again."""
        return bool(select.select([self.process.stdout], [], [], seconds)[0]) and self.process.stdout.readline() == b"listening %d\n" % self.port

    def read(self):
        if self.process.stderr:
            self.reader = threading.Thread(target=self.read_on, daemon=True)
            self.reader.start()

    def read_on(self):
        for line in io.BufferedReader(self.process.stderr):
            self.lines.append((time.monotonic(), line.decode(errors="replace")))

    def fill_log(self):
        """Takes all room of the pipe into which it logs."""
        with open(f"/proc/{self.number()}/fd/2", "wb", buffering=0) as pipe:
            os.set_blocking(pipe.fileno(), False)
            for size in (4_096, 64, 1):
                while pipe.write(b"\n" * size):
                    pass

    def text(self):
        return "".join(line for _, line in list(self.lines))

    def told(self, word, seconds=3.0):
        """What its lines with that word say after their moment, once there is one or so much time has passed."""
        end = time.monotonic() + seconds
        while True:
            found = [LINE.fullmatch(line)[2] for _, line in list(self.lines) if word in line and LINE.fullmatch(line)]
            if found or time.monotonic() > end:
                return found
            time.sleep(0.05)

    def count(self, form):
        """How many were told by lines of that form, which has a group for the number."""
        return sum(int(it) for it in re.findall(form, self.text()))

    def await_count(self, form, count, seconds):
        end = time.monotonic() + seconds
        while self.count(form) < count and time.monotonic() < end:
            time.sleep(0.1)
        return self.count(form)

    def number(self):
        """The number of its process, which is not that of a program that traces it."""
        return child_of(self.process.pid) if self.before else self.process.pid

    def end(self):
        """Closes its input. The status with which it ends, and after how many seconds."""
        began = time.monotonic()
        self.process.stdin.close()
        return self.await_end(), time.monotonic() - began

    def await_end(self, seconds=20):
        """Waits until it ends by itself: the status."""
        status = self.process.wait(seconds)
        self.close()
        return status

    def kill(self):
        # A program that traces it ends with it, and by the same signal.
        if self.process.poll() is None:
            with contextlib.suppress(ValueError, OSError):
                os.kill(self.number(), signal.SIGKILL)
        self.process.wait()
        self.close()

    def close(self):
        if self.reader:
            self.reader.join(10)
        for stream in (self.process.stdin, self.process.stdout, self.process.stderr):
            if stream:
                stream.close()

    def has_failed(self):
        """Whether one that was killed had ended by itself before."""
        return self.process.returncode != -signal.SIGKILL

    def again(self):
        """Kills it and serves the same file at the same port."""
        self.kill()
        self.serve()

    @contextlib.contextmanager
    def standing_still(self):
        """It is stopped meanwhile. A thread may go on for a moment after the signal, so this waits until none does."""
        self.process.send_signal(signal.SIGSTOP)
        os.waitpid(self.process.pid, os.WUNTRACED)
        try:
            yield
        finally:
            self.process.send_signal(signal.SIGCONT)

    def is_running(self):
        return self.process.poll() is None

    def processor_seconds(self):
        return processor_seconds_of(self.number())

    def memory(self, name):
        """So many KiB of it, as the system counts them: `VmRSS` now, `VmHWM` at most since `forget_peak`. It has to run."""
        with open(f"/proc/{self.number()}/status", encoding="ascii") as status:
            return next(int(line.split()[1]) for line in status if line.startswith(name + ":"))

    def forget_peak(self):
        with open(f"/proc/{self.number()}/clear_refs", "w", encoding="ascii") as clear:
            clear.write("5")

    def count_of_threads(self):
        return len(os.listdir(f"/proc/{self.number()}/task"))

    def count_of_descriptors(self):
        return len(os.listdir(f"/proc/{self.number()}/fd"))


def set_limit(name, value):
    """Sets the limit that counts, under the one that it may be raised to."""
    kind = getattr(resource, f"RLIMIT_{name}")
    resource.setrlimit(kind, (value, resource.getrlimit(kind)[1]))


def slow_syncs(folder, **settings):
    """The environment of a program whose syncs wait, as the settings of bench/slow_sync.c say. Needs a C compiler."""
    built = f"{folder}/slow_sync.so"
    subprocess.run(["cc", "-O2", "-shared", "-fPIC", "-o", built, TOP / "bench" / "slow_sync.c"], check=True)
    return {**os.environ, "LD_PRELOAD": built, **{name: str(value) for name, value in settings.items()}}


def make_journal(program, path, journal_bytes=JOURNAL_BYTES):
    subprocess.run([program, "format", "--sparse", path, str(journal_bytes)], check=True)
    return path


@contextlib.contextmanager
def serving(program, journal_bytes=JOURNAL_BYTES, kind=Broker, **options):
    """A broker over a new journal, which is killed at the end."""
    with tempfile.TemporaryDirectory(prefix="stompd-") as folder:
        broker = kind(program, make_journal(program, os.path.join(folder, "journal"), journal_bytes), **options)
        try:
            yield broker
        finally:
            broker.kill()


class Checks:
    """Counts checks and those that failed, and prints a line for each, or for those alone if it is brief."""

    is_brief = False

    def __init__(self):
        self.count = self.failed = 0

    def check(self, what, holds, seen=None):
        self.count += 1
        if not holds:
            self.failed += 1
            print(f"FAIL  {what}; seen: {seen!r}", flush=True)
        elif not self.is_brief:
            print(f"ok    {what}", flush=True)

    def same(self, what, seen, expected):
        self.check(what, seen == expected, f"{seen!r} and not {expected!r}")

    def tell(self, what):
        print(f"      {what}", flush=True)

    def status(self):
        """Prints the counts, and answers the status with which a script ends."""
        print(f"{self.count} checked, {self.failed} failed", flush=True)
        return 1 if self.failed else 0


class BriefChecks(Checks):
    """Those of a program, of which there are too many for a line each."""

    is_brief = True

    def __init__(self, program, folder=None):
        super().__init__()
        self.program, self.folder = program, folder


def try_one(scenario, broker, checks):
    """Runs a scenario. What it raises is a failed check."""
    print(f"{scenario.__name__.replace('_', ' ')}: {scenario.__doc__}", flush=True)
    try:
        scenario(broker, checks)
    except Exception as error:
        traceback.print_exc()
        checks.check(f"{scenario.__name__} runs to its end", False, error)


class Words(argparse.ArgumentParser):
    """The words of a script: the program first, and those that it adds."""

    def __init__(self, text):
        super().__init__(description=text, formatter_class=argparse.RawDescriptionHelpFormatter)
        self.add_argument("program", nargs="?", type=pathlib.Path, help="without it $STOMPD, or the one that bin/build has left, the proved one before the unproved one")

    def parse_args(self):
        given = super().parse_args()
        places = [given.program] if given.program else [os.environ.get("STOMPD"), BUILT, BUILT.parent / "unproved" / "stompd"]
        found = [pathlib.Path(it).resolve() for it in places if it and os.access(it, os.X_OK)]
        if not found:
            self.exit(1, f"{pathlib.Path(sys.argv[0]).stem}: there is no program {given.program or ''}; bin/build --unproved compiles one\n")
        given.program = found[0]
        return given


def words_of(text):
    return Words(text)


def program_of(text):
    """The program of a script that has no other words."""
    return Words(text).parse_args().program


def try_parts(text, parts, waiting=()):
    """Tries each part of a script, which is given the program and the checks, those that mostly wait beside the others. Answers the status."""
    program, checks = program_of(text), Checks()
    with concurrent.futures.ThreadPoolExecutor(len(waiting) or 1) as side_by_side:
        waits = [side_by_side.submit(try_one, it, program, checks) for it in waiting]
        for it in parts:
            try_one(it, program, checks)
        for it in waits:
            it.result()
    return checks.status()


def run(text, scenarios):
    """Runs each scenario over one broker, and answers the status: 0 only if every check held."""
    return run_over(program_of(text), scenarios)


def run_over(program, scenarios):
    """The same, for a program that is known."""
    checks = Checks()
    start = time.monotonic()
    with serving(program) as broker:
        for scenario in scenarios:
            try_one(scenario, broker, checks)
        checks.check("the broker still runs", broker.is_running(), broker.process.poll())
    checks.tell(f"{time.monotonic() - start:.1f} s")
    return checks.status()


def run_side_by_side(text, scenarios):
    """The same of scenarios that mostly wait: all at once, each over a broker of its own."""
    program, checks = program_of(text), Checks()

    def run_one(one):
        with serving(program) as broker:
            try_one(one, broker, checks)
            checks.check(f"{one.__name__}: the broker still runs", broker.is_running(), broker.process.poll())

    with concurrent.futures.ThreadPoolExecutor(len(scenarios)) as side_by_side:
        for it in [side_by_side.submit(run_one, one) for one in scenarios]:
            it.result()
    return checks.status()
