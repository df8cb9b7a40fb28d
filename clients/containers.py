#!/usr/bin/env python3
"""deploy/Dockerfile and compose.yaml, tried with Docker; and the Debian package and its service, tried with a systemd in a container.

    python3 clients/containers.py [PROGRAM] [--only WORD]

The containers are made in the folder of an archive of bin/release. Over wss one sends to a queue; then the broker is stopped, its process killed and
stopped for a while: what had a receipt is there, Docker starts it again, and finds it unhealthy. The package is installed beside a running systemd:
it starts nothing, the service answers once it counts as started, it is started again after a kill and after two pings that nobody answered, and an
upgrade, a removal and a purge keep the journal. It takes some five minutes.

Needs Docker, whose daemon runs, and Compose (Debian: docker.io docker-compose), openssl and dpkg-deb; and the image debian:bookworm-slim. Where that
can't be pulled, one of that name is made by debootstrap, for which this has to run as root. If any of these is missing, the status is 2. It removes
what it has made in Docker, but for that image.
"""

import json
import os
import pathlib
import re
import shutil
import subprocess
import sys
import tarfile
import tempfile
import time
import traceback

from lanes import PAGE, SecureClient, lasting_port, login, make_certificate
from lib import scenario
from lib.stomp_client import Closed, Refused

TOP = pathlib.Path(__file__).resolve().parent.parent
DEBIAN = "debian:bookworm-slim"
ANSWERED = re.compile(r"receipt after \d+\.\d{3} ms\n")
# A systemd as the first process of a container.
WITH_SYSTEMD = f"""FROM {DEBIAN}
RUN apt-get update && apt-get install -y --no-install-recommends systemd systemd-sysv && rm -rf /var/lib/apt/lists/*
STOPSIGNAL SIGRTMIN+3
CMD ["/sbin/init"]
"""
SYSTEMD_NEEDS = ["--cap-add", "SYS_ADMIN", "--security-opt", "seccomp=unconfined", "--security-opt", "apparmor=unconfined", "--cgroupns=host"]
SYSTEMD_NEEDS += ["-v", "/sys/fs/cgroup:/sys/fs/cgroup:rw", "--tmpfs", "/run", "--tmpfs", "/run/lock"]


# Prints where the system tells of the broker, which alone has this word: the script beside it does not.
WHICH_SERVES = "grep -lzx -e --until-eof /proc/[0-9]*/cmdline"


def said(*words, **more):
    """What a program prints; it has to end with status 0."""
    done = subprocess.run(words, capture_output=True, text=True, **more)
    if done.returncode != 0:
        raise AssertionError(f"{' '.join(map(str, words))}: {done.returncode}: {(done.stdout + done.stderr)[-2000:]}")
    return done.stdout


def docker(*words, **more):
    return said("docker", *words, **more)


def wait_until(holds, seconds):
    """Whether that comes to hold within so many seconds."""
    end = time.monotonic() + seconds
    while time.monotonic() < end:
        if holds():
            return True
        time.sleep(0.5)
    return holds()


def is_ready(*words):
    """Whether a program is there, and does that."""
    return shutil.which(words[0]) is not None and subprocess.run(words, capture_output=True).returncode == 0


def lacks():
    """What is missing, if anything is."""
    if not is_ready("docker", "info"):
        return "docker, with its daemon"
    if compose_words() is None:
        return "docker compose"
    missing = [it for it in ("openssl", "dpkg-deb", "git") if shutil.which(it) is None]
    return missing[0] if missing else None if has_debian() else f"the image {DEBIAN}"


def compose_words():
    return next((words for words in (["docker", "compose"], ["docker-compose"]) if is_ready(*words, "version")), None)


def has_debian():
    """Whether the image is there, or can be pulled or made."""
    if is_ready("docker", "image", "inspect", DEBIAN) or is_ready("docker", "pull", DEBIAN):
        return True
    if shutil.which("debootstrap") is None or os.geteuid() != 0:
        return False
    with tempfile.TemporaryDirectory(prefix="stompd-debian-") as folder:
        said("debootstrap", "--variant=minbase", "bookworm", folder)
        said("sh", "-c", f"tar -C {folder} -c . | docker import - {DEBIAN}")
    print(f"      {DEBIAN} was made by debootstrap")
    return True


def unpacked(program, folder):
    """The folder of an archive of the program, and the package."""
    said(TOP / "bin" / "release", folder, "--pack", program)
    (archive,), (package,) = folder.glob("*.tar.gz"), folder.glob("*.deb")
    with tarfile.open(archive) as opened:
        opened.extractall(folder / "archive", filter="data")
    (base,) = (folder / "archive").iterdir()
    return base, package


class Compose:
    """The containers of compose.yaml, under a name of this trial, at a port of its own, which look after their health more often."""

    def __init__(self, base):
        self.base, self.port = base, lasting_port()
        self.replace("deploy/compose.yaml", "443:443", f"127.0.0.1:{self.port}:443")
        self.replace("deploy/Dockerfile", "--interval=30s", "--interval=2s")
        self.words = [*compose_words(), "-p", f"stompd-trial-{os.getpid()}", "-f", base / "deploy" / "compose.yaml"]

    def replace(self, name, old, new):
        text = (self.base / name).read_text()
        assert old in text, (name, old)
        (self.base / name).write_text(text.replace(old, new))

    def run(self, *words):
        return said(*self.words, *words, cwd=self.base)

    def container(self, service):
        return self.run("ps", "-q", service).strip()

    def state(self, service="broker"):
        return json.loads(docker("inspect", self.container(service)))[0]["State"]

    def inside(self, *words):
        return docker("exec", self.container("broker"), *words)

    def is_healthy(self):
        return self.state().get("Health", {}).get("Status") == "healthy"

    def signal_server(self, name):
        """Sends a signal to the broker itself, and not to the script that runs it."""
        self.inside("sh", "-c", f"kill -{name} {pid_in(self.inside('sh', '-c', WHICH_SERVES))}")


def pid_in(text):
    """The process of the one path of the system's that is printed, or none."""
    return text.split("/")[2] if text.count("/proc/") == 1 else None


def answer(port, *words):
    """The status with which a handshake is answered; 101 if it is accepted."""
    try:
        SecureClient(port, *words).close()
        return "101"
    except Refused as refused:
        return refused.status
    except (Closed, OSError):
        return "closed"


def first_of(port, queue):
    """The body of what waits first in a queue; it stays there."""
    client = SecureClient(port).connect()
    frames = client.subscribe("look", queue, "client-individual") or [client.receive()]
    client.close()
    return frames[0].body


def try_compose(base, _, checks):
    """nginx and the broker in one network."""
    (base / "deploy" / "stompd").mkdir()
    make_certificate(base / "deploy" / "stompd")
    compose = Compose(base)
    try:
        compose.run("run", "--rm", "journal")
        compose.run("up", "--build", "--detach")
        checks.check("the broker comes to be healthy", wait_until(compose.is_healthy, 60), compose.run("logs"))
        checks.check("it answers a ping there", ANSWERED.fullmatch(compose.inside("stompd", "ping", "8080")))
        checks.same("without a login: 401", answer(compose.port, [("Origin", PAGE)]), "401")
        checks.same("from a foreign page: 403", answer(compose.port, [login(), ("Origin", "https://elsewhere.example")]), "403")
        client = SecureClient(compose.port).connect()
        client.publish("/queue/kept", "kept")
        checks.same("over wss it keeps what is sent", first_of(compose.port, "/queue/kept"), "kept")
        checks.same("as nobody, who alone reads the journal", compose.inside("sh", "-c", "id -un; stat -c '%U %a' /journal/rooms.journal").split(), ["nobody", "nobody", "600"])
        ((network, place),) = json.loads(docker("inspect", compose.container("proxy")))[0]["NetworkSettings"]["Networks"].items()
        beside = ["docker", "run", "--rm", "--network", network, DEBIAN, "bash", "-c"]
        reached = [subprocess.run([*beside, f"exec 3<>/dev/tcp/{place['IPAddress']}/{port}"], capture_output=True).returncode == 0 for port in (443, 8080)]
        checks.same("a container beside them reaches nginx, and not the broker's own port", reached, [True, False])
        try_ends(compose, client, checks)
    finally:
        subprocess.run([*compose.words, "down", "--volumes", "--rmi", "local"], cwd=base, capture_output=True)


def try_ends(compose, client, checks):
    start = time.monotonic()
    compose.run("stop", "broker")
    checks.check("a stop takes less than its ten seconds", time.monotonic() - start < 10, time.monotonic() - start)
    checks.same("and is in good order", compose.state()["ExitCode"], 143)
    checks.check("of which it tells", "ending: asked to" in compose.run("logs", "broker"))
    checks.same("its client hears 1001", client.to_the_end()[1], 1001)
    checks.same("while it is gone: 503", answer(compose.port), "503")
    compose.run("start", "broker")
    checks.check("started again, it is healthy", wait_until(compose.is_healthy, 60))
    checks.same("and what had a receipt is there", first_of(compose.port, "/queue/kept"), "kept")
    before = compose.state()["StartedAt"]
    compose.signal_server("KILL")
    checks.check("killed, it is started again by Docker", wait_until(lambda: compose.state()["StartedAt"] != before and compose.is_healthy(), 60), compose.state())
    checks.same("with what had a receipt", first_of(compose.port, "/queue/kept"), "kept")
    compose.signal_server("STOP")
    checks.check("one that answers no ping is unhealthy", wait_until(lambda: compose.state()["Health"]["Status"] == "unhealthy", 60), compose.state())
    checks.check("and its log says why", "no handshake: no answer within 5 s" in compose.state()["Health"]["Log"][-1]["Output"], compose.state()["Health"])
    compose.signal_server("CONT")
    checks.check("and healthy once it goes on", wait_until(compose.is_healthy, 30))


class Machine:
    """A Debian with a systemd."""

    def __init__(self, folder):
        (folder / "Dockerfile").write_text(WITH_SYSTEMD)
        self.image = f"stompd-trial-systemd-{os.getpid()}"
        docker("build", "-t", self.image, folder)
        self.name = docker("run", "-d", *SYSTEMD_NEEDS, self.image).strip()

    def run(self, *words):
        """The status of what is run there, and what it prints and tells."""
        done = subprocess.run(["docker", "exec", self.name, *words], capture_output=True, text=True)
        return done.returncode, done.stdout + done.stderr

    def shows(self, name, unit="stompd"):
        return self.run("systemctl", "show", "-P", name, unit)[1].strip()

    def is_answered(self):
        status, text = self.run("stompd", "ping", "8080")
        return status == 0 and ANSWERED.fullmatch(text) is not None

    def server(self):
        """The process of the server, which the script runs."""
        return pid_in(self.run("sh", "-c", WHICH_SERVES)[1])

    def signal_server(self, name):
        pid = self.server()
        self.run("sh", "-c", f"kill -{name} {pid}")
        return pid

    def end(self):
        subprocess.run(["docker", "rm", "--force", "--volumes", self.name], capture_output=True)
        subprocess.run(["docker", "rmi", self.image], capture_output=True)


def try_service(base, package, checks):
    """The package and its service, with a systemd."""
    machine = Machine(base.parent)
    try:
        docker("cp", package, f"{machine.name}:/stompd.deb")
        checks.check("there is a systemd", wait_until(lambda: machine.run("systemctl", "is-system-running")[1].strip() in ("running", "degraded"), 30), machine.run("systemctl")[1])
        checks.same("the package is installed", machine.run("dpkg", "-i", "/stompd.deb")[0], 0)
        units = ("stompd", "stompd-ping.timer", "stompd-metrics.timer")
        checks.same("and starts nothing", [machine.shows("ActiveState", it) for it in units], ["inactive"] * 3)
        checks.same("systemd finds nothing to say of its units", machine.run("systemd-analyze", "verify", "--man=no", "stompd.service", "stompd-ping.service", "stompd-ping.timer", "stompd-metrics.service", "stompd-metrics.timer"), (0, ""))
        status, text = machine.run("systemctl", "enable", "--now", "stompd")
        checks.check("enabled, it counts as started once it answers", status == 0 and machine.is_answered(), (text, machine.run("journalctl", "-u", "stompd", "--no-pager")[1][-2000:]))
        seen = machine.run("sh", "-c", f"stat -c %U /proc/{machine.server()}; grep -o 'open files *[0-9]*' /proc/{machine.server()}/limits")[1].split()
        checks.same("as a user of its own, with descriptors for its clients", (seen[0], seen[-1]), ("stompd", "20000"))
        checks.check("and with the script's journal", machine.run("stompd", "show", "/var/lib/stompd/rooms.journal")[1].startswith("version 2\n"))
        try_restarts(machine, checks)
        try_faults(machine, checks)
        try_removal(machine, checks)
    finally:
        machine.end()


def try_restarts(machine, checks):
    first = machine.signal_server("KILL")
    checks.check("killed, it is started again", wait_until(lambda: machine.shows("ActiveState") == "active" and machine.server() not in (first, None), 30), machine.shows("ActiveState"))
    checks.check("and answers", machine.is_answered())
    second = machine.server()
    checks.same("a look finds that it answers", machine.run("systemctl", "start", "stompd-ping.service")[0], 0)
    checks.same("and leaves it as it is", machine.server(), second)
    machine.signal_server("STOP")
    machine.run("systemctl", "start", "stompd-ping.service")
    checks.check("one that answers no ping, twice, is started again", machine.server() != second and machine.is_answered())
    machine.run("systemctl", "stop", "stompd")
    checks.same("a stop is in good order", (machine.shows("Result"), machine.shows("ExecMainStatus")), ("success", "143"))
    checks.check("of which it tells", "ending: asked to" in machine.run("journalctl", "-u", "stompd", "--no-pager")[1])
    machine.run("systemctl", "start", "stompd-ping.service")
    checks.same("a look starts none that somebody has stopped", machine.shows("ActiveState"), "inactive")
    checks.same("the timer may be enabled", machine.run("systemctl", "enable", "--now", "stompd-ping.timer")[0], 0)


def try_faults(machine, checks):
    """A journal that is none does not keep anybody waiting."""
    journal = "/var/lib/stompd/rooms.journal"
    machine.run("sh", "-c", f"mv {journal} {journal}.kept; head -c 8224 /dev/zero >{journal}; chown stompd {journal}")
    start = time.monotonic()
    status, _ = machine.run("systemctl", "start", "stompd")
    checks.check("with a file that is no journal it fails at once", status != 0 and time.monotonic() - start < 10, (status, time.monotonic() - start))
    checks.check("and says why", wait_until(lambda: "J1 not a journal" in machine.run("journalctl", "-u", "stompd", "--no-pager")[1], 10))
    checks.check("and it does not spin", wait_until(lambda: machine.shows("ActiveState") == "failed", 60), machine.shows("ActiveState"))
    machine.run("sh", "-c", f"mv {journal}.kept {journal}; systemctl reset-failed stompd; systemctl start stompd")
    checks.check("with its own again it answers", machine.is_answered())


def try_removal(machine, checks):
    checks.same("the package is removed", machine.run("dpkg", "--remove", "stompd")[0], 0)
    checks.same("its server is gone", machine.server(), None)
    checks.same("and its journal is there", machine.run("test", "-s", "/var/lib/stompd/rooms.journal")[0], 0)
    checks.check("a purge says that it keeps it", "/var/lib/stompd is kept" in machine.run("dpkg", "--purge", "stompd")[1])
    checks.same("and does", machine.run("test", "-s", "/var/lib/stompd/rooms.journal")[0], 0)


TRIALS = {"compose": try_compose, "service": try_service}


def main():
    parser = scenario.words_of(__doc__)
    parser.add_argument("--only", default="", metavar="WORD", help=f"one of {', '.join(TRIALS)}")
    words = parser.parse_args()
    if lacking := lacks():
        print(f"containers.py needs {lacking}", file=sys.stderr)
        return 2
    checks, start = scenario.Checks(), time.monotonic()
    with tempfile.TemporaryDirectory(prefix="stompd-containers-") as folder:
        # The daemon's users look into it.
        pathlib.Path(folder).chmod(0o755)
        base, package = unpacked(pathlib.Path(words.program).resolve(), pathlib.Path(folder))
        for name, trial in TRIALS.items():
            if words.only not in name:
                continue
            print(f"{name}: {trial.__doc__}", flush=True)
            try:
                trial(base, package, checks)
            except Exception as error:
                traceback.print_exc()
                checks.check(f"{name} runs to its end", False, error)
    checks.tell(f"{time.monotonic() - start:.0f} s")
    return checks.status()


if __name__ == "__main__":
    sys.exit(main())
