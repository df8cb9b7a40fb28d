#!/usr/bin/env python3
"""The archive and the Debian package that bin/release makes of a program: what is in them, and that the package starts nothing and keeps the journal.

    python3 tests/program/packing.py [PROGRAM] [--package DEB]

It builds nothing. The package is installed, removed and purged by `dpkg --root` in a temporary folder, for which it has to run as root; lintian
looks at it if it is there. --package tries another package than that of bin/release, as one with an error that has to be found.
"""

import gzip
import hashlib
import os
import pathlib
import re
import shutil
import stat
import subprocess
import sys
import tarfile
import tempfile

from lib import scenario
from lib.scenario import TOP
from lib.stomp_client import Client

LINK = re.compile(r"\]\(([^)#\s:]+)(?:#[^)\s]*)?\)")
# tests/program/hardening.py runs the service under these.
RESTRICTIONS = (
    *("CapabilityBoundingSet=", "NoNewPrivileges=yes", "RestrictAddressFamilies=AF_INET", "IPAddressDeny=any", "IPAddressAllow=localhost"),
    *("SystemCallArchitectures=native", "SystemCallFilter=@system-service", "SystemCallFilter=~@privileged @resources", "SystemCallErrorNumber=EPERM"),
    *("MemoryDenyWriteExecute=yes", "PrivateDevices=yes", "PrivateTmp=yes", "ProtectSystem=strict", "ProtectHome=yes", "UMask=0077", "RemoveIPC=yes"),
    *("ProtectProc=invisible", "LockPersonality=yes", "RestrictNamespaces=yes", "RestrictRealtime=yes", "RestrictSUIDSGID=yes"),
    *(f"Protect{it}=yes" for it in ("Clock", "ControlGroups", "Hostname", "KernelLogs", "KernelModules", "KernelTunables")),
)
# Where Debian's prometheus-node-exporter reads.
METRICS = "var/lib/prometheus/node-exporter/stompd.prom"
VERSION = re.compile(r"stompd \d+\.\d+\.\d+\+git[0-9a-f]{12}(-changed)?, given, and not known to be proved\n")
# Scripts run outside of the folder, with its path in DPKG_ROOT, since there is no shell in it.
DPKG = ["dpkg", "--force-script-chrootless", "--force-depends"]


def packed(program, folder):
    subprocess.run([TOP / "bin" / "release", folder, "--pack", program], check=True, stdout=subprocess.DEVNULL)
    (archive,), (package,) = folder.glob("*.tar.gz"), folder.glob("*.deb")
    return archive, package


def try_archive(archive, program, folder, checks):
    with tarfile.open(archive) as opened:
        opened.extractall(folder, filter="data")
    (base,) = folder.iterdir()
    names = {str(it.relative_to(base)) for it in base.rglob("*") if it.is_file()}
    linked = set(LINK.findall((TOP / "README.md").read_text(encoding="utf-8")))
    checks.check("the archive has all that README.md links", linked and all((base / it).exists() for it in linked), sorted(linked - names))
    links = [(name, it) for name in names if name.endswith(".md") for it in LINK.findall((base / name).read_text(encoding="utf-8"))]
    checks.same("no link of its documents leads to a file that is not there", sorted(it for it in links if not (base / it[0]).parent.joinpath(it[1]).exists()), [])
    checks.check("and there are many", len(links) > 100, len(links))
    there = {f"{part}/{it.name}" for part in ("deploy", "examples") for it in (TOP / part).iterdir() if it.is_file()}
    checks.check("and the recipes and examples", there <= names, sorted(there - names))
    sums = {name: sum_ for sum_, name in (line.split("  ") for line in (base / "SHA256SUMS").read_text().splitlines())}
    checks.same("its sums are those of its files", sums, {it: hashlib.sha256((base / it).read_bytes()).hexdigest() for it in ("stompd", "serve")})
    checks.same("the program is the one that was given", (base / "stompd").read_bytes(), program.read_bytes())
    checks.check("and FROM says so", "was given, and not built" in (base / "FROM").read_text())
    checks.check("VERSION has the program's number, the commit, and that it was given", VERSION.fullmatch((base / "VERSION").read_text()))
    checks.check("the manual page is there", (base / "stompd.1").read_text().startswith(".TH stompd 1 ") if "stompd.1" in names else False, sorted(names))
    checks.check("both may be run", all(os.access(base / it, os.X_OK) for it in ("stompd", "serve")))


def dpkg(root, *words):
    done = subprocess.run([*DPKG, f"--root={root}", *words], capture_output=True, text=True)
    assert done.returncode == 0, done.stderr
    return done.stdout + done.stderr


def serve_installed(root, journal, checks):
    """The installed program serves a journal in the package's folder."""
    program = root / "usr" / "bin" / "stompd"
    subprocess.run([program, "format", "--sparse", journal, "67108896"], check=True, stderr=subprocess.DEVNULL)
    broker = scenario.Broker(program, str(journal))
    client = Client(broker.port).connect()
    client.publish("/queue/kept", "kept")
    client.disconnect()
    broker.kill()
    checks.check("the installed program serves", True)


def try_package(package, program, root, checks):
    for it in ("var/lib/dpkg/info", "var/lib/dpkg/updates", "etc"):
        (root / it).mkdir(parents=True)
    (root / "var/lib/dpkg/status").touch()
    dpkg(root, "-i", package)
    status = (root / "var/lib/dpkg/status").read_text()
    checks.check("it is installed", "Status: install ok installed" in status, status)
    checks.check("its version has the commit after its moment", re.search(r"^Version: \d+\.\d+\.\d+\+git\d{14}\.[0-9a-f]{12}(\.changed)?$", status, re.M), status)
    user = next((line.split(":") for line in (root / "etc/passwd").read_text().splitlines() if line.startswith("stompd:")), None)
    checks.check("it has a user of its own, who can't log in", user and user[-1].endswith("nologin"), user)
    folder = root / "var/lib/stompd"
    seen = folder.stat()
    checks.same("the journal's folder is that user's alone", (stat.S_IMODE(seen.st_mode), seen.st_uid), (0o700, int(user[2]) if user else None))
    unit = (root / "lib/systemd/system/stompd.service").read_text()
    starts = re.search(r"^ExecStart=(\S+) (\S+)", unit, re.M)
    checks.check("its service runs what is installed, over that folder", os.access(f"{root}{starts[1]}", os.X_OK) and starts[2].startswith("/var/lib/stompd/"), starts[0])
    checks.check("as that user", "\nUser=stompd\n" in unit)
    checks.same("which may do only what it needs", [it for it in RESTRICTIONS if f"\n{it}\n" not in unit], [])
    checks.same("nothing is enabled", [str(it) for it in root.rglob("*.wants/*")], [])
    try_metrics(root, checks)
    default = root / "etc/default/stompd"
    checks.same("its options are in a file that an upgrade keeps", [it for it in ("#ORIGIN=", "#STOMPD_OPTIONS=") if f"\n{it}" not in default.read_text()], [])
    checks.check("which the service reads", "\nEnvironmentFile=-/etc/default/stompd\n" in unit and re.search(r"^ExecStart=.* \$STOMPD_OPTIONS$", unit, re.M), unit)
    default.write_text("STOMPD_OPTIONS=--json\n")
    page = root / "usr/share/man/man1/stompd.1.gz"
    checks.check("the manual page is there", page.exists() and gzip.decompress(page.read_bytes()).startswith(b".TH stompd 1 "))
    checks.check("the recipes are there", (root / "usr/share/doc/stompd/deploy/nginx.conf").exists())
    with tempfile.TemporaryDirectory(prefix="stompd-service-") as room:
        try_first_starts(root, pathlib.Path(room), checks)
    with tempfile.TemporaryDirectory(prefix="stompd-watchdog-") as room:
        try_watchdog(root, pathlib.Path(room), checks)
    journal = folder / "rooms.journal"
    serve_installed(root, journal, checks)
    checks.check("an upgrade says that it restarts nothing", "systemctl restart stompd" in dpkg(root, "-i", package))
    checks.check("and keeps the journal", journal.exists())
    checks.same("and the options", default.read_text(), "STOMPD_OPTIONS=--json\n")
    dpkg(root, "--remove", "stompd")
    checks.check("removed, the program is gone", not (root / "usr/lib/stompd/stompd").exists())
    checks.check("and the journal is there", journal.exists())
    checks.check("and no metrics are left that nobody would write any more", not (root / METRICS).exists())
    told = dpkg(root, "--purge", "stompd")
    checks.check("a purge says that it keeps it", "/var/lib/stompd is kept" in told, told)
    held = subprocess.run([program, "held", journal], capture_output=True, text=True).stdout
    checks.check("and does", held.startswith("messages 1 "), held)


def try_metrics(root, checks):
    """The command of the timer's service, with the log of a server that has started: it needs what is installed, and writes into the exporter's folder."""
    service = (root / "lib/systemd/system/stompd-metrics.service").read_text()
    (line,) = re.findall(r"^ExecStart=/bin/sh -c '(.*)'$", service, re.M)
    (root / METRICS).parent.mkdir(parents=True)
    for said in ("journalctl -u stompd -o cat --since -1d", "/usr/lib/stompd/", f"/{METRICS}"):
        checks.check(f"the command has {said}", said in line, line)
    started = "stompd: 2026-11-30T12:00:00Z started: journal of version 2, areas of 1000 bytes, 0 messages held, 9500 clients allowed, 99 bytes of memory for them"
    line = line.replace("journalctl -u stompd -o cat --since -1d", f"echo '{started}'").replace("/usr/lib/stompd/", f"{root}/usr/lib/stompd/").replace(f"/{METRICS}", f"{root}/{METRICS}")
    done = subprocess.run(["/bin/sh", "-c", line], stderr=subprocess.PIPE, text=True)
    written = (root / METRICS).read_text() if (root / METRICS).exists() else ""
    checks.check("the metrics are in the exporter's folder", done.returncode == 0 and "\nstompd_up 1\n" in written, (done.stderr, written))
    checks.check("a timer starts it", "\n[Timer]\n" in (root / "lib/systemd/system/stompd-metrics.timer").read_text())


# What pings of a server end with one after the other (docs/CLI.md, "Pings"), and whether the server is restarted then.
PINGS = (("0", False), ("3", False), ("1 0", False), ("1 3", False), ("1 1", True), ("127", False), ("2", False), ("137", False), ("1 127", False))


def try_watchdog(root, folder, checks):
    """The command of stompd-ping.service, with pings that end so. Only a server that is dead, which is status 1, is restarted, and not if somebody stops it meanwhile."""
    service = (root / "lib/systemd/system/stompd-ping.service").read_text()
    (line,) = re.findall(r"^ExecStart=/bin/sh -c '(.*)'$", service, re.M)
    for name, text in (("stompd", 'read -r status rest < statuses; echo "$rest" > statuses; exit "$status"'), ("systemctl", 'echo "$*" >> asked'), ("sleep", ":")):
        (folder / name).write_text(f"#!/bin/sh\n{text}\n")
        (folder / name).chmod(0o755)
    line = line.replace("$$", "$").replace("/usr/lib/stompd/stompd", f"{folder}/stompd")
    for statuses, restarts in PINGS:
        (folder / "statuses").write_text(statuses)
        (folder / "asked").write_text("")
        done = subprocess.run(["/bin/sh", "-c", line], cwd=folder, env={**os.environ, "PATH": f"{folder}:{os.environ['PATH']}"})
        asked = (folder / "asked").read_text()
        checks.same(f"pings that end with {statuses}: the watchdog ends well, and restarts {'the server' if restarts else 'nothing'}", (done.returncode, asked), (0, "try-restart stompd\n" if restarts else ""))
        checks.same("after all these pings", (folder / "statuses").read_text().strip(), "")


def try_first_starts(root, folder, checks):
    """What the service does before it starts: it makes a journal once, and not in the place of one that is missing."""
    unit = (root / "lib/systemd/system/stompd.service").read_text()
    line = re.search(r"^ExecStartPre=/bin/sh -c '(.*)'$", unit, re.M)[1]
    # The paths of this installation, and a small journal.
    line = line.replace("/usr/lib/stompd/", f"{root}/usr/lib/stompd/").replace("/var/lib/stompd", str(folder)).replace("512M", "8M")

    def start():
        return subprocess.run(["/bin/sh", "-c", line], stderr=subprocess.DEVNULL, check=False).returncode, (folder / "rooms.journal").exists()

    checks.same("the first start of the service makes a journal", start(), (0, True))
    inode = (folder / "rooms.journal").stat().st_ino
    checks.same("the next one leaves it", (start(), (folder / "rooms.journal").stat().st_ino), ((0, True), inode))
    (folder / "rooms.journal").unlink()
    checks.same("a journal that is missing then is not made anew", start(), (0, False))
    (folder / "made").unlink()
    (folder / "rooms.journal").write_bytes(b"of an older package")
    checks.same("a journal of an older package is left as it is", (start(), (folder / "rooms.journal").read_bytes()), ((0, True), b"of an older package"))


def try_lintian(package, checks):
    if shutil.which("lintian") is None:
        checks.tell("lintian is not here, so it did not look (Debian: apt-get install lintian)")
        return
    root = ["--allow-root"] if os.geteuid() == 0 else []
    done = subprocess.run(["lintian", *root, "--fail-on", "error", package], capture_output=True, text=True)
    checks.check("lintian finds no error", done.returncode == 0, done.stdout + done.stderr)


def main():
    parser = scenario.words_of(__doc__)
    parser.add_argument("--package", type=pathlib.Path, metavar="DEB")
    words = parser.parse_args()
    if shutil.which("dpkg-deb") is None or os.geteuid() != 0:
        print("packing.py needs dpkg-deb, and to run as root", file=sys.stderr)
        return 2
    program, checks = pathlib.Path(words.program).resolve(), scenario.Checks()
    with tempfile.TemporaryDirectory(prefix="stompd-packing-") as folder:
        rooms = [pathlib.Path(folder) / it for it in ("first", "again", "archive", "root")]
        for it in rooms:
            it.mkdir()
        first, again = (packed(program, it) for it in rooms[:2])
        checks.check("the same files give the same archive and package", [it.read_bytes() for it in first] == [it.read_bytes() for it in again])
        try_archive(first[0], program, rooms[2], checks)
        package = words.package or first[1]
        try_lintian(package, checks)
        try_package(package, program, rooms[3], checks)
    return checks.status()


if __name__ == "__main__":
    sys.exit(main())
