"""Makes the Debian package of bin/release, by plain dpkg-deb: the program, a service with its own user, and the recipes and documents."""

import email.utils
import gzip
import hashlib
import os
import pathlib
import subprocess
import tempfile
import time

TOP = pathlib.Path(__file__).resolve().parent.parent
DOC = "usr/share/doc/stompd"

CONTROL = """Package: stompd
Version: {version}
Architecture: amd64
Maintainer: {maintainer}
Installed-Size: {kilobytes}
Depends: libc6 (>= {libc}), systemd | systemd-standalone-sysusers
Recommends: python3
Suggests: prometheus-node-exporter
Section: net
Priority: optional
Description: message broker for rooms in the browser
 It speaks STOMP 1.2 over WebSocket, and answers a RECEIPT only once what it
 is for is in its journal on disk. It listens at 127.0.0.1 alone, with no TLS
 and no login: recipes for proxies are in /usr/share/doc/stompd/deploy.
"""

# Nothing is started or restarted: systemctl does that. DPKG_ROOT is the folder of `dpkg --root`, and mostly empty.
POSTINST = """#!/bin/sh
set -e
if [ "$1" = configure ]; then
    systemd-sysusers --root="$DPKG_ROOT/" stompd.conf
    chown "$(sed -n 's/^stompd:[^:]*:\\([0-9]*\\):\\([0-9]*\\):.*/\\1:\\2/p' "$DPKG_ROOT/etc/passwd")" "$DPKG_ROOT/var/lib/stompd"
    chmod 0700 "$DPKG_ROOT/var/lib/stompd"
    if [ -z "$DPKG_ROOT" ] && [ -d /run/systemd/system ]; then systemctl daemon-reload; fi
    if [ -n "$2" ]; then echo 'stompd: a running server keeps the program of before; systemctl restart stompd starts the new one'; fi
fi
"""
PRERM = """#!/bin/sh
set -e
if [ "$1" = remove ] && [ -z "$DPKG_ROOT" ] && [ -d /run/systemd/system ]; then systemctl disable --now stompd-ping.timer stompd-metrics.timer stompd; fi
"""
POSTRM = """#!/bin/sh
set -e
# Metrics that nobody writes any more would stay as they were.
if [ "$1" = remove ]; then rm -f "$DPKG_ROOT/var/lib/prometheus/node-exporter/stompd.prom"; fi
if [ "$1" = purge ] && [ -e "$DPKG_ROOT/var/lib/stompd" ]; then
    echo 'stompd: what is in /var/lib/stompd is kept, the journal and its messages; rm -r /var/lib/stompd removes it'
fi
if [ -z "$DPKG_ROOT" ] && [ -d /run/systemd/system ]; then systemctl daemon-reload; fi
"""

# The program is the one of the archive, byte for byte; and the journal is its owner's alone.
OVERRIDES = """stompd: unstripped-binary-or-object [usr/lib/stompd/stompd]
stompd: non-standard-dir-perm 0700 != 0755 [var/lib/stompd/]
"""

COPYRIGHT = """The sources of this program are in the repository of stompd; FROM names the commit.

Copyright 2026 the authors of stompd, whom the log of the repository names.

License: none was given. All rights are reserved by the authors.
"""


# Read by stompd.service.
DEFAULT = """# After a change: systemctl restart stompd
# The origin of the pages that are served.
#ORIGIN=https://chat.example
# More options of `stompd serve`, as --origin https://www.chat.example --threads 2 --json
#STOMPD_OPTIONS=
"""

UNITS = ("stompd.service", "stompd-ping.service", "stompd-ping.timer", "stompd-metrics.service", "stompd-metrics.timer")


def unit(name):
    """A file of deploy/ for systemd, with the package's paths, and without what it says of an archive."""
    text = (TOP / "deploy" / name).read_text(encoding="utf-8")
    return text[text.index("[Unit]") :].replace("/opt/stompd/deploy/", "/usr/lib/stompd/").replace("/opt/stompd/", "/usr/lib/stompd/")


def changelog(version, maintainer, moment):
    when = email.utils.formatdate(moment)
    return f"stompd ({version}) stable; urgency=medium\n\n  * What came with this version is in CHANGELOG.md.\n\n -- {maintainer}  {when}\n"


def files_of(program, serve, page, of_it, told, version, maintainer, moment):
    """Each file of the package: its name, its bytes and its mode."""
    yield "usr/lib/stompd/stompd", program, 0o755
    yield "usr/lib/stompd/serve", serve, 0o755
    name, data, mode = of_it
    yield f"usr/lib/stompd/{name}", data, mode
    yield "usr/share/man/man1/stompd.1.gz", gzip.compress(page, mtime=0), 0o644
    yield "usr/lib/stompd/metrics.py", (TOP / "deploy" / "metrics.py").read_bytes(), 0o755
    yield "etc/default/stompd", DEFAULT.encode(), 0o644
    for name in UNITS:
        yield f"lib/systemd/system/{name}", unit(name).encode(), 0o644
    yield "usr/lib/sysusers.d/stompd.conf", b'u stompd - "stompd, a message broker" /var/lib/stompd\n', 0o644
    yield "usr/share/lintian/overrides/stompd", OVERRIDES.encode(), 0o644
    yield f"{DOC}/copyright", COPYRIGHT.encode(), 0o644
    yield f"{DOC}/changelog.gz", gzip.compress(changelog(version, maintainer, moment).encode(), mtime=0), 0o644
    for name, data, mode in told:
        yield f"{DOC}/{name}", data, mode


def version_of(line, moment):
    """The package's version: the program's, with the moment of the commit before its name, so that a later one is an upgrade. It has no `-`, which would
    begin a revision."""
    number, _, commit = line.split()[1].rstrip(",").partition("+git")
    return f"{number}+git{time.strftime('%Y%m%d%H%M%S', time.gmtime(moment))}.{commit.replace('-', '.')}"


def write(path, data, mode):
    path.parent.mkdir(parents=True, exist_ok=True)
    path.write_bytes(data)
    path.chmod(mode)


def package_of(program, serve, page, of_it, told, oldest_libc, maintainer, moment):
    """The name of the package, and its bytes; `page` is the manual page, and `of_it` is the file that says the program's version, which is the package's.
    The same files, maintainer and moment give the same bytes."""
    with tempfile.TemporaryDirectory(prefix="stompd-package-") as room:
        tree = pathlib.Path(room) / "tree"
        tree.mkdir()
        version = version_of(of_it[1].decode(), moment)
        files = list(files_of(program, serve, page, of_it, told, version, maintainer, moment))
        for name, data, mode in files:
            write(tree / name, data, mode)
        (tree / "usr" / "bin").mkdir()
        (tree / "usr" / "bin" / "stompd").symlink_to("../lib/stompd/stompd")
        (tree / "var" / "lib" / "stompd").mkdir(parents=True)
        for folder in (it for it in tree.rglob("*") if it.is_dir()):
            folder.chmod(0o755)
        (tree / "var" / "lib" / "stompd").chmod(0o700)
        kilobytes = sum(len(data) for _, data, _ in files) // 1024 + 1
        control = CONTROL.format(version=version, maintainer=maintainer, kilobytes=kilobytes, libc=".".join(map(str, oldest_libc)))
        sums = "".join(f"{hashlib.md5(data).hexdigest()}  {name}\n" for name, data, _ in sorted(files))
        for name, text, mode in [("control", control, 0o644), ("conffiles", "/etc/default/stompd\n", 0o644), ("md5sums", sums, 0o644), ("postinst", POSTINST, 0o755), ("prerm", PRERM, 0o755), ("postrm", POSTRM, 0o755)]:
            write(tree / "DEBIAN" / name, text.encode(), mode)
        tree.chmod(0o755)
        (tree / "DEBIAN").chmod(0o755)
        package = pathlib.Path(room) / f"stompd_{version}_amd64.deb"
        environment = {**os.environ, "SOURCE_DATE_EPOCH": str(moment)}
        words = ["dpkg-deb", "--root-owner-group", "--threads-max=1", "-Zxz", "--build", tree, package]
        subprocess.run(words, check=True, env=environment, stdout=subprocess.DEVNULL)
        return package.name, package.read_bytes()
