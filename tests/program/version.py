#!/usr/bin/env python3
"""Looks at what `stompd --version` prints: the number, the commit that the program was built from, and whether it is proved. Needs Python 3, and git for
the commit.

    python3 tests/program/version.py [PROGRAM]

A program says only what a note behind its own bytes says; without one it has its number alone (docs/CLI.md). bin/build adds the note.
"""

import pathlib
import re
import shutil
import subprocess
import sys
import tempfile

from lib import scenario
from lib.scenario import TOP

sys.path.insert(0, str(TOP / "tools"))
sys.dont_write_bytecode = True
import versions  # noqa: E402

NUMBER = re.search(r"`stompd --version`\*\* prints `(stompd \d+\.\d+\.\d+)", (TOP / "docs" / "CLI.md").read_text(encoding="utf-8"))[1]
MARK = b"stompd-built:"


def said(program):
    done = subprocess.run([program, "--version"], capture_output=True)
    return done.returncode, done.stdout, done.stderr


def bare_copy(program, folder):
    """The program without a note, if it has one, by the form that is written down here."""
    copy, data = folder / "bare", pathlib.Path(program).read_bytes()
    copy.write_bytes(data[:-64] if data[-64:].startswith(MARK) else data)
    copy.chmod(0o755)
    return copy


def notes(program, folder, checks):
    """what a program says with a note, and without"""
    bare = bare_copy(program, folder)
    number = f"{NUMBER}\n".encode()
    checks.same("without a note it has its number", said(bare), (0, number, b""))
    for name, last in (
        ("one that begins later", b" " + MARK + b"+git0123456789ab, proved".ljust(50)),
        ("one that is cut short", MARK + b"+git0123456789ab, proved"),
        ("one with more behind it", MARK + b"+git0123456789ab, proved".ljust(51) + b"\0"),
        ("another mark", b"stompd-Built:" + b"+git0123456789ab, proved".ljust(51)),
    ):
        other = folder / "other"
        other.write_bytes(bare.read_bytes() + last)
        other.chmod(0o755)
        checks.same(f"{name} is no note", said(other), (0, number, b""))
    noted = folder / "noted"
    shutil.copy(bare, noted)
    for text in ("+git0123456789ab, proved", "+git0123456789ab-changed, unproved", ", proved", "x" * 51):
        versions.set_note(noted, text)
        checks.same(f"with the note {text!r}", said(noted), (0, f"{NUMBER}{text}\n".encode(), b""))
        checks.same("of which there is one", len(noted.read_bytes()), len(bare.read_bytes()) + 64)
    moved = folder / "moved"
    (folder / "linked").symlink_to(noted)
    checks.same("by a link too", said(folder / "linked"), said(noted))
    noted.rename(moved)
    checks.same("and under another name", said(moved), (0, f"{NUMBER}{'x' * 51}\n".encode(), b""))
    checks.same("it does what it did without the note", subprocess.run([moved, "script"], stdin=subprocess.DEVNULL).returncode, 0)


def killed(program, folder, checks):
    """a note that is killed at each of its calls leaves the program whole, with the old note or the new one"""
    if shutil.which("strace") is None:
        checks.tell("kills: not tried without strace")
        return
    noted = folder / "killed"
    shutil.copy(bare_copy(program, folder), noted)
    notes = [(0, f"{NUMBER}{it}\n".encode(), b"") for it in (", old", ", new")]
    call = "import pathlib, sys; sys.path.insert(0, sys.argv[1]); import versions; versions.set_note(pathlib.Path(sys.argv[2]), ', new')"
    kills = 0
    for name in ("write", "chmod", "rename", "unlink"):
        for at in range(1, 10):
            versions.set_note(noted, ", old")
            inject = ["strace", "-f", "-qq", "-o", "/dev/null", "-e", f"trace={name}", "-e", f"inject={name}:signal=KILL:when={at}"]
            done = subprocess.run([*inject, sys.executable, "-B", "-c", call, TOP / "tools", noted])
            checks.check(f"killed at {name} {at}, it is whole" if done.returncode else f"{name}: all calls were killed", said(noted) in notes, said(noted))
            if done.returncode == 0:
                break
            kills += 1
    checks.check("it was killed at writing, its mode and its renaming", kills >= 3, kills)


def of_this_checkout(program, checks):
    """the program that bin/build has made, if this is that one: it isn't compiled for this"""
    if shutil.which("git") is None or not (TOP / ".git").exists() or not pathlib.Path(program).read_bytes()[-64:].startswith(MARK):
        checks.tell("of this checkout: not tried, since bin/build has not made this program, or git is missing")
        return
    made = subprocess.run([TOP / "bin" / "build", "--any"], stdin=subprocess.DEVNULL, stdout=subprocess.PIPE, text=True, check=True)
    program = pathlib.Path(made.stdout.strip())
    commit = subprocess.run(["git", "rev-parse", "HEAD"], cwd=TOP, capture_output=True, text=True, check=True).stdout[:12]
    changes = subprocess.run(["git", "status", "--porcelain", "--", "crates", "crates.txt", "HANDLES"], cwd=TOP, capture_output=True, text=True, check=True).stdout
    whether = "unproved" if program.parent.name == "unproved" else "proved"
    checks.same("it has the commit, and whether it is proved", said(program), (0, f"{NUMBER}+git{commit}{'-changed' if changes else ''}, {whether}\n".encode(), b""))


def main():
    program = scenario.program_of(__doc__)
    checks = scenario.Checks()
    with tempfile.TemporaryDirectory(prefix="version-") as folder:
        notes(program, pathlib.Path(folder), checks)
        killed(program, pathlib.Path(folder), checks)
    of_this_checkout(program, checks)
    return checks.status()


if __name__ == "__main__":
    sys.exit(main())
