"""Which version a program is: its own number, and the commit of the checkout. A note on what a program was built from stands behind its own bytes, where
the system looks for nothing. `--version` prints it (command_line/src/program.rt). So the program that is proved needs no text that changes with each
commit.
"""

import os
import pathlib
import subprocess

TOP = pathlib.Path(__file__).resolve().parent.parent
# What a program is made from.
SOURCES = ("crates", "crates.txt", "HANDLES")
# How many bytes a note has, and how it begins; then come its text and blanks.
NOTE_BYTES, MARK = 64, b"stompd-built:"
UNPROVED = "compiled from these sources, not proved on this machine (run-time checks are in)"


def said(*words):
    """What git says, or nothing where there is no git or this is no checkout of it."""
    try:
        return subprocess.run(["git", *words], cwd=TOP, capture_output=True, text=True, check=True).stdout.strip()
    except (OSError, subprocess.CalledProcessError):
        return None


def of_checkout(sources):
    """`+git` and the commit, `-changed` if sources have changes that are not committed; nothing without git."""
    commit = said("rev-parse", "--short=12", "HEAD")
    if commit is None:
        return ""
    return f"+git{commit}{'-changed' if said('status', '--porcelain', '--', *sources) else ''}"


def number_of(program):
    """The program's own number."""
    told = subprocess.run([program, "--version"], check=True, capture_output=True, text=True).stdout
    return told.split()[1].rstrip(",").partition("+")[0]


def of_program(program, sources=SOURCES):
    """As a file VERSION begins: `stompd 0.2.0+git0123456789ab`, with `-changed` if these sources have changes that are not committed."""
    return f"stompd {number_of(program)}{of_checkout(sources)}"


def note_of(program):
    """The note of a program's file, or nothing if it has none."""
    last = program.read_bytes()[-NOTE_BYTES:]
    return last.removeprefix(MARK).rstrip().decode() if last.startswith(MARK) else None


def set_note(program, text):
    """Has a program's file end with this note, in place of another. Whoever runs or reads the file meanwhile has it whole."""
    if note_of(program) == text:
        return
    note, data = MARK + text.encode(), program.read_bytes()
    assert len(note) <= NOTE_BYTES, text
    own = data[:-NOTE_BYTES] if note_of(program) is not None else data
    half = program.with_name(f".{program.name}.{os.getpid()}")
    try:
        half.write_bytes(own + note.ljust(NOTE_BYTES))
        half.chmod(program.stat().st_mode)
        half.replace(program)
    finally:
        half.unlink(missing_ok=True)
