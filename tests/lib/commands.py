"""The program's commands, run or running: their words, their status, and what they print and tell."""

import contextlib
import json
import subprocess

NOBODY = "no connection: nobody listens there"
# What `listen` and `move` end with, with status 4.
NONE = "no more messages: none came within --timeout"
FULL = "/dev/full"


def told(text):
    return f"stompd: {text}\n"


UNWRITTEN = told("input or output failed")


def words_of(program, words):
    return [program, *(it if isinstance(it, bytes) else str(it) for it in words)]


def run(program, *words, given=b"", sink=None, **how):
    """The status, what was printed as bytes, and what was told. With a sink it prints into that file."""
    with open(sink, "wb") if sink else contextlib.nullcontext(subprocess.PIPE) as output:
        done = subprocess.run(words_of(program, words), input=given, stdout=output, stderr=subprocess.PIPE, timeout=120, **how)
    return done.returncode, done.stdout or b"", done.stderr.decode()


def run_for_text(program, *words, **how):
    """The same, with what was printed as a text."""
    status, printed, said = run(program, *words, **how)
    return status, printed.decode(errors="replace"), said


@contextlib.contextmanager
def started(program, *words, stdin=subprocess.DEVNULL, **how):
    """The program, running; it is killed at the end."""
    process = subprocess.Popen(words_of(program, words), stdin=stdin, stdout=subprocess.PIPE, stderr=subprocess.PIPE, **how)
    try:
        yield process
    finally:
        process.kill()
        process.wait()
        for stream in (process.stdin, process.stdout, process.stderr):
            if stream:
                stream.close()


def show(program, journal):
    """The numbers that `show` prints of a journal by their words, or the line that it tells."""
    status, printed, said = run_for_text(program, "show", journal)
    return said.strip() if status else {word: int(number) for word, number in (it.split(" ") for it in printed.splitlines())}


def held_or_fault(program, journal):
    """How many messages `show` says that a journal holds, or what it tells."""
    shown = show(program, journal)
    return shown if isinstance(shown, str) else shown["held"]


def shown(program, command, journal):
    """The object that `show`, `held` or `sessions` prints of a journal."""
    return json.loads(subprocess.run([program, command, "--json", journal], capture_output=True, check=True).stdout)
