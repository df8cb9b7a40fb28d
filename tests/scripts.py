#!/usr/bin/env python3
"""Runs each script of tests/scripts over the built program, all in parallel, and prints a diff for each that does not print what stands beside it. Its last
line counts those that passed and that failed. It takes seconds.

    python3 tests/scripts.py [PROGRAM] [--only WORD] [--everywhere] [--print]

With --only it runs those in whose folder or name the word
stands. It ends with status 0 only if all passed and at least one ran.

A script is FOLDER/NAME.script, a text for `stompd script` (docs/SCRIPTS.md), but that each LF of a frame begins a line: `| TEXT` goes on with the line
before, after a `%0A`. With --print it is printed as `stompd script` reads it. Beside it stand NAME.txt, one line that says the rule that it shows, and
NAME.out, what is printed, in the same form. NAME.err has what is reported on standard error, and NAME.status the status, if these are not empty and 0.
Scripts too long for a file are made by tests/lib/long_scripts.py. A missing or a further file is a failure.

Each script runs whole, and then with each text cut into pieces of one byte and of seven, a line for each: a broker has to answer the same however a stream
is cut. Only the number of a line that is not understood is another then, and it is counted here. A script of more than 300,000 bytes runs whole alone, since
it would be as many lines; so does the one that has a line over the limit, which is none once it is cut. With --everywhere scripts of less than 20,000 bytes
run too with each text cut in two at its first byte, at its second, and so on: some 8,000 runs, a minute or two.
"""

import concurrent.futures
import dataclasses
import difflib
import os
import pathlib
import re
import subprocess
import sys
import time

from lib.long_scripts import LONG_SCRIPTS
from lib.scenario import words_of

FOLDER = pathlib.Path(__file__).resolve().parent / "scripts"
KINDS = {".script", ".txt", ".out", ".err", ".status"}
# What a file may have, in bytes; a longer script is made.
MOST_OF_A_FILE = 200_000
# The bytes of a script that is still cut into pieces, and of one that is cut in two everywhere.
MOST_IN_PIECES, MOST_EVERYWHERE = 300_000, 20_000
# In seconds.
PATIENCE = 120

# A line in which a connection receives a text, and a byte of that text.
TEXT = re.compile(rb"([0-9]|[1-5][0-9]|6[0-3]) (.*)", re.DOTALL)
BYTE = re.compile(rb"%[0-9A-Fa-f]{2}|.", re.DOTALL)
NOT_UNDERSTOOD = re.compile(r"line (\d+) not understood")
# A line that goes on with the one before, and a text with an LF in it.
GOES_ON = re.compile(r"\n\|(?: |(?=\n|\Z))")
HAS_LF = re.compile(r"^(?:[0-9]|[1-5][0-9]|6[0-3]) .*%0A.*$", re.M)


@dataclasses.dataclass(frozen=True)
class Case:
    """A script, the rule that it shows, and what the program has to print, to tell and to end with."""

    name: str
    rule: str
    script: bytes
    out: str
    err: str = ""
    status: int = 0


def joined(text):
    """A script, or what it prints, as the program has it: each text in one line."""
    return GOES_ON.sub("%0A", text)


def in_lines(text):
    """The same as a file has it: a line for each line of a frame."""
    return HAS_LF.sub(lambda line: re.sub("\n(.+)|\n", lambda it: f"\n| {it[1]}" if it[1] else "\n|", line[0].replace("%0A", "\n")), text)


def text_beside(path, kind):
    beside = path.with_suffix(kind)
    return beside.read_text(encoding="utf-8") if beside.exists() else None


def faults_of(path):
    """What is wrong with the files beside a script."""
    rule, status = text_beside(path, ".txt"), text_beside(path, ".status")
    if rule is None or not re.fullmatch(r"[A-Z].*\.\n", rule):
        yield f"{path.stem}.txt has no line that says the rule"
    if text_beside(path, ".out") is None:
        yield f"{path.stem}.out is missing"
    if text_beside(path, ".err") == "":
        yield f"{path.stem}.err is empty"
    if status is not None and not re.fullmatch(r"[1-9]\n", status):
        yield f"{path.stem}.status is no status but 0"


def strays():
    """Each file that does not belong to a script, or that is too long."""
    for path in sorted(it for it in FOLDER.rglob("*") if not it.is_dir()):
        is_of_a_script = path.suffix in KINDS and path.with_suffix(".script").exists() and path.parent.parent == FOLDER
        if not is_of_a_script:
            yield f"{path.relative_to(FOLDER)} belongs to no script"
        elif path.stat().st_size > MOST_OF_A_FILE:
            yield f"{path.relative_to(FOLDER)} has more than {MOST_OF_A_FILE} bytes"


def case_of(path):
    name = str(path.relative_to(FOLDER).with_suffix(""))
    rule, out, err, status = (text_beside(path, it) or "" for it in (".txt", ".out", ".err", ".status"))
    return Case(name, rule.strip(), joined(path.read_text(encoding="utf-8")).encode(), joined(out), err, int(status or 0))


def made_cases():
    for it in LONG_SCRIPTS:
        script, out = it.make()
        yield Case(it.name, it.rule, script.encode(), out, it.err, it.status)


def split_text(line):
    """The connection that receives a text and the bytes of the text; of another line nothing."""
    text = TEXT.fullmatch(line)
    return (text[1] + b" ", BYTE.findall(text[2])) if text and text[2] else (b"", [])


def by_size(size):
    return lambda text: [text[at : at + size] for at in range(0, len(text), size)]


def in_two(place):
    return lambda text: [it for it in (text[:place], text[place:]) if it]


def ways_of(case, is_everywhere):
    """How a script runs: in words, and how each of its texts is cut."""
    yield "whole", None
    if len(case.script) <= MOST_IN_PIECES:
        yield "in pieces of one byte", by_size(1)
        yield "in pieces of seven bytes", by_size(7)
    if is_everywhere and len(case.script) <= MOST_EVERYWHERE:
        longest = max((len(split_text(it)[1]) for it in case.script.split(b"\n")), default=0)
        for place in range(1, longest):
            yield f"with each text cut in two after {place} bytes", in_two(place)


def cut(case, way):
    """The script with its texts cut so, and what is told of it then: the line that is not understood has moved."""
    *lines, rest = case.script.split(b"\n")
    pieces = []
    for line in lines:
        connection, text = split_text(line)
        pieces.append([connection + b"".join(it) for it in way(text)] or [line])
    script = b"".join(piece + b"\n" for them in pieces for piece in them) + rest
    moved = lambda told: f"line {1 + sum(map(len, pieces[: int(told[1]) - 1]))} not understood"
    return script, NOT_UNDERSTOOD.sub(moved, case.err)


def difference(kind, wanted, seen):
    named = {"fromfile": f"{kind}, as it should be", "tofile": f"{kind}, as it is"}
    if wanted == seen:
        return ""
    lines = (in_lines(it).splitlines(True) for it in (wanted, seen))
    return "".join(it if it.endswith("\n") else it + "\n" for it in difflib.unified_diff(*lines, **named))


def run(program, case, way):
    """What is wrong with the script that is cut so."""
    script, err = (case.script, case.err) if way is None else cut(case, way)
    try:
        ended = subprocess.run([program, "script"], input=script, capture_output=True, timeout=PATIENCE)
    except subprocess.TimeoutExpired:
        return f"it has not ended after {PATIENCE} s\n"
    out, told = ended.stdout.decode(errors="backslashreplace"), ended.stderr.decode(errors="backslashreplace")
    found = difference("out", case.out, out) + difference("err", err, told)
    return found if ended.returncode == case.status else f"{found}the status is {ended.returncode} and not {case.status}\n"


def run_case(program, case, is_everywhere):
    """What is wrong with the first way in which a script does not print what it should; or nothing."""
    for how, way in ways_of(case, is_everywhere):
        found = run(program, case, way)
        if found:
            return f"== {case.name}, {how}: {case.rule}\n{found}"
    return ""


def print_all(cases):
    """Prints the scripts, and nothing else."""
    for case in cases:
        sys.stdout.buffer.write(case.script)
    return 0


def main():
    parser = words_of(__doc__)
    parser.add_argument("--only", default="", metavar="WORD", help="only the scripts in whose folder or name this stands")
    parser.add_argument("--everywhere", action="store_true", help="cut each text in two at each of its bytes too")
    parser.add_argument("--print", action="store_true", help="print the scripts as `stompd script` reads them, and run none")
    words = parser.parse_args()
    paths = sorted(FOLDER.glob("*/*.script"))
    if words.print:
        return print_all(it for it in [*map(case_of, paths), *made_cases()] if words.only in it.name)
    program, start = words.program, time.monotonic()
    wrong = [f"== {it}\n" for it in [*strays(), *(f"{path.parent.name}: {fault}" for path in paths for fault in faults_of(path))]]
    cases = [it for it in [*map(case_of, paths), *made_cases()] if words.only in it.name]
    with concurrent.futures.ThreadPoolExecutor(os.cpu_count()) as threads:
        found = list(threads.map(lambda it: run_case(program, it, words.everywhere), cases))
    passed = found.count("")
    print("".join([*wrong, *found]), end="")
    print(f"{time.monotonic() - start:.1f} s")
    failed = len(cases) - passed + len(wrong)
    print(f"{passed} passed, {failed} failed")
    return 0 if cases and not failed else 1


if __name__ == "__main__":
    sys.exit(main())
