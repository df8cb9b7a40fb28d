#!/usr/bin/env python3
"""The manual page that bin/release packs: it has what the program prints for --help, command by command, and groff renders it without a warning.

    python3 tests/program/manual.py [PROGRAM]

It needs groff, and builds nothing.
"""

import pathlib
import re
import shutil
import subprocess
import sys

from lib import scenario
from lib.scenario import TOP

COMMAND = re.compile(r"^  ([a-z]+) ", re.M)
OPTION = re.compile(r"(?<![\w-])--?[a-z][a-z-]*")


def help_of(program, *words):
    """What the program prints for --help, under the name stompd."""
    return subprocess.run(["stompd", *words, "--help"], executable=program, stdin=subprocess.DEVNULL, capture_output=True, text=True).stderr


def rendered(page, checks):
    """The page as a terminal shows it."""
    done = subprocess.run(["groff", "-man", "-ww", "-Tascii", "-P-cbou"], input=page, capture_output=True, text=True)
    checks.same("groff has no warning", (done.returncode, done.stderr), (0, ""))
    return done.stdout


def parts_of(page):
    """The parts of a rendered page, by their headings, with all white space as one blank."""
    parts = re.split(r"^(?:   )?([A-Za-z][^\n]*)$", page, flags=re.M)
    return {heading.strip(): " ".join(text.split()) for heading, text in zip(parts[1::2], parts[2::2])}


def try_command(program, name, parts, checks):
    """All lines of a command's help stand in its part: its usage, and each argument and option with its text."""
    told = help_of(program, name)
    about, usage, *lists = told.strip("\n").split("\n\n")
    part = parts.get(usage.removeprefix("Usage: "), "")
    checks.check(f"the page has {usage.removeprefix('Usage: ')}", part, sorted(parts))
    lines = [about, *(line for it in lists for line in it.splitlines()[1:])]
    checks.same(f"and all texts of {name}", [it for it in lines if " ".join(it.split()) not in part], [])
    checks.same("and no other option", set(OPTION.findall(part)), set(OPTION.findall("\n".join(lines))))


def try_examples(program, commands, part, checks):
    """Each example calls a command of the program, with options that this command has."""
    calls = re.findall(r"stompd ([a-z]+)((?: (?!stompd|A )\S+)*)", part)
    checks.check("the page has examples", len(calls) > 3, part)
    checks.same("each calls a command", [name for name, _ in calls if name not in commands], [])
    for name, words in calls:
        checks.same(f"{name} has the options of its example", [it for it in OPTION.findall(words) if it not in OPTION.findall(help_of(program, name))], [])


def main():
    words = scenario.words_of(__doc__).parse_args()
    if shutil.which("groff") is None:
        print("manual.py needs groff", file=sys.stderr)
        return 2
    program, checks = pathlib.Path(words.program).resolve(), scenario.Checks()
    made = subprocess.run([sys.executable, TOP / "tools" / "manual.py", program], capture_output=True, text=True)
    checks.same("the page is made", (made.returncode, made.stderr), (0, ""))
    page = rendered(made.stdout, checks)
    parts = parts_of(page)
    told = help_of(program)
    commands = [it for it in COMMAND.findall(told) if it != "help"]
    checks.check("the program has commands", len(commands) > 5, told)
    about, *_ = told.split("\n")
    checks.same("the page's name says what the program is", parts.get("NAME"), f"stompd - {about}")
    for name in commands:
        try_command(program, name, parts, checks)
    checks.same("the page has no other command", sum(bool(re.match("stompd [a-z]", it)) for it in parts), len(commands))
    try_examples(program, commands, parts.get("EXAMPLES", ""), checks)
    return checks.status()


if __name__ == "__main__":
    sys.exit(main())
