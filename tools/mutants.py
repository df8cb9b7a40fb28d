#!/usr/bin/env python3
"""Tries the mutants that stand beside the gate, those in mutants/CRATE.edits, each of which the prover must refuse; docs/GATE.md says which stand
where. Needs `rt` and Python 3; the gate only looks whether they apply.

A mutant is a section `[NAME]` with lines `old: ..` and `new: ..`, a pair for each line that it edits, below the line `file: ..` of its source file.
A line `in: FUNCTION` or `in: TYPE::FUNCTION` before a pair says which function is meant, if others have the same text.

    python3 tools/mutants.py [--applies] [CRATE | CRATE/MUTANT ..]
    python3 tools/mutants.py [--applies | --list] --changed COMMIT [--above]

Without names, it tries those of all crates. With --changed it tries those of which the mutant itself, the function that it edits, or a definition that
this function's contract speaks of, directly or through others, differs from that commit's; with --above also those of all crates that changed, and of
the crates above them. --list only prints them. With --applies it proves nothing, and says in a second or two which can't be applied: the text that
each takes away has to stand once in its file, or in the function that it names.

For each it prints the goal that refused it, or a warning if only a proof file that names what the mutant took away was refused: that says little of
the contract. A copy of the crates is made, over what the checkout has built, so the checkout stays as it is. A crate that was checked on this
machine takes half a minute for each mutant, and another its whole proof first. The environment's RT names a command in place of bin/rt.
"""

import argparse
import collections
import os
import pathlib
import shlex
import shutil
import subprocess
import sys
import tempfile

import changes
import named

TOP = pathlib.Path(__file__).resolve().parent.parent
FURTHER = TOP / "mutants"
RT = shlex.split(os.environ.get("RT", str(TOP / "bin" / "rt")))


def every_mutant():
    return [it for file in sorted(FURTHER.glob("*.edits")) for it in changes.mutants_in(file.stem, file.read_text(encoding="utf-8"))]


def is_named(mutant, word):
    crate, _, name = word.partition("/")
    return mutant.crate == crate and name in ("", mutant.name)


def named_twice(mutants):
    """The mutants that have the name of another of their crate, which would hide one of the two."""
    counts = collections.Counter((it.crate, it.name) for it in mutants)
    return [f"{crate}/{name}" for (crate, name), count in counts.items() if count > 1]


def why_not_applied(mutant):
    """Says why the mutant cannot be applied to its crate, or nothing if it can."""
    texts = {}
    for path, old, new, within in mutant.pairs:
        file = TOP / "crates" / mutant.crate / path
        if not file.is_file():
            return f"there is no {path}"
        text = texts.setdefault(path, file.read_text(encoding="utf-8"))
        start, end = changes.span(text, within)
        if text.count(old, start, end) != 1:
            return f"{within or path} has this {text.count(old, start, end)} times: {old}"
        texts[path] = text[:start] + text[start:end].replace(old, new) + text[end:]
    return "" if texts else "it changes nothing"


def applied(mutants):
    """Prints what cannot be applied, and returns how many mutants that are."""
    lost = 0
    for it in mutants:
        why = why_not_applied(it)
        if why:
            lost += 1
            print(f"{it.crate}/{it.name}: {why}")
    return lost


def marked(crate, mutant):
    """The mutant's pairs as rt takes them, by a text that stands once in a file: a line of a function that is named gets a comment in the copy."""
    for path, old, new, within in mutant.pairs:
        if within:
            file = crate / path
            text = file.read_text(encoding="utf-8")
            at = text.index(old, *changes.span(text, within))
            start, end = text.rfind("\n", 0, at) + 1, text.index("\n", at)
            mark = f" // {mutant.name}"
            file.write_text(text[:end] + mark + text[end:], encoding="utf-8")
            old, new = text[start:end] + mark, text[start:end].replace(old, new) + mark
        yield path, old, new


def must_fail_edit(pairs):
    """The text of the file that `rt must-fail` takes."""
    lines, last = [], ""
    for path, old, new in pairs:
        lines += [f"file: {path}"] * (path != last) + [f"old: {old}", f"new: {new}"]
        last = path
    return "\n".join(lines) + "\n"


def link_or_copy(made, to):
    try:
        os.link(made, to)
    except OSError:
        shutil.copy2(made, to)


def hand_over(name, copy):
    """Gives the copy what the checkout has built of a crate, by hard links; rt looks itself whether it is current."""
    for kind in ("rlib", "statements"):
        built = TOP / "crates" / name / "out" / kind
        if built.is_dir():
            shutil.copytree(built, copy / "crates" / name / "out" / kind, copy_function=link_or_copy)


def refused(mutants):
    """Tries the mutants in a copy of the crates, each crate's in turn, and returns how many were not refused."""
    lost = 0
    with tempfile.TemporaryDirectory(prefix="mutants-") as room:
        copy = pathlib.Path(room)
        shutil.copytree(TOP / "crates", copy / "crates", ignore=shutil.ignore_patterns("out", "must-fail"))
        for name in ("crates.txt", "HANDLES"):
            shutil.copy2(TOP / name, copy / name)
        for name in changes.crates_below():
            hand_over(name, copy)
        for name in sorted({it.crate for it in mutants}):
            place, own = copy / "crates" / name / "must-fail", [it for it in mutants if it.crate == name]
            place.mkdir()
            for it in own:
                (place / f"{it.name}.edit").write_text(must_fail_edit(marked(copy / "crates" / name, it)), encoding="utf-8")
            ran = subprocess.run([*RT, "must-fail", name], cwd=copy, stdin=subprocess.DEVNULL, stdout=subprocess.PIPE, stderr=subprocess.STDOUT, text=True, errors="replace")
            print(ran.stdout, end="", flush=True)
            lost += len(own) - ran.stdout.count(": refused, as it must be")
    return lost


def main():
    parser = argparse.ArgumentParser(description=__doc__, formatter_class=argparse.RawDescriptionHelpFormatter)
    parser.add_argument("--applies", action="store_true", help="only look whether each can be applied")
    parser.add_argument("--list", action="store_true", help="only print which they are")
    parser.add_argument("--changed", metavar="COMMIT", help="those that what has changed since the commit may concern")
    parser.add_argument("--above", action="store_true", help="with --changed: those of all crates that changed, and of the crates above")
    parser.add_argument("names", nargs="*", metavar="CRATE or CRATE/MUTANT")
    words = parser.parse_args()
    every = every_mutant()
    for it in words.names:
        if not any(is_named(mutant, it) for mutant in every):
            print(f"mutants/ has no crate and no mutant of the name {it}", file=sys.stderr)
            return 2
    for it in named_twice(every):
        print(f"mutants/ has two of the name {it}", file=sys.stderr)
        return 2
    if words.changed:
        mutants = changes.stale_mutants(words.changed, every, words.above)
    else:
        mutants = [it for it in every if not words.names or any(is_named(it, word) for word in words.names)]
    if words.list:
        print(*(f"{it.crate}/{it.name}" for it in mutants), sep="\n")
        return 0
    lost = applied(mutants) if words.applies else applied(mutants) or refused(mutants)
    what = "applied" if words.applies else "refused"
    print(f"{len(mutants)} mutants of {len({it.crate for it in mutants})} crates, {lost} not {what}")
    misnamed = named.main() if words.applies else 0
    return 1 if lost or misnamed else 0


if __name__ == "__main__":
    sys.exit(main())
