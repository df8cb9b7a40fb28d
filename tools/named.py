#!/usr/bin/env python3
"""Looks whether what the documents name is there: each file, each test and mutant, each link. Needs Python 3 alone; tools/mutants.py --applies runs it.

    python3 tools/named.py

It looks too whether docs/ARCHITECTURE.md has the groups and crates of crates.txt, in the same order, and whether the sources have what CONTRIBUTING.md
quotes of them.

A file in backquotes is looked for by the end of its path, since a document names `src/turning.rt` beside its crate. A name of four words or more, joined
by underscores, is a test, a mutant or a definition: it has to stand in some file of the repository that is no document.
"""

import itertools
import pathlib
import re
import subprocess
import sys

TOP = pathlib.Path(__file__).resolve().parent.parent

FILE = re.compile(r"`([\w./-]+\.(?:rt|antt|py|sh|md|edit|c|h|rs|conf|mjs|html|script|txt|service))`")
NAME = re.compile(r"`(?:\w+::)*([a-z0-9]+(?:_[a-z0-9]+){3,})`")
LINK = re.compile(r"\]\(([^)#\s:]+)(?:#[^)\s]*)?\)")
QUOTED = re.compile(r"^```(?:rust|antt)\n(.*?)^```$", re.M | re.S)
# A library that others wrote.
OTHERS = {"stomp.py"}
WORD = re.compile(r"[a-z0-9]+(?:_[a-z0-9]+){3,}")
CODE = (".rt", ".antt", ".py", ".edit", ".edits", ".sh", ".c", ".txt", ".mjs")


def tracked():
    listed = subprocess.run(["git", "ls-files", "--cached", "--others", "--exclude-standard"], cwd=TOP, capture_output=True, text=True, check=True)
    return [it for it in listed.stdout.splitlines() if (TOP / it).is_file()]


def known_words(files):
    words = set()
    for it in files:
        words.update(WORD.findall(pathlib.PurePath(it).stem))
        if it.endswith(CODE):
            words.update(WORD.findall((TOP / it).read_text(encoding="utf-8", errors="replace")))
    return words


def missing(files):
    """What documents name that is not there: the document, and what it names."""
    words, ends = known_words(files), {"/" + it for it in files}
    for document in [it for it in files if it.endswith(".md")]:
        text = (TOP / document).read_text(encoding="utf-8")
        for name in sorted(set(FILE.findall(text)) - OTHERS):
            # An absolute path is of the machine where it is installed.
            if not name.startswith("/") and not any(end.endswith("/" + name.removeprefix("./")) for end in ends):
                yield document, name
        for name in sorted(set(NAME.findall(text))):
            if name not in words:
                yield document, name
        for name in sorted(set(LINK.findall(text))):
            if not ((TOP / document).parent / name).exists():
                yield document, name


def listed_groups():
    """The groups of crates.txt: the name of each, which its comment has before a colon, and its crates."""
    groups = []
    for line in (TOP / "crates.txt").read_text(encoding="utf-8").split("\n\n", 1)[1].splitlines():
        name = line.partition(":")[0].split(" ")
        if line.startswith("#"):
            groups.append((" ".join(name[1:]), []))
        elif line:
            groups[-1][1].append(name[0])
    return groups


def drawn_groups():
    """Those of the table of docs/ARCHITECTURE.md."""
    groups = []
    for line in (TOP / "docs" / "ARCHITECTURE.md").read_text(encoding="utf-8").partition("## The crates")[2].partition("\n## ")[0].splitlines():
        if begins := re.match(r"\| \| \*\*([^*]+)\*\*", line):
            groups.append((begins[1], []))
        elif row := re.match(r"\| `(\w+)` \|", line):
            groups[-1][1].append(row[1])
    return groups


def undrawn():
    """What of crates.txt the table has not, or has elsewhere: the first difference of each group."""
    for listed, drawn in itertools.zip_longest(listed_groups(), drawn_groups(), fillvalue=("no group", [])):
        if listed[0] != drawn[0]:
            yield f"crates.txt has the group {listed[0]} where docs/ARCHITECTURE.md has {drawn[0]}"
        for it, other in itertools.zip_longest(listed[1], drawn[1], fillvalue="no crate"):
            if it != other:
                yield f"crates.txt has {it} in {listed[0]} where docs/ARCHITECTURE.md has {other}"
                break


def without_indents(text):
    return "\n".join(line.strip() for line in text.strip().splitlines())


def misquoted(files):
    """The first line of each quotation in CONTRIBUTING.md that no source has."""
    sources = "\n\n".join(without_indents((TOP / it).read_text(encoding="utf-8")) for it in files if it.endswith((".rt", ".antt")))
    for quoted in QUOTED.findall((TOP / "CONTRIBUTING.md").read_text(encoding="utf-8")):
        if without_indents(quoted) not in sources:
            yield f"CONTRIBUTING.md quotes what no source has: {quoted.splitlines()[0]}"


def main():
    files = tracked()
    found = [*(f"{document} names {name}, which is not there" for document, name in missing(files)), *undrawn(), *misquoted(files)]
    for fault in found:
        print(f"named: {fault}", file=sys.stderr)
    print(f"named: {len(found)} faults")
    return 1 if found else 0


if __name__ == "__main__":
    sys.exit(main())
