#!/usr/bin/env python3
"""Makes the manual page of bin/release, stompd.1, from what the program prints for --help. So the page says what the program takes.

    python3 tools/manual.py PROGRAM [VERSION]
"""

import pathlib
import re
import subprocess
import sys

# An argument, an option or a command, and its text in the column after it.
ENTRY = re.compile(r" {2,}(\S.*?) {2,}(\S.*)")

# What is no text of --help.
ENDINGS = """.SH EXIT STATUS
.TP
0
It did what it was asked for.
.TP
1
It could not. The last line on standard error says why.
.TP
2
The words ask for nothing that it does, or for help.
.TP
3
The server has all the clients that it takes.
.SH FILES
.TP
.I FILE
a journal, of mode 0600; it holds all that was acknowledged.
.TP
.IR FILE .new
a journal that is being made. One that a killed command left is made anew by the next one.
.TP
.I /var/lib/stompd/rooms.journal
the journal of the package's service.
.SH EXAMPLES
A server with a journal of 512 MiB, made if there is none, until its input ends:
.PP
.nf
stompd serve rooms.journal 8080 \\-\\-new 536870944 \\-\\-until\\-eof
.fi
.PP
A message, whose sender knows that it is stored once this ends with 0, and one who listens:
.PP
.nf
stompd send 8080 /queue/jobs 'resize 17.png'
stompd listen 8080 /queue/jobs \\-\\-settle \\-\\-count 1
.fi
.PP
A backup during service, and what it holds:
.PP
.nf
stompd copy rooms.journal backup.journal 536870944
stompd held backup.journal
.fi
.SH SEE ALSO
README.md, docs/CLI.md and docs/RUNNING.md, in the archive or in /usr/share/doc/stompd
"""


def escaped(text):
    """Text as roff takes it: each character stands for itself."""
    text = text.replace("\\", "\\e").replace("-", "\\-").replace("'", "\\(aq").replace("`", "\\(ga").replace("^", "\\(ha").replace("~", "\\(ti")
    return f"\\&{text}" if text.startswith(".") else text


def help_of(program, *words):
    """What the program prints for --help: what it is, how it is called, and its lists by their headings."""
    done = subprocess.run(["stompd", *words, "--help"], executable=program, stdin=subprocess.DEVNULL, capture_output=True, text=True)
    about, usage, *lists = done.stderr.strip("\n").split("\n\n")
    parts = (it.splitlines() for it in lists)
    return about, usage.removeprefix("Usage: "), {heading: [ENTRY.fullmatch(it).groups() for it in lines] for heading, *lines in parts}


def entries(pairs):
    return "".join(f".TP\n.B {escaped(name)}\n{escaped(text)}\n" for name, text in pairs)


def command_of(program, name):
    """The part of a command."""
    about, usage, lists = help_of(program, name)
    return f".SS {escaped(usage)}\n{escaped(about)}\n{''.join(entries(it) for it in lists.values())}"


def page_of(program, version):
    """The page of a program, which is at that path. The same program and version give the same page."""
    about, usage, lists = help_of(program)
    commands = "".join(command_of(program, name) for name, _ in lists["Commands:"] if name != "help")
    head = f'.TH stompd 1 "" "{escaped(version)}" ""\n.nh\n.ad l\n'
    return f"{head}.SH NAME\nstompd \\- {escaped(about)}\n.SH SYNOPSIS\n{escaped(usage)}\n.SH OPTIONS\n{entries(lists['Options:'])}.SH COMMANDS\n{commands}{ENDINGS}"


def main():
    program, *version = sys.argv[1:]
    print(page_of(pathlib.Path(program).resolve(), *version or ["stompd"]), end="")


if __name__ == "__main__":
    main()
