#!/usr/bin/env python3
"""`rt`, with the same words and the same answers, in less time.

rt sums the files of a crate and of all that it stands on, to see whether what it kept is still current. It does that anew for each way that
leads from a crate to one below, which for the program takes minutes before each check. Here each crate is summed once a call. Where the
toolchain's rt is not made as expected, this is rt itself.

    bin/rt check          in a crate's folder, as `rt check`; bin/rt calls this file

Of the crates below it takes what is there: whole libraries, as `rt` and `bin/build --kept` leave them, or else the statements that `bin/build` and
`bin/serve` leave. With neither it proves them first, as rt does.

For bin/build, which proves several crates at a time, two words of the environment:

    QUICK_RT_UNLOCKED=1      it takes no lock on the crates' folders, which bin/build holds itself
    QUICK_RT_STATEMENTS=1    of a library that is proved it keeps what others can cite of it, in out/statements, and none of its checked proofs, as
                             `rt ci` does. So the crates above are proved sooner, since they load less. But nothing is kept of the proofs
                             themselves: an edit of that crate has it proved from nothing. With 0 it keeps and takes whole libraries
"""

import importlib.machinery
import importlib.util
import os
import pathlib
import shutil
import sys
import threading

VERDICTS = ("ci", "verdict")


def load(path):
    loader = importlib.machinery.SourceFileLoader("rt_itself", path)
    made = importlib.util.module_from_spec(importlib.util.spec_from_loader("rt_itself", loader))
    loader.exec_module(made)
    return made


def once_a_call(whole):
    """The sum of a crate's files, with each crate below summed once for as long as the outermost call lasts."""
    here = threading.local()

    def stamp(self):
        is_first = not getattr(here, "sums", None)
        if is_first:
            here.sums = {}
        try:
            if self.folder not in here.sums:
                # Not empty from here on, so that the calls below know that they are below.
                here.sums[""] = None
                here.sums[self.folder] = whole(self)
            return here.sums[self.folder]
        finally:
            if is_first:
                here.sums = None

    return stamp


def kept_as_statements(rtlib):
    """Has libraries be built without their checked proofs, in a folder of their own."""
    made, rattle = rtlib.Crate.__init__, rtlib.RATTLE

    def make(self, *given, **named):
        made(self, *given, **named)
        self.rlib = f"{self.folder}/out/statements/{self.name}.rlib"

    def is_built(self):
        return os.path.isdir(self.rlib) and rtlib.text_of(f"{self.folder}/out/statements/stamp") == self.stamp()

    def build_rlib(self, flags, anew):
        if not anew and self.is_built():
            return 0
        made_from, folder = self.stamp(), os.path.dirname(self.rlib)
        shutil.rmtree(folder, ignore_errors=True)
        os.makedirs(folder)
        status = self.call(rattle, "build", *self.words(flags, keeps=False), "--statements", "-o", self.rlib)
        # What was edited meanwhile is built again.
        if status == 0 and made_from == self.stamp():
            with open(f"{folder}/stamp", "w", encoding="utf-8") as stamp:
                stamp.write(made_from)
        return status

    rtlib.Crate.__init__, rtlib.Crate.is_built, rtlib.Crate.build_rlib = make, is_built, build_rlib


def top_above(folder):
    """The folder at or above this one that lists crates."""
    return next((it for it in (folder, *folder.parents) if (it / "crates.txt").is_file()), None)


def crates_below(top, names):
    """The crates that these stand on, by crates.txt."""
    lists = {}
    for line in (top / "crates.txt").read_text(encoding="utf-8").splitlines():
        head, colon, below = line.partition("#")[0].partition(":")
        if colon:
            lists[head.split()[0]] = below.split()
    found, reached = set(), [it for name in names for it in lists.get(name, [])]
    while reached:
        name = reached.pop()
        if name in lists and name not in found:
            found.add(name)
            reached += lists[name]
    return found


def finds_statements(words):
    """Whether some crate below those that these words name has left statements, and not all of them whole libraries."""
    here = pathlib.Path.cwd()
    top = top_above(here)
    if top is None or any(it in VERDICTS for it in words):
        return False
    listed = [it for it in words if (top / "crates" / it).is_dir()]
    crates = top / "crates"
    below = crates_below(top, listed or [here.name])
    have = lambda kind: [(crates / it / "out" / kind / f"{it}.rlib").is_dir() for it in below]
    return any(have("statements")) and not all(have("rlib"))


def keeps_statements(words):
    said = os.environ.get("QUICK_RT_STATEMENTS")
    return said != "0" if said else finds_statements(words)


def quick_main(path, words):
    """What the rt at that path does with its words, in less time; nothing where it is not made as expected."""
    try:
        rt = load(path)
        rt.rtlib.Crate.stamp = once_a_call(rt.rtlib.Crate.stamp)
        if os.environ.get("QUICK_RT_UNLOCKED") and rt.rtlib.lock:
            rt.rtlib.lock = lambda crates: []
        if keeps_statements(words):
            kept_as_statements(rt.rtlib)
        return rt.main
    except (AttributeError, OSError, SyntaxError):
        return None


def main():
    path = os.path.realpath(shutil.which("rt") or "rt")
    sys.argv[0] = path
    call = quick_main(path, sys.argv[1:])
    if call is None:
        os.execvp(path, ["rt", *sys.argv[1:]])
    return call(sys.argv[1:])


if __name__ == "__main__":
    sys.exit(main())
