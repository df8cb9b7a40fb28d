"""What has changed since a commit, as far as it can concern a mutant: the functions, and the definitions that their contracts speak of.

A function's contract is refused a wrong body by what the contract says. So a mutant has to be tried again if it changed itself, if the function that
it edits changed, or if a definition of specs/ changed that the function names, directly or through other definitions.
"""

import collections
import pathlib
import re
import subprocess
import sys

TOP = pathlib.Path(__file__).resolve().parent.parent
PARTS = ("src", "specs", "proofs")

WORD = re.compile(r"[^\W\d][\w-]*")
DEFINES = re.compile(r"^ *(?:unfoldable |opaque )*(?:abbrev |record |data |fact )+(?:pub )?([^\W\d][\w-]*)|^ *pub (?:abbrev |record |data )?([^\W\d][\w-]*) *:")
IMPORTS = re.compile(r"^ *(?:ghost )?use Rattle\.(\w+)\.specs\.([\w.]+)\.\{([^}]*)\}", re.M)
DECLARES = re.compile(r"^( *)(?:pub(?:\([a-z]+\))? )?(?:const |unsafe )*(?:fn|struct|enum|trait|impl|const)\b[^\n]*", re.M)


def crates_below():
    """Each crate of crates.txt, with the crates that it names."""
    below = {}
    for line in (TOP / "crates.txt").read_text(encoding="utf-8").splitlines():
        head, colon, names = line.partition("#")[0].partition(":")
        if colon:
            below[head.split()[0]] = names.split()
    return below


Mutant = collections.namedtuple("Mutant", "crate name pairs")
Mutant.__doc__ = "A wrong edit of a crate. Each pair is the file, the text that it loses, the text in its place, and the function it stands in, or nothing."


def mutants_in(crate, text):
    """The mutants of mutants/CRATE.edits: a file holds for all below it, until the next."""
    found, path, old, within = [], "", "", ""
    for line in text.splitlines():
        if line.startswith("file: "):
            path = line[6:].strip()
        elif line.startswith("["):
            found.append(Mutant(crate, line.strip("[]"), []))
            within = ""
        elif line.startswith("in: "):
            within = line[4:].strip()
        elif line.startswith("old: "):
            old = line[5:]
        elif line.startswith("new:"):
            found[-1].pairs.append((path, old, line[4:].removeprefix(" "), within))
        elif line:
            sys.exit(f"mutants/{crate}.edits has the line: {line}")
    return found


def span(text, within):
    """Where a function, as `name` or `Type::name`, begins and ends in the text of its file; the whole text if none is named."""
    start = 0
    for part in within.split("::") if within else ():
        found = re.compile(rf"^( *)(?:[a-z()]+ )*(?:fn {part}\b|impl\b[^{{\n]*\b{part}\b)", re.M).search(text, start)
        if not found:
            return 0, 0
        start, end = found.start(), text.find(f"\n{found[1]}}}", found.end())
    return (start, end) if within else (0, len(text))


def git(*words):
    ran = subprocess.run(["git", *words], cwd=TOP, capture_output=True, text=True)
    if ran.returncode:
        sys.exit(ran.stderr.strip())
    return ran.stdout


def changed_paths(commit):
    tracked = git("diff", "--name-only", commit, "--", "crates", "mutants").splitlines()
    added = git("ls-files", "--others", "--exclude-standard", "--", "crates", "mutants").splitlines()
    return [pathlib.PurePath(it) for it in [*tracked, *added]]


def was(commit, path):
    """The text that a file had in the commit, nothing if it was not there."""
    ran = subprocess.run(["git", "show", f"{commit}:{path}"], cwd=TOP, capture_output=True, text=True)
    return "" if ran.returncode else ran.stdout


def now(path):
    file = TOP / path
    return file.read_text(encoding="utf-8") if file.is_file() else ""


def definitions(text):
    """The definitions of a file of specs/: each name with its text."""
    found, name = {}, None
    for line in text.splitlines():
        begins = DEFINES.match(line)
        if begins:
            name = begins[1] or begins[2]
        if name and not line.lstrip().startswith("--"):
            found[name] = found.get(name, "") + line + "\n"
    return found


def around(text, part):
    """The item of a source file that has this text: from its declaration, with its comment and contract, to the line that closes it."""
    at = text.find(part)
    if at < 0:
        return text
    begins = [it for it in DECLARES.finditer(text, 0, at + len(part)) if it.start() <= at and not it[0].lstrip().startswith("impl")]
    if not begins:
        return text
    closing = re.compile(rf"^{begins[-1][1]}\}}", re.M).search(text, begins[-1].end())
    return text[begins[-1].start() : closing.end() if closing else len(text)]


def meanings(text):
    """What the imported names of a file mean: the crate, the file of its specs/, and the name."""
    return {name.strip(): (crate, module, name.strip()) for crate, module, names in IMPORTS.findall(text) for name in names.split(",")}


def meant_by(text, meanings):
    return {meanings[it] for it in WORD.findall(text) if it in meanings}


def place_of(path):
    """The crate of a file of specs/, and what others import it by."""
    return path.parts[1], ".".join(path.with_suffix("").parts[3:])


def stale_meanings(commit, paths):
    """The definitions that changed, and those that speak of them, of whichever crate."""
    every, stale = {}, set()
    for file in TOP.glob("crates/*/specs/**/*.antt"):
        path = pathlib.PurePath(file.relative_to(TOP))
        text = now(path)
        own = definitions(text)
        here = {**meanings(text), **{name: (*place_of(path), name) for name in own}}
        every |= {(*place_of(path), name): meant_by(it, here) for name, it in own.items()}
        if path in paths:
            before = definitions(was(commit, path))
            stale |= {(*place_of(path), name) for name, it in own.items() if before.get(name) != it}
    reached = -1
    while reached != len(stale):
        reached = len(stale)
        stale |= {it for it, others in every.items() if others & stale}
    return stale


def concerns(mutant, commit, paths, stale):
    """Whether the change may concern a mutant: the function that it edits, or a definition that this one names."""
    for path, old, _, _ in mutant.pairs:
        file = pathlib.PurePath("crates", mutant.crate, path)
        item = around(now(file), old)
        if meant_by(item, meanings(now(file))) & stale or (file in paths and around(was(commit, file), old) != item):
            return True
    return False


def stale_mutants(commit, mutants, is_wide):
    paths = set(changed_paths(commit))
    edited = []
    for crate in sorted({it.stem for it in paths if it.parts[0] == "mutants"}):
        before = mutants_in(crate, was(commit, f"mutants/{crate}.edits"))
        edited += [it for it in mutants if it.crate == crate and it not in before]
    if is_wide:
        crates = {it.parts[1] for it in paths if it.parts[0] == "crates" and len(it.parts) > 3 and it.parts[2] in PARTS}
        below, reached = crates_below(), 0
        while reached != len(crates):
            reached = len(crates)
            crates |= {name for name, names in below.items() if crates & set(names)}
        return [it for it in mutants if it.crate in crates or it in edited]
    stale = stale_meanings(commit, paths)
    return [it for it in mutants if it in edited or concerns(it, commit, paths, stale)]
