#!/usr/bin/env python3
"""Measures appends to the claim buffer, and to two kinds of queues in plain Rust. README.md says what each figure means.

    python3 bench/appends.py [--runs N] [--plain] [--crates FOLDER]

The claim buffer's program is proved and built by `rt` in a temporary copy of the crates that it stands on; --plain leaves it
out. FOLDER has these crates, if not crates/ of the repository; where their `out` folders are missing they are proved first.
The queues need `rustc`; those of `crossbeam_queue` also its source, as Debian's librust-crossbeam-queue-dev has it, and are
left out where that is missing.
"""

import argparse
import glob
import pathlib
import shutil
import statistics
import subprocess
import sys
import tempfile

from measuring import HERE, machine

TOP = HERE.parent
SOURCES = HERE / "appends"
CRATE = "ring_appends"
STANDS_ON = ("escape_core", "frame_core", "command_core", "claim_core")
REGISTRY = "/usr/share/cargo/registry"


def build_claim_buffer(folder, crates):
    """The program over the claim buffer, proved and built beside copies of the crates below it."""
    lines = (TOP / "crates.txt").read_text(encoding="utf-8").splitlines()
    own = [line for line in lines if line.split(":")[0].split(" ")[0] in STANDS_ON]
    (folder / "crates.txt").write_text("\n".join([*own, f"{CRATE}: frame_core command_core claim_core", ""]), encoding="utf-8")
    shutil.copy(TOP / "HANDLES", folder / "HANDLES")
    for name in STANDS_ON:
        shutil.copytree(crates / name, folder / "crates" / name, symlinks=True)
    crate = folder / "crates" / CRATE
    for source in SOURCES.rglob("*.txt"):
        place = crate / source.relative_to(SOURCES).with_suffix("")
        place.parent.mkdir(parents=True, exist_ok=True)
        shutil.copy(source, place)
    for name in (*STANDS_ON, CRATE):
        words = ["rt", "run"] if name == CRATE else ["rt", "lib"]
        done = subprocess.run(words, cwd=folder / "crates" / name, capture_output=True, text=True)
        if done.returncode != 0:
            sys.exit(f"{name} is not built:\n{done.stdout[-4000:]}{done.stderr[-4000:]}")
    return crate / "out" / CRATE


def library(folder, name, features, below):
    """A crate of the registry, as a library; None where its source is missing."""
    found = glob.glob(f"{REGISTRY}/{name.replace('_', '-')}-[0-9]*/src/lib.rs")
    if not found:
        return None
    built = folder / f"lib{name}.rlib"
    words = ["rustc", "--edition", "2018", "-O", "--cap-lints", "allow", "--crate-type", "rlib", "--crate-name", name, found[0], "-o", built, "-L", folder]
    words += [word for feature in features for word in ("--cfg", f'feature="{feature}"')]
    words += [word for other in below for word in ("--extern", f"{other}={folder}/lib{other}.rlib")]
    subprocess.run(words, check=True)
    return built


def build_plain(folder):
    """The program over queues of plain Rust, with those of crossbeam_queue where their source is here."""
    built = folder / "plain"
    words = ["rustc", "--edition", "2024", "-O", SOURCES / "plain.rs", "-o", built, "-L", folder]
    if library(folder, "cfg_if", [], []) and library(folder, "crossbeam_utils", ["std"], ["cfg_if"]):
        if queue := library(folder, "crossbeam_queue", ["std", "alloc"], ["cfg_if", "crossbeam_utils"]):
            words += ["--cfg", "crossbeam", "--extern", f"crossbeam_queue={queue}"]
    if "crossbeam" not in words:
        print("no source of crossbeam_queue here (librust-crossbeam-queue-dev): it is left out")
    subprocess.run(words, check=True)
    return built


def figures(programs, runs):
    """What the programs print in so many runs in turn: of each queue and count of threads appends a second, and of its
    bursts nanoseconds at an empty and at a nearly full queue."""
    found = {}
    for _ in range(runs):
        for program in programs:
            said = subprocess.run([program], check=True, capture_output=True, text=True, timeout=120).stdout
            for line in said.splitlines():
                queue, what, one, other = line.split(" ")
                if what == "burst":
                    found.setdefault((queue, what), []).append((float(one), float(other)))
                else:
                    found.setdefault((queue, int(what)), []).append(int(one) / int(other) * 1e9)
    return found


def tell(found):
    for (queue, what), seen in found.items():
        if what == "burst":
            empty, full = (statistics.median(times) for times in zip(*seen))
            print(f"  {queue:<16} an append at an empty one {empty:6.1f} ns, at a nearly full one {full:6.1f} ns   median")
        else:
            print(f"  {queue:<16} {what} threads {max(seen):>12,.0f} appends a second best {statistics.median(seen):>12,.0f} median")


def main():
    parser = argparse.ArgumentParser(description="Measures appends to the claim buffer.")
    parser.add_argument("--runs", type=int, default=9, help="how often each program is run (9)")
    parser.add_argument("--plain", action="store_true", help="leave the claim buffer out")
    parser.add_argument("--crates", type=pathlib.Path, default=TOP / "crates", help="where the crates are that it stands on")
    words = parser.parse_args()
    with tempfile.TemporaryDirectory() as name:
        folder, programs = pathlib.Path(name), []
        if words.plain:
            print("the claim buffer is left out")
        elif shutil.which("rt"):
            programs.append(build_claim_buffer(folder, words.crates))
        else:
            print("no rt here: the claim buffer is left out")
        if shutil.which("rustc"):
            programs.append(build_plain(folder))
        else:
            print("no rustc here: the queues of plain Rust are left out")
        print(machine())
        tell(figures(programs, words.runs))
        print(machine())


if __name__ == "__main__":
    main()
