#!/usr/bin/env python3
"""Has tsc check every_call.mts, which uses each call of examples/stompd.mjs, against its types, and Node run it over a broker.

    python3 clients/module_types.py [PROGRAM] [--types FILE]

Needs Debian's node-typescript, and Node 20 with node-ws or its own experimental WebSocket; without one of them it ends with status 2. --types takes
another file for examples/stompd.d.mts, as one with an error in it that has to be found.
"""

import pathlib
import shutil
import subprocess
import sys
import tempfile

from lib import scenario
from module import HERE, node_words

STRICT = ["--strict", "--noUnusedLocals", "--exactOptionalPropertyTypes", "--noUncheckedIndexedAccess", "--target", "es2022", "--module", "node16", "--moduleResolution", "node16", "--lib", "es2022,dom"]
# What the last line of every_call.mts prints.
LAST = "true open true refused E8 closed connecting mine function"


def run(*words):
    ended = subprocess.run([str(it) for it in words], capture_output=True, text=True, timeout=120)
    return ended.returncode, ended.stdout + ended.stderr


def main():
    parser = scenario.words_of(__doc__)
    parser.add_argument("--types", type=pathlib.Path, default=HERE.parent / "examples" / "stompd.d.mts")
    words, checks = parser.parse_args(), scenario.Checks()
    lacking = [it for it in ("tsc", "node") if shutil.which(it) is None]
    if lacking:
        print(f"module_types: {' and '.join(lacking)} must be there")
        return 2
    with tempfile.TemporaryDirectory(prefix="stompd-types-") as name:
        folder = pathlib.Path(name)
        shutil.copytree(HERE.parent / "examples", folder / "examples")
        shutil.copy(words.types, folder / "examples" / "stompd.d.mts")
        (folder / "clients").mkdir()
        shutil.copy(HERE / "every_call.mts", folder / "clients")
        checks.same("tsc takes each call, and refuses what it has to", run("tsc", *STRICT, folder / "clients" / "every_call.mts"), (0, ""))
        # tsc writes it also if it has found an error.
        with scenario.serving(words.program) as broker:
            node, package = node_words()
            ended = run(*node, folder / "clients" / "every_call.mjs", f"ws://127.0.0.1:{broker.port}/", *package)
            checks.same("each call does in Node what its type says", (ended[0], ended[1].splitlines()[-1:]), (0, [LAST]))
    return checks.status()


if __name__ == "__main__":
    sys.exit(main())
