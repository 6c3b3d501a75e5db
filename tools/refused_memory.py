#!/usr/bin/env python3
"""Refuses each allocation of runs of the program in turn, and tells what it answers then.

    python3 tools/refused_memory.py PROGRAM [WORD ..]

PROGRAM with the further words (a loader and its program, say) runs `anyon`. The runs are those
of worked rows of the repository. `refuse.c` beside this file, compiled with `cc`, splits the
process at each allocation: one half is refused it and goes on to its end. That half must end
with the exit code 6, with nothing on standard output and `no memory` on standard error; or, if
what was refused isn't needed, with the report of the run, whole. Anything else (a crash, a
signal, part of a report, another report, another exit code) is printed.

A line for each run counts the allocations, and how many of each answer there were. The exit
code is 0 where all are as said, 1 where one isn't, and 2 for faulty words.
"""

import os
import subprocess
import sys
import tempfile
from pathlib import Path

from random_lines import worked_texts

RUNS = [
    "run FIB TWO_SITES AABB",
    "run FIB TWO_SITES BABA",
    "run FIB TWO_SITES",
    "run FIB ONE_BRAID BAA",
    "trees FIB X_MEASURED",
    "check FIB",
    "check ISING",
    "format FIB",
    "format FIB_FREE",
    "make 5",
]


def shim(folder):
    """Compiles the library that refuses."""
    source = Path(__file__).resolve().parent / "refuse.c"
    library = Path(folder, "refuse.so")
    subprocess.run(["cc", "-O1", "-shared", "-fPIC", "-o", library, source, "-ldl"], check=True)
    return library


def answers(program, words, folder, library):
    """The report of a run, and for each refused allocation its number, exit code, output and complaint."""
    log = Path(folder, "log")
    log.unlink(missing_ok=True)
    settings = {**os.environ, "LD_PRELOAD": str(library), "REFUSED": str(log), "ASAN_OPTIONS": "detect_leaks=0"}
    done = subprocess.run([*program, *words], cwd=folder, env=settings, capture_output=True, check=False)
    lines = log.read_text(errors="replace").splitlines()
    return done, [line.split(" ", 3) for line in lines]


def judged(done, answer):
    """`refused`, `not needed` or `wrong` for one refused allocation."""
    _, code, output, complaint = answer
    if (code, output, complaint) == ("6", "-", "no memory"):
        return "refused"
    if (code, output, complaint) == (str(done.returncode), done.stdout.hex() or "-", ""):
        return "not needed"
    return "wrong"


def try_run(program, line, folder, library):
    """Runs a line with each allocation refused, prints its counts, and gives the number of wrong answers."""
    done, found = answers(program, line.split(), folder, library)
    if done.returncode or done.stderr or not found:
        print(f"{line}: ended with {done.returncode} and {len(found)} allocations {done.stderr!r}")
        return 1
    kinds = {kind: [answer for answer in found if judged(done, answer) == kind]
             for kind in ("refused", "not needed", "wrong")}
    print(f"{line}: {len(found)} allocations, {len(kinds['refused'])} no memory with nothing written, "
          f"{len(kinds['not needed'])} not needed, {len(kinds['wrong'])} wrong", flush=True)
    for answer in kinds["wrong"]:
        print("  wrong:", *answer)
    return len(kinds["wrong"])


def main(program):
    """Tries all runs."""
    if not program or not os.path.isfile(program[0]):
        print(__doc__, file=sys.stderr)
        return 2
    program = [os.path.abspath(word) if os.path.exists(word) else word for word in program]
    with tempfile.TemporaryDirectory() as folder:
        library = shim(folder)
        for name, text in worked_texts().items():
            Path(folder, name).write_bytes(text)
        return 1 if sum(try_run(program, line, folder, library) for line in RUNS) else 0


if __name__ == "__main__":
    sys.exit(main(sys.argv[1:]))
