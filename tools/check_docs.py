#!/usr/bin/env python3
"""Checks that what docs/GUIDE.md quotes is what the files have.

    python3 tools/check_docs.py [--fill]

A fenced block that begins with ```text quotes a whole file: the last line with
words above it ends with the file's name, as in `examples/guide_first.txt`:
A line of a ```sh block that begins with `python3 tools/` is run at the top of
the repository; what it prints has to be the file behind `>`, or else the file
that the next ```text block quotes. A command of `anyon` on files of `examples/`
has to be one of the runs that the gate makes (examples/*runs.txt), and where a
report is quoted next, the run of that report. A picture that the guide shows
has to be there.

Prints each place that differs, with exit status 1 where there is one. With
`--fill` it writes what the commands print into their files and the files into
the guide, and then checks; 2 is a faulty command line.
"""

import pathlib
import re
import shlex
import subprocess
import sys
from dataclasses import dataclass

TOP = pathlib.Path(__file__).resolve().parent.parent
GUIDE = TOP / "docs" / "GUIDE.md"
NAMED = re.compile(r"`([\w./-]+)`:$")


@dataclass
class Block:
    """A fenced block: its kind, its fences' places, and the file it quotes."""
    kind: str
    begin: int
    end: int
    name: str = ""


def blocks_of(lines):
    """The fenced blocks of a document's lines."""
    blocks, begin = [], None
    for at, line in enumerate(lines):
        if not line.startswith("```"):
            continue
        if begin is None:
            begin = at
        else:
            blocks.append(Block(lines[begin][3:], begin, at, name_above(lines, begin)))
            begin = None
    return blocks


def name_above(lines, at):
    """The file that the last line with words above a place names, or nothing."""
    above = next((line for line in reversed(lines[:at]) if line.strip()), "")
    found = NAMED.search(above)
    return found[1] if found else ""


def bytes_of(name):
    """The bytes of a file of the repository, None where it isn't there."""
    path = TOP / name
    return path.read_bytes() if path.is_file() else None


def commands_of(lines, blocks):
    """Each command of a tool, as its line's place, its words, and the file that
    has what it prints."""
    found = []
    for number, block in enumerate(blocks):
        following = [later.name for later in blocks[number + 1:number + 2]]
        for at in range(block.begin + 1, block.end):
            if block.kind == "sh" and lines[at].startswith("python3 tools/"):
                words, _, behind = lines[at].partition(" > ")
                name = behind.strip() or (following or [""])[0]
                found.append((at, shlex.split(words), name))
    return found


def printed(words):
    """What a command of the tools prints."""
    words = [sys.executable] + words[1:]
    return subprocess.run(words, cwd=TOP, capture_output=True, check=False).stdout


def fill(lines):
    """Writes what commands print into their files, and the files into the
    guide."""
    blocks = blocks_of(lines)
    for _, words, name in commands_of(lines, blocks):
        if name:
            (TOP / name).write_bytes(printed(words))
    for block in reversed(blocks):
        data = bytes_of(block.name) if block.kind == "text" and block.name else None
        if data is not None:
            lines[block.begin + 1:block.end] = data.decode("ascii").splitlines()
    GUIDE.write_text("\n".join(lines) + "\n")


def text_faults(lines, blocks):
    """What is wrong with the quoted texts."""
    for block in blocks:
        quoted = "".join(line + "\n" for line in lines[block.begin + 1:block.end])
        if block.kind != "text":
            continue
        if not block.name:
            yield block.begin, "a text without a file's name above it"
        elif bytes_of(block.name) is None:
            yield block.begin, f"no file {block.name}"
        elif bytes_of(block.name) != quoted.encode():
            yield block.begin, f"differs from {block.name}"


def command_faults(lines, blocks):
    """What is wrong with the commands of the tools."""
    for at, words, name in commands_of(lines, blocks):
        if not name:
            yield at, "a command without a file for what it prints"
        elif printed(words) != bytes_of(name):
            yield at, f"doesn't print {name}"


def listed_runs():
    """The runs of the examples: the words of each, and its report's file."""
    runs = {}
    for path in sorted((TOP / "examples").glob("*runs.txt")):
        for line in path.read_text().splitlines():
            words = line.split()
            if words and not words[0].startswith("#"):
                runs[" ".join(words[2:])] = "examples/" + words[0]
    return runs


def run_faults(lines):
    """What is wrong with the commands of `anyon` that name examples."""
    runs, report = listed_runs(), ""
    for at, line in enumerate(lines):
        for command in re.findall(r"(?:^|`)anyon ([^`|]* examples/[^`|]*)", line):
            report = runs.get(command.strip().replace("examples/", ""), "")
            if not report:
                yield at, "a command that is no run of the examples"
        quoted = NAMED.search(line)
        if quoted and quoted[1].endswith("_report.txt") and quoted[1] != report:
            yield at, f"the command before it is not that of {quoted[1]}"


def picture_faults(lines):
    """Which pictures that are shown aren't there."""
    for at, line in enumerate(lines):
        for name in re.findall(r"!\[[^]]*\]\(([^)]*)\)", line):
            if not (GUIDE.parent / name).is_file():
                yield at, f"no picture {name}"


def main(words):
    """Checks the guide; answers the exit status."""
    if words not in ([], ["--fill"]):
        print("usage: check_docs.py [--fill]", file=sys.stderr)
        return 2
    lines = GUIDE.read_text().splitlines()
    if words:
        fill(lines)
        lines = GUIDE.read_text().splitlines()
    blocks = blocks_of(lines)
    faults = [*text_faults(lines, blocks), *command_faults(lines, blocks),
              *run_faults(lines), *picture_faults(lines)]
    for at, fault in sorted(faults):
        print(f"docs/GUIDE.md line {at + 1}: {fault}")
    return 1 if faults else 0


if __name__ == "__main__":
    sys.exit(main(sys.argv[1:]))
