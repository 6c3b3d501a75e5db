#!/usr/bin/env python3
"""Lists each public definition of every crate's `specs/` in one line, with its file and the sentence that stands over it.

Usage: tools/definitions.py [--bare] > docs/DEFINITIONS.md

The crates come in the order of `crates.txt`, the files of a crate in the order of `specs/Lib.antt`. A definition is one of
`pub NAME`, with or without `abbrev` or `unfoldable` in front, `pub record NAME` and `pub data NAME`, also within a `module`
of parameters; the fields of a record are no definitions of their own. With `--bare` it lists instead, file by file, the
definitions without a sentence.
"""
import pathlib
import re
import sys

ROOT = pathlib.Path(__file__).resolve().parent.parent
DECLARED = re.compile(r"^( *)(?:(abbrev|unfoldable) )?pub (?:(record|data|ruleset) )?(\S+)(.*)$")
BEGINS = re.compile(r"^( *)(?:module|pub record|pub data|record)\b")
LISTED = re.compile(r"^pub mod (\S+)$")
FIXED = re.compile(r"^ *infix")

HEAD = """# Definitions

Each public definition of the crates' `specs/`, in one line: its name, what kind it is, and the sentence that stands over it
there, or, where there is none, the statement or the type that it has. The crates stand in the order of `crates.txt`, and files in the order of their crate's list.
`tools/definitions.py > docs/DEFINITIONS.md` writes this page anew.

A *definition* says what a name stands for, a *record* is a list of named parts or premises, a *type* a list of cases, a
*fact* is a statement that is proved where it stands, and a *ruleset* names facts that proofs use together. [THEOREM.md](THEOREM.md) lists those that the contract of `anyon`
reaches, in the order in which to read them.
"""


class Fault(Exception):
    """What can't be read, with its place."""


def crates():
    """The names of the crates, in the order of `crates.txt`."""
    names = []
    path = ROOT / "crates.txt"
    for number, line in enumerate(path.read_text(encoding="utf-8").splitlines(), 1):
        if not line.strip() or line.startswith("#"):
            continue
        name, colon, _ = line.partition(":")
        if not colon:
            raise Fault(f"{path.name} line {number}: no `:` behind the name of a crate")
        names.append(name)
    return names


def files(crate):
    """The definition files of a crate, in the order of its list."""
    folder = ROOT / "crates" / crate / "specs"
    listing = folder / "Lib.antt"
    if not listing.is_file():
        return []
    names = [LISTED.match(line) for line in listing.read_text(encoding="utf-8").splitlines()]
    paths = [folder / f"{found[1]}.antt" for found in names if found]
    for path in paths:
        if not path.is_file():
            raise Fault(f"crates/{crate}/specs/Lib.antt: there is no file {path.name}")
    rest = sorted(set(folder.glob("*.antt")) - set(paths) - {listing})
    return paths + rest


def comment_over(lines, at):
    """The sentence of the comment lines directly over a line, or an empty text."""
    found = []
    at -= 1
    while at >= 0 and FIXED.match(lines[at]):
        at -= 1
    while at >= 0 and lines[at].lstrip().startswith("--"):
        found.append(lines[at].lstrip()[2:].strip())
        at -= 1
    return " ".join(reversed(found))


def kind_of(modifier, shape):
    """The word for what is declared."""
    if shape:
        return "type" if shape == "data" else shape
    return "definition" if modifier else "fact"


def indent_of(line):
    """How many spaces a line begins with."""
    return len(line) - len(line.lstrip(" "))


def is_field(line, holders):
    """Whether a line stands within a record or a type, by the heads of what it stands within."""
    del holders[next((i for i, (depth, _) in enumerate(holders) if depth >= indent_of(line)), len(holders)):]
    return bool(holders) and holders[-1][1] != "module"


def definitions(path):
    """The public definitions of a file: name, kind, sentence and what stands behind the name, for each."""
    lines = path.read_text(encoding="utf-8").splitlines()
    holders = []
    found = []
    for at, line in enumerate(lines):
        if not line.strip() or line.lstrip().startswith("--"):
            continue
        within = is_field(line, holders)
        declared = None if within else DECLARED.match(line)
        if declared and declared[4] != "mod":
            kind = kind_of(declared[2], declared[3])
            found.append((declared[4], kind, comment_over(lines, at), declared[5].strip(" :=")))
        begun = None if within else BEGINS.match(line)
        if begun:
            word = "module" if line.lstrip().startswith("module") else "record"
            holders.append((indent_of(line), word))
    return found


def described(sentence, behind):
    """What a line tells of a definition."""
    return cell(sentence) or (f"`{behind}`" if behind else "(none)")


def title(path):
    """The sentence with which a file begins, or an empty text."""
    found = []
    for line in path.read_text(encoding="utf-8").splitlines():
        if not line.startswith("--"):
            break
        text = line[2:].strip()
        if not text:
            break
        found.append(text)
    return " ".join(found)


def cell(text):
    """A text that stands in one line of a list."""
    return text.replace("*", "\\*").replace("_", "\\_").replace("<", "\\<").replace("|", "\\|")


def write_page(out):
    """Writes the page of all definitions."""
    out.write(HEAD)
    for crate in crates():
        listed = [(path, definitions(path)) for path in files(crate)]
        if not any(found for _, found in listed):
            continue
        out.write(f"\n## {crate}\n")
        for path, found in listed:
            if not found:
                continue
            out.write(f"\n`crates/{crate}/specs/{path.name}`: {cell(title(path)) or '(none)'}\n\n")
            for name, kind, sentence, behind in found:
                out.write(f"- `{name}` ({kind}): {described(sentence, behind)}\n")


def write_bare(out):
    """Writes how many definitions have no sentence, file by file."""
    count = 0
    for crate in crates():
        for path in files(crate):
            bare = [name for name, _, sentence, _ in definitions(path) if not sentence]
            count += len(bare)
            if bare:
                out.write(f"crates/{crate}/specs/{path.name}: {len(bare)}: {' '.join(bare)}\n")
    out.write(f"{count} definitions without a sentence\n")


def main(words):
    """Writes what the words ask for; 2 where they ask for nothing, 1 where the sources can't be read."""
    sys.stdout.reconfigure(encoding="utf-8")
    if words not in ([], ["--bare"]):
        sys.stderr.write("usage: tools/definitions.py [--bare]\n")
        return 2
    try:
        (write_bare if words else write_page)(sys.stdout)
    except (Fault, OSError) as fault:
        sys.stderr.write(f"{fault}\n")
        return 1
    return 0


if __name__ == "__main__":
    sys.exit(main(sys.argv[1:]))
