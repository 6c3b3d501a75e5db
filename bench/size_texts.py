#!/usr/bin/env python3
"""Writes texts of exactly 4,194,304 bytes, of the worst kind that each grammar allows, into a folder.

For each run it prints a line of three parts, with a tab between them: the seconds within which
it has to answer, what the text is, and the words. Usage: size_texts.py FOLDER
"""
import itertools
import random
import subprocess
import sys
from fractions import Fraction
from pathlib import Path

SIZE = 4_194_304
LINE = 1_024
COMMANDS = 4_096
LABELS = "1abcdefghijk"
HERE = Path(__file__).resolve().parent
DATA = HERE.parent / "crates" / "anyon_cli" / "data"


def filled(lines: list[str], filler: str = "#" * LINE) -> str:
    """The lines, and behind them fillers up to the size of a text, the last one shorter."""
    text = "".join(line + "\n" for line in lines)
    room = SIZE - len(text)
    return text + (filler + "\n") * (room // (len(filler) + 1)) + "\n" * (room % (len(filler) + 1))


def padded(lines: list[str]) -> str:
    """The lines with spaces between and behind their words, as many as lines and the text have room for."""
    left, out = SIZE, []
    for place, line in enumerate(lines):
        share = min(LINE, left // (len(lines) - place) - 1)
        first, *rest = line.split(" ")
        out.append(" ".join([first.ljust(share - sum(map(len, rest)) - len(rest)), *rest]))
        left -= len(out[-1]) + 1
    return filled(out)


def repeated(first: str, lines: list[str]) -> str:
    """A first line, and then these lines over and over, as often as the text has room for all of them."""
    group = sum(len(line) + 1 for line in lines)
    return filled([first] + lines * ((SIZE - len(first) - 1) // group))


def taken(first: str, lines) -> str:
    """A first line, and then lines as long as the text has room for the next."""
    out, left = [first], SIZE - len(first) - 1
    for line in lines:
        if len(line) + 1 > left:
            break
        out.append(line)
        left -= len(line) + 1
    return filled(out)


FILLERS = {
    "lines of the one byte #": "#",
    "empty lines": "",
    "comments of 1,024 bytes": "#" * LINE,
    "comments of 512 one-letter words": "# " * (LINE // 2 - 1) + "#",
    "lines of 1,024 spaces": " " * LINE,
}


def dense(root: int, parts: int, digits: int) -> str:
    """As many F-symbols over dense rules as the text has room for; such rules aren't associative."""
    words = [sys.executable, HERE / "dense_category.py", str(root), str(parts), str(digits)]
    return subprocess.run(words, capture_output=True, text=True, check=True).stdout


def spins(a: int, b: int, c: int) -> bool:
    """Whether c occurs in a times b: the whole spins at level 23, twelve labels."""
    return abs(a - b) <= c <= min(a + b, 23 - a - b)


def reflected(size: int, row: int, column: int) -> str:
    """An entry of a unitary matrix without zeros, times the root z: the unit matrix less 2/size everywhere, or 3, 4, 4, -3 over 5."""
    if size == 2:
        return "0,-3/5" if row + column == 2 else "0,3/5" if row == column else "0,4/5"
    entry = Fraction(size - 2 if row == column else -2, size)
    return f"0,{entry}"


def block_lines(a: int, b: int, c: int, d: int):
    """The lines of F(a,b,c,d;e,f) for all e and f."""
    lefts = [e for e in range(12) if spins(a, b, e) and spins(e, c, d)]
    rights = [f for f in range(12) if spins(b, c, f) and spins(a, f, d)]
    for (row, e), (column, f) in itertools.product(enumerate(lefts), enumerate(rights)):
        number = "1" if 0 in (a, b, c) else reflected(len(lefts), row, column)
        yield "f " + " ".join(LABELS[x] for x in (a, b, c, d, e, f)) + " " + number


def every_symbol() -> str:
    """Rules of twelve labels that hold, and every F, R, w and v set, so that all laws before the pentagon hold."""
    lines = ["category 1", "root 60", "labels " + " ".join(LABELS)]
    triples = [t for t in itertools.product(range(12), repeat=3) if spins(*t)]
    lines += ["fuse " + " ".join(LABELS[x] for x in t) for t in triples if 0 not in t[:2]]
    for corner in itertools.product(range(12), repeat=4):
        lines += block_lines(*corner)
    for symbol, triple in itertools.product("rwv", triples):
        lines.append(f"{symbol} " + " ".join(LABELS[x] for x in triple) + " 1")
    return filled(lines)


def comb(strands: int) -> str:
    """The start line of a left-combed tree of Fibonacci strands."""
    tree, label = "t", "t"
    for _ in range(strands - 1):
        label = "1" if label == "t" else "t"
        tree = f"({tree} t):{label}"
    return "start " + tree


def commands(strands: int) -> list[str]:
    """A program of 4,096 commands: braids there and back with raises between, and a measurement."""
    lines = ["program 1", comb(strands)]
    for j in range(COMMANDS - 1):
        gap = 1 + j // 4 % (strands - 1)
        lines.append([f"braid {gap} +", f"raise {gap}", f"braid {gap} -", f"raise {gap}"][j % 4])
    return lines + ["measure 1"]


def named() -> list[str]:
    """A program of 2,048 named measurements and as many braids that test one of them."""
    lines = ["program 2", comb(16)]
    lines += [f"measure 1 as m{j:07}" for j in range(COMMANDS // 2)]
    return lines + [f"braid 3 + when m{j:07} t" for j in reversed(range(COMMANDS // 2))]


def deep(size: int) -> str:
    """A start line of this size that is one left-combed tree."""
    leaves = (size - len("start t")) // len("( t):t")
    return "start " + "(" * leaves + "t" + " t):t" * leaves


def braids() -> list[str]:
    """A program of 4,096 braids."""
    return ["program 1", comb(16)] + ["braid 1 +", "braid 2 +", "braid 1 +", "braid 5 -"] * (COMMANDS // 4)


def insertions_anywhere():
    """Insertions at random places."""
    rng = random.Random(1)
    for count in itertools.count():
        yield f"insert {rng.randint(1, COMMANDS + 2 * count)} {rng.randint(1, 15)} +"


def insertions_in_turn():
    """Insertions at the first place and behind the last letter in turn."""
    for count in itertools.count(0, 2):
        yield "insert 1 3 +"
        yield f"insert {COMMANDS + 2 * count + 3} 3 +"


def texts():
    """The runs: seconds, what the text is, the words with TEXT for the text, and the text."""
    fibonacci = (DATA / "category.txt").read_text().splitlines()
    for what, filler in FILLERS.items():
        yield 10, "category, " + what, "check TEXT", filled(fibonacci, filler)
        yield 10, "program, " + what, "run fib.txt TEXT", filled(commands(4), filler)
        yield 10, "schedule, " + what, "run fib.txt commands.txt TEXT", filled(["schedule 1"] + ["main"] * COMMANDS, filler)
        yield 10, "moves, " + what, "linked fib.txt braids.txt braids.txt TEXT", filled(["moves 1"], filler)
        yield 10, "marks, " + what, "upgrade fib.txt TEXT", filled(["marks 1", "twist t 0,0,1", "loop t 0,0,-1,-1"], filler)
    yield 10, "twelve labels, dense rules, F of one part", "check TEXT", dense(5, 1, 1)
    yield 10, "twelve labels, dense rules, F of one part", "format TEXT", dense(5, 1, 1)
    yield 10, "twelve labels, dense rules, F of 16 parts of 38 digits", "format TEXT", dense(60, 16, 38)
    yield 10, "twelve labels, every F, R, w and v set", "check TEXT", every_symbol()
    yield 10, "twelve labels, every F, R, w and v set", "format TEXT", every_symbol()
    yield 10, "4,096 commands of 1,022 bytes", "run fib.txt TEXT", padded(commands(16))
    yield 10, "4,096 commands of 1,022 bytes", "comb fib.txt TEXT", padded(braids())
    yield 10, "2,048 named outcomes and as many tests", "run fib.txt TEXT", padded(named())
    yield 10, "a tree of 170 strands", "run fib.txt TEXT", filled(["program 1", deep(LINE)])
    yield 10, "a line of opening parentheses", "run fib.txt TEXT", filled(["program 1", "start " + "(" * (LINE - 6)])
    yield 10, "a tree of 24 strands", "run fib.txt TEXT", filled(["program 1", comb(24)])
    yield 10, "turns: one name over and over", "run fib.txt commands.txt TEXT", repeated("schedule 1", [" ".join(["main"] * 204)])
    yield 10, "turns: one site with one letter", "run fib.txt lettered.txt TEXT", repeated("schedule 1", [" ".join("A" * 512)])
    yield 10, "turns: 4,096 with comments between", "run fib.txt commands.txt TEXT", padded(["schedule 1"] + ["main"] * COMMANDS)
    yield 10, "moves: insert and cancel", "linked fib.txt braids.txt braids.txt TEXT", repeated("moves 1", ["insert 2000 3 +", "cancel 2000"])
    yield 10, "moves: far there and back", "linked fib.txt braids.txt braids.txt TEXT", repeated("moves 1", ["far 3", "far 3"])
    yield 10, "moves: yb there and back", "linked fib.txt braids.txt braids.txt TEXT", repeated("moves 1", ["yb 1", "yb 1"])
    yield 60, "moves: insertions at one place", "linked fib.txt braids.txt braids.txt TEXT", repeated("moves 1", ["insert 1 1 +"])
    yield 60, "moves: insertions at both ends in turn", "linked fib.txt braids.txt braids.txt TEXT", taken("moves 1", insertions_in_turn())
    yield 60, "moves: insertions at random places", "linked fib.txt braids.txt braids.txt TEXT", taken("moves 1", insertions_anywhere())


def main(folder: str) -> None:
    """Writes all texts and prints their runs."""
    into = Path(folder)
    (into / "fib.txt").write_bytes((DATA / "category.txt").read_bytes())
    lettered = commands(4)
    lettered.insert(2, "site A 1 4")
    for name, lines in (("commands.txt", commands(4)), ("lettered.txt", lettered), ("braids.txt", braids())):
        (into / name).write_text("".join(line + "\n" for line in lines))
    for number, (seconds, what, words, text) in enumerate(texts()):
        assert len(text) == SIZE, (what, len(text))
        (into / f"text{number}.txt").write_text(text)
        print(seconds, what, words.replace("TEXT", f"text{number}.txt"), sep="\t")


main(*sys.argv[1:])
