#!/usr/bin/env python3
"""Writes a category text of exactly 4,194,304 bytes with as many F-symbols as it has room for.

All triples whose first two of twelve labels aren't the unit are there, so that more than 11^6 indices of F are
admissible. The text is canonical but for the comment lines at its end. Usage: dense_category.py ROOT PARTS DIGITS
"""
import itertools
import random
import sys

SIZE = 4_194_304
LABELS = "1abcdefghijk"


def fuse(a: str, b: str, c: str) -> bool:
    """Whether c occurs in a times b."""
    return b == c if a == "1" else a == c if b == "1" else True


def is_admissible(a: str, b: str, c: str, d: str, e: str, f: str) -> bool:
    """Whether F has an index a b c d e f."""
    return fuse(a, b, e) and fuse(e, c, d) and fuse(b, c, f) and fuse(a, f, d)


def lines(root: int, parts: int, digits: int):
    """The lines of a canonical text, without end."""
    yield "category 1\n"
    yield f"root {root}\n"
    yield "labels " + " ".join(LABELS) + "\n"
    for triple in itertools.product(LABELS[1:], LABELS[1:], LABELS):
        yield "fuse " + " ".join(triple) + "\n"
    numbers = random.Random(1)
    for index in filter(lambda index: is_admissible(*index), itertools.product(LABELS, repeat=6)):
        number = ",".join(str(numbers.randrange(2, 10**digits)) for _ in range(parts))
        yield "f " + " ".join(index) + " " + number + "\n"


def comments(room: int):
    """Comment lines of so many bytes."""
    while room > 0:
        length = room if room <= 1000 else 998
        yield "#" * (length - 1) + "\n"
        room -= length


def main(root: int, parts: int, digits: int) -> None:
    left = SIZE
    for line in lines(root, parts, digits):
        if len(line) > left:
            break
        sys.stdout.write(line)
        left -= len(line)
    for line in comments(left):
        sys.stdout.write(line)


main(*map(int, sys.argv[1:]))
