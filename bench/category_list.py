#!/usr/bin/env python3
"""Writes the symbols of a category text for GAP or PARI.

    python3 category_list.py CATEGORY g|gp

Labels count from 1. `to[a][b]` has the labels to which a and b fuse, `F[a][b][c][d][e][f]`, `R[a][b][c]`,
`w[a][b][c]` and `v[a][b][c]` the symbols; a symbol that the text doesn't set is 1, one whose index isn't
admissible is 0. In PARI the tables are maps by the vector of their labels, and numbers are residues modulo the
cyclotomic polynomial.
"""

import sys
from itertools import product


def read(name):
    """The root, the number of labels, the fusion triples and the symbols that are set."""
    words = [line.split("#")[0].split() for line in open(name, encoding="ascii")]
    words = [line for line in words if line]
    root = next(int(line[1]) for line in words if line[0] == "root")
    names = next(line[1:] for line in words if line[0] == "labels")
    number = {label: at for at, label in enumerate(names)}
    fuse = {(0, a, a) for a in range(len(names))} | {(a, 0, a) for a in range(len(names))}
    fuse |= {tuple(number[label] for label in line[1:]) for line in words if line[0] == "fuse"}
    symbols = {kind: {} for kind in "frwv"}
    for line in words:
        if line[0] in symbols:
            symbols[line[0]][tuple(number[label] for label in line[1:-1])] = line[-1]
    return root, len(names), fuse, symbols


def admissible(count, fuse):
    """The admissible indices of F."""
    for a, b, c in product(range(count), repeat=3):
        for e in (x for x in range(count) if (a, b, x) in fuse):
            for d in (x for x in range(count) if (e, c, x) in fuse):
                for f in (x for x in range(count) if (b, c, x) in fuse and (a, x, d) in fuse):
                    yield a, b, c, d, e, f


def number(text, language):
    """A number of a text, numerators by powers of z over one denominator."""
    numerators, _, below = text.partition("/")
    parts = [f"({part})*z^{power}" for power, part in enumerate(numerators.split(",")) if part != "0"]
    total = "+".join(parts) or ("0*z^0" if language == "gp" else "0")
    return f"({total})/{below}" if below else total


def main(name, language):
    """Writes the file."""
    root, count, fuse, symbols = read(name)
    gap = language == "g"
    end = ";;" if gap else ";"
    print(f"z := E({root}){end}" if gap else f"z = Mod(x, polcyclo({root})){end}")
    print(f"count := {count}{end}" if gap else f"count = {count}{end}")
    to = [[[c + 1 for c in range(count) if (a, b, c) in fuse] for b in range(count)] for a in range(count)]
    if gap:
        print(f"to := {to}{end}")
        nested = "0"
        for depth in range(6):
            nested = f"List([1..count], i{depth} -> {nested})"
            if depth == 2:
                print("".join(f"{table} := {nested}{end}\n" for table in "Rwv"), end="")
        print(f"F := {nested}{end}")
    else:
        rows = ", ".join("[" + ", ".join(str(row) for row in rows) + "]" for rows in to)
        print(f"to = [{rows}]{end}")
        print("F = vector(count^6); R = vector(count^3); w = vector(count^3); v = vector(count^3);")
        print("at3(a, b, c) = ((a - 1)*count + b - 1)*count + c;")
        print("at6(a, b, c, d, e, f) = ((((( a - 1)*count + b - 1)*count + c - 1)*count + d - 1)*count + e - 1)*count + f;")
    for table, kind, indices in [("F", "f", admissible(count, fuse))] + [(k.upper() if k == "r" else k, k, sorted(fuse)) for k in "rwv"]:
        for index in indices:
            value = number(symbols[kind].get(index, "1"), language)
            labels = [label + 1 for label in index]
            if gap:
                print(f"{table}{''.join(f'[{label}]' for label in labels)} := {value}{end}")
            else:
                print(f"{table}[at{len(labels)}({', '.join(map(str, labels))})] = {value}{end}")


if __name__ == "__main__":
    main(*sys.argv[1:])
