"""A program of COUNT random braids on N Fibonacci strands and a measurement of gap 8, and the same braids for other programs.

Usage: braid_list.py N COUNT SEED program|gap|pari|plain
The left-combed start has the node labels 1 t 1 t .. from gap 1 on.
"""
import random
import sys

strands, count, seed, form = int(sys.argv[1]), int(sys.argv[2]), int(sys.argv[3]), sys.argv[4]
source = random.Random(seed)
braids = [(source.randint(1, strands - 1), source.choice((1, -1))) for _ in range(count)]
if form == "program":
    tree = "t"
    for gap in range(1, strands):
        tree = f"({tree} t):{'1' if gap % 2 else 't'}"
    print("program 1")
    print("start", tree)
    for gap, sign in braids:
        print("braid", gap, "+" if sign == 1 else "-")
    print("measure 8")
elif form == "plain":
    print(strands, count)
    for gap, sign in braids:
        print(gap, sign)
else:
    pairs = ", ".join(f"[{gap}, {sign}]" for gap, sign in braids)
    end = ";" if form == "gap" else ""
    print(f"strands {':=' if form == 'gap' else '='} {strands}{';' if form == 'gap' else ''}")
    print(f"braids {':=' if form == 'gap' else '='} [{pairs}]{end}")
