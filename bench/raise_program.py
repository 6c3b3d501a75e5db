#!/usr/bin/env python3
"""Writes a program text of raises on a left comb to standard output.

Usage: bench/raise_program.py STRANDS ROUNDS [LABEL NODES]

The comb has 3 to 24 strands of one label, t where none is given, and nodes with the labels of NODES, which are divided by
commas and taken in turn. The raises make it the right comb, raise each node of that and raise it back, ROUNDS times, and
then make the left comb again. With `there` for ROUNDS the right comb is the end.
"""

import sys

strands = int(sys.argv[1])
rounds = sys.argv[2]
label = sys.argv[3] if len(sys.argv) > 3 else 't'
nodes = (sys.argv[4] if len(sys.argv) > 4 else label).split(',')

tree = label
for gap in range(1, strands):
    tree = f'({tree} {label}):{nodes[(gap - 1) % len(nodes)]}'
gaps = list(range(strands - 2, 0, -1))
if rounds != 'there':
    gaps += int(rounds) * [g for k in range(2, strands) for g in (k, k - 1)]
    gaps += range(2, strands)
print('program 1')
print('start', tree)
for gap in gaps:
    print('raise', gap)
