#!/usr/bin/env python3
"""Counts the products of a program text of raises on Fibonacci strands, which it reads from standard input.

Usage: bench/raise_counts.py < program.txt

Every node of the start has the label t. There is a line for each raise: its gap, how many amplitudes there are before and
after it, and how many products it takes, each of them added to a sum. The last line has the products of all. Amplitudes
are told from zero modulo a prime.
"""

import sys

PRIME = 1000000000000000031
ROOT = 33114503449658485
S = (-1 - pow(ROOT, 2, PRIME) - pow(ROOT, 3, PRIME)) % PRIME


def fuses(a, b, c):
    """Whether the charges 0 (unit) and 1 fuse."""
    return a + b + c != 1


def symbol(below, a, b, c, d, old, new):
    """F from the old label to the new one where the node was a left child, else H, which has the same values."""
    e, f = (old, new) if below else (new, old)
    if not (fuses(a, b, e) and fuses(e, c, d) and fuses(b, c, f) and fuses(a, f, d)):
        return None
    return [[S, S], [1, -S]][old][new] if a and b and c and d else 1


def read(lines):
    """The children of each node of the start, by gap, and the gaps that are raised."""
    text = next(l for l in lines if l.startswith('start'))[6:]
    left, right = {}, {}
    gap = [0]

    def tree(i):
        if text[i] != '(':
            return i + 1, None
        i, l = tree(i + 1)
        gap[0] += 1
        here = gap[0]
        i, r = tree(i + 1)
        left[here], right[here] = l, r
        return i + 3, here

    tree(0)
    return left, right, [int(l.split()[1]) for l in lines if l.startswith('raise')]


def raised(left, right, amps, k):
    """One raise: the new children in place, the new amplitudes and the products."""
    p = next(q for q in left if k in (left[q], right[q]))
    below = left[p] == k
    parts = (left[k], right[k], right[p]) if below else (left[p], left[k], right[k])
    new, products = {}, 0
    for key, value in amps.items():
        a, b, c = (1 if x is None else key[x - 1] for x in parts)
        for u in (0, 1):
            factor = symbol(below, a, b, c, key[p - 1], key[k - 1], u)
            if factor is None:
                continue
            products += 1
            at = list(key)
            at[k - 1], at[p - 1] = key[p - 1], u
            at = tuple(at)
            new[at] = (new.get(at, 0) + factor * value) % PRIME
    if below:
        right[k], left[k], left[p], right[p] = p, parts[0], parts[1], parts[2]
    else:
        left[k], right[k], left[p], right[p] = p, parts[2], parts[0], parts[1]
    for q in left:
        if q != p and q != k:
            if left[q] == p:
                left[q] = k
            elif right[q] == p:
                right[q] = k
    return {x: v for x, v in new.items() if v}, products


left, right, gaps = read(sys.stdin.read().splitlines())
amps = {(1,) * len(left): 1}
total = 0
for k in gaps:
    new, products = raised(left, right, amps, k)
    print(k, len(amps), len(new), products)
    amps = new
    total += products
print('products', total)
