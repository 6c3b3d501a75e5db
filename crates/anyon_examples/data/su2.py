#!/usr/bin/env python3
"""Writes the category text of SU(2) at a level from 1 to 10 to standard output.

Usage: su2.py LEVEL [even] [marks]

With `even` it is that of the even part, the integer spins alone; with `marks` the marks text of its twists and
quantum dimensions, by which `upgrade` brings it to version 2.

The labels 0 to LEVEL are twice the spins.  The root is 4 (LEVEL + 2), which no text may have at
level 9.  With z the first root of unity of that order, the quantum integer [m] is
z^(2m-2) + z^(2m-6) + .. + z^(2-2m), and [m]! is the product of [1] to [m].

The F-symbols are the recoupling coefficients of Kauffman and Lins (Temperley-Lieb recoupling
theory, 1994) at A = z, and R(a,b,c) is (-1)^((a+b-c)/2) A^((a(a+2)+b(b+2)-c(c+2))/2).  There a
vertex has the weight

    w(a,b,c) = [s+1]! [s-a]! [s-b]! [s-c]! / ([c]! [c+1]!)  with 2s = a+b+c,

up to factors g(a) g(b) / g(c), which no law sees.  Each vertex is then scaled by a product of
quantum integers so that its weight keeps no square of one.  This needs no square root, leaves
unit symbols at 1 and R as it is, and keeps the coefficients small.  The quantum dimension of a is [a+1].
"""

import sys
from itertools import product

sys.dont_write_bytecode = True
from exact import Field, category_lines, cyclotomic, marks_lines, triples

LARGEST_LEVEL = 10
LARGEST_DEGREE = 16


class Monomials:
    """Products of powers of quantum integers, as lists of exponents, and their values.

    As [m] = [n - m] with n the level plus two, only [2] to [n/2] are needed."""

    def __init__(self, level):
        self.n = level + 2
        self.field = Field(4 * self.n)
        self.half = self.n // 2
        self.integers = [None] + [self.integer(m) for m in range(1, self.half + 1)]
        self.inverses = [None] + [self.field.inverse(x) for x in self.integers[1:]]
        self.values = {}

    def integer(self, m):
        """[m]."""
        total = self.field.zero
        for i in range(m):
            total = self.field.add(total, self.field.power(2 * (m - 1) - 4 * i))
        return total

    def one(self):
        """The empty product."""
        return [0] * (self.half + 1)

    def times_integer(self, exponents, m, power):
        """Multiplies by [m]^power."""
        m = min(m, self.n - m)
        if m > 1:
            exponents[m] += power

    def times_factorial(self, exponents, m, power):
        """Multiplies by ([m]!)^power."""
        for i in range(2, m + 1):
            self.times_integer(exponents, i, power)

    def value(self, exponents):
        """The number of a monomial."""
        key = tuple(exponents)
        if key not in self.values:
            out = self.field.one
            for m, power in enumerate(key):
                factor = self.integers[m] if power > 0 else self.inverses[m]
                for _ in range(abs(power)):
                    out = self.field.mul(out, factor)
            self.values[key] = out
        return self.values[key]


class Su2:
    """The symbols of SU(2) at a level, or of its even part where the step of the labels is 2."""

    def __init__(self, level, step=1):
        self.level = level
        self.labels = range(0, level + 1, step)
        self.names = [str(a) for a in self.labels]
        self.monomials = Monomials(level)
        self.field = self.monomials.field
        self.scales = {at: [-(e // 2) for e in self.plain_weight(*at)] for at in triples(self)}

    def allows(self, a, b, c):
        """Whether c occurs in a times b."""
        return (a + b + c) % 2 == 0 and abs(a - b) <= c <= min(a + b, 2 * self.level - a - b)

    def plain_weight(self, a, b, c):
        """The exponents of the weight before the vertex is scaled."""
        s, out = (a + b + c) // 2, self.monomials.one()
        for m in (s + 1, s - a, s - b, s - c):
            self.monomials.times_factorial(out, m, 1)
        for m in (c, c + 1):
            self.monomials.times_factorial(out, m, -1)
        return out

    def weight(self, a, b, c):
        """The exponents of the weight of the scaled vertex, each 0 or 1."""
        scale = self.scales[a, b, c]
        return [e + 2 * t for e, t in zip(self.plain_weight(a, b, c), scale)]

    def times_theta(self, exponents, a, b, c, power):
        """Multiplies by the theta net to a power but for its sign, and gives the sign."""
        s = (a + b + c) // 2
        for m in (s + 1, s - a, s - b, s - c):
            self.monomials.times_factorial(exponents, m, power)
        for m in (a, b, c):
            self.monomials.times_factorial(exponents, m, -power)
        return (-1) ** s

    def f_factor(self, at, triangles, squares):
        """The factor before the sum of an F-symbol: its exponents and its sign."""
        a, b, c, d, e, f = at
        out = self.monomials.one()
        for high, low in product(squares, triangles):
            self.monomials.times_factorial(out, high - low, 1)
        for m in at:
            self.monomials.times_factorial(out, m, -1)
        self.monomials.times_integer(out, f + 1, 1)
        sign = (-1) ** f
        for triple in ((a, d, f), (b, c, f)):
            sign *= self.times_theta(out, *triple, -1)
        for triple, power in (((a, b, e), 1), ((e, c, d), 1), ((b, c, f), -1), ((a, f, d), -1)):
            out = [x + power * y for x, y in zip(out, self.scales[triple])]
        return out, sign

    def f(self, at):
        """F at an admissible index: the tetrahedral net times [f+1] over two theta nets."""
        a, b, c, d, e, f = at
        triangles = [sum(t) // 2 for t in ((a, b, e), (e, c, d), (b, c, f), (a, f, d))]
        squares = [sum(t) // 2 for t in ((a, b, c, d), (b, d, e, f), (a, c, e, f))]
        factor, sign = self.f_factor(at, triangles, squares)
        total = self.field.zero
        # Past the level the quantum factorial of t + 1 is zero.
        for t in range(max(triangles), min(squares + [self.level]) + 1):
            term = list(factor)
            self.monomials.times_factorial(term, t + 1, 1)
            for m in [t - low for low in triangles] + [high - t for high in squares]:
                self.monomials.times_factorial(term, m, -1)
            value = self.monomials.value(term)
            total = self.field.add(total, value if (-1) ** t == sign else self.field.neg(value))
        return total

    def r(self, at):
        """R at an admissible index; -1 is the power of z at half the root."""
        a, b, c = at
        power = (a * (a + 2) + b * (b + 2) - c * (c + 2)) // 2
        return self.field.power(power + (a + b - c) // 2 * (self.field.root // 2))

    def w(self, at):
        """The vertex weight."""
        return self.monomials.value(self.weight(*at))

    def v(self, at):
        """The inverse of the vertex weight."""
        return self.monomials.value([-e for e in self.weight(*at)])

    def loop(self, a):
        """The quantum dimension."""
        return self.monomials.integer(a + 1)


def main(words):
    """Writes the text that the words name."""
    level, flags = words[:1], words[1:]
    levels = [[str(n)] for n in range(1, LARGEST_LEVEL + 1)]
    if level not in levels or flags not in ([], ["even"], ["marks"], ["even", "marks"]):
        sys.exit("usage: su2.py LEVEL [even] [marks], with LEVEL from 1 to 10")
    root = 4 * (int(level[0]) + 2)
    if len(cyclotomic(root)) - 1 > LARGEST_DEGREE:
        sys.exit(f"level {level[0]} needs the root {root}, which no text may have")
    su2 = Su2(int(level[0]), 2 if "even" in flags else 1)
    lines = marks_lines(su2) if "marks" in flags else category_lines(su2)
    sys.stdout.writelines(line + "\n" for line in lines)


if __name__ == "__main__":
    main(sys.argv[1:])
