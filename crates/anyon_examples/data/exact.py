"""Exact numbers of a cyclotomic field, and the category and marks texts of symbols over them.

A category here is any object with the members

- `field`: the field of its root (`Field`);
- `names`: the label names, the unit first; labels are their places, or any numbers of `labels` in this order;
- `labels`: the labels, the unit first;
- `allows(a, b, c)`: whether c occurs in a times b;
- `f(at)`, `r(at)`, `w(at)`, `v(at)`: the symbols at admissible indices, as numbers of the field;
- `loop(a)`: the quantum dimension of a label.

Its text is the canonical one of version 1.
"""

import math
from fractions import Fraction
from itertools import product


def quotient(num, den):
    """The exact quotient of two polynomials, low coefficient first, the divisor monic."""
    rest, out = list(num), [0] * (len(num) - len(den) + 1)
    for i in range(len(out) - 1, -1, -1):
        out[i] = rest[i + len(den) - 1]
        for j, c in enumerate(den):
            rest[i + j] -= out[i] * c
    return out


def cyclotomic(n):
    """The n-th cyclotomic polynomial."""
    poly = [-1] + [0] * (n - 1) + [1]
    for d in range(1, n):
        if n % d == 0:
            poly = quotient(poly, cyclotomic(d))
    return poly


class Field:
    """The cyclotomic field of one root.  A number is (parts, denominator) in lowest terms."""

    def __init__(self, root):
        poly = cyclotomic(root)
        self.root, self.phi = root, len(poly) - 1
        row, self.powers = [1] + [0] * (self.phi - 1), []
        for _ in range(root):
            self.powers.append(tuple(row))
            top = row[-1]
            row = [(row[j - 1] if j else 0) - top * poly[j] for j in range(self.phi)]
        self.zero = ((0,) * self.phi, 1)
        self.one = self.power(0)

    def power(self, k):
        """z^k."""
        return self.powers[k % self.root], 1

    @staticmethod
    def reduced(parts, den):
        """The number of a fraction with a positive denominator."""
        g = math.gcd(den, *parts)
        return tuple(p // g for p in parts), den // g

    def add(self, x, y):
        """The sum."""
        parts = [p * y[1] + q * x[1] for p, q in zip(x[0], y[0])]
        return self.reduced(parts, x[1] * y[1])

    def neg(self, x):
        """The negative."""
        return tuple(-p for p in x[0]), x[1]

    def mul(self, x, y):
        """The product."""
        parts = [0] * self.phi
        for (a, p), (b, q) in product(enumerate(x[0]), enumerate(y[0])):
            if p and q:
                for j, c in enumerate(self.powers[(a + b) % self.root]):
                    parts[j] += p * q * c
        return self.reduced(parts, x[1] * y[1])

    def inverse(self, x):
        """The inverse of a number that isn't zero, from the linear equations x y = 1."""
        columns = [self.mul(x, self.power(j)) for j in range(self.phi)]
        rows = [[Fraction(parts[i], den) for parts, den in columns] + [Fraction(int(i == 0))]
                for i in range(self.phi)]
        for c in range(self.phi):
            pivot = next(r for r in range(c, self.phi) if rows[r][c])
            rows[c], rows[pivot] = rows[pivot], rows[c]
            rows[c] = [v / rows[c][c] for v in rows[c]]
            for r in range(self.phi):
                if r != c and rows[r][c]:
                    rows[r] = [v - rows[r][c] * w for v, w in zip(rows[r], rows[c])]
        den = math.lcm(*(row[-1].denominator for row in rows))
        return self.reduced([int(row[-1] * den) for row in rows], den)


def spelled(x):
    """The canonical number word."""
    parts = list(x[0])
    while len(parts) > 1 and parts[-1] == 0:
        parts.pop()
    word = ",".join(map(str, parts))
    return word if x[1] == 1 else f"{word}/{x[1]}"


def triples(category):
    """Every admissible a b c in label order."""
    return [at for at in product(category.labels, repeat=3) if category.allows(*at)]


def f_indices(category):
    """Every admissible a b c d e f in label order."""
    allows = category.allows
    for a, b, c, d, e in product(category.labels, repeat=5):
        if allows(a, b, e) and allows(e, c, d):
            for f in category.labels:
                if allows(b, c, f) and allows(a, f, d):
                    yield a, b, c, d, e, f


def category_lines(category):
    """The lines of the canonical text of version 1."""
    name = dict(zip(category.labels, category.names))
    unit = category.labels[0]
    yield "category 1"
    yield f"root {category.field.root}"
    yield "labels " + " ".join(category.names)
    for at in triples(category):
        if at[0] != unit and at[1] != unit:
            yield "fuse " + " ".join(name[a] for a in at)
    symbols = [("f", at, category.f(at)) for at in f_indices(category)]
    for kind, symbol in (("r", category.r), ("w", category.w), ("v", category.v)):
        symbols += [(kind, at, symbol(at)) for at in triples(category)]
    for kind, at, value in symbols:
        if value != category.field.one:
            yield f"{kind} {' '.join(name[a] for a in at)} {spelled(value)}"


def twist(category, a):
    """The twist of a label, the sum over c of d_c R(a,a,c), over d_a (Kitaev 2006, Appendix E)."""
    field, total = category.field, category.field.zero
    for c in category.labels:
        if category.allows(a, a, c):
            total = field.add(total, field.mul(category.loop(c), category.r((a, a, c))))
    return field.mul(total, field.inverse(category.loop(a)))


def marks_lines(category):
    """The lines of the marks text: the twists and then the loop values that aren't 1."""
    yield "marks 1"
    twists = [twist(category, a) for a in category.labels]
    loops = [category.loop(a) for a in category.labels]
    for kind, values in (("twist", twists), ("loop", loops)):
        for name, value in zip(category.names, values):
            if value != category.field.one:
                yield f"{kind} {name} {spelled(value)}"
