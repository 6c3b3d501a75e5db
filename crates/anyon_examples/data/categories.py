#!/usr/bin/env python3
"""Writes the category texts and the marks texts of this folder.

Usage: categories.py          writes every file of categories/ and marks/ but the ones made by hand
       categories.py NAME     writes the category text of one name to standard output

A larger category of SU(2) comes from su2.py.
"""

import os
import sys
from itertools import product

sys.dont_write_bytecode = True
from exact import Field, category_lines, marks_lines
from su2 import Su2


class Pointed:
    """Labels that are the elements of a finite abelian group, with F and R as functions of elements."""

    def __init__(self, root, names, elements, add, f, r):
        self.field = Field(root)
        self.names = names
        self.labels = elements
        self.add = add
        self.value_f = f
        self.value_r = r

    def allows(self, a, b, c):
        """Whether c is the sum of a and b."""
        return self.add(a, b) == c

    def f(self, at):
        """F by its first three labels, as a power of z."""
        return self.field.power(self.value_f(*at[:3]))

    def r(self, at):
        """R by its first two labels, as a power of z."""
        return self.field.power(self.value_r(*at[:2]))

    def w(self, at):
        """The vertex weight."""
        return self.field.one

    def v(self, at):
        """The inverse of the vertex weight."""
        return self.field.one

    def loop(self, a):
        """The quantum dimension."""
        return self.field.one


def cyclic(n, k, root=None, names=None):
    """The group of n elements with the quadratic form exp(pi i k a^2 / n); n k is even."""
    own = n if k % 2 == 0 else 2 * n
    root = root or own
    step = root // n * k // 2 if k % 2 == 0 else root // (2 * n) * k

    def f(a, b, c):
        carry = (b + c) // n
        return root // 2 * (k * a * carry) if n % 2 == 0 else 0

    return Pointed(root, names or [str(a) for a in range(n)], range(n), lambda a, b: (a + b) % n, f,
                   lambda a, b: step * a * b)


PAIRS = [(0, 0), (1, 0), (0, 1), (1, 1)]


def sum_of_pairs(g, h):
    """The sum in the group of four elements without one of order four."""
    return (g[0] + h[0]) % 2, (g[1] + h[1]) % 2


def four_group(names, form):
    """That group with F = 1 and R(g,h) = (-1)^form(g,h), for a bilinear form."""
    return Pointed(2, names, PAIRS, sum_of_pairs, lambda g, h, k: 0, form)


class Tambara:
    """Labels that are the elements of a group of twos, and one more label m whose square is their sum.

    `chi(g, h)` is a symmetric pairing with values 0 and 1 for 1 and -1, `sign` the sign of tau = sign / sqrt(order),
    `spin(g)` the power of z with spin(g)^2 = chi(g,g), and `omega` the power of z whose square is tau times the sum of
    all spins (Siehler, Braided near-group categories, 2000)."""

    M = "m"

    def __init__(self, root, names, elements, add, chi, sign, norm, spin, omega):
        self.field = Field(root)
        self.names = names
        self.labels = [*elements, self.M]
        self.add = add
        self.chi = chi
        self.norm = norm
        self.spin = spin
        self.omega = omega
        tau = self.field.inverse(norm(self.field))
        self.tau = tau if sign > 0 else self.field.neg(tau)

    def allows(self, a, b, c):
        """Whether c occurs in a times b."""
        moved = [x for x in (a, b, c) if x == self.M]
        if not moved:
            return self.add(a, b) == c
        return len(moved) == 2

    def sign_of(self, g, h):
        """chi as a number."""
        return self.field.power(self.field.root // 2 * self.chi(g, h))

    def f(self, at):
        """F by the pattern of its labels; the pairing is its own inverse."""
        a, b, c, d, e, f = at
        pattern = tuple(x == self.M for x in (a, b, c))
        if pattern == (False, True, False):
            return self.sign_of(a, c)
        if pattern == (True, False, True) and d != self.M:
            return self.sign_of(b, d)
        if pattern == (True, True, True):
            return self.field.mul(self.tau, self.sign_of(e, f))
        return self.field.one

    def r(self, at):
        """R by which of its labels is m."""
        a, b, c = at
        if a != self.M and b != self.M:
            return self.sign_of(a, b)
        if c == self.M:
            return self.field.power(self.spin(b if a == self.M else a))
        power = self.field.power(self.omega + self.spin(c))
        return self.field.mul(power, self.sign_of(c, c))

    def w(self, at):
        """The vertex weight."""
        return self.field.one

    def v(self, at):
        """The inverse of the vertex weight."""
        return self.field.one

    def loop(self, a):
        """The quantum dimension."""
        return self.norm(self.field) if a == self.M else self.field.one


def root_two(field):
    """The positive square root of two, for a root that 8 divides."""
    eighth = field.root // 8
    return field.add(field.power(eighth), field.power(-eighth))


def two(field):
    """Two."""
    return field.add(field.one, field.one)


class Ising(Tambara):
    """The Ising category of an odd number nu from 1 to 15, with the labels 1, s, p (Kitaev 2006, Appendix E)."""

    def __init__(self, nu):
        kappa = (nu * nu - 1) // 8 % 2
        super().__init__(16, ["1", "s", "p"], [0, 1], lambda g, h: (g + h) % 2, lambda g, h: g * h, 1 - 2 * kappa,
                         root_two, lambda g: -4 * nu * g, 8 * kappa - nu)
        self.labels = [0, self.M, 1]


class Fibonacci:
    """The labels 1 and t, with F(t,t,t,t;t,1) = 1 and the inverse golden ratio as the weight of t t 1."""

    names = ["1", "t"]
    labels = [0, 1]

    def __init__(self, root=5, image=1):
        self.field = Field(root)
        self.fifth = root // 5 * image
        self.inverse_ratio = self.sum_of_fifths(1, 4)

    def sum_of_fifths(self, j, k):
        """The sum of two powers of the first fifth root of unity (or of its image)."""
        return self.field.add(self.field.power(self.fifth * j), self.field.power(self.fifth * k))

    def allows(self, a, b, c):
        """t times t is 1 and t."""
        return a + b + c != 1

    def f(self, at):
        """F, which is 1 but where its four first labels are t."""
        if at[:4] != (1, 1, 1, 1) or at[4:] == (1, 0):
            return self.field.one
        return self.field.neg(self.inverse_ratio) if at[4:] == (1, 1) else self.inverse_ratio

    def r(self, at):
        """R."""
        if at == (1, 1, 0):
            return self.field.power(3 * self.fifth)
        if at == (1, 1, 1):
            return self.field.neg(self.field.power(4 * self.fifth))
        return self.field.one

    def w(self, at):
        """The vertex weight."""
        return self.inverse_ratio if at == (1, 1, 0) else self.field.one

    def v(self, at):
        """The inverse of the vertex weight."""
        return self.field.neg(self.sum_of_fifths(2, 3)) if at == (1, 1, 0) else self.field.one

    def loop(self, a):
        """The quantum dimension."""
        return self.field.neg(self.sum_of_fifths(2, 3)) if a else self.field.one


UNITARY = "Gauge: unitary F-symbols, so all vertex weights are 1."
COCYCLE = ("Gauge: F(a,b,c) = (-1)^(k a [b + c is n or more]) and R(a,b) = exp(pi i k a b / n), a and b from 0 to n - 1; "
           "weights 1.")
GOLDEN = "Gauge: F(t,t,t,t;t,1) = 1 and w(t,t,1) = 1/phi in place of square roots of phi in F."
KITAEV = "Source: Kitaev, Anyons in an exactly solved model and beyond (2006)"
SIEHLER = "Source: Tambara and Yamagami (1998) for F; Siehler, Braided near-group categories (2000), for R."


def fibonacci_files():
    """Fibonacci, over its own root and over one that it shares with the semion, and its image."""
    source = ("Source: Wang, Topological Quantum Computation (CBMS 112); "
              "Preskill, Lecture notes on quantum computation, chapter 9.")
    yield "fibonacci", Fibonacci(), [
        "The Fibonacci category: t times t is 1 and t; z is the first fifth root of unity.", source, GOLDEN]
    yield "fibonacci_root20", Fibonacci(20), [
        "The Fibonacci category over the root 20, so that the semion's product with it can be made.", source, GOLDEN]
    yield "yang_lee", Fibonacci(5, 2), [
        "The Yang-Lee category: the image of Fibonacci in which z^2 is put for z. Its weights aren't positive.", source,
        "Gauge: that of fibonacci.txt, with 1 - phi for phi."]


def pointed_files():
    """Categories whose labels form a group."""
    source = f"{KITAEV}, Appendix E."
    semion = "the form exp(pi i a^2 / 2); R(s,s,1) = i."
    yield "semion", cyclic(2, 1, names=["1", "s"]), [
        f"The semion: the group of two elements with {semion}", source, UNITARY]
    yield "semion_root20", cyclic(2, 1, 20, ["1", "s"]), [f"The semion over the root 20: {semion}", source, UNITARY]
    yield "semion_mirror", cyclic(2, 3, names=["1", "s"]), [
        "The mirror of the semion: the form exp(-pi i a^2 / 2); R(s,s,1) = -i.", source, UNITARY]
    yield "toric_code", four_group(["1", "e", "m", "f"], lambda g, h: g[0] * h[1]), [
        "The toric code: charge e, flux m and their fermion f. An e that goes once around an m gives -1.",
        "Source: Kitaev, Fault-tolerant quantum computation by anyons (1997).",
        "Gauge: all F-symbols and weights are 1; R(e,m,f) = -1 and R(m,e,f) = 1."]
    yield "three_fermions", four_group(["1", "a", "b", "c"], lambda g, h: g[0] * h[0] + g[1] * h[1] + g[0] * h[1]), [
        "Three fermions: the labels of the toric code, each of the three with the twist -1.", source,
        "Gauge: all F-symbols and weights are 1; R(a,b,c) = -1 and R(b,a,c) = 1."]


def cyclic_files():
    """Cyclic groups with quadratic forms; the two forms on two elements that no other file has are degenerate."""
    source = "Source: Joyal and Street, Braided tensor categories (1993); Wang, CBMS 112."
    forms = {2: (0, 2), 3: (2, 4), 4: (1, 3, 5, 7), 5: (2, 4), 6: (1, 5, 7, 11)}
    for n, k in ((n, k) for n, ks in forms.items() for k in ks):
        kind = "" if n > 2 else (" A boson: every braid is trivial." if k == 0 else " A fermion: R(1,1,0) = -1.")
        yield f"cyclic_{n}_{k}", cyclic(n, k), [
            f"The cyclic group of n = {n} elements with the quadratic form exp(pi i k a^2 / n), k = {k}.{kind}", source,
            COCYCLE if n % 2 == 0 else f"Gauge: F = 1 and R(a,b) = exp(pi i k a b / n); weights 1."]


def ising_files():
    """The eight categories of Ising's kind."""
    for nu in range(1, 16, 2):
        yield f"ising_{nu}", Ising(nu), [
            f"The category of Ising's kind with nu = {nu}: s times s is 1 and p, and the twist of s is z^{nu}, z the first "
            "16th root of unity.",
            f"{KITAEV}, section 10 and Appendix E.", UNITARY]


def tambara_files():
    """Tambara-Yamagami categories of the group of four elements that has braidings."""
    def cross(g, h):
        return g[0] * h[1] + g[1] * h[0]

    def straight(g, h):
        return g[0] * h[0] + g[1] * h[1]

    def crossed_spin(g):
        return 2 * g[0] * g[1]

    def straight_spin(g):
        return g[0] - g[1]

    for name, chi, spin, words in (("crossed", cross, crossed_spin, "g1 h2 + g2 h1"),
                                   ("straight", straight, straight_spin, "g1 h1 + g2 h2")):
        for word, sign, omega in (("plus", 1, 0), ("minus", -1, 1)):
            names = ["1", "a", "b", "c", "m"]
            tau = "1/2" if sign > 0 else "-1/2"
            yield f"tambara_{name}_{word}", Tambara(4, names, PAIRS, sum_of_pairs, chi, sign, two, spin, omega), [
                f"The Tambara-Yamagami category of the group of four elements without one of order four, tau = {tau},",
                f"with the pairing (-1)^({words}): m times m is 1, a, b and c.", SIEHLER, UNITARY]


def su2_files():
    """SU(2) at the levels 1 to 6, and the even parts."""
    source = "Source: Kauffman and Lins, Temperley-Lieb recoupling theory (1994), at A = z."
    gauge = ("Gauge: no square roots; each vertex is scaled so that its weight keeps no square of a quantum integer "
             "(su2.py).")
    for level in range(1, 7):
        labels = "the labels are twice the spins"
        yield f"su2_{level}", Su2(level), [f"SU(2) at level {level}: {labels}.", source, gauge]
        yield f"su2_{level}_even", Su2(level, 2), [
            f"The even part of SU(2) at level {level}, the integer spins: {labels}.", source, gauge]


def files():
    """Every name with its category and its comments."""
    for group in (fibonacci_files, pointed_files, cyclic_files, ising_files, tambara_files, su2_files):
        yield from group()


def text(comments, lines):
    """A text with comment lines before it."""
    return "".join(f"# {line}\n" for line in comments) + "".join(f"{line}\n" for line in lines)


def write_all(folder):
    """Writes every category text and marks text."""
    for name, category, comments in files():
        with open(os.path.join(folder, "categories", f"{name}.txt"), "w", encoding="ascii") as out:
            out.write(text(comments, category_lines(category)))
        first = f"Twists and quantum dimensions of categories/{name}.txt, by which `upgrade` brings it to version 2."
        rule = ("Source: the twist of a is the sum over c of d_c R(a,a,c), over d_a (Kitaev 2006, Appendix E). No gauge "
                "changes them.")
        with open(os.path.join(folder, "marks", f"{name}.txt"), "w", encoding="ascii") as out:
            out.write(text([first, rule], marks_lines(category)))


def main(words):
    """Writes all files, or the text of one name."""
    if not words:
        write_all(os.path.dirname(os.path.abspath(__file__)))
        return
    known = {name: (category, comments) for name, category, comments in files()}
    if len(words) > 1 or words[0] not in known:
        sys.exit("usage: categories.py [NAME], with NAME one of " + " ".join(known))
    category, comments = known[words[0]]
    sys.stdout.write(text(comments, category_lines(category)))


if __name__ == "__main__":
    main(sys.argv[1:])
