#!/usr/bin/env python3
"""Turns exact numbers of a report into decimals.

    python3 tools/decimals.py ROOT [REPORT]
    python3 tools/decimals.py ROOT --number NUMBER

ROOT is the number N of the root of unity, or a category file, whose line
`root N` is read. The report of `run` or `comb` (or of `trees`) is read from the
file, or from standard input. Each row of outcomes gets its weight and its
probability, which is its weight over the total.

z stands for exp(2 pi i / N); with `--power K` for exp(2 pi i K / N).
`--digits D` sets the decimals, 6 where nothing is said, 60 at most. All is
computed with 420 digits before it is rounded: a number with 127 bits in each of
its sixteen parts may be as small as 1e-280 without being zero.

A refused text is told by its line and cause on standard error, with exit status
1; a report that is a refusal or a limit is told as it is. 2 is a faulty command line, 3 a file that can't be read.
"""

import math
import re
import sys
from decimal import Decimal, getcontext

DIGITS = 420
TINY = Decimal(10) ** (2 - DIGITS)
ROOT_LIMIT = 60

getcontext().prec = DIGITS


class Refused(Exception):
    """A text or a number that can't be read: what is said of it."""


class Usage(Exception):
    """A faulty command line."""


def arctan_of_inverse(n):
    """The angle whose tangent is 1/n, by its series."""
    term, total, k = Decimal(1) / n, Decimal(0), 0
    while abs(term) > TINY:
        total += term / (2 * k + 1) * (-1) ** k
        term /= n * n
        k += 1
    return total


def circle_point(angle):
    """Cosine and sine of an angle from 0 to 7, by their series."""
    sums, term, k = [Decimal(0), Decimal(0)], Decimal(1), 0
    while k < 8 or abs(term) > TINY:
        sums[k % 2] += term * (-1) ** (k // 2)
        k += 1
        term = term * angle / k
    return tuple(sums)


class Root:
    """A primitive root of unity, exp(2 pi i power / number)."""

    def __init__(self, number, power):
        pi = 16 * arctan_of_inverse(5) - 4 * arctan_of_inverse(239)
        self.size = sum(math.gcd(k, number) == 1 for k in range(1, number + 1))
        self.points = [circle_point(2 * pi * (k * power % number) / number)
                       for k in range(self.size)]

    def value(self, word):
        """Real and imaginary part of what a number word says, else None."""
        form = r"(0|-?[1-9][0-9]*)(,(0|-?[1-9][0-9]*))*(/[1-9][0-9]*)?"
        if not re.fullmatch(form, word):
            return None
        parts, _, below = word.partition("/")
        parts = [Decimal(part) for part in parts.split(",")]
        if len(parts) > self.size:
            return None
        pairs = list(zip(parts, self.points))
        below = Decimal(below or 1)
        return (sum(part * point[0] for part, point in pairs) / below,
                sum(part * point[1] for part, point in pairs) / below)


def quotient(above, below):
    """The quotient of two numbers that are given by their two parts."""
    size = below[0] * below[0] + below[1] * below[1]
    return ((above[0] * below[0] + above[1] * below[1]) / size,
            (above[1] * below[0] - above[0] * below[1]) / size)


def shown(value, digits):
    """A number as decimals; the imaginary part only where it isn't zero."""
    real, imaginary = (round(part, digits) + 0 for part in value)
    if imaginary == 0:
        return f"{real:f}"
    sign = "-" if imaginary < 0 else "+"
    return f"{real:f}{sign}{abs(imaginary):f}i"


def number_at(root, line, word):
    """What a number word of a report's line says."""
    value = root.value(word)
    if value is None:
        raise Refused(f"refused report line {line} number")
    return value


def outcome_line(root, number, words, total, digits):
    """A row of outcomes as decimals."""
    if total is None:
        raise Refused(f"refused report line {number} total")
    weight = number_at(root, number, words[-1])
    line = " ".join(words[:-1] + [shown(weight, digits)])
    if total == (0, 0):
        return line
    return f"{line} probability {shown(quotient(weight, total), digits)}"


def told(root, text, digits):
    """The lines of a report, with decimals in place of exact numbers."""
    total, lines = None, text.splitlines() or [""]
    if lines[0].startswith(("refused ", "limit ")):
        raise Refused(lines[0])
    for number, line in enumerate(lines, 1):
        words = line.split(" ")
        if words[0] == "total" and len(words) == 2 and number == 1:
            total = number_at(root, number, words[1])
            yield f"total {shown(total, digits)}"
        elif words[0] == "outcome" and words[-2:-1] == ["weight"]:
            yield outcome_line(root, number, words, total, digits)
        elif words[0] == "amp" or (words[0] == "closure" and len(words) == 2):
            value = number_at(root, number, words[-1])
            yield " ".join(words[:-1] + [shown(value, digits)])
        elif words[0] in ("strands", "shape", "word"):
            yield line
        else:
            raise Refused(f"refused report line {number} word")


def root_number(word):
    """The number of a root, given by itself or in a category file."""
    if re.fullmatch(r"[1-9][0-9]?", word):
        number = int(word)
    else:
        with open(word, "rb") as file:
            text = file.read().decode("ascii", "replace")
        found = re.search(r"^ *root +([1-9][0-9]?) *$", text, re.MULTILINE)
        if not found:
            raise Refused("refused category without a line root N")
        number = int(found[1])
    if number > ROOT_LIMIT:
        raise Refused("refused root")
    return number


def options_of(words):
    """The words without options, and the options by their names."""
    plain, options, words = [], {}, list(words)
    while words:
        word = words.pop(0)
        if word in ("--number", "--power", "--digits") and words:
            options[word] = words.pop(0)
        elif word.startswith("--"):
            raise Usage
        else:
            plain.append(word)
    if len(plain) not in (1, 2) or ("--number" in options and len(plain) == 2):
        raise Usage
    return plain, options


def whole_option(options, name, default, most):
    """An option that is a whole number from 1 to the most."""
    word = options.get(name, str(default))
    if not re.fullmatch(r"[1-9][0-9]?", word) or int(word) > most:
        raise Usage
    return int(word)


def work(words):
    """Writes the decimals that the words of the command line ask for."""
    plain, options = options_of(words)
    number = root_number(plain[0])
    power = whole_option(options, "--power", 1, ROOT_LIMIT)
    digits = whole_option(options, "--digits", 6, 60)
    if math.gcd(power, number) != 1:
        raise Usage
    root = Root(number, power)
    if "--number" in options:
        value = root.value(options["--number"])
        if value is None:
            raise Refused("refused number")
        print(shown(value, digits))
        return
    if len(plain) == 2:
        with open(plain[1], "rb") as file:
            text = file.read()
    else:
        text = sys.stdin.buffer.read()
    for line in list(told(root, text.decode("ascii", "replace"), digits)):
        print(line)


def main(words):
    """Does the work; answers the exit status."""
    try:
        work(words)
    except Usage:
        print("usage: decimals.py ROOT|CATEGORY [REPORT | --number NUMBER] "
              "[--power K] [--digits D]", file=sys.stderr)
        return 2
    except Refused as refusal:
        print(refusal, file=sys.stderr)
        return 1
    except OSError as fault:
        print(f"read fault: {fault}", file=sys.stderr)
        return 3
    return 0


if __name__ == "__main__":
    sys.exit(main(sys.argv[1:]))
