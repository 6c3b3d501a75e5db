#!/usr/bin/env python3
"""Random command lines with damaged texts, answered by the program and by a reference program.

    python3 tools/random_lines.py SEED COUNT PROGRAM REFERENCE

PROGRAM is the built program. REFERENCE is a Python file with a function `main(words)` that
writes the answer to standard output and gives the exit code. Each line is answered by both
over the same files; what they print, their lines on standard error and their exit codes are
compared. A line that differs is printed with its texts. The last line counts the lines, those
that differ, and those on which one of the two took more than two minutes. The exit code is 0
where none differs, 1 where one does, and 2 for faulty words.

The texts come from the worked rows of the repository and from generators of this file; on two
lines of three one or two of them are damaged in their bytes, words or lines.
"""

import importlib.util
import os
import random
import signal
import subprocess
import sys
import tempfile
from collections import Counter
from pathlib import Path

ROWS = Path(__file__).resolve().parent.parent / "crates" / "anyon_rows" / "data" / "rows.txt"
SECONDS = 120
LARGEST = 4000  # bytes of a worked text that is still taken
SOUND = ["FIB", "FIB10", "FIB60", "SEMION", "ISING", "UNIT", "LARGE_FIB", "LARGE_WEIGHT", "LARGE_GAUGE", "LARGE_S",
         "FIB_2", "FIB_2_MIXED", "SEMION_2", "LARGE_SEMION_2"]
SECOND = ["FIB_2", "SEMION_2", "LARGE_SEMION_2", "FIB_2_MIXED"]
FORMS = [
    ("check", "category"),
    ("format", "category"),
    ("comb", "category", "program"),
    ("run", "category", "program"),
    ("run", "category", "program", "schedule"),
    ("trees", "category", "program"),
    ("trees", "category", "program", "schedule"),
    ("linked", "category", "program", "program", "moves"),
    ("upgrade", "category", "marks"),
    ("galois", "category", "exponent"),
    ("mirror", "category"),
    ("product", "category", "category"),
    ("make", "number"),
]
WORDS = ("category program schedule moves marks 0 1 2 3 01 -1 4294967297 root labels fuse f r w v twist loop start "
         "site braid raise measure as when + - cancel insert far yb main A B t s g p 1/2 1/0 0,1 1,0,1,1 -0 x # ( ) : "
         "170141183460469231731687303715884105727 170141183460469231731687303715884105728 "
         "4611686018427387904 ((t t):1 (t t):1):1").split()


def worked_texts():
    """The texts of the worked rows by name."""
    texts, name = {}, None
    for line in ROWS.read_text(encoding="utf-8").splitlines():
        if line.startswith("text "):
            name = line[5:]
            texts[name] = b""
        elif name is not None and line[:1] in ("|", "."):
            texts[name] += line[1:].encode() + (b"\n" if line[0] == "|" else b"")
    return {name: text for name, text in texts.items() if len(text) <= LARGEST}


def of_kind(texts, kind):
    """The texts whose first word is the kind."""
    return [text for text in texts.values() if text.split()[:1] == [kind.encode()]]


class Rules:
    """The label names and the triples of a category text, as far as they can be read."""

    def __init__(self, text):
        rows = [line.split() for line in text.decode("ascii", "replace").splitlines()]
        named = [row[1:] for row in rows if row[:1] == ["labels"] and len(row) > 1]
        self.names = named[0] if named else ["1"]
        self.triples = {(row[1], row[2], row[3]) for row in rows if row[:1] == ["fuse"] and len(row) == 4}

    def fuse(self, left, right):
        """The labels that occur in the product of two labels."""
        if left == self.names[0]:
            return [right]
        if right == self.names[0]:
            return [left]
        return [c for c in self.names if (left, right, c) in self.triples]


def tree(rng, rules, strands, comb):
    """A random tree over these strands with its top label: (text, label)."""
    if len(strands) == 1:
        return strands[0], strands[0]
    cut = len(strands) - 1 if comb else rng.randrange(1, len(strands))
    left, a = tree(rng, rules, strands[:cut], comb)
    right, b = tree(rng, rules, strands[cut:], comb)
    label = rng.choice(rules.fuse(a, b) or rules.names)
    return f"({left} {right}):{label}", label


def start(rng, rules, comb):
    """A random start tree with its number of strands."""
    count = rng.choice([2, 3, 4, 4, 5, 6, 7])
    favourite = rng.choice(rules.names)
    strands = [favourite if rng.random() < 0.8 else rng.choice(rules.names) for _ in range(count)]
    return tree(rng, rules, strands, comb)[0], count


def command(rng, rules, version, first, last, named):
    """A random command line of a site; the names of outcomes are gathered in a list."""
    gap, sign = rng.randrange(first, last), rng.choice("+-")
    kind = rng.random()
    if kind < 0.35:
        return f"braid {gap} {sign}"
    if kind < 0.55:
        return f"raise {gap}"
    if version == 1 or kind < 0.7:
        return f"measure {gap}"
    if kind < 0.85 or not named:
        named.append(f"m{len(named)}")
        return f"measure {gap} as {named[-1]}"
    return f"braid {gap} {sign} when {rng.choice(named)} {rng.choice(rules.names)}"


def program(rng, rules, comb):
    """A random program over the labels of a category, and the site of each of its commands."""
    version = rng.choice([1, 2])
    shape, count = start(rng, rules, comb)
    lines, turns, named = [f"program {version}", f"start {shape}"], [], []
    cut = rng.randrange(2, count - 1) if count >= 4 and rng.random() < 0.4 else None
    sites = [("main", 1, count)] if cut is None else [("A", 1, cut), ("B", cut + 1, count)]
    for name, first, last in sites:
        if cut is not None:
            lines.append(f"site {name} {first} {last}")
        for _ in range(rng.randrange(0, 7)):
            lines.append(command(rng, rules, version, first, last, named))
            turns.append(name)
    return spelled(lines), turns


def spelled(lines):
    """The bytes of a text of these lines."""
    return "".join(line + "\n" for line in lines).encode()


def schedule(rng, turns):
    """A schedule text with these turns, mostly in another order."""
    turns = list(turns)
    if rng.random() < 0.7:
        rng.shuffle(turns)
    lines = ["schedule 1"]
    while turns:
        cut = rng.randrange(1, 5)
        lines.append(" ".join(turns[:cut]))
        turns = turns[cut:]
    return spelled(lines)


def move(rng, letters, strands):
    """A random move that may be made on these letters, made on them; gives its line."""
    far = [p for p in range(len(letters) - 1) if abs(letters[p][0] - letters[p + 1][0]) >= 2]
    pairs = [p for p in range(len(letters) - 1)
             if letters[p][0] == letters[p + 1][0] and letters[p][1] != letters[p + 1][1]]
    threes = [p for p in range(len(letters) - 2) if letters[p] == letters[p + 2]
              and letters[p][1] == letters[p + 1][1] and abs(letters[p][0] - letters[p + 1][0]) == 1]
    kind = rng.choice(["insert"] + ["far"] * bool(far) + ["cancel"] * bool(pairs) + ["yb"] * bool(threes))
    if kind == "insert":
        place, gap, sign = rng.randrange(len(letters) + 1), rng.randrange(1, strands), rng.choice("+-")
        letters[place:place] = [(gap, sign), (gap, "-" if sign == "+" else "+")]
        return f"insert {place + 1} {gap} {sign}"
    place = rng.choice({"far": far, "cancel": pairs, "yb": threes}[kind])
    if kind == "far":
        letters[place:place + 2] = [letters[place + 1], letters[place]]
    elif kind == "cancel":
        del letters[place:place + 2]
    else:
        one, other = letters[place], letters[place + 1]
        letters[place:place + 3] = [other, one, other]
    return f"{kind} {place + 1}"


def braids(shape, letters):
    """The program of these braid letters."""
    return spelled(["program 1", f"start {shape}"] + [f"braid {gap} {sign}" for gap, sign in letters])


def linked_texts(rng, rules):
    """Two programs and moves that lead from the letters of the one to those of the other."""
    shape, strands = start(rng, rules, False)
    letters = [(rng.randrange(1, strands), rng.choice("+-")) for _ in range(rng.randrange(0, 6))]
    if strands >= 3 and rng.random() < 0.3:
        letters += [(1, "+"), (2, "+"), (1, "+")]
    first = braids(shape, letters)
    moves = [move(rng, letters, strands) for _ in range(rng.randrange(0, 6))]
    return first, braids(shape, letters), spelled(["moves 1"] + moves)


def marks(rng, rules):
    """A marks text for some of the labels."""
    numbers = ["1", "-1", "0,1", "0,0,1", "0,0,-1,-1", "1,0,1,1", "2", "1/2"]
    lines = [f"{rng.choice(['twist', 'loop'])} {name} {rng.choice(numbers)}"
             for name in rules.names if rng.random() < 0.8]
    return spelled(["marks 1"] + lines)


def damage_bytes(rng, text):
    """Takes away, puts in or replaces a byte, or cuts the text."""
    place = rng.randrange(len(text) + 1)
    kind = rng.randrange(4)
    byte = bytes([rng.choice(b"\n\n  #(),:/+-019tsgxF\t\x00\x7f\xc3") if rng.random() < 0.9 else rng.randrange(256)])
    if kind == 0:
        return text[:place] + text[place + 1:]
    if kind == 1:
        return text[:place] + byte + text[place:]
    if kind == 2:
        return text[:place] + byte + text[place + 1:]
    return text[:place]


def damage_words(rng, text):
    """Replaces, takes away or puts in a word of a line."""
    lines = text.split(b"\n")
    place = rng.randrange(len(lines))
    words = lines[place].split(b" ")
    at = rng.randrange(len(words))
    word = rng.choice(WORDS).encode()
    words[at:at + rng.randrange(2)] = rng.choice([[word], [word], []])
    lines[place] = b" ".join(words)
    return b"\n".join(lines)


def damage_lines(rng, text):
    """Exchanges two lines, doubles one, takes one away, or puts in a comment or a long line."""
    lines = text.split(b"\n")
    one, other = rng.randrange(len(lines)), rng.randrange(len(lines))
    kind = rng.randrange(5)
    if kind == 0:
        lines[one], lines[other] = lines[other], lines[one]
    elif kind == 1:
        lines.insert(one, lines[other])
    elif kind == 2:
        del lines[one]
    elif kind == 3:
        lines.insert(one, rng.choice([b"", b"   ", b"# comment", b"#" * 1024, b"#" * 1025, b" " * 1025]))
    else:
        lines[one] = b"  " + lines[one].replace(b" ", b"   ") + b" " * rng.choice([1, 1000])
    return b"\n".join(lines)


def damage(rng, texts):
    """Damages one or two of these texts, each by one to three damages."""
    for _ in range(rng.choice([1, 1, 1, 2])):
        place = rng.randrange(len(texts))
        for _ in range(rng.choice([1, 1, 1, 2, 3])):
            texts[place] = rng.choice([damage_bytes, damage_words, damage_lines])(rng, texts[place])


class Pool:
    """Where the texts of a line come from."""

    def __init__(self):
        self.texts = worked_texts()
        self.kinds = {kind: of_kind(self.texts, kind)
                      for kind in ("category", "program", "schedule", "moves", "marks")}

    def category(self, rng, form):
        """A sound category mostly, one of version 2 for a product."""
        if rng.random() < 0.15:
            return rng.choice(self.kinds["category"])
        return self.texts[rng.choice(SECOND if form[0] == "product" else SOUND)]

    def fitting(self, rng, form):
        """The texts of a line of this form before any damage, with the kinds of its words."""
        category = self.category(rng, form)
        rules = Rules(category)
        text, turns = program(rng, rules, form[0] == "comb" and rng.random() < 0.85)
        made = {"category": category, "program": text, "schedule": schedule(rng, turns), "marks": marks(rng, rules)}
        if form[0] == "linked":
            first, second, made["moves"] = linked_texts(rng, rules)
            return [category, first, second, made["moves"]]
        if form[0] == "product":
            return [category, category if rng.random() < 0.5 else self.category(rng, form)]
        return [made[kind] for kind in form[1:] if kind in made]

    def line(self, rng):
        """A random line: its words, and its files by name."""
        form = rng.choice(FORMS)
        if form[0] == "make":
            number = rng.choice(["2", "3", "4", "5"]) if rng.random() < 0.1 else rng.choice(["0", "1", "13", "x", "02"])
            return ["make", number], {}
        texts = self.fitting(rng, form)
        if rng.random() < 0.1:
            texts[rng.randrange(len(texts))] = rng.choice(list(self.texts.values()))
        if rng.random() < 0.65:
            damage(rng, texts)
        files = {f"f{place}": text for place, text in enumerate(texts)}
        words = [form[0], *files]
        if form[0] == "galois":
            words.append(rng.choice(["0", "x", "01", "61"]) if rng.random() < 0.15 else str(rng.randrange(1, 12)))
        return mistyped(rng, words), files


def mistyped(rng, words):
    """The words, now and then with a missing file, a word too few or too many, or another command."""
    if rng.random() > 0.06:
        return words
    kind = rng.randrange(4)
    if kind == 0:
        return words[:-1]
    if kind == 1:
        return words + ["f0"]
    if kind == 2:
        return words[:1] + ["none"] + words[2:]
    return [rng.choice(["Check", "", "runs", "closure", "linked", "format"])] + words[1:]


def by_program(path, words, folder):
    """What the program answers: exit code, standard output, standard error; None for too long."""
    try:
        done = subprocess.run([path, *words], cwd=folder, capture_output=True, timeout=SECONDS, check=False)
    except subprocess.TimeoutExpired:
        return None
    return done.returncode, done.stdout, done.stderr


def loaded(path):
    """The module of the reference program."""
    spec = importlib.util.spec_from_file_location("reference_program", path)
    module = importlib.util.module_from_spec(spec)
    sys.modules["reference_program"] = module
    spec.loader.exec_module(module)
    return module


def by_reference(module, words, folder, scratch):
    """What the reference program answers, in a process of its own; None for too long."""
    names = [os.path.join(scratch, name) for name in ("out", "err")]
    child = os.fork()
    if child == 0:
        for place, name in enumerate(names, 1):
            os.dup2(os.open(name, os.O_WRONLY | os.O_CREAT | os.O_TRUNC), place)
        os.chdir(folder)
        signal.alarm(SECONDS)
        code = module.main(list(words))
        sys.stderr.flush()
        os._exit(code)
    _, status = os.waitpid(child, 0)
    if os.WIFSIGNALED(status):
        return None
    out, err = (Path(name).read_bytes() for name in names)
    return os.WEXITSTATUS(status), out, err


def answered(module, path, words, files):
    """Both answers to a line over these files."""
    with tempfile.TemporaryDirectory() as scratch:
        folder = os.path.join(scratch, "files")
        os.mkdir(folder)
        for name, text in files.items():
            Path(folder, name).write_bytes(text)
        return by_program(path, words, folder), by_reference(module, words, folder, scratch)


def show(number, words, files, ours, theirs):
    """Prints a line that differs."""
    print(f"line {number} differs: {words}")
    for name, text in files.items():
        print(f"  {name}: {text!r}")
    print(f"  program: {ours}\n  reference: {theirs}", flush=True)


def compare(seed, count, path, reference):
    """Answers the lines of a seed and counts them; gives the number of those that differ."""
    module, pool, rng = loaded(reference), Pool(), random.Random(seed)
    different, unjudged, codes, answers = 0, 0, Counter(), Counter()
    for number in range(1, count + 1):
        words, files = pool.line(rng)
        ours, theirs = answered(module, path, words, files)
        if ours is None or theirs is None:
            unjudged += 1
            continue
        codes[theirs[0]] += 1
        answers[" ".join(words[:1] + theirs[1].decode("ascii").split()[:2][:1 + (theirs[0] in (1, 5))])] += 1
        if ours != theirs:
            different += 1
            show(number, words, files, ours, theirs)
    for answer, times in sorted(answers.items()):
        print(f"{times:6} {answer}")
    print("exit codes", dict(sorted(codes.items())))
    print(f"seed {seed}: {count} lines, {different} different, {unjudged} too long")
    return different


def main(words):
    """Reads the words and compares."""
    if len(words) != 4 or not words[0].isdigit() or not words[1].isdigit():
        print(__doc__, file=sys.stderr)
        return 2
    for path in words[2:]:
        if not os.path.isfile(path):
            print(f"no such file: {path}", file=sys.stderr)
            return 2
    return 1 if compare(int(words[0]), int(words[1]), os.path.abspath(words[2]), words[3]) else 0


if __name__ == "__main__":
    sys.exit(main(sys.argv[1:]))
