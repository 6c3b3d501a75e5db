#!/usr/bin/env python3
"""Draws a program text as a picture (SVG on standard output).

    python3 tools/draw.py PROGRAM > picture.svg

Time runs downwards: the start tree stands at the top, below it the strands,
and on them the commands in the order of the text, one row each. Of a positive
exchange the strand that comes from the left passes in front, of a negative one
the strand that comes from the right.

The text is read by the grammar of docs/FORMATS.md. What needs a category
(whether a label is known and a node admissible) isn't judged. A refused text is
told on standard error as the program tells it, with exit status 1; 2 is a
faulty command line, 3 a file that can't be read.
"""

import os
import re
import sys
from dataclasses import dataclass, field
from html import escape

TEXT_LIMIT = 4194304
LINE_LIMIT = 1024
STRAND_LIMIT = 24
COMMAND_LIMIT = 4096


class Refused(Exception):
    """A text that isn't a program: what is said of it."""


# ---------------------------------------------------------------- reading

@dataclass
class Leaf:
    """A strand of the start tree."""
    label: str
    number: int = 0


@dataclass
class Node:
    """A node of the start tree over the strands first to last."""
    left: object
    right: object
    label: str
    gap: int = 0
    first: int = 0
    last: int = 0


@dataclass
class Site:
    """A site: its name and its strands."""
    name: str
    first: int
    last: int


@dataclass
class Command:
    """One command: its line, its words and what they say."""
    line: int
    text: str
    kind: str
    gap: int
    site: Site
    sign: str = ""
    outcome: int = 0
    name: str = ""
    label: str = ""


@dataclass
class Program:
    """What a program text says, as far as a picture needs it."""
    tree: object = None
    labels: list = field(default_factory=list)
    sites: list = field(default_factory=list)
    commands: list = field(default_factory=list)


def refuse(line, cause):
    """Stops at the line with the cause, in the program's own words."""
    raise Refused(f"refused program line {line} {cause}")


def counted_lines(data):
    """The lines that aren't blank and no comments, one after another, then
    the number of all lines plus one with no words."""
    pieces = data.split(b"\n")
    if pieces[-1] == b"":
        pieces.pop()
    for number, piece in enumerate(pieces, 1):
        if len(piece) > LINE_LIMIT:
            refuse(number, "line too long")
        if any(byte < 0x20 or byte > 0x7E for byte in piece):
            refuse(number, "not ascii")
        words = piece.decode("ascii").split(" ")
        words = [word for word in words if word]
        if words and not words[0].startswith("#"):
            yield number, words
    yield len(pieces) + 1, []


def plain_number(word):
    """The number of a word without sign and leading zero, else None."""
    return int(word) if re.fullmatch(r"0|[1-9][0-9]{0,8}", word) else None


def is_name(word):
    """Whether a word has 1 to 8 letters, digits and underlines."""
    return re.fullmatch(r"[A-Za-z0-9_]{1,8}", word) is not None


def read_subtree(pieces, at):
    """The tree that begins at a place of the pieces, and the place behind it;
    None where none begins there."""
    if at < len(pieces) and re.fullmatch(r"\w+", pieces[at]):
        return Leaf(pieces[at]), at + 1
    if at >= len(pieces) or pieces[at] != "(":
        return None, at
    left, at = read_subtree(pieces, at + 1)
    if left is None:
        return None, at
    right, at = read_subtree(pieces, at)
    if right is None or pieces[at:at + 2] != [")", ":"]:
        return None, at
    label = pieces[at + 2] if at + 2 < len(pieces) else ""
    if not re.fullmatch(r"\w+", label):
        return None, at
    return Node(left, right, label), at + 3


def number_tree(tree, before, labels):
    """Numbers strands and gaps from left to right behind so many strands,
    gathers the strands' labels, and answers the last strand's number."""
    if isinstance(tree, Leaf):
        labels.append(tree.label)
        tree.number = before + 1
        return before + 1
    tree.first = before + 1
    tree.gap = number_tree(tree.left, before, labels)
    tree.last = number_tree(tree.right, tree.gap, labels)
    return tree.last


def read_start(program, line, words):
    """Reads the start line into the program."""
    rest = " ".join(words[1:])
    pieces = re.findall(r"\w+|[():]|[^\w\s():]", rest, re.ASCII)
    tree, behind = read_subtree(pieces, 0)
    if words[:1] != ["start"] or tree is None or behind != len(pieces):
        refuse(line, "start")
    number_tree(tree, 0, program.labels)
    if not 2 <= len(program.labels) <= STRAND_LIMIT:
        refuse(line, "strands")
    program.tree = tree


def read_site(program, line, words, sites):
    """Reads a site line behind the sites before it."""
    first, last = (plain_number(word) for word in (words + ["", "", ""])[2:4])
    fits = (len(words) == 4 and is_name(words[1]) and None not in (first, last)
            and 1 <= first <= last <= len(program.labels)
            and not (program.commands and not sites)
            and all(site.name != words[1] for site in sites)
            and all(last < site.first or site.last < first for site in sites))
    if not fits:
        refuse(line, "site")
    sites.append(Site(words[1], first, last))


def form_of(version, words):
    """The kind of a command's form, None where it has none."""
    shape = [words[0], len(words)]
    signed = len(words) > 2 and words[2] in ("+", "-")
    if shape == ["raise", 2] or shape == ["measure", 2]:
        return words[0]
    if shape == ["braid", 3] and signed:
        return "braid"
    if version == 2 and shape == ["measure", 4] and words[2] == "as":
        return "measure"
    if version == 2 and shape == ["braid", 6] and signed and words[3] == "when":
        return "test"
    return None


def read_command(program, version, line, words, site, now):
    """Reads a command of a site; `now` has the labels of the strands, as the
    commands before it leave them."""
    kind = form_of(version, words)
    gap = plain_number(words[1]) if kind else None
    if gap is None:
        refuse(line, "command")
    if not site.first <= gap < site.last:
        refuse(line, "gap")
    command = Command(line, " ".join(words), kind, gap, site)
    measured = [old for old in program.commands if old.kind == "measure"]
    if kind == "measure":
        read_outcome(command, words, measured)
    elif kind != "raise":
        read_exchange(command, words, measured, now)
    if len(program.commands) == COMMAND_LIMIT:
        refuse(line, "limit")
    program.commands.append(command)


def read_outcome(command, words, measured):
    """Numbers the outcome of a measurement, and names it."""
    command.outcome = len(measured) + 1
    if len(words) == 4:
        command.name = words[3]
        named = [old.name for old in measured]
        if not is_name(command.name) or command.name in named:
            refuse(command.line, "name")


def read_exchange(command, words, measured, now):
    """Reads the sign of an exchange and its test, and exchanges the labels."""
    command.sign = words[2]
    gap = command.gap
    if command.kind == "test":
        places = [old.outcome for old in measured if old.name == words[4]]
        if not places or not words[4]:
            refuse(command.line, "unnamed")
        if now[gap - 1] != now[gap]:
            refuse(command.line, "unlike")
        command.outcome, command.name, command.label = places[0], words[4], words[5]
    now[gap - 1], now[gap] = now[gap], now[gap - 1]


def read_program(data):
    """The program that the bytes of a text say."""
    if len(data) > TEXT_LIMIT:
        raise Refused("refused program too long")
    lines = counted_lines(data)
    line, words = next(lines)
    if words not in (["program", "1"], ["program", "2"]):
        refuse(line, "header")
    version = int(words[1])
    program = Program()
    read_start(program, *next(lines))
    now, sites = list(program.labels), []
    main = Site("main", 1, len(now))
    for line, words in lines:
        if words and words[0] == "site":
            read_site(program, line, words, sites)
        elif words:
            site = sites[-1] if sites else main
            read_command(program, version, line, words, site, now)
    program.sites = sites or [main]
    return program


# ---------------------------------------------------------------- drawing

COLOURS = ["#0072b2", "#d55e00", "#009e73", "#cc79a7", "#b8860b", "#6a51a3"]
FREE = "#666666"
INK = "#222222"
PALE = "#777777"
FONT = "DejaVu Sans, Verdana, Helvetica, sans-serif"
MONO = "DejaVu Sans Mono, Menlo, Consolas, monospace"

LEFT = 40       # from the left edge to the first strand
ROW = 44        # height of a row of one command
TEST_ROW = 62   # the same of a braid with a test, which has a line of words
STEM = 30       # the edge above the top of the tree


class Picture:
    """Shapes of a picture, and where the strands stand."""

    def __init__(self, program, title):
        labels = program.labels + [node.label for node in nodes_of(program.tree)]
        self.program = program
        self.title = title
        self.step = max(46, 9 * max(len(label) for label in labels) + 22)
        self.shapes = []
        self.strands = len(program.labels)
        self.lean = self.step * 0.42
        self.tree_top = 64 + STEM
        self.top = self.tree_top + self.lean * (self.strands - 1)
        self.side = LEFT + self.step * (self.strands - 1) + 44

    def x(self, place):
        """Where the strand of a place stands; halves are gaps."""
        return LEFT + self.step * (place - 1)

    def add(self, name, body="", **attributes):
        """Adds an element; `_` in an attribute's name stands for `-`."""
        words = "".join(f' {key.replace("_", "-")}="{shown(value)}"'
                        for key, value in attributes.items())
        self.shapes.append(f"<{name}{words}>{body}</{name}>" if body
                           else f"<{name}{words}/>")

    def line(self, x1, y1, x2, y2, colour, width=3, **more):
        """Adds a straight line."""
        self.add("line", x1=x1, y1=y1, x2=x2, y2=y2, stroke=colour,
                 stroke_width=width, stroke_linecap="round", **more)

    def text(self, x, y, words, size=12, colour=INK, anchor="middle", **more):
        """Adds a line of words."""
        self.add("text", escape(words), x=x, y=y, fill=colour, font_size=size,
                 text_anchor=anchor, **more)

    def marked(self, x, y, words, ground, colour=INK, **more):
        """Adds words that hide what is behind them."""
        self.text(x, y, words, colour=colour, stroke=ground, stroke_width=5,
                  stroke_linejoin="round", paint_order="stroke", **more)


def shown(value):
    """A value of an attribute; numbers with one decimal at most."""
    if isinstance(value, float):
        return f"{value:.1f}".removesuffix(".0")
    return escape(str(value))


def nodes_of(tree):
    """The nodes of a tree, in the order of their gaps."""
    if isinstance(tree, Leaf):
        return []
    return nodes_of(tree.left) + [tree] + nodes_of(tree.right)


def site_colours(program):
    """The colour of each strand's place; grey where it has no site."""
    colours = [FREE] * len(program.labels)
    for number, site in enumerate(program.sites):
        for place in range(site.first, site.last + 1):
            colours[place - 1] = COLOURS[number % len(COLOURS)]
    return colours


def tint(colour):
    """A light shade of a colour, for the ground of a site."""
    parts = [int(colour[at:at + 2], 16) for at in (1, 3, 5)]
    return "#" + "".join(f"{255 - (255 - part) // 10:02x}" for part in parts)


def place_of(picture, tree):
    """Where a node or a strand's upper end stands."""
    if isinstance(tree, Leaf):
        return picture.x(tree.number), picture.top
    height = picture.lean * (tree.last - tree.first)
    return picture.x((tree.first + tree.last) / 2), picture.top - height


def draw_edges(picture, tree):
    """Draws the edges below a node, and those of its subtrees."""
    x, y = place_of(picture, tree)
    for child in (tree.left, tree.right):
        picture.line(x, y, *place_of(picture, child), INK, 2)
        if isinstance(child, Node):
            draw_edges(picture, child)


def draw_charges(picture, node, lean):
    """Writes the charge of a node, whose upper edge leans to the right (1), to
    the left (-1) or not (0), its gap, and those of the nodes below it."""
    x, y = place_of(picture, node)
    picture.add("circle", cx=x, cy=y, r=3.5, fill=INK)
    picture.marked(x - 5 * lean, y - (6 if lean else STEM + 5), node.label,
                   "white", size=13, font_weight="bold",
                   anchor={1: "end", 0: "middle", -1: "start"}[lean])
    picture.text(x, y + 18, str(node.gap), 9, PALE)
    for child, way in ((node.left, 1), (node.right, -1)):
        if isinstance(child, Node):
            draw_charges(picture, child, way)


def draw_tree(picture):
    """Draws the start tree with the charge and the gap of each node."""
    tree = picture.program.tree
    x, y = place_of(picture, tree)
    picture.line(x, y - STEM, x, y, INK, 2)
    draw_edges(picture, tree)
    draw_charges(picture, tree, 0)


def draw_grounds(picture, bottom):
    """Draws a ground in a light shade for each site, and its name below."""
    for number, site in enumerate(picture.program.sites):
        colour = COLOURS[number % len(COLOURS)]
        left = picture.x(site.first) - picture.step * 0.44
        width = picture.step * (site.last - site.first + 0.88)
        picture.add("rect", x=left, y=picture.top + 4, width=width, rx=6,
                    height=bottom - picture.top - 8, fill=tint(colour))
        picture.text(left + width / 2, bottom + 36, f"site {site.name}", 11, colour)


def draw_begins(picture, colours):
    """Writes the labels of the start's strands on them, with their numbers."""
    for place, label in enumerate(picture.program.labels, 1):
        colour = colours[place - 1]
        x, y = picture.x(place), picture.top + 22
        ground = tint(colour) if colour != FREE else "white"
        picture.marked(x, y, label, ground, colour, size=13, font_weight="bold")
        picture.text(x + 4.4 * len(label) + 1, y + 4, str(place), 8, PALE, "start")


def draw_ends(picture, labels, y, colours):
    """Writes the labels of the strands in a row at a height."""
    for place, label in enumerate(labels, 1):
        picture.text(picture.x(place), y, label, 13, colours[place - 1],
                     font_weight="bold")


def row_height(command):
    """The height of a command's row."""
    return TEST_ROW if command.kind == "test" else ROW


def draw_crossing(picture, gap, y, height, sign, colour, ground):
    """Draws the exchange of two strands: first the one behind, then the
    ground around the one in front, then that."""
    left, right = picture.x(gap), picture.x(gap + 1)
    front = (left, right) if sign == "+" else (right, left)
    bend = height * 0.44
    for (begin, end), halo in ((front[::-1], False), (front, True)):
        curve = (f"M{shown(begin)} {shown(y)} C{shown(begin)} {shown(y + bend)} "
                 f"{shown(end)} {shown(y + height - bend)} {shown(end)} "
                 f"{shown(y + height)}")
        if halo:
            picture.add("path", d=curve, fill="none", stroke=ground, stroke_width=10)
        picture.add("path", d=curve, fill="none", stroke=colour, stroke_width=3,
                    stroke_linecap="round")


def draw_measure(picture, command, y):
    """Draws the box of a measurement with its outcome's name or number."""
    left, right = picture.x(command.gap) - 13, picture.x(command.gap + 1) + 13
    picture.add("rect", x=left, y=y + 8, width=right - left, height=ROW - 16,
                rx=12, fill="white", stroke=INK, stroke_width=1.5)
    words = command.name or f"#{command.outcome}"
    picture.text((left + right) / 2, y + ROW / 2 + 4, words, 12)


def draw_raise(picture, command, y):
    """Draws the sign of a raise, which moves no strand."""
    x, middle = picture.x(command.gap + 0.5), y + ROW / 2
    points = f"{shown(x - 7)},{shown(middle + 6)} {shown(x)},{shown(middle - 7)} "
    picture.add("polygon", points=points + f"{shown(x + 7)},{shown(middle + 6)}",
                fill="white", stroke=PALE, stroke_width=1.5)


def draw_test(picture, command, y, ground):
    """Draws the frame of a braid with a test and the words of the test."""
    left, right = picture.x(command.gap), picture.x(command.gap + 1)
    picture.add("rect", x=left - 11, y=y + 18, width=right - left + 22, height=42,
                rx=5, fill="none", stroke=INK, stroke_width=1.2,
                stroke_dasharray="3 3")
    words = f"{command.name} = {command.label}?"
    picture.marked((left + right) / 2, y + 13, words, ground, size=11)


def draw_command(picture, command, y, colour):
    """Draws one command on its strands, and its words beside them."""
    height = row_height(command)
    ground = tint(colour)
    if command.kind == "measure":
        draw_measure(picture, command, y)
    elif command.kind == "raise":
        draw_raise(picture, command, y)
    elif command.kind == "test":
        draw_crossing(picture, command.gap, y + 20, 38, command.sign, colour, ground)
        draw_test(picture, command, y, ground)
    else:
        draw_crossing(picture, command.gap, y, height, command.sign, colour, ground)
    middle = y + height / 2 + 4
    picture.text(picture.side, middle, str(command.line), 10, PALE, "end")
    picture.text(picture.side + 10, middle, command.text, 12, colour, "start",
                 font_family=MONO)
    if command.kind == "measure" and command.name:
        wide = picture.side + 22 + 7.3 * len(command.text)
        picture.text(wide, middle, f"#{command.outcome}", 11, PALE, "start")


def gone_spans(command, y):
    """Between which heights the strands of a command aren't straight."""
    if command.kind == "braid":
        return y, y + ROW
    if command.kind == "test":
        return y + 20, y + 58
    return None


def draw_strands(picture, rows, bottom, colours):
    """Draws the straight pieces of all strands between their exchanges."""
    begun = [picture.top] * picture.strands
    for command, y in rows:
        span = gone_spans(command, y)
        if span:
            for place in (command.gap, command.gap + 1):
                x = picture.x(place)
                picture.line(x, begun[place - 1], x, span[0], colours[place - 1])
                begun[place - 1] = span[1]
    for place, y in enumerate(begun, 1):
        picture.line(picture.x(place), y, picture.x(place), bottom, colours[place - 1])


def end_labels(program):
    """The labels of the strands behind all commands."""
    labels = list(program.labels)
    for command in program.commands:
        if command.kind == "braid":
            gap = command.gap
            labels[gap - 1], labels[gap] = labels[gap], labels[gap - 1]
    return labels


def draw_legend(picture, y):
    """Draws what colours and signs mean, as far as they occur; answers the
    height below it."""
    picture.line(LEFT - 20, y - 18, picture.side + 180, y - 18, "#cccccc", 1)
    for number, site in enumerate(picture.program.sites):
        colour = COLOURS[number % len(COLOURS)]
        picture.line(LEFT - 8, y, LEFT + 28, y, colour, 5)
        words = f"site {site.name}: strands {site.first} to {site.last}"
        picture.text(LEFT + 48, y + 4, words, 11, anchor="start")
        y += 20
    y += 8
    for draw, words in legend_signs(picture.program):
        draw(picture, y)
        picture.text(LEFT + 48, y + 4, words, 11, anchor="start")
        y += 34
    return y


def legend_node(picture, y):
    """Draws a node of a tree in the legend."""
    for x in (LEFT, LEFT + 20):
        picture.line(LEFT + 10, y - 2, x, y + 7, INK, 2)
    picture.add("circle", cx=LEFT + 10, cy=y - 2, r=3, fill=INK)


def legend_crossing(sign):
    """Draws the exchange of a sign in the legend."""
    def draw(picture, y):
        place = picture.step
        picture.step = 22
        draw_crossing(picture, 1, y - 13, 26, sign, INK, "white")
        picture.step = place
    return draw


def legend_box(picture, y):
    """Draws a measurement's box in the legend."""
    picture.add("rect", x=LEFT - 10, y=y - 10, width=42, height=20, rx=10,
                fill="white", stroke=INK, stroke_width=1.5)
    picture.text(LEFT + 11, y + 4, "#1", 11)


def legend_raise(picture, y):
    """Draws the sign of a raise in the legend."""
    picture.add("polygon", fill="white", stroke=PALE, stroke_width=1.5,
                points=f"{LEFT + 4},{y + 6} {LEFT + 11},{y - 7} {LEFT + 18},{y + 6}")


def legend_frame(picture, y):
    """Draws the frame of a test in the legend."""
    picture.add("rect", x=LEFT - 8, y=y - 12, width=38, height=24, rx=5,
                fill="none", stroke=INK, stroke_width=1.2, stroke_dasharray="3 3")


def legend_signs(program):
    """The signs of the legend that the program needs, with their words."""
    kinds = {command.kind for command in program.commands}
    signs = {command.sign for command in program.commands}
    lines = [(legend_node, "start tree: charge above a node, its gap below")]
    if "+" in signs:
        lines.append((legend_crossing("+"), "+ exchange, R: left strand in front"))
    if "-" in signs:
        lines.append((legend_crossing("-"), "- exchange, S: right strand in front"))
    if "measure" in kinds:
        lines.append((legend_box, "measurement of a pair's charge: its outcome"))
    if "test" in kinds:
        lines.append((legend_frame, "done where the outcome is the label"))
    if "raise" in kinds:
        lines.append((legend_raise, "raise: another tree, the same state"))
    return lines


def rows_of(program, y):
    """Each command with the height at which its row begins, and the height
    below them all."""
    rows = []
    for command in program.commands:
        rows.append((command, y))
        y += row_height(command)
    return rows, y


def draw(program, title):
    """The picture of a program, as an SVG text."""
    picture = Picture(program, title)
    colours = site_colours(program)
    rows, bottom = rows_of(program, picture.top + 38)
    bottom += 14
    draw_grounds(picture, bottom)
    draw_tree(picture)
    draw_strands(picture, rows, bottom, colours)
    draw_begins(picture, colours)
    for command, y in rows:
        draw_command(picture, command, y, colours[command.gap - 1])
    draw_ends(picture, end_labels(program), bottom + 18, colours)
    return whole(picture, draw_legend(picture, bottom + 78))


def whole(picture, bottom):
    """The text of a picture with its frame."""
    longest = max([len(command.text) for command in picture.program.commands] + [16])
    width = max(picture.side + 60 + 7.3 * longest, 420)
    height = bottom + 6
    head = (f'<svg xmlns="http://www.w3.org/2000/svg" width="{shown(width)}" '
            f'height="{shown(height)}" viewBox="0 0 {shown(width)} {shown(height)}" '
            f'font-family="{FONT}">')
    title = escape(picture.title)
    ground = '<rect width="100%" height="100%" fill="white"/>'
    name = (f'<text x="{LEFT - 20}" y="28" font-size="15" font-weight="bold" '
            f'fill="{INK}">{title}</text>')
    return "\n".join([head, f"<title>{title}</title>", ground, name]
                     + picture.shapes + ["</svg>", ""])


def main(words):
    """Draws the program of the named file; answers the exit status."""
    if len(words) != 1:
        print("usage: draw.py PROGRAM [> out.svg]", file=sys.stderr)
        return 2
    try:
        with open(words[0], "rb") as file:
            data = file.read()
    except OSError as fault:
        print(f"read fault: {fault}", file=sys.stderr)
        return 3
    try:
        program = read_program(data)
    except Refused as refusal:
        print(refusal, file=sys.stderr)
        return 1
    sys.stdout.write(draw(program, os.path.basename(words[0])))
    return 0


if __name__ == "__main__":
    sys.exit(main(sys.argv[1:]))
