#!/usr/bin/env python3
"""Lists each public call of every crate, with the clauses that say when a refusal comes and what it leaves as it was.

Usage: tools/calls.py [--bare | --plain] > docs/CALLS.md

The crates come in the order of `crates.txt`, the calls of a crate in the order of its root file's modules. A call is a
`pub fn` that the crate shows, a `pub fn` of a type that it shows, or a method of such a trait; tests are none. What a row
says is read from the text of the contract by the rules below: `WHOLE` names the definitions that tell every answer of a
call, `KEPT` those that tell what is lent to it. With `--bare` it lists only the rows that say "no clause", with `--plain`
every call in one line: what is lent to it with `&mut`, its answer, and the names of its clauses. It stops where a source
names a bound under which a call need not return.
"""
import pathlib
import re
import sys
from dataclasses import dataclass

ROOT = pathlib.Path(__file__).resolve().parent.parent
PAIRS = {"(": ")", "[": "]", "{": "}", "<": ">"}
WORD = r"(?<![\w.]){}(?!\w)"
BOUND = re.compile(r"\b(?:Abort|Wait|Threads)\b|\.forever\(")
NONE = "**no clause**"
TOLD = {
    "WhereTold": f", where the shelf tells its texts, else {NONE}",
    "Decides": f", where the shelf tells its texts or the words want none, else {NONE}",
}
MEMORY = ("Memory", "NoMemory", "AllocError")

# Definitions that say of each answer where it comes, and what they say of want of memory.
FREE = "want of memory is free"
WHOLE = {
    "Passes": FREE,
    "Gives": "", "Answers": "", "Allowed": "", "FindsNext": "",
    "Told": FREE, "Runs": FREE, "RunsSorted": FREE, "StopsAs": FREE, "Tells": FREE, "added": FREE,
    "AnswersMirror": "`Exponent` never, and " + FREE,
    "Sets": "want of memory only where the value may be set",
    "Marks": "want of memory only where the value may be set",
    "Admits": "want of memory only where the rules pass",
    "AnswersImage": "want of memory only where the exponent is one",
    "AnswersProduct": "want of memory only where there is a product",
}
# Definitions that say what is there behind a refusal: what was there, or what else.
SAME = ""
KEPT = {
    "Appends": SAME, "Allowed": SAME, "FindsNext": SAME, "added": SAME, "Sets": SAME, "Marks": SAME,
    "CutsBack": "cut back to the given length",
}
# Answers that are enums of their own: what is no refusal, and what the answer `IsAnswer` speaks of.
HAPPY = {"Status": "Done", "Verdict": "Linked"}
ANSWERED = ("Done", "Refused", "Usage", "Limit")

HEAD = """# Calls

Each public call of every crate, and for each that can refuse: the answers other than Ok, the clause that says when each comes, and the clause that says what stays as it was. `tools/calls.py > docs/CALLS.md` writes this page anew from the contracts in `crates/*/src`; `tools/calls.py --bare` lists only the rows with an open place, and `tools/calls.py --plain` every call with its answer and the names of all its clauses.

**What is proved about return.** The check proves of each function, whether it has clauses or not: called with its `requires` met it has no undefined behavior, it returns, and what its `ensures` say then holds. Each loop and each recursion is proved to end, and a panic, an overflow of a number type, an index out of bounds and a division by zero are proved not to happen. The language leaves out functions that may end the process or wait for another thread, which say so by a bound (`Abort`, `Wait`), are passed code that has one, or join a thread that has one; the last line of a check names those of `main` and of tests behind `main=`. No crate on this page names such a bound outside its tests or starts a thread (the tool looks for it). What a caller passes, a shelf, a sink, a ring, an engine or a closure, is under the same rule: a call that is passed code with such a bound may not return.

That a call returns doesn't say: that the stack is large enough; that it takes little time or memory; that the machine returns from a read or a write (`FileShelf` and `OutSink` make these calls, and a read that waits for input has no bound that says so). The toolchain, the C library with its stated contracts, and the machine are trusted.

**How to read the tables.** A call has a row if it answers a `Result` or an `Option`, or an enum among whose values are refusals (`Status`; `Verdict` within a `Result`).

- Behind a call stand in brackets the names of what it requires, which its caller has to prove; a call without them may be made with every argument of its types.
- *Answers* are the error type with its variants, as its definition has them, or `None`; where an `Option` holds a fault, `Some` with the variants. A variant that the clause doesn't admit never comes. What variants carry stands at the end.
- *When* names the clause that tells where each answer comes. "exactly" is one clause for every answer, an `↔`, or a clause each way, up to want of memory; "only" is one way: the answer comes only where the clause says. That of a shelf or a sink is a count of faults that rose in this call or stands at its last value. "free" is want of memory, which may come at any time.
- *Kept* is for what is lent with `&mut` and changed in place: the clause that says it is as it was behind every answer of the second column. Values are compared as contracts see them: a `Vec` by its items, a type with a `Model` by its view. In brackets stands the part of it of which the clause speaks, or what else than "as it was" it says. What is lent with `&` never changes, and what is handed over is gone, also behind a refusal: "-". Of a shelf or a sink that tells no texts or bytes, as `FileShelf` and `OutSink`, `files` and `taken` say nothing.
- "the clause" is the only one of its kind (`requires` or `ensures`) of its call, which has no name. "{none}" marks what no clause says.
- An `impl` of a trait here has the clauses of the trait; those of `MemShelf`, `SureShelf`, `MemSink`, `FileShelf`, `OutSink`, `Whole` and `Cyclo` may say more. Conversions (`From`) and what is derived can't refuse. Crates of programs and of tests have no public calls.
"""


class Fault(Exception):
    """What can't be read, with its place."""


@dataclass
class Clause:
    """A clause of a contract: its name, empty where it has none, and its text."""
    name: str
    text: str


@dataclass
class Call:
    """A public call: its crate, its name as a caller writes it, what it takes, its answer, its `requires` clauses and its
    `ensures` clauses."""
    crate: str
    path: str
    takes: str
    answer: str
    premises: list
    clauses: list


@dataclass
class Enum:
    """An enum by its crate and its name: its variants, none for a struct, and the words of the types that it carries."""
    crate: str
    name: str
    variants: list
    carried: list


# Reading the sources.

def crates():
    """The names of the crates in the order of `crates.txt`, each with those that it stands on."""
    found = {}
    path = ROOT / "crates.txt"
    for number, line in enumerate(path.read_text(encoding="utf-8").splitlines(), 1):
        if not line.strip() or line.startswith("#"):
            continue
        name, colon, lower = line.partition(":")
        if not colon:
            raise Fault(f"{path.name} line {number}: no `:` behind the name of a crate")
        found[name] = lower.split()
    return found


def source(path):
    """A source without comments, up to its tests. It may name no bound under which a call need not return."""
    text = re.sub(r"(?m)//.*$", "", path.read_text(encoding="utf-8"))
    text = re.split(r"(?m)^#\[cfg\(test\)\]\nmod \w+ \{$", text)[0]
    if BOUND.search(text):
        raise Fault(f"{path.relative_to(ROOT)} names a bound under which a call need not return")
    return text


def modules(text):
    """The modules that a root file names without a test's mark: the name of each, and whether it is public."""
    found = re.findall(r"(?m)^(#\[cfg\(test\)\]\n)?(pub )?mod (\w+);$", text)
    return [(name, bool(public)) for mark, public, name in found if not mark]


def shown(text):
    """The names that a root file shows, its own and those from its modules."""
    names = set(re.findall(r"(?m)^pub (?:struct|enum|trait|fn) (\w+)", text))
    for listed in re.findall(r"(?m)^pub use [\w:]*?(\{[^}]*\}|\w+);", text):
        names.update(re.findall(r"\w+", listed))
    return names


def close_of(text, at):
    """The place behind the bracket that closes the one at a place."""
    opening, closing = text[at], PAIRS[text[at]]
    depth = 0
    for place in range(at, len(text)):
        if text[place] == opening:
            depth += 1
        elif text[place] == closing and text[place - 1] != "-":
            depth -= 1
        if depth == 0:
            return place + 1
    raise Fault(f"no {closing} closes a {opening}")


def one_line(text):
    """A text with single spaces."""
    return re.sub(r",? ?([)\]])", r"\1", re.sub(r"([(\[]) ", r"\1", " ".join(text.split())))


def clauses_at(text, at):
    """The `requires` clauses and the `ensures` clauses of the contract from a place on."""
    found = {"requires": [], "ensures": []}
    head = re.compile(r"\s*(requires|ensures)\b\s*(\w*)\s*(?=\{)")
    while begun := head.match(text, at):
        at = close_of(text, begun.end())
        found[begun[1]].append(Clause(begun[2], one_line(text[begun.end() + 1:at - 1])))
    return found["requires"], found["ensures"]


def declared_at(text, at):
    """What a function whose name ends at a place takes and answers, and its clauses of both kinds."""
    if text[at] == "<":
        at = close_of(text, at)
    end = close_of(text, at)
    takes = one_line(text[at + 1:end - 1])
    answer = re.compile(r"\s*->\s*(.*?)(?=\s+(?:requires|ensures)\b|\s*\{|;$)", re.S | re.M).match(text, end)
    if not answer:
        return takes, "()", *clauses_at(text, end)
    return takes, one_line(answer[1]), *clauses_at(text, answer.end())


def owner_of(word, rest):
    """The type or the trait whose calls stand behind a head, or an empty text for an `impl` of a trait."""
    if rest.startswith("<"):
        rest = rest[close_of(rest, 0):]
    if word == "impl" and " for " in rest:
        return ""
    return re.match(r"\s*(\w+)", rest)[1]


def calls_in(crate, text, module, is_shown):
    """The public calls of one file."""
    found = []
    owner = word = ""
    for line in re.finditer(r"(?m)^( *)(pub )?(impl|trait|fn|\})(?!\w)(.*)$", text):
        indent, public, what, rest = line.groups()
        if what == "fn":
            name = re.match(r"\s*(\w+)", rest)
            place = f"{owner}::" if indent else module
            is_call = owner and is_shown(owner) and (public or word == "trait") if indent else public and is_shown(name[1])
            if is_call:
                found.append(Call(crate, place + name[1], *declared_at(text, line.start(4) + name.end())))
        elif not indent:
            owner, word = ("", "") if what == "}" else (owner_of(what, rest), what)
    return found


def sources(crate):
    """The sources of a crate without tests: the text of each, the module's name as a caller writes it, and whether
    all of it is shown; and the names that its root file shows."""
    folder = ROOT / "crates" / crate / "src"
    root = folder / "lib.rt"
    if not root.is_file():
        return [], set()
    text = source(root)
    found = [(text, "", False)]
    for name, public in modules(root.read_text(encoding="utf-8")):
        found.append((source(folder / f"{name}.rt"), f"{name}::" if public else "", public))
    return found, shown(text)


def calls_of(crate):
    """The public calls of a crate."""
    texts, names = sources(crate)
    found = []
    for text, module, public in texts:
        found += calls_in(crate, text, module, lambda name, public=public: public or name in names)
    return found


def enum_in(crate, name, kind, body):
    """An enum or a struct by its text."""
    body = re.sub(r"#\[[^\]]*\]", "", body)
    if kind == "struct":
        return Enum(crate, name, [], re.findall(r"[A-Z]\w+", body))
    variants = re.findall(r"(\w+)\s*(\([^)]*\)|\{[^}]*\})?\s*(?:,|$)", body)
    carried = re.findall(r"[A-Z]\w+", " ".join(behind for _, behind in variants))
    return Enum(crate, name, [first for first, _ in variants], carried)


def enums_of(crate):
    """The enums and structs that a crate shows, by name."""
    texts, names = sources(crate)
    found = {}
    for text, _, _ in texts:
        for head in re.finditer(r"(?m)^pub (enum|struct) (\w+)[^;{(]*(\{|;)", text):
            if head[2] in names:
                end = close_of(text, head.end() - 1) if head[3] == "{" else head.end()
                found[head[2]] = enum_in(crate, head[2], head[1], text[head.end():end - 1])
    return found


# What an answer is.

def parts_of(answer):
    """The type before the brackets of an answer, and the types within them."""
    outer, opened, inner = answer.partition("<")
    if not opened:
        return outer, []
    parts, depth = [""], 0
    for sign in inner[:-1]:
        depth += (sign in "<([") - (sign in ">)]")
        if sign == "," and depth == 0:
            parts.append("")
        else:
            parts[-1] += sign
    return outer, [part.strip() for part in parts]


def can_refuse(call):
    """Whether a call has answers other than Ok."""
    return parts_of(call.answer)[0] in ("Result", "Option", *HAPPY)


def refusals(call, enums):
    """The answers of a call other than Ok: the type that they are of, and their names."""
    outer, within = parts_of(call.answer)
    kind = {"Result": within[1:], "Option": within}.get(outer, [outer])[0]
    known = enums.get(kind)
    if outer == "Option":
        return ("Option", ["None"]) if not known or not known.variants else (kind, known.variants)
    names = known.variants if known and known.variants else [kind]
    return kind, [name for name in names if name != HAPPY.get(kind)]


def lent(call):
    """The names of what is lent to a call with `&mut`."""
    found = re.findall(r"(\w+): &(?:'\w+ )?mut ", call.takes)
    return (["self"] if re.match(r"&(?:'\w+ )?mut self", call.takes) else []) + found


# What the clauses say.

def named(clause):
    """The name of a clause as the page shows it."""
    return f"`{clause.name}`" if clause.name else "the clause"


def head_in(heads, text):
    """The definition among these of which a clause makes a statement on the answer."""
    return next((head for head in heads if re.search(WORD.format(head) + r"[^→]*\b(?:result|written)\b", text)), "")


def is_same(text, name):
    """The part of a lent value that an equality says is as it was, or an empty text."""
    found = re.search(rf"([\w.]+ )?{name}\.new(\.\w+)? ≡ ([\w.]+ )?{name}\.old(\.\w+)?(?=\)|$)", text)
    if not found or found[1] != found[3] or found[2] != found[4]:
        return ""
    field = found[2] if found[2] and found[2] != ".items" else ""
    return (found[1] or "") + name + field


def closure_in(text):
    """What a clause asks of the closure that its call is passed."""
    return ", for a closure whose answers are stated" if ".post" in text else ""


def told_in(text):
    """Where a clause says something at all."""
    return next((said for word, said in TOLD.items() if f"→ {word} " in text), "")


def exact_when(clause):
    """What a clause that speaks of every answer says, or an empty text."""
    text = clause.text
    head = head_in(WHOLE, text)
    if head:
        return f"exactly, {named(clause)}{closure_in(text)}" + (f"; {WHOLE[head]}" if WHOLE[head] else "")
    if re.search(r"↔ Is(Ok|None) result|Is(Ok|None) result ↔|\(result ≡ None\) ↔", text):
        return f"exactly, {named(clause)}"
    if re.match(r"(option_copied )?result ≡ (?!Status)", text):
        return f"exactly, {named(clause)}"
    return ""


def refused_when(clause, clauses):
    """What a clause that speaks of every refusal says, or an empty text."""
    if not re.match(r"OnErr result \((?:Rose |.* ≡ (?:None|false)\)$)", clause.text):
        return ""
    return only_or_exact(clause, clauses)


def only_or_exact(clause, clauses):
    """What a clause says of where a refusal comes: exactly there, if another clause says that Ok comes only elsewhere."""
    text = clause.text.removeprefix("OnErr result (")
    stops = re.search(r"([\w.]+)(?: [^→×≡]*)? ≡ (?:None|false)\)*$", text)
    value = stops and next((other for other in clauses if re.search(r"\b(?:OnOk|IfOk) result", other.text)
                            and re.search(rf"{re.escape(stops[1])}\b.* ≡ (?:Some|true)", other.text)), None)
    if value:
        return f"exactly, {named(clause)} and {named(value)}{closure_in(text)}"
    return f"only, {named(clause)}{closure_in(text)}{told_in(text)}"


def variant_when(clause, clauses, kind, variant):
    """What a clause says of where one refusal comes, or an empty text."""
    text = clause.text
    own = rf"(?:{kind}\.)?{variant}"
    if re.search(rf"\(result ≡ (?:Err )?{own}\) ↔", text):
        return f"exactly, {named(clause)}"
    if re.match(rf"result ≢ {own}$", text):
        return f"never, {named(clause)}"
    if text.startswith("IsAnswer result →") and variant in ANSWERED:
        back = [f" (and the other way where the shelf tells its texts and no count of faults rises, {named(other)})"
                for other in clauses if "NoFaults" in other.text]
        return f"only, {named(clause)}{''.join(back)}{told_in(text)}"
    if re.search(rf"(IsErrOf result {own}|result ≡ {own}) →", text) and not re.search(r"\.new ≡|IsBegun|≢ None", text):
        return only_or_exact(clause, clauses)
    return ""


def when_of(call, enums):
    """When the refusals of a call come: a text for each group that has the same."""
    kind, variants = refusals(call, enums)
    whole = [said for clause in call.clauses if (said := exact_when(clause))]
    if not whole and kind not in MEMORY:
        whole = [said for clause in call.clauses if (said := refused_when(clause, call.clauses))]
    found = {whole[0]: []} if whole else {}
    for variant in [] if whole else variants:
        said = [text for clause in call.clauses if (text := variant_when(clause, call.clauses, kind, variant))]
        exact = [text for text in said if text.startswith(("exactly", "never"))]
        text = (exact or said or ["free" if variant in MEMORY else NONE])[0]
        found.setdefault(text, []).append(variant)
    return [", ".join(names) + ": " + text if len(found) > 1 else text for text, names in found.items()]


def verdict_when(call):
    """The clause that says which verdict an Ok has."""
    said = [clause for clause in call.clauses if re.match(r"IfOk result \(λ (\w+)\. \1 ≡ ", clause.text)]
    return f"exactly, {named(said[0])}" if said else NONE


def kept_by(clause, name):
    """What a clause says of a lent value behind every refusal, or an empty text."""
    text = clause.text
    head = head_in(KEPT, text)
    if head and re.search(rf"\b{name}\.new\b", text) and "OnOk" not in text and "OnErr" not in text:
        return named(clause) + (f" ({KEPT[head]})" if KEPT[head] else "")
    if re.fullmatch(rf"Grows {name}\.old\.\w+ {name}\.new\.\w+", text):
        return f"{named(clause)} (kept values stay, and there may be more)"
    part = is_same(text, name)
    if part and (text.startswith("OnErr result") or re.match(r"[\w.]+ \w+\.new(\.\w+)? ≡", text)):
        return named(clause) + (f" (`{part}`)" if part != name else "")
    if text.startswith("OnErr result") and re.search(rf"\b{name}\.new\b.*take n", text):
        return f"{named(clause)} (how far it went)"
    return ""


def status_kept(clause, name, variant):
    """What a clause says of a lent value behind one status, or an empty text."""
    text = clause.text
    told = told_in(text)
    if text == f"result ≢ Status.{variant}":
        return f"never, {named(clause)}"
    if not re.search(rf"\b{name}\.new\b", text):
        return ""
    if text.startswith("IsAnswer result →") and variant in ANSWERED and "IsGiven" in text:
        return f"{named(clause)} (the reply){told}"
    if text.startswith(f"result ≡ Status.{variant} →") and "IsBegun" in text:
        return f"{named(clause)} (how far it went){told}"
    if text.startswith(f"result ≡ Status.{variant} →") and (part := is_same(text, name)):
        return f"{named(clause)} (`{part}`)"
    return ""


def kept_of(call, name, enums):
    """What is said of a lent value behind the refusals of a call."""
    whole = [said for clause in call.clauses if (said := kept_by(clause, name))]
    if whole:
        return whole[0]
    kind, variants = refusals(call, enums)
    found = {}
    for variant in variants if kind == "Status" else []:
        said = [text for clause in call.clauses if (text := status_kept(clause, name, variant))]
        found.setdefault((said or [NONE])[0], []).append(variant)
    if len(found) > 1:
        return "; ".join(f"{', '.join(names)}: {text}" for text, names in found.items())
    rest = [named(clause) for clause in call.clauses if re.fullmatch(rf"\w+ self\.now {name}\.new", clause.text)]
    return NONE + (f" but {rest[0]}, of every answer" if rest else "")


# The page.

def called(call):
    """The name of a call, with the names of what it requires."""
    names = [named(premise) for premise in call.premises]
    return f"`{call.path}`" + (f" (requires {', '.join(names)})" if names else "")


def row_of(call, enums):
    """The cells of a call that can refuse."""
    kind, variants = refusals(call, enums)
    outer, within = parts_of(call.answer)
    answers = ", ".join(variants) if variants != [kind] else ""
    answers = answers if kind == "Option" else f"`{kind}`" + (f": {answers}" if answers else "")
    if outer == "Option" and kind != "Option":
        answers = "Some " + answers
    when = when_of(call, enums)
    if outer == "Result" and within[0] in HAPPY:
        others = [name for name in enums[within[0]].variants if name != HAPPY[within[0]]]
        answers += f"; Ok of {', '.join(others)}"
        when.append(f"the Ok: {verdict_when(call)}")
    kept = [kept_of(call, name, enums) for name in lent(call)]
    if len(kept) > 1:
        kept = [f"`{name}`: {text}" for name, text in zip(lent(call), kept)]
    return [called(call), answers, "; ".join(when), "; ".join(kept) or "-"]


def seen_by(crate, lower, shown_by):
    """The enums that a crate's signatures may name: its own before those of the crates that it stands on."""
    found = {}
    for name in [*lower, crate]:
        found.update(shown_by.get(name, {}))
    return found


def carried_by(found):
    """The enums that refusals carry, each once, by their crates and names."""
    carried = {}
    for _, calls, enums in found:
        names = [refusals(call, enums)[0] for call in calls if can_refuse(call)]
        for name in names:
            inner = [enums[word] for word in (enums[name].carried if name in enums else []) if word in enums]
            names += [enum.name for enum in inner if enum.name not in names]
            carried.update({(enum.crate, enum.name): enum.variants for enum in inner if enum.variants})
    return carried


def read_all():
    """All crates, in their order: the name of each, its calls, and the enums that they may name."""
    lower = crates()
    shown_by = {crate: enums_of(crate) for crate in lower}
    return [(crate, calls_of(crate), seen_by(crate, lower[crate], shown_by)) for crate in lower]


def table_line(cells):
    """A line of a table."""
    return "| " + " | ".join(cell.replace("|", "\\|") for cell in cells) + " |\n"


def counts(found):
    """The sentence of how many calls there are."""
    calls = [call for _, listed, _ in found for call in listed]
    rows = [row_of(call, enums) for _, listed, enums in found for call in listed if can_refuse(call)]
    bare = sum(NONE in " ".join(row) for row in rows)
    return f"{len(calls)} calls, of which {len(rows)} can refuse; {bare} of these have a place marked \"no clause\".\n"


def write_page(out):
    """Writes the page of all calls."""
    found = read_all()
    out.write(HEAD.replace("{none}", "no clause"))
    out.write("\n" + counts(found))
    for crate, calls, enums in found:
        if not calls:
            continue
        out.write(f"\n## {crate}\n")
        rows = [call for call in calls if can_refuse(call)]
        if rows:
            out.write("\n" + table_line(["call", "answers", "when", "kept"]) + "|---|---|---|---|\n")
        for call in rows:
            out.write(table_line(row_of(call, enums)))
        rest = [called(call) for call in calls if not can_refuse(call)]
        if rest:
            out.write(f"\nCan't refuse: {', '.join(rest)}.\n")
    out.write("\n## What answers carry\n\n")
    for (crate, name), variants in carried_by(found).items():
        out.write(f"- `{crate}::{name}`: {', '.join(variants)}\n")


def write_bare(out):
    """Writes the rows that have a place without a clause."""
    found = read_all()
    for crate, calls, enums in found:
        for call in calls:
            row = row_of(call, enums) if can_refuse(call) else []
            if NONE in " ".join(row):
                out.write(f"{crate}: " + " | ".join(row).replace("`", "").replace("*", "") + "\n")
    out.write(counts(found))


def names_of(clauses):
    """The names of clauses in one text."""
    return ", ".join(clause.name or "the clause" for clause in clauses) or "none"


def write_plain(out):
    """Writes every call in one line."""
    for crate, calls, _ in read_all():
        for call in calls:
            changed = ", ".join(lent(call)) or "nothing"
            out.write(f"{crate}: {call.path} | changes {changed} | answers {call.answer}"
                      f" | requires {names_of(call.premises)} | ensures {names_of(call.clauses)}\n")


WRITERS = {"": write_page, "--bare": write_bare, "--plain": write_plain}


def main(words):
    """Writes what the words ask for; 2 where they ask for nothing, 1 where the sources can't be read."""
    sys.stdout.reconfigure(encoding="utf-8")
    word = " ".join(words)
    if word not in WRITERS:
        sys.stderr.write("usage: tools/calls.py [--bare | --plain]\n")
        return 2
    try:
        WRITERS[word](sys.stdout)
    except (Fault, OSError) as fault:
        sys.stderr.write(f"{fault}\n")
        return 1
    return 0


if __name__ == "__main__":
    sys.exit(main(sys.argv[1:]))
