#!/usr/bin/env python3
"""Tests that the contract of every public function gives its whole outcome, or is known not to: its result, and every slice that it is lent for
writing. A contract gives them by equations with the outcome on the left, or by a relation of the table of relations in docs/PROMISES.md, which has a
law that the outcome is the only one; a function of that table may stand around the outcome on the left, and has a law that no two have the same
value. Every other function is in the table of functions there, with what is left open and why. Exit 1, with their names, for functions in neither,
for names on the page that are no relation, law or function, and for functions there that leave nothing open.

    tools/contracts.py            the test
    tools/contracts.py --open     the functions whose contract leaves something open, and what
"""
import pathlib
import re
import sys

ROOT = pathlib.Path(__file__).resolve().parent.parent
PAGE = ROOT / "docs/PROMISES.md"
OPENING, CLOSING = "([{", ")]}"

# what the result is called in every contract
RESULT = "result"


# ---- texts

def closing(text, at):
    """The place behind the bracket that closes the one at a place."""
    depth = 0
    for i in range(at, len(text)):
        depth += (text[i] in OPENING) - (text[i] in CLOSING)
        if depth == 0:
            return i + 1
    raise ValueError(f"no bracket closes {text[at:at + 40]!r}")


def parts(text, sign):
    """A text split at each sign that stands outside all brackets."""
    found, depth, start = [], 0, 0
    for i, letter in enumerate(text):
        depth += (letter in OPENING) - (letter in CLOSING)
        if letter == sign and depth == 0:
            found.append(text[start:i].strip())
            start = i + 1
    return found + [text[start:].strip()]


def bare(text):
    """A text without the round brackets around the whole of it."""
    text = text.strip()
    while text.startswith("(") and closing(text, 0) == len(text):
        text = text[1:-1].strip()
    return text


def arguments(text):
    """The arguments of an application, each without its brackets."""
    return [bare(part) for part in parts(" ".join(text.split()), " ")]


# ---- functions

class Function:
    """A public function: its names, the outcomes that it has, and the conjuncts of its contract, with the relations that its file knows."""

    def __init__(self, crate, module, name, known):
        self.short, self.long = f"{crate}::{name}", "::".join([crate, *module, name])
        self.known, self.conjuncts, self.outcomes, self.result = known, [], [], ""

    def read(self, text, at):
        """Reads its head, whose parameters begin at a place."""
        end = closing(text, at)
        self.outcomes = [f"{slice}.new" for slice in re.findall(r"(\w+): &(?:'\w+ )?mut\b", text[at:end])]
        if given := re.compile(r"\s*->\s*([^\n{]+)").match(text, end):
            end, self.result = given.end(), given[1].strip()
            self.outcomes.append(f"{RESULT}.now" if self.result.startswith("&") else RESULT)
        while clause := re.compile(r"\s*(requires|ensures)\*?(?: \w+)? (?=\{)").match(text, end):
            end = closing(text, clause.end())
            if clause[1] == "ensures":
                self.conjuncts += conjuncts_of(" ".join(text[clause.end() + 1:end - 1].split()))
        if not re.compile(r"\s*\{").match(text, end):
            sys.exit(f"{self.long}: no body behind its contract, but {text[end:end + 40]!r}")
        return self


def conjuncts_of(fact):
    """The conjuncts of a fact. An arrow, and a variable that there is, reach over all that stands behind them: such a fact is one."""
    fact = bare(fact)
    found = parts(fact, "×")
    if len(found) == 1 or len(parts(fact, "→")) > 1 or any(len(parts(bare(part), ":")) > 1 for part in found):
        return [fact]
    return [one for part in found for one in conjuncts_of(part)]


def relations_known(text):
    """The definitions of crates' specs that a source uses, by their names there, as crate/Module.name."""
    found = {}
    for crate, module, names in re.findall(r"^ghost use Rattle\.(\w+)\.specs\.([\w.]+)\.\{([^}]*)\};", text, re.M):
        for name, _, alias in (one.strip().partition(" as ") for one in names.split(",")):
            found[alias or name] = f"{crate}/{module}.{name}"
    return found


def sources():
    """Each source, with its crate and its module's path."""
    for path in sorted(ROOT.glob("crates/*/src/**/*.rt")):
        crate, inside = path.relative_to(ROOT / "crates").parts[0], path.relative_to(ROOT / "crates").parts[2:]
        module = [*inside[:-1], path.stem]
        yield path.read_text(), crate, [] if module in (["lib"], ["main"]) else module


def functions():
    for text, crate, module in sources():
        for head in re.finditer(r"^ *pub (?:extern \"C\" )?fn (\w+)(?:<[^>]*>)?(?=\()", text, re.M):
            yield Function(crate, module, head[1], relations_known(text)).read(text, head.end())


def structs():
    """The fields of the structs of each name."""
    found = {}
    for text, _, _ in sources():
        for name, inside in re.findall(r"\bstruct (\w+)[^{;]*\{(.*?)\}", text, re.S):
            found.setdefault(name, set()).update(re.findall(r"(\w+):", inside))
    return found


# ---- what a contract gives

def mentioned(text, outcomes):
    """The outcomes that a text speaks of."""
    return {one for one in outcomes if re.search(rf"(?<![\w.'-]){re.escape(one)}(?![\w'-])", text)}


def given_by_relation(fact, relations, known, open_ones):
    """The arguments that a relation of the table determines, where all others speak of no open outcome."""
    head, *given = arguments(fact)
    pattern = relations.get(known.get(head), [])
    if len(pattern) != len(given) or any(mark == "_" and mentioned(one, open_ones) for mark, one in zip(pattern, given)):
        return set()
    return {one for mark, one in zip(pattern, given) if mark != "_"}


def given_by(conjunct, relations, known, open_ones):
    """What a conjunct gives. An equation whose right side speaks of no open outcome gives its left side; of a case of an enum there, and of a
    function that is in the table, what it is applied to."""
    sides = parts(conjunct, "≡")
    if len(sides) == 1:
        return given_by_relation(conjunct, relations, known, open_ones)
    if len(sides) > 2 or mentioned(sides[1], open_ones):
        return set()
    left = bare(sides[0])
    return {re.sub(r"^[A-Z]\w* (?=\w+$)", "", left)} | given_by_relation(left, relations, known, open_ones)


def left_open(one, relations, fields):
    """The outcomes of a function that its contract does not give."""
    still, given = set(one.outcomes), set()
    of_struct = {f"{RESULT}.{field}" for field in fields.get(re.sub(r"<.*>", "", one.result), [])}
    while True:
        for conjunct in one.conjuncts:
            if len(parts(conjunct, "→")) == 1:
                given |= given_by(conjunct, relations, one.known, still)
        if of_struct and of_struct <= given:
            given.add(RESULT)
        if not still & given:
            return [outcome for outcome in one.outcomes if outcome in still]
        still -= given


def in_words(outcomes):
    return ", ".join("its result" if one in (RESULT, f"{RESULT}.now") else f"`{one.partition('.')[0]}`" for one in outcomes)


# ---- the page

def rows(heading):
    """The cells of the rows of the table whose first column has this heading."""
    table = re.search(rf"^\| {heading} \|.*\n\|[-|]+\n((?:\|.*\n)+)", PAGE.read_text(), re.M)
    return [[cell.strip() for cell in row.strip("|").split(" | ")] for row in table[1].splitlines()] if table else []


def relations_listed():
    """The relations of the table, each with a mark for each argument, `_` for what is given, and its laws."""
    for cells in rows("relation"):
        name, *marks = cells[0].strip("` ").split()
        yield name, marks, re.findall(r"`([^`]+)`", cells[-1])


def functions_listed():
    return [name for cells in rows("function") for name in re.findall(r"`(\w+(?:::\w+)+)`", cells[0])]


# ---- the test

def laws():
    """What each law says, of those that have one name together."""
    found = {}
    for path in ROOT.glob("crates/*/proofs/**/*.antt"):
        for _, name, says in re.findall(r"^( *)pub (\S+) :(.*\n(?:\1 +.*\n)*)", path.read_text(), re.M):
            found[name] = found.get(name, "") + says
    return found


def is_relation(name):
    crate, module, short = re.fullmatch(r"(\w+)/([\w.]+)\.(\w+)", name).groups()
    specs = ROOT / "crates" / crate / "specs" / f"{module.replace('.', '/')}.antt"
    return specs.exists() and re.search(rf"^ *(?:unfoldable |abbrev )?pub (?:data |record )?{short}\b", specs.read_text(), re.M)


def faults_of_relations():
    """What is wrong in the table of relations; a law that two outcomes are equal speaks of the relation twice."""
    known = laws()
    for name, _, cited in relations_listed():
        if not is_relation(name):
            yield f"{PAGE.name}: {name} is no relation"
        if not cited:
            yield f"{PAGE.name}: {name} has no law"
        for law in cited:
            if len(re.findall(rf"\b{name.rsplit('.', 1)[1]}\b", known.get(law, ""))) < 2:
                yield f"{PAGE.name}: {law} is no law of two outcomes of {name}"


def faults_of_functions(opened):
    """What is wrong between the functions, each with what it leaves open, and the table of functions."""
    listed, covered = functions_listed(), set()
    for name in sorted(set(listed)):
        meant = [one for one in opened if name in (one.short, one.long)]
        covered |= set(meant)
        if len(meant) != 1:
            yield f"{PAGE.name}: {name} is {'one of ' + ', '.join(one.long for one in meant) if meant else 'no public function'}"
        elif not opened[meant[0]]:
            yield f"{PAGE.name}: {name} leaves nothing open"
        if listed.count(name) > 1:
            yield f"{PAGE.name}: {name} is there more than once"
    for one, outcomes in opened.items():
        if outcomes and one not in covered:
            yield f"{one.long}: its contract does not give {in_words(outcomes)}, and {PAGE.name} does not say why"


def main():
    relations = {name: marks for name, marks, _ in relations_listed()}
    fields = structs()
    opened = {one: left_open(one, relations, fields) for one in functions()}
    if sys.argv[1:] == ["--open"]:
        for one, outcomes in opened.items():
            if outcomes:
                print(f"{one.long}: {in_words(outcomes)}")
        return
    faults = [*faults_of_relations(), *faults_of_functions(opened)]
    for fault in faults:
        print(fault)
    sys.exit(1 if faults else 0)


if __name__ == "__main__":
    main()
