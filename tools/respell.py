#!/usr/bin/env python3
"""Brings this repository's own definitions and lemmas to the spelling of today's Rattle, once, after port.py.

usage: tools/respell.py [--check]      at the top of the repository

What specs/ and proofs/ declare in camel case (`tallyAt`) or with dashes (`demand-one`, the ruleset `text-turn`) gets snake case (`tally_at`,
`demand_one`, `text_turn`), there, in contracts and in must-fail edits, and so do the names that a file gives to what it brings. A law that would have
the name of a definition ends in `_lem`. Types and modules keep their capitals; names of Rust, of goals and of the library stay. A file that brings
a name of the same spelling from the library keeps it. Names that could fall together are printed.
"""
import collections
import functools
import glob
import re
import sys

WORD = re.compile(r"""(?<![^\s(){}.;,@"«»\[\]`])--[^\n]*|"(?:[^"\\\n]|\\.)*"|[^\s(){}.;,@"«»\[\]`:]+""")
DECLARED = re.compile(r"^( *)(?:(?:abbrev|unfoldable|opaque|pub|ruleset) )*([^\s:(){}]+) (?=[({:]|$)", re.M)
RULESET = re.compile(r"^ *(?:pub )?ruleset ([^\s:(){}]+)", re.M)
IMPORT = re.compile(r"^(?:ghost )?(?:pub )?use ([^\s{;]+?)\.?\{([^}]*)\}", re.M)
TEXT = re.compile(r"`[^`\n]+`")
# Names that Rattle makes, or that a proof of one function alone declares as its answers.
MADE = re.compile(r"\S+-spec$")


def read(path):
    with open(path, encoding="utf-8") as f:
        return f.read()


def snake(name):
    name = re.sub(r"(?<=[a-z0-9])[A-Z]", lambda m: "_" + m.group(0).lower(), name)
    return name.replace("-", "_")


def turns(name):
    return name[0].islower() and (re.search(r"[a-z0-9][A-Z]", name) or "-" in name) and not MADE.match(name)


def answers(text):
    """The names that a Proof.antt declares for Rattle's goals."""
    return set(re.findall(r"^(?:abbrev |pub )*(\S+) : (?:tie|goal)\.", text, re.M))


def renames():
    names, defined, laws = {}, set(), set()
    for path in sorted(glob.glob("crates/*/specs/**/*.antt", recursive=True) + glob.glob("crates/*/proofs/**/*.antt", recursive=True)):
        text = read(path)
        goals = answers(text)
        for name in RULESET.findall(text):
            if turns(name):
                names[name] = snake(name)
        for indent, name in DECLARED.findall(text):
            if name in goals or name in ("mod", "unfolding"):
                continue
            if turns(name):
                names[name] = snake(name)
            elif "/specs/" in path:
                defined.add(name)
            elif not indent:
                laws.add(name)
    # of a function and a lemma that would have its name, the lemma gets another
    defined |= {new for old, new in names.items() if "-" not in old}
    for old, new in names.items():
        if "-" in old and new in defined | laws:
            names[old] = new + "_lem"
    laws -= {f for path in glob.glob("crates/*/src/*.rt") for f in re.findall(r"\bfn (\w+)", read(path))}
    return names | {law: law + "_lem" for law in laws & {new for old, new in names.items() if "-" not in old}}


@functools.lru_cache(maxsize=None)
def foreign(text):
    """The names that a file brings from outside this repository."""
    found = set()
    for module, items in IMPORT.findall(text):
        if not module.startswith("Rattle.") or module.startswith(("Rattle.std", "Rattle.core")):
            found |= {it.split(" as ")[0].strip() for it in items.split(",")}
    return found


def aliases(text):
    """The names that a file alone gives to what it brings."""
    items = [it for _, each in IMPORT.findall(text) for it in each.split(",") if " as " in it]
    items += re.findall(r"^use [^{\n]* as [^\s{]+$", text, re.M)
    given = {it.split(" as ")[1].strip() for it in items}
    return {it: snake(it) for it in given if turns(it)}


def turned(text, names):
    def word(m):
        it = m.group(0)
        if it.startswith("--"):
            return TEXT.sub(lambda s: turned(s.group(0), names), it)
        if it.startswith('"'):
            return it
        return names.get(it, it)

    return WORD.sub(word, text)


def clauses(text):
    """The stretches of a source file that are antt: `ghost use` items, and the braces of clauses and ghost items."""
    at = 0
    for m in re.finditer(r"ghost use [^;]*;|(?:requires|ensures|ghost)\*?(?: \w+)?(?::)? ?(?= *\{)", text):
        if m.start() < at:
            continue
        end = m.end()
        if not m.group(0).startswith("ghost use"):
            depth = 0
            for i in range(text.index("{", m.end()), len(text)):
                depth += {"{": 1, "}": -1}.get(text[i], 0)
                if depth == 0:
                    end = i + 1
                    break
        yield m.start(), end
        at = end


def source(text, names):
    out, at = [], 0
    for start, end in clauses(text):
        out += [comments(text[at:start], names), turned(text[start:end], names)]
        at = end
    return "".join(out) + comments(text[at:], names)


def comments(text, names):
    return re.sub(r"//[^\n]*", lambda m: TEXT.sub(lambda s: turned(s.group(0), names), m.group(0)), text)


def edit(text):
    """A must-fail edit of a definition: its names, projections and primes."""
    if "file: specs/" not in text:
        return text

    def line(m):
        it = re.sub(r"(?<![^\s(){}.;,])[a-z][A-Za-z0-9]*[A-Z][A-Za-z0-9]*", lambda n: snake(n.group(0)), m.group(0)).replace("′", "'")
        before = None
        while it != before:
            before = it
            it = re.sub(r"\(([\w.']+) \.(\w+)\)", r"\1.\2", it)
            it = re.sub(r"\(([\w.']+\.\w+) \.(\w+)\)", r"\1.\2", it)
        return re.sub(r"(?<=[\w')]) \.(?=\w)", ".", it).replace("tuple_at ts k.atix", "(tuple_at ts k).atix")

    return re.sub(r"^(?:old|new): .*$", line, text, flags=re.M)


def main():
    check = "--check" in sys.argv
    names = renames()
    together = collections.defaultdict(set)
    for old, new in names.items():
        together[new].add(old)
    bad = [f"two names fall together: {sorted(olds)} -> {new}" for new, olds in sorted(together.items()) if len(olds) > 1]
    changed = {}
    for path in sorted(glob.glob("crates/**/*.antt", recursive=True) + glob.glob("crates/**/*.rt", recursive=True)):
        text = read(path)
        own = {k: v for k, v in names.items() if k not in foreign(text)} | aliases(text)
        words = set(WORD.findall(text)) if path.endswith(".antt") else {w for s, e in clauses(text) for w in WORD.findall(text[s:e])}
        for old in words & own.keys():
            if own[old] in words:
                bad.append(f"{path}: {old} becomes {own[old]}, which stands there")
        changed[path] = turned(text, own) if path.endswith(".antt") else source(text, own)
    for path in sorted(glob.glob("crates/*/must-fail/*.edit")):
        changed[path] = edit(read(path))
    for line in bad:
        print(line)
    print(f"{len(names)} names")
    if check:
        return 0
    for path, text in changed.items():
        if text != read(path):
            with open(path, "w", encoding="utf-8") as f:
                f.write(text)
    return 0


sys.exit(main())
