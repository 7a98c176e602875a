#!/usr/bin/env python3
"""Counts the places in crates/*/src that an older form of the language left: for docs/DESIGN-PASS.md.

    tools/places.py [COMMIT]           the counts, of the work tree or of a commit
    tools/places.py [COMMIT] --list    and every place, FILE:LINE and what stands there

What counts is found by shape, so that the same command counts before and after; the page says what each row is.
"""
import collections
import pathlib
import re
import subprocess
import sys

FN = re.compile(r"^(\s*)((?:pub(?:\([a-z]+\))? )?(?:unsafe )?(?:extern \"C\" )?)fn (\w+)", re.M)


def sources(commit):
    """Path and text of each source file."""
    if commit is None:
        for path in sorted(pathlib.Path("crates").glob("*/src/**/*.rt")):
            yield str(path), path.read_text()
        return
    names = subprocess.run(["git", "ls-tree", "-r", "--name-only", commit, "crates"], capture_output=True, text=True, check=True).stdout
    for name in names.split("\n"):
        if re.match(r"crates/[^/]+/src/.*\.rt$", name):
            yield name, subprocess.run(["git", "show", f"{commit}:{name}"], capture_output=True, text=True, check=True).stdout


def line_of(text, at):
    return text.count("\n", 0, at) + 1


def closing(text, at):
    """The place behind the bracket that closes the one at `at`."""
    pairs = {"(": ")", "{": "}", "[": "]"}
    depth, first, last = 0, text[at], pairs[text[at]]
    while at < len(text):
        if text.startswith("//", at):
            at = text.index("\n", at)
        depth += (text[at] == first) - (text[at] == last)
        at += 1
        if depth == 0:
            return at
    return at


class Function:
    """A function: its name, parameters, result, `requires`, body, and the comment above it."""

    def __init__(self, path, text, match):
        self.path, self.line, self.name = path, line_of(text, match.start()), match.group(3)
        start = text.index("(", match.end())
        stop = closing(text, start)
        self.params = [p.strip() for p in re.split(r",\s*(?![^<\[(]*[>\])])", text[start + 1:stop - 1]) if p.strip()]
        self.requires = []
        at = stop
        while True:
            brace = text.index("{", at)
            semi = text.find(";", at)
            if 0 <= semi < brace:
                self.body = ""
                break
            head = text[at:brace]
            if at == stop:
                result = re.search(r"->\s*(.*?)(?=\s*(?:requires|ensures|$))", head, re.S)
                self.result = result.group(1).strip() if result else ""
            end = closing(text, brace)
            clause = re.search(r"(requires|ensures)(?: \w+)?\s*$", head)
            if clause is None:
                self.body = text[brace:end]
                break
            if clause.group(1) == "requires":
                self.requires.append(text[brace + 1:end - 1].strip())
            at = end
        above = text[:match.start()].rstrip("\n").split("\n")
        comment = []
        while above and (above[-1].startswith("//") or above[-1].startswith("#[")):
            comment.insert(0, above.pop())
        self.comment = " ".join(comment)


def enums(files):
    """Own enums of two variants of which one or both hold values: the shape of Option or Result."""
    for path, text in files:
        for match in re.finditer(r"^pub enum (\w+) \{|^enum (\w+) \{", text, re.M):
            start = text.index("{", match.start())
            body = re.sub(r"//[^\n]*", "", text[start + 1:closing(text, start) - 1])
            variants, depth, last = [], 0, ""
            for sign in body:
                depth += (sign in "({") - (sign in ")}")
                if sign == "," and depth == 0:
                    variants.append(last.strip())
                    last = ""
                else:
                    last += sign
            variants = [v for v in variants + [last.strip()] if v]
            if len(variants) == 2 and any(re.search(r"[({]", v) for v in variants):
                yield path, line_of(text, match.start()), match.group(0)


def sentinels(functions):
    """Numbers that say none: the comment says which number stands for it."""
    says = re.compile(r"(?:[;,] |: )(?:0|1|n|e|m|n \+ 1|[0-9][0-9,]+|[^;.]{0,30}'s (?:length|end)|no place)[^;.]{0,12} where|\b0 where\b|-- 0 where")
    for f in functions:
        if re.match(r"(usize|u64|u32|u16|u8)$", f.result) and says.search(f.comment):
            yield f.path, f.line, f"fn {f.name} -> {f.result}"


def codes(files):
    """Refusals and kinds told by bare numbers: the number of a refusal as a literal."""
    for path, text in files:
        code = re.sub(r"//[^\n]*", lambda m: " " * len(m.group(0)), text)
        for match in re.finditer(r"\bnumber: [1-9]\d*|\b(?:refuse|refused|plain)\([1-9]\d*|Refused\(\d+|Wrong\(\d+|Stopped\(\d+|Stop\(\d+|Not\(\d+", code):
            yield path, line_of(text, match.start()), match.group(0)


def loops(files):
    """Loops that count by hand: a `while` or a `loop` in which a place or a number is stepped by a constant."""
    for path, text in files:
        for match in re.finditer(r"^( *)(while|loop)\b([^\n]*)\{$", text, re.M):
            start = text.index("{", match.end() - 1)
            body = text[start:closing(text, start)]
            stepped = set(re.findall(r"\b(\w+) (?:\+|-)= (?:1|8|15|64|gap)\b", body))
            tested = set(re.findall(r"\w+", match.group(3)))
            kind = "counts" if stepped & tested else "walks"
            yield path, line_of(text, match.start()), f"{kind}: {match.group(0).strip()}"


def by_hand(functions):
    """Equality, order, conversion and printing written as functions of one's own."""
    name = re.compile(r"^(wide|larger|top_with|digit|same_\w+|equal_\w+|le8|le16|le32|signed|put_decimal|put_little_endian|ascended_to|is_same|one_if)$")
    for f in functions:
        if name.match(f.name):
            yield f.path, f.line, f"fn {f.name}"


def facts(functions):
    """A condition that stands in the `requires` of three or more functions of one crate, by crate."""
    seen = collections.defaultdict(set)
    for f in functions:
        crate = f.path.split("/")[1]
        for clause in f.requires:
            for fact in re.split(r" × (?![^(]*\))", re.sub(r"\s+", " ", clause)):
                seen[crate, re.sub(r"\b(old|now)\b", "now", fact.strip("() "))].add(f.name)
    for (crate, fact), names in sorted(seen.items()):
        if len(names) >= 3:
            yield f"crates/{crate}", 0, f"{len(names)} functions: {fact[:110]}"


def travelling(functions):
    """Three or more parameters that stand side by side in three or more functions of one crate, the longest such runs."""
    runs = collections.defaultdict(set)
    for f in functions:
        crate = f.path.split("/")[1]
        for i in range(len(f.params)):
            for j in range(i + 3, len(f.params) + 1):
                runs[crate, tuple(f.params[i:j])].add((f.path, f.name))
    often = {k: v for k, v in runs.items() if len(v) >= 3}
    for (crate, run), names in sorted(often.items()):
        wider = any(c == crate and r != run and len(r) > len(run) and v == names and any(r[k:k + len(run)] == run for k in range(len(r))) for (c, r), v in often.items())
        if not wider:
            yield f"crates/{crate}", 0, f"{len(names)} functions: {', '.join(run)}"


def lengths(functions):
    """A buffer with a count of what it holds beside it: `w: &[u8], n: usize` and the like."""
    for f in functions:
        for one, two in zip(f.params, f.params[1:]):
            if re.match(r"\w+: &(mut )?\[u\d+\]$", one) and re.match(r"(n|m|used): usize$", two):
                yield f.path, f.line, f"fn {f.name}: {one}, {two}"


def switches(functions):
    """A flag that chooses between two ways: a `bool` parameter."""
    for f in functions:
        for p in f.params:
            if re.match(r"(mut )?\w+: bool$", p):
                yield f.path, f.line, f"fn {f.name}: {p}"


def main():
    args = [a for a in sys.argv[1:] if a != "--list"]
    files = list(sources(args[0] if args else None))
    functions = [Function(path, text, m) for path, text in files for m in FN.finditer(text)]
    rows = [
        ("1  own enums of the shape of Option or Result", enums(files)),
        ("1  numbers that say none", sentinels(functions)),
        ("1  refusals by a literal number", codes(files)),
        ("3  loops by hand", loops(files)),
        ("4  equality, order, conversion, printing by hand", by_hand(functions)),
        ("5  facts in the contracts of three or more functions", facts(functions)),
        ("5  parameters that travel together", travelling(functions)),
        ("6  buffers with a length beside them", lengths(functions)),
        ("7  flags that choose a way", switches(functions)),
    ]
    for name, found in rows:
        found = list(found)
        print(f"{len(found):4}  {name}")
        if name.startswith("3"):
            print(f"{sum(1 for p in found if p[2].startswith('counts')):4}     of these count an index")
        if "--list" in sys.argv:
            for path, line, what in found:
                print(f"          {path}:{line}: {what}" if line else f"          {path}: {what}")


main()
