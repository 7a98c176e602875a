#!/usr/bin/env python3
"""Tests two pages. docs/RULES.md and docs/PROMISES.md: every name `crate/Module.definition` on them is a definition of crates/crate/specs/Module.antt.
docs/RULES.md: every point of docs/DECISIONS.md that has a label is in its last table. docs/PROMISES.md: every edit that must fail is on it, and what
a row says it is shown by is such an edit. Exit 1 where that is not so."""
import pathlib
import re
import sys

ROOT = pathlib.Path(__file__).resolve().parent.parent


def defined(path):
    """The names that a module declares `pub`."""
    if not path.exists():
        return set()
    return set(re.findall(r"^(?:unfoldable |abbrev )?pub (?:data |record )?(\S+)", path.read_text(), re.M))


def promised():
    """What is wrong between docs/PROMISES.md and the edits that must fail."""
    text = (ROOT / "docs/PROMISES.md").read_text()
    edits = {path.stem for path in ROOT.glob("crates/*/must-fail/*.edit")}
    for name in sorted(edits - set(re.findall(r"`(\w+)`", text))):
        yield f"docs/PROMISES.md: the edit {name} is not on it"
    for table in re.findall(r"^\|.*shown by \|\n((?:\|.*\n)+)", text, re.M):
        for name in re.findall(r"`(\w+)`", "".join(row.rsplit("|", 2)[1] for row in table.splitlines())):
            if name not in edits:
                yield f"docs/PROMISES.md: {name} is no edit that must fail"


def named(page):
    """The names on a page that are no definition."""
    for crate, module, name in sorted(set(re.findall(r"`(?!docs/)([a-z]+)/([A-Z]\w*)\.(\w+)`", (ROOT / page).read_text()))):
        if name not in defined(ROOT / "crates" / crate / "specs" / f"{module}.antt"):
            yield f"{page}: {crate}/{module}.{name} is no definition"


def main():
    text = (ROOT / "docs/RULES.md").read_text()
    faults = [*promised(), *named("docs/RULES.md"), *named("docs/PROMISES.md")]
    decisions = ROOT / "docs/DECISIONS.md"
    if decisions.exists():
        mapped = set(re.findall(r"^\| ([A-Z]\d+) \|", text, re.M))
        for label in re.findall(r"^\| ([A-Z]\d+) \|", decisions.read_text(), re.M):
            if label not in mapped:
                faults.append(f"docs/RULES.md: point {label} of docs/DECISIONS.md is not on it")
    for fault in faults:
        print(fault)
    sys.exit(1 if faults else 0)


if __name__ == "__main__":
    main()
