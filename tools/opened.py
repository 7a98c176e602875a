#!/usr/bin/env python3
"""Writes specs/Opened.antt of every crate whose specs/Lib.antt declares it: one definition, `opened`, that unfolds all of the crate's
definitions, so that a computed sample names one word a crate.

    tools/opened.py            write the files
    tools/opened.py --check    write nothing; exit 1 when a file is not as it would be written
"""
import pathlib
import re
import sys

HEAD = "-- Every definition of the crate unfolds where `opened` does: for computed samples. Written by tools/opened.py.\n"


def modules(specs):
    """The modules that specs/Lib.antt declares, in its order."""
    return re.findall(r"^(?:pub )?mod (\S+)", (specs / "Lib.antt").read_text(), re.M)


def definitions(path):
    """The names that a module defines `unfoldable pub`."""
    return re.findall(r"^unfoldable pub (\S+)", path.read_text(), re.M)


def opened(crate, specs):
    """The text of the crate's Opened.antt."""
    uses, names = [], []
    for module in modules(specs):
        if module == "Opened":
            continue
        items = []
        for name in definitions(specs / (module + ".antt")):
            alias = name if name not in names else module.lower() + "_" + name
            items.append(name if alias == name else f"{name} as {alias}")
            names.append(alias)
        if items:
            uses.append(f"use Rattle.{crate}.specs.{module}.{{{', '.join(items)}}}\n")
    rest = "\n-- all of them\nunfoldable pub opened : Unit {0}\nunfolding " + " ".join(names) + "\nopened = tt\n"
    return HEAD + "".join(uses) + rest


def main():
    check = sys.argv[1:] == ["--check"]
    if sys.argv[1:] and not check:
        sys.exit(__doc__)
    root = pathlib.Path(__file__).resolve().parent.parent
    stale = []
    for lib in sorted(root.glob("crates/*/specs/Lib.antt")):
        specs = lib.parent
        if "Opened" not in modules(specs):
            continue
        text, path = opened(specs.parent.name, specs), specs / "Opened.antt"
        if path.exists() and path.read_text() == text:
            continue
        stale.append(path.relative_to(root))
        if not check:
            path.write_text(text)
    for path in stale:
        print("stale:" if check else "written:", path)
    sys.exit(1 if check and stale else 0)


if __name__ == "__main__":
    main()
