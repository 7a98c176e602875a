#!/usr/bin/env python3
"""Writes the proofs of crate fields' tables: proofs/row/NAME/Answers.antt for each function of src/row.rt that is one `match` from numbers to
subfields or from formats to rows. Each arm is proved by its key; the last arm, of no number, is shut out by what the function requires, which
Rattle sees without an answer.

    tools/rows.py            write the files
    tools/rows.py --check    write nothing; exit 1 when a file is not as it would be written
"""
import pathlib
import re
import sys

NUMBERS = """use mathlib.Core.Path.{{sym, ap}}
use Prim.Native.Nat.{{ℕ}}
use lib.ListN.{{get_or}}
use Rattle.fields.specs.Table.{{head_of, tuple_of}}
use Rattle.fields.specs.Rows.{{table}}
use Rattle.fields.specs.declared.Sub.TheVariants.{{Text}}
use Rattle.fields.proofs.row.{name}.Goals as goal
"""

FORMATS = """use mathlib.Core.Path.{{sym, ap}}
use Rattle.fields.specs.Rows.{{shape_of}}
use Rattle.fields.proofs.row.{name}.Goals as goal
"""


def answer(arm, proof, unfolding=""):
    """The lines that answer the goal of an arm."""
    goal = f"returns-in-{arm}"
    return f"\npub {goal} : goal.{goal}\n{unfolding}{goal} c = {proof}\n"


def numbers(name, keys):
    """The answers for a match on numbers that follow one another, and a last arm."""
    text = NUMBERS.format(name=name)
    for key in keys:
        text += answer(key, f"ap (λ (j : ℕ). get_or table j Text) (sym c.in-{key}.is)", "unfolding table head_of tuple_of\n")
    return text


def formats(name, arms):
    """The answers for a match on all formats."""
    text = FORMATS.format(name=name)
    for arm in arms:
        text += answer(arm, f"ap shape_of (sym c.in-{arm}.is)")
    return text


def proofs(source):
    """The name and the proof of each table."""
    for name, body in re.findall(r"^(?:pub )?fn (\w+)\(k: \w+\)(.*?)^}", source, re.M | re.S):
        keys = [int(k) for k in re.findall(r"^ +(\d+) =>", body, re.M)]
        arms = re.findall(r"^ +Format::(\w+) =>", body, re.M)
        if keys:
            assert keys == list(range(keys[0], keys[0] + len(keys))), name
            yield name, numbers(name, keys)
        elif arms:
            yield name, formats(name, arms)


def main():
    check = sys.argv[1:] == ["--check"]
    if sys.argv[1:] and not check:
        sys.exit(__doc__)
    crate = pathlib.Path(__file__).resolve().parent.parent / "crates" / "fields"
    stale = []
    for name, text in proofs((crate / "src" / "row.rt").read_text()):
        path = crate / "proofs" / "row" / name / "Answers.antt"
        if path.exists() and path.read_text() == text:
            continue
        stale.append(path.relative_to(crate))
        if not check:
            path.parent.mkdir(parents=True, exist_ok=True)
            path.write_text(text)
    for path in stale:
        print("stale:" if check else "written:", path)
    sys.exit(1 if check and stale else 0)


if __name__ == "__main__":
    main()
