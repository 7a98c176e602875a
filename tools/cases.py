#!/usr/bin/env python3
"""Turns framed cases and the answers of the second program into theorems: that the definitions of crates/rules answer alike.

    tools/cases.py CASES ANSWERS                       write the kept cases into crates/cases/proofs
    tools/cases.py CASES ANSWERS --all --scratch DIR   make DIR a repository with every case that is small enough, for a run by hand:
                                                       cd DIR/crates/cases && rt check

    tools/cases.py CASES ANSWERS --back                write the kept cases and their answers back into files of these names, so that
                                                       the second program can be asked again

    --keep N        how many cases are kept, spread over operations and refusals (default 200)
    --largest N     leave out a case whose dataset and update have more bytes together (default 1200)
    --room N        leave out a case whose output slice has more bytes (default 20000)
    --chunk N       how many cases a theorem has (default 10); with 1 the name of a refused theorem tells the case
    --modules N     how many theorems a module has (default 10)

The kept ones are made so:

    second generate --seed 1 --count 6000 --operations 1,2,3,4 CASES && second answer CASES > ANSWERS &&
    tools/cases.py CASES ANSWERS && cd crates/cases && rt fmt

CASES is as `second generate` writes it, ANSWERS what `second answer CASES` prints: one line a case. A case becomes its bytes, each
file one number, and its answer as numbers: number, file, record, length, count and the hash of the output slice. That the
workspace is zero is not computed (the definition says it of every call): an answer that says otherwise is refused here.
"""
import argparse
import pathlib
import re
import shutil
import struct
import sys

ROOT = pathlib.Path(__file__).resolve().parent.parent
READ, WRITE, UPDATE, LISTING = 1, 2, 3, 4


class Case:
    """One framed case and its answer."""

    def __init__(self, number, operation, dataset, update, room, work, answer):
        self.number, self.operation = number, operation
        self.dataset, self.update, self.room, self.work = dataset, update, room, work
        words = answer.split()
        if operation == LISTING:
            if words[0] != "listing":
                sys.exit(f"case {number}: {answer!r} answers no listing")
            self.want = [int(words[1]), int(words[2], 16)]
            self.kind = (operation, 0)
        else:
            if words[6] != "1":
                sys.exit(f"case {number}: the workspace is not zero: {answer!r}")
            self.want = [int(w) for w in words[:5]] + [int(words[5], 16)]
            self.kind = (operation, self.want[0], self.want[1])


def framed(cases, answers):
    """The cases of a file, each with its line."""
    data, lines, at = cases.read_bytes(), answers.read_text().splitlines(), 0
    found = []
    while at < len(data):
        operation, d, u, room, work = struct.unpack_from("<BIIII", data, at)
        at += 17
        dataset, update = data[at:at + d], data[at + d:at + d + u]
        at += d + u
        if at > len(data):
            sys.exit(f"case {len(found) + 1} is no whole case")
        if len(found) == len(lines):
            sys.exit(f"case {len(found) + 1} has no answer")
        found.append(Case(len(found) + 1, operation, dataset, update, room, work, lines[len(found)]))
    if len(found) != len(lines):
        sys.exit(f"{len(found)} cases, but {len(lines)} answers")
    return found


def spread(cases, keep):
    """So many of the cases: in turn one of each operation and refusal."""
    kinds = {}
    for case in cases:
        kinds.setdefault(case.kind, []).append(case)
    kept = []
    while len(kept) < keep and any(kinds.values()):
        for kind in sorted(kinds):
            if kinds[kind] and len(kept) < keep:
                kept.append(kinds[kind].pop(0))
    return sorted(kept, key=lambda case: case.number)


class Module:
    """The text of one module: byte strings, each once, and theorems."""

    def __init__(self, title):
        self.title, self.files, self.theorems, self.calls = title, {}, [], set()

    def file(self, data):
        """The name of a byte string."""
        if not data:
            return "[]"
        return self.files.setdefault(data, f"f{len(self.files) + 1}")

    def case(self, c):
        want = " ∷ ".join([str(n) for n in c.want[:-1]] + [hex(c.want[-1]), "[]"])
        words = {
            READ: ["reads", self.file(c.dataset)],
            WRITE: ["writes", self.file(c.dataset), str(c.room)],
            UPDATE: ["updates", self.file(c.dataset), self.file(c.update), str(c.room), str(c.work)],
            LISTING: ["lists", self.file(c.dataset)],
        }[c.operation]
        self.calls.add(words[0])
        return " ".join(words) + f" ({want})"

    def theorem(self, cases):
        name = f"cases_{cases[0].number}" if len(cases) == 1 else f"cases_{cases[0].number}_to_{cases[-1].number}"
        rows = "".join(f"    {self.case(c)}\n    ∷ " if c is cases[0] else f"{self.case(c)}\n    ∷ " for c in cases)
        self.theorems.append(f"-- cases {cases[0].number} to {cases[-1].number}\n{name} : all (\n{rows}[]) ≡ true\nunfolding cases_opened\n{name} = refl\n")

    def text(self):
        head = f"-- {self.title} Written by tools/cases.py. Assumes nothing.\n"
        calls = [word for word in ("reads", "writes", "updates", "lists") if word in self.calls]
        uses = (
            "use mathlib.Core.Path.{◌≡◌, refl}\nuse mathlib.Core.Bool.{true}\nuse mathlib.Core.List.{List, [], ◌∷◌}\n"
            "use Prim.Native.Nat.{ℕ}\n"
            "use Rattle.fields.specs.Bytes.{bytes}\n"
            f"use Rattle.cases.proofs.Case.{{{', '.join(calls)}, all, cases_opened}}\n"
        )
        files = "".join(
            f"\nabbrev {name} : List ℕ\n{name} = bytes {len(data)} {hex(int.from_bytes(data, 'little'))}\n" for data, name in self.files.items()
        )
        return head + uses + files + "\n" + "\n".join(self.theorems)


def written(cases, chunk, per_module, folder):
    """The modules of the cases, and Lib.antt."""
    theorems = [cases[i:i + chunk] for i in range(0, len(cases), chunk)]
    names = []
    for i in range(0, len(theorems), per_module):
        module = Module("Cases of the second program.")
        for group in theorems[i:i + per_module]:
            module.theorem(group)
        names.append(f"Cases{len(names) + 1}")
        (folder / f"{names[-1]}.antt").write_text(module.text())
    (folder / "Lib.antt").write_text("".join(f"pub mod {n}\n" for n in ["Case"] + names))
    for old in folder.glob("Cases*.antt"):
        if old.stem not in names:
            old.unlink()


def scratch(folder):
    """A repository of its own over the project's definitions; its folder of proofs."""
    crates = folder / "crates"
    crates.mkdir(parents=True, exist_ok=True)
    lines = []
    for line in (ROOT / "crates.txt").read_text().splitlines():
        name = line.split(":")[0].strip()
        if name in ("base", "skeleton", "fields", "forest", "rules", "cases"):
            lines.append(line + "\n")
            if name != "cases":
                shutil.copytree(ROOT / "crates" / name, crates / name, ignore=shutil.ignore_patterns("out"), dirs_exist_ok=True)
    (folder / "crates.txt").write_text("".join(lines))
    for part in ("src", "proofs"):
        (crates / "cases" / part).mkdir(parents=True, exist_ok=True)
    (crates / "cases/src/lib.rt").write_text((ROOT / "crates/cases/src/lib.rt").read_text())
    (crates / "cases/proofs/Case.antt").write_text((ROOT / "crates/cases/proofs/Case.antt").read_text())
    return crates / "cases/proofs"


def back(cases, answers):
    """The kept cases as a framed file, and their answers as lines; how many there are."""
    frames, lines = [], []
    for path in sorted((ROOT / "crates/cases/proofs").glob("Cases*.antt")):
        text = path.read_text()
        files = {"[]": b""}
        for name, size, number in re.findall(r"^(f\d+) = bytes (\d+) (0x[0-9a-f]+)", text, re.M):
            files[name] = int(number, 16).to_bytes(int(size), "little")
        for word, given, want in re.findall(r"\b(reads|writes|updates|lists)((?: (?:f\d+|\[\]|\d+))+) \(([^()]*)\)", text):
            given, want = given.split(), [int(n, 0) for n in want.split(" ∷ ")[:-1]]
            operation = {"reads": READ, "writes": WRITE, "updates": UPDATE, "lists": LISTING}[word]
            parts, numbers = [files[g] for g in given if g in files], [int(g) for g in given if g not in files]
            dataset, update = parts[0], parts[1] if len(parts) > 1 else b""
            room, work = (numbers + [0, 0])[:2]
            frames.append(struct.pack("<BIIII", operation, len(dataset), len(update), room, work) + dataset + update)
            if operation == LISTING:
                lines.append(f"listing {want[0]} {want[1]:016x}\n")
            else:
                lines.append(" ".join(str(n) for n in want[:5]) + f" {want[5]:016x} 1\n")
    cases.write_bytes(b"".join(frames))
    answers.write_text("".join(lines))
    return len(frames)


def main():
    options = argparse.ArgumentParser(description=__doc__, formatter_class=argparse.RawDescriptionHelpFormatter)
    options.add_argument("cases", type=pathlib.Path)
    options.add_argument("answers", type=pathlib.Path)
    options.add_argument("--all", action="store_true")
    options.add_argument("--scratch", type=pathlib.Path)
    options.add_argument("--keep", type=int, default=200)
    options.add_argument("--largest", type=int, default=1200)
    options.add_argument("--room", type=int, default=20000)
    options.add_argument("--chunk", type=int, default=10)
    options.add_argument("--modules", type=int, default=10)
    options.add_argument("--back", action="store_true")
    given = options.parse_args()
    if given.back:
        print(f"{back(given.cases, given.answers)} cases written to {given.cases}, their answers to {given.answers}")
        return
    cases = framed(given.cases, given.answers)
    small = [c for c in cases if len(c.dataset) + len(c.update) <= given.largest and c.room <= given.room]
    kept = small if given.all else spread(small, given.keep)
    if not kept:
        sys.exit("no case is small enough")
    folder = scratch(given.scratch) if given.scratch else ROOT / "crates/cases/proofs"
    written(kept, given.chunk, given.modules, folder)
    kinds = sorted({c.kind for c in kept})
    print(f"{len(cases)} cases, {len(small)} small enough, {len(kept)} written to {folder}")
    print("refusals:", " ".join(str(n) for n in sorted({k[1] for k in kinds if k[0] != LISTING})))


if __name__ == "__main__":
    main()
