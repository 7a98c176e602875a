#!/usr/bin/env python3
"""Turns the older proof files of a crate, Proof.antt by needs, into Invariants.antt and Answers.antt, once, after port.py and respell.py.

usage: tools/convert_proofs.py CRATE NAMES

CRATE is the crate's folder. NAMES is the names.json that `rt check --generated DIR --old-names` writes there, over proved or stubbed crates
below: it says what each goal, step, loop and arm was called and is called. An answer that was `search rules` alone is dropped, since Rattle
tries that and more. A line for each thing that could not be turned; then rt check, and the rest by hand. A walk by hand is left as it is.
"""
import glob
import json
import os
import re
import sys

# Comments, texts, dotted names, and all else.
TOKEN = re.compile(r"""--[^\n]*|"(?:[^"\\\n]|\\.)*"|[^\s(){}.;,@"«»\[\]\\]+(?:\.[^\s(){}.;,@"«»\[\]\\]+)*|\s+|.""", re.S)
FREE = r"(?<![^\s(){}.;,@\"«»\[\]])%s(?![^\s(){}.;,@\"«»\[\]])"
SAID = []


def dashed(name):
    return re.sub("-+", "-", name.replace("_", "-"))


def spellings(name):
    """How a step or a goal may stand in names.json."""
    low = dashed(name[:1].lower() + name[1:])
    return [dashed(name), low] + ([low[:-4]] if low.endswith("-lem") else [])


class Names:
    """What names.json says of one function."""

    def __init__(self, said, where):
        self.said, self.where, self.stem = said, where, said.get("stem", "")
        self.needs = {dashed(old): new for old, new in reversed(said["needs"])}
        self.settled = set(said.get("settled", []))
        self.steps, self.callees = {}, {}
        for _, _, (old, new), callee, *_ in said["places"]:
            if old:
                self.steps.setdefault(dashed(old), new)
                if callee:
                    self.callees[dashed(old)] = callee
        self.arms = {}
        for arm in filter(None, said["arms"]):
            for field, step, path in arm[2]:
                if not field.endswith("-own"):
                    self.arms.setdefault((dashed(step), tuple(path)), (arm[0], field))
        self.typed = {dashed(step): it for each in reversed(said["typed"]) for it, step in each}
        self.loops = {dashed(old): (new, names, changed) for ((old, new), names), changed in zip(said["loops"], said["changed"])}
        self.clauses = (said.get("pre") or {}).get("fields") or []
        self.asked = {dashed(old): names for old, names in said.get("asked", {}).items() if len(names) > 1}

    def clause(self, rest):
        """A clause of the function's own requires, which were a pair nested to the right."""
        at = 0
        while at < len(self.clauses) - 1 and rest[:1] == ["1"]:
            at, rest = at + 1, rest[1:]
        if at < len(self.clauses) - 1:
            if rest[:1] != ["0"]:
                SAID.append(f"{self.where}: requires of several clauses, taken whole")
                return ["c", "requires"]
            rest = rest[1:]
        return ["c", "requires", self.clauses[at]] + rest

    def numbered(self, step, rest):
        """`.new.1.1.0` and `.auto.1.1.0`: the place of a parameter of the callee, by its name."""
        names = self.said["params"].get(self.callees.get(step), [])
        at = 0
        while rest[1 + at : 2 + at] == ["1"]:
            at += 1
        if rest[1 + at : 2 + at] == ["0"] and at < len(names):
            return [rest[0], names[at]] + rest[2 + at :]
        return rest

    def path(self, parts):
        """What follows `c` in an older path, as today's path has it."""
        while parts and parts[0] == "before":
            parts = parts[1:]
        if not parts:
            return ["c"]
        head, rest = parts[0], parts[1:]
        if head == "requires" and self.clauses:
            return self.clause(rest)
        if dashed(head) in ("args", "requires", "ranges", "well-formed"):
            return ["c", head.replace("-", "_")] + rest
        for name in spellings(head):
            if rest[:1] == ["given"] and name in self.typed and "slice-known" in name:
                return ["c", "type_inv", self.typed[name]] + rest[1:]
            for end in range(len(rest), -1, -1):
                if (name, tuple(rest[:end])) in self.arms:
                    return ["c", *self.arms[name, tuple(rest[:end])]] + rest[end:]
            if name in self.steps:
                return ["c", self.steps[name]] + (self.numbered(name, rest) if rest[:1] in (["new"], ["auto"]) else rest)
        SAID.append(f"{self.where}: no step {'.'.join(parts)}")
        return ["c"] + parts


def each_name(text, turn):
    def token(m):
        it = m.group(0)
        return it if it.startswith(("--", '"')) or it.isspace() else ".".join(turn(it.split(".")))

    return TOKEN.sub(token, text)


def answer(text, names):
    """The term of an answer: its paths, and the places that were named by a let."""
    alias = {"c": []}
    while m := re.search(rf"let (\S+) = ({'|'.join(map(re.escape, alias))})((?:\.before)+)((?:\.requires(?:\.\d+)*)?) in\s?", text):
        if m.group(4) and not names.clauses:
            text = text[: m.start()] + f"let {m.group(1)} = c{m.group(4)} in " + text[m.end() :]
            continue
        alias[m.group(1)] = m.group(4).split(".")[1:]
        text = text[: m.start()] + text[m.end() :]
    text = each_name(text, lambda it: names.path(alias[it[0]] + it[1:]) if it[0] in alias else it)
    for name, step in re.findall(r"let (\S+) = c\.(\S+) in\s", text):
        old = next((it for it, new in names.steps.items() if new == step and it in names.callees), None)
        text = each_name(text, lambda it: [name] + names.numbered(old, it[1:]) if it[0] == name and it[1:2] in (["new"], ["auto"]) else it)
    # `!x` is `x ≡ false` today, which was `not x ≡ true`
    text = re.sub(r"\(not[-_](?:true|false) _ (c\.if-not-[^\s()]+)\)|not[-_](?:true|false) _ (c\.if-not-[^\s()]+)", lambda m: "\0" + (m.group(1) or m.group(2)), text)
    return re.sub(r"(?<!\0)(?<![^\s(,;=])(c\.if-not-[^\s(),;}]+\.(?:true|false))(?![^\s(),;}])", r"(ap not \1)", text).replace("\0", "")


def parts_of(text):
    """The parts of a tuple, or None."""
    text, deep, at, parts = text.strip(), 0, 1, []
    if not text.startswith("("):
        return None
    for i, sign in enumerate(text):
        deep += (sign in "([{") - (sign in ")]}")
        if deep == 0 or (deep == 1 and sign == ","):
            parts.append(text[at:i].strip())
            at = i + 1
        if deep == 0:
            break
    parts = [it for it in parts if it]
    return None if text[at:].strip() or len(parts) < 2 else parts


def by_clause(text, clauses):
    """An answer for several clauses of a callee, by their names."""
    m = re.match(r"((?:let .*? in\s+)*)(.*)$", text.strip(), re.S)
    lets, term = m.groups()
    parts = parts_of(term)
    while parts and len(parts) < len(clauses) and parts_of(parts[-1]):
        parts = parts[:-1] + parts_of(parts[-1])
    if not parts:
        if re.match(r"(search|omega|grind|simp|cc|record)\b", term):
            parts = [term] * len(clauses)
        else:
            lets += f"let k = {term} in "
            parts = ["k" + ".1" * i + (".0" if i < len(clauses) - 1 else "") for i in range(len(clauses))]
    return lets + "record { " + "; ".join(f"{a} = {b}" for a, b in zip(clauses, parts)) + " }"


def uses(head, body):
    """The use lines that the body needs."""
    out = []
    for m in re.finditer(r"^use ([^\s{]+?)\.\{([^}]*)\}$", head, re.M):
        if not m.group(1).endswith((".Statement", ".Tie")):
            words = [it.strip() for it in m.group(2).split(",") if it.strip()]
            named = [it for it in words if all(re.search(FREE % re.escape(p), body) or it in body.split() for p in it.split(" as ")[-1].split("◌") if p)]
            out += [f"use {m.group(1)}.{{{', '.join(named)}}}"] * bool(named)
    if "(ap not " in body:
        out += [f"use mathlib.Core.{m}.{{{w}}}" for m, w in (("Path", "ap"), ("Bool", "not")) if not any(re.search(rf"[{{ ]{w}[,}}]", it) for it in out)]
    return out


def invariant(name, kind, loop, text, names):
    new, live, changed = names.loops[dashed(loop)]
    given, term = re.match(re.escape(name) + r"((?:\s+\S+)*?)\s*=\s*(.*)", text, re.S).groups()
    now = [f"l.{it}" for it, moves in zip(live, changed) if moves]
    values = dict(zip(given.split(), [f"l.initial.{it}" if moves else f"l.{it}" for it, moves in zip(live, changed)] + now))
    return f"abbrev pub {kind}-{new} : goal.{kind}-{new}\n{kind}-{new} l = " + each_name(term, lambda it: [values.get(it[0], it[0]), *it[1:]])


def need(name, goal, text, names):
    """The answer for a goal, None where none is wanted."""
    tries = [goal, re.sub(r"^(overflow|nonzero)-", "", goal), re.sub(r"^slice-bounds-", "part-", goal), name]
    found = [names.needs[s] for it in tries for s in spellings(it) if s in names.needs]
    m = re.match(r"((?:unfolding .*\n)*)" + re.escape(name) + r"(?:\s+[^\s=]+)*\s*=\s*(.*)", text, re.S)
    if m.group(2).strip() == "search rules" and not m.group(1) or found and found[0] in names.settled or "match.rest" in text:
        return None
    if not found:
        SAID.append(f"{names.where}: no goal {goal}")
        return None
    term = answer(m.group(2).rstrip(), names)
    clauses = [names.asked[s] for it in tries for s in spellings(it) if s in names.asked]
    full = names.stem + found[0]
    return f"pub {full} : goal.{full}\n{m.group(1)}{full} c = " + (by_clause(term, clauses[0]) if clauses else term)


def write(path, head, module, helpers, blocks):
    if not blocks:
        return
    body = "\n\n".join(blocks)
    for it in reversed(helpers):
        m = re.search(r"^(?:(?:abbrev|unfoldable|pub) )*(\S+) :", it, re.M)
        if not m or re.search(FREE % re.escape(m.group(1)), body):
            body = it + "\n\n" + body
    comments = [it for it in head.split("\n") if it.startswith("--")]
    with open(path, "w", encoding="utf-8") as f:
        f.write("\n".join(comments + uses(head, body) + [f"use {module} as goal"]) + "\n\n" + body + "\n")


def convert(path, names, module):
    with open(path, encoding="utf-8") as f:
        head, *rest = re.split(r"\n\s*\n", f.read().strip("\n"))
    invariants, answers, helpers = [], [], []
    for block in rest:
        comment, text = re.match(r"((?:--.*\n)*)((?:.|\n)*)$", block).groups()
        m = re.match(r"(?:abbrev )?(?:pub )?(\S+) : tie\.(?:(Need)-|(invariant|decreases)-)(\S+).*\n", text)
        if re.match(r"(?:pub )?\S+[-_]spec : ", text):
            continue
        if not m:
            helpers.append(block)
            continue
        name, is_need, kind, of = m.groups()
        if is_need:
            said = need(name, of, text[m.end() :], names)
            answers += [comment + said] if said else []
        else:
            invariants.append(comment + invariant(name, kind, of, text[m.end() :], names))
    folder = os.path.dirname(path)
    write(f"{folder}/Invariants.antt", head, module + ".Given", helpers, invariants)
    write(f"{folder}/Answers.antt", head, module + ".Goals", helpers, answers)
    os.remove(path)
    if not os.listdir(folder):
        os.rmdir(folder)


def main(argv):
    if len(argv) != 2:
        print(__doc__)
        return 2
    crate = os.path.abspath(argv[0])
    with open(argv[1], encoding="utf-8") as f:
        known = json.load(f)
    for path in sorted(glob.glob(f"{crate}/proofs/**/Proof.antt", recursive=True)):
        function = os.path.relpath(os.path.dirname(path), f"{crate}/proofs").replace("/", ".")
        said = known.get(f"Rattle-{os.path.basename(crate)}-proofs.{function}.Lts")
        with open(path, encoding="utf-8") as f:
            by_needs = " as tie" in f.read()
        if said and by_needs:
            convert(path, Names(said, function), f"Rattle.{os.path.basename(crate)}.proofs.{function}")
        else:
            SAID.append(f"{function}: {'no names' if by_needs else 'a walk by hand'}, left as it is")
    print("\n".join(SAID))
    return 0


if __name__ == "__main__":
    sys.exit(main(sys.argv[1:]))
