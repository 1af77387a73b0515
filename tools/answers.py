#!/usr/bin/env python3
"""Turns a proof of an older Rattle, proofs/F/Proof.antt, whose parts are named by `tie.Need-..`, into Invariants.antt and Answers.antt.

usage: python3 tools/answers.py CRATE NAMES.json [FUNCTION..]      at the top of the repository, after port.py and respell.py

NAMES.json is what `rt check --generated FOLDER --old-names` writes for the crate: the old and the new name of each need, loop and step.
What `search` alone answered is left to Rattle, and a walk by hand is left as it is. It prints what is left to be done by hand: lemmas over
a place (`tie.Else1`), arms that meet (a sum taken apart by `⊎_elim`), needs that are not asked any more, steps that it does not know.
"""

import json
import os
import re
import sys

# a name and the fields behind it
PATH = re.compile(r"(?<![\w'.«·₀-])([A-Za-z_][\w'₀₁₂₃-]*)((?:\.[\w'«»₀-]+)*)")
VARIABLE = re.compile(r"(?<![\w'.₀-])([^\W\d][\w'₀₁₂₃-]*)")
# the clause of a declaration: its name, its arguments, and what stands behind `=`
CLAUSE = re.compile(r"(\S+)((?:\s+[^\s=]+)*)\s*=\s*")


def plain(name):
    """An old name in one spelling: port.py turned some words of it."""
    name = name.lower().replace("_", "-")
    for added in ("overflow-", "nonzero-"):
        name = name.removeprefix(added)
    return "part-" + name.removeprefix("slice-bounds-") if name.startswith("slice-bounds-") else name


def blocks_of(text):
    """The comment at the head, the `use` lines, and the declarations, each a list of lines."""
    lines = text.split("\n")
    at = 0
    while at < len(lines) and (lines[at].startswith("--") or not lines[at].strip()):
        at += 1
    head = [it for it in lines[:at] if it.strip()]
    start = at
    while at < len(lines) and lines[at].startswith("use "):
        at += 1
    rest = "\n".join(lines[at:]).strip("\n")
    return head, lines[start:at], [it.split("\n") for it in re.split(r"\n\s*\n", rest) if it.strip()]


def parts_of(block):
    """The comment above a declaration, its signature's line, its `unfolding` lines, and its clause."""
    lead = []
    block = list(block)
    while block and block[0].lstrip().startswith("--"):
        lead.append(block.pop(0))
    opened = [it for it in block[1:] if it.startswith("unfolding")]
    return lead, block[0] if block else "", opened, "\n".join(it for it in block[1:] if not it.startswith("unfolding"))


class Names:
    """What Rattle calls the parts of one function's proof now."""

    def __init__(self, entry):
        self.needs = {plain(old): new for old, new in entry["needs"]}
        self.steps, self.arms, self.slices, self.unknown = {}, {}, {}, set()
        for place, typed, arm in zip(entry["places"], entry["typed"], entry["arms"]):
            old, new = place[2]
            if not old:
                continue
            self.steps.setdefault(plain(old), new)
            for variable, step in typed:
                self.slices.setdefault(plain(step), variable)
            for field, step, path in arm[2] if arm else []:
                self.arms.setdefault(plain(step), []).append((path, f"{arm[0]}.{field}"))
        self.loops = {plain(old): (new, variables, changed) for ((old, new), variables), changed in zip(entry["loops"], entry["changed"])}

    def path(self, fields):
        """The path from `c` to a fact, from the old one: no `before`, and today's names."""
        fields = list(fields)
        while fields and fields[0] == "before":
            fields.pop(0)
        if not fields or fields[0] in ("args", "requires", "ranges", "type_inv"):
            return ["c", *fields]
        step, rest = plain(fields[0]), fields[1:]
        for path, new in self.arms.get(step, []):
            if rest[: len(path)] == path:
                return ["c", new, *rest[len(path) :]]
        if step in self.arms:
            return ["c", self.arms[step][0][1], *rest]
        # a slice lent by & goes by its name; one that is written is known by the step alone
        if step in self.slices and rest[:1] == ["given"] and not step.startswith("slice-known"):
            return ["c", "type_inv", self.slices[step], *rest[1:]]
        if step not in self.steps:
            self.unknown.add(fields[0])
        return ["c", self.steps.get(step, fields[0]), *rest]

    def body(self, text, record):
        """An answer's text with today's paths; a name that only stands for a place before is written out."""
        text = re.sub(r"(?<=\)) at (?=\w)", " \0 ", text)
        places = {record}
        while True:
            found = next((m for m in re.finditer(r"let ([\w']+) = ([\w']+)((?:\.before)*) in\s+", text) if m[2] in places), None)
            if not found:
                break
            places.add(found[1])
            text = text[: found.start()] + text[found.end() :]

        def turned(m):
            return ".".join(self.path([it for it in m[2].split(".") if it])) if m[1] in places else m[0]

        text = PATH.sub(turned, text).replace(" \0 ", " at ")
        # a test of a call's result is an equation of it now
        return re.sub(r"not-(?:true|false) \S+ (?=c\.)", "", text)


def kept_uses(uses, text):
    """The imports that the text needs."""
    kept = []
    for line in uses:
        group = re.match(r"use (\S+)\.\{(.*)\}$", line)
        alias = re.match(r"use (\S+) as (\S+)$", line)
        if group:
            names = []
            for name in [] if group[1].endswith(".Statement") else [it.strip() for it in group[2].split(",")]:
                local = name.split(" as ")[-1].strip()
                if "◌" in local:
                    used = all(it in text for it in local.split("◌") if it)
                else:
                    used = re.search(rf"(?<![\w'·-]){re.escape(local)}(?![\w'·-])", text)
                names += [name] if used else []
            kept += [f"use {group[1]}.{{{', '.join(names)}}}"] if names else []
        elif not alias or re.search(rf"(?<![\w'.-]){re.escape(alias[2])}\.", text):
            kept.append(line)
    return kept


def invariant(names, lead, signature, opened, clause, said):
    kind, loop = re.search(r"tie\.(\S+)", signature)[1].split("-", 1)
    new, variables, changed = names.loops[plain(loop)]
    m = CLAUSE.match(clause)
    values, text = m[2].split(), clause[m.end() :]
    bound = set(re.findall(r"λ \(?(\w+)", text))
    record = next(it for it in "lvwzq" if it not in bound)
    fields = [("initial." if it else "") + v for v, it in zip(variables, changed)] + [v for v, it in zip(variables, changed) if it]
    if len(values) != len(fields):
        said(f"{kind}-{loop}: {values} stand for {fields}")
    turned = dict(zip(values, (f"{record}.{it}" for it in fields)))
    text = VARIABLE.sub(lambda m: turned.get(m[1], m[1]), text)
    return [*lead, f"abbrev pub {kind}-{new} : goal.{kind}-{new}", *opened, f"{kind}-{new} {record} = {text}", ""]


def convert(crate, function, entry):
    folder = os.path.join("crates", crate, "proofs", *function.split("."))
    file = os.path.join(folder, "Proof.antt")
    if not os.path.exists(file):
        return
    with open(file, encoding="utf-8") as it:
        text = it.read().replace(".type-inv", ".type_inv")

    def said(words):
        print(f"{function}: {words}")

    if "types.Run" in text:
        said("a walk by hand, left")
        return
    names = Names(entry)
    head, uses, blocks = blocks_of(text)
    invariants, lemmas, needs = [], [], []
    for block in blocks:
        lead, signature, opened, clause = parts_of(block)
        m = re.match(r"(?:abbrev )?(?:pub )?(\S+) : tie\.(\S+)", signature)
        if re.match(r"pub \S+[-_]spec : ", signature) or not signature:
            continue
        if not m:
            lemmas += [*block, ""]
        elif m[2].startswith(("invariant-", "decreases-")):
            invariants += invariant(names, lead, signature, opened, clause, said)
        else:
            needs.append((m[1], m[2].removeprefix("Need-"), lead, opened, clause))

    renamed = {old: names.needs.get(plain(need)) or old for old, need, *_ in needs}
    answers = list(lemmas)
    for old, need, lead, opened, clause in needs:
        new = names.needs.get(plain(need))
        m = CLAUSE.match(clause)
        arguments, text = m[2].split(), clause[m.end() :]
        if new is None:
            said(f"{old} ({need}) is not asked any more: {text[:80]!r}")
        elif text.strip() != "search rules" or opened:
            text = names.body(text, arguments[0])
            text = PATH.sub(lambda m: renamed.get(m[1], m[1]) + m[2], text)
            answers += [*lead, f"pub {new} : goal.{new}", *opened, f"{new} c =" + ("\n    " if "\n" in text else " ") + text, ""]
    if names.unknown:
        said(f"unknown steps {sorted(names.unknown)}")

    os.remove(file)
    for lines, to, module in ((invariants, "Invariants", "Given"), (answers, "Answers", "Goals")):
        if lines:
            with open(os.path.join(folder, to + ".antt"), "w", encoding="utf-8") as it:
                it.write("\n".join([*head, *kept_uses(uses, "\n".join(lines)), f"use Rattle.{crate}.proofs.{function}.{module} as goal", "", *lines]))
    if not os.listdir(folder):
        os.rmdir(folder)


def main():
    crate, file, *only = sys.argv[1:]
    with open(file, encoding="utf-8") as it:
        entries = json.load(it)
    for key, entry in entries.items():
        m = re.fullmatch(rf"Rattle-{crate}-proofs\.(.*)\.Lts", key)
        if m and (not only or m[1] in only):
            convert(crate, m[1], entry)


main()
