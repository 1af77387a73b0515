#!/usr/bin/env python3
"""Brings the repository's own definitions and lemmas to the spelling of today's Rattle: words in snake case.

usage: python3 tools/respell.py      at the top of a repository that port.py has turned

In every .antt, .rt and .edit file of crates/: a name that begins with a small letter and has a capital in it (slotBytes, flagRD, getD-upTo) is written in snake case
(slot_bytes, flag_rd, get_or-up_to), part by part where dashes join parts. Strings stay. The pages (README.md, docs/, oracle/README.md) get the same names between backticks, but for docs/landings, which keep the names of their day.
A file of specs/ whose name Rattle takes for a module that it makes (claims/specs/Contracts.antt) gets another. It prints the names that fall together with one that was there before, to be looked at.
"""

import os
import re
import sys

# a word of the library has a name of its own now
WORDS = {"getD": "get_or"}

# lemmas that would have the name of the definition that they speak of, once that one is respelled
LEMMAS = {n: n + "_lem" for n in ("made_by", "is_free", "set_back", "went_back", "leaves_table", "no_room", "moved_on", "held_in")}

# files of specs/ that a module made by Rattle has the name of: crate, old, new
MODULES = [("claims", "Contracts", "CallContracts")]

NAME = re.compile(r"(?<![\w'\\])[A-Za-z_][\w'-]*(?<!-)")
STRING = re.compile(r'b?"(?:[^"\\\n]|\\.)*"')


def snake(part):
    if part in WORDS:
        return WORDS[part]
    # port.py takes the dash of some of these for one before a plain word
    if part.startswith("getD_"):
        return WORDS["getD"] + "-" + snake(part.removeprefix("getD_"))
    if not re.match(r"[a-z][a-z0-9]*[A-Z]", part):
        return part
    out = re.sub(r"([a-z0-9])([A-Z])", r"\1_\2", part)
    out = re.sub(r"([A-Z])([A-Z][a-z])", r"\1_\2", out)
    return out.lower()


def respelled(name):
    return "-".join(snake(p) for p in name.split("-"))


def files(root):
    for folder, dirs, names in os.walk(os.path.join(root, "crates")):
        dirs[:] = sorted(d for d in dirs if d != "out")
        for n in sorted(names):
            if n.endswith((".rt", ".antt", ".edit")):
                yield os.path.join(folder, n)


def pages(root):
    yield os.path.join(root, "README.md")
    yield os.path.join(root, "oracle", "README.md")
    docs = os.path.join(root, "docs")
    for n in sorted(os.listdir(docs)):
        if n.endswith(".md") and n != "PORT.md":
            yield os.path.join(docs, n)


def rename_modules(root):
    for crate, old, new in MODULES:
        specs = os.path.join(root, "crates", crate, "specs")
        if not os.path.exists(os.path.join(specs, old + ".antt")):
            continue
        os.rename(os.path.join(specs, old + ".antt"), os.path.join(specs, new + ".antt"))
        lib = os.path.join(specs, "Lib.antt")
        text = open(lib, encoding="utf-8").read()
        with open(lib, "w", encoding="utf-8") as f:
            f.write(re.sub(rf"(?m)^(pub mod ){old}$", rf"\g<1>{new}", text))
        for path in files(root):
            text = open(path, encoding="utf-8").read()
            turned = re.sub(rf"Rattle\.{crate}\.specs\.{old}(?![\w'-])", f"Rattle.{crate}.specs.{new}", text)
            if turned != text:
                with open(path, "w", encoding="utf-8") as f:
                    f.write(turned)


def turn_pages(root, names):
    """In the pages: the names that were respelled in crates/, between backticks."""
    for path in pages(root):
        if not os.path.exists(path):
            continue
        text = open(path, encoding="utf-8").read()
        turned = re.sub(r"`[^`\n]+`", lambda q: NAME.sub(lambda m: names.get(m.group(0), m.group(0)), q.group(0)), text)
        if turned != text:
            with open(path, "w", encoding="utf-8") as f:
                f.write(turned)


def main():
    root = os.getcwd()
    rename_modules(root)
    before, made = {}, {}
    for path in files(root):
        with open(path, encoding="utf-8") as f:
            text = f.read()
        kept = []
        if not path.endswith(".antt"):
            text = STRING.sub(lambda m: kept.append(m.group(0)) or f"\x00{len(kept) - 1}\x00", text)

        proofs = f"{os.sep}proofs{os.sep}" in path

        def one(m):
            if proofs and m.group(0) in LEMMAS and text[m.start() - 1 : m.start()] != ".":
                return LEMMAS[m.group(0)]
            new = respelled(m.group(0))
            if new != m.group(0):
                made.setdefault(new, {}).setdefault(m.group(0), set()).add(os.path.relpath(path, root))
            else:
                before.setdefault(new, set()).add(os.path.relpath(path, root))
            return new

        new = NAME.sub(one, text)
        new = re.sub("\x00(\\d+)\x00", lambda m: kept[int(m.group(1))], new)
        if kept and "\x00" in new:
            sys.exit(f"respell: {path}: a string was lost")
        old = open(path, encoding="utf-8").read()
        if new != old:
            with open(path, "w", encoding="utf-8") as f:
                f.write(new)
    turn_pages(root, {old: new for new, olds in made.items() for old in olds})
    for new, olds in sorted(made.items()):
        if len(olds) > 1:
            print(f"look: {' and '.join(sorted(olds))} are both {new} now")
        both = before.get(new, set()) & set().union(*olds.values())
        if both:
            print(f"look: {new} ({', '.join(sorted(olds))}) stood before in {', '.join(sorted(both)[:6])}")
    print(f"respell: {len(made)} names")


main()
