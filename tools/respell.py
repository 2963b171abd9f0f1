#!/usr/bin/env python3
"""Respells the definitions and lemmas of specs/ and proofs/ in snake case, as Rattle spells names.

usage: python3 tools/respell.py [TOP]    once, right after /opt/rattle/port/port.py, which respells only some of them

A word of specs/ or proofs/ that begins low and has a capital inside (`struckLines`) becomes `struck_lines`, in definitions,
lemmas, contracts, must-fail edits and in the pages of docs/. Types, facts and variants keep their capitals. Functions of
src/ are in snake case already, and strings, inputs and outputs are not touched. A name that would fall together with
another one stops the script before it writes anything.
"""

import os
import re
import sys

CAMEL = re.compile(r"(?<![\w'₀-₉])[a-z][a-z0-9]*(?:[A-Z][a-z0-9]*)+(?![\w'])")
# What a file of specs/ or proofs/ defines: a signature, a field or a constructor.
DEFINED = re.compile(r"^\s*(?:(?:unfoldable|abbrev|pub|data|record) )*([^\s:(){}=]+)(?: [({].*[)}])? :(?=\s)", re.M)
# Words of the library inside the names of lemmas, and a fact that was joined by a dash.
OTHERS = {"getD": "get_or", "sumBy": "sum_by", "Comes-back": "ComesBack"}
# Lemmas that would have the name of the definition that they are of.
LEMMAS = {"in_bounds": "in_bounds_lem"}


def snake(word):
    return re.sub(r"[A-Z]", lambda m: "_" + m.group(0).lower(), word)


def files(top, endings):
    for folder, dirs, names in os.walk(top):
        dirs[:] = sorted(d for d in dirs if d not in ("out", ".git", "data", "target"))
        for name in sorted(names):
            if name.endswith(endings):
                yield os.path.join(folder, name)


def read(path):
    with open(path, encoding="utf-8") as f:
        return f.read()


def main():
    top = sys.argv[1] if len(sys.argv) > 1 else "."
    crates = os.path.join(top, "crates")
    words = set()
    for path in files(crates, (".antt",)):
        words.update(CAMEL.findall(read(path)))
    words -= set(OTHERS)
    new = {w: snake(w) for w in sorted(words)}
    together = {}
    for old, name in new.items():
        together.setdefault(name, []).append(old)
    taken = set()
    for path in files(crates, (".antt",)):
        taken.update(LEMMAS.get(w, w) for w in DEFINED.findall(read(path)))
    clash = [n for n, olds in together.items() if len(olds) > 1 or n in taken]
    if clash:
        raise SystemExit("respell: these fall together with other names: " + ", ".join(sorted(clash)))

    def turn(path, text):
        others = {**OTHERS, **LEMMAS} if path.endswith(".antt") else OTHERS
        for old, name in others.items():
            text = re.sub(r"(?<![\w'-])" + re.escape(old) + r"(?![\w'])", name, text)
        return CAMEL.sub(lambda m: new.get(m.group(0), m.group(0)), text)

    def turn_page(text):
        return re.sub(r"`[^`\n]*`", lambda m: CAMEL.sub(lambda w: snake(w.group(0)), m.group(0)), text)

    changed = 0
    for path in files(crates, (".antt", ".rt", ".edit")):
        text = read(path)
        turned = turn(path, text)
        if turned != text:
            changed += 1
            with open(path, "w", encoding="utf-8") as f:
                f.write(turned)
    for path in files(os.path.join(top, "docs"), (".md",)):
        text = read(path)
        turned = turn_page(text)
        if turned != text:
            changed += 1
            with open(path, "w", encoding="utf-8") as f:
                f.write(turned)
    print(f"respell: {len(new)} names, {changed} files")


if __name__ == "__main__":
    main()
