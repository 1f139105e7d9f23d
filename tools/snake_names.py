#!/usr/bin/env python3
"""Spells the definitions and lemmas that this repository's antt files declare in snake case.

usage: tools/snake_names.py [--check]      at the top of a checkout, once, straight after the kit's port.py

A declared name that begins with a small letter and has capitals behind it gets underscores, in all .antt files, in the clauses and comments
of all .rt files, and in must-fail edits. Types, modules and constructors in capitals keep theirs, and so does every name that no file declares.
With --check nothing is written: it prints the names, and each file in which a new name stood already.
Five lemmas that port.py gave underscores get their dashes back, since a definition takes the name.
"""

import os
import re
import sys

NAME = r"[^\s(){}.;,@\"«»`⌜⌝]+"
DECLARED = re.compile(rf"(?m)^ *(?:(?:pub|abbrev|unfoldable|data|record) )*({NAME})(?: \{{[^{{}}\n]*\}})* :")
DASHED = re.compile(r"(?<![\w.'-])(?:field_in|fields_in|in_bounds|is_static|item_from)(?![\w'-])")
STRING = re.compile(r'b?"(?:\\.|[^"\\\n])*"')


def texts(*endings):
    for top, folders, files in os.walk("crates"):
        folders[:] = sorted(it for it in folders if it not in ("out", "data", "target"))
        for it in sorted(files):
            if it.endswith(endings):
                yield os.path.join(top, it)


def read(path):
    with open(path, encoding="utf-8") as f:
        return f.read()


def in_snake_case(name):
    # The bytes of a form of UTF-8, as xC2-DF, are one word each.
    if re.match(r"x[0-9A-F]{2}", name):
        return name.lower()
    return re.sub(r"(?<=[a-z0-9])([A-Z]+)", lambda m: "_" + m[1].lower(), name)


def main():
    declared = {it for path in texts(".antt") for it in DECLARED.findall(read(path))}
    table = {it: in_snake_case(it) for it in declared if re.match(r"[a-z]", it) and re.search(r"[A-Z]", it)}
    table = {old: new for old, new in table.items() if new != old}
    if not table:
        return
    word = re.compile(rf"(?<![^\s(){{}}.;,@«»`⌜⌝←])(?:{'|'.join(sorted(map(re.escape, table), key=len, reverse=True))})(?![^\s(){{}}.;,@«»`⌜⌝:])")
    clash = {}
    for path in texts(".antt", ".rt", ".edit"):
        text = read(path)
        before = text
        if path.endswith(".antt"):
            text = DASHED.sub(lambda m: m[0].replace("_", "-"), text)
        found = set(word.findall(text))
        plain = re.sub(r"//[^\n]*|--[^\n]*", " ", text)
        for old in found:
            if re.search(rf"(?<![\w'.-]){re.escape(table[old])}(?![\w'-])", plain):
                clash.setdefault(old, []).append(path)
        if "--check" in sys.argv:
            continue
        # Strings of the code are what a program prints or compares.
        pieces, at = [], 0
        quoted = STRING.finditer(text) if path.endswith(".rt") else ()
        for it in quoted:
            pieces += [word.sub(lambda m: table[m[0]], text[at : it.start()]), it[0]]
            at = it.end()
        pieces.append(word.sub(lambda m: table[m[0]], text[at:]))
        turned = "".join(pieces)
        if turned != before:
            with open(path, "w", encoding="utf-8") as f:
                f.write(turned)
    if "--check" in sys.argv:
        for old, new in sorted(table.items()):
            print(old, new, *(["DECLARED ALREADY"] if new in declared else []), *clash.get(old, []))


if __name__ == "__main__":
    main()
