#!/usr/bin/env python3
"""Brings this repository's own definitions and lemmas to the spelling of Rattle's library: words in snake case, types in camel case.

usage: python3 tools/spell_names.py        at the top of the repository, after the toolchain's port.py, once

A name that begins in lower case and has capitals is written in snake case, in each part that dashes join: `bytesOf-fields` becomes
`bytes_of-fields`. It goes over the .rt and .antt files of crates/ (texts between quotation marks apart) and over the edits of crates/ and
wrong/. Where a name would fall together with another one of the same file, the other one is renamed first, as TOGETHER says. Functions of
src/ are in snake case already and keep their names.
"""

import glob
import os
import re
import sys

# the file's name, and what is renamed in it before: a lemma that would have its definition's name gets `_lem`
TOGETHER = {
    "crates/": {"same_bytes": "same_bytes_lem"},
    "crates/image/proofs/Mending.antt": {"place_ok": "place_ok_lem", "last_ok": "last_ok_lem"},
    "crates/marks/proofs/Looking.antt": {"by_read": "by_read_lem"},
    "crates/unit/proofs/Shapes.antt": {"not_sound": "not_sound_case", "no_room": "no_room_case"},
}
# names of the older library that stand within names of the repository's own
PARTS = {"getD": "get_or", "get_d_map": "get_or-map"}
NAME = re.compile(r"(?<![\w'])[A-Za-z_][\w'\u2080-\u2089]*(?:-[\w'\u2080-\u2089]+)*")
TEXT = re.compile(r'"(?:\\.|[^"\\])*"')


def part(word):
    """One part of a name in snake case."""
    if word in PARTS:
        return PARTS[word]
    if not word[:1].islower() or not re.search("[a-z0-9][A-Z]", word):
        return word
    word = re.sub("([a-z0-9])([A-Z])", r"\1_\2", word)
    return re.sub("([A-Z]+)([A-Z][a-z])", r"\1_\2", word).lower()


def respelled(path, text):
    first = {}
    for where, names in TOGETHER.items():
        if path.startswith(where):
            first.update(names)

    def name(m):
        word = m.group()
        if word in first:
            return first[word]
        return PARTS.get(word) or "-".join(part(it) for it in word.split("-"))

    def outside(it):
        return NAME.sub(name, it)

    if path.endswith(".antt"):
        return outside(text)
    out, end = [], 0
    for m in TEXT.finditer(text):
        out += [outside(text[end : m.start()]), m.group()]
        end = m.end()
    return "".join(out + [outside(text[end:])])


def main():
    paths = [p for kind in ("rt", "antt", "edit") for p in glob.glob(f"crates/**/*.{kind}", recursive=True)]
    paths += glob.glob("wrong/**/*.edit", recursive=True)
    changed = 0
    for path in sorted(p for p in paths if "/out/" not in p):
        with open(path, encoding="utf-8") as f:
            text = f.read()
        now = respelled(path, text)
        if now != text:
            changed += 1
            with open(path, "w", encoding="utf-8") as f:
                f.write(now)
    print(f"{changed} files respelled")


if __name__ == "__main__":
    sys.exit(main())
