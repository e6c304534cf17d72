#!/usr/bin/env python3
"""Brings names of definitions in pages and scripts to today's spelling, by the table tools/names.txt: a line for each name, old and new.

usage: python3 tools/rename_in_pages.py FILE..       renames in these files
       python3 tools/rename_in_pages.py --table OLD NEW    prints the table, from two lists that .ci/definitions made of the same files

A name is renamed where it stands as a whole, also behind `crate:`; what is not in the table stays. It says which names with a capital
inside, as in camel case, are left in a file.
"""

import os
import re
import sys

NAME = re.compile(r"(?<![\w′])[A-Za-z][\w'′₀-₉]*(?:-[\w'′₀-₉]+)*")
CAMEL = re.compile(r"^[a-z][a-z0-9]*[A-Z]")


def table(old, new):
    """Old and new names, in the order of the lists, each once."""
    pairs = {}
    with open(old, encoding="utf-8") as a, open(new, encoding="utf-8") as b:
        for x, y in zip(a, b, strict=True):
            (crate, file, kind, name, _), (crate2, file2, kind2, name2, _) = x.split(), y.split()
            if (crate, file, kind) != (crate2, file2, kind2):
                sys.exit(f"not of the same definition: {x}{y}")
            if pairs.setdefault(name, name2) != name2:
                sys.exit(f"{name} has become {pairs[name]} and {name2}")
    return {a: b for a, b in pairs.items() if a != b}


def main(words):
    if words[:1] == ["--table"]:
        for old, new in sorted(table(*words[1:]).items()):
            print(old, new)
        return 0
    with open(os.path.join(os.path.dirname(os.path.abspath(__file__)), "names.txt"), encoding="utf-8") as f:
        names = dict(line.split() for line in f)
    for path in words:
        with open(path, encoding="utf-8") as f:
            text = f.read()
        left = set()

        def name(m):
            word = m.group()
            # a name, or one in quotes
            for bare in (word, word.rstrip("'")):
                if bare in names:
                    return names[bare] + word[len(bare) :]
            if CAMEL.match(word):
                left.add(word)
            return word

        now = NAME.sub(name, text)
        if now != text:
            with open(path, "w", encoding="utf-8") as f:
                f.write(now)
        print(f"{path}: {'renamed' if now != text else 'as it was'}{'; left: ' + ' '.join(sorted(left)) if left else ''}")
    return 0


if __name__ == "__main__":
    sys.exit(main(sys.argv[1:]))
