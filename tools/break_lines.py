#!/usr/bin/env python3
"""Breaks the lines of the .antt files of crates/ and the imports of the code that have over 140 bytes: an import into two, a comment at a word, other text at its last
place outside of the inner brackets that leaves both parts short enough.

usage: python3 tools/break_lines.py        at the top of the repository; then `rt fmt` in the crates' folders
"""

import glob
import re
import sys

MOST = 140


def size(text):
    return len(text.encode())


def of_import(line):
    head, names, end = re.match(r"^(.*\{)(.*)(\};?)$", line).groups()
    names, rows = names.split(", "), []
    for name in names:
        if rows and size(head + ", ".join(rows[-1] + [name]) + end) <= MOST:
            rows[-1].append(name)
        else:
            rows.append([name])
    return [head + ", ".join(row) + end for row in rows]


def of_comment(line, after):
    """The line's words, and those of the comment's next line where it goes on."""
    indent = re.match(r"^ *-- ", line).group()
    words, rows = line[len(indent) :].split(" "), []
    for word in words:
        if rows and size(indent + rows[-1] + " " + word) <= MOST:
            rows[-1] += " " + word
        else:
            rows.append(word)
    if len(rows) > 1 and after.startswith(indent) and size(rows[-1] + " " + after) <= MOST:
        return [indent + row for row in rows[:-1]] + [indent + rows[-1] + " " + after[len(indent) :]], True
    return [indent + row for row in rows], False


def of_text(line):
    """Two lines: the break is at the least depth, before an operator where there is one, and as far on as it may be."""
    indent = re.match(r"^ *", line).group()
    depth, best = 0, None
    inner = line[len(indent) :]
    for i, c in enumerate(inner):
        if c in "({[":
            depth += 1
        elif c in ")}]":
            depth -= 1
        elif c == " ":
            left, right = indent + inner[:i], indent + "    " + inner[i + 1 :]
            if size(left) > MOST or size(right) > MOST or i < 40 or len(inner) - i < 14:
                continue
            operator = bool(re.match(r"^(→|×|∙|≡|\+\+|∷|⊎|&&|\|\||\+|=) ", inner[i + 1 :]))
            broken = bool(re.search(r"(^|\s)(λ|let|in|=|→|×|∙|≡|\+\+|∷|⊎|&&|\|\||\+|[^\s]+\.)$", inner[:i])) and not inner[:i].endswith(" =")
            rank = (broken, depth, not operator, -i)
            if best is None or rank < best[0]:
                best = (rank, left, right)
    return [best[1], best[2]] if best else None


def main():
    paths = [p for part in ("specs/**/*.antt", "proofs/**/*.antt", "src/**/*.rt") for p in glob.glob(f"crates/*/{part}", recursive=True)]
    for path in sorted(paths):
        with open(path, encoding="utf-8") as f:
            lines = f.read().split("\n")
        out, i = [], 0
        while i < len(lines):
            line = lines[i]
            i += 1
            if size(line) <= MOST:
                out.append(line)
            elif re.match(r"^ *(pub |ghost )?use .*\{.*\};?$", line):
                out += of_import(line)
            elif path.endswith(".rt"):
                print(f"{path}:{i}: left as it is")
                out.append(line)
            elif re.match(r"^ *-- ", line):
                rows, took = of_comment(line, lines[i] if i < len(lines) else "")
                out += rows
                i += took
            else:
                two = of_text(line)
                if not two:
                    print(f"{path}:{i}: no place to break")
                out += two or [line]
        if out != lines:
            with open(path, "w", encoding="utf-8") as f:
                f.write("\n".join(out))
    return 0


if __name__ == "__main__":
    sys.exit(main())
