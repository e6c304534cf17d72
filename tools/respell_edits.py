#!/usr/bin/env python3
"""Brings the edits of crates/*/must-fail and wrong/ to today's spelling of clauses and definitions, with the same wrong meaning.

usage: python3 tools/respell_edits.py [--write]     at the top of the repository, after port.py and tools/spell_names.py

An `old:` text that stands once in its file is left, and so is what replaces it, where it has nothing of the older spelling. Else both texts
are respelled: clauses without their brackets, `result`, `x.now`, `x.old` and `x.new`, fields written tight, paths, and an import that gains
a name gains it where the name's import stands today. What does not fit then is listed, and left for a hand.
"""

import glob
import itertools
import re
import sys

OPERATOR = re.compile(r"^(?:[≡≢≤<>×∷+\-*/%&|=→:λ⊎↔.∙]+|\+\+|record|let|in|where|requires|ensures|pub|fn)$")
LIBRARY = re.compile(r"^(?:ghost )?use (?:mathlib|lib|Prim|mir|native)\.[\w.]+\.\{(.*)\};?$")
OLD = re.compile(r"[⌜⌝·]|(?<![\w.])now \(|(?<=[\w)'₀-₉]) \.[a-z]|the-variants|(?<=[{ ])_[^\w\s]+_(?=[,}])|\b(?:mathlib|lib|Prim)\.")
TOKEN = re.compile(r"\s+|[(){}\[\],;]|[^\s(){}\[\],;]+")


def parse(tokens, i, close):
    """A list of [space, text] pairs; a bracket's text is ('(', list, ')')."""
    out, space = [], ""
    while i < len(tokens):
        t = tokens[i]
        i += 1
        if t.isspace():
            space += t
            continue
        if t in "([{":
            inner, i, end, last = parse(tokens, i, {"(": ")", "[": "]", "{": "}"}[t])
            out.append([space, (t, inner, last, end)])
        elif t in ")]}" and t == close:
            return out, i, t, space
        else:
            out.append([space, t])
        space = ""
    return out, i, "", space


def show(items):
    out = ""
    for space, it in items:
        out += space + (it if isinstance(it, str) else it[0] + show(it[1]) + it[2] + it[3])
    return out


def is_part(it):
    return not isinstance(it, str) or not (OPERATOR.match(it) or it in ",;" or it.endswith(".") or it in ")]}")


def tight(items):
    out = []
    for space, it in items:
        if not isinstance(it, str):
            inner, was = tight(it[1]), show(it[1])
            # a bracket round what has become one word
            if it[0] == "(" and it[3] and len(inner) == 1 and isinstance(inner[0][1], str) and show(inner) != was:
                out.append([space, inner[0][1]])
            else:
                out.append([space, (it[0], inner, it[2], it[3])])
        elif re.match(r"^\.[A-Za-z0-9]", it) and space and out and is_part(out[-1][1]):
            start = len(out)
            while start and is_part(out[start - 1][1]):
                start -= 1
            spine = out[start:]
            first = spine[0][0]
            spine[0][0] = ""
            text = show(spine)
            if len(spine) > 1:
                text = f"({text})"
            out[start:] = [[first, text + it]]
        else:
            out.append([space, it])
        # now x
        if len(out) > 1 and out[-2][1] == "now" and is_part(out[-1][1]):
            text = show([["", out[-1][1]]])
            text = re.sub(r"\.exit$", ".new", text)
            text = re.sub(r"\.entry$", ".ENTRY", text) if text.endswith(".entry") else text if text.endswith(".new") else text + ".now"
            out[-2:] = [[out[-2][0], text]]
    return out


def respelled(text):
    text = text.replace("the-variants", "TheVariants").replace("·specs.specs.", ".specs.").replace("·proofs.proofs.", ".proofs.")
    text = text.replace("Rattle·", "Rattle.").replace("·", ".")
    if re.match(r"^(ghost )?use ", text):
        return re.sub(r"(?<=[{ ])_(\W+)_(?=[,}])", r"◌\1◌", text)
    if "λ r." in text or "⌜" in text or "⌝" in text:
        text = re.sub(r"(?<![\w.'])r(?![\w'.])", "result", text.replace("λ r. ", ""))
        text = text.replace("⌜ ", "").replace(" ⌝", "")
    tokens = TOKEN.findall(text)
    items, i, _, last = parse(tokens, 0, "")
    return show(tight(items)) + last


def names(line):
    return [x.strip() for x in re.sub(r".*\{|\}.*", "", line).split(",") if x.strip()]


def imported(old, new, body):
    """Pairs for an import that gains a name: where the file has its import today."""
    was, now = names(respelled(old)), names(respelled(new))
    path = re.sub(r"\.?\{.*", "", respelled(old))
    if LIBRARY.match(old):
        path = ("ghost " if old.startswith("ghost") else "") + "use Rattle.std.specs.Prelude"
    there = re.search("^" + re.escape(path) + r"\.\{([^}]*)\}", body, re.M)
    if not there:
        return None
    has = [x.strip() for x in there.group(1).split(",")]
    more = [n for n in now if n not in was and n not in has]
    return [] if not more else [(path + ".{" + has[0], path + ".{" + ", ".join(more + has[:1]))]


def candidates(text):
    """The text with each `x.ENTRY` as `x.old` or `x.now`."""
    places = sorted(set(re.findall(r"\w+\.ENTRY", text)))
    for kinds in itertools.product((".old", ".now"), repeat=len(places)):
        yield dict(zip(places, kinds))


def filled(text, kinds):
    for place, kind in kinds.items():
        text = text.replace(place, place[: -len(".ENTRY")] + kind)
    return text.replace(".ENTRY", ".now")


def pair(old, new, body):
    """The pairs that stand for one pair, or None."""
    if body.count(old) == 1 and not OLD.search(new):
        return [(old, new)]
    if re.match(r"^(ghost )?use [A-Z a-z·.]+\{", old) and re.match(r"^(ghost )?use ", new) and "::" not in old:
        a, b = respelled(old), respelled(new)
        if body.count(a) == 1 and not LIBRARY.match(old):
            return [(a, b)]
        if LIBRARY.match(old) or a.split("{")[0] == b.split("{")[0]:
            return imported(old, new, body)
        return None
    a, b = respelled(old), respelled(new)
    for kinds in candidates(a):
        c = filled(a, kinds)
        for trial in (c, c.strip()):
            if body.count(trial) == 1:
                return [(trial, filled(b, kinds) if trial == c else filled(b, kinds).strip())]
    return None


def main():
    write = "--write" in sys.argv
    left = done = 0
    for path in sorted(glob.glob("crates/*/must-fail/*.edit") + glob.glob("wrong/**/*.edit", recursive=True)):
        crate = path.split("/")[1]
        with open(path, encoding="utf-8") as f:
            lines = f.read().rstrip("\n").split("\n")
        out, name, old, bodies, failed, held = [], "", "", {}, [], []
        for line in lines:
            if line.startswith("file: "):
                name = line[6:]
                held = [line]
                continue
            if line.startswith("old: "):
                old = line[5:]
                continue
            if not line.startswith("new:"):
                out.append(line)
                continue
            new = line[4:].removeprefix(" ")
            file = f"crates/{crate}/{name}"
            if file not in bodies:
                try:
                    with open(file, encoding="utf-8") as f:
                        bodies[file] = f.read()
                except FileNotFoundError:
                    bodies[file] = ""
            pairs = pair(old, new, bodies[file])
            if pairs is None:
                failed.append((file, old, new))
                pairs = [(old, new)]
            for a, b in pairs:
                bodies[file] = bodies[file].replace(a, b, 1)
                out += held + [f"old: {a}", f"new: {b}" if b else line if not new else "new:"]
                held = []
        for file, a, b in failed:
            print(f"{path}: {file}\n  old: {a}\n  new: {b}")
        left += bool(failed)
        if out != lines and write:
            with open(path, "w", encoding="utf-8") as f:
                f.write("\n".join(out) + "\n")
        done += out != lines
    print(f"{done} edits respelled, {left} left")


if __name__ == "__main__":
    main()
