#!/usr/bin/env python3
"""Counts the places of docs/DESIGN-PASS.md in crates/*/src: places.py [COMMIT] [POINT]; with a point the places themselves."""
import re
import subprocess
import sys

words = sys.argv[1:]
commit = words[0] if words and not words[0].isdigit() else None
point = int(words[-1]) if words and words[-1].isdigit() else 0


def sources():
    """Each source file's name and text, of a commit or as they stand."""
    names = subprocess.run(["git", "ls-tree", "-r", "--name-only", commit or "HEAD", "crates"], capture_output=True, text=True).stdout
    for name in names.split():
        if re.fullmatch(r"crates/\w+/src/.*\.rt", name):
            try:
                text = subprocess.run(["git", "show", f"{commit}:{name}"], capture_output=True, text=True).stdout if commit else open(name).read()
            except FileNotFoundError:
                continue
            yield name[len("crates/"):], re.sub(r"//.*", "", text)


def block(text, at):
    """The text of the braces that open at or after this place, with them."""
    i = text.index("{", at)
    depth = 0
    for j in range(i, len(text)):
        depth += {"{": 1, "}": -1}.get(text[j], 0)
        if depth == 0:
            return text[i:j + 1]
    return text[i:]


def functions(text):
    """Each function: its name, its parameters, its clauses, its body."""
    for m in re.finditer(r"^ *(?:pub(?:\(crate\))? )?fn (\w+)", text, re.M):
        opens = text.index("(", m.end())
        depth = 0
        for end in range(opens, len(text)):
            depth += {"(": 1, ")": -1}.get(text[end], 0)
            if depth == 0:
                break
        clauses = []
        at = end + 1
        while True:
            head = re.compile(r"[^{;]*?(requires|ensures)[^{;]*(?=\{)").match(text, at)
            if not head:
                break
            clause = block(text, head.end())
            clauses.append((head.group(1), " ".join(clause.split())))
            at = text.index("{", head.end()) + len(clause)
        semicolon, brace = text.find(";", at), text.find("{", at)
        if brace < 0 or 0 <= semicolon < brace:
            continue
        yield m.group(1), " ".join(text[opens:end + 1].split()), clauses, block(text, at)


found = {n: [] for n in range(1, 8)}
shapes, facts, pairs = {}, {}, {}
for name, text in sources():
    where = name.replace("/src/", "/")
    for m in re.finditer(r"enum (\w+)[^{;]*(?=\{)", text):
        cases = re.findall(r"^    (\w+)( *[({])?", block(text, m.start()), re.M)
        if len(cases) == 2 and any(opens for _, opens in cases):
            found[1].append(f"{where}: enum {m.group(1)} of two cases")
    for m in re.finditer(r"struct (\w+)[^{;(]*(?=\{)", text):
        body = block(text, m.start())
        if re.search(r"\b(code|stop): u8\b|\b(taken|found|ok|more|is_\w+): bool\b", body) and body.count(":") > 1:
            found[1].append(f"{where}: struct {m.group(1)}, a number or a flag beside values")
        if re.search(r": \[[^;\]]+; *\w+\]", body) and re.search(r"\b(count|len|length|used): usize", body):
            found[6].append(f"{where}: struct {m.group(1)}, an array with a length beside it")
    for m in re.finditer(r"^(?:pub(?:\(crate\))? )?const ([A-Z_0-9]+): u8 =", text, re.M):
        found[1].append(f"{where}: const {m.group(1)}, a number for a kind or a refusal, or a range")
    for m in re.finditer(r"\b(while|loop)\b(?= |$)", text):
        found[3].append(f"{where}:{text[:m.start()].count(chr(10)) + 1}: {m.group(1)}")
    for m in re.finditer(r"\bfn\(|\bdyn\b|: \[fn", text):
        found[7].append(f"{where}:{text[:m.start()].count(chr(10)) + 1}")
    for fn, params, clauses, body in functions(text):
        flat = " ".join(body.split())
        if re.fullmatch(r"\{ (self|\w+) as \w+ \}", flat) or re.fullmatch(r"\{ if [\w.]+ \{ 1 \} else \{ 0 \} \}", flat):
            found[4].append(f"{where}: fn {fn}, a conversion")
        arms = re.findall(r"=> ([^,{}]+),", flat)
        if flat.startswith("{ match self {") and len(arms) > 2 and all(re.fullmatch(r'\d+|b?"[^"]*"', a.strip()) for a in arms):
            found[4].append(f"{where}: fn {fn}, numbers or words by hand")
        if re.fullmatch(r"\{ and\(.*self\.\w+ == other\.\w+.*\}", flat):
            found[4].append(f"{where}: fn {fn}, an equality by hand")
        if body.count("\n") > 5:
            shape = re.sub(r"\b[A-Z]\w*\b|\b\d\w*\b|b?\"[^\"]*\"", "_", flat)
            shape = re.sub(r"\b(state|shunter|machine|next|sets?)\b", "s", shape)
            shapes.setdefault(shape, []).append(f"{where}: fn {fn}")
        for kind, clause in clauses:
            if kind == "requires":
                for fact in re.split(r"×", clause.strip("{} ")):
                    facts.setdefault(re.sub(r"[()]", "", fact).strip(), []).append(f"{where}: fn {fn}")
        named = [p.strip() for p in params.strip("()").split(",") if ":" in p]
        for i, a in enumerate(named):
            for b in named[i + 1:]:
                pairs.setdefault((where.split("/")[0], a, b), []).append(fn)
        for a, b in zip(named, named[1:]):
            if re.search(r": &mut \[", a) and re.fullmatch(r"(count|len|length|used): usize", b):
                found[6].append(f"{where}: fn {fn}, a buffer with a length beside it")
for shape, places in shapes.items():
    found[2] += places if len(places) > 1 else []
for fact, places in facts.items():
    if len(places) > 2 and fact:
        found[5].append(f"{fact}, required by {len(places)}: {', '.join(sorted(set(places)))}")
for (crate, a, b), places in pairs.items():
    if len(set(places)) > 4:
        found[5].append(f"{crate}: {a} and {b}, of {len(places)} functions")
for n in range(1, 8):
    if point in (0, n):
        print(f"point {n}: {len(found[n])}")
        if point:
            print("\n".join("  " + place for place in found[n]))
