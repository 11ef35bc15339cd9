#!/usr/bin/env python3
"""Brings the project's own definitions and lemmas to snake case, once, after the kit's port.py.

usage: python3 tools/respell.py [ROOT]

A name with a capital inside or with a dash becomes snake case: `heightOf` is `height_of`, `power-at-most` is `power_at_most`.
Where a definition and a lemma would fall together, the lemma takes the ending `_lem`. Types and modules keep their capitals,
functions of src/, strings and exported names stay, and so do the names that the prover makes of goals and steps.
In pages only what stands between backticks is turned.
"""
import collections
import os
import re
import sys

DECLARED = re.compile(r"^(\s*)((?:pub |abbrev |unfoldable |instance |private |opaque )*)([^\s:(){}.,=λ]+)\s+(?:\{[^}]*\}\s*|\([^)]*\)\s*)*:(?![=:])(.*)")
MADE = re.compile(r"\s*(tie|goal)\.")
WORD = re.compile(r"[^\s(){}\[\].,;`]+")
IMPORT = re.compile(r"^(?:pub |ghost )*use (\S+?)\.\{(.*)\};?\s*$")


def snake(name):
    name = name.replace("-", "_")
    name = re.sub(r"([a-z0-9'])([A-Z])", lambda m: m.group(1) + "_" + m.group(2).lower(), name)
    return re.sub(r"_([A-Z])", lambda m: "_" + m.group(1).lower(), name)


def paths(root, endings):
    for folder, dirs, files in os.walk(os.path.join(root, "crates")):
        dirs[:] = sorted(d for d in dirs if d != "out")
        for f in sorted(files):
            if f.endswith(endings):
                yield os.path.join(folder, f)


def read(path):
    with open(path, encoding="utf-8") as f:
        return f.read()


def names_of(root):
    """The names declared in specs/ and proofs/, and those of them that are fields."""
    declared, fields = set(), set()
    for path in paths(root, ".antt"):
        for line in read(path).splitlines():
            m = DECLARED.match(line)
            if m and not MADE.match(m.group(4)):
                declared.add(m.group(3))
                if m.group(1):
                    fields.add(m.group(3))
            if line.startswith("use "):
                declared.update(re.findall(r" as ([a-z]+[A-Z]\w*)", line))
    return declared, fields


def turns(declared):
    old = {n for n in declared if not n[0].isupper() and ("-" in n or re.search(r"[a-z0-9'][A-Z]", n))}
    together = collections.defaultdict(set)
    for n in declared:
        if not n[0].isupper():
            together[snake(n)].add(n)
    to = {}
    for new, group in together.items():
        if len(group) == 1:
            (n,) = group
            if n in old:
                to[n] = new
            continue
        # The definition keeps the plain name: the one with a capital, or else the one that the kit's script turned already.
        plain = next((n for n in sorted(group) if "-" not in n and n != new), new)
        for n in group:
            to[n] = new if n == plain else new + "_lem"
    return {a: b for a, b in to.items() if a != b}


def library_names(text):
    """The words that a file imports from a library."""
    found = set()
    for line in text.splitlines():
        m = IMPORT.match(line)
        if m and not own_module(m.group(1)):
            found |= {w.strip() for w in m.group(2).split(",")}
    return found


CRATES = set()


def own_module(path):
    parts = path.split(".")
    return parts[0] == "Rattle" and len(parts) > 1 and parts[1] in CRATES


def turn_words(line, to, skip, fields, walked):
    def one(m):
        w = m.group(0)
        if w in skip or w not in to:
            return w
        before = line[: m.start()]
        if walked and before.endswith(".") and w not in fields:
            return w
        return to[w]

    return WORD.sub(one, line)


def turn_proof(path, to, fields):
    text = read(path)
    skip = library_names(text)
    walked = os.path.basename(path) in ("Proof.antt", "Answers.antt", "Invariants.antt")
    made = set()
    if walked:
        for line in text.splitlines():
            m = DECLARED.match(line)
            if m and MADE.match(m.group(4)):
                made.add(m.group(3))
    return "".join(turn_words(line, to, skip | made, fields, walked) for line in text.splitlines(keepends=True))


def turn_source(path, to):
    out = []
    for line in read(path).splitlines(keepends=True):
        use = line.lstrip().startswith("ghost use")
        allowed = to if use else {a: b for a, b in to.items() if "-" not in a}
        parts = re.split(r'("(?:[^"\\]|\\.)*")', line)
        if not use and path.endswith(".rt"):
            # A word in snake case may be a function's: only clauses cite definitions under such a name.
            if not re.search(r"\b(requires|ensures|invariant)\b|≡", line):
                allowed = {a: b for a, b in allowed.items() if re.search("[A-Z]", a)}
        out.append("".join(p if p.startswith('"') else turn_words(p, allowed, set(), set(), False) for p in parts))
    return "".join(out)


def turn_page(path, to):
    return re.sub(r"`[^`\n]+`", lambda m: turn_words(m.group(0), to, set(), set(), False), read(path))


def main(root):
    CRATES.update(os.listdir(os.path.join(root, "crates")))
    declared, fields = names_of(root)
    to = turns(declared)
    for path in list(paths(root, ".antt")):
        new = turn_proof(path, to, fields)
        write(path, new)
    for path in list(paths(root, ".rt")):
        write(path, turn_source(path, to))
    pages = [os.path.join(root, "README.md")] + [os.path.join(root, "docs", f) for f in sorted(os.listdir(os.path.join(root, "docs"))) if f.endswith(".md")]
    for path in pages:
        if os.path.basename(path) not in ("PORT.md",) and os.path.exists(path):
            write(path, turn_page(path, to))
    return to


def write(path, new):
    if read(path) != new:
        with open(path, "w", encoding="utf-8") as f:
            f.write(new)


if __name__ == "__main__":
    turned = main(sys.argv[1] if len(sys.argv) > 1 else ".")
    for a in sorted(turned):
        print(f"{a}\t{turned[a]}")
