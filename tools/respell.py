#!/usr/bin/env python3
"""Respells this repository's own definitions and lemmas in snake case, after port.py of Rattle's kit: rightOf, stamped-later
-> right_of, stamped_later. A lemma that would get a definition's name ends in _lem. Run once, at the top, on a committed tree.
Left as they are: names of libraries, names that Rattle makes for a function's goals, types and modules.
"""

import collections
import os
import re
import sys

DEF = re.compile(r"^\s*((?:abbrev |unfoldable |pub )*)(?:record |data )?([^\s:(){}.]+)(?=\s+:(?:\s|$))", re.M)
TOKEN = re.compile(r"--[^\n]*|//[^\n]*|\"(?:[^\"\\]|\\.)*\"|[^\s(){}.;,@\"«»\[\]]+|\.|[^.]", re.S)
USE = re.compile(r"^(?:pub )?use ([\w.'·-]+)\.\{([^}]*)\}", re.M)


def snake(name):
    kind, dash, rest = name.partition("-")
    if kind[0].isupper() and dash:
        return kind + dash + snake(rest)
    if name[0].isupper() or not re.search(r"[a-z][A-Z]|-|′", name):
        return name
    name = name.replace("-", "_").replace("′", "'")
    return re.sub(r"([a-z0-9])([A-Z])", lambda m: m[1] + "_" + m[2].lower(), name)


def files(root, *ends):
    for folder, dirs, names in os.walk(root):
        dirs[:] = [d for d in dirs if d not in ("out", "target", ".git")]
        for name in sorted(names):
            if name.endswith(ends):
                yield os.path.join(folder, name)


def read(path):
    with open(path, encoding="utf-8", newline="") as f:
        return f.read()


def main():
    own = {c for c in os.listdir("crates")}
    defined = set()
    for path in files("crates", ".antt"):
        if not path.endswith("/Proof.antt"):
            defined |= {m[2] for m in DEF.finditer(read(path))}
    made = set()  # what a proof file calls its goals
    for path in files("crates", "/Proof.antt"):
        made |= {m[1] for m in re.finditer(r"^(?:abbrev |pub )*(\S+) : (?:\{M : Type 1\} → statement|tie\.)", read(path), re.M)}
    turned = {n: snake(n) for n in defined if snake(n) != n}
    there = {n for n in defined if n not in turned}
    by_new = collections.defaultdict(set)
    for old, new in turned.items():
        by_new[new].add(old)
    for new, olds in by_new.items():
        dashed = {o for o in olds if "-" in o}
        if len(olds) > 1 or new in there:
            for old in dashed:
                turned[old] = new + "_lem"
    # port.py itself brought these lemmas to a definition's name
    lemmas = {n: n + "_lem" for n in there if any("-" not in o for o in by_new.get(n, ()))}
    turned["drawsUsed"] = "draws_used_by"  # `draws_used` is a field
    for path in list(files("crates", ".antt", ".rt")):
        text = read(path)
        foreign = set()
        for m in USE.finditer(text):
            parts = m[1].split(".")
            if not (parts[0] == "Rattle" and parts[1] in own):
                foreign |= {x.split(" as ")[-1].strip() for x in m[2].split(",")}
        proof = path.endswith("/Proof.antt")
        goals = set(re.findall(r"^(?:abbrev |pub )*(\S+) : (?:\{M : Type 1\} → statement|tie\.)", text, re.M)) if proof else set()
        out, last, seen = [], "", set(TOKEN.findall(text))
        for t in TOKEN.findall(text):
            new = t
            if t.startswith("--") or t.startswith("//"):
                new = re.sub(r"[A-Za-z]+", lambda m: turned.get(m[0], m[0]), t)
            elif t in turned and t not in foreign and t not in goals and not (proof and last == "." and "-" in t):
                new = turned[t]
                if new in seen and new not in lemmas:
                    print(f"look: {path}: {t} -> {new}, which stands there already", file=sys.stderr)
            elif t in lemmas and "/proofs/" in path and last != ".":
                new = lemmas[t]
            out.append(new)
            last = t
        new = "".join(out)
        if new != text:
            with open(path, "w", encoding="utf-8", newline="") as f:
                f.write(new)
    pages = [p for p in files(".", ".md") if "/out/" not in p]
    for path in pages:
        text = read(path)
        new = re.sub(r"`[^`\n]*`", lambda m: re.sub(r"[A-Za-z][\w'-]*", lambda n: turned.get(n[0], n[0]), m[0]), text)
        if new != text:
            with open(path, "w", encoding="utf-8", newline="") as f:
                f.write(new)
    for old in sorted(turned):
        print(old, turned[old])


main()
