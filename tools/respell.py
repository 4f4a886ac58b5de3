#!/usr/bin/env python3
"""Respells the repository's own definitions and lemmas: a dash in a name becomes an underscore.

usage: python3 tools/respell.py        at the top of the repository: rewrites specs/, proofs/ and the clauses of src/

A name counts as the repository's own where a file of specs/ or proofs/ declares it. Names of goals, of what the checker makes and of libraries
keep their dashes. Run once, after the kit's own script.
"""

import collections
import os
import re
import sys

TOKEN = r"[^\s(){}\[\]:.,;`⌜⌝]+"
DECLARED = re.compile(r"^(\s*)((?:pub |abbrev |unfoldable |record |data )*)(" + TOKEN + r")((?:\s+[({][^(){}]*[)}])*)\s*:\s+(\S+)", re.M)
IMPORT = re.compile(r"^\s*(?:ghost |pub )?use ([^\s{}]+)\.\{([^}]*)\}", re.M)


def files(root):
    for folder, dirs, names in os.walk(os.path.join(root, "crates")):
        dirs[:] = sorted(d for d in dirs if d != "out")
        for n in sorted(names):
            if n.endswith((".antt", ".rt", ".edit")):
                yield os.path.join(folder, n)


def main():
    root = os.getcwd()
    own_crates = set(os.listdir(os.path.join(root, "crates")))
    texts = {}
    for p in files(root):
        with open(p, encoding="utf-8") as f:
            texts[p] = f.read()

    declared, fields, goals, words = {}, set(), set(), collections.Counter()
    library = collections.defaultdict(set)
    for p, t in texts.items():
        for m in re.finditer(TOKEN, t):
            words[m.group(0)] += 1
        for m in IMPORT.finditer(t):
            parts = m.group(1).split(".")
            own = parts[0] == "Rattle" and len(parts) > 1 and parts[1] in own_crates
            for x in m.group(2).split(","):
                name, _, alias = x.strip().partition(" as ")
                if "-" in alias and alias[0].isalpha():
                    declared.setdefault(alias, p)
                elif not own:
                    library[p].add(name)
        if not p.endswith(".antt"):
            continue
        for m in DECLARED.finditer(t):
            name = m.group(3)
            if "-" not in name.strip("-") or not name[0].isalpha():
                continue
            if m.group(5).startswith("goal."):
                goals.add(name)
                continue
            declared.setdefault(name, p)
            if m.group(1) and not m.group(4) and "abbrev" not in m.group(2) and "unfoldable" not in m.group(2):
                fields.add(name)

    new = {}
    for name, p in sorted(declared.items()):
        parts = name.split("-")
        to = "".join(x[:1].upper() + x[1:] for x in parts) if name[0].isupper() else "_".join(parts)
        if name in goals:
            print(f"left: {name} of {p} is a goal's name too")
        elif words[to]:
            print(f"falls together: {name} of {p} and {to}")
            new[name] = to
        else:
            new[name] = to
    values = collections.Counter(new.values())
    for v, n in values.items():
        if n > 1:
            print(f"falls together: {n} names become {v}")

    changed = 0
    for p, t in texts.items():
        def turn(m):
            w = m.group(0)
            if w not in new or w in library[p]:
                return w
            before = t[: m.start()]
            if before.endswith("."):
                path = re.search(r"([^\s(){}\[\],;]+)\.$", before)
                head = path.group(1).split(".")[-1] if path else ""
                if w not in fields and not head[:1].isupper():
                    return w
                if path and path.group(1) in ("c", "goal", "l", "w"):
                    print(f"look: {os.path.relpath(p, root)}: {path.group(1)}.{w}")
            return new[w]

        u = re.sub(TOKEN, turn, t)
        if u != t:
            changed += 1
            with open(p, "w", encoding="utf-8") as f:
                f.write(u)
    print(f"{len(new)} names, {changed} files changed")


if __name__ == "__main__":
    sys.exit(main())
