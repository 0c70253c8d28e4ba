#!/usr/bin/env python3
"""Respells this repository's own names in specs/, proofs/ and clauses: words in snake case, types in camel case.

usage: python3 tools/snake_names.py [--dry]     at the top of the repository, once, right after port.py

Renamed are names with a hyphen that specs/*.antt and proofs/**/*.antt define: definitions, lemmas, records and
their fields, locals. Names of std, and those that Rattle makes (goals, steps, arms), keep their hyphens.
"""
import collections
import os
import re
import sys

ID = r"[A-Za-z_][\w'-]*"
TOKEN = re.compile(r"(?<![\w'-])(\.?)(" + ID + r")")
USE = re.compile(r"\b(?:ghost )?use ([\w.]+)\.\{([^}]*)\}")
DEF = re.compile(r"^(?:(?:pub|abbrev|unfoldable) )*(?:(record|data) (?:pub )?)?(" + ID + r")(?= *(?:[:({]|$))")
ALSO = re.compile(r"^ +(?:pub )?(" + ID + r")(?: " + ID + r")* *:")

# where the plain respelling would fall together with a name of std or a variant
OTHERWISE = {
    "bit-and": "bit_of_and",
    "bit-or": "bit_of_or",
    "bit-xor": "bit_of_xor",
    "Short-plan": "PlanIsShort",
    "Short-sheet": "SheetIsShort",
    "Too-large": "IsTooLarge",
}


def respelled(name):
    if name in OTHERWISE:
        return OTHERWISE[name]
    if name[0].isupper():
        return "".join(w[:1].upper() + w[1:] for w in re.split(r"[-_]", name))
    return name.replace("-", "_")


def files(crate):
    for folder, dirs, names in os.walk(os.path.join("crates", crate)):
        dirs[:] = sorted(d for d in dirs if d not in ("out", "data", "must-fail"))
        for f in sorted(names):
            if f.endswith((".antt", ".rt")):
                yield os.path.join(folder, f)


def made(lines):
    """The names that answer a goal or give an invariant: Rattle made them."""
    found = set()
    for l in lines:
        m = re.match(r"^(?:(?:pub|abbrev) )*(" + ID + r") *: *(?:goal|given|tie)\b", l)
        if m:
            found.add(m.group(1))
    return found


def own_module(path):
    return re.match(r"Rattle\.(?!std\b|core\b)\w+\.(specs|proofs)\.", path) and ".declared" not in path and not re.search(r"\.(Goals|Given)$", path)


def fields_of(text):
    found, inside = set(), False
    for l in text.split("\n"):
        if re.match(r"^(?:(?:pub|abbrev|unfoldable) )*record\b", l):
            inside = True
        elif l[:1].strip():
            inside = False
        if inside:
            m = re.match(r"^ +(?:pub )?(" + ID + r") *:", l)
            if m and "-" in m.group(1):
                found.add(m.group(1))
    return found


def main():
    dry = "--dry" in sys.argv
    crates = sorted(os.listdir("crates"))
    fields, goals = set(), set()
    texts = {}
    for c in crates:
        for p in files(c):
            with open(p, encoding="utf-8") as f:
                texts[p] = f.read()
            if p.endswith(".antt"):
                fields |= fields_of(texts[p])
                goals |= made(texts[p].split("\n"))
    kept = collections.Counter()
    clash = []
    for p, t in texts.items():
        lines = t.split("\n")
        std, own = set(), set()
        for m in USE.finditer(t):
            names = re.findall(ID, re.sub(r"\s+as\s+", " ", m.group(2)))
            (own if own_module(m.group(1)) else std).update(n for n in names if n != "as")
        answers = made(lines) if p.endswith(".antt") else set()
        local = set()
        if p.endswith(".antt"):
            for l in lines:
                code = l.split("--")[0]
                m = DEF.match(code) or ALSO.match(code)
                if m:
                    local.add(m.group(m.lastindex))
                for binder in re.findall(r"[λ({]\s*((?:" + ID + r"\s+)*" + ID + r")\s*[.:]", code):
                    local.update(binder.split())
                for b in re.findall(r"\blet (" + ID + ")", code):
                    local.add(b)
        names = {n for n in (own | local) if "-" in n} - std - answers
        before = set()

        def turn(m):
            dot, name = m.groups()
            # an ending of a name with a dot inside, or a hyphen before: no name of ours
            if "-" not in name:
                before.add(name)
                return m.group(0)
            if dot:
                if name in fields and name not in goals:
                    return dot + respelled(name)
                kept["." + name] += 1
                return m.group(0)
            if name in names or (name in fields and name not in std and name not in answers and p.endswith(".antt")):
                return respelled(name)
            kept[name] += 1
            return m.group(0)

        out = []
        for l in lines:
            if p.endswith(".rt"):
                # a string and a comment keep their words
                parts = re.split(r'("(?:[^"\\]|\\.)*"|//.*)', l)
                out.append("".join(x if i % 2 else TOKEN.sub(turn, x) for i, x in enumerate(parts)))
            else:
                code, sep, rest = l.partition("--")
                out.append(TOKEN.sub(turn, code) + sep + rest)
        for n in sorted(names):
            if respelled(n) in before:
                clash.append(f"{p}: {n} falls together with {respelled(n)}")
        new = "\n".join(out)
        if new != t and not dry:
            with open(p, "w", encoding="utf-8") as f:
                f.write(new)
    for c in clash:
        print("look:", c)
    if dry:
        print("kept:", " ".join(f"{n}" for n in sorted(kept)))


if __name__ == "__main__":
    main()
