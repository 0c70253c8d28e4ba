#!/usr/bin/env python3
"""Respells, in a crate's Answers.antt and Invariants.antt, the names that Rattle makes, where they differ in - and _ alone.

usage: python3 tools/made_names.py CRATE..      at the top of the repository; each crate's lower crates are proved
"""
import json
import os
import re
import subprocess
import sys
import tempfile

TOKEN = re.compile(r"[A-Za-z_][\w'-]*")


def words(it):
    if isinstance(it, str):
        yield it
    elif isinstance(it, list):
        for x in it:
            yield from words(x)
    elif isinstance(it, dict):
        for k, x in it.items():
            yield k
            yield from words(x)


def flat(name):
    return name.replace("-", "_")


def main():
    for crate in sys.argv[1:]:
        with tempfile.TemporaryDirectory() as d:
            subprocess.run(["rt", "check", "--generated", d, "--old-names"], cwd=os.path.join("crates", crate), stdout=subprocess.DEVNULL, stderr=subprocess.STDOUT)
            with open(os.path.join(d, "names.json"), encoding="utf-8") as f:
                names = json.load(f)
        by_folder = {}
        for key, entry in names.items():
            parts = key.split("-proofs.", 1)[-1].split(".")[:-1]
            by_folder.setdefault(flat("/".join(parts)), set()).update(w for w in words(entry) if TOKEN.fullmatch(w))
        for folder, _, files in os.walk(os.path.join("crates", crate, "proofs")):
            rel = flat(os.path.relpath(folder, os.path.join("crates", crate, "proofs")))
            valid = by_folder.get(rel) or by_folder.get(rel.replace("+", ""))
            for f in files:
                if f not in ("Answers.antt", "Invariants.antt"):
                    continue
                path = os.path.join(folder, f)
                if not valid:
                    print("left: no names for", path)
                    continue
                turned = {}
                for v in valid:
                    turned.setdefault(flat(v), set()).add(v)
                with open(path, encoding="utf-8") as it:
                    text = it.read()

                def turn(m):
                    w = m.group(0)
                    new = turned.get(flat(w), set())
                    return next(iter(new)) if "-" in w and w not in valid and len(new) == 1 else w

                out = TOKEN.sub(turn, text)
                if out != text:
                    with open(path, "w", encoding="utf-8") as it:
                        it.write(out)
                    print("change:", path)


main()
