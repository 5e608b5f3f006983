#!/usr/bin/env python3
"""Prints the end of docs/DESIGN-PASS.md, old and new side by side: signatures, clauses, definitions and statements of proofs/ that changed.
usage: side_by_side.py OLD NEW (folders with crates/, such as two clones)"""
import json
import os
import subprocess
import sys

HERE = os.path.dirname(os.path.abspath(__file__))


def shown(name, old, new):
    return [name] + ["  - " + x for x in old] + ["  + " + x for x in new]


def clauses(requires, ensures):
    return [f"{word} {(n + ' ') if n else ''}{{ {text} }}" for word, xs in (("requires", requires), ("ensures", ensures)) for n, text in xs]


def section(title, lines):
    print("\n".join(["", "### " + title, "", "```"] + lines + ["```"]))


def main(old, new):
    r = json.loads(subprocess.run([sys.executable, "/opt/rattle/port/contracts.py", old, new, "--json"], stdout=subprocess.PIPE, text=True, check=False).stdout)
    section("Signatures", [x for s in r["signatures changed"] for x in shown(s[0], [s[1]], [s[2]])])
    lines = []
    for name, old_requires, old_ensures, new_requires, new_ensures in r["contracts changed"]:
        a, b = clauses(old_requires, old_ensures), clauses(new_requires, new_ensures)
        lines += shown(name, [x for x in a if x not in b], [x for x in b if x not in a])
    section("Clauses", lines)
    section("Definitions", [x for d in r["definitions"]["changed"] for x in shown(d[0] + " " + d[1], d[2], d[3])])
    found = subprocess.run([sys.executable, os.path.join(HERE, "statements.py"), old, new], stdout=subprocess.PIPE, text=True, check=True).stdout.split("\n")
    lines = []
    for x in found:
        if x.startswith(("gone: ", "new: ")):
            break
        lines.append(x.replace("    - ", "  - ").replace("    + ", "  + ").replace("changed: ", ""))
    section("Statements of proofs/", [x for x in lines if x])


if __name__ == "__main__":
    if len(sys.argv) != 3:
        raise SystemExit(__doc__)
    main(*sys.argv[1:])
