#!/usr/bin/env python3
"""Lists the statements of proofs/ that changed, old and new, and those that are gone or new: usage: statements.py OLD NEW
OLD and NEW are folders with crates/. What a function's own proof says (Proof, Answers, Invariants) is left out. By text alone: a statement is
found again by its name in its crate. With a third word `count` it prints only how many."""
import collections
import os
import re
import sys

HEAD = re.compile(r"^( *)(?:abbrev |unfoldable |record |data |pub |lemma )*([^\s:(){}]+) :(?: |$)(.*)$")


def statements(root):
    found = collections.OrderedDict()
    for d, _, files in sorted(os.walk(os.path.join(root, "crates"))):
        if "/proofs" not in d or "/target" in d or "/out/" in d:
            continue
        for f in sorted(files):
            if not f.endswith(".antt") or f in ("Proof.antt", "Answers.antt", "Invariants.antt"):
                continue
            crate = d.split("/crates/")[1].split("/")[0]
            lines = open(os.path.join(d, f), encoding="utf-8").read().split("\n")
            i = 0
            while i < len(lines):
                m = HEAD.match(lines[i])
                if not m or lines[i].lstrip().startswith("--"):
                    i += 1
                    continue
                text, j = [m[3]], i + 1
                ends = re.compile(r"^" + m[1] + r"\S")
                while j < len(lines) and lines[j].strip() and not ends.match(lines[j]):
                    text.append(lines[j])
                    j += 1
                key = (crate, m[2])
                found.setdefault(key, []).append((os.path.join(d, f).split("/crates/")[1], re.sub(r"\s+", " ", " ".join(text)).strip()))
                i = j
    return found


def main(argv):
    old, new = statements(argv[0]), statements(argv[1])
    same = changed = 0
    rows = []
    gone = [k for k in old if k not in new]
    for k in old:
        if k not in new:
            continue
        a, b = [t for _, t in old[k]], [t for _, t in new[k]]
        if a == b:
            same += 1
            continue
        for x in [t for t in a if t not in b]:
            left = [t for t in b if t not in a]
            rows.append((k, old[k][0][0], x, left))
            changed += 1
    fresh = [k for k in new if k not in old]
    print(f"statements {len(old)} -> {len(new)}: the same {same}, changed {changed}, gone {len(gone)}, new {len(fresh)}")
    if len(argv) > 2:
        return 0
    for k, f, x, left in rows:
        print(f"changed: {k[0]} {k[1]} ({f})\n    - {x}")
        for y in left:
            print(f"    + {y}")
    for k in gone:
        print(f"gone: {k[0]} {k[1]} ({old[k][0][0]})\n    - {old[k][0][1]}")
    for k in fresh:
        print(f"new: {k[0]} {k[1]} ({new[k][0][0]})\n    + {new[k][0][1]}")
    return 0


if __name__ == "__main__":
    raise SystemExit(main(sys.argv[1:]))
