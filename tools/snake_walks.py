#!/usr/bin/env python3
"""Brings what the walks by hand (Proof.antt) declare to snake case: usage, once, at the top: python3 tools/snake_walks.py

A name with dashes that a walk declares gets underscores in that file and in the pairs of must-fail edits that change it, and `_lem` behind it where
the file has that name already. Names that Rattle makes, which stand behind a dot, keep their dashes.
"""
import glob
import re

STOP = r"\s(){}.;,@\"«»\[\]`"
TOKEN = re.compile(rf"(?<![^{STOP}])[^{STOP}]+")
DECLARED = re.compile(r"(?m)^(?:(?:abbrev|unfoldable|pub) )*([a-z][^\s(){}:;,=.]*-[^\s(){}:;,=.]*) :(?= |$)")


def turned(text, new):
    def one(m):
        return m[0] if m.string[m.start() - 1 : m.start()] == "." else new.get(m[0], m[0])

    out = []
    for line in text.split("\n"):
        cut = line.find("--")
        code, rest = (line, "") if cut < 0 else (line[:cut], line[cut:])
        out.append((code if re.match(r"\s*use ", code) else TOKEN.sub(one, code)) + rest)
    return "\n".join(out)


def main():
    names, count = {}, 0
    for p in sorted(glob.glob("crates/*/proofs/**/Proof.antt", recursive=True)):
        text = open(p).read()
        words = set(TOKEN.findall(re.sub(r"--[^\n]*", "", text)))
        new = {}
        for n in DECLARED.findall(text):
            to = n.replace("-", "_")
            new[n] = to + "_lem" if to in words else to
        if new:
            names[p] = new
            count += len(new)
            open(p, "w").write(turned(text, new))
    for e in sorted(glob.glob("crates/*/must-fail/*.edit")):
        lines, p = [], None
        for line in open(e).read().split("\n"):
            if line.startswith("file:"):
                p = "/".join(e.split("/")[:2]) + "/" + line[5:].strip()
            if p in names and line[:4] in ("old:", "new:"):
                line = line[:4] + turned(line[4:], names[p])
            lines.append(line)
        open(e, "w").write("\n".join(lines))
    print(f"snake_walks: {count} names in {len(names)} walks")


main()
