#!/usr/bin/env python3
"""Shortens the walks by hand (Proof.antt): usage, once, at the top: python3 tools/tidy_walks.py

A field of a step is found from any later step, so `.before` goes where a field follows it, and so does a `let` that only gives a step another name.
The pairs of must-fail edits that change a walk lose `.before` alike.
"""
import glob
import re

BEFORE = re.compile(r"(?:\.before)+(?=\.(?!before))")
LET = re.compile(r"[ \t]*let ([\w']+) = ([\w']+) in[ \t]*\n?")


def plain(block):
    while True:
        for m in LET.finditer(block):
            new, old = m[1], m[2]
            bound = rf"(λ[^.]*(?<![\w'])({re.escape(new)}|{re.escape(old)})(?![\w'])[^.]*\.)|(let {re.escape(new)}(?![\w']))"
            rest = block[m.end():]
            if re.search(bound, rest) or re.search(rf"let {re.escape(new)}(?![\w'])", block[: m.start()]):
                continue
            rest = re.sub(rf"(?<![\w'.-]){re.escape(new)}(?![\w'-])(?! [:↦=])", old, rest)
            before = block[: m.start()]
            if block[m.start(): m.end()].endswith("\n"):
                block = before + rest
            else:
                block = before + " " * (len(m[0]) - len(m[0].lstrip())) + rest.lstrip()
            break
        else:
            return block


def main():
    lets = 0
    for p in sorted(glob.glob("crates/*/proofs/**/Proof.antt", recursive=True)):
        text = open(p).read()
        out = "\n".join(l if l.lstrip().startswith("--") else BEFORE.sub("", l) for l in text.split("\n"))
        blocks = re.split(r"(?m)^(?=(?:(?:abbrev|unfoldable|pub) )*[^\s\-][^\n]* :(?: |$))", out)
        done = "".join(plain(b) for b in blocks)
        lets += len(LET.findall(out)) - len(LET.findall(done))
        if done != text:
            open(p, "w").write(done)
    for e in sorted(glob.glob("crates/*/must-fail/*.edit")):
        out, walk = [], False
        for line in open(e).read().split("\n"):
            if line.startswith("file:"):
                walk = line.endswith("Proof.antt")
            out.append(BEFORE.sub("", line) if walk and line[:4] in ("old:", "new:") else line)
        open(e, "w").write("\n".join(out))
    print(f"tidy_walks: {lets} lets are gone")


main()
