#!/usr/bin/env python3
"""Brings the repository's own definitions and lemmas to snake case: usage, once after port.py, at the top: python3 tools/snake_names.py

A name that a file of specs/ or proofs/ declares in lower camel case or with dashes gets underscores, wherever it stands in .antt files,
clauses, must-fail edits and the pages. Functions of src/ and what Rattle makes of them keep their names. Where a lemma would have the name
of a definition it gets `_lem` behind it.
"""
import collections
import glob
import re

# Constructors and variables that no line declares by itself.
OTHERS = "readArray asArray outAfter textAfter outNow textNow wordsAfter numbersAfter".split()
STOP = r"\s(){}.;,@\"«»\[\]`"
TOKEN = re.compile(rf"(?<![^{STOP}])[^{STOP}]+")
DECLARED = re.compile(r"(?m)^ *((?:(?:abbrev|unfoldable|opaque|pub|record|data) )*)([^\s(){}:;,=.]+)((?: [^=\n]*?)?) :(?= |$)")
OUTSIDE = re.compile(r"(?m)^\s*(?:pub |ghost )?use ([\w.']+)\.\{([^}]*)\}")
OURS = tuple(f"Rattle.{p.split('/')[1]}." for p in glob.glob("crates/*"))
USE = re.compile(r"(?m)^\s*(?:pub |ghost )?use (Rattle\.[\w.']+)\.\{([^}]*)\}")


def snake(name):
    return re.sub(r"(?<=[a-z0-9])[A-Z]", lambda m: "_" + m[0].lower(), name).replace("-", "_")


def wants(name):
    return re.match(r"[a-z]", name) and ("-" in name or re.search(r"[a-z0-9][A-Z]", name))


def read(path):
    with open(path, encoding="utf-8") as f:
        return f.read()


def plain(text, mark):
    return re.sub(rf"{mark}[^\n]*", "", text)


def main():
    antt = sorted(glob.glob("crates/*/specs/**/*.antt", recursive=True) + glob.glob("crates/*/proofs/**/*.antt", recursive=True))
    sources = sorted(glob.glob("crates/*/src/**/*.rt", recursive=True))
    edits = sorted(glob.glob("crates/*/must-fail/*.edit"))
    pages = ["README.md", *sorted(glob.glob("docs/*.md")), "second/README.md", "tests/cases/README.md"]
    texts = {p: read(p) for p in antt + sources + edits + pages}
    by_hand = {p for p in antt if p.endswith("/Proof.antt")}

    declares = collections.defaultdict(set)
    for p in antt:
        for m in DECLARED.finditer(plain(texts[p], "--")):
            declares[m[2]].add(p)
    # A name that only proofs of functions declare is one of Rattle's, or local.
    own = {n for n in declares if wants(n) and declares[n] - by_hand} | set(OTHERS)

    groups = collections.defaultdict(set)
    for n in own:
        groups[snake(n)].add(n)
    new, lemmas = {}, {}
    for to, olds in groups.items():
        camel = {n for n in olds if "-" not in n}
        for n in olds:
            taken = "-" in n and (camel or to in declares)
            new[n] = to + "_lem" if taken else to
        # An older lemma of a definition's new name.
        if camel and to in declares:
            lemmas[to] = to + "_lem"

    changed = 0
    for p, text in texts.items():
        mark = "//" if p.endswith(".rt") else "--"
        outside = {it.strip().split(" ")[0] for m in OUTSIDE.finditer(text) for it in m[2].split(",") if not m[1].startswith(OURS)}
        imported = {it.strip().split(" ")[0] for m in USE.finditer(text) for it in m[2].split(",")}
        from_proofs = {it.strip().split(" ")[0] for m in USE.finditer(text) if ".proofs." in m[1] for it in m[2].split(",")}
        here = {n for n in lemmas if p in declares[n] or n in from_proofs} if p in antt else set()

        def turned(m, line_start):
            word, before = m[0], m.string[m.start() - 1 : m.start()]
            if word in here and before != ".":
                return lemmas[word]
            if word not in new or word in outside:
                return word
            if p in by_hand and "-" in word and (before == "." or word not in imported):
                return word
            return new[word]

        out = []
        for line in text.split("\n"):
            if p in pages:
                out.append(re.sub(r"`[^`\n]*`", lambda q: TOKEN.sub(lambda m: turned(m, line), q[0]), line))
                continue
            cut = line.find(mark) if p not in edits else -1
            code, rest = (line, "") if cut < 0 else (line[:cut], line[cut:])
            if p in edits and line.startswith("#"):
                code, rest = "", line
            parts = re.split(r'("[^"\n]*")', code)
            code = "".join(s if i % 2 else TOKEN.sub(lambda m: turned(m, line), s) for i, s in enumerate(parts))
            rest = re.sub(r"`[^`\n]*`", lambda q: TOKEN.sub(lambda m: turned(m, line), q[0]), rest)
            out.append(code + rest)
        to = "\n".join(out)
        if to != text:
            changed += 1
            with open(p, "w", encoding="utf-8") as f:
                f.write(to)
    print(f"snake_names: {len(new)} names, {len(lemmas)} older lemmas, {changed} files")


main()
