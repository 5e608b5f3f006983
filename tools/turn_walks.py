#!/usr/bin/env python3
"""Turns the names that Rattle makes in the walks by hand (Proof.antt): usage, at the top: rt names OUT; python3 tools/turn_walks.py OUT CRATE..

A step, a goal or a place of the older Rattle gets the name of today's, from the list that `rt names` writes, and each chain of `.before` the length
that leads to its step today. It prints what it could not decide, by hand.
"""
import collections
import glob
import json
import re
import sys

NAME = r"[^\s(){}.;,@\"«»\[\]]+"
CHAIN = re.compile(rf"(?<![^\s(){{}};,@\[\]←]){NAME}((?:\.(?:«[^»]*»|{NAME}))+)")
STARTS = {"args", "requires", "ranges", "well_formed", "initial"}
dashed = lambda it: it.replace("_", "-")


def words_of_source():
    out = set()
    for p in glob.glob("crates/*/src/**/*.rt", recursive=True):
        out |= set(re.findall(r"\b[A-Za-z_]\w*\b", open(p).read()))
    for p in glob.glob("crates/*/specs/**/*.antt", recursive=True) + glob.glob("crates/*/proofs/*.antt") + glob.glob("crates/*/proofs/History/*.antt"):
        out |= set(re.findall(r"(?m)^ *(?:(?:abbrev|unfoldable|pub) )*([a-z]\w*_\w*)\b", open(p).read()))
    return out


class Walk:
    def __init__(self, path, names, fn, source):
        self.path, self.names, self.fn, self.source, self.said = path, names, fn, source, []
        self.places = {}
        for i, (place, parent, (old, new), callee, subs) in enumerate(names["places"]):
            self.places[dashed(place)] = dict(
                name=names["places_by_name"][i], parent=parent and dashed(parent), old=dashed(old), new=new,
                subs=dict(subs), clause=names["clauses"][i], arm=names["arms"][i],
            )
        self.needs = {dashed(a): b for a, b in names["needs"]}
        self.at_need = {dashed(a): dashed(names["asked_at"][i][0]) for i, (a, b) in enumerate(names["needs"])}
        self.loops = {dashed(a[0]): a[1] for a, vs in names["loops"]}
        self.args = {a.replace(" ", "")[6:]: b.replace(" ", "")[6:] for a, b in names["args"] if a.startswith(".args ")}
        self.alias = {}

    def up(self, p):
        """The place one `.before` further out today."""
        it = self.places[p]
        if it["arm"] and it["arm"][1] > 1:
            for _ in range(it["arm"][1] - 1):
                p = self.places[p]["parent"]
        return self.places[p]["parent"]

    def out(self, p):
        n = 0
        while p:
            yield n, p
            n, p = n + 1, self.up(p)

    def goal(self, word):
        rest = dashed(word[5:])
        for it in (rest, rest.replace("overflow-", ""), rest.replace("slice-bounds-", "bounds-")):
            if it in self.needs:
                return it

    def tie(self, m):
        word = m[1]
        if word in ("spec", "close"):
            return m[0]
        for head in ("invariant-", "decreases-"):
            if word.startswith(head):
                rest = dashed(word[len(head):])
                if rest in self.loops:
                    return "tie." + head + self.loops[rest]
        if word.startswith("Need-"):
            it = self.goal(word)
            if it:
                return "tie.Need-" + self.needs[it]
            if word.startswith("Need-slice-bounds-"):
                return "tie.Need-slice_bounds-" + word[len("Need-slice-bounds-"):]
        if dashed(word) in self.places:
            return "tie." + self.places[dashed(word)]["name"]
        self.said.append(f"name tie.{word}")
        return m[0]

    def field(self, word, rest_ok=True):
        if "-" in word and word.replace("-", "_") in self.source:
            return word.replace("-", "_")
        return word

    def tail(self, words, place=None, step=None):
        """The fields behind a step."""
        out, i = [], 0
        while i < len(words):
            w = words[i]
            if i == 0 and place and w in place["subs"]:
                w = place["subs"][w]
            elif not w.startswith("«"):
                w = self.field(w)
            out.append(w)
            i += 1
        return out

    def chain(self, at, words):
        """A chain from a variable at a place: today's fields."""
        n = 0
        while n < len(words) and words[n] == "before":
            n += 1
        rest = words[n:]
        if not rest:
            to = at
            for _ in range(n):
                to = to and self.places[to]["parent"]
            for k, p in self.out(at):
                if p == to:
                    return ["before"] * k
            return None
        head = dashed(rest[0])
        if re.search(r"[a-z]2$", head) and all(it["old"] != head for it in self.places.values()):
            head = head[:-1]
        if rest[0] in STARTS:
            for k, p in self.out(at):
                if self.places[p]["parent"] is None:
                    rest = [rest[0]] + ([self.args.get(rest[1], self.field(rest[1]))] + self.tail(rest[2:]) if len(rest) > 1 else [])
                    return ["before"] * k + rest
        branch = len(rest) > 1 and rest[1] == "branch"
        for k, p in self.out(at):
            it = self.places[p]
            if it["arm"]:
                for new, old, path in it["arm"][2]:
                    if dashed(old) == head and len(rest) == 1 and path:
                        self.arm = it["arm"]
                        return ["before"] * k + [it["arm"][0]]
                    if dashed(old) == head and rest[1:1 + len(path)] == path and path:
                        return ["before"] * k + [it["arm"][0], new] + self.tail(rest[1 + len(path):])
            if it["old"] == head and p.startswith("Joined") == branch:
                self.step = it
                return ["before"] * k + [it["new"]] + self.tail(rest[1:], it)
        return False

    def definition(self, text):
        """One declaration with its clauses."""
        env, arms, steps, records = {}, {}, {}, set()
        sig = re.search(r"tie\.Need-(\S+)", text)
        if sig and self.goal("Need-" + sig[1]):
            head = re.search(r"(?m)^(\S+) (\S+)(?: κs)? =", text)
            if head:
                env[head[2]] = self.at_need[self.goal("Need-" + sig[1])]
        for m in re.finditer(rf"\((\S+) : (tie\.)?({NAME})[^()]*\)", text):
            p = dashed(m[3]) if m[2] else self.alias.get(m[3])
            if p in self.places:
                env[m[1]] = p
        m = re.match(rf"(?:abbrev |pub )*\S+ : (tie\.)?({NAME}) →", text)
        if m:
            p = dashed(m[2]) if m[1] else self.alias.get(m[2])
            head = re.search(r"(?m)^(\S+) (\S+) =", text)
            if p in self.places and head:
                env[head[2]] = p
        lines, done = text.split("\n"), []
        for line in lines:
            cut = line.find("--")
            code, comment = (line, "") if cut < 0 else (line[:cut], line[cut:])
            typed = re.search(rf"let (\S+) : ({NAME}) = (\S+?)((?:\.before)+) in", code)
            if typed and typed[2] in self.alias and typed[3] in env:
                to = self.alias[typed[2]]
                for k, p in self.out(env[typed[3]]):
                    if p == to:
                        code = code.replace(typed[0], f"let {typed[1]} : {typed[2]} = {typed[3]}{'.before' * k} in")
                env[typed[1]] = to
            plain = re.search(r"let (\S+) = (\S+?)((?:\.before)+) in", code)
            if plain and plain[2] in env:
                code = code.replace(plain[0], f"let {plain[1]} = {plain[2]} in")
                env[plain[1]] = env[plain[2]]

            def turned(m):
                words = re.findall(rf"«[^»]*»|{NAME}", m[1])
                base = m[0][: len(m[0]) - len(m[1])]
                if base == "tie" or base[0].isupper() or base == "Rattle":
                    return m[0]
                if base in arms and words[0] != "before":
                    for new, old, path in arms[base][2]:
                        if path and words[:len(path)] == path:
                            return base + "".join("." + w for w in [new] + self.tail(words[len(path):]))
                    return m[0]
                if base in records and words[0] in self.args:
                    words = [self.args[words[0]]] + words[1:]
                    return base + "".join("." + w for w in [words[0]] + self.tail(words[1:]))
                if base in steps and words[0] in steps[base]["subs"]:
                    words = [steps[base]["subs"][words[0]]] + words[1:]
                if base in env:
                    self.arm = self.step = None
                    to = self.chain(env[base], words)
                    if to is not None and to is not False:
                        let = re.search(r"let (\S+) = $", code[:m.start()])
                        if self.arm and let:
                            arms[let[1]] = self.arm
                        if let and to[-1] == "args":
                            records.add(let[1])
                        if let and self.step and to[-1] == self.step["new"]:
                            steps[let[1]] = self.step
                        return base + "".join("." + w for w in to)
                    if to is False:
                        self.said.append(f"chain {m[0]} at {env[base]}")
                    elif to is None:
                        self.said.append(f"bare chain {m[0]}")
                    return m[0]
                return base + "".join("." + w for w in self.tail(words))

            code = CHAIN.sub(turned, code) if not re.match(r"\s*use ", code) else code
            for name, to in self.takes.items():
                def handed(m):
                    if m[1] in env:
                        for k, p in self.out(env[m[1]]):
                            if p == to:
                                return f"{name} {m[1]}{'.before' * k}"
                        self.said.append(f"handed {m[0]} at {env[m[1]]}, wanted {to}")
                    return m[0]

                code = re.sub(rf"(?<![^\s(]){re.escape(name)} ([^\s(){{}}.;,]+)((?:\.before)*)(?![\w.-])", handed, code) if not re.match(r"\s*(use|unfolding) |\S+ :|" + re.escape(name) + r" \S+ =", code) else code
            done.append(code + comment)
        return "\n".join(done)

    def turn(self):
        text = open(self.path).read()
        for m in re.finditer(rf"(?m)^(\S+) = tie\.({NAME})", text):
            if dashed(m[2]) in self.places:
                self.alias[m[1]] = dashed(m[2])
        self.takes = {}
        for m in re.finditer(rf"(?m)^(?:abbrev |pub )*(\S+) :\s+(?:\(\S+ : )?(tie\.)?({NAME})(?: invariant-\S+ decreases-\S+)?(?:\)\s|\s+→)", text):
            to = dashed(m[3]) if m[2] else self.alias.get(m[3])
            if to in self.places and not m[1].startswith("returns"):
                self.takes[m[1]] = to
        blocks = re.split(r"(?m)^(?=(?:(?:abbrev|unfoldable|pub) )*[^\s\-][^\n]* :(?: |$))", text)
        text = "".join(self.definition(b) for b in blocks)
        text = re.sub(rf"\btie\.({NAME})", self.tie, text)
        name = self.fn.split(".")[-1]
        own = re.search(r"(?m)^pub (\S+) : \{M : Type 1\} → statement M", text)
        if own and own[1] != name + "_spec":
            text = re.sub(rf"(?<![^\s(]){re.escape(own[1])}(?![^\s)])", name + "_spec", text)
        spec = re.search(r"\(\s*tie\.spec((?:.|\n)*)\)\s*$", text)
        if spec:
            depth, count = 0, 0
            for it in re.findall(r"\(|\)|[^\s()]+", spec[1]):
                count += depth == 0 and it != ")"
                depth += (it == "(") - (it == ")")
            want = len(self.names["needs"]) + 2 * len(self.names["loops"])
            if count != want:
                self.said.append(f"{count} answers where {want} are asked: {[b for a, b in self.names['needs']]}")
        open(self.path, "w").write(text)
        for s in dict.fromkeys(self.said):
            print(f"{self.path}: {s}")


def main():
    folder, crates = sys.argv[1], sys.argv[2:]
    source = words_of_source()
    for crate in crates:
        data = json.load(open(f"{folder}/crates/{crate}/names.json"))
        by_path = {k.split(".", 1)[1].rsplit(".Lts", 1)[0]: v for k, v in data.items() if k.startswith("Rattle")}
        for p in sorted(glob.glob(f"crates/{crate}/proofs/**/Proof.antt", recursive=True)):
            fn = p.split("/proofs/", 1)[1][: -len("/Proof.antt")].replace("/", ".")
            if fn not in by_path:
                print(f"{p}: no names for {fn}")
            else:
                Walk(p, by_path[fn], fn, source).turn()


main()
