#!/usr/bin/env python3
"""Brings the names of this repository's own definitions and lemmas to snake case, after port.py: run once, at the top.

usage: tools/respell.py [--check]

A name turns if a file of specs/, or a lemma file of proofs/, declares it with a dash or in camel case. It turns as a whole
word in .antt files, in the clauses and ghost items of .rt files, and in the code spans of comments and pages. A name of the
code, a string, and a name that Rattle makes stay. --check writes nothing, and lists the names that would fall together.
"""
import collections
import glob
import os
import re
import sys

NAME = r"[^\s(){}\[\].;,:@\"«»λ`]+"
DECLARED = re.compile(rf"^(\s*)((?:(?:abbrev|unfoldable|pub|record|data|pattern|axiom) )*)({NAME})((?: \{{[^{{}}\n]*\}}| \([^()\n]*\))*) :(?:\s|$)", re.M)
BY_HAND = {"Proof.antt", "Statement.antt", "Answers.antt", "Invariants.antt"}
COMMENT = re.compile(r"--[^\n]*")
CLAUSE = re.compile(r"\b(?:requires|ensures|ghost)\b[^{};]*\{|\bghost\s+use\b")
WORD = re.compile(NAME)
SPAN = re.compile(r"`[^`\n]+`")


def snake(name):
    words = re.sub(r"(?<=[a-z0-9])[A-Z](?=[a-z0-9]|$|-)", lambda m: "_" + m[0].lower(), name)
    return re.sub(r"(?<=[\w'])-(?=\w)", "_", words)


def files(*kinds):
    return sorted(f for kind in kinds for f in glob.glob(kind, recursive=True))


def table():
    found = set()
    for path in files("crates/*/specs/**/*.antt", "crates/*/proofs/**/*.antt"):
        if "/proofs/" in path and os.path.basename(path) in BY_HAND:
            continue
        with open(path, encoding="utf-8") as f:
            text = COMMENT.sub("", f.read())
        for m in DECLARED.finditer(text):
            found.add(m[3])
    own = {name for name in found if re.match(r"[a-z]", name)}
    camel = {snake(name): name for name in own if re.search(r"[a-z0-9][A-Z]", name) and "-" not in name}
    rows = {}
    for name in own:
        new = snake(name)
        # A lemma that would have its function's name ends in _lem.
        if camel.get(new, name) != name:
            new += "_lem"
        if new != name:
            rows[name] = new
    return rows


class Turner:
    def __init__(self, rows):
        self.rows = rows

    def code(self, text):
        def one(m):
            new = self.rows.get(m[0], m[0])
            # Behind a dot a lemma's name is a function of the code.
            if new.endswith("_lem") and text[m.start() - 1 : m.start()] == ".":
                return new[: -len("_lem")]
            return new

        return WORD.sub(one, text)

    def prose(self, text):
        return SPAN.sub(lambda m: self.code(m[0]), text)

    def antt(self, text):
        at, out = 0, []
        for m in re.finditer(r"--[^\n]*|\"(?:[^\"\\\n]|\\.)*\"", text):
            before = m.start() == 0 or text[m.start() - 1] in " \n\t"
            out.append(self.code(text[at : m.start()]))
            out.append(self.prose(m[0]) if m[0][0] == "-" and before else m[0] if m[0][0] == '"' else self.code(m[0]))
            at = m.end()
        return "".join(out) + self.code(text[at:])

    def rt(self, text):
        out, at = [], 0
        for m in re.finditer(r"//[^\n]*|\"(?:[^\"\\\n]|\\.)*\"|\b(?:requires|ensures|ghost)\b", text):
            if m.start() < at:
                continue
            out.append(text[at : m.start()])
            at = m.end()
            if m[0].startswith("//"):
                out.append(self.prose(m[0]))
            elif m[0][0] == '"':
                out.append(m[0])
            else:
                end = self.end_of(text, m.end(), m[0] == "ghost")
                out.append(m[0] + self.code(text[m.end() : end]))
                at = end
        return "".join(out) + text[at:]

    @staticmethod
    def end_of(text, at, ghost):
        depth = 0
        while at < len(text):
            c = text[at]
            depth += (c == "{") - (c == "}")
            at += 1
            if (ghost and c == ";" and depth == 0) or (not ghost and c == "}" and depth == 0):
                return at
            if ghost and c == "}" and depth == 0 and re.match(r"\s*(?![;])\S", text[at:]) :
                return at
        return at


def main():
    check = "--check" in sys.argv
    rows = table()
    turner = Turner(rows)
    clashes = collections.Counter()
    for path in files("crates/*/specs/**/*.antt", "crates/*/proofs/**/*.antt", "crates/*/src/**/*.rt", "README.md", "docs/**/*.md"):
        with open(path, encoding="utf-8") as f:
            text = f.read()
        kind = path.rsplit(".", 1)[1]
        new = turner.antt(text) if kind == "antt" else turner.rt(text) if kind == "rt" else turner.prose(text)
        if kind == "antt":
            words = set(WORD.findall(COMMENT.sub("", text)))
            for old in words & set(rows):
                if rows[old] in words or any(o != old and rows.get(o) == rows[old] for o in words):
                    clashes[(old, rows[old])] += 1
                    print(f"together: {path}: {old} and {rows[old]}")
        if new != text and not check:
            with open(path, "w", encoding="utf-8") as f:
                f.write(new)
    by_new = collections.defaultdict(set)
    for old, new in rows.items():
        by_new[new].add(old)
    for new, olds in by_new.items():
        if len(olds) > 1:
            print("two names:", new, sorted(olds))
    print(len(rows), "names")


main()
