#!/usr/bin/env python3
"""Brings the repository's own definitions, lemmas and fields to the spelling of today's Rattle: words in snake case.

usage: python3 tools/respell.py [--dry] [FOLDER]

What is declared in specs/ and proofs/ in camel case is written in snake case, and a dash in such a name becomes an underscore, but
between the names of two definitions, which a dash joins. Types, modules, what stands in src/ and what Rattle makes keep their names.
"""

import os
import re
import sys

STD = set(
    "length take drop append map sum reverse replicate set get_or get add mul sub mod div all any every zip fold filter concat"
    " bit_xor bit_and bit_or suc not cond min max".split()
)
W = r"[^\s(){}.;,@`\"«»\[\]\\]+"
CAMEL = re.compile(r"(?<![A-Za-z])([a-z][a-z0-9]*(?:[A-Z][a-z0-9]*)+)")


def files(root, ends):
    for folder, dirs, names in os.walk(root):
        dirs[:] = sorted(d for d in dirs if d not in ("out", ".git", "target"))
        for name in sorted(names):
            if name.endswith(ends):
                yield os.path.join(folder, name)


def snake(word):
    return re.sub(r"(?<=[a-z0-9])([A-Z])", lambda m: "_" + m[1].lower(), word)


def declared(text, of_function):
    """The names that a file declares: definitions, lemmas, fields and constructors; of a function's own file, not what a goal names."""
    for line in text.split("\n"):
        if line.lstrip().startswith(("use ", "--", "unfolding ", "module ", "rewrite")):
            continue
        found = re.match(rf"^ *(?:abbrev |unfoldable |opaque )*(?:pub )?({W}) (?:\{{[^}}]*\}} |\([^)]*\) )*:(?: |$)", line)
        if found and not (of_function and re.search(r": (tie|goal)\.", line)):
            yield found[1]


def imported(texts, crates):
    """The names that some file imports from the kit."""
    found = set()
    for text in texts.values():
        for module, inside in re.findall(r"use ([\w.']+)\.\{([^}]*)\}", text):
            own = re.match(r"Rattle\.(\w+)\.", module)
            if not (own and os.path.isdir(os.path.join(crates, own[1]))):
                found |= set(re.split(r"[,\s]+", inside))
    return found


def main(argv):
    dry = "--dry" in argv
    root = next((a for a in argv if not a.startswith("-")), ".")
    crates = os.path.join(root, "crates")
    texts = {p: open(p, encoding="utf-8").read() for p in files(crates, (".antt", ".rt"))}
    names = set()
    for path, text in texts.items():
        if path.endswith(".antt"):
            names |= set(declared(text, path.endswith(("/Proof.antt", "/Answers.antt", "/Invariants.antt")) and "/proofs/" in path))
    names = {n for n in names if re.match(r"[a-zμκ]", n) and not n.endswith("-spec")}
    words = {snake(n) for n in names if "-" not in n} | STD
    def turned(name):
        plain = CAMEL.sub(lambda m: snake(m[1]), name.replace("getD", "get_or"))
        left, _, right = plain.partition("-")
        if left in STD and right in words:
            return plain
        return plain.replace("-", "_")

    # what the kit exports under such a name keeps it
    names -= imported(texts, crates)
    table = {n: turned(n) for n in names}
    # a lemma that would have its function's name
    for n, t in table.items():
        if "-" in n and t != n and (t in names or t in {table[m] for m in names if "-" not in m and m != n}):
            table[n] = t + "_lem"
    table = {n: t for n, t in table.items() if n != t}
    # variables in camel case
    for path, text in texts.items():
        if path.endswith(".antt"):
            body = "\n".join(l for l in text.split("\n") if not l.lstrip().startswith("--"))
            for token in re.findall(W, body):
                if CAMEL.fullmatch(token) and token not in table:
                    table[token] = snake(token)
    everything = set()
    for path, text in texts.items():
        if path.endswith(".antt"):
            everything |= set(re.findall(W, text))
    by_new = {}
    for n, t in table.items():
        by_new.setdefault(t, set()).add(n)
    for t, ns in sorted(by_new.items()):
        if len(ns) > 1:
            print("together:", t, sorted(ns))
        if t in everything:
            print("taken:", t, sorted(ns))
    if dry:
        for n in sorted(table):
            print("  ", n, "->", table[n])
        return
    token = re.compile(W)

    def line_turned(line):
        return token.sub(lambda m: table.get(m[0], m[0]), line)

    for path, text in texts.items():
        if path.endswith(".antt"):
            new = line_turned(text)
        else:
            new = text_of_source(text, line_turned)
        if new != text:
            with open(path, "w", encoding="utf-8") as f:
                f.write(new)


def text_of_source(text, turned):
    """Of a source file only the clauses and the imports of ghost use."""
    out, at = [], 0
    for found in re.finditer(r"ghost use [^;]*;|\b(?:requires|ensures)\*?(?: \w+)? \{|\bghost \w+: \{", text):
        if found.start() < at:
            continue
        out.append(text[at : found.start()])
        end = found.end()
        if not found[0].startswith("ghost use"):
            depth = 1
            while depth:
                depth += {"{": 1, "}": -1}.get(text[end], 0)
                end += 1
        out.append(turned(text[found.start() : end]))
        at = end
    return "".join(out) + text[at:]


if __name__ == "__main__":
    main(sys.argv[1:])
