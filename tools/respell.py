#!/usr/bin/env python3
"""Brings the names of this repository's definitions, fields and lemmas to snake case, in crates, must-fail edits and pages.

usage: tools/respell.py            at the top of the checkout, once, after port.py of the kit's port

A capital inside a name and a dash become an underscore; a lemma that would get the name of a definition ends in '_lem'. Types, modules, functions of src/ and the labels that
Rattle makes (what stands behind a dot in the proof of a function, and the names of its answers) keep theirs. In comments and pages a name with a dash is one only between back quotes.
"""

import collections
import os
import re
import sys

MARKS = r"(?:(?:abbrev|unfoldable|pattern|pub|private)\s+)*"
NAME = r"[^\s(){}:.;,@\"«»`\[\]|]+"
DECLARED = re.compile(rf"^( *){MARKS}({NAME})((?: {NAME})*)(?: \{{[^{{}}\n]*\}})* :(?:\s|$)")
TOKEN = re.compile(NAME)
QUOTED = re.compile(r"`[^`\n]+`")
HEADED = re.compile(r"^(--   )(\S+(?:, \S+)*)( {2,})(?=\S)")
# Words of the library inside a name of this repository.
WORDS = (("getD", "get_or"), ("natAbs", "nat_abs"))


def texts(top):
    for folder, dirs, files in os.walk(top):
        dirs[:] = sorted(d for d in dirs if d not in ("out", "target", ".git"))
        for f in sorted(files):
            if f.endswith((".antt", ".rt", ".edit", ".md")):
                yield os.path.join(folder, f)


# Whether a file proves one function: its answers bear names that Rattle makes.
def of_a_function(path):
    return re.search(r"/proofs/[^/]+/[^/]+\.antt$", path) is not None


def snake(name):
    for a, b in WORDS:
        name = name.replace(a, b)
    name = re.sub(r"([a-z0-9])([A-Z])", r"\1_\2", name)
    name = re.sub(r"([A-Z]+)([A-Z][a-z])", r"\1_\2", name)
    return name.lower().replace("-", "_")


def declared(path):
    with open(path, encoding="utf-8") as f:
        for line in f:
            if m := DECLARED.match(line):
                yield from [m[2], *m[3].split()]


def spellings():
    names, mine = collections.OrderedDict(), collections.defaultdict(set)
    for path in texts("crates"):
        if path.endswith(".antt"):
            for n in declared(path):
                if re.match(r"[a-z]", n):
                    mine[path].add(n)
                    if not of_a_function(path):
                        names[n] = None
    new = {n: snake(n) for n in names}
    # A definition has its name before a lemma has.
    held = {n for n in names if new[n] == n}
    turned = {}
    for n in sorted(names, key=lambda n: ("-" in n, n)):
        if new[n] == n:
            continue
        to = new[n]
        while to in held:
            to += "_lem"
        held.add(to)
        turned[n] = to
    return turned, mine


def turn(text, path, turned, local):
    proof = of_a_function(path)
    md = path.endswith(".md")

    def word(m):
        n = m[0]
        if n not in turned:
            return n
        before = m.string[m.start() - 1] if m.start() else " "
        if "-" in n and proof and (before == "." or n in local):
            return n
        return turned[n]

    def prose(s):
        s = TOKEN.sub(lambda m: m[0] if "-" in m[0] else word(m), s)
        return QUOTED.sub(lambda m: TOKEN.sub(word, m[0]), s)

    out = []
    for line in text.split("\n"):
        if md:
            line = QUOTED.sub(lambda m: TOKEN.sub(word, m[0]), line)
        else:
            cut = re.search(r"(?:^|(?<=\s))(?:--|//)(?=\s|$)", line)
            i = cut.start() if cut else len(line)
            if path.endswith(".edit") and not line.startswith(("old:", "new:")):
                i = 0
            code, said = TOKEN.sub(word, line[:i]), line[i:]
            if h := HEADED.match(said):
                heads = TOKEN.sub(word, h[2])
                said = h[1] + heads + " " * max(2, len(h[2]) + len(h[3]) - len(heads)) + prose(said[h.end():])
            else:
                said = prose(said)
            line = code + said
        out.append(line)
    return "\n".join(out)


def main():
    if not os.path.isdir("crates"):
        sys.exit("run it at the top of the checkout")
    turned, mine = spellings()
    for path in texts("."):
        with open(path, encoding="utf-8") as f:
            text = f.read()
        new = turn(text, path, turned, mine["crates/" + path.split("crates/", 1)[-1]] if "crates/" in path else set())
        if new != text:
            with open(path, "w", encoding="utf-8") as f:
                f.write(new)
    for n, to in turned.items():
        if to != snake(n):
            print(f"{n}: {to}, since {snake(n)} is another name")
    print(f"{len(turned)} names respelled")


if __name__ == "__main__":
    main()
