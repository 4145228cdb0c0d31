#!/usr/bin/env python3
"""Spells the repository's own definitions, lemmas and fields as today's Rattle does: words in snake case, a prime as an apostrophe.

usage: tools/respell.py            at the top of the repository, once, right after the kit's port.py; docs/PORT.md names the commit

Types, modules and constructors keep their capital. Functions of src/, exported C names, strings, inputs and outputs are not touched. Where two
names fall together, a lemma takes `_lem` (the kit's rule); the other cases are listed below. It prints the names that it gave.
"""

import os
import re
import sys

PROOFS = ("Proof.antt", "Answers.antt", "Invariants.antt")
NAMED = re.compile(r"^( *(?:abbrev |unfoldable )?(?:pub )?)([^\s:(){}=|]+) :(?!:)(?:\s|$)")
DECLARED = re.compile(r"^(?:abbrev )?(?:pub )?(?:record|data) ")
FIELD = re.compile(r"^ +(?:pub )?([^\s:(){}=|]+) :\s")
TOKEN = re.compile(r"[^\s(){}\[\].;,«»⌜⌝\"`/]+")
QUOTED = re.compile(r"«(\w+(?:-\w+)+)»")

# A field whose name would fall together with a definition's: by its crate, or behind a dot.
OWN = {("rows_pixels", "place-in"): "place_in"}
FIELDS = {".kind_fits": ".kind_fitting"}
# What a file takes from the kit's library.
LIBRARY = r"^use (?!Rattle\.(?:%s)\.)\S+?\.\{([^}]*)\}"
# Names with a capital that are no types: SCOPE's MULT, FLOOR and FRAC.
WORDS = ("MULT", "FLOOR", "FRAC")


def snake(name):
    name = name.replace("-", "_").replace("′", "'")
    return re.sub(r"(?<=[a-z0-9])(?=[A-Z])", "_", name).lower()


def files(ends):
    for folder, dirs, names in os.walk("crates"):
        dirs[:] = sorted(d for d in dirs if d != "out")
        for name in sorted(names):
            if name.endswith(ends):
                yield os.path.join(folder, name)


def read(path):
    with open(path, encoding="utf-8") as f:
        return f.read()


def own_names():
    """What the repository defines in antt, outside the proofs of functions."""
    found = set()
    for path in files(".antt"):
        if os.path.basename(path) in PROOFS and path.count("/") > 3:
            continue
        inside = False
        for line in read(path).split("\n"):
            if DECLARED.match(line):
                inside = True
            elif line.strip() and not line.startswith(" "):
                inside = False
            named = NAMED.match(line) or inside and FIELD.match(line)
            if named:
                found.add(named.groups()[-1])
    return found


def table():
    """Old names to new, and, apart, those lemmas that have the new name of a definition already."""
    groups = {}
    for name in own_names():
        if name.split("-")[0] in WORDS or name[0].islower():
            groups.setdefault(snake(name), set()).add(name)
    to, lemmas = {}, {}
    for new, names in groups.items():
        first = min(names, key=lambda n: ("-" in n, n == new, n))
        for name in names:
            if name == "kind_fits":
                continue
            if name != first:
                (lemmas if name == new else to)[name] = new + "_lem"
            elif name != new:
                to[name] = new
    return to, lemmas


def respell(text, to, crate):
    def one(m):
        word = m.group(0)
        return OWN.get((crate, word)) or to.get(word, word)

    return TOKEN.sub(one, text)


def bare(code, lemmas):
    """A lemma's name where it stands bare: behind a dot it is a function of src/ or a step of its code."""
    def one(m):
        dot, word = m.groups()
        return FIELDS.get(dot + word) or dot + (word if dot else lemmas.get(word, word))

    code = re.sub(r"(\.?)(?<![\w'-])([\w'-]+)", one, code)
    return re.sub(r"^( +(?:pub )?)kind_fits( :| =)", r"\1kind_fitting\2", code)


def in_ticks(text, to, crate):
    return re.sub(r"`[^`\n]*`", lambda m: respell(m.group(0), to, crate), text)


def antt(text, to, crate, lemmas):
    # what a file takes from the kit's library keeps the library's name
    own = "|".join(sorted(os.listdir("crates")))
    taken = {w.split(" as ")[-1].strip() for m in re.finditer(LIBRARY % own, text, re.M) for w in m.group(1).split(",")}
    to = {old: new for old, new in to.items() if old not in taken}
    lemmas = {old: new for old, new in lemmas.items() if old not in taken}
    out = []
    for line in text.split("\n"):
        at = line.find("--")
        while at > 0 and line[at - 1] != " ":
            at = line.find("--", at + 1)
        code, note = (line, "") if at < 0 else (line[:at], line[at:])
        code = respell(bare(code, lemmas), to, crate)
        out.append(QUOTED.sub(lambda m: snake(m.group(1)), code) + in_ticks(note, to, crate))
    return "\n".join(out)


def source(text, to, crate):
    out = []
    for line in text.split("\n"):
        at = line.find("//")
        code, note = (line, "") if at < 0 else (line[:at], line[at:])
        parts = re.split(r'("(?:[^"\\]|\\.)*")', code)
        code = "".join(p if i % 2 else respell(p, to, crate) for i, p in enumerate(parts))
        out.append(code + in_ticks(note, to, crate))
    return "\n".join(out)


def edit(text, to, crate):
    out = []
    for line in text.split("\n"):
        if line.startswith(("old:", "new:")):
            line = line[:4] + respell(line[4:], to, crate)
        out.append(line)
    return "\n".join(out)


def main():
    to, lemmas = table()
    if not to:
        print("respell: the names are spelled already", file=sys.stderr)
        return 1
    turned = {}
    for path in files(".antt"):
        turned[path] = antt(read(path), to, path.split("/")[1], lemmas)
    for path in files(".rt"):
        turned[path] = source(read(path), to, path.split("/")[1])
    # what port.py respelled in the crates stands in edits and pages as it was
    now = set(to.values()) | own_names()

    def with_older(words):
        more = {w: snake(w) for w in words if w not in to and w[0].islower() and snake(w) != w and snake(w) in now}
        return {**to, **more}

    for path in files(".edit"):
        text = read(path)
        turned[path] = edit(text, with_older(TOKEN.findall(text)), path.split("/")[1])
    for path in ["README.md"] + ["docs/" + n for n in sorted(os.listdir("docs")) if n.endswith(".md")]:
        text = read(path)
        quoted = " ".join(re.findall(r"`[^`\n]*`", text))
        turned[path] = in_ticks(text, with_older(TOKEN.findall(quoted)), None)
    for path, text in turned.items():
        if text != read(path):
            with open(path, "w", encoding="utf-8") as f:
                f.write(text)
    for name, new in sorted({**to, **lemmas}.items()):
        print(name, new)
    return 0


if __name__ == "__main__":
    sys.exit(main())
