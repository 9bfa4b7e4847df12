#!/usr/bin/env python3
"""Brings the lemmas that stand inside a module of a file, and those of a function's own proof, to the spelling that tools/respell.py gives the
others: words in snake case.

usage: tools/respell_inner.py      at the top of the repository, once, after tools/respell.py and once proofs/F/Proof.antt are gone

`is-apart` becomes `is_apart`, or `is_apart_lem` where a file has both. Names that the toolchain makes stay: goals, invariants, measures, and
what follows a dot, unless the dot follows a module.
"""

import glob
import re

PART = r"[\w'₀-₉ᵢ]+"
TOKEN = re.compile(PART + r"(?:-" + PART + r")*")
DECLARED = re.compile(r"^\s*(?:(?:pub|abbrev|unfoldable)\s+)*([a-z][\w']*(?:-[\w']+)+)\s*:(?!=)")


def read(path):
    with open(path, encoding="utf-8") as f:
        return f.read()


def write(path, text):
    if text != read(path):
        with open(path, "w", encoding="utf-8") as f:
            f.write(text)


def main():
    texts = {path: read(path) for path in sorted(glob.glob("crates/*/proofs/**/*.antt", recursive=True) + glob.glob("crates/*/specs/**/*.antt", recursive=True))}
    new = {}
    for text in texts.values():
        for line in text.splitlines():
            m = DECLARED.match(line)
            if m and " : goal." not in line and not line.strip().startswith("--"):
                new[m.group(1)] = m.group(1).replace("-", "_")
    words = {path: set(TOKEN.findall(re.sub(r"--[^\n]*", "", text))) for path, text in texts.items()}
    for old in new:
        if any(old in w and new[old] in w for w in words.values()):
            new[old] += "_lem"
    for path, text in texts.items():
        aliases = set(re.findall(r"\bas ([\w'-]+)", text))

        def one(m, text=text, aliases=aliases):
            word = m.group(0)
            if word not in new:
                return word
            line = text[text.rfind("\n", 0, m.start()) + 1 : m.start()]
            if "--" in line and line.count("`") % 2 == 0:
                return word
            owner = re.search(r"([\w'+-]+)\.$", line)
            if line.endswith(".") and not (owner and (owner.group(1)[0].isupper() or owner.group(1) in aliases)):
                return word
            return new[word]

        write(path, TOKEN.sub(one, text))
    for path in sorted(glob.glob("crates/*/must-fail/*.edit")):
        write(path, TOKEN.sub(lambda m: new.get(m.group(0), m.group(0)), read(path)))
    for path in ["README.md", *sorted(glob.glob("docs/**/*.md", recursive=True))]:
        write(path, re.sub(r"`[^`\n]+`", lambda m: TOKEN.sub(lambda t: new.get(t.group(0), t.group(0)), m.group(0)), read(path)))


if __name__ == "__main__":
    main()
