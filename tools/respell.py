#!/usr/bin/env python3
"""Brings the repository's own definitions and lemmas to one spelling: words in snake case, types and modules in camel case.

usage: tools/respell.py [--list]      at the top of the repository, once, right after the toolchain's port.py

A definition `blockTotal` becomes `block_total`, and a lemma `total-more` becomes `total_more`, or `total_more_lem` where a definition has that
name. Names are those that a file of specs/, or a
file right in proofs/, declares; a name that begins with a capital is a type and stays. Functions of src/, strings, inputs and outputs keep
their names. A name with no capital that stands as a field, after a dot, is one that the toolchain makes for a step of a function, and stays, unless
the dot follows a module. --list prints the old and the new names, and the files where the two would fall together, and writes nothing.
"""

import collections
import glob
import re
import sys

DECLARED = re.compile(r"^(?:(?:unfoldable|abbrev|pub|data|record|ruleset)\s+)*([^\s:(){}]+)\s*:(?!:)")
HEADED = re.compile(r"^(?:(?:pub|abbrev|unfoldable)\s+)*(?:data|record|ruleset)\s+(\S+)")
FIELD = re.compile(r"^\s+(?:pub\s+)?([^\s:(){}=;]+)\s*:\s")
TOKEN = re.compile(r"[\w'ᵢ]+(?:-[\w'ᵢ]+)*")


def snake(name):
    name = re.sub(r"(?<=[a-z0-9])([A-Z])", lambda m: "_" + m.group(1).lower(), name)
    name = re.sub(r"(?<=_at)(?=[0-9])", "_", name)
    return name.replace("-", "_")


def read(path):
    with open(path, encoding="utf-8") as f:
        return f.read()


def declared():
    names = collections.defaultdict(set)
    files = glob.glob("crates/*/specs/**/*.antt", recursive=True) + glob.glob("crates/*/proofs/*.antt")
    for path in files:
        fields = False
        for line in read(path).splitlines():
            if line.startswith("--"):
                continue
            head, plain = HEADED.match(line), DECLARED.match(line)
            if head:
                names[head.group(1)].add(path)
                fields = True
            elif plain:
                names[plain.group(1)].add(path)
                fields = False
            elif not line.startswith(" "):
                fields = False
            elif fields and FIELD.match(line):
                names[FIELD.match(line).group(1)].add(path)
    return names


def renamed(names):
    plain = [name for name in names if not name[0].isupper() and re.match(r"^[\w'-]+$", name)]
    # definitions keep the plain name: they are in camel case, or stand in specs/
    defined = {snake(name): name for name in plain if re.search("[a-z0-9][A-Z]", name)}
    defined |= {name: name for name in plain if snake(name) == name and any("/specs/" in path for path in names[name])}
    out = {}
    for name in plain:
        new = snake(name)
        if defined.get(new, name) != name:
            new += "_lem"
        if new != name:
            out[name] = new
    return out


def turn(text, new, comments):
    """The text with the new names. comments: how a comment begins; in one, a dashed name is turned only in backquotes."""
    aliases = set(re.findall(r"\bas ([\w'-]+)", text))
    out = []
    for line in text.splitlines(keepends=True):
        start = line.find(comments) if comments else -1
        quoted = False

        def one(m):
            word = m.group(0)
            if word not in new:
                return word
            before = line[: m.start()]
            if not re.search("[a-z0-9][A-Z]", word):
                if 0 <= start < m.start() and before.count("`") % 2 == 0:
                    return word
                if before.endswith("."):
                    owner = re.search(r"([\w'+-]+)\.$", before)
                    if not owner or not (owner.group(1)[0].isupper() or owner.group(1) in aliases):
                        return word
            return new[word]

        out.append(TOKEN.sub(one, line))
    return "".join(out)


def main(argv):
    names = declared()
    new = renamed(names)
    if argv == ["--list"]:
        for old in sorted(new):
            print(old, new[old])
        back = collections.defaultdict(list)
        for old in new:
            back[new[old]].append(old)
        for word, olds in sorted(back.items()):
            if len(olds) > 1 or word in names:
                print("fall together:", word, olds, sorted(names.get(word, [])), [sorted(names[o]) for o in olds])
        for path in sorted(glob.glob("crates/*/specs/**/*.antt", recursive=True) + glob.glob("crates/*/proofs/**/*.antt", recursive=True) + glob.glob("crates/*/src/*.rt")):
            tokens = set(TOKEN.findall(re.sub(r"(--|//)[^\n]*", "", read(path))))
            for old in sorted(tokens & set(new)):
                if new[old] in tokens:
                    print("beside:", path, old, new[old])
        return 0
    for path in sorted(glob.glob("crates/**/*.antt", recursive=True)):
        write(path, turn(read(path), new, "--"))
    # A name in snake case may be a function's there.
    new = {old: word for old, word in new.items() if re.search("[a-z0-9][A-Z]|-", old)}
    for path in sorted(glob.glob("crates/*/src/**/*.rt", recursive=True)):
        write(path, turn(read(path), new, "//"))
    for path in sorted(glob.glob("crates/*/must-fail/*.edit")):
        write(path, turn(read(path), new, ""))
    # In pages a name stands in backquotes.
    for path in ["README.md", *sorted(glob.glob("docs/**/*.md", recursive=True))]:
        text = read(path)
        write(path, re.sub(r"`[^`\n]+`", lambda m: TOKEN.sub(lambda t: new.get(t.group(0), t.group(0)), m.group(0)), text))
    return 0


def write(path, text):
    if text != read(path):
        with open(path, "w", encoding="utf-8") as f:
            f.write(text)


if __name__ == "__main__":
    raise SystemExit(main(sys.argv[1:]))
