#!/usr/bin/env python3
"""Spells the names of this repository's definitions and lemmas as the kit spells its own.

usage: python3 tools/respell.py      at the top of the repository, after the kit's port.py

A name that begins with a capital is a type and joins its words (`Kind-laws` becomes `KindLaws`); any other is in snake
case (`new-pair` becomes `new_pair`). The names are those that stand in specs/ and in the lemma files of proofs/. They are
turned wherever they are written: in .antt files, in the clauses of .rt files, and between backticks in docs/ and README.md.
Left alone are names imported from the kit's libraries, names that stand only in the proof of one function, most of which
the checker makes, and the strings and comments of .rt files.
"""

import pathlib
import re
import sys

TOKEN = re.compile(r"[^\s(){}\[\];,.:\"`@?=λ∀]+")
IMPORT = re.compile(r"(?m)^\s*(?:ghost )?(?:pub )?use ([\w.'+-]+)\.\{([^}]*)\}")
COMMENT = re.compile(r"(?m)(?:^|\s)--(?=\s).*$")


def files(ending):
    for path in sorted(pathlib.Path("crates").rglob("*" + ending)):
        if "out" not in path.parts:
            yield path


def of_a_function(path):
    """Whether a file of proofs/ answers the goals of one function."""
    return path.parts[2] == "proofs" and len(path.parts) > 4


def spelt(name):
    words = name.split("-")
    if name[0].isupper():
        return "".join(word[:1].upper() + word[1:] for word in words)
    return "_".join(words)


def own_names():
    seen, of_libraries = set(), set()
    for path in files(".antt"):
        text = path.read_text()
        for where, names in IMPORT.findall(text):
            if not where.startswith("Rattle.") or where.startswith("Rattle.std."):
                of_libraries.update(name.strip() for name in names.split(","))
        if not of_a_function(path):
            seen.update(TOKEN.findall(COMMENT.sub("", text)))
    names = {name for name in seen if re.fullmatch(r"[^\W\d_][\w']*(?:-[\w']+)+", name)} - of_libraries
    turned = {}
    for name in sorted(names):
        other = turned.setdefault(spelt(name), name)
        if other != name:
            sys.exit(f"respell: {other} and {name} would fall together")
        if spelt(name) in seen:
            print(f"look: {name} becomes {spelt(name)}, which stands somewhere already")
    return {name: new for new, name in turned.items()}


def main():
    names = own_names()

    def turn(match):
        return names.get(match[0], match[0])

    for path in [*files(".antt"), *files(".rt")]:
        text = path.read_text()
        if path.suffix == ".rt":
            # strings and comments of the code keep their words
            parts = re.split(r"(\"(?:[^\"\\]|\\.)*\"|//.*)", text)
            new = "".join(part if i % 2 else TOKEN.sub(turn, part) for i, part in enumerate(parts))
        else:
            new = TOKEN.sub(turn, text)
        if new != text:
            path.write_text(new)
    for path in [*sorted(pathlib.Path("docs").glob("*.md")), pathlib.Path("README.md")]:
        text = path.read_text()
        new = re.sub(r"`[^`\n]+`", lambda quoted: TOKEN.sub(turn, quoted[0]), text)
        if new != text:
            path.write_text(new)
    print(f"respell: {len(names)} names")


if __name__ == "__main__":
    main()
