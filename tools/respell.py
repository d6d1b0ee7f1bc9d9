#!/usr/bin/env python3
"""Spells the repository's own definitions and lemmas as the library does, and renames the crate `bytes`.

usage: tools/respell.py     at the top of a checkout that port.py has just turned

Words are in snake case, types in camel case: page-size becomes page_size, Log-read LogRead. Names of src/, strings
and comments keep their spelling. The crate `bytes` becomes `octets`, since the library has one of that name.
It was run once, on the commit that docs/PORT.md names; it is kept so that what it did can be done again and compared.
"""

import glob
import os
import re

SIGNATURE = re.compile(
    r"^\s*(?:(?:pub|abbrev|unfoldable|data|record|open)\s+)*([^\s:(){}.,;λ→]+)\s*(?:\(.*\)|\{.*\})?\s*:\s"
)
# A name begins and ends where none of the characters that a name may have stands beside it.
WORD = r"(?<![\w'·′-]){}(?![\w'·′-])"


def read(path):
    with open(path, encoding="utf-8") as file:
        return file.read()


def write(path, text):
    with open(path, "w", encoding="utf-8") as file:
        file.write(text)


def found(*patterns):
    return sorted(path for pattern in patterns for path in glob.glob(pattern, recursive=True))


def declared():
    """The names that specs/ and the lemma files of proofs/ declare."""
    names = set()
    for path in found("crates/*/specs/**/*.antt", "crates/*/proofs/*.antt"):
        for line in read(path).splitlines():
            match = SIGNATURE.match(line)
            if match:
                names.add(match.group(1))
    return names


def spelled(name):
    if name[0].isupper():
        return "".join(part[:1].upper() + part[1:] for part in re.split("[-_]", name))
    return name.replace("-", "_").replace("′", "'")


def renamer(names):
    new = {name: spelled(name) for name in names if spelled(name) != name}
    every = re.compile(WORD.format("(?:" + "|".join(sorted(map(re.escape, new), key=len, reverse=True)) + ")"))
    return lambda text: every.sub(lambda match: new[match.group(0)], text)


def outside(text, comment, rename):
    """Renames outside comments and strings."""
    parts = re.split(rf'("(?:[^"\\]|\\.)*"|{comment}[^\n]*)', text)
    return "".join(part if i % 2 else rename(part) for i, part in enumerate(parts))


def in_ticks(text, rename):
    """Renames in what a page sets as code."""
    parts = re.split(r"(```.*?```|`[^`\n]*`)", text, flags=re.S)
    return "".join(rename(part) if i % 2 else part for i, part in enumerate(parts))


def respell():
    rename = renamer(declared())
    for path in found("crates/**/*.antt"):
        write(path, outside(read(path), "--", rename))
    for path in found("crates/*/src/**/*.rt"):
        write(path, outside(read(path), "//", rename))
    for path in found("docs/*.md", "README.md"):
        write(path, in_ticks(read(path), rename))


def rename_crate(old, new):
    os.rename(f"crates/{old}", f"crates/{new}")
    lines = read("crates.txt").splitlines()
    lines = [line if line.startswith("#") else re.sub(rf"\b{old}\b", new, line) for line in lines]
    write("crates.txt", "\n".join(lines) + "\n")
    for path in found("crates/**/*.antt", "crates/*/src/**/*.rt"):
        text = read(path).replace(f"Rattle.{old}.", f"Rattle.{new}.")
        if path.endswith(".rt"):
            text = re.sub(rf"(?<![\w:]){old}::", f"{new}::", text)
        write(path, text)


def main():
    respell()
    if os.path.isdir("crates/bytes"):
        rename_crate("bytes", "octets")


if __name__ == "__main__":
    main()
