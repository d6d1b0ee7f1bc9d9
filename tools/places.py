#!/usr/bin/env python3
"""Counts the places of src/ that docs/DESIGN-PASS.md speaks of, in a commit.

    tools/places.py COMMIT          one line for each pattern: the point, the pattern's name, how many places
    tools/places.py COMMIT -l NAME  the places of one pattern, as file:line: text

A pattern finds the form, not the fault: which of its places read better in another form is for a reader to say,
and docs/DESIGN-PASS.md says it.
"""
import re
import subprocess
import sys

# Point, name, pattern. `^` is a line's start; `\n` may stand inside a pattern.
PATTERNS = [
    (1, "failure-in-a-comment", r"^[ \t]*//.*\b(?:False|True|None): "),
    (1, "return-by-hand", r"\belse \{\n[ \t]*return (?:None|false|true|Err\(.*|Ok\((?:None|false)\));\n[ \t]*\}"),
    (1, "arm-that-hands-on", r"^[ \t]*(?:Err\(\w+\) => (?:return )?Err|Ok\((?:\w+|\(\))\) => Ok\(|Some\(\w+\) => Ok\(|None => Err\()"),
    (1, "if-not-return", r"^[ \t]*if !.*\{\n[ \t]*return (?:None|false|true|Err\(.*|Ok\((?:None|false)\));"),
    (1, "number-as-error", r"^.*(?:Result<[^;{]*, i32>|\berror: i32|Unknown\(i32\)|-> i32\b).*$"),
    (1, "bool-as-outcome", r"^[ \t]*(?:pub )?fn .*(?:-> bool|Result<bool, \w+>)(?: \{)?$"),
    (1, "theorem-with-a-number", r"^pub fn \w+\(\) -> (?:u8|usize)"),
    (1, "own-enum", r"^[ \t]*(?:pub )?enum \w+"),
    (2, "match-on-a-side", r"^[ \t]*Side::First => "),
    (2, "words-of-a-side", r"^[ \t]*(?:pub )?fn side_name"),
    (2, "enum-of-answers", r"^[ \t]*Refused(?:\(Refusal\)| \{ number)"),
    (3, "range-in-a-for", r"^[ \t]*for \w+ in \(?[\w.]+\.\."),
    (3, "counted-by-hand", r"^[ \t]*\w+ = \w+\.(?:saturating_add|wrapping_add)\(1\);|^[ \t]*[ijkn] \+= 1;"),
    (4, "words-by-a-function", r"^[ \t]*(?:pub )?fn (?:\w+_name|text|same_\w+|refused)\("),
    (4, "newtype-to-print", r"^pub struct \w+(?:<'a>)?\(pub "),
    (4, "enum-without-equality", r"^#\[derive\((?:Clone, Copy|Drop)\)\]\n(?:pub )?enum "),
    (5, "a-block-by-its-length", r"length \w+\.(?:now|old) ≡ 1024"),
    (5, "a-plan-that-fits", r"\bfits (?:self|plan|result|p|\(Plan)"),
    (5, "a-kind-that-is-placed", r"\b(?:Kind)?Placed\b|\bWellPlaced\b"),
    (5, "blocks-of-a-disk-bounded", r"\w*blocks ≤ most_pages \+ first_page"),
    (5, "heap-and-text", r"heap: Global,\n?\s*out: &mut String"),
    (6, "length-beside", r"^[ \t]*(?:pub )?len: (?:usize|u32)"),
    (6, "array-of-a-number", r"\[u8; (?:1024|1030|1029|1025|2048|262144)\]"),
    (7, "trait-of-one-method", r"^pub trait \w+ \{\n(?:[ \t]*//.*\n)*[ \t]*fn [^}]*?;\n\}"),
]


def sources(commit):
    names = subprocess.run(["git", "ls-tree", "-r", "--name-only", commit, "crates"], capture_output=True, text=True, check=True)
    for name in names.stdout.split("\n"):
        if "/src/" in name and name.endswith(".rt"):
            text = subprocess.run(["git", "show", f"{commit}:{name}"], capture_output=True, text=True, check=True)
            yield name, text.stdout


def main():
    if len(sys.argv) not in (2, 4) or (len(sys.argv) == 4 and sys.argv[2] != "-l"):
        sys.exit(__doc__)
    files = list(sources(sys.argv[1]))
    for point, name, pattern in PATTERNS:
        found = []
        for path, text in files:
            for match in re.finditer(pattern, text, re.M):
                line = text.count("\n", 0, match.start()) + 1
                found.append(f"{path}:{line}: {match.group(0).strip().splitlines()[0]}")
        if len(sys.argv) == 2:
            print(f"{point} {name:26} {len(found):4}")
        elif sys.argv[3] == name:
            print("\n".join(found))


main()
