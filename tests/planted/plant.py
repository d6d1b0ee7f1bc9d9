#!/usr/bin/env python3
"""Plants bugs in a copy of the repository, one after the other, and tells what catches each.

    plant.py NAME ..      these: journal/replay_reverse is one, journal all of that crate
    plant.py --all        all
    plant.py --untried    those of which it isn't noted yet what catches them, and which no gate tries
    plant.py --fits       no check; only looks whether every bug still fits the sources
    plant.py --table      no check; makes README.md anew from the files
    plant.py --gate LOG   no check; reads what a gate printed of the bugs that it tried

    --one-by-one          a check for each; else bugs in functions that don't call each other are planted at once
    --note                writes what caught a bug into its file, and makes README.md anew
    --copy DIR            the copy, which stays, so that a later run goes on with what is proved there

The checker is `rt`, or the program that RT names. A bug is caught where the check of its crate, or else a test
that its file names, fails; the exit status is 1 if one is not.

A file of a bug has lines `key: value`:

    breaks    what it breaks, in words
    edit      the must-fail edit that it is; or, in place of that, one or more of
    file      a source file, for the pairs after it
    old, new  what stands there once, and what is planted; \\n is a line's end
    check     crates to check, if not the one that is edited alone
    tests     system tests to run on the program that was built, if all is proved
    caught    what caught it, as --note found it
"""

import argparse
import os
import re
import shutil
import subprocess
import sys
import tempfile
from pathlib import Path

HERE = Path(__file__).resolve().parent
ROOT = HERE.parent.parent

ABOUT = """# Planted bugs

'Proved' says no more than the contracts do. So wrong registers were made of the right one, by small edits that keep
the code's shape, and each was checked. This table is made by [plant.py](plant.py), from a file for each bug that has
the edit, what it breaks, and what caught it. `make planted` tries all of them again, each in a copy of the
repository; `tests/planted/plant.py journal/replay_reverse` tries that one.

'What it ensures' is the contract of the function that was edited: with the bug it doesn't hold, and the checker looks
for a proof in vain. Where it says 'in its proof', that fact is proved by hand in the function's file under `proofs/`,
and the proof shows the right register's fact and not this one's. A bug with 'edit' is a must-fail edit too, which the
gate tries each time. Where no contract can speak, of what a file holds and of what a program prints, a test caught it.
"""


class Bug:
    def __init__(self, path):
        self.path = path
        self.name = str(path.relative_to(HERE).with_suffix(""))
        self.lines = path.read_text().splitlines()
        self.breaks = self.value("breaks")
        self.caught = self.value("caught")
        self.tests = self.value("tests").split()
        self.edit = self.value("edit")
        if self.edit:
            # A must-fail edit names its files from its crate's folder on.
            self.crate = self.edit.split("/")[1]
            self.edits = edits((ROOT / self.edit).read_text().splitlines(), f"crates/{self.crate}/")
        else:
            self.edits = edits(self.lines, "")
            self.crate = self.edits[0][0].split("/")[1]
        self.check = self.value("check").split() or [self.crate]
        self.places = [place_of(file, old) for file, old, _ in self.edits if old in (ROOT / file).read_text()]

    def value(self, key):
        found = [line[len(key) + 2 :] for line in self.lines if line.startswith(f"{key}: ")]
        return found[0].strip() if found else ""

    def is_untried(self):
        return not self.caught and not self.edit

    def note(self, caught):
        self.caught = caught = caught or "nothing"
        kept = [line for line in self.lines if not line.startswith("caught:")]
        self.lines = kept + [f"caught: {caught}"]
        self.path.write_text("\n".join(self.lines) + "\n")


def edits(lines, folder):
    """The replacements that the lines ask for: file, old text, new text."""
    found, file, old = [], "", ""
    for line in lines:
        key, _, value = line.partition(": ")
        value = value.replace("\\n", "\n")
        if key == "file":
            file = folder + value
        elif key == "old":
            old = value
        elif key.rstrip(":") == "new":
            found.append((file, old, value))
    return found


def place_of(file, old):
    """The function in whose body a text stands: its module and its name. No name where it is in none."""
    before = (ROOT / file).read_text().partition(old)[0]
    functions = re.findall(r"^( *)(?:pub )?fn (\w+)", before, re.M)
    _, crate, part, *_, name = file.split("/")
    module = crate if name in ("lib.rt", "main.rt") else name[:-3]
    ended = functions and re.search(rf"^{functions[-1][0]}}}$", before[before.rindex(f"fn {functions[-1][1]}") :], re.M)
    inside = part == "src" and functions and not ended
    return module, functions[-1][1] if inside else ""


def planted(root, bugs):
    """The edited files of bugs with their new texts. An error where one doesn't fit."""
    texts = {}
    for bug in bugs:
        for file, old, new in bug.edits:
            text = texts.get(file) or (root / file).read_text()
            if text.count(old) != 1:
                raise ValueError(f"{bug.name}: {text.count(old)} times in {file}: {old!r}")
            texts[file] = text.replace(old, new)
    return texts


def clauses(crate, name):
    """What the contract of a function calls its clauses, or else the definitions that they state."""
    for file in sorted((ROOT / "crates" / crate / "src").rglob("*.rt")):
        found = re.search(rf"\bfn {name}\b.*?(?:\n\s*{{\n|;\n)", file.read_text(), re.S)
        if found:
            stated = re.findall(r"ensures (\w+ )?{ ([A-Z]\w+)?", found[0])
            return [clause.strip() or word for clause, word in stated if clause or word and not word.startswith(("Is", "If", "Match"))]
    return []


def fact(crate, name, need):
    """A fact that a check asks for, by the name that the checker gives it."""
    if need.startswith("returns"):
        _, _, clause = need.partition("-clause-")
        named = [clause] if clause else clauses(crate, name)
        return "what it ensures" + (f" (`{'`, `'.join(named)}`)" if named else "")
    if need.startswith("loop"):
        return "its loop's invariant"
    if need.startswith("invariant_of"):
        return "an invariant of what it makes"
    if need.endswith("-requires"):
        return f"what `{need[:-9].replace('-', '_')}` asks"
    return f"`{need}`"


def refusals(crate, log):
    """The functions that a check refused, each with the fact that isn't proved; those called by others are
    left out where they are refused only for what they call. A fact that the checker looks for by itself is
    missed in src/, one that is proved by hand in the function's proof. A proof may also be refused for a name that
    the code no longer gives: that says nothing of the fact, and comes last."""
    found = []
    no_proof = r"^fn (?P<fn>\S+): no proof: (?!it calls).*did not prove `(?P<need>[^`]*)`"
    in_proof = r"^\S*/proofs/(?P<path>[^.\s]*)\.antt:\d+:\d+: error: (?:`(?P<of>[^`]*)`)?(?P<said>.*)$"
    for line in re.finditer(f"{no_proof}|{in_proof}", log, re.M):
        if line["fn"]:
            found.append((line["fn"], line["need"], ""))
        else:
            where = ", in its proof" if " has no " not in line["said"] else ", by a name in its proof alone"
            function, _, file = line["path"].rpartition("/")
            law = file != "Answers" or not function
            found.append((f"proofs/{line['path']}" if law else f"{crate}::" + function.replace("/", "::"), line["of"] or "", where))
    return sorted(found, key=lambda one: "alone" in one[2])


def is_planted_in(bug, function):
    """Whether a bug is planted in this function, by its full name: crate, modules, type if it has one, and name."""
    *above, last = function.split("::")
    return any(name == last and module in above for module, name in bug.places)


def told(bug, log):
    """What caught a bug, in one line, by the log of a check that failed."""
    found = refusals(bug.crate, log)
    if not found:
        raise ValueError(f"{bug.name}: the check fails, but not at a proof:\n{log[-2000:]}")
    own = [one for one in found if is_planted_in(bug, one[0])]
    function, need, where = (own or found)[0]
    if function.startswith("proofs/"):
        return f"a law of `{bug.crate}`, which `{function}.antt` proves, at `{need}`"
    return f"`{function}`: {fact(bug.crate, function.rsplit('::', 1)[-1], need)}{where}"


def run(folder, words, log):
    done = subprocess.run(words, cwd=folder, capture_output=True, text=True, check=False)
    log.parent.mkdir(exist_ok=True)
    log.write_text(done.stdout + done.stderr)
    return done.returncode, log.read_text()


def check(copy, crates, log):
    """Checks crates. Whether one is refused, and what was said."""
    said = ""
    for crate in crates:
        status, said = run(copy / "crates" / crate, [os.environ.get("RT", "rt"), "check"], log)
        if status:
            return True, said
    return False, said


def prints_other(copy, crate, log):
    """Whether a program that is built prints other text than it has to."""
    folder = copy / "crates" / crate
    if not (folder / "stdout").is_file():
        return False
    arguments = (folder / "args").read_text().splitlines()
    _, said = run(folder / "data", [str(folder / "out" / crate), *arguments], log)
    return said != (folder / "stdout").read_text()


def try_bugs(copy, bugs):
    """Plants bugs in the copy, checks, and takes them out again. What caught each; nothing is said of one among
    several that was not refused in its own function."""
    before = {file: (copy / file).read_text() for bug in bugs for file, _, _ in bug.edits}
    log = copy / "planted" / (bugs[0].name.replace("/", "-") + ".log")
    try:
        for file, text in planted(copy, bugs).items():
            (copy / file).write_text(text)
        failed, said = check(copy, bugs[0].check, log)
        if failed and len(bugs) > 1:
            refused = [one[0] for one in refusals(bugs[0].crate, said)]
            return {bug: told(bug, said) for bug in bugs if any(is_planted_in(bug, one) for one in refused)}
        if failed:
            return {bugs[0]: told(bugs[0], said)}
        if len(bugs) > 1:
            return {}
        seen = None
        if bugs[0].check != [bugs[0].crate]:
            run(copy, ["tests/build.sh"], log)
            for crate in bugs[0].check:
                if prints_other(copy, crate, log):
                    return {bugs[0]: f"what `{crate}` prints"}
        if bugs[0].tests:
            _, said = run(copy, ["tests/system/run.sh", *bugs[0].tests], log)
            seen = re.search(r"^system test ([^:]+): FAILED", said, re.M)
        return {bugs[0]: f"the system test of {seen[1]}" if seen else ""}
    finally:
        for file, text in before.items():
            (copy / file).write_text(text)


def together(bugs):
    """Bugs that one check can tell apart: of one crate, and each in a function of its own."""
    group = [bugs[0]]
    for bug in bugs[1:]:
        alone = any(one.tests or one.check != [one.crate] or not all(name for _, name in one.places) for one in (bug, bugs[0]))
        apart = not any(set(bug.places) & set(other.places) for other in group)
        if bug.crate == bugs[0].crate and apart and not alone:
            group.append(bug)
    return group


def try_all(copy, bugs, one_by_one):
    """What caught each bug. A function's check goes by the contracts of those that it calls, so several bugs are
    planted at once; one whose function was not looked at, since it calls another, is tried again."""
    left = list(bugs)
    while left:
        group = left[:1] if one_by_one else together(left)
        found = try_bugs(copy, group) or try_bugs(copy, group[:1])
        left = [bug for bug in left if bug not in found]
        yield from found.items()


def gate_found(printed, bug):
    """What caught a bug when a gate tried it as a must-fail edit, by the line that it printed; nothing where it
    printed none. The line names a fact that is missed in src/ by its place, so the bug's own function is meant."""
    label = re.escape(f"{bug.crate}/{Path(bug.edit).name}") if bug.edit else ""
    line = label and re.search(rf"^rt: must-fail {label}: refused, as it must be: (.*)$", printed, re.M)
    if not line:
        return ""
    missed = re.match(r"note: src/.*\(`([^`]*)`\)", line[1])
    if not missed:
        return told(bug, line[1])
    module, name = bug.places[0]
    above = [bug.crate] if module == bug.crate else [bug.crate, module]
    return f"`{'::'.join([*above, name])}`: {fact(bug.crate, name, missed[1])}"


def make_copy(copy):
    """The repository without its history. What a check kept in the copy, in out/, stays there; a first check takes
    what checks on this machine kept of the same crates."""
    for part in ("crates", "crates.txt", "tests"):
        source = ROOT / part
        if source.is_dir():
            shutil.copytree(source, copy / part, ignore=shutil.ignore_patterns("out"), dirs_exist_ok=True)
        else:
            shutil.copy2(source, copy / part)


def make_table(bugs):
    by_test = [bug for bug in bugs if " test" in bug.caught or " prints" in bug.caught]
    by_none = [bug for bug in bugs if bug.caught == "nothing"]
    untried = [bug for bug in bugs if bug.is_untried()]
    by_contract = len(bugs) - len(by_test) - len(by_none) - len(untried)
    lines = [
        ABOUT,
        f"Of {len(bugs)} bugs {by_contract} are caught by a contract, {len(by_test)} by a test, {len(by_none)} by nothing"
        + (f", and {len(untried)} are not tried." if untried else "."),
        "",
        "| bug | what it breaks | caught by |",
        "|---|---|---|",
    ]
    for bug in bugs:
        edit = ", edit" if bug.edit else ""
        link = bug.path.relative_to(HERE)
        caught = bug.caught or ("the check, at each gate" if bug.edit else "not tried")
        lines.append(f"| [{bug.name}]({link}){edit} | {bug.breaks} | {caught} |")
    (HERE / "README.md").write_text("\n".join(lines) + "\n")


def main():
    parser = argparse.ArgumentParser(description=__doc__, formatter_class=argparse.RawDescriptionHelpFormatter)
    parser.add_argument("names", nargs="*")
    for flag in ("--all", "--untried", "--fits", "--table", "--note", "--one-by-one"):
        parser.add_argument(flag, action="store_true")
    for place in ("--copy", "--gate"):
        parser.add_argument(place, type=Path)
    words = parser.parse_args()

    bugs = [Bug(path) for path in sorted(HERE.glob("*/*.bug"))]
    if words.table:
        return make_table(bugs)
    misfits = []
    for bug in bugs:
        try:
            planted(ROOT, [bug])
        except (OSError, ValueError) as error:
            misfits.append(str(error))
    for misfit in misfits:
        print("doesn't fit:", misfit)
    if words.fits or misfits:
        print(f"{len(bugs) - len(misfits)} of {len(bugs)} bugs fit the sources")
        return 1 if misfits else 0

    if words.gate:
        printed = words.gate.read_text()
        for bug in bugs:
            caught = gate_found(printed, bug)
            if caught:
                print(f"{bug.name}: {caught}")
            if caught and words.note:
                bug.note(caught)
        return make_table(bugs) if words.note else 0

    named = [bug for bug in bugs if bug.name in words.names or bug.crate in words.names]
    chosen = bugs if words.all else [bug for bug in bugs if bug.is_untried()] if words.untried else named
    copy = words.copy or Path(tempfile.mkdtemp(prefix="planted-"))
    copy.mkdir(exist_ok=True)
    make_copy(copy)
    alive = 0
    for bug, caught in try_all(copy, chosen, words.one_by_one):
        alive += not caught
        print(f"{bug.name}: {caught or 'SURVIVED'}", flush=True)
        if words.note:
            bug.note(caught)
    if words.note:
        make_table(bugs)
    if not words.copy:
        shutil.rmtree(copy)
    print(f"{len(chosen) - alive} of {len(chosen)} caught")
    return 1 if alive else 0


sys.exit(main())
