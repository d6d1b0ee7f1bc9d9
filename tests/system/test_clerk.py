"""docs/OPERATIONS.md, played as it is written there."""

import os
import re

from sales import *

ROOT = os.path.join(os.path.dirname(os.path.abspath(__file__)), "..", "..")
DISKS = ["disk-a/register", "disk-b/register"]


def read_text(*path):
    with open(os.path.join(ROOT, *path)) as file:
        return file.read()


def commands_of(heading):
    """The commands under a heading, up to the next."""
    text = read_text("docs", "OPERATIONS.md")
    (part,) = re.findall(rf"^#+ {heading}\n(.*?)(?=^#|\Z)", text, re.S | re.M)
    return re.findall(r"^ {4,}((?:register (?!:)|cp |sync).*)$", part, re.M)


def play(register, *commands):
    """Does the commands one after the other, on folders that stand for the disks; what the last one said."""
    for command in commands:
        run = register.shell(command.replace("/disk-", register.folder + "/disk-"))
        assert run.status == 0, (command, run)
    return run


def new_folders(register):
    register.clean()
    for letter in "abcdef":
        os.mkdir(register.path(f"disk-{letter}"))


def begin(register):
    """A register that is made and changed as the page says it; the pages of its change."""
    new_folders(register)
    for name in ("lot-7", "lot-8", "owners"):
        register.write_file(name, name[-1].encode() * BLOCK)
    assert play(register, *commands_of("Making")).out == b"made two disks of 60000 pages\n"
    work = commands_of("A day's work")
    assert play(register, *work[:1]).out == b"done: 3 pages changed\n"
    play(register, *work)
    assert register.bytes_of("page-7") == b"7" * BLOCK


def has_sale(register, first, second):
    for number, letter in ((7, b"7"), (8, b"8"), (2, b"s")):
        run = register.run("read", first, second, number)
        assert run.status == 0 and run.out == letter * BLOCK, run


def test_a_day(register):
    begin(register)
    run = play(register, *commands_of("After power"))
    assert run.err == "register: first disk alive, second disk alive, 60000 pages, nothing to mend\n", run
    assert run.err in read_text("docs", "OPERATIONS.md")
    run = play(register, *commands_of("The two paths in the other order"))
    assert b"disks: the same\n" in run.out, run
    has_sale(register, *DISKS)


def small_register(register):
    """New disks of 16 pages in the places that the page names, with the sale that it makes."""
    new_folders(register)
    for name in ("lot-7", "lot-8", "owners"):
        register.write_file(name, name[-1].encode() * BLOCK)
    assert register.run("new", *DISKS, 16).status == 0


def sale(register, **more):
    return register.run("change", *DISKS, "7=lot-7", "8=lot-8", "2=owners", **more)


def test_way_back_to_two_disks(register):
    """The first disk dies in the middle of a change, at any of its writes."""
    commands = commands_of("When a disk dies")
    assert len(commands) == 5, commands
    for k in range(15):
        small_register(register)
        # Both files have the same last name, and are synced in turn.
        run = sale(register, faults=f"fail:sync:register:{2 * k}")
        assert run.status == 0 and "the first disk is dead since" in run.err, run
        run = play(register, *commands[:1])
        assert b"first disk: dead\nsecond disk: alive\ndisks: one alone\n" in run.out, run
        run = play(register, *commands)
        assert b"first disk: alive\nsecond disk: alive\ndisks: the same\n" in run.out, run
        has_sale(register, "disk-c/register", "disk-d/register")
        assert os.listdir(register.path("disk-c")) == os.listdir(register.path("disk-d")) == ["register"]


def test_disk_that_is_gone(register):
    small_register(register)
    assert sale(register).status == 0
    register.remove(DISKS[0])
    refuses(register.run("check", *DISKS), "disk-a/register can't be opened", "give - in its place")
    run = play(register, *commands_of("A disk that is gone"))
    assert b"first disk: dead\nsecond disk: alive\n" in run.out and register.exists("disk-b/register.alone"), run
    run = play(register, *commands_of("When a disk dies")[1:])
    assert b"disks: the same\n" in run.out, run
    has_sale(register, "disk-c/register", "disk-d/register")


def test_copying_elsewhere(register):
    """With both disks alive, and with one dead: the copies are as the register was."""
    commands = commands_of("Copying a register elsewhere")
    small_register(register)
    assert sale(register).status == 0
    run = play(register, *commands)
    assert b"first disk: alive\nsecond disk: alive\ndisks: the same\n" in run.out, run
    has_sale(register, "disk-e/register", "disk-f/register")
    small_register(register)
    assert sale(register, faults="fail:sync:register:9").status == 0
    run = play(register, *commands)
    assert b"disks: one alone\n" in run.out, run
    has_sale(register, "disk-e/register", "disk-f/register")


def test_both_disks_died(register):
    """Started again with both names, the disk that died last has every change that was answered."""
    small_register(register)
    assert sale(register).status == 0
    run = register.run("change", *DISKS, "7=owners", faults="fail:sync:register:4,fail:sync:register:6")
    assert run.status == 1 and "both disks are dead" in run.err, run
    assert register.run("check", *DISKS).status == 0
    has_sale(register, *DISKS)


def test_paths_in_the_other_order(register):
    """Also after power went, at every write of a sale."""
    for k in range(writes_of(register, SALE)):
        register.new_disks()
        cut = register.serve(SALE, faults=f"kill:write:*:{k}")
        check_book(register, books_allowed(len(cut.answers()), SALE), first="second", second="first")
        check_mended(register)
        run = register.serve(SCRIPT[3:], first="first", second="second")
        assert run.status == 0, run
        check_mended(register)


# Messages.


def messages():
    """The lines that the program says, as its sources have them."""
    found = []
    for crate in ("register", "guard"):
        folder = os.path.join(ROOT, "crates", crate, "src")
        for name in sorted(os.listdir(folder)):
            text = read_text("crates", crate, "src", name)
            found += re.findall(r'(?:refuse|eprintln!|format_args!)\(\s*(?:(?:self\.)?rt[,;])?\s*"((?:register: )?[^"]*)"', text)
    # A refusal is told in its own words.
    found += re.findall(r'(?:write!\(f, |write_str\()"([^"]*)"', read_text("crates", "wire", "src", "answer.rt"))
    return [text for text in found if re.search(r"[a-z]{3}", re.sub(r"\{.*?\}", "", text.replace("register: ", "")))]


def test_every_message_is_explained(register):
    shown = read_text("docs", "OPERATIONS.md").split("## Messages")[1]
    quoted = " ".join(re.findall(r"`([^`]*)`", shown))
    assert len(messages()) > 50, messages()
    for text in messages():
        said = text.replace("register: ", "").split(";")[0]
        for part in re.split(r"\{.*?\}", said):
            part = part.strip(" ,:")
            assert len(part) < 6 or part in quoted, (text, part)
