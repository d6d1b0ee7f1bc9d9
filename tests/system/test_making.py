"""Making: all blocks, to last, or nothing; and never a file that is there."""

import os
import signal
import time

from sales import *


def test_making(register):
    run = register.run("new", "first", "second", 7)
    assert run.status == 0 and run.out == b"made two disks of 7 pages\n" and not run.err, run
    assert register.disks() == [bytes(BLOCK * (FIRST_PAGE + 7))] * 2
    refuses_untouched(register, ["new", "first", "second", 7], "first is there already", "remove both disks")
    register.remove("first")
    refuses_untouched(register, ["new", "first", "second", 7], "second is there already", "what was begun is removed")


def test_arguments_of_making(register):
    for pages in (0, 16777217, 4294967296, "-1", "+5", "5 ", "", "five", "0x10", "1e3", "12a"):
        refuses(register.run("new", "first", "second", pages))
    refuses(register.run("new", "first", "first", 3), "first is there already", "what was begun is removed")
    refuses(register.run("new", "-", "second", 3), "is no name")
    refuses(register.run("new", "first", "-", 3), "is no name")
    refuses(register.run("new", "first", "no/second", 3), "No such file", "what was begun is removed")
    refuses(register.run("new", "no/first", "second", 3), "No such file")
    assert register.names() == []


def test_nothing_there_is_touched(register):
    """Neither a file nor a folder nor a link, wherever it leads."""
    os.mkdir(register.path("folder"))
    os.symlink("nowhere", register.path("link"))
    register.write_file("file", A)
    before = register.names(), register.keep()
    for name in ("folder", "link", "file"):
        for words in (["new", name, "other", 3], ["new", "other", name, 3]):
            refuses(register.run(*words), f"{name} is there already, and is not touched")
            assert (register.names(), register.keep()) == before
    refuses(register.run("new", "first", "other/", 3), "can't be made")
    assert (register.names(), register.keep()) == before


def test_order_of_making(register):
    """Every block of both, in runs of 1,024; then each disk is synced, again when it has its length, and the
    folders; and only then it is said."""
    os.mkdir(register.path("sub"))
    began = time.monotonic()
    assert register.run("new", "first", "sub/second", 60000, log=True).status == 0
    assert time.monotonic() - began < 30
    lines = register.log_lines()
    for name in ("first", "second"):
        deeds = [line[0] for line in lines if line[1] == name]
        assert deeds == ["create", "length"] + ["write"] * 59 + ["sync", "length", "sync"], deeds
    folders = [["sync", os.path.basename(register.folder)], ["sync", "sub"]]
    assert [line[:2] for line in lines[-3:]] == folders + [["tell", "stdout"]], lines[-3:]
    assert register.disks("first", "sub/second") == [bytes(BLOCK * (FIRST_PAGE + 60000))] * 2
    assert register.run("check", "first", "sub/second").status == 0


def test_making_that_is_cut(register):
    """What it left is refused, by a making and by a start, unless both disks are whole."""
    for k in range(100):
        register.clean()
        run = register.run("new", "first", "second", 2000, faults=f"kill:step:*:{k}")
        if run.status == 0:
            break
        assert run.status == -signal.SIGKILL, run
        left = register.names()
        if left:
            refuses_untouched(register, ["new", "first", "second", 2000], "remove both disks")
        made = len(left) == 2 and register.disks() == [bytes(BLOCK * 2258)] * 2
        run = register.run("serve", "first", "second")
        assert run.status == (0 if made else 1), (k, run)
        if len(left) == 2 and not made:
            assert "if its making was cut short, remove both disks" in run.err, run
    assert k > 15, k


def test_making_that_fails(register):
    """At each step: what was begun is removed, and that is said."""
    for act in ("fail", "full", "short"):
        for k in range(100):
            register.clean()
            run = register.run("new", "first", "second", 2000, faults=f"{act}:step:*:{k}")
            if "made two disks" in run.out.decode() or "the disks are made, but" in run.err:
                break
            refuses(run)
            assert register.names() == [], (k, run)
            assert k == 0 or "what was begun is removed" in run.err, (k, run)
        assert k > 14, k


def test_what_was_begun_cannot_be_removed(register):
    run = register.run("new", "first", "second", 2000, faults="full:write:second:1,fail:remove:first:0")
    refuses(run, "No space left", "what was begun can't be removed: remove it yourself")
    assert register.names() == ["first"]


def test_making_beside_old_marks(register):
    for name in ("first.dead", "first.alone", "second.dead", "second.alone"):
        register.clean()
        register.write_file(name, b"")
        refuses_untouched(register, ["new", "first", "second", 3], f"{name} is there")
