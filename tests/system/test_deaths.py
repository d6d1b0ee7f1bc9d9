"""Disks that fail: their death lasts, whatever happens next."""

import os
import signal

from sales import *

# The ways in which a disk can fail.
FAILURES = [
    ("fail", "write"),
    ("short", "write"),
    ("full", "write"),
    ("fail", "sync"),
    ("full", "sync"),
    ("fail", "read"),
    ("short", "read"),
]


def on_each_disk(failures):
    return [(*failure, dead) for failure in failures for dead in ("first", "second")]


def says_dead(run, dead):
    assert f"register: the {dead} disk is dead since 20" in run.err, run


def refuses_dead(register, first, second):
    before = register.keep()
    run = register.serve(READS, first=first, second=second)
    assert run.status == 1 and not run.out and "no disk to go on with" in run.err, run
    assert register.keep() == before


def check_never_believed(register, dead, book):
    """Whichever disks are named then, the dead one is not believed, and not written."""
    before = register.bytes_of(dead)
    for first, second in ORDERS:
        says_dead(check_book(register, [book], first=first, second=second), "first" if first == dead else "second")
    living = other(dead)
    for first, second in ((living, "-"), ("-", living)):
        check_book(register, [book], first=first, second=second)
    for first, second in ((dead, "-"), ("-", dead)):
        refuses_dead(register, first, second)
    assert register.bytes_of(dead) == before, "the dead disk was written"


def check_noted_first(register, dead, lines):
    """After the call that failed the dead disk is not asked again, and the death is noted, to last, beside both
    disks, before the next block is written on the other one and before the next answer."""
    living = other(dead)
    struck = next(i for i, line in enumerate(lines) if line[3] != "0")
    later = [line[:2] for line in lines[struck + 1 :]]
    assert not [deed for deed in later if deed[1] == dead], "a dead disk was used"
    folder = os.path.basename(register.folder)[:60]
    lasting = 0
    for mark in (f"{living}.alone", f"{dead}.dead"):
        noted = later.index(["create", mark], lasting)
        lasting = later.index(["sync", folder], later.index(["sync", mark], noted))
    for deed in (["write", living], ["tell", "stdout"]):
        assert deed not in later[:lasting], (deed, later)


@each(*on_each_disk(FAILURES))
def test_disk_fails(register, act, call, dead):
    """At its k-th use, for every k: the process goes on with the other disk, and then starts again with both."""
    uses = count(calls_of(register), dead, call)
    assert uses > 0
    for k in range(uses):
        register.new_disks()
        run = register.serve(SCRIPT, faults=f"{act}:{call}:{dead}:{k}", log=True)
        assert run.status == 0 and run.answers() == [DONE] * 6, run
        says_dead(run, dead)
        assert register.exists(f"{other(dead)}.alone") and register.exists(f"{dead}.dead"), register.names()
        lines = register.log_lines()
        check_synced(lines)
        check_noted_first(register, dead, lines)
        check_never_believed(register, dead, BOOKS[2])


@each("first", "second")
def test_failed_disk_is_as_cut_there(register, dead):
    """A write that fails leaves on its disk what a cut at that write leaves, and no more."""
    for k in range(count(calls_of(register), dead, "write")):
        left = []
        for act in ("kill", "fail", "full"):
            register.new_disks()
            register.serve(SCRIPT, faults=f"{act}:write:{dead}:{k}")
            left.append(register.bytes_of(dead))
        assert left[0] == left[1] == left[2], k


@each("first", "second")
def test_disk_fails_in_every_command(register, dead):
    register.new_disks()
    register.serve(SCRIPT)
    register.write_file("b", B)
    left = register.keep()
    changed = [B, C, D]
    stand = {"first": b"first disk: dead\nsecond disk: alive\n", "second": b"first disk: alive\nsecond disk: dead\n"}
    for words, told, book in (
        (["read", "first", "second", 1], C, BOOKS[2]),
        (["check", "first", "second"], stand[dead] + b"disks: one alone\n", BOOKS[2]),
        (["change", "first", "second", "0=b"], b"done: 1 pages changed\n", changed),
    ):
        register.put_back(left)
        assert register.run(*words, log=True).status == 0
        for k in range(count(register.log_lines(), dead)):
            register.put_back(left)
            run = register.run(*words, faults=f"fail:use:{dead}:{k}")
            assert run.status == 0 and run.out.startswith(told), run
            says_dead(run, dead)
            check_never_believed(register, dead, book)


# Power, after a disk failed.


def check_killed_after(register, script, failure, dead):
    """A disk fails, and the process is killed at each step after that, until it has done all it does."""
    for later in range(200):
        register.new_disks()
        run = register.serve(script, faults=f"{failure},kill:after:*:{later}")
        if run.status == 0:
            break
        assert run.status == -signal.SIGKILL, run
        check_both_orders(register, books_allowed(len(run.answers()), script))
    assert later > 8, (failure, later)
    check_never_believed(register, dead, books_allowed(len(script), script)[0])


@each(*on_each_disk([("fail", "write"), ("short", "write"), ("fail", "sync"), ("fail", "read")]))
def test_killed_after_failure(register, act, call, dead):
    """Between the failure and the mark and after it, for every failure of one sale: both disks in place again."""
    for k in range(count(calls_of(register, SALE), dead, call)):
        check_killed_after(register, SALE, f"{act}:{call}:{dead}:{k}", dead)


@each(*on_each_disk([("fail", "write"), ("short", "write"), ("fail", "sync")]))
def test_killed_after_failure_in_the_second_sale(register, act, call, dead):
    sale = count(calls_of(register, SALE), dead, call)
    for k in range(sale, count(calls_of(register), dead, call)):
        check_killed_after(register, SCRIPT, f"{act}:{call}:{dead}:{k}", dead)


@each("first", "second")
def test_killed_then_fails(register, dead):
    """Power goes at each write of a sale, and a disk fails at each of its uses while the register recovers."""
    for k in range(writes_of(register, SALE)):
        register.new_disks()
        cut = register.serve(SALE, faults=f"kill:write:*:{k}")
        allowed = books_allowed(len(cut.answers()), SALE)
        left = register.keep()
        for again in range(100):
            register.put_back(left)
            run = register.serve([], faults=f"fail:use:{dead}:{again}", log=True)
            assert run.status == 0, run
            lines = register.log_lines()
            if "dead" not in run.err:
                break
            says_dead(run, dead)
            check_noted_first(register, dead, lines)
            says_dead(check_book(register, allowed), dead)
        assert again > 6, (k, again)


# Both disks.


def moments_in_sale(register, name, call):
    """At how many moments a disk can fail in one sale, with the recovery of its start and the end of the input."""
    return count(calls_of(register, SALE), name, *([] if call == "use" else [call]))


@each(("fail", "use"), ("short", "write"), ("full", "sync"))
def test_both_disks_fail(register, act, call):
    """At each pair of moments of one sale: the process stops, claims nothing, and what was closed stays."""
    firsts, seconds = (moments_in_sale(register, name, call) for name in ("first", "second"))
    for i in range(firsts):
        for j in range(seconds):
            register.new_disks()
            run = register.serve(SALE, faults=f"{act}:{call}:first:{i},{act}:{call}:second:{j}")
            if run.status == 0:
                # Where one is dead from the start on, the other is read less often, and may live to the end.
                assert run.answers() == [DONE] * 3 and run.err.count("disk is dead since") == 1, (i, j, run)
            else:
                assert run.status == 1 and "both disks are dead; nothing more is claimed" in run.err, (i, j, run)
            check_both_orders(register, books_allowed(len(run.answers()), SALE))


# Marks that can't be made to last.


@each("first", "second")
def test_death_that_cannot_be_noted(register, dead):
    """Nothing more is written or answered, and nothing that was answered is lost."""
    living = other(dead)
    for k in range(count(calls_of(register, SALE), dead, "write")):
        # The folder is synced for the first time when the mark stands.
        folder = os.path.basename(register.folder)
        for fault in (f"fail:create:{living}.alone:0", f"fail:sync:{living}.alone:0", f"fail:sync:{folder}:0"):
            register.new_disks()
            run = register.serve(SALE, faults=f"fail:write:{dead}:{k},{fault}", log=True)
            assert run.status == 1 and "can't be noted beside the other disk" in run.err, run
            lines = register.log_lines()
            noting = [i for i, line in enumerate(lines) if line[3] != "0"][1]
            later = [line for line in lines[noting + 1 :] if line[:2] != ["tell", "stderr"]]
            assert not later, (fault, later)
            check_both_orders(register, books_allowed(len(run.answers()), SALE))


def test_mark_without_room(register):
    """A mark counts even where its text finds no room."""
    register.new_disks()
    run = register.serve(SCRIPT, faults="fail:write:first:9,full:write:second.alone:0,full:write:first.dead:0")
    assert run.status == 0 and register.bytes_of("second.alone") == b"", run
    run = check_book(register, [BOOKS[2]])
    assert "the first disk is dead since an unknown moment" in run.err, run
    refuses_dead(register, "first", "-")


def test_dead_disk_that_takes_no_mark(register):
    """Beside the dead disk the mark is made where that can be done, and else by the next start that can."""
    register.new_disks()
    run = register.serve(SCRIPT, faults="fail:write:first:3,fail:create:first.dead:0")
    assert run.status == 0 and run.answers() == [DONE] * 6, run
    assert not register.exists("first.dead")
    check_book(register, [BOOKS[2]])
    assert register.exists("first.dead")
    check_never_believed(register, "first", BOOKS[2])


def test_what_marks_say(register):
    """A mark's text is shown, unless it can't be."""
    for text, shown in (
        (b"since 2020-01-01 00:00:00 UTC: it fell\nmore", "since 2020-01-01 00:00:00 UTC: it fell"),
        (b"", "since an unknown moment"),
        (b"\x1b[2J\n", "since an unknown moment"),
        (b"\xff\xfe\n", "since an unknown moment"),
        (b"x" * 5000, "x" * 200),
    ):
        register.new_disks()
        register.write_file("second.alone", text)
        run = register.serve(READS)
        assert run.status == 0 and f"register: the first disk is dead {shown}\n" in run.err, run
        assert register.bytes_of("second.alone") == text
    register.new_disks()
    os.mkdir(register.path("first.dead"))
    run = register.serve(READS)
    assert run.status == 0 and "the first disk is dead since an unknown moment" in run.err, run


def test_marks_through_a_link(register):
    """Marks stand beside the file itself, by whatever link it is named."""
    register.new_disks()
    os.mkdir(register.path("sub"))
    os.symlink("../second", register.path("sub/link"))
    run = register.serve(SCRIPT, second="sub/link", faults="fail:write:first:9")
    assert run.status == 0 and register.exists("second.alone"), run
    check_never_believed(register, "first", BOOKS[2])
    check_book(register, [BOOKS[2]], second="sub/link")
    assert os.listdir(register.path("sub")) == ["link"]


# Disks that are said to be dead.


def test_a_disk_said_to_be_dead(register):
    register.new_disks()
    register.serve(SALE)
    run = register.serve(SCRIPT[3:], first="-")
    says_dead(run, "first")
    assert run.status == 0 and register.exists("second.alone"), run
    says_dead(check_book(register, [BOOKS[2]]), "first")
    check_never_believed(register, "first", BOOKS[2])
    refuses_untouched(register, ["serve", "-", "-"], "has to live")


def test_each_disk_said_to_be_dead_in_turn(register):
    """Where each was left out once there is no disk that can be believed."""
    register.new_disks()
    assert register.serve([], first="-").status == 0
    assert register.serve([], second="-").status == 0
    for first, second in ORDERS:
        refuses_dead(register, first, second)


@each("first", "second")
def test_said_to_be_dead_and_killed(register, dead):
    """A close was cut, and the start that leaves a disk out is killed at each of its steps."""
    living = other(dead)
    named = {dead: "-"}
    register.new_disks()
    cut = register.serve(SALE, faults="kill:write:*:17")
    allowed = books_allowed(len(cut.answers()), SALE)
    left = register.keep()
    for k in range(100):
        register.put_back(left)
        run = register.serve([], faults=f"kill:step:*:{k}", **named)
        marked = register.exists(f"{living}.alone")
        assert marked or register.keep() == left, "a block was written before the mark"
        check_both_orders(register, allowed)
        if run.status == 0:
            break
    assert k > 12 and marked, k


@each("first", "second")
def test_said_to_be_dead_where_no_mark_can_be(register, dead):
    living = other(dead)
    for fault in (f"fail:create:{living}.alone:0", f"fail:sync:{living}.alone:0"):
        register.new_disks()
        register.serve(SALE, faults="kill:write:*:17")
        before = register.disks()
        run = register.serve(READS, faults=fault, **{dead: "-"})
        assert run.status == 1 and not run.out and "can't be noted" in run.err, run
        assert register.disks() == before
