"""The script that is played again and again, two sales of two pages, and what a book allows after it."""

import os

from register import *

A, B, C, D = map(page, "ABCD")

SCRIPT = [
    write_call(0, A),
    write_call(1, B),
    CLOSE,
    write_call(1, C),
    write_call(2, D),
    CLOSE,
]
SALE = SCRIPT[:3]
BOOKS = [[EMPTY, EMPTY, EMPTY], [A, B, EMPTY], [A, C, D]]
READS = [read_call(number) for number in range(3)]
ORDERS = [("first", "second"), ("second", "first")]


def other(name):
    return "second" if name == "first" else "first"


def books_allowed(answered, script=SCRIPT):
    """The books that explain so many answers to the script; the call after them may have been cut."""
    closed = script[:answered].count(CLOSE)
    if answered < len(script) and script[answered] == CLOSE:
        return [BOOKS[closed], BOOKS[closed + 1]]
    return [BOOKS[closed]]


def pages_read(run):
    assert run.status == 0, run
    told = run.answers()[:3]
    return [answer[1:] for answer in told]


def check_book(register, allowed, first="first", second="second"):
    """Starts again, and looks whether one of the books is what all pages show."""
    run = register.serve(READS, first=first, second=second)
    found = pages_read(run)
    assert found in allowed, ("no book has these pages", [p[:4] for p in found], run)
    return run


def check_both_orders(register, allowed):
    """The same from where the disks are, with the paths in the one order and in the other. Where a mark stands
    only one disk is believed, and the one order is as good as the other."""
    left = register.keep()
    check_book(register, allowed)
    if "first.alone" not in left and "second.alone" not in left:
        register.put_back(left)
        check_book(register, allowed, first="second", second="first")


def check_mended(register):
    """Two living disks are the same after a start, and their log is empty."""
    first, second = register.disks()
    assert first == second, "the disks differ after recovery"
    assert first[:BLOCK] == EMPTY, "the log is not empty after recovery"


def calls_of(register, calls=SCRIPT):
    """What a run of the calls asks of the files, line by line, recovery and all."""
    register.new_disks()
    run = register.serve(calls, log=True)
    assert run.status == 0, run
    return register.log_lines()


def count(lines, name, *calls):
    """How often a disk is used by these calls, or by any of them."""
    return sum(1 for line in lines if line[1] == name and line[0] in (calls or ("write", "read", "sync")))


def writes_of(register, calls=SCRIPT):
    """How many blocks a run of the calls writes."""
    lines = calls_of(register, calls)
    return count(lines, "first", "write") + count(lines, "second", "write")


def check_synced(lines):
    """What is written in a file is synced there before anything else is written, and before an answer is told."""
    unsynced = None
    for deed, name, _, failed in lines:
        if deed == "write" or (deed, name) == ("tell", "stdout"):
            assert unsynced is None, (unsynced, deed, name)
        if deed == "write" and failed == "0":
            unsynced = name
        if deed == "sync" and name == unsynced:
            unsynced = None
    assert unsynced is None, unsynced


def refuses(run, *words):
    """One line on stderr that has the words, and status 1."""
    assert run.status == 1, run
    assert run.err.count("\n") == 1 and run.err.startswith("register: "), run
    for word in words:
        assert word in run.err, (word, run)


def refuses_untouched(register, words, *said, **more):
    """The same, and every file stays as it is, with no other beside it."""
    before = register.keep()
    refuses(register.run(*words, **more), *said)
    assert register.keep() == before, words


def each(*cases):
    """Marks a test that is run for each of the cases, apart from one another."""

    def mark(test):
        test.cases = cases
        return test

    return mark
