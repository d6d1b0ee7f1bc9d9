"""Power: the process is killed at a moment, and started again with both disks in place."""

import signal

from sales import *


def is_killed(run):
    assert run.status == -signal.SIGKILL, run
    return len(run.answers())


def test_nothing_is_cut(register):
    register.new_disks()
    run = register.serve(SCRIPT + READS)
    assert run.status == 0, run
    assert run.answers() == [DONE] * 6 + [told_page(p) for p in BOOKS[2]], run
    check_book(register, [BOOKS[2]])


def test_order_of_writes(register):
    """Each block goes on the first disk and then on the second, and is synced before the next is written."""
    lines = calls_of(register)
    check_synced(lines)
    deeds = [line[:3] for line in lines if line[0] in ("write", "sync")]
    assert len(deeds) == 2 * 42, len(deeds)
    for at in range(0, len(deeds), 4):
        (a, sync_a, b, sync_b) = deeds[at : at + 4]
        assert a[:2] == ["write", "first"] and sync_a[:2] == ["sync", "first"], at
        assert b[:2] == ["write", "second"] and sync_b[:2] == ["sync", "second"], at
        assert a[2] == b[2], at


def test_order_of_writes_of_recovery(register):
    for k in range(writes_of(register)):
        register.new_disks()
        register.serve(SCRIPT, faults=f"kill:write:*:{k}")
        assert register.serve(READS, log=True).status == 0
        check_synced(register.log_lines())


def test_order_of_reads(register):
    """While both disks live, a call reads the first alone."""
    deeds = [line[:2] for line in calls_of(register, SCRIPT + READS)]
    later = deeds[deeds.index(["tell", "stdout"]) :]
    assert ["read", "first"] in later and ["read", "second"] not in later, later


@each("write", "sync", "read", "tell")
def test_killed_before_every(register, call):
    """Before the k-th write of all, or sync, read or answer: in the recovery of the start, and in both sales."""
    times = sum(1 for line in calls_of(register) if line[0] == call)
    assert times > 6, times
    for k in range(times):
        register.new_disks()
        answered = is_killed(register.serve(SCRIPT, faults=f"kill:{call}:*:{k}"))
        check_book(register, books_allowed(answered))
        check_mended(register)


def test_killed_and_started_in_the_other_order(register):
    for k in range(writes_of(register)):
        register.new_disks()
        answered = is_killed(register.serve(SCRIPT, faults=f"kill:write:*:{k}"))
        check_book(register, books_allowed(answered), first="second", second="first")
        check_mended(register)


def test_killed_again_while_recovering(register):
    for k in range(writes_of(register)):
        register.new_disks()
        answered = is_killed(register.serve(SCRIPT, faults=f"kill:write:*:{k}"))
        left = register.keep()
        for again in range(8):
            register.put_back(left)
            run = register.serve([], faults=f"kill:write:*:{again}")
            check_book(register, books_allowed(answered))
            check_mended(register)
            if run.status == 0:
                break


def test_change_is_whole_or_not_at_all(register):
    """A change by the command line that is killed at any step: both pages, or none."""
    changed = [A, EMPTY, D]
    for k in range(1000):
        register.new_disks()
        register.write_file("a", A)
        register.write_file("d", D)
        run = register.run("change", "first", "second", "0=a", "2=d", faults=f"kill:step:*:{k}")
        if run.status == 0:
            assert run.out == b"done: 2 pages changed\n", run
            check_book(register, [changed])
            break
        is_killed(run)
        check_book(register, [BOOKS[0], changed])
        check_mended(register)
    assert k > 60, k
