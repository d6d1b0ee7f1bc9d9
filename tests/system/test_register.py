"""The register on real files: killed and failed at every write, and asked everything it must refuse."""

import os
import signal
import subprocess

from register import *

A, B, C, D = map(page, "ABCD")

# Two sales of two pages.
SCRIPT = [
    write_call(0, A),
    write_call(1, B),
    CLOSE,
    write_call(1, C),
    write_call(2, D),
    CLOSE,
]
BOOKS = [[EMPTY, EMPTY, EMPTY], [A, B, EMPTY], [A, C, D]]
READS = [read_call(number) for number in range(3)]


def books_allowed(answered):
    """The books that explain so many answers to the script; the call after them may have been cut."""
    closed = SCRIPT[:answered].count(CLOSE)
    if answered < len(SCRIPT) and SCRIPT[answered] == CLOSE:
        return [BOOKS[closed], BOOKS[closed + 1]]
    return [BOOKS[closed]]


def pages_read(run):
    assert run.status == 0, run
    told = run.answers()[:3]
    return [answer[1:] for answer in told]


def check_book(register, allowed, **named):
    """Starts again, and looks whether one of the books is what all pages show."""
    run = register.serve(READS, **named)
    found = pages_read(run)
    assert found in allowed, ("no book has these pages", [p[:4] for p in found], run)
    return run


def check_mended(register):
    """Two living disks are the same after a start, and their log is empty."""
    first, second = register.disks()
    assert first == second, "the disks differ after recovery"
    assert first[:BLOCK] == EMPTY, "the log is not empty after recovery"


def writes_of(register, calls=SCRIPT, name="*"):
    """How many blocks a run of the calls writes on a disk, recovery and all."""
    register.new_disks()
    register.serve(calls, log=True)
    names = ["first", "second"] if name == "*" else [name]
    return sum(1 for line in register.log_lines() if line[0] == "write" and line[1] in names)


def refuses(run, *words):
    """One line on stderr that has the words, and status 1."""
    assert run.status == 1, run
    assert run.err.count("\n") == 1 and run.err.startswith("register: "), run
    for word in words:
        assert word in run.err, (word, run)


def refuses_untouched(register, words, *said, names=("first", "second"), **more):
    """The same, and the disks stay as they are, with no file beside them."""
    before = register.disks(*names), sorted(os.listdir(register.folder))
    refuses(register.run(*words, **more), *said)
    assert (register.disks(*names), sorted(os.listdir(register.folder))) == before, words


# Power: the process is killed just before a write.


def test_killed_before_every_write(register):
    for k in range(writes_of(register)):
        register.new_disks()
        run = register.serve(SCRIPT, faults=f"kill:write:*:{k}")
        assert run.status == -signal.SIGKILL, run
        check_book(register, books_allowed(len(run.answers())))
        check_mended(register)


def test_killed_before_every_sync(register):
    for k in range(writes_of(register)):
        register.new_disks()
        run = register.serve(SCRIPT, faults=f"kill:sync:*:{k}")
        assert run.status == -signal.SIGKILL, run
        check_book(register, books_allowed(len(run.answers())))
        check_mended(register)


def test_killed_again_while_recovering(register):
    for k in range(writes_of(register)):
        for again in range(8):
            register.new_disks()
            cut = register.serve(SCRIPT, faults=f"kill:write:*:{k}")
            register.serve([], faults=f"kill:write:*:{again}")
            check_book(register, books_allowed(len(cut.answers())))
            check_mended(register)


def test_nothing_is_cut(register):
    register.new_disks()
    run = register.serve(SCRIPT + READS)
    assert run.status == 0, run
    assert run.answers() == [DONE] * 6 + [told_page(p) for p in BOOKS[2]], run
    check_book(register, [BOOKS[2]])


# Every block is synced before the next one is written.


def test_order_of_writes(register):
    register.new_disks()
    register.serve(SCRIPT, log=True)
    deeds = [line[:3] for line in register.log_lines() if line[0] in ("write", "sync")]
    assert len(deeds) == 2 * 42, len(deeds)
    for at in range(0, len(deeds), 4):
        (a, sync_a, b, sync_b) = deeds[at : at + 4]
        assert a[:2] == ["write", "first"] and sync_a[:2] == ["sync", "first"], at
        assert b[:2] == ["write", "second"] and sync_b[:2] == ["sync", "second"], at
        assert a[2] == b[2], at


# A disk that fails.


def check_death(register, dead, run):
    """After a run in which a disk died: the other has it all, and the dead one is never believed again."""
    living = "second" if dead == "first" else "first"
    assert run.status == 0, run
    assert run.answers() == [DONE] * 6, run
    assert f"the {dead} disk is dead since 20" in run.err, run
    assert register.exists(f"{living}.alone") and register.exists(f"{dead}.dead"), os.listdir(register.folder)
    check_untouched_after_death(register, dead)
    before = register.bytes_of(dead)
    again = check_book(register, [BOOKS[2]])
    assert f"the {dead} disk is dead since 20" in again.err, again
    check_book(register, [BOOKS[2]], first="second", second="first")
    if dead == "first":
        check_book(register, [BOOKS[2]], first="-")
        refuses_dead(register, "first", "-")
    else:
        check_book(register, [BOOKS[2]], second="-")
        refuses_dead(register, "-", "second")
    assert register.bytes_of(dead) == before, "the dead disk was written"


def refuses_dead(register, first, second):
    run = register.serve(READS, first=first, second=second)
    assert run.status == 1 and not run.out and "no disk to go on with" in run.err, run


def check_untouched_after_death(register, dead):
    """After the call that failed the dead disk is not asked again, and the death is noted before the next
    block is written on the other disk and before the next answer."""
    living = "second" if dead == "first" else "first"
    lines = register.log_lines()
    struck = next(i for i, line in enumerate(lines) if line[3] != "0")
    later = [line[:2] for line in lines[struck + 1 :]]
    assert not [deed for deed in later if deed[1] == dead], "a dead disk was used"
    noted = later.index(["create", f"{living}.alone"])
    folder = os.path.basename(register.folder)
    synced = later.index(["sync", f"{living}.alone"], noted)
    lasting = later.index(["sync", folder[:60]], synced)
    for deed in (["write", living], ["tell", "stdout"]):
        assert deed not in later[:lasting], (deed, later)


def sweep_death(register, act, call):
    for dead in ("first", "second"):
        for k in range(21):
            register.new_disks()
            register.remove("log")
            run = register.serve(SCRIPT, faults=f"{act}:{call}:{dead}:{k}", log=True)
            check_death(register, dead, run)


def test_failed_writes(register):
    sweep_death(register, "fail", "write")


def test_short_writes(register):
    sweep_death(register, "short", "write")


def test_full_writes(register):
    sweep_death(register, "full", "write")


def test_failed_syncs(register):
    sweep_death(register, "fail", "sync")


def test_failed_reads(register):
    for act in ("fail", "short"):
        for dead in ("first", "second"):
            register.new_disks()
            register.remove("log")
            register.serve(SCRIPT, log=True)
            reads = sum(1 for line in register.log_lines() if line[:2] == ["read", dead])
            for k in range(reads):
                register.new_disks()
                register.remove("log")
                run = register.serve(SCRIPT, faults=f"{act}:read:{dead}:{k}", log=True)
                check_death(register, dead, run)


def test_killed_between_failure_and_mark(register):
    """A disk fails, and the process is killed at every step after that: both disks in place again."""
    for act, call in (("fail", "write"), ("short", "write"), ("fail", "sync")):
        for dead in ("first", "second"):
            for k in range(21):
                for later in range(10):
                    register.new_disks()
                    faults = f"{act}:{call}:{dead}:{k},kill:after:*:{later}"
                    run = register.serve(SCRIPT, faults=faults)
                    allowed = books_allowed(len(run.answers()))
                    check_book(register, allowed)
                    check_book(register, allowed, first="second", second="first")


def test_both_disks_fail(register):
    """Each pair of moments: the process stops and claims nothing, and what was closed stays."""
    sale = SCRIPT[:3]
    for i in range(11):
        for j in range(11):
            register.new_disks()
            run = register.serve(sale, faults=f"fail:write:first:{i},fail:sync:second:{j}")
            assert run.status == 1, run
            assert "both disks are dead" in run.err, run
            answered = len(run.answers())
            assert answered < 3, run
            run = register.serve(READS)
            assert pages_read(run) in books_allowed(answered), (i, j, run)


def test_one_fails_then_power(register):
    """Each pair of moments of one sale: a disk fails, later power goes, and both disks are in place again."""
    sale = SCRIPT[:3]
    for dead, living in (("first", "second"), ("second", "first")):
        for i in range(11):
            for j in range(11):
                register.new_disks()
                run = register.serve(sale, faults=f"fail:write:{dead}:{i},kill:write:{living}:{j}")
                allowed = books_allowed(len(run.answers()))
                check_book(register, allowed)
                check_book(register, allowed, first="second", second="first")


def test_power_then_one_fails(register):
    """Power goes in a sale, and a disk fails while the register recovers."""
    sale = SCRIPT[:3]
    for k in range(22):
        for dead in ("first", "second"):
            for again in range(4):
                register.new_disks()
                cut = register.serve(sale, faults=f"kill:write:*:{k}")
                allowed = books_allowed(len(cut.answers()))
                run = register.serve(READS, faults=f"fail:write:{dead}:{again}")
                assert pages_read(run) in allowed, run
                check_book(register, allowed)


def test_death_that_cannot_be_noted(register):
    """The mark can't be made to last: nothing more is written or answered."""
    for fault in ("fail:create:second.alone:0", "fail:sync:second.alone:0"):
        register.new_disks()
        register.remove("log")
        run = register.serve(SCRIPT, faults=f"fail:write:first:3,{fault}", log=True)
        assert run.status == 1 and run.answers() == [], run
        assert "can't be noted" in run.err, run
        logged = register.log_lines()
        lines = [line[:2] for line in logged]
        struck = [line[3] for line in logged].index("2")
        assert ["write", "second"] not in lines[struck:], lines
    # Beside the dead disk the mark is made only where that can be done.
    register.new_disks()
    run = register.serve(SCRIPT, faults="fail:write:first:3,fail:create:first.dead:0")
    assert run.status == 0 and run.answers() == [DONE] * 6, run
    assert not register.exists("first.dead")
    check_book(register, [BOOKS[2]])
    assert register.exists("first.dead")


# Disks that are said to be dead, and the way back to two.


def test_a_disk_said_to_be_dead(register):
    register.new_disks()
    register.serve(SCRIPT[:3])
    run = register.serve(SCRIPT[3:], first="-")
    assert run.status == 0 and register.exists("second.alone"), run
    run = check_book(register, [BOOKS[2]])
    assert "the first disk is dead since 20" in run.err and register.exists("first.dead"), run
    refuses_dead(register, "first", "-")
    refuses_untouched(register, ["serve", "-", "-"], "has to live")
    refuses_untouched(register, ["check", "first", "-"], "no disk to go on with")


def test_back_to_two_disks(register):
    register.new_disks()
    register.serve(SCRIPT, faults="fail:write:first:9")
    run = register.run("check", "first", "second")
    assert run.status == 0 and b"first disk: dead\nsecond disk: alive\ndisks: one alone\n" in run.out, run
    os.mkdir(register.path("new"))
    register.copy("second", "new/first")
    register.copy("second", "new/second")
    run = register.run("check", "new/first", "new/second")
    assert run.status == 0 and b"first disk: alive\nsecond disk: alive\ndisks: the same\n" in run.out, run
    check_book(register, [BOOKS[2]], first="new/first", second="new/second")


def test_paths_in_the_other_order(register):
    register.new_disks()
    register.serve(SCRIPT[:3])
    register.serve(SCRIPT[3:], first="second", second="first")
    check_book(register, [BOOKS[2]])
    check_mended(register)


def test_marks_through_a_link(register):
    register.new_disks()
    os.symlink("second", register.path("link"))
    run = register.serve(SCRIPT, second="link", faults="fail:write:first:9")
    assert run.status == 0 and register.exists("second.alone"), run
    check_book(register, [BOOKS[2]])
    check_book(register, [BOOKS[2]], second="link")


# One at a time.


def test_one_process_at_a_time(register):
    register.new_disks()
    register.new_disks(first="first", second="second")
    os.symlink("first", register.path("link"))
    os.link(register.path("second"), register.path("hard"))
    register.copy("first", "other")
    serving = register.start()
    names = [("first", "second"), ("second", "first"), ("link", "other"), ("other", "hard"), ("link", "hard")]
    for first, second in names + [("first", "-"), ("-", "hard")]:
        for command in ("serve", "check"):
            refuses_untouched(register, [command, first, second], f"process {serving.pid} has")
    refuses_untouched(register, ["read", "first", "second", 0], "one at a time")
    serving.kill()
    serving.communicate()
    assert register.serve(READS).status == 0
    serving = register.start()
    serving.communicate()
    assert register.serve(READS).status == 0


def test_readers_are_no_matter(register):
    register.new_disks()
    with open(register.path("first"), "rb"):
        assert register.serve(READS).status == 0


def test_one_file_twice(register):
    register.new_disks()
    os.symlink("first", register.path("link"))
    os.link(register.path("first"), register.path("hard"))
    for second in ("first", "./first", "link", "hard"):
        refuses_untouched(register, ["serve", "first", second], "are one file")


# Standard streams that are closed.


def test_closed_streams(register):
    program = register.program
    for closed in ("<&-", ">&-", "2>&-", "<&- >&-", "<&- 2>&-", ">&- 2>&-", "<&- >&- 2>&-"):
        register.new_disks()
        register.serve(SCRIPT)
        before = register.disks()
        for words in ("serve first second", "read first second 1", "check first second"):
            command = f"exec '{program}' {words} {closed}"
            done = subprocess.run(
                ["sh", "-c", command], input=frames(READS), cwd=register.folder, capture_output=True, check=False
            )
            told = ">&-" not in closed.replace("2>&-", "") and not ("<&-" in closed and "serve" in words)
            assert done.returncode == (0 if told else 1), (closed, words, done)
            if "2>&-" not in closed and not told:
                assert b"can't be" in done.stderr, (closed, words, done)
        assert register.disks() == before, closed


def test_answers_that_cannot_be_told(register):
    register.new_disks()
    for words, given in (("serve first second", frames(READS)), ("read first second 0", b"")):
        command = f"exec '{register.program}' {words} >/dev/full"
        done = subprocess.run(["sh", "-c", command], input=given, cwd=register.folder, capture_output=True, check=False)
        assert done.returncode == 1 and b"No space left" in done.stderr, done


# Making.


def test_making(register):
    register.clean()
    run = register.run("new", "first", "second", 7)
    assert run.status == 0 and run.out and not run.err, run
    assert register.disks() == [bytes(BLOCK * (FIRST_PAGE + 7))] * 2
    refuses_untouched(register, ["new", "first", "second", 7], "first is there already")
    register.remove("first")
    refuses_untouched(register, ["new", "first", "second", 7], "second is there already", names=["second"])
    assert not register.exists("first")
    register.clean()
    for pages in (0, 16777217, 4294967296, "-1", "+5", "5 ", "", "five", "0x10", "1e3", "12a"):
        refuses(register.run("new", "first", "second", pages))
    refuses(register.run("new", "first", "first", 3), "first is there already")
    refuses(register.run("new", "-", "second", 3), "is no name")
    refuses(register.run("new", "first", "no/second", 3), "No such file")
    assert os.listdir(register.folder) == []


def test_making_of_a_whole_register(register):
    """Disks are made in runs of 1,024 blocks; each is synced at the end, and again when it has its length."""
    register.clean()
    assert register.run("new", "first", "second", 60000, log=True).status == 0
    calls = [tuple(line[:2]) for line in register.log_lines()]
    for name in ("first", "second"):
        assert calls.count(("write", name)) == 59, calls
        assert calls.count(("sync", name)) == 2, calls
    assert register.disks() == [bytes(BLOCK * (FIRST_PAGE + 60000))] * 2
    assert register.run("check", "first", "second").status == 0


def test_making_that_is_cut(register):
    for k in range(24):
        register.clean()
        run = register.run("new", "first", "second", 2000, faults=f"kill:step:*:{k}")
        if run.status == 0:
            break
        assert run.status == -signal.SIGKILL, run
        left = [name for name in ("first", "second") if register.exists(name)]
        if left:
            refuses_untouched(register, ["new", "first", "second", 2000], "remove both disks", names=left)
        made = len(left) == 2 and register.disks() == [bytes(BLOCK * 2258)] * 2
        run = register.run("serve", "first", "second")
        assert run.status == (0 if made else 1), (k, run)
    assert k > 10


def test_making_that_fails(register):
    for fault in ("full:write:second:1", "full:write:first:0", "fail:sync:first:0", "fail:length:second:1"):
        register.clean()
        refuses(register.run("new", "first", "second", 2000, faults=fault), "what was begun is removed")
        assert os.listdir(register.folder) == [], fault


def test_making_beside_old_marks(register):
    register.clean()
    register.write_file("second.alone", b"")
    refuses(register.run("new", "first", "second", 3), "second.alone is there")
    assert os.listdir(register.folder) == ["second.alone"]


# Starts that are refused.


def test_sizes(register):
    register.new_disks()
    register.write_file("longer", bytes(BLOCK * (FIRST_PAGE + 4)))
    register.write_file("odd", bytes(BLOCK * (FIRST_PAGE + 3) + 1))
    register.write_file("small", bytes(BLOCK * FIRST_PAGE))
    register.write_file("tiny", b"")
    for command in (["serve"], ["check"], ["read"], ["change"]):
        more = {"read": [0], "change": ["0=first"]}.get(command[0], [])
        names = ["first", "second"]
        for pair, said in (
            (("first", "longer"), "not disks of one register"),
            (("first", "missing"), "missing can't be opened"),
            (("missing", "second"), "give - in its place"),
            (("odd", "second"), "no whole blocks"),
            (("small", "-"), "259 to 16777474"),
            (("-", "tiny"), "259 to 16777474"),
            (("first", "."), "can't be opened"),
        ):
            if command[0] == "change":
                register.write_file("first", bytes(BLOCK * (FIRST_PAGE + 3)))
                more = ["0=page"]
                register.write_file("page", A)
            refuses_untouched(register, [*command, *pair, *more], said, names=names)
    for name in ("first", "second"):
        os.truncate(register.path(name), BLOCK * 16777475)
    refuses(register.run("serve", "first", "second"), "259 to 16777474")


def test_disks_of_two_registers(register):
    register.new_disks()
    register.serve([write_call(1, A), CLOSE])
    register.copy("first", "other")
    register.serve([write_call(2, B), CLOSE])
    for first, second in (("other", "second"), ("first", "other")):
        refuses_untouched(register, ["serve", first, second], "the disks differ in", names=("first", "second", "other"))
    run = register.run("check", "other", "second")
    assert "differ in 3 blocks, the first 1 and the last 260" in run.err, run


def test_strange_headers(register):
    headers = [
        ("flag", 0, b"\x02"),
        ("flag", 0, b"\xff"),
        ("count", 1, (257).to_bytes(4, "little")),
        ("count", 1, (2**32 - 1).to_bytes(4, "little")),
        ("page", 0, b"\x00\x02\x00\x00\x00" + bytes(1019) + b"\x00\x00\x00\x00\x03\x00\x00\x00"),
        ("page", 0, b"\x01\x01\x00\x00\x00" + bytes(1019) + b"\xff\xff\xff\xff"),
    ]
    for _, at, content in headers:
        for names in (["first", "second"], ["first"], ["second"]):
            register.new_disks()
            for name in names:
                register.put_bytes(name, at, content)
            refuses_untouched(register, ["serve", "first", "second"], "")
            refuses_untouched(register, ["serve", "-", names[0]], "header that no register", names=names)
    # The fullest header that a register writes.
    for flag in (0, 1):
        register.new_disks()
        for name in ("first", "second"):
            register.put_bytes(name, 0, bytes([flag]) + (256).to_bytes(4, "little"))
            register.put_bytes(name, BLOCK, b"\x02\x00\x00\x00" * 256)
            register.put_bytes(name, BLOCK * 257, A)
        check_book(register, [[EMPTY, EMPTY, A if flag else EMPTY]])


# What a start says.


def test_what_a_start_says(register):
    register.new_disks()
    run = register.serve(SCRIPT[:2])
    assert "2 writes were not closed and are dropped" in run.err, run
    run = register.serve([])
    assert "mended; 2 writes were not closed and are dropped" in run.err, run
    run = register.serve([])
    assert run.err == "register: first disk alive, second disk alive, 3 pages, nothing to mend\n", run
    register.new_disks()
    register.serve(SCRIPT, faults="kill:write:*:17")
    run = register.serve([])
    assert "; block 258 is on the second disk now as on the first" in run.err, run
    assert "; a close that was cut is done, pages: 2" in run.err, run


def test_check_tells(register):
    register.new_disks()
    register.serve(SCRIPT[:1])
    run = register.run("check", "first", "second")
    assert run.status == 0, run
    assert run.out == (
        b"first disk: alive\nsecond disk: alive\ndisks: the same\npages: 3\n"
        b"recovery: mended; 1 write was not closed and is dropped\n"
    ), run


# Calls.


def test_each_call_is_answered_as_it_comes(register):
    register.new_disks()
    serving = register.start()
    for call in SCRIPT:
        assert register.ask(serving, call) == DONE
    assert register.ask(serving, b"") == refused(1, 0)
    assert register.ask(serving, write_call(0, bytes(2000))) == refused(2)
    assert [register.ask(serving, call) for call in READS] == [told_page(p) for p in BOOKS[2]]
    out, _ = serving.communicate()
    assert serving.returncode == 0 and out == b""


def test_refusals(register):
    register.new_disks()
    calls = [
        (b"", refused(1, 0)),
        (b"\x04", refused(1, 0)),
        (b"\xff" * 9, refused(1, 0)),
        (b"\x00", refused(1, 1)),
        (b"\x00\x01\x00\x00", refused(1, 4)),
        (read_call(0) + b"\x00", refused(1, 5)),
        (b"\x01\x00\x00", refused(1, 3)),
        (CLOSE + b"\x00", refused(1, 1)),
        (SIZE, b"\x03\x03\x00\x00\x00"),
        (SIZE + SIZE, refused(1, 1)),
        (write_call(0, b""), refused(2)),
        (write_call(0, A[:1023]), refused(2)),
        (write_call(0, A + b"A"), refused(2)),
        (write_call(3, A[:1023]), refused(2)),
        (write_call(3, A), refused(3)),
        (write_call(2**32 - 1, A), refused(3)),
        (read_call(3), refused(3)),
        (read_call(2**32 - 1), refused(3)),
        (read_call(2), told_page(EMPTY)),
    ]
    before = register.disks()
    run = register.serve([call for call, _ in calls])
    assert run.status == 0 and run.answers() == [answer for _, answer in calls], run.answers()
    assert register.disks() == before


def test_full_log(register):
    register.new_disks()
    run = register.serve([write_call(i % 3, A) for i in range(256)] + [write_call(0, B), CLOSE, read_call(0)])
    assert run.answers() == [DONE] * 256 + [refused(4), DONE, told_page(A)], run.answers()[-3:]


def test_long_frames(register):
    register.new_disks()
    long = bytes(3000000)
    calls = [read_call(0) + long, write_call(0, long), CLOSE + long, b"\x09" + long, read_call(1)]
    run = register.serve(calls, preexec_fn=limit_memory)
    assert run.answers() == [refused(1, 5), refused(2), refused(1, 1), refused(1, 0), told_page(EMPTY)], run
    for n in (1024, 1025, 1026, 1030, 5120, 5121, 8192, 65536):
        run = register.serve([write_call(0, bytes(n)), read_call(0), CLOSE])
        assert run.answers() == [DONE if n == 1024 else refused(2), told_page(EMPTY), DONE], n


def limit_memory():
    import resource

    resource.setrlimit(resource.RLIMIT_AS, (32 << 20, 32 << 20))


def test_broken_frames(register):
    register.new_disks()
    good = frames(SCRIPT[:3])
    for tail in (b"\x00", b"\x05\x00\x00", b"\x05\x00\x00\x00", frame(read_call(0))[:-1], frame(bytes(2000))[:-1]):
        run = register.run("serve", "first", "second", given=good + tail)
        assert run.status == 1 and run.answers() == [DONE] * 3, run
        assert "the input ends within a call" in run.err, run
    check_book(register, [BOOKS[1]])
    run = register.run("serve", "first", "second", given=frames(SCRIPT[:1]) + b"\xff\xff\xff\xff")
    assert run.status == 1 and "1 write was not closed" in run.err, run


# Reading and changing by the command line.


def test_read(register):
    register.new_disks()
    register.serve(SCRIPT)
    for number, content in enumerate(BOOKS[2]):
        run = register.run("read", "first", "second", number)
        assert run.status == 0 and run.out == content, run
    for word in ("3", "4294967295"):
        run = register.run("read", "first", "second", word)
        assert run.status == 1 and "no such page" in run.err and not run.out, run
    for word in ("", "x", "-1", "+1", "1.0", "4294967296", "99999999999999999999"):
        refuses_untouched(register, ["read", "first", "second", word], "is no number of a page")


def test_change(register):
    register.new_disks()
    register.serve(SCRIPT[:2])
    register.write_file("a", A)
    register.write_file("b", B)
    register.write_file("short", b"short")
    register.write_file("empty", b"")
    register.write_file("long", A + b"A")
    refused_changes = [
        (["0=a", "1=long"], "longer than a page"),
        (["0=a", "1=short"], "--pad"),
        (["0=a", "1=empty"], "--pad"),
        (["0=a", "1=none"], "none can't be read"),
        (["0=a", "1=."], "can't be read"),
        (["0=a", "3=b"], "no page 3"),
        (["0=a", "0=b"], "named twice"),
        (["0=a", "x=b"], "is no number of a page"),
        (["0=a", "b"], "is no change"),
        ([], "missing"),
        ([f"{i}=a" for i in range(257)], "256 pages at most"),
        (["0=a", "--trase"], "is no option"),
        (["0=long", "--pad"], "longer than a page"),
    ]
    for words, said in refused_changes:
        refuses_untouched(register, ["change", "first", "second", *words], said)
    run = register.run("change", "first", "second", "0=a", "1=b")
    assert run.status == 0 and b"done" in run.out, run
    check_book(register, [[A, B, EMPTY]])
    run = register.run("change", "first", "second", "--pad", "2=short", "1=empty")
    assert run.status == 0, run
    check_book(register, [[A, EMPTY, b"short".ljust(BLOCK, b"\0")]])


def test_change_of_many_pages(register):
    register.clean()
    assert register.run("new", "first", "second", 300).status == 0
    for i in range(256):
        register.write_file(f"page{i}", bytes([i]) * BLOCK)
    run = register.run("change", "first", "second", *[f"{i + 40}=page{i}" for i in range(256)])
    assert run.status == 0, run
    disk = register.bytes_of("first")
    for i in range(256):
        at = BLOCK * (FIRST_PAGE + 40 + i)
        assert disk[at : at + BLOCK] == bytes([i]) * BLOCK, i


def test_trace(register):
    register.new_disks()
    register.write_file("a", A)
    run = register.run("change", "first", "second", "1=a", "--trace", log=True)
    shown = [line for line in run.err.splitlines() if "  block " in line]
    said = [
        ("block 0  header: empty", 0),
        ("block 0  header: 1 logged", 0),
        ("block 1  list", 1),
        ("block 2  log entry 0", 2),
        ("block 0  header: 1 logged, holding", 0),
        ("block 259  page 1", 259),
        ("block 0  header: empty", 0),
    ]
    assert shown == [f"{name:<6}  {what}" for what, _ in said for name in ("first", "second")], run
    done = [(line[1], int(line[2])) for line in register.log_lines() if line[0] == "write"]
    assert done == [(name, BLOCK * block) for _, block in said for name in ("first", "second")], done


def test_words(register):
    register.new_disks()
    for words in ([], ["--help"], ["serve", "--help"]):
        run = register.run(*words)
        assert run.status == 0 and run.out.startswith(b"register new FIRST SECOND PAGES"), run
    for words, said in (
        (["sevre", "first", "second"], "sevre is no command"),
        (["serve"], "first disk is missing"),
        (["serve", "first"], "second disk is missing"),
        (["serve", "first", "second", "third"], "third is one word too many"),
        (["check", "first", "second", "0"], "one word too many"),
        (["read", "first", "second"], "page is missing"),
        (["read", "first", "second", "0", "1"], "one word too many"),
        (["new", "first", "second"], "pages is missing"),
        (["new", "first", "second", "3", "4"], "one word too many"),
        (["serve", "first", "second", "--pad"], "--pad belongs to change"),
        (["--verbose", "serve", "first", "second"], "--verbose is no option"),
        (["serve", "fi\nrst", "second"], "control characters"),
        (["serve", b"\xff", "second"], "no text"),
    ):
        words = [word if isinstance(word, bytes) else str(word) for word in words]
        before = register.disks()
        done = subprocess.run([register.program, *words], cwd=register.folder, capture_output=True, check=False)
        assert done.returncode == 1 and done.stderr.count(b"\n") == 1, (words, done)
        assert said.encode() in done.stderr, (words, done)
        assert register.disks() == before
