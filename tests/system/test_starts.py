"""Starts: one process at a time, streams that are closed, disks that no register left, and what is said."""

import os
import pty
import subprocess

from sales import *

# The commands that start a register, each with what it takes besides the disks.
COMMANDS = [["serve"], ["check"], ["read", 0], ["change", "0=page"]]


def with_disks(command, first, second):
    return [command[0], first, second, *command[1:]]


# One at a time.


def test_one_process_at_a_time(register):
    register.new_disks()
    register.write_file("page", A)
    os.symlink("first", register.path("link"))
    register.copy("first", "other")
    serving = register.start()
    os.link(register.path("second"), register.path("hard"))
    names = [("first", "second"), ("second", "first"), ("link", "other"), ("other", "hard"), ("link", "hard")]
    for first, second in names + [("first", "-"), ("-", "hard")]:
        for command in COMMANDS:
            refuses_untouched(register, with_disks(command, first, second), f"process {serving.pid} has")
    register.remove("hard")
    serving.kill()
    serving.communicate()
    assert register.serve(READS).status == 0
    serving = register.start()
    serving.communicate()
    assert register.serve(READS).status == 0


def answers_one(serving):
    """Whether a process answers a call, or ends without a word on standard output."""
    try:
        serving.stdin.write(frame(read_call(0)))
        serving.stdin.flush()
    except BrokenPipeError:
        return False
    return serving.stdout.read(4) != b""


def test_two_that_start_at_once(register):
    """At least one of them is refused, and which are refused is said."""
    register.new_disks()
    for turn in range(40):
        both = [register.begin("serve", *ORDERS[(turn + k) % 2]) for k in range(2)]
        answered = [answers_one(serving) for serving in both]
        assert answered != [True, True], "two processes have the same disks"
        for serving, one in zip(both, answered):
            _, err = serving.communicate()
            assert serving.returncode == (0 if one else 1), err
            assert one or b"one at a time" in err, err
    assert register.serve(READS).status == 0
    check_mended(register)


def test_readers_are_no_matter(register):
    register.new_disks()
    with open(register.path("first"), "rb"):
        assert register.serve(READS).status == 0


def test_one_file_twice(register):
    register.new_disks()
    os.symlink("first", register.path("link"))
    os.link(register.path("first"), register.path("hard"))
    for second in ("first", "./first", "link", "hard"):
        refuses_untouched(register, ["serve", "first", second], "are one file")


# Standard streams that are closed, or lead nowhere.


def test_closed_streams(register):
    for closed in ("<&-", ">&-", "2>&-", "<&- >&-", "<&- 2>&-", ">&- 2>&-", "<&- >&- 2>&-"):
        register.new_disks()
        register.serve(SCRIPT)
        register.write_file("a", A)
        before = register.disks()
        for words in ("serve first second", "read first second 1", "check first second"):
            run = register.shell(f"exec register {words} {closed}", given=frames(READS))
            told = ">&-" not in closed.replace("2>&-", "") and not ("<&-" in closed and "serve" in words)
            assert run.status == (0 if told else 1), (closed, words, run)
            if "2>&-" not in closed and not told:
                assert "can't be" in run.err, (closed, words, run)
        assert register.disks() == before, closed
        status = 1 if ">&-" in closed.replace("2>&-", "") else 0
        for words in ("change first second 0=a", "new third fourth 3"):
            run = register.shell(f"exec register {words} {closed}")
            assert run.status == status, (closed, words, run)
        check_book(register, [BOOKS[2]])
        assert register.disks("third", "fourth") == [bytes(BLOCK * (FIRST_PAGE + 3))] * 2, closed


def test_answers_that_cannot_be_told(register):
    register.new_disks()
    register.write_file("a", A)
    for words, given in (
        ("serve first second", frames(READS)),
        ("read first second 0", b""),
        ("check first second", b""),
        ("change first second 1=a", b""),
        ("new third fourth 3", b""),
        ("--help", b""),
    ):
        run = register.shell(f"exec register {words} >/dev/full", given=given)
        assert run.status == 1 and "No space left" in run.err, run
    check_book(register, [[EMPTY, A, EMPTY]])


def test_reader_that_is_gone(register):
    """Where nobody reads the answers any more it is an error line and status 1, whether or not the signal for that
    is ignored by whoever started it. What was answered holds."""
    for ignored in ("trap '' PIPE;", ""):
        register.new_disks()
        reading, writing = os.pipe()
        os.close(reading)
        run = register.shell(f"{ignored} exec register serve first second", frames(SCRIPT), stdout=writing)
        os.close(writing)
        assert run.status == 1 and "the answer can't be told: Broken pipe" in run.err, run
        check_book(register, [BOOKS[0]])


# Starts that are refused.


def test_sizes(register):
    register.new_disks()
    register.write_file("page", A)
    register.write_file("longer", bytes(BLOCK * (FIRST_PAGE + 4)))
    register.write_file("odd", bytes(BLOCK * (FIRST_PAGE + 3) + 1))
    register.write_file("small", bytes(BLOCK * FIRST_PAGE))
    register.write_file("tiny", b"")
    os.mkfifo(register.path("pipe"))
    for command in COMMANDS:
        for first, second, said in (
            ("first", "longer", "not disks of one register"),
            ("first", "missing", "missing can't be opened"),
            ("missing", "second", "missing can't be opened"),
            ("first/", "second", "first/ can't be opened"),
            ("odd", "second", "no whole blocks"),
            ("small", "-", "259 to 16777474"),
            ("-", "tiny", "259 to 16777474"),
            ("first", ".", "can't be opened"),
            ("first", "pipe", "is no plain file"),
            ("first", "/dev/zero", "is no plain file"),
        ):
            refuses_untouched(register, with_disks(command, first, second), said, "give - in its place")


def test_sizes_at_the_edges(register):
    register.new_disks(pages=1)
    run = register.serve([write_call(0, A), CLOSE, write_call(1, A), SIZE])
    assert run.answers() == [DONE, DONE, refused(3), b"\x03\x01\x00\x00\x00"], run
    # Sparse files; the refusals come before they are read through.
    register.write_file("page", A)
    for blocks, said in ((16777474, "the register has 16777216, from 0 on"), (16777475, "259 to 16777474")):
        for name in ("first", "second"):
            os.truncate(register.path(name), BLOCK * blocks)
        refuses(register.run("change", "first", "second", "16777216=page"), said)
    refuses(register.run("read", "first", "second", 16777216), said)


def test_names_of_disks(register):
    """No disk is named like a mark, so long that a mark beside it is not, or so that it can't be shown."""
    register.new_disks()
    for name in ("first.dead", "first.alone"):
        register.copy("first", name)
        refuses_untouched(register, ["serve", name, "second"], "named like a mark")
        register.remove(name)
        refuses_untouched(register, ["new", "third", name, 3], "named like a mark")
    for n, said in ((250, "File name too long"), (252, "File name too long")):
        register.copy("first", "x" * n)
        refuses_untouched(register, ["serve", "x" * n, "second"], "whether a mark of a death stands", said)
        register.remove("x" * n)
        refuses_untouched(register, ["new", "third", "x" * n, 3], "whether a mark of a death stands", said)
    os.rename(register.path("first"), register.path("x" * 249))
    assert register.serve(READS, first="x" * 249).status == 0
    refuses_untouched(register, ["serve", "y" * 5000, "second"], "can't be opened")


def test_folder_whose_name_is_too_long(register):
    """Where the system doesn't tell a disk's full name no mark could be set beside it."""
    register.new_disks()
    above = os.open(register.folder, os.O_RDONLY)
    deep = above
    try:
        for _ in range(18):
            os.mkdir("d" * 240, dir_fd=deep)
            deep, last = os.open("d" * 240, os.O_RDONLY, dir_fd=deep), deep
            if last != above:
                os.close(last)
        os.link(register.path("first"), "first", dst_dir_fd=deep)
        run = register.run("serve", "first", "-", preexec_fn=lambda: os.fchdir(deep), cwd=None)
        refuses(run, "has no full name that the system tells")
        assert os.listdir(deep) == ["first"]
    finally:
        os.close(deep)
        os.close(above)


def test_disks_of_two_registers(register):
    register.new_disks()
    register.serve([write_call(1, A), CLOSE])
    register.copy("first", "other")
    register.serve([write_call(2, B), CLOSE])
    for first, second in (("other", "second"), ("first", "other")):
        refuses_untouched(
            register,
            ["serve", first, second],
            "the disks differ in 3 blocks, the first 1 and the last 260",
            "two registers, or one is an old copy",
            "give - in place of the one to leave out",
        )
    # With the old copy left out the register goes on.
    check_book(register, [[EMPTY, A, B]], first="-")


def test_disks_that_differ_in_two_blocks(register):
    """Power leaves one block in which they differ, so two are one too many; one is mended from the first."""
    register.new_disks()
    register.put_bytes("second", BLOCK * FIRST_PAGE, A)
    check_book(register, [[EMPTY, EMPTY, EMPTY]])
    register.put_bytes("second", BLOCK * FIRST_PAGE, A + B)
    refuses_untouched(register, ["serve", "first", "second"], "the disks differ in 2 blocks, the first 258 and the last 259")


def test_strange_headers(register):
    headers = [
        (0, b"\x02", "its first byte is neither 0 nor 1"),
        (0, b"\xff", "its first byte is neither 0 nor 1"),
        (1, (257).to_bytes(4, "little"), "it counts more writes than the log has room for"),
        (1, (2**32 - 1).to_bytes(4, "little"), "it counts more writes than the log has room for"),
        (0, b"\x00\x02\x00\x00\x00" + bytes(1019) + b"\x00\x00\x00\x00\x03\x00\x00\x00", "names a page that is not there"),
        (0, b"\x01\x01\x00\x00\x00" + bytes(1019) + b"\xff\xff\xff\xff", "names a page that is not there"),
    ]
    for at, content, said in headers:
        for names in (["first", "second"], ["first"], ["second"]):
            register.new_disks()
            for name in names:
                register.put_bytes(name, at, content)
            blocks = {(at + i) // BLOCK for i, byte in enumerate(content) if byte}
            strange = [f"the {names[0]} disk has a header that no register", said, "give - in its place"]
            differ = [f"the disks differ in {len(blocks)} blocks, the first 0 and the last 1"]
            expected = strange if len(names) == 2 or len(blocks) == 1 else differ
            refuses_untouched(register, ["serve", "first", "second"], *expected)
            refuses_untouched(register, ["serve", "-", names[0]], "header that no register", said)
            if len(names) == 1:
                left = {"first": "second", "second": "first"}[names[0]]
                check_book(register, [BOOKS[0]], first="-", second=left)


def test_fullest_headers(register):
    """Nothing that a register writes is refused."""
    for flag in (0, 1):
        register.new_disks()
        for name in ("first", "second"):
            register.put_bytes(name, 0, bytes([flag]) + (256).to_bytes(4, "little"))
            register.put_bytes(name, BLOCK, b"\x02\x00\x00\x00" * 256)
            register.put_bytes(name, BLOCK * 257, A)
        check_book(register, [[EMPTY, EMPTY, A if flag else EMPTY]])


# What a start says.


def test_what_a_start_says(register):
    register.new_disks()
    run = register.serve(SCRIPT[:2])
    assert "2 writes were not closed and are dropped" in run.err, run
    run = register.serve([])
    assert "mended; 2 writes were not closed and are dropped" in run.err, run
    run = register.serve([])
    assert run.err == "register: first disk alive, second disk alive, 3 pages, nothing to mend\n", run
    register.new_disks()
    register.serve(SCRIPT, faults="kill:write:*:17")
    run = register.serve([])
    assert "; block 258 is on the second disk now as on the first" in run.err, run
    assert "; a close that was cut is done, pages: 2" in run.err, run


def on_terminal(register, *words, faults):
    """What a run writes on standard error where that is a terminal."""
    screen, terminal = pty.openpty()
    env = register.environment(faults, False)
    run = subprocess.Popen(
        [register.program, *words],
        stdin=subprocess.DEVNULL,
        stdout=subprocess.DEVNULL,
        stderr=terminal,
        cwd=register.folder,
        env=env,
    )
    os.close(terminal)
    shown = b"".join(iter(lambda: read_screen(screen), b""))
    os.close(screen)
    assert run.wait() == 0, shown
    return shown.decode()


def read_screen(screen):
    """What comes next on a screen; nothing when nobody writes there any more."""
    try:
        return os.read(screen, 4096)
    except OSError:
        return b""


def test_progress(register):
    """Making and a start say how far they are on a terminal, where they take longer than a second."""
    shown = on_terminal(register, "new", "first", "second", "3000", faults="slow:write:second:1")
    assert " of 6516" in shown, shown
    shown = on_terminal(register, "check", "first", "second", faults="slow:read:second:2")
    assert "register: block: " in shown and " of 3258" in shown, shown
    # Quick ones say nothing, and where it is no terminal nothing is said.
    shown = on_terminal(register, "check", "first", "second", faults="")
    assert shown == "register: first disk alive, second disk alive, 3000 pages, nothing to mend\r\n", shown
    run = register.run("check", "first", "second", faults="slow:read:second:2")
    assert run.err.count("\n") == 1, run
