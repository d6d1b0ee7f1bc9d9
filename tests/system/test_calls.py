"""Calls, by frames and by the command line, and everything that is refused there."""

import os
import random
import resource

from sales import *


def blocks_written(register):
    return sum(1 for line in register.log_lines() if line[0] == "write")


# What a start without anything to mend writes: the header on each disk.
START = 2


def test_each_call_is_answered_as_it_comes(register):
    register.new_disks()
    serving = register.start()
    for call in SCRIPT:
        assert register.ask(serving, call) == DONE
    assert register.ask(serving, b"") == refused(1, 0)
    assert register.ask(serving, write_call(0, bytes(2000))) == refused(2)
    assert [register.ask(serving, call) for call in READS] == [told_page(p) for p in BOOKS[2]]
    out, _ = serving.communicate()
    assert serving.returncode == 0 and out == b""


def test_refusals(register):
    register.new_disks()
    calls = [
        (b"", refused(1, 0)),
        (b"\x04", refused(1, 0)),
        (b"\xff" * 9, refused(1, 0)),
        (b"\x00", refused(1, 1)),
        (b"\x00\x01\x00\x00", refused(1, 4)),
        (read_call(0) + b"\x00", refused(1, 5)),
        (b"\x01\x00\x00", refused(1, 3)),
        (CLOSE + b"\x00", refused(1, 1)),
        (SIZE, b"\x03\x03\x00\x00\x00"),
        (SIZE + SIZE, refused(1, 1)),
        (write_call(0, b""), refused(2)),
        (write_call(0, A[:1023]), refused(2)),
        (write_call(0, A + b"A"), refused(2)),
        (write_call(3, A[:1023]), refused(2)),
        (write_call(3, A), refused(3)),
        (write_call(2**32 - 1, A), refused(3)),
        (read_call(3), refused(3)),
        (read_call(2**32 - 1), refused(3)),
        (read_call(2), told_page(EMPTY)),
    ]
    before = register.disks()
    run = register.serve([call for call, _ in calls], log=True)
    assert run.status == 0 and run.answers() == [answer for _, answer in calls], run.answers()
    assert register.disks() == before and blocks_written(register) == START


def test_full_log(register):
    register.new_disks()
    run = register.serve([write_call(i % 3, A) for i in range(256)] + [write_call(0, B), CLOSE, read_call(0)], log=True)
    assert run.answers() == [DONE] * 256 + [refused(4), DONE, told_page(A)], run.answers()[-3:]
    assert blocks_written(register) == START + 256 * 6 + 4 + 2 * 256


def limit_memory():
    resource.setrlimit(resource.RLIMIT_AS, (32 << 20, 32 << 20))


def test_long_frames(register):
    """A frame of any length is answered, in fixed memory."""
    register.new_disks()
    long = bytes(3000000)
    calls = [read_call(0) + long, write_call(0, long), CLOSE + long, b"\x09" + long, read_call(1)]
    run = register.serve(calls, preexec_fn=limit_memory)
    assert run.answers() == [refused(1, 5), refused(2), refused(1, 1), refused(1, 0), told_page(EMPTY)], run
    for n in (1024, 1025, 1026, 1030, 5120, 5121, 8192, 65536):
        run = register.serve([write_call(0, bytes(n)), read_call(0), CLOSE])
        assert run.answers() == [DONE if n == 1024 else refused(2), told_page(EMPTY), DONE], n


def test_longest_frame(register):
    """As long as four bytes can say, from a file that has holes."""
    register.new_disks()
    with open(register.path("calls"), "wb") as calls:
        calls.write(b"\xff\xff\xff\xff" + write_call(1, b""))
        calls.seek(4 + 2**32 - 1)
        calls.write(frame(read_call(1)))
    run = register.shell("exec register serve first second <calls")
    assert run.status == 0 and run.answers() == [refused(2), told_page(EMPTY)], run


def test_broken_frames(register):
    """After all earlier answers an error line and status 1; no block is written for it."""
    register.new_disks()
    assert register.serve(SALE).status == 0
    good = frames(READS)
    for tail in (
        b"\x00",
        b"\x05\x00\x00",
        b"\x05\x00\x00\x00",
        frame(read_call(0))[:-1],
        frame(write_call(0, D))[:-1],
        frame(bytes(2000))[:-1],
        b"\xff\xff\xff\xff",
        b"\xff\xff\xff\xff" + write_call(0, D),
    ):
        run = register.run("serve", "first", "second", given=good + tail, log=True)
        assert run.status == 1 and run.answers() == [told_page(p) for p in BOOKS[1]], run
        assert run.err.endswith("register: the input ends within a call\n"), run
        assert blocks_written(register) == START, tail
    check_book(register, [BOOKS[1]])
    run = register.run("serve", "first", "second", given=frames(SCRIPT[:1]) + b"\xff\xff\xff\xff")
    assert run.status == 1 and "1 write was not closed and is dropped" in run.err, run


def test_any_bytes(register):
    """Random frames, and input that is no frames at all: an answer to each, and never a crash."""
    chance = random.Random(1)
    for _ in range(30):
        register.new_disks()
        calls = [random_call(chance) for _ in range(20)]
        run = register.serve(calls)
        assert run.status == 0 and len(run.answers()) == len(calls), run
        check_two_disks(register)
        run = register.run("serve", "first", "second", given=chance.randbytes(3000))
        assert run.status in (0, 1), run
        check_two_disks(register)


def random_call(chance):
    number = chance.choice([0, 1, 2, 3, 2**32 - 1])
    return chance.choice(
        [
            read_call(number),
            write_call(number, page(chance.choice("ABCD"))),
            write_call(number, chance.randbytes(chance.randrange(2000))),
            CLOSE,
            SIZE,
            chance.randbytes(chance.randrange(12)),
        ]
    )


def check_two_disks(register):
    """There are the two disks and nothing else, as long as they were, and a start mends them."""
    assert register.names() == ["first", "second"], register.names()
    assert [len(disk) for disk in register.disks()] == [BLOCK * (FIRST_PAGE + 3)] * 2
    assert register.serve([]).status == 0
    check_mended(register)


# Reading and changing by the command line.


def test_read(register):
    register.new_disks()
    register.serve(SCRIPT)
    for number, content in enumerate(BOOKS[2]):
        run = register.run("read", "first", "second", number)
        assert run.status == 0 and run.out == content, run
    assert register.run("read", "first", "second", "002").out == D


def test_refusals_come_before_recovery(register):
    """A close was cut, and a command is refused: the disks stay as they were."""
    register.new_disks()
    register.serve(SALE, faults="kill:write:*:17")
    register.write_file("a", A)
    for words, said in (
        (["change", "first", "second", "0=a", "3=a"], "there is no page 3; the register has 3, from 0 on"),
        (["change", "first", "second", "4294967295=a"], "there is no page 4294967295"),
        (["change", "first", "second", "0=a", "1=none"], "none can't be read"),
        (["serve", "first", "none"], "none can't be opened"),
        (["check", "first", "second", "0"], "one word too many"),
    ):
        refuses_untouched(register, words, said)
    for word in ("x", "-1", "+1", "1.0", "4294967296", "99999999999999999999", " 1", "1 "):
        refuses_untouched(register, ["read", "first", "second", word], f"{word} is no number of a page")
    check_book(register, [BOOKS[1]])


def test_change(register):
    register.new_disks()
    register.serve(SCRIPT[:2])
    register.write_file("a", A)
    register.write_file("b", B)
    register.write_file("a=b", D)
    register.write_file("short", b"short")
    register.write_file("empty", b"")
    register.write_file("long", A + b"A")
    refused_changes = [
        (["0=a", "1=long"], "longer than a page"),
        (["0=a", "1=short"], "short has 5 bytes and a page has 1024; --pad"),
        (["0=a", "1=empty"], "empty has 0 bytes and a page has 1024; --pad"),
        (["0=a", "1=none"], "none can't be read"),
        (["0=a", "1=."], ". can't be read"),
        (["0=a", "1=/dev/zero"], "longer than a page"),
        (["0=a", "3=b"], "no page 3"),
        (["0=a", "0=b"], "page 0 is named twice"),
        (["0=a", "00=b"], "page 0 is named twice"),
        (["0=a", "x=b"], "x is no number of a page"),
        (["0=a", "+1=b"], "+1 is no number of a page"),
        (["0=a", "4294967296=b"], "4294967296 is no number of a page"),
        (["0=a", "b"], "b is no change"),
        (["0=a", "1="], "1= is no change"),
        (["0=a", "=b"], "=b is no change"),
        (["0=a", "="], "= is no change"),
        (["0=a", "-"], "- is no change"),
        ([], "missing"),
        ([f"{i}=a" for i in range(257)], "256 pages at most"),
        (["0=a", "--trase"], "is no option"),
        (["0=a", "--"], "-- is no option"),
        (["0=a", ""], "is no change"),
        (["0=long", "--pad"], "longer than a page"),
    ]
    for words, said in refused_changes:
        refuses_untouched(register, ["change", "first", "second", *words], said)
    for words, book in (
        (["0=a", "1=b"], [A, B, EMPTY]),
        (["2=a", "01=a", "0=b"], [B, A, A]),
        (["--pad", "2=short", "1=empty"], [B, EMPTY, b"short".ljust(BLOCK, b"\0")]),
        (["1=a=b"], [B, D, b"short".ljust(BLOCK, b"\0")]),
    ):
        run = register.run("change", "first", "second", *words)
        count = sum("=" in word for word in words)
        assert run.status == 0 and run.out == f"done: {count} pages changed\n".encode(), run
        check_book(register, [book])


def test_change_of_many_pages(register):
    assert register.run("new", "first", "second", 300).status == 0
    for i in range(256):
        register.write_file(f"page{i}", bytes([i]) * BLOCK)
    run = register.run("change", "first", "second", *[f"{i + 40}=page{i}" for i in range(256)])
    assert run.status == 0 and run.out == b"done: 256 pages changed\n", run
    disk = register.bytes_of("first")
    for i in range(256):
        at = BLOCK * (FIRST_PAGE + 40 + i)
        assert disk[at : at + BLOCK] == bytes([i]) * BLOCK, i
    before = register.disks()
    refuses(register.run("change", "first", "second", *[f"{i}=page0" for i in range(257)]), "256 pages at most")
    assert register.disks() == before


def test_change_from_a_pipe_in_packets(register):
    """A pipe that drops what a read leaves of a packet gives its page whole, and a short packet as it is."""
    for content, pad, wanted in ((A, [], A), (A, ["--pad"], A), (A[:9], ["--pad"], A[:9].ljust(BLOCK, b"\0"))):
        register.new_disks()
        reading, writing = os.pipe2(os.O_DIRECT)
        os.write(writing, content)
        os.close(writing)
        run = register.run("change", "first", "second", "1=/dev/fd/0", *pad, given=None, stdin=reading)
        os.close(reading)
        assert run.status == 0, run
        check_book(register, [[EMPTY, wanted, EMPTY]])


# How the disks stand, and what is written.


def test_check_tells(register):
    register.new_disks()
    register.serve(SCRIPT[:1])
    run = register.run("check", "first", "second")
    assert run.status == 0, run
    assert run.out == (
        b"first disk: alive\nsecond disk: alive\ndisks: the same\npages: 3\n"
        b"recovery: mended; 1 write was not closed and is dropped\n"
    ), run
    assert register.run("check", "first", "second").out.endswith(b"recovery: nothing to mend\n")
    run = register.run("check", "-", "second")
    assert run.out == (
        b"first disk: dead\nsecond disk: alive\ndisks: one alone\npages: 3\nrecovery: nothing to mend\n"
    ), run


def check_traced(register, run, said):
    """Each block that was written is a line, shown before the next block is written."""
    shown = [line for line in run.err.splitlines() if "  block " in line]
    assert shown == [f"{name:<6}  block {block}  {what}" for what, block in said for name in ("first", "second")], run
    lines = [line for line in register.log_lines() if line[0] == "write" or line[:2] == ["tell", "stderr"]]
    wanted = [(name, BLOCK * block) for _, block in said for name in ("first", "second")]
    assert [(line[1], int(line[2])) for line in lines if line[0] == "write"] == wanted
    for line, after in zip(lines, lines[1:]):
        assert line[0] != "write" or after[0] == "tell", lines


def test_trace(register):
    register.new_disks()
    register.write_file("a", A)
    said = [
        ("header: empty", 0),
        ("header: 1 logged", 0),
        ("list", 1),
        ("log entry 0", 2),
        ("header: 1 logged, holding", 0),
        ("page 1", 259),
        ("header: empty", 0),
    ]
    for words in (["change", "first", "second", "1=a", "--trace"], ["--trace", "change", "first", "second", "1=a"]):
        check_traced(register, register.run(*words, log=True), said)
    register.clean()
    run = register.run("new", "--trace", "first", "second", 1)
    shown = run.err.splitlines()
    assert len(shown) == 2 * 259 and shown[-1] == "second  block 258  page 0", shown[-1]


def test_words(register):
    register.new_disks()
    for words in ([], ["--help"], ["serve", "--help"], ["--help", "nothing", "of", "this"]):
        run = register.run(*words)
        assert run.status == 0 and run.out.startswith(b"register new FIRST SECOND PAGES") and not run.err, run
    for words, said in (
        (["sevre", "first", "second"], "sevre is no command"),
        (["-"], "- is no command"),
        (["-h"], "-h is no command"),
        (["--", "serve", "first", "second"], "-- is no option"),
        (["serve"], "first disk is missing"),
        (["serve", "first"], "second disk is missing"),
        (["serve", "first", "second", "third"], "third is one word too many"),
        (["check", "first", "second", "0"], "one word too many"),
        (["read", "first", "second"], "page is missing"),
        (["read", "first", "second", "0", "1"], "one word too many"),
        (["new", "first", "second"], "pages is missing"),
        (["new", "first", "second", "3", "4"], "one word too many"),
        (["serve", "first", "second", "--pad"], "--pad belongs to change"),
        (["--verbose", "serve", "first", "second"], "--verbose is no option"),
        (["serve", "", "second"], "can't be opened"),
        (["serve", "fi\nrst", "second"], "control characters"),
        (["serve", "first", "sec\x7fond"], "control characters"),
        (["serve", b"\xff", "second"], "no text"),
    ):
        refuses_untouched(register, words, said)


def test_any_words(register):
    """Random words: a refusal or what was asked, and no file but the disks."""
    chance = random.Random(2)
    words = ["serve", "read", "change", "check", "first", "second", "-", "0", "2", "3", "0=page", "1=first", "=", "--pad"]
    register.new_disks()
    register.write_file("page", A)
    names = {"first", "second", "page", "first.alone", "second.alone", "first.dead", "second.dead"}
    for _ in range(150):
        run = register.run(*chance.choices(words, k=chance.randrange(1, 6)))
        assert run.status in (0, 1), run
        assert run.status == 0 or run.err.startswith("register: "), run
        assert set(register.names()) <= names, register.names()
