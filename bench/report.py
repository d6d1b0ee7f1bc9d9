"""Makes docs/BENCHMARK.md and docs/benchmark.svg of what bench.py measured: tables, what they mean, a picture."""
import os
import statistics
import textwrap

SALE_CALLS = 4              # three writes and a close
OURS, PLAIN, AGAIN, FLOOR = "register", "plain C", "plain C again", "floor"


def table(head, rows):
    """A table in Markdown that can be read as text too."""
    lines = [[str(x) for x in line] for line in [head] + rows]
    width = [max(len(line[i]) for line in lines) for i in range(len(head))]
    lines.insert(1, ["-" * width[0]] + ["-" * (w - 1) + ":" for w in width[1:]])
    return "\n".join(
        "| " + " | ".join([line[0].ljust(width[0])] + [x.rjust(w) for x, w in zip(line[1:], width[1:])]) + " |"
        for line in lines)


def number(x, digits=0):
    return "{:,.{}f}".format(x, digits)


def shown(cost, key, digits=0):
    """A count, where the tool for it was there."""
    return number(cost[key], digits) if key in cost else "-"


# ---- counts

def counts_part(r):
    lines = []
    for name in r["counts"]:
        sale, read = r["counts"][name]["sale"], r["counts"][name]["read"]
        lines.append([name, shown(sale, "syncs", 1), shown(sale, "writes", 1), shown(sale, "bytes"), shown(sale, "calls", 1),
                      shown(read, "calls", 1), shown(sale, "instructions"), shown(read, "instructions")])
    return table(["", "syncs a sale", "write calls a sale", "bytes a sale", "system calls a sale", "system calls a read",
                  "instructions a sale", "instructions a read"], lines)


# ---- times

def ratios(part, name, to):
    """In each round: a row to another."""
    return [a / b for a, b in zip(part[name], part[to])]


def spread(xs):
    return "%.2f (%.2f to %.2f)" % (statistics.median(xs), min(xs), max(xs))


def times_part(r):
    sale, read = r["times"]["sale"], r["times"]["read"]
    lines = [[name, spread(ratios(sale, name, PLAIN)), "%.1f" % statistics.median(ratios(sale, name, FLOOR)),
              spread(ratios(read, name, PLAIN))] for name in sale]
    return table(["", "a sale, to plain C", "a sale, to the floor", "a read, to plain C"], lines)


# ---- killed

KINDS = ["whole", "absent", "one copy only", "wrong"]


def kills_part(r):
    lines = [[name] + [one["left"].get(kind, 0) for kind in KINDS] + [number(one["open"], 1)]
             for name, one in r["kills"].items()]
    return table(["%d times killed while it sells" % r["size"]["kills"], "the cut sale is there, whole", "is not there",
                  "is in one copy only", "anything else", "ms to open again"], lines)


def in_one_copy(r):
    """Of the rows with two copies by hand: how many sales were left in one of them."""
    return {name: one["left"].get("one copy only", 0) for name, one in r["kills"].items() if name.endswith("two files")}


# ---- a start

def scan_ratio(r, pages, to):
    """The register's scan to another's, warm, each less what it takes on the smallest disks. None where a run was
    too noisy to tell."""
    least = {name: statistics.median(xs) for name, xs in r["scans"]["16"]["warm"].items()}
    warm = r["scans"][pages]["warm"]
    pairs = [(a - least[OURS], b - least[to]) for a, b in zip(warm[OURS], warm[to])]
    if any(a <= 0 or b <= 0 for a, b in pairs):
        return None
    return statistics.median(a / b for a, b in pairs)


def told(ratio):
    return "%.2f" % ratio if ratio is not None else "-"


def large_sizes(r):
    return [pages for pages in r["scans"] if pages != "16"]


def scans_part(r):
    lines = []
    for pages, one in r["scans"].items():
        for how in ("warm", "cold"):
            line = ["%s, %s" % (number(int(pages) + 258), how)]
            line += [number(statistics.median(one[how][name]), 1) for name in (OURS, PLAIN, "cmp")]
            line += [told(scan_ratio(r, pages, to)) for to in (PLAIN, "cmp")] if pages != "16" and how == "warm" else ["", ""]
            lines.append(line)
    return table(["blocks of each disk", "register starts, ms", "plain C compares, ms", "cmp, ms", "scan to plain C",
                  "scan to cmp"], lines)


# ---- memory

def memory_part(r):
    lines = []
    for pages, one in r["memory"].items():
        line = [number(int(pages))]
        for when in ("serving", "early", "late"):
            line += [number(one[when]["VmRSS"])]
        lines.append(line + [number(one["late"]["VmHWM"])])
    calls = number(r["size"]["calls"])
    return table(["pages", "KiB once it serves", "after %s calls" % number(r["size"]["calls"] // 100), "after %s calls" % calls,
                  "peak"], lines)


# ---- growth

def growth_part(r):
    lines = []
    for pages, one in r["growth"]["pages"].items():
        line = [number(int(pages))]
        for what in ("read", "sale"):
            line += [shown(one[what], "calls", 1), shown(one[what], "instructions"), number(one[what + " us"], 1)]
        lines.append(line + [number(one["start"], 1)])
    by_pages = table(["pages", "read: system calls", "instructions", "µs", "sale: system calls", "instructions", "µs",
                      "start, ms"], lines)
    lines = [[n] + [shown(one, key) for key in ("writes", "syncs", "calls", "instructions", "us")]
             + [number(one["us"] / (4 + 2 * int(n)), 1)] for n, one in r["growth"]["writes"].items()]
    by_writes = table(["writes that wait", "block writes of the close", "syncs", "system calls", "instructions", "µs",
                       "µs a block write"], lines)
    return by_pages + "\n\n" + by_writes


# ---- targets

def judged(r):
    """What the register has to reach: what it is, the figure, the bound, and whether it holds."""
    counts, times = r["counts"], r["times"]
    ours, plain = counts[OURS], counts[PLAIN]
    found = []

    def hold(what, figure, bound, holds):
        found.append([what, figure, bound, "yes" if holds else "no"])

    if "calls" in ours["sale"]:
        for what, key in (("syncs", "syncs"), ("block writes", "writes")):
            a, b = ours["sale"][key], plain["sale"][key]
            hold("%s a sale" % what, number(a, 1), "%s, as plain C" % number(b, 1), round(a, 1) == round(b, 1))
        a, b = ours["sale"]["calls"], plain["sale"]["calls"]
        hold("system calls a sale", number(a, 1), "%s: plain C's, and 2 for each call" % number(b + 2 * SALE_CALLS, 1),
             a <= b + 2 * SALE_CALLS + 0.05)
        a, b = ours["read"]["calls"], plain["read"]["calls"]
        hold("system calls a read", number(a, 1), "%s, plain C's" % number(b, 1), a <= b + 0.05)
    for what in ("sale", "read"):
        if "instructions" in ours[what]:
            ratio = ours[what]["instructions"] / plain[what]["instructions"]
            hold("user instructions a %s, to plain C" % what, "%.2f" % ratio, "1.50", ratio <= 1.5)
    for what in ("sale", "read"):
        ratio = statistics.median(ratios(times[what], OURS, PLAIN))
        noise = max(ratios(times[what], AGAIN, PLAIN))
        hold("time of a %s, to plain C" % what, "%.2f" % ratio, "%.2f, plain C's noise" % max(noise, 1), ratio <= max(noise, 1))
    for pages in large_sizes(r):
        blocks = number(int(pages) + 258)
        for to, bound in ((PLAIN, 1.15), ("cmp", 1)):
            ratio = scan_ratio(r, pages, to)
            hold("scan of %s blocks, to %s" % (blocks, to), told(ratio), "%.2f" % bound, ratio is not None and ratio <= bound)
    memory = list(r["memory"].values())
    most = max(one["serving"]["VmRSS"] for one in memory)
    hold("resident memory once it serves, KiB", number(most), "4,096", most < 4096)
    peak = max(one["late"]["VmHWM"] for one in memory)
    hold("its peak, KiB", number(peak), "6,144", peak < 6144)
    grown = max(one["late"]["VmRSS"] - one["early"]["VmRSS"] for one in memory)
    hold("growth over %s calls, KiB" % number(r["size"]["calls"]), number(grown), "0", grown <= 0)
    return found


def targets(r):
    return table(["what it has to reach", "figure", "bound", "reached"], judged(r))


# ---- the document

TITLES = {
    "counts": "Counts",
    "times": "Times, as ratios",
    "kills": "Killed while it sells",
    "scans": "A start",
    "memory": "Memory",
    "growth": "How cost grows",
}
PARTS = {
    "counts": counts_part,
    "times": times_part,
    "kills": kills_part,
    "scans": scans_part,
    "memory": memory_part,
    "growth": growth_part,
}


# Why a figure falls short, where that is known.
REASONS = {
    "user instructions a sale": "A call is worked out as a value that holds the list and the bytes that came, 2,048 bytes "
        "together, and this value is moved from function to function before it is used; header and list are read off the "
        "disk and not kept. The C program does neither.",
    "user instructions a read": "A read makes and moves the same value as a write, though it writes nothing.",
}


def reasons(r):
    """What is known of each figure that falls short."""
    short = [line[0] for line in judged(r) if line[3] == "no"]
    return "\n".join("- %s: %s" % (what, why) for what, why in
                     ((name, REASONS[key]) for name in short for key in REASONS if name.startswith(key)))


def wrapped(text):
    """Paragraphs and points filled to a width; tables, headings and pictures as they are."""
    out = []
    for part in text.split("\n\n"):
        if part.startswith("- "):
            points = [textwrap.fill(p, 110, subsequent_indent="  ", break_long_words=False, break_on_hyphens=False)
                      for p in part.strip().split("\n")]
            out.append("\n".join(points))
        elif part[:1] in "|#!":
            out.append(part.strip())
        else:
            out.append(textwrap.fill(part, 110, break_long_words=False, break_on_hyphens=False))
    return "\n\n".join(p for p in out if p) + "\n"


def noisy(r):
    return r["about"]["load"] > 0.5


def slower(r):
    """Where the register is slower than its peers, in this run's numbers."""
    counts, times = r["counts"], r["times"]["sale"]
    text = []
    for name in ("SQLite WAL, two files", "LMDB, two files"):
        if name not in counts or "syncs" not in counts[name]["sale"]:
            continue
        text.append("%s takes %s syncs a sale, the register %s, and a sale takes the register %.1f times as long." % (
            name, number(counts[name]["sale"]["syncs"], 1), number(counts[OURS]["sale"]["syncs"], 1),
            statistics.median(ratios(times, OURS, name))))
    return " ".join(text) or "No peer was measured in this run."


def left_over(r):
    text = ["%s %d of %d" % (name, n, r["size"]["kills"]) for name, n in in_one_copy(r).items()]
    if not text:
        return "no peer was measured on two files in this run"
    return "; ".join(text)


def constants(r):
    """The start's and the close's growth, each with its constant."""
    starts = {int(p): one["start"] for p, one in r["growth"]["pages"].items()}
    most, least = max(starts), min(starts)
    per = (starts[most] - starts[least]) / (most - least) * 1e3
    closes = {int(n): one["us"] for n, one in r["growth"]["writes"].items()}
    few, many = min(closes), max(closes)
    return per, starts[least], (closes[many] - closes[few]) / (many - few)


def marks(r):
    """What a reader has to know of this run before its numbers."""
    about, text = r["about"], []
    if noisy(r):
        text.append("**This run is noisy**: the machine was busy with other work (load %.1f on %d cores). Look at the counts "
                    "and at memory, which don't depend on it, and at no time." % (about["load"], about["cores"]))
    if r["quick"]:
        text.append("**This was a quick run**, on smaller disks and with fewer rounds than `make bench` takes.")
    if r["skipped"]:
        text.append("Skipped in this run, since it is not installed: %s." % ", ".join(r["skipped"]))
    return "\n\n".join(text)


def document(r):
    about, size = r["about"], r["size"]
    per_block, start, per_write = constants(r)
    lines = judged(r)
    short = [line for line in lines if line[3] == "no"]
    reached = "All %d are reached." % len(lines) if not short else "%d of %d are reached." % (len(lines) - len(short), len(lines))
    sale_us = statistics.median(r["times"]["sale"][PLAIN])
    read_us = statistics.median(r["times"]["read"][PLAIN])
    return wrapped(f"""# Benchmark

Written by `make bench`, from one run on {about["date"]} that took {r["seconds"] / 60:.0f} minutes: commit {about["commit"]},
built with {about["kit"]}, {about["cpu"]}, {about["cores"]} cores, Linux {about["kernel"]}, {about["files"]}, {about["cc"]}. How it is measured is in
[bench/README.md](../bench/README.md).

{marks(r)}

The work is the same for each row: a book of {number(size["pages"])} pages; {size["sales"]} sales of three pages, each of
which lasts before the next begins; {number(size["reads"])} reads of random pages. `register` is `register serve`, and
`plain C` is a C program by the same rules behind the same frames; both are programs of their own, spoken to over pipes.
SQLite and LMDB are libraries in the calling process, on one file, and on two files one after the other, as a program does
by hand that wants two copies. The floor appends a sale to each of two files and syncs each once; nothing that lasts on
two files can do less.

![Syncs and time of a sale, and what a kill leaves](benchmark.svg)

## What it has to reach

{reached}

{targets(r)}

A time is within noise where the register is no further from plain C than plain C is from itself in the same run.

{reasons(r)}

## Counts

{counts_part(r)}

Calls and bytes are the same on every machine, and instructions nearly so. What a program over pipes costs is the program alone, without its caller. A sale is
three writes and a close: 14 blocks, each on two disks, each synced by itself. The register's system calls beyond plain
C's are one read for each write and close, of header and list: it keeps nothing in memory between calls. Instructions are
those outside the system, by valgrind.

## Times, as ratios

{times_part(r)}

The median of {size["rounds"]} rounds, and in brackets the least and the most. In each round each row is measured in turn,
and the ratio is taken within the round. `plain C again` is the same program once more: that it isn't 1.00 throughout is
the noise. A sale of plain C took {number(sale_us)} µs in the median and a read {number(read_us, 1)} µs, on this machine
and its disk.

**Where the register is slower.** {slower(r)} A peer writes what is new to the end of a log, or to free pages, and syncs
once or twice a file. The register writes each block on the first disk and then on the second, and each lasts before the
next is begun: that is what its rules say and what is proved of them, and it is why two living disks differ in one block at
most at any moment, so that a start can tell a disk of this register from an old copy. The more a sync costs, the closer the
ratio of times comes to the ratio of syncs. A read goes through two pipes, where a library answers in the calling process;
the plain C program's does so too.

**What the peers' two copies don't give.** They are two transactions. A kill, or power that goes, between them leaves a
sale in one copy only, and neither copy knows it: the next table shows it. The register's two disks are one store.

## Killed while it sells

{kills_part(r)}

Each row was killed (`kill -9`) {size["kills"]} times while it sold, at another moment of a sale each time, and opened
again. Then every page is compared with what the sales that were told have left. Left in one copy only: {left_over(r)}. A
kill leaves what the system has in its cache; it is no loss of power. The register opens more slowly than its peers,
because a start reads both disks through and compares them, whatever happened before.

## A start

{scans_part(r)}

`register serve` with an input that is at its end at once: everything from the start of the process to its end. It looks
for other processes that have the disks open and for marks of deaths, compares the disks, recovers, and writes the empty
header on both. Plain C only compares the disks, in the same pieces of 256 KiB, by memcmp. The ratios are those of the
scans: each less what the same command takes on disks of 274 blocks. Warm: both disks are in the system's cache. Cold: the
system was asked to drop them (`posix_fadvise`, DONTNEED), so it is the speed of this machine's disk.

## Memory

{memory_part(r)}

Resident memory of `register serve` and its peak, in KiB. Of a hundred calls 97 are reads, one is a write, one a close and
one asks for the size.

## How cost grows

{growth_part(r)}

- A read and a sale cost the same on any number of pages.
- A close is linear in what waits: here {number(per_write)} µs for each write, which are two blocks written and synced.
- A start is linear in the disks: here {number(start, 1)} ms and {per_block:.2f} µs for each page, two blocks that are read and compared.
""")


# ---- the picture

def bars(x, title, names, values, labels, colour):
    """A panel of horizontal bars."""
    most = max(values) or 1
    out = ['<text x="%d" y="34" class="title">%s</text>' % (x, title)]
    for i, (name, value, label) in enumerate(zip(names, values, labels)):
        y = 52 + 30 * i
        out.append('<rect x="%d" y="%d" width="%.1f" height="18" fill="%s"/>' % (x, y, 150 * value / most, colour(name)))
        out.append('<text x="%.1f" y="%d">%s</text>' % (x + 150 * value / most + 5, y + 14, label))
    return out


def picture(r):
    """Three panels beside each other, a line for each row."""
    names = [name for name in r["times"]["sale"] if name != AGAIN]
    height = 70 + 30 * len(names)
    shade = lambda name: "#2b6cb0" if name == OURS else "#4a5568" if name == PLAIN else "#a0aec0"
    out = ['<svg xmlns="http://www.w3.org/2000/svg" width="900" height="%d" viewBox="0 0 900 %d">' % (height, height),
           '<style>text { font: 13px sans-serif; fill: #1a202c } .title { font-weight: bold }</style>',
           '<rect width="900" height="%d" fill="#ffffff"/>' % height]
    for i, name in enumerate(names):
        out.append('<text x="12" y="%d">%s</text>' % (66 + 30 * i, name))
    if all("syncs" in r["counts"][name]["sale"] for name in names):
        syncs = [r["counts"][name]["sale"]["syncs"] for name in names]
        out += bars(190, "syncs a sale", names, syncs, ["%.0f" % s for s in syncs], shade)
    sale = r["times"]["sale"]
    slow = [statistics.median(ratios(sale, name, FLOOR)) for name in names]
    out += bars(420, "time of a sale, floor = 1", names, slow, ["%.1f" % s for s in slow], shade)
    left = [r["kills"].get(name, {"left": {}})["left"].get("one copy only", 0) for name in names]
    tried = ["%d of %d" % (n, r["size"]["kills"]) if name in r["kills"] else "-" for n, name in zip(left, names)]
    out += bars(650, "killed: a sale in one copy only", names, left, tried, lambda name: "#c53030")
    return "\n".join(out + ["</svg>"]) + "\n"


def write(r, docs):
    with open(os.path.join(docs, "BENCHMARK.md"), "w") as f:
        f.write(document(r))
    with open(os.path.join(docs, "benchmark.svg"), "w") as f:
        f.write(picture(r))
