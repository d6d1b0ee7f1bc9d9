#!/usr/bin/env python3
"""Measures `register` beside a plain C program by the same rules, SQLite, LMDB and the floor.

Counts come first: they are the same on any machine and under any load. Times are taken in rounds over all rows, each
row in turn, and only their ratios within a round are reported; the plain C program is in every round twice, and how far
it is from itself is the noise. What is measured goes to target/bench/results.json, and report.py makes
docs/BENCHMARK.md and docs/benchmark.svg of it.

    bench.py [--quick]      --quick: fewer rounds and smaller disks, to try a change
"""
import argparse
import collections
import datetime
import json
import os
import platform
import random
import re
import shutil
import signal
import statistics
import subprocess
import sys
import time

import report

ROOT = os.path.dirname(os.path.dirname(os.path.abspath(__file__)))
REGISTER = os.path.join(ROOT, "crates", "register", "out", "register")
PLAIN = os.path.join(ROOT, "target", "bench", "plain")
WORK = os.path.join(ROOT, "target", "bench", "work")
DATA = os.path.join(ROOT, "target", "bench", "data")
RESULTS = os.path.join(ROOT, "target", "bench", "results.json")

# A row: what it is called, the store that `work` knows it by, and the package that it needs. A program that answers
# framed calls is "pipes:" and its command; its disks are `first` and `second` in the working folder.
Row = collections.namedtuple("Row", "name store package")
ROWS = [
    Row("register", "pipes:%s serve first second" % REGISTER, None),
    Row("plain C", "pipes:%s serve first second" % PLAIN, None),
    Row("plain C again", "pipes:%s serve first second" % PLAIN, None),
    Row("SQLite WAL, one file", "sqlite-wal", "libsqlite3-dev"),
    Row("SQLite WAL, two files", "sqlite-wal,two", "libsqlite3-dev"),
    Row("SQLite DELETE, one file", "sqlite-delete", "libsqlite3-dev"),
    Row("SQLite DELETE, two files", "sqlite-delete,two", "libsqlite3-dev"),
    Row("LMDB, one file", "lmdb", "liblmdb-dev"),
    Row("LMDB, two files", "lmdb,two", "liblmdb-dev"),
    Row("floor", "floor", None),
]
AGAIN = "plain C again"         # only timed: it is the noise

# How much of everything: (in full, quick).
SIZES = {
    "pages": (60_000, 2_000),
    "large": (1_000_000, 60_000),
    "sales": (500, 40),
    "reads": (20_000, 2_000),
    "rounds": (10, 2),
    "kills": (12, 2),
    "scans": (9, 3),            # rounds in which disks in the cache are compared
    "cold_scans": (3, 1),       # and such that are not
    "calls": (100_000, 2_000),  # over which memory may not grow
}


def say(text=""):
    print(text, flush=True)


# ---- rows

def command(row, *words, tool=()):
    """The words that do a piece of work on a row. A tool watches the program that keeps the pages: for a program over
    pipes that is the program and not the work."""
    store = row.store
    if store.startswith("pipes:"):
        store = "pipes:" + " ".join(tool) + " " + store[len("pipes:"):]
        tool = ()
    return list(tool) + [WORK, store] + [str(w) for w in words]


def work(folder, row, *words, tool=()):
    done = subprocess.run(command(row, *words, tool=tool), cwd=folder, capture_output=True, text=True)
    if done.returncode:
        raise SystemExit("%s: %s failed: %s" % (row.name, words, done.stderr))
    return done.stdout.split()


def new_disks(folder, pages):
    subprocess.run([REGISTER, "new", "first", "second", str(pages)], cwd=folder, check=True, capture_output=True)


def fresh(name, row, pages):
    """A new store of a row, in a folder of its own."""
    folder = os.path.join(DATA, name)
    shutil.rmtree(folder, ignore_errors=True)
    os.makedirs(folder)
    if row is None or row.store.startswith("pipes:"):
        new_disks(folder, pages)
    else:
        work(folder, row, "make", pages)
    return folder


# ---- counts

# A start looks at every process of the machine. What is counted is a run less another, so both see only themselves,
# where the system allows it.
ALONE = ("unshare", "--pid", "--fork", "--mount-proc")
if not shutil.which("unshare") or subprocess.run(ALONE + ("true",), capture_output=True).returncode:
    ALONE = ()
STRACE = ALONE + ("strace", "-f", "-y", "-e", "signal=none")
VALGRIND = ALONE + ("valgrind", "--tool=cachegrind", "--cache-sim=no", "--cachegrind-out-file=/dev/null")

WRITES = {"write", "pwrite64", "writev", "pwritev", "pwritev2"}
SYNCS = {"fsync", "fdatasync", "msync", "sync_file_range"}


def traced(path, folder):
    """What a trace has: all system calls, and on files in the folder syncs, write calls and bytes. A write to a file
    that was opened to be synced by each write is a sync too."""
    seen = collections.Counter()
    inside = "<" + os.path.realpath(folder)
    synced = set()
    for line in open(path, errors="replace"):
        m = re.match(r"\d+ +(\w+)\((.*)\) += (-?\d+)(<.*>)?", line)
        if not m:
            continue
        call, words, result = m.group(1), m.group(2), int(m.group(3))
        file = words.split(",")[0]
        seen["calls"] += 1
        if call == "openat" and re.search("O_D?SYNC", words):
            synced.add(m.group(3) + (m.group(4) or ""))
        if call in SYNCS:
            seen["syncs"] += 1
        if call in WRITES and inside in file:
            seen["writes"] += 1
            seen["bytes"] += max(result, 0)
            seen["syncs"] += file in synced
    return seen


def difference(few, many, n):
    """What one of n costs: a run with n less a run with none."""
    return {k: (many[k] - few[k]) / n for k in many}


def counts(folder, row, what, pages, n):
    """System calls of one sale or read."""
    def run(k):
        out = os.path.join(DATA, "trace")
        work(folder, row, what, pages, 99, k, tool=STRACE + ("-o", out))
        return traced(out, folder)
    return difference(run(0), run(n), n)


def counted(path):
    return int(re.search(r"I +refs: +([\d,]+)", open(path).read()).group(1).replace(",", ""))


def instructions(folder, row, what, pages, n):
    """User instructions of one sale or read."""
    def run(row, k):
        out = os.path.join(DATA, "valgrind")
        work(folder, row, what, pages, 77, k, tool=VALGRIND + ("--log-file=" + out,))
        return counted(out)
    spent = (run(row, n) - run(row, 0)) / n
    if row.store.startswith("pipes:"):
        return spent
    # The work itself is in the same process: what it costs with no store is not the row's.
    none = Row("none", "none", None)
    return spent - (run(none, n) - run(none, 0)) / n


def cost_of(folder, row, what, pages, n):
    """Both, as far as the tools are there."""
    cost = {}
    if shutil.which("strace"):
        cost.update(counts(folder, row, what, pages, n))
    if shutil.which("valgrind"):
        cost["instructions"] = instructions(folder, row, what, pages, n)
    return cost


def measure_counts(rows, size):
    result = {}
    for row in rows:
        if row.name == AGAIN:
            continue
        folder = fresh("counts", row, size["pages"])
        result[row.name] = {
            "sale": cost_of(folder, row, "sales", size["pages"], size["sales"]),
            "read": cost_of(folder, row, "reads", size["pages"], 1000),
        }
    shutil.rmtree(os.path.join(DATA, "counts"), ignore_errors=True)
    return result


# ---- times

def rounds(rows, n):
    """Each row in each round, there and back, so that what changes slowly touches all alike."""
    for k in range(n):
        for row in rows if k % 2 == 0 else reversed(rows):
            yield k, row


def measure_times(rows, size):
    """For each row a list with a number for each round: a sale's median, a read's mean, in microseconds."""
    folders = {row.name: fresh("times-%d" % i, row, size["pages"]) for i, row in enumerate(rows)}
    sales, reads = collections.defaultdict(list), collections.defaultdict(list)
    n = size["rounds"]
    for k, row in rounds(rows, n):
        median, = work(folders[row.name], row, "sales", size["pages"], k + 1, size["sales"] // n)
        sales[row.name].append(float(median))
    for k, row in rounds(rows, n):
        mean, = work(folders[row.name], row, "reads", size["pages"], k + 1, size["reads"] // n)
        reads[row.name].append(float(mean))
    for folder in folders.values():
        shutil.rmtree(folder)
    return {"sale": sales, "read": reads}


# ---- killed

def end_group(group):
    """Kills the work and the program that it started, which are a group of their own, and waits until both are gone."""
    os.killpg(group, signal.SIGKILL)
    os.waitid(os.P_PID, group, os.WEXITED | os.WNOWAIT)
    for _ in range(100):
        if all("State:\tZ" in status for status in statuses(group)):
            return
        time.sleep(0.005)


def statuses(group):
    """What the system tells of each process of a group."""
    for name in os.listdir("/proc"):
        try:
            if name.isdigit() and os.getpgid(int(name)) == group:
                yield open("/proc/%s/status" % name).read()
        except OSError:
            pass


def kill_once(row, pages, seed, share):
    """Kills a row while it sells, at about this share of a sale; what is left of the sale, and how long opening takes."""
    folder = fresh("killed", row, pages)
    seller = subprocess.Popen(command(row, "cut", pages, seed), cwd=folder, stdout=subprocess.PIPE,
                              stderr=subprocess.DEVNULL, start_new_session=True)
    seller.stdout.readline()
    begin = time.monotonic()
    for _ in range(20):
        seller.stdout.readline()
    time.sleep((time.monotonic() - begin) / 20 * share)
    end_group(seller.pid)
    told = 21 + len(seller.stdout.read().splitlines())
    seller.wait()
    opened, = work(folder, row, "open", pages)
    left = " ".join(work(folder, row, "check", pages, seed, told))
    return float(opened), left


def measure_kills(rows, size):
    result = {}
    n = size["kills"]
    for row in rows:
        if row.name in (AGAIN, "floor"):
            continue
        tries = [kill_once(row, size["pages"], 1 + k, (k + 0.5) / n) for k in range(n)]
        result[row.name] = {
            "open": statistics.median(t[0] for t in tries),
            "left": collections.Counter(t[1] for t in tries),
        }
    shutil.rmtree(os.path.join(DATA, "killed"), ignore_errors=True)
    return result


# ---- a start

def forget(folder):
    """Asks the system to drop the disks from its cache."""
    for name in ("first", "second"):
        fd = os.open(os.path.join(folder, name), os.O_RDONLY)
        os.fsync(fd)
        os.posix_fadvise(fd, 0, 0, os.POSIX_FADV_DONTNEED)
        os.close(fd)


SCANS = {
    "register": [REGISTER, "serve", "first", "second"],     # its input is at its end at once
    "plain C": [PLAIN, "scan", "first", "second"],
    "cmp": ["cmp", "first", "second"],
}


def scan_ms(folder, words):
    begin = time.monotonic()
    subprocess.run(words, cwd=folder, check=True, stdin=subprocess.DEVNULL, capture_output=True)
    return (time.monotonic() - begin) * 1e3


def scans(folder, n, cold):
    """Milliseconds of each program, in rounds."""
    result = {name: [] for name in SCANS}
    for k in range(n):
        for name, words in SCANS.items() if k % 2 == 0 else reversed(SCANS.items()):
            if cold:
                forget(folder)
            result[name].append(scan_ms(folder, words))
    return result


def measure_scans(size):
    """Each program over disks of three sizes. The smallest tells what it costs beside the scan."""
    result = {}
    for pages in (16, size["pages"], size["large"]):
        folder = fresh("scans", None, pages)
        n = size["scans"]
        scans(folder, 1, False)                 # into the cache
        result[pages] = {"warm": scans(folder, n if pages < 1_000_000 else n // 2 + 1, False)}
        result[pages]["cold"] = scans(folder, size["cold_scans"], True)
        shutil.rmtree(folder)
    return result


# ---- memory

class Server:
    """A `register serve` that is spoken to in frames, with a tool that watches it or none."""

    def __init__(self, folder, tool=()):
        words = list(tool) + [REGISTER, "serve", "first", "second"]
        self.process = subprocess.Popen(words, cwd=folder, stdin=subprocess.PIPE, stdout=subprocess.PIPE,
                                        stderr=subprocess.DEVNULL)
        self.call(SIZE)

    def call(self, call):
        self.process.stdin.write(frame(call))
        self.process.stdin.flush()
        n = int.from_bytes(self.process.stdout.read(4), "little")
        return self.process.stdout.read(n)

    def memory(self):
        """Resident memory and its peak, in KiB."""
        text = open("/proc/%d/status" % self.process.pid).read()
        return {name: int(re.search(name + r":\s+(\d+)", text).group(1)) for name in ("VmRSS", "VmHWM")}

    def end(self):
        self.process.stdin.close()
        self.process.wait()


CLOSE, SIZE = b"\x02", b"\x03"


def frame(call):
    return len(call).to_bytes(4, "little") + call


def read(page):
    return b"\x00" + page.to_bytes(4, "little")


def write(page, fill):
    return b"\x01" + page.to_bytes(4, "little") + bytes([fill % 256]) * 1024


def make_calls(server, pages, n):
    """Of a hundred calls 97 reads, a write, a close and a size."""
    draw = random.Random(1)
    for k in range(n // 100):
        for _ in range(97):
            server.call(read(draw.randrange(pages)))
        for call in (write(draw.randrange(pages), k), CLOSE, SIZE):
            server.call(call)


def measure_memory(size):
    """Once it serves, after some calls, and after many."""
    result = {}
    for pages in (16, size["large"]):
        server = Server(fresh("memory", None, pages))
        one = {"serving": server.memory()}
        make_calls(server, pages, size["calls"] // 100)
        one["early"] = server.memory()
        make_calls(server, pages, size["calls"])
        one["late"] = server.memory()
        server.end()
        result[pages] = one
    shutil.rmtree(os.path.join(DATA, "memory"))
    return result


# ---- growth

def watched(folder, tool, calls):
    """Makes calls, one after the other, while a tool watches the register."""
    server = Server(folder, tool)
    for call in calls:
        server.call(call)
    server.end()


def close_cost(folder, waits):
    """System calls and instructions of a close of these writes: a run with it less a run without."""
    out = os.path.join(DATA, "cost")
    cost = {}
    if shutil.which("strace"):
        seen = []
        for calls in (waits, waits + [CLOSE]):
            watched(folder, STRACE + ("-o", out), calls)
            seen.append(traced(out, folder))
        cost.update(difference(seen[0], seen[1], 1))
    if shutil.which("valgrind"):
        seen = []
        for calls in (waits, waits + [CLOSE]):
            watched(folder, VALGRIND + ("--log-file=" + out,), calls)
            seen.append(counted(out))
        cost["instructions"] = seen[1] - seen[0]
    return cost


def measure_growth(size):
    row = ROWS[0]
    by_pages = {}
    for pages in (16, 1000, size["pages"], size["large"]):
        folder = fresh("growth", None, pages)
        one = {
            "read": cost_of(folder, row, "reads", pages, 500),
            "sale": cost_of(folder, row, "sales", pages, 50),
            "start": statistics.median(float(work(folder, row, "open", pages)[0]) for _ in range(5)),
            "read us": statistics.median(float(work(folder, row, "reads", pages, k, size["reads"] // 5)[0]) for k in range(5)),
            "sale us": statistics.median(float(work(folder, row, "sales", pages, k, size["sales"] // 10)[0]) for k in range(5)),
        }
        by_pages[pages] = one
    by_writes = {}
    folder = fresh("growth", None, 1000)
    for n in (1, 4, 16, 64, 256):
        waits = [write(k, n) for k in range(n)]
        cost = close_cost(folder, waits)
        server, times = Server(folder), []
        for _ in range(5):
            for call in waits:
                server.call(call)
            begin = time.monotonic()
            server.call(CLOSE)
            times.append((time.monotonic() - begin) * 1e6)
        server.end()
        by_writes[n] = dict(cost, us=statistics.median(times))
    shutil.rmtree(folder)
    return {"pages": by_pages, "writes": by_writes}


# ---- the whole

def output(*words):
    try:
        return subprocess.run(words, capture_output=True, text=True, cwd=ROOT).stdout.strip()
    except OSError:
        return ""


def about():
    """The machine and the programs, as far as they say."""
    cpu = re.search(r"model name\s*: (.*)", open("/proc/cpuinfo").read())
    return {
        "date": datetime.datetime.now().strftime("%Y-%m-%d %H:%M"),
        "load": os.getloadavg()[0],
        "cores": os.cpu_count(),
        "cpu": cpu.group(1) if cpu else platform.machine(),
        "kernel": platform.release(),
        "files": output("stat", "-f", "-c", "%T", DATA),
        "cc": output("cc", "--version").split("\n")[0],
        "commit": output("git", "rev-parse", "--short", "HEAD"),
        "kit": output("rt", "version"),
    }


def main():
    options = argparse.ArgumentParser(description=__doc__, formatter_class=argparse.RawDescriptionHelpFormatter)
    options.add_argument("--quick", action="store_true")
    options.add_argument("--only", help="one part: counts, times, kills, scans, memory or growth")
    given = options.parse_args()
    size = {k: v[given.quick] for k, v in SIZES.items()}
    if not os.access(REGISTER, os.X_OK):
        raise SystemExit("crates/register/out/register is not there: make build makes it")
    shutil.rmtree(DATA, ignore_errors=True)
    os.makedirs(DATA)
    begin = time.monotonic()
    built = output(WORK, "stores").split()
    rows = [r for r in ROWS if r.store.split(",")[0].split(":")[0] in built]
    skipped = [r for r in ROWS if r not in rows]
    missing = [t for t in ("strace", "valgrind") if not shutil.which(t)]
    for row in skipped:
        say("skipped: %s (make bench-peers installs %s)" % (row.name, row.package))
    for tool in missing:
        say("skipped: what %s counts (make bench-peers installs it)" % tool)
    result = {"about": about(), "size": size, "quick": given.quick, "skipped": [r.name for r in skipped] + missing}
    parts = [
        ("counts", lambda: measure_counts(rows, size)),
        ("times", lambda: measure_times(rows, size)),
        ("kills", lambda: measure_kills(rows, size)),
        ("scans", lambda: measure_scans(size)),
        ("memory", lambda: measure_memory(size)),
        ("growth", lambda: measure_growth(size)),
    ]
    for name, measure in parts:
        if given.only not in (None, name):
            continue
        start = time.monotonic()
        result[name] = json.loads(json.dumps(measure()))
        say("%s (%.0f s)\n" % (report.TITLES[name], time.monotonic() - start))
        say(report.PARTS[name](result) + "\n")
    shutil.rmtree(DATA)
    result["seconds"] = time.monotonic() - begin
    json.dump(result, open(RESULTS, "w"), indent=1)
    if given.only is None:
        say(report.targets(result) + "\n")
        if not given.quick:
            report.write(result, os.path.join(ROOT, "docs"))
            say("docs/BENCHMARK.md and docs/benchmark.svg are written (%.0f s in all)" % result["seconds"])


if __name__ == "__main__":
    sys.exit(main())
