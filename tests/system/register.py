"""The register as a client meets it: its command line, its frames, its disks as files."""

import os
import shutil
import struct
import subprocess

BLOCK = 1024
FIRST_PAGE = 258
EMPTY = bytes(BLOCK)


def page(letter):
    return letter.encode() * BLOCK


# Calls and answers as bytes.


def read_call(number):
    return struct.pack("<BI", 0, number)


def write_call(number, content):
    return struct.pack("<BI", 1, number) + content


CLOSE = b"\x02"
SIZE = b"\x03"
DONE = b"\x01"


def refused(number, place=0):
    return struct.pack("<BBI", 0, number, place)


def told_page(content):
    return b"\x02" + content


def frame(call):
    return struct.pack("<I", len(call)) + call


def frames(calls):
    return b"".join(frame(call) for call in calls)


def answers(out):
    """The answers in what a register wrote; the last must be whole."""
    found, at = [], 0
    while at < len(out):
        (n,) = struct.unpack_from("<I", out, at)
        assert at + 4 + n <= len(out), "an answer is cut"
        found.append(out[at + 4 : at + 4 + n])
        at += 4 + n
    return found


class Run:
    """What a run of the program left."""

    def __init__(self, done):
        self.status = done.returncode
        self.out = done.stdout or b""
        self.err = done.stderr.decode()

    def answers(self):
        return answers(self.out)

    def __repr__(self):
        return f"status {self.status}, {len(self.out)} bytes out, stderr:\n{self.err}"


class Register:
    """The program, in a folder of its own."""

    def __init__(self, program, shim, folder):
        self.program = program
        self.shim = shim
        self.folder = folder
        self.log = os.path.join(folder, "log")

    def path(self, name):
        return os.path.join(self.folder, name)

    def environment(self, faults, log):
        env = dict(os.environ)
        if faults or log:
            env["LD_PRELOAD"] = self.shim
        if faults:
            env["FAULTS"] = faults
        if log:
            env["FAULTS_LOG"] = self.log
        return env

    def run(self, *words, given=b"", faults=None, log=False, **more):
        words = [word if isinstance(word, bytes) else str(word) for word in words]
        done = subprocess.run(
            [self.program, *words],
            input=given,
            stdout=subprocess.PIPE,
            stderr=subprocess.PIPE,
            cwd=more.pop("cwd", self.folder),
            env=self.environment(faults, log),
            timeout=60,
            check=False,
            **more,
        )
        return Run(done)

    def serve(self, calls, first="first", second="second", **more):
        return self.run("serve", first, second, given=frames(calls), **more)

    def begin(self, *words, **more):
        """A run that goes on beside the test."""
        return subprocess.Popen(
            [self.program, *words],
            stdin=subprocess.PIPE,
            stdout=subprocess.PIPE,
            stderr=subprocess.PIPE,
            cwd=self.folder,
            **more,
        )

    def start(self, first="first", second="second"):
        """A register that goes on serving until its input is closed."""
        serving = self.begin("serve", first, second)
        assert self.ask(serving, read_call(0)) == told_page(EMPTY)
        return serving

    def shell(self, command, given=b"", stdout=subprocess.PIPE):
        """Commands as they are typed, where `register` is the program."""
        done = subprocess.run(
            ["sh", "-c", command],
            input=given,
            stdout=stdout,
            stderr=subprocess.PIPE,
            cwd=self.folder,
            env=dict(os.environ, PATH=os.path.dirname(self.program) + ":" + os.environ["PATH"]),
            timeout=60,
            check=False,
        )
        return Run(done)

    def ask(self, serving, call):
        """One call and its answer, while nothing else waits in the input."""
        serving.stdin.write(frame(call))
        serving.stdin.flush()
        (n,) = struct.unpack("<I", serving.stdout.read(4))
        return serving.stdout.read(n)

    def log_lines(self):
        """What was asked of the files since the last time this was asked, each as call, file, place and fault."""
        with open(self.log) as lines:
            found = [line.split() for line in lines]
        os.remove(self.log)
        return found

    # The disks as files.

    def bytes_of(self, name):
        with open(self.path(name), "rb") as file:
            return file.read()

    def put_bytes(self, name, at, content):
        with open(self.path(name), "r+b") as file:
            file.seek(at)
            file.write(content)

    def write_file(self, name, content):
        with open(self.path(name), "wb") as file:
            file.write(content)

    def exists(self, name):
        return os.path.exists(self.path(name))

    def remove(self, *names):
        for name in names:
            if self.exists(name):
                os.remove(self.path(name))

    def copy(self, name, other):
        shutil.copyfile(self.path(name), self.path(other))

    def keep(self):
        """All files of the folder, with what they hold."""
        names = [name for name in sorted(os.listdir(self.folder)) if os.path.isfile(self.path(name))]
        return {name: self.bytes_of(name) for name in names if name != "log"}

    def put_back(self, kept):
        """Makes the folder what it was when it was kept."""
        self.clean()
        for name, content in kept.items():
            self.write_file(name, content)

    def names(self):
        return sorted(os.listdir(self.folder))

    def new_disks(self, pages=3, first="first", second="second"):
        """New disks, as files; made without the program, so that a sweep costs less."""
        self.clean()
        for name in (first, second):
            self.write_file(name, bytes(BLOCK * (FIRST_PAGE + pages)))

    def clean(self):
        for name in os.listdir(self.folder):
            path = self.path(name)
            if os.path.isdir(path) and not os.path.islink(path):
                shutil.rmtree(path)
            else:
                os.remove(path)

    def disks(self, *names):
        return [self.bytes_of(name) for name in names or ("first", "second")]
