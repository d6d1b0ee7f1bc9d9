"""The gate around these tests: its last line and its status."""

import os
import shutil
import subprocess

TESTS = os.path.join(os.path.dirname(os.path.abspath(__file__)), "..")


def gate(register, check, system, build=0, line="a crate"):
    """The gate with a check, a build and system tests in place of the real ones, which end with these statuses."""
    folder = register.path("gate")
    shutil.rmtree(folder, ignore_errors=True)
    os.makedirs(os.path.join(folder, "tests", "system"))
    shutil.copy(os.path.join(TESTS, "gate.sh"), os.path.join(folder, "tests"))
    for name, text in (("build.sh", f"exit {build}"), ("system/run.sh", f"echo system tests\nexit {system}")):
        with open(os.path.join(folder, "tests", name), "w") as file:
            file.write(f"#!/bin/sh\n{text}\n")
        os.chmod(file.name, 0o755)
    told = f"echo '{line}'; echo '7 passed, {check} failed'; exit {check}"
    done = subprocess.run(
        [os.path.join(folder, "tests", "gate.sh"), "sh", "-c", told], capture_output=True, check=False, text=True
    )
    return done.returncode, done.stdout.splitlines()


def test_last_line_of_the_gate(register):
    assert gate(register, 0, 0) == (0, ["a crate", "system tests", "7 passed, 0 failed"])
    assert gate(register, 0, 1) == (1, ["a crate", "system tests", "7 passed, 1 failed"])
    assert gate(register, 2, 0) == (2, ["a crate", "7 passed, 2 failed"])
    assert gate(register, 0, 0, build=1) == (1, ["a crate", "7 passed, 1 failed"])


def test_edits_that_do_not_fit_fail(register):
    for said, status in (("99 refused", 0), ("98 refused, 1 bad", 1), ("88 refused, 2 of them only by a limit, 11 bad", 1)):
        line = f"rt: ok; handles allowed: none; must-fail edits: {said}; every proof was done"
        found, lines = gate(register, 0, 0, line=line)
        assert (found, lines[0], lines[-1]) == (status, line, f"7 passed, {status} failed"), lines


def test_missing_tools_fail(register):
    """Where a tool is not there the system tests fail, and are not left out."""
    for missing in ("cc", "python3"):
        tools = register.path("tools")
        shutil.rmtree(tools, ignore_errors=True)
        os.mkdir(tools)
        for tool in {"bash", "dirname", "mktemp", "rm", "cc", "python3"} - {missing}:
            os.symlink(shutil.which(tool), os.path.join(tools, tool))
        script = os.path.join(TESTS, "system", "run.sh")
        done = subprocess.run(
            [os.path.join(tools, "bash"), script], env={"PATH": tools}, capture_output=True, check=False, text=True
        )
        assert done.returncode == 1 and done.stdout == f"system tests: {missing} is missing\n", done
