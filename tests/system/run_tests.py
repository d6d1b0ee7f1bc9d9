"""Runs the tests, as many at once as there are processors, each in a folder of its own."""

import concurrent.futures
import os
import sys
import time
import traceback

import test_calls
import test_clerk
import test_deaths
import test_gate
import test_making
import test_picture
import test_power
import test_register
import test_starts
from register import Register

# The longest first.
MODULES = [test_deaths, test_register, test_power, test_starts, test_making, test_calls, test_clerk, test_gate, test_picture]


def all_tests():
    """Each test as its module, its name and its case."""
    found = []
    for module in MODULES:
        for name, test in vars(module).items():
            if name.startswith("test_"):
                for case in getattr(test, "cases", [()]):
                    found.append((module.__name__, name, case if isinstance(case, tuple) else (case,)))
    return found


def run_one(work, program, number, module, name, case):
    """What is said of a test, and whether it passed."""
    folder = os.path.join(work, f"disks{number}")
    os.mkdir(folder)
    register = Register(program, os.path.join(work, "faults.so"), folder)
    began = time.monotonic()
    try:
        vars(sys.modules[module])[name](register, *case)
        passed, said = True, "ok"
    except Exception:
        passed, said = False, "FAILED\n" + traceback.format_exc()
    register.clean()
    title = " ".join([name[5:].replace("_", " "), *case])
    return passed, f"system test {title}: {said} ({time.monotonic() - began:.1f} s)"


def main():
    work, program, *wanted = sys.argv[1:]
    tests = [test for test in all_tests() if not wanted or test[1] in wanted]
    failed = 0
    with concurrent.futures.ProcessPoolExecutor(os.cpu_count()) as pool:
        runs = [
            pool.submit(run_one, os.path.abspath(work), os.path.abspath(program), number, *test)
            for number, test in enumerate(tests)
        ]
        for run in concurrent.futures.as_completed(runs):
            passed, said = run.result()
            failed += not passed
            print(said, flush=True)
    print(f"system tests: {len(tests) - failed} passed, {failed} failed")
    sys.exit(1 if failed or not tests else 0)


if __name__ == "__main__":
    main()
