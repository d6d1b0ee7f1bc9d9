"""The picture in the documents is the simulator's own."""

import os
import subprocess

TOP = os.path.join(os.path.dirname(os.path.abspath(__file__)), "..", "..")


def test_picture_of_the_rule(register):
    drawn = register.path("rule.svg")
    simulator = os.path.abspath(os.path.join(TOP, "crates", "simulator", "out", "simulator"))
    scripts = os.path.join(TOP, "crates", "simulator", "data")
    subprocess.run([simulator, "--svg", drawn, "rule.sim"], cwd=scripts, check=True)
    with open(drawn) as new, open(os.path.join(TOP, "docs", "rule.svg")) as kept:
        assert new.read() == kept.read()
