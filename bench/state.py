#!/usr/bin/env python3
"""Times the calls of the engine's state: bench/state/NAME.txt, one of stack, heap, monitors, local and objects, is made a program in a copy of the crates,
proved, built and run. Each line of its output has what was done, how much of it, and microseconds of processor time.

Usage: bench/state.py NAME.
"""
import os
import shutil
import subprocess
import sys
import tempfile

TOP = os.path.dirname(os.path.dirname(os.path.abspath(__file__)))


def main():
    name = sys.argv[1]
    with open(os.path.join(TOP, "bench", "state", name + ".txt")) as file:
        uses, text = file.read().split("\n", 1)
    with tempfile.TemporaryDirectory() as work:
        crates = os.path.join(work, "crates")
        shutil.copytree(os.path.join(TOP, "crates"), crates, ignore=shutil.ignore_patterns("out"))
        with open(os.path.join(TOP, "crates.txt")) as file:
            lines = file.read()
        with open(os.path.join(work, "crates.txt"), "w") as file:
            file.write(lines + "bench: " + uses.removeprefix("// uses: ") + "\n")
        shutil.copy(os.path.join(TOP, "HANDLES"), work)
        source = os.path.join(crates, "bench", "src")
        os.makedirs(source)
        with open(os.path.join(source, "main.rt"), "w") as file:
            file.write(text)
        sys.exit(subprocess.run(["rt", "run"], cwd=os.path.dirname(source)).returncode)


main()
