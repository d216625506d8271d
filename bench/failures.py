#!/usr/bin/env python3
"""Makes each allocation, read and write of the program fail in turn, on each example with its words, and counts how the runs end.

A run whose allocation fails must end with status 11 and print nothing, or, where workers run it, a front of the text; or as the run in which nothing
fails, where the program does without; one whose read fails with status 3 and nothing printed; one whose write fails with status 4 and a front of the text. Needs a C compiler.
Usage: bench/failures.py [PROGRAM [NAME ..]], where PROGRAM is a built `dvm` (crates/dvm/out/dvm), and NAME.words of examples/ has the words.
"""
import collections
import os
import subprocess
import sys
import tempfile

TOP = os.path.dirname(os.path.dirname(os.path.abspath(__file__)))
EXAMPLES = f"{TOP}/examples"


def run(program, name, shim, **failing):
    """The status and what is printed, where failing says what fails."""
    with open(f"{EXAMPLES}/{name}.words", encoding="ascii") as file:
        words = file.read().split()
    with open(f"{EXAMPLES}/{name.partition('.')[0]}.smali", "rb") as source:
        done = subprocess.run([program, *words], stdin=source, capture_output=True, env={**os.environ, "LD_PRELOAD": shim, **failing})
    return done.returncode, done.stdout


def by_workers(name):
    """Whether the words of an example ask for a run without a seed."""
    with open(f"{EXAMPLES}/{name}.words", encoding="ascii") as file:
        words = file.read().split()
    return words[0] == "run" and not any(it.startswith("seed=") for it in words)


def judged(kind, whole, got, fronts):
    """How a run ended in which one call of this kind failed, against the run in which none did. Whether fronts may be printed where memory is wanting."""
    status, printed = got
    if got == whole:
        return "as if nothing had failed" if kind == "FAIL_ALLOC" else "WRONG"
    good = {
        "FAIL_ALLOC": status == 11 and (whole[1].startswith(printed) if fronts else printed == b""),
        "FAIL_READ": status == 3 and printed == b"",
        "FAIL_WRITE": status == 4 and whole[1].startswith(printed),
    }
    return f"status {status}" if good[kind] else "WRONG"


def main():
    program = sys.argv[1] if len(sys.argv) > 1 else f"{TOP}/crates/dvm/out/dvm"
    names = sys.argv[2:] or sorted(file[:-6] for file in os.listdir(EXAMPLES) if file.endswith(".words"))
    wrong = 0
    with tempfile.TemporaryDirectory() as room:
        shim = f"{room}/failures.so"
        subprocess.run(["cc", "-O1", "-fPIC", "-shared", "-o", shim, f"{TOP}/bench/failures.c"], check=True)
        for name in names:
            whole = run(program, name, shim, COUNTS=f"{room}/counts")
            with open(f"{room}/counts", encoding="ascii") as file:
                counts = dict(zip(("FAIL_ALLOC", "FAIL_READ", "FAIL_WRITE"), map(int, file.read().split())))
            for kind, count in counts.items():
                ends = collections.Counter(judged(kind, whole, run(program, name, shim, **{kind: str(n)}), by_workers(name)) for n in range(1, count + 1))
                wrong += ends["WRONG"]
                print(name, kind[5:].lower(), count, dict(ends), flush=True)
    sys.exit(wrong != 0)


if __name__ == "__main__":
    main()
