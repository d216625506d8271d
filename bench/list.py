#!/usr/bin/env python3
"""Times `list` on texts of about 1 and 8 MB, and prints megabytes a second and how the time grew.

Where the command `smali` is on the path (Debian's package of that name), it assembles the same texts, and the ratio of
the two times is printed too. Usage: bench/list.py [PROGRAM], where PROGRAM is a built `dvm` (crates/dvm/out/dvm).
"""
import os
import shutil
import subprocess
import sys
import tempfile
import time

TOP = os.path.dirname(os.path.dirname(os.path.abspath(__file__)))
LIMIT = 8_388_608
HEAD = ".class LMain;\n.super Ljava/lang/Object;\n"


def one_method(size):
    """One method of 16,384 units, each on a line with a comment behind it."""
    room = (size - 200) // 16_384
    line = "nop # "
    lines = (line + "x" * (room - len(line) - 1) + "\n") * 16_383
    return HEAD + ".method static main()V\n.registers 1\n" + lines + "return-void\n.end method\n"


def small_methods(size):
    """Methods of four instructions, 64 to a class: 7,600 to a megabyte."""
    head = ".class LC%05d;\n.super Ljava/lang/Object;\n"
    method = (
        ".method static m%02d(I)I\n.registers 3\nconst/4 v0, 0x5\nadd-int/lit8 v1, p0, 0x10\n"
        "mul-int v0, v0, v1\nreturn v0\n.end method\n"
    )
    methods = "".join(method % number for number in range(64))
    count = size // (len(methods) + len(head % 0))
    return "".join(head % number + methods for number in range(count))


def tiny_methods(size):
    """As many methods of one instruction as fit: 16,384 to a megabyte."""
    method = ".method static m%06d()V\n.registers 0\nreturn-void\n.end method\n"
    count = (size - len(HEAD)) // len(method % 0)
    return HEAD + "".join(method % number for number in range(count))


def one_comment(size):
    """One line."""
    return "#" + "x" * (size - 2) + "\n"


def catches(size):
    """Handlers of one range: 25,000 to a megabyte."""
    line = ".catch LE%06d; {:a .. :b} :b\n"
    count = (size - 200) // len(line % 0)
    lines = "".join(line % number for number in range(count))
    return HEAD + ".method static main()V\n.registers 1\n:a\nnop\n:b\nreturn-void\n" + lines + ".end method\n"


def labels(size):
    """Labels before one instruction: 100,000 to a megabyte."""
    line = ":l%06d\n"
    count = (size - 200) // len(line % 0)
    lines = "".join(line % number for number in range(count))
    return HEAD + ".method static main()V\n.registers 1\n" + lines + "return-void\n.end method\n"


KINDS = [small_methods, one_method, tiny_methods, one_comment, catches, labels]


def seconds(words, text):
    """The shortest of three runs, and the status of the last."""
    best = None
    for _ in range(3):
        start = time.perf_counter()
        done = subprocess.run(words, input=text, stdout=subprocess.DEVNULL, stderr=subprocess.DEVNULL, check=False)
        taken = time.perf_counter() - start
        best = taken if best is None else min(best, taken)
    return best, done.returncode


def smali_seconds(text):
    """How long `smali` takes for the same text, a class in a file, and whether it takes it; nothing where it isn't there."""
    if shutil.which("smali") is None:
        return None
    with tempfile.TemporaryDirectory() as folder:
        classes = text.split(b".class ")
        for number, class_text in enumerate(classes[1:]):
            with open(os.path.join(folder, f"C{number:05d}.smali"), "wb") as file:
                file.write(b".class " + class_text)
        start = time.perf_counter()
        done = subprocess.run(
            ["smali", "assemble", "-o", os.path.join(folder, "out.dex"), folder],
            stdout=subprocess.DEVNULL, stderr=subprocess.DEVNULL, check=False,
        )
        return time.perf_counter() - start, done.returncode


def main():
    program = sys.argv[1] if len(sys.argv) > 1 else os.path.join(TOP, "crates", "dvm", "out", "dvm")
    if not os.access(program, os.X_OK):
        sys.exit(f"{program} isn't built: run ./dvm list < /dev/null")
    empty, _ = seconds([program, "list"], b"")
    print(f"nothing: {empty * 1000:.0f} ms")
    for kind in KINDS:
        times = []
        for size in (LIMIT // 8, LIMIT):
            text = kind(size).encode()
            assert len(text) <= LIMIT
            taken, status = seconds([program, "list"], text)
            times.append(taken)
            line = f"{kind.__name__}: {len(text) / 1e6:.1f} MB in {taken:.3f} s, {len(text) / 1e6 / taken:.1f} MB/s, status {status}"
            other = smali_seconds(text)
            if other is not None:
                other, smali_status = other
                line += f"; smali {other:.2f} s, {other / taken:.1f} times as long, status {smali_status}"
            print(line, flush=True)
        print(f"{kind.__name__}: eight times the text takes {times[1] / times[0]:.1f} times as long")


if __name__ == "__main__":
    main()
