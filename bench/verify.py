#!/usr/bin/env python3
"""Times `dvm verify` on texts of one and of many methods, and prints processor seconds, microseconds a unit and megabytes.
Megabytes below what this script takes itself, about 13, can't be told.

Usage: bench/verify.py [--processors] [PROGRAM], where PROGRAM is a built `dvm` (crates/dvm/out/dvm).

With --processors it times two texts on one to all processors: seconds by the clock, the least of five, what they are of one processor's, and megabytes.
"""
import os
import subprocess
import sys
import tempfile
import time

TOP = os.path.dirname(os.path.dirname(os.path.abspath(__file__)))
HEAD = ".class LMain;\n.super Ljava/lang/Object;\n"


def method(name, registers, body):
    return ".method static %s()V\n.registers %d\n%s.end method\n" % (name, registers, body)


def straight(units, registers=16):
    """One method without a branch."""
    body = "const/4 v0, 0x1\n" + "add-int/lit8 v1, v0, 0x1\n" * ((units - 2) // 2)
    return HEAD + method("main", registers, body + "return-void\n")


def objects(units, registers=16):
    """One method that makes an object again and again."""
    step = "new-instance v0, Ljava/lang/Object;\ninvoke-direct {v0}, Ljava/lang/Object;-><init>()V\n"
    return HEAD + method("main", registers, step * ((units - 1) // 5) + "return-void\n")


def methods(count, instructions=100):
    """Many methods, 100 to a class."""
    body = "const/4 v0, 0x1\n" + "add-int/lit8 v1, v0, 0x1\n" * (instructions - 2) + "return-void\n"
    text = ""
    for k in range(count):
        if k % 100 == 0:
            text += ".class LC%04d;\n.super Ljava/lang/Object;\n" % (k // 100)
        text += method("m%04d" % k, 4, body)
    return text


def classes(count, methods, instructions, registers):
    """Many classes of some methods each."""
    body = "const/4 v0, 0x1\n" + "add-int/lit8 v1, v0, 0x1\n" * (instructions - 2) + "return-void\n"
    of_class = "".join(method("m%02d" % k, registers, body) for k in range(methods))
    return "".join(".class LC%04d;\n.super Ljava/lang/Object;\n%s" % (k, of_class) for k in range(count))


def nested(loops=200, units=16_384, registers=256, count=1, last=""):
    """Methods of loops in one another, over all registers, with so much behind them."""
    head = "const/4 v0, 0x1\nconst-string v1, \"a\"\n"
    fill = (units - 8 - 4 * loops) // 2
    body = head + "".join(":l%d\n" % k for k in range(loops)) + "add-int/lit8 v2, v0, 0x1\n" * fill
    for k in reversed(range(loops)):
        body += "if-lt v0, v2, :x%d\ngoto/16 :l%d\n:x%d\n" % (k, k, k)
    return HEAD + "".join(method("m%d" % k, registers, body + last + "return-void\n") for k in range(count))


def strings(count, units=16_384, last=""):
    """Methods whose 256 registers all hold strings, to their ends, with so much there, of up to two units."""
    head = "".join('const-string v%d, "a"\n' % k for k in range(256))
    body = head + "nop\n" * (units - 515) + last + "return-void\n"
    return HEAD + "".join(method("m%d" % k, 256, body) for k in range(count))


CASES = [
    ("no class", 0, lambda: ""),
    ("straight, 1,000 units", 1_000, lambda: straight(1_000)),
    ("straight, 16,384 units", 16_384, lambda: straight(16_384)),
    ("straight, 16,384 units, 256 registers", 16_384, lambda: straight(16_384, 256)),
    ("objects, 1,000 units", 1_000, lambda: objects(1_000)),
    ("objects, 16,384 units", 16_384, lambda: objects(16_384)),
    ("1,000 methods of 100 instructions", 199_000, lambda: methods(1_000)),
    ("200 nested loops, 16,384 units, 256 registers", 16_384, lambda: nested()),
    ("256 strings in registers, 16,384 units", 16_384, lambda: strings(1)),
    ("eight times 256 strings, the limit of cells", 131_072, lambda: strings(8)),
]


# A text of 1,000 classes of 20 methods would have more methods than the limit, 16,384.
BY_PROCESSORS = [
    ("1,000 classes of 16 methods, 14 instructions each", lambda: classes(1_000, 16, 14, 64)),
    ("eight times 200 nested loops, the limit of cells", lambda: nested(count=8)),
    ("the same, each with a fault at its end", lambda: nested(count=8, last="add-int v2, v0, v1\n")),
    ("eight times 256 strings, each with such a fault", lambda: strings(8, last="add-int v2, v0, v1\n")),
    ("eight times 256 strings, the limit of cells", lambda: strings(8)),
]


def run(program, text, processors=None):
    """The status, the processor seconds, the seconds by the clock and the megabytes of one run, on these processors or on all."""
    with tempfile.TemporaryFile() as source:
        source.write(text.encode())
        source.seek(0)
        begun = time.time()
        pin = (lambda: os.sched_setaffinity(0, processors)) if processors else None
        child = subprocess.Popen([program, "verify"], stdin=source, stdout=subprocess.DEVNULL, preexec_fn=pin)
        _, status, used = os.wait4(child.pid, 0)
    return os.waitstatus_to_exitcode(status), used.ru_utime + used.ru_stime, time.time() - begun, used.ru_maxrss // 1024


def by_processors(program):
    every = sorted(os.sched_getaffinity(0))
    for name, text in BY_PROCESSORS:
        text, alone = text(), None
        for count in range(1, len(every) + 1):
            seen = [run(program, text, every[:count]) for _ in range(5)]
            clock, megabytes = min(it[2] for it in seen), max(it[3] for it in seen)
            alone = alone or clock
            print(f"{name:<52} status {seen[0][0]}  on {count}: {clock:.3f} s, {clock / alone:.2f} of one's,  {megabytes} MB", flush=True)


def main():
    words = sys.argv[1:]
    split = "--processors" in words
    words = [it for it in words if it != "--processors"]
    program = words[0] if words else os.path.join(TOP, "crates", "dvm", "out", "dvm")
    if not os.access(program, os.X_OK):
        sys.exit(f"{program} isn't built: run ./dvm verify < /dev/null")
    if split:
        return by_processors(program)
    for name, units, text in CASES:
        status, used, clock, megabytes = run(program, text())
        per = f" {used * 1e6 / units:.2f} us a unit" if units else ""
        print(f"{name:<48} status {status}  {used:.3f} s, {clock:.3f} s by the clock,{per}  {megabytes} MB", flush=True)


main()
