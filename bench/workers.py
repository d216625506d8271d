#!/usr/bin/env python3
"""Times runs on 1, 2 and 4 workers, by the clock, and what the lock costs a turn.

Three programs. In the first four threads each do a loop of instructions that touch their registers alone, 10,000,000 steps in all four. In the second four
threads count a field of an object of their own, so that each round has two steps of shared state. Of these the time on 2 and 4 workers is told as
a ratio to that on one. The third is one thread that reads and writes a static field in turn, so that its
turns have one step or three, on a worker as with a seed: its time on one worker is told as a ratio to that with `seed=0`. Times are the least of
three runs, with the start of the smallest program taken off.
Usage: bench/workers.py [PROGRAM], where PROGRAM is a built `dvm` (crates/dvm/out/dvm).
"""
import os
import subprocess
import sys
import time

TOP = os.path.dirname(os.path.dirname(os.path.abspath(__file__)))

THREADS = """.class LT;
.super Ljava/lang/Thread;
.field n:I
.method constructor <init>()V
.registers 1
invoke-direct {{p0}}, Ljava/lang/Thread;-><init>()V
return-void
.end method
.method run()V
.registers 4
const v0, {rounds}
const/4 v1, 0
:round
{body}
add-int/lit8 v0, v0, -1
if-nez v0, :round
return-void
.end method
.class LMain;
.super Ljava/lang/Object;
.method static main()V
.registers 4
new-instance v0, LT;
invoke-direct {{v0}}, LT;-><init>()V
new-instance v1, LT;
invoke-direct {{v1}}, LT;-><init>()V
new-instance v2, LT;
invoke-direct {{v2}}, LT;-><init>()V
new-instance v3, LT;
invoke-direct {{v3}}, LT;-><init>()V
invoke-virtual {{v0}}, LT;->start()V
invoke-virtual {{v1}}, LT;->start()V
invoke-virtual {{v2}}, LT;->start()V
invoke-virtual {{v3}}, LT;->start()V
return-void
.end method
"""

ONE = """.class LMain;
.super Ljava/lang/Object;
.field static n:I
.method static main()V
.registers 2
const v0, {rounds}
:round
sget v1, LMain;->n:I
sput v1, LMain;->n:I
add-int/lit8 v0, v0, -1
if-nez v0, :round
return-void
.end method
"""

SMALLEST = ".class LMain;\n.super Ljava/lang/Object;\n.method static main()V\n.registers 0\nreturn-void\n.end method\n"

# a round has five steps: three that add, and the two of the loop
REGISTERS = THREADS.format(rounds=500_000, body="add-int/lit8 v1, v1, 1\nadd-int v2, v1, v0\nxor-int v2, v2, v1")
# a round has five steps, of which two are of the object
FIELDS = THREADS.format(rounds=100_000, body="iget v1, p0, LT;->n:I\nadd-int/lit8 v1, v1, 1\niput v1, p0, LT;->n:I")
SHARED = ONE.format(rounds=500_000)


def seconds(program, words, text):
    """The least of three runs, by the clock."""
    least = None
    for _ in range(3):
        begin = time.monotonic()
        done = subprocess.run([program, "run", "Main", "budget=50000000", *words], input=text.encode(), capture_output=True)
        took = time.monotonic() - begin
        if done.returncode != 0:
            sys.exit(f"bench/workers.py: status {done.returncode}: {done.stdout[:200]!r}")
        least = took if least is None else min(least, took)
    return least


def main(words):
    program = words[0] if words else f"{TOP}/crates/dvm/out/dvm"
    start = seconds(program, ["seed=0"], SMALLEST)
    print(f"the smallest program: {start:.3f} s")
    for name, text in (("registers", REGISTERS), ("fields of own objects", FIELDS)):
        times = {it: seconds(program, [f"workers={it}"], text) - start for it in (1, 2, 4)}
        ratios = ", ".join(f"{it} workers {times[it] / times[1]:.2f}" for it in (2, 4))
        print(f"{name}: 1 worker {times[1]:.3f} s; as a ratio to that: {ratios}")
    worker = seconds(program, ["workers=1"], SHARED) - start
    seeded = seconds(program, ["seed=0"], SHARED) - start
    print(f"shared steps: 1 worker {worker:.3f} s, seed=0 {seeded:.3f} s, ratio {worker / seeded:.2f}")


if __name__ == "__main__":
    main(sys.argv[1:])
