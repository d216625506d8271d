#!/usr/bin/env python3
"""Times `dvm run`: endless loops that are ended by the budget of 50,000,000 steps, or by an OutOfMemoryError, and the smallest text.

Each program has a count of instructions a round, so that the rounds are known. Where a JDK is on the path the same rounds are run by `java -Xint`, and the
ratio is told. Times are of the processor, the least of three runs, with the start of each program taken off.
Usage: bench/run.py [PROGRAM], where PROGRAM is a built `dvm` (crates/dvm/out/dvm).
"""
import os
import resource
import shutil
import subprocess
import sys
import tempfile

TOP = os.path.dirname(os.path.dirname(os.path.abspath(__file__)))
BUDGET = 50_000_000

MAIN = """.class interface abstract LAfter;
.super Ljava/lang/Object;
.method abstract after(I)I
.end method
.class LMain;
.super Ljava/lang/Object;
.implements LAfter;
.field static count:I
.field own:I
.method constructor <init>()V
.registers 1
invoke-direct {p0}, Ljava/lang/Object;-><init>()V
return-void
.end method
.method static next(I)I
.registers 1
add-int/lit8 p0, p0, 1
return p0
.end method
.method after(I)I
.registers 2
add-int/lit8 p1, p1, 1
return p1
.end method
.method static main()V
.registers 7
new-instance v6, Ljava/lang/Error;
invoke-direct {v6}, Ljava/lang/Error;-><init>()V
new-instance v0, LMain;
invoke-direct {v0}, LMain;-><init>()V
const/16 v1, 8
new-array v1, v1, [I
const/4 v2, 0
const/4 v3, 0
const/4 v4, 0
:top
%s
goto :top
.end method
"""

# the program, its steps a round (the branch among them), its loop, and the same in Java: `o` is an object, `a` an array, `e` an error, `i` to `l` ints
PROGRAMS = [
    ("arithmetic", 5, "add-int v2, v2, v3\nxor-int v4, v2, v3\nadd-int/lit8 v3, v3, 1\nmove v5, v4", "i += j; k = i ^ j; j++; l = k;"),
    ("a field", 4, "iget v2, v0, LMain;->own:I\nadd-int/lit8 v2, v2, 1\niput v2, v0, LMain;->own:I", "o.own = o.own + 1;"),
    ("a static field", 4, "sget v2, LMain;->count:I\nadd-int/lit8 v2, v2, 1\nsput v2, LMain;->count:I", "count = count + 1;"),
    ("an array", 6, "aget v3, v1, v2\nadd-int/lit8 v3, v3, 1\naput v3, v1, v2\nadd-int/lit8 v2, v2, 1\nand-int/lit8 v2, v2, 7", "a[i] = a[i] + 1; i = (i + 1) & 7;"),
    ("a static call", 5, "invoke-static {v2}, LMain;->next(I)I\nmove-result v2", "i = next(i);"),
    ("a virtual call", 5, "invoke-virtual {v0, v2}, LMain;->after(I)I\nmove-result v2", "i = o.after(i);"),
    ("an interface's call", 5, "invoke-interface {v0, v2}, LAfter;->after(I)I\nmove-result v2", "i = p.after(i);"),
    ("a monitor", 3, "monitor-enter v0\nmonitor-exit v0", "synchronized (o) { }"),
    ("an exception caught", 4, ":from\nthrow v6\n:to\n:caught\nmove-exception v5\n.catchall {:from .. :to} :caught", "try { throw e; } catch (Error caught) { e = caught; }"),
]

JAVA = """interface After { int after(int n); }
public class Main implements After {
    static int count;
    int own;
    static int next(int n) { return n + 1; }
    public int after(int n) { return n + 1; }
    public static void main(String[] words) {
        Main o = new Main();
        After p = o;
        Error e = new Error();
        int[] a = new int[8];
        int i = 0, j = 0, k = 0, l = 0;
        for (long round = Long.parseLong(words[0]); round > 0; round--) { %s }
        if (i + j + k + l + o.own + count + a[0] == -7) System.out.println(e);
    }
}
"""

OBJECTS = "new-instance v2, LMain;"

# a text of a word and a number, so many times
TEXTS = """.class LMain;
.super Ljava/lang/Object;
.method static main()V
.registers 4
const/4 v0, 0
const v1, %d
:top
if-ge v0, v1, :done
new-instance v2, Ljava/lang/StringBuilder;
invoke-direct {v2}, Ljava/lang/StringBuilder;-><init>()V
const-string v3, "number "
invoke-virtual {v2, v3}, Ljava/lang/StringBuilder;->append(Ljava/lang/String;)Ljava/lang/StringBuilder;
invoke-virtual {v2, v0}, Ljava/lang/StringBuilder;->append(I)Ljava/lang/StringBuilder;
invoke-virtual {v2}, Ljava/lang/StringBuilder;->toString()Ljava/lang/String;
add-int/lit8 v0, v0, 1
goto :top
:done
return-void
.end method
"""
TEXTS_IN_JAVA = 'StringBuilder b = new StringBuilder(); b.append("number "); b.append(i); if (b.toString().length() == 1) i++; i++;'
EMPTY = ".class LMain;\n.super Ljava/lang/Object;\n.method static main()V\n.registers 0\nreturn-void\n.end method\n"


def timed(words, text):
    """Seconds of the processor, the least of three runs; and what was printed last."""
    least = None
    for _ in range(3):
        before = resource.getrusage(resource.RUSAGE_CHILDREN)
        done = subprocess.run(words, input=text.encode(), capture_output=True)
        after = resource.getrusage(resource.RUSAGE_CHILDREN)
        seconds = after.ru_utime + after.ru_stime - before.ru_utime - before.ru_stime
        least = seconds if least is None else min(least, seconds)
    return least, done.stdout.decode()


def java_time(room, body, rounds):
    """Seconds of `java -Xint` for so many rounds of a loop, without its start."""
    with open(f"{room}/Main.java", "w", encoding="ascii") as file:
        file.write(JAVA % body)
    subprocess.run(["javac", "-d", room, f"{room}/Main.java"], check=True)
    java = ["java", "-Xint", "-XX:+UseSerialGC", "-cp", room, "Main"]
    return timed([*java, str(rounds)], "")[0] - timed([*java, "1"], "")[0]


def steps_of(program, text):
    """How many steps a program has, by its schedule."""
    printed = subprocess.run([program, "run", "Main", "log=yes"], input=text.encode(), capture_output=True).stdout.decode()
    return sum(int(line.split()[2]) for line in printed.split(".schedule\n")[1].splitlines() if not line.startswith("."))


def texts(program, start, room, rounds=100_000):
    """Tells of texts that are built."""
    each = steps_of(program, TEXTS % 1001) - steps_of(program, TEXTS % 1)
    seconds, printed = timed([program, "run", "Main", f"budget={BUDGET}", "heap=8388608"], TEXTS % rounds)
    assert printed == "#end done\n", printed
    line = f"building a text: {rounds * each / 1000 / (seconds - start) / 1e6:.1f} million steps a second"
    if room is not None:
        line += f", {(seconds - start) / java_time(room, TEXTS_IN_JAVA, rounds):.1f} times as long as java -Xint"
    print(line, flush=True)


def main():
    program = sys.argv[1] if len(sys.argv) > 1 else f"{TOP}/crates/dvm/out/dvm"
    start, printed = timed([program, "run", "Main"], EMPTY)
    assert printed == "#end done\n", printed
    print(f"smallest text: {start * 1000:.0f} ms", flush=True)
    has_java = shutil.which("javac") is not None
    with tempfile.TemporaryDirectory() as room:
        for name, steps, loop, body in PROGRAMS:
            seconds, printed = timed([program, "run", "Main", f"budget={BUDGET}"], MAIN % loop)
            assert printed.endswith("#end steps\n"), printed
            few, _ = timed([program, "run", "Main", f"budget={BUDGET // 50}"], MAIN % loop)
            seconds -= start
            line = f"{name}: {BUDGET / seconds / 1e6:.1f} million steps a second; of a fiftieth of them {BUDGET / 50 / (few - start) / 1e6:.1f}"
            if has_java:
                line += f", {seconds / java_time(room, body, BUDGET // steps):.1f} times as long as java -Xint"
            print(line, flush=True)
        texts(program, start, room if has_java else None)
    seconds, printed = timed([program, "run", "Main", f"budget={BUDGET}", "heap=8388608"], MAIN % OBJECTS)
    assert printed == "#uncaught 0 java.lang.OutOfMemoryError\n#end done\n", printed
    # an object of one field has three words
    print(f"objects: {8_388_608 / 3 / (seconds - start) / 1e6:.1f} million a second")
    print(f"memory: at most {resource.getrusage(resource.RUSAGE_CHILDREN).ru_maxrss / 1024:.0f} MB of all these programs")


if __name__ == "__main__":
    main()
