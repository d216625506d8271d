#!/usr/bin/env python3
"""Makes texts that are meant to hold `dvm verify` for long, times it on them at growing sizes, and prints how that grows.

Usage: bench/hostile.py [--program PROGRAM] [--limit SECONDS] [CASE [SIZE..]]
       bench/hostile.py --text CASE SIZE          writes the text instead

Without a case all are tried at their sizes, of which the last is what the limits of the program leave room for. A size is a number, or NxM: M methods of size N, where a case
is of one method (8x16,384 units of 256 registers is the limit of cells). PROGRAM is a built `dvm` (crates/dvm/out/dvm). A line has the case, its size, the text's bytes, the
status, processor seconds, megabytes and printed bytes, and behind the second line of a case by what power of the text's growth the time grew. A run
past the limit (120 seconds) is stopped.
"""
import itertools
import math
import os
import resource
import signal
import subprocess
import sys
import tempfile
import time

TOP = os.path.dirname(os.path.dirname(os.path.abspath(__file__)))
OBJECT = "Ljava/lang/Object;"


def class_of(name, parent=OBJECT, flags="", more=""):
    return f".class {flags}L{name};\n.super {parent}\n{more}"


def method(head, registers, body):
    return f".method {head}\n.registers {registers}\n{body}.end method\n"


def main_class(body, registers=16, head="static main()V"):
    return class_of("Main", more=method(head, registers, body))


def chain(letter, count, flags=""):
    """Classes of which each is under the one before it; the last one is the deepest."""
    return "".join(class_of(f"{letter}{k}", OBJECT if k == 0 else f"L{letter}{k - 1};", flags) for k in range(count))


def arrays(count):
    """So many registers that hold an array of 255 dimensions."""
    return f"const/4 v0, 0x0\nnew-array v1, v0, {'[' * 255}{OBJECT}\n" + "".join(f"move-object/from16 v{k}, v1\n" for k in range(2, count + 1))


def dims(count, units=16_000, registers=256):
    """Arrays of 255 dimensions, each of which loses one in each round of one loop."""
    body = arrays(count) + ":loop\n" + "".join(f"aget-object v{k}, v{k}, v0\n" for k in range(1, count + 1)) + "nop\n" * (units - 5 * count)
    return main_class(body + "goto/32 :loop\n", registers)


def rotated(count, lines):
    """Arrays of 255 dimensions that move on by one register in each round of one loop, in which only the first loses one."""
    moves = "".join(f"move-object/from16 v{k}, v{k + 1}\n" for k in range(1, count + 1))
    return main_class(arrays(count) + f":loop\naget-object v{count + 1}, v1, v0\n{moves}{lines}goto/32 :loop\n", 256)


def rotate(count, units=16_000):
    """The same behind one another in straight code."""
    return rotated(count, "nop\n" * (units - 4 * count))


def heads(count, units=16_000):
    """The same where each instruction has two ways on, to the next."""
    return rotated(count, "".join(f"if-eqz v0, :h{k}\n:h{k}\n" for k in range((units - 4 * count) // 2)))


def spiral(count, heads=5_000):
    """254 registers that move on by one in each round of a loop of many heads, and behind it blocks, each of which brings an object of the next higher class to it."""
    moves = "move-object/from16 v255, v1\n" + "".join(f"move-object/from16 v{k}, v{k + 1}\n" for k in range(1, 255))
    fill = f"const/4 v0, 0x0\nsget-object v1, LMain;->f{count}:LC{count};\n" + "".join(f"move-object/from16 v{k}, v1\n" for k in range(2, 256))
    lines = "".join(f"if-eqz v0, :h{k}\n:h{k}\n" for k in range(heads))
    blocks = "".join(f":b{k}\nsget-object v1, LMain;->f{k}:LC{k};\nif-eqz v0, :near\n" for k in reversed(range(count)))
    body = f"{fill}goto :loop\n:near\nif-eqz v0, :loop\n:loop\n{moves}{lines}if-nez v0, :loop\n{blocks}return-void\n"
    fields = "".join(f".field static f{k}:LC{k};\n" for k in range(count + 1))
    return chain("C", count + 1) + class_of("Main", more=fields + method("static main()V", 256, body))


def climb(count):
    """Blocks behind one head, each of which brings an object of the next higher class to it."""
    blocks = "".join(f":b{k}\nsget-object v0, LMain;->f{k}:LC{k};\ngoto/16 :head\n" for k in reversed(range(count)))
    table = ".packed-switch 0x0\n" + "".join(f":b{k}\n" for k in reversed(range(count))) + ".end packed-switch\n"
    body = f"const/4 v1, 0x0\nsget-object v0, LMain;->f{count}:LC{count};\n:head\npacked-switch v1, :table\nreturn-void\n{blocks}:table\n{table}"
    fields = "".join(f".field static f{k}:LC{k};\n" for k in range(count + 1))
    return chain("C", count + 1) + class_of("Main", more=fields + method("static main()V", 2, body))


def catchers(count):
    """Handlers of one range, and as many instructions in it that throw."""
    body = "const/4 v0, 0x1\n:from\n" + "div-int v1, v0, v0\n" * count + ":to\nreturn-void\n"
    body += "".join(f":h{k}\nreturn-void\n" for k in range(count))
    body += "".join(f".catch LE{k % 500}; {{:from .. :to}} :h{k}\n" for k in range(count))
    return chain("E", 500).replace(OBJECT, "Ljava/lang/Throwable;") + main_class(body, 256)


def joins(count, depth=500):
    """Places where registers of two chains of classes meet."""
    fill = lambda letter: f"sget-object v1, LMain;->{letter}:L{letter.upper()}{depth - 1};\n" + "".join(f"move-object/16 v{k}, v1\n" for k in range(2, 256))
    table = lambda: ".packed-switch 0x0\n" + "".join(f":p{k}\n" for k in range(count)) + ".end packed-switch\n"
    body = "const/4 v0, 0x0\nif-eqz v0, :other\n" + fill("a") + "packed-switch v0, :first\nreturn-void\n:other\n" + fill("b") + "packed-switch v0, :second\nreturn-void\n"
    body += "".join(f":p{k}\nreturn-void\n" for k in range(count)) + ":first\n" + table() + ":second\n" + table()
    fields = "".join(f".field static {letter}:L{letter.upper()}{depth - 1};\n" for letter in "ab")
    return chain("A", depth) + chain("B", depth) + class_of("Main", more=fields + method("static main()V", 256, body))


def refs(count, depth=490):
    """References to methods that the last interface of a look-up has: a chain of classes, each with an interface of a chain of its own."""
    last = class_of("J", flags="interface abstract ", more="".join(f".method abstract m{k}()V\n.end method\n" for k in range(count)))
    faces = "".join(class_of(f"I{k}", flags="interface abstract ", more="" if k == 0 else f".implements LI{k - 1};\n") for k in range(depth))
    own = lambda k: f".implements LI{k};\n" + (".implements LJ;\n" if k == 0 else "")
    classes = "".join(class_of(f"C{k}", OBJECT if k == 0 else f"LC{k - 1};", more=own(k)) for k in range(depth))
    body = "const/4 v0, 0x0\n" + "".join(f"invoke-virtual {{v0}}, LC{depth - 1};->m{k}()V\n" for k in range(count)) + "return-void\n"
    return last + faces + classes + main_class(body, 1)


def faults(count, name=120_000):
    """Faults of a method with a long name."""
    return class_of("Main", more=method("static " + "m" * name + "()V", 2, "invoke-static {v0}, Ldvm/Console;->println(I)V\n" * count + "return-void\n"))


def shared(count):
    """Switches of a raw body that share one payload of many targets, which are among the returns behind the switches."""
    begins = 6 * count + 2
    targets = (16_384 - begins - 4) // 2
    units = [0x0012] + [part for k in range(count) for part in (0x002B, (begins - 1 - 3 * k) & 0xFFFF, 0)] + [0x000E] * (begins - 1 - 3 * count)
    units += [0x0100, targets, 0, 0] + [3 * count, 0] * targets
    lines = "".join(" ".join(f"{unit:04x}" for unit in units[k:k + 8]) + "\n" for k in range(0, len(units), 8))
    return class_of("Main", more=f".method static main()V\n.registers 1\n.units\n{lines}.end units\n.end method\n")


def spread(count):
    """The same, but the targets of a switch are all different: returns behind the switches."""
    targets = (16_384 - 6 * count - 6) // 3
    begins = (6 * count + targets + 1) // 2 * 2
    units = [0x0012] + [part for k in range(count) for part in (0x002B, (begins - 1 - 3 * k) & 0xFFFF, 0)] + [0x000E] * (begins - 1 - 3 * count)
    units += [0x0100, targets, 0, 0] + [part for k in range(targets) for part in (3 * count + k, 0)]
    lines = "".join(" ".join(f"{unit:04x}" for unit in units[k:k + 8]) + "\n" for k in range(0, len(units), 8))
    return class_of("Main", more=f".method static main()V\n.registers 1\n.units\n{lines}.end units\n.end method\n")


def tables(count, own=16, flags=""):
    """Classes under one another, each with methods of its own."""
    body = "".join(method(f"{flags}m{k}()V", 1, "return-void\n") for k in range(own))
    named = lambda at: "".join(method(f"{flags}m{at}x{k}()V", 1, "return-void\n") for k in range(own - 1))
    return "".join(class_of(f"C{k}", OBJECT if k == 0 else f"LC{k - 1};", more=(body if k == 0 else named(k))) for k in range(count))


def finals(count):
    """The same with methods that are final, none of which is overridden."""
    return tables(count, flags="final ")


def implements(count):
    """Interfaces of which each is under the two before it: as many ways as there are numbers of Fibonacci."""
    above = lambda k: "".join(f".implements LI{j};\n" for j in (k - 1, k - 2) if j >= 0)
    faces = "".join(class_of(f"I{k}", flags="interface abstract ", more=above(k)) for k in range(count))
    return faces + class_of("C", more=f".implements LI{count - 1};\n") + main_class("return-void\n", 1)


def defaults(count, own=15):
    """Interfaces with the same default methods, half of these classes, one more under all of them, and classes under one another that each name this one again."""
    half = count // 2
    body = "".join(method(f"public m{k}()V", 1, "return-void\n") for k in range(own))
    faces = "".join(class_of(f"I{k}", flags="interface abstract ", more=body) for k in range(half))
    every = "".join(f".implements LI{k};\n" for k in range(half))
    low = class_of("X", flags="interface abstract ", more=every + "".join(f".method public abstract m{k}()V\n.end method\n" for k in range(own)))
    own_class = lambda k: class_of(f"C{k}", OBJECT if k == 0 else f"LC{k - 1};", more=(every if k == 0 else "") + ".implements LX;\n")
    return faces + low + "".join(own_class(k) for k in range(half))


def ladder(count, own=15):
    """The same, but each interface is under the one before it, and each class names one of them, the topmost first."""
    half = count // 2
    body = "".join(method(f"public m{k}()V", 1, "return-void\n") for k in range(own))
    faces = "".join(class_of(f"I{k}", flags="interface abstract ", more=("" if k == 0 else f".implements LI{k - 1};\n") + body) for k in range(half))
    return faces + "".join(class_of(f"C{k}", OBJECT if k == 0 else f"LC{k - 1};", more=f".implements LI{k};\n") for k in range(half))


def cycle(count):
    """A class under each of a ring of others."""
    return "".join(class_of(f"C{k}", f"LC{(k + 1) % count};") for k in range(count))


# Pairs of pieces of names that have one hash in std's HashMap and in indexmap, which hash with a seed that is fixed (FoldHasher). A name's bytes are folded in one by one, and the
# number of them before: state' = fold(state ^ 0x010101 * byte, 0x9e3779b97f4a7c15 ^ 2), where fold(a, b) is the xor of the halves of a * b. So two pieces that lead from one state to
# one state can stand for each other, and these 16 pairs behind one another make 65,536 names with one hash. Each pair was searched for from the state behind the pairs before it, in names
# of 112 bytes: of all six letters those whose states have seven or eight high bits 0 were kept in a table until two states differed only as a seventh letter can make up for (some
# 40 million of them, half a minute of one processor).
PAIRS = """
AHLkZTd EzckJr$
DcqfH7A EtAthbf
CfIQ78A EU5KlTM
B0EW5yA FVscjWT
FBFSwdA FjWNiNU
CRQMC5d F41eRw8
ByPcExa B_QJsX6
CU2jGnA G0FPjp2
APSbXxb AlaJR39
CgoSFyA F$noaJo
C6DrtJA EK0i1jc
B11Au6A Iz$GKi3
EzvcAxd Hdt1Wu9
FeQXYlA IJQ7aq6
A16YpjA DQrCf7Q
BWLAUkE Bo9n_$z
""".split()


def flood(count):
    """Labels with one hash in maps that hash with that seed: each look-up went through all of them, where they were kept in such maps."""
    pairs = list(zip(PAIRS[0::2], PAIRS[1::2]))
    names = ("".join(pieces) for pieces in itertools.product(*pairs))
    return main_class("".join(f":{name}\n" for name in itertools.islice(names, count)) + "return-void\n", 1)


def times(make, size, count):
    """A text of one method `main` with more of it, under other names."""
    text = make(size)
    begins = text.index(".method static main()V\n")
    whole = text[begins:text.index(".end method\n", begins)] + ".end method\n"
    return text + "".join(whole.replace(" main()V", f" main{k}()V", 1) for k in range(1, count))


# The sizes of each case; the last is the largest that the limits leave room for: 8,388,608 bytes, 1,023 classes beside main's, 16,384 methods, 33,554,432 cells.
CASES = {
    "flood": (flood, ("2048", "32768", "65536")),
    "dims": (dims, ("1", "16", "254", "254x8")),
    "rotate": (rotate, ("16", "64", "254", "254x8")),
    "heads": (heads, ("16", "64", "254", "254x8")),
    "spiral": (spiral, ("10", "30", "100", "100x8")),
    "climb": (climb, ("128", "256", "512", "980")),
    "catchers": (catchers, ("500", "1000", "5000", "5000x6")),
    "joins": (joins, ("60", "120", "240", "1000", "1000x8")),
    "refs": (refs, ("600", "1200", "2400", "5400")),
    "faults": (faults, ("1000", "4000", "5400")),
    "shared": (shared, ("100", "400", "1600", "1600x60", "1600x100")),
    "spread": (spread, ("100", "400", "1365", "1365x100")),
    "tables": (tables, ("100", "400", "900", "985")),
    "finals": (finals, ("100", "400", "900", "985")),
    "implements": (implements, ("100", "400", "900", "985")),
    "defaults": (defaults, ("100", "400", "900", "1020")),
    "ladder": (ladder, ("100", "400", "900", "1020")),
    "cycle": (cycle, ("100", "400", "900", "990")),
}


def text_of(name, size):
    """The text of a case of a size N or NxM."""
    of, _, count = size.partition("x")
    return times(CASES[name][0], int(of), int(count)) if count else CASES[name][0](int(of))


def run(program, text, limit):
    """The status (none past the limit), processor seconds, megabytes and printed bytes of one run."""
    with tempfile.TemporaryFile() as source, tempfile.TemporaryFile() as sink:
        source.write(text.encode())
        source.seek(0)
        child = subprocess.Popen([program, "verify"], stdin=source, stdout=sink, preexec_fn=lambda: resource.setrlimit(resource.RLIMIT_CPU, (limit, limit + 1)))
        _, status, used = os.wait4(child.pid, 0)
        code = os.waitstatus_to_exitcode(status)
        return (None if code == -signal.SIGXCPU else code), used.ru_utime + used.ru_stime, used.ru_maxrss // 1024, os.fstat(sink.fileno()).st_size


def tell(program, name, sizes, limit):
    before = None
    for size in sizes:
        text = text_of(name, size)
        status, seconds, megabytes, printed = run(program, text, limit)
        grew = ""
        if before and len(text) > before[0] and seconds > 0.05:
            grew = f"  grows as the text to the power of {math.log(seconds / max(before[1], 0.001)) / math.log(len(text) / before[0]):.1f}"
        told = "past the limit" if status is None else f"status {status}"
        print(f"{name:<12}{size:>8}{len(text):>10} bytes  {told:<10}{seconds:>9.2f} s{megabytes:>7} MB{printed:>12} bytes printed{grew}", flush=True)
        before = len(text), seconds


def main(words):
    program, limit = os.path.join(TOP, "crates", "dvm", "out", "dvm"), 120
    if words[:1] == ["--text"]:
        sys.stdout.write(text_of(words[1], words[2]))
        return
    while words[:1] in (["--program"], ["--limit"]):
        if words[0] == "--program":
            program = words[1]
        else:
            limit = int(words[1])
        words = words[2:]
    if not os.access(program, os.X_OK):
        sys.exit(f"{program} isn't built: run ./dvm verify < /dev/null")
    for name in words[:1] or CASES:
        tell(program, name, words[1:] or CASES[name][1], limit)


if __name__ == "__main__":
    main(sys.argv[1:])
