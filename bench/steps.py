#!/usr/bin/env python3
"""Times steps that are meant to hold `dvm run` for long: programs whose loop does the same at a small and at a large size of what a step looks at.

Usage: bench/steps.py [--program PROGRAM] [--budget STEPS] [CASE..]
       bench/steps.py --text CASE SIZE            writes the text instead

A line has the case, nanoseconds of the processor a step at each of its sizes, with the start of each program taken off, and how many times as long a step of the last takes as one of the
first. PROGRAM is a built `dvm` (crates/dvm/out/dvm). Steps whose work is the length of their data, as filling an array, are left out: these grow.
"""
import os
import resource
import subprocess
import sys

from hostile import OBJECT, chain, class_of, main_class, method

TOP = os.path.dirname(os.path.dirname(os.path.abspath(__file__)))
BUDGET = 2_000_000
ERROR = "Ljava/lang/Error;"


def loop(before, body, registers=16):
    return main_class(f"{before}:top\n{body}goto :top\n", registers)


def made(name):
    return f"new-instance v0, L{name};\ninvoke-direct {{v0}}, L{name};-><init>()V\n"


def with_constructor(name, parent, more=""):
    call = f"invoke-direct {{p0}}, {parent}-><init>()V\nreturn-void\n"
    return class_of(name, parent, more=method("constructor <init>()V", 1, call) + more)


def throws(depth, handlers):
    """An exception of a class so deep is thrown past so many handlers that don't take it."""
    deep = "".join(with_constructor(f"E{k}", ERROR if k == 0 else f"LE{k - 1};") for k in range(depth))
    other = "".join(class_of(f"X{k}", ERROR) for k in range(handlers))
    passed = "".join(f".catch LX{k}; {{:from .. :to}} :other\n" for k in range(handlers))
    body = f":from\nthrow v0\n:to\n:caught\nmove-exception v1\n{passed}.catchall {{:from .. :to}} :caught\n"
    # the handlers that don't take it lead to a place that is never reached
    text = f"{made(f'E{depth - 1}')}:top\n{body}goto :top\n:other\nmove-exception v1\ngoto :top\n"
    return deep + other + main_class(text)


def strings(size):
    return loop("", f'const-string v0, "{"s" * size}"\n')


def instances(size):
    name = "n" * size
    return with_constructor(name, OBJECT) + loop(made(name), f"instance-of v1, v0, L{name};\n")


def virtual_calls(size):
    name = "m" * size
    callee = method(f"{name}()V", 1, "return-void\n")
    return with_constructor("A", OBJECT, callee) + loop(made("A"), f"invoke-virtual {{v0}}, LA;->{name}()V\n")


def interface_calls(size):
    own = "".join(method(f"m{k}()V", 1, "return-void\n") for k in range(size))
    face = class_of("I", flags="interface abstract ", more=f".method abstract m{size - 1}()V\n.end method\n")
    owner = with_constructor("A", OBJECT, own).replace(f".super {OBJECT}\n", f".super {OBJECT}\n.implements LI;\n", 1)
    return face + owner + loop(made("A"), f"invoke-interface {{v0}}, LI;->m{size - 1}()V\n")


def threads(size):
    """So many threads that count fields of their own objects, by a seed."""
    body = ":top\niget v0, p0, LA;->own:I\nadd-int/lit8 v0, v0, 1\niput v0, p0, LA;->own:I\ngoto :top\n"
    runner = method("run()V", 2, body)
    worker = with_constructor("A", "Ljava/lang/Thread;", ".field own:I\n" + runner)
    start = "new-instance v0, LA;\ninvoke-direct {v0}, LA;-><init>()V\ninvoke-virtual {v0}, Ljava/lang/Thread;->start()V\n"
    last = "new-instance v0, LA;\ninvoke-direct {v0}, LA;-><init>()V\ninvoke-virtual {v0}, LA;->run()V\nreturn-void\n"
    return worker + main_class(start * (size - 1) + last)


def registers(size):
    callee = method("static next()V", size, "return-void\n")
    return class_of("A", more=callee) + loop("", "invoke-static {}, LA;->next()V\n")


# by case: what makes its text, its sizes, and further words of the command line
CASES = {
    "an exception past handlers": (lambda n: throws(n, n), (4, 64, 400), []),
    "a string's length": (strings, (10, 1_000, 10_000), []),
    "a class's name, in instance-of": (instances, (10, 1_000, 10_000), []),
    "a method's name, in a virtual call": (virtual_calls, (10, 1_000, 10_000), []),
    "a class's methods, in an interface's call": (interface_calls, (16, 400, 1_600), []),
    "threads under a seed": (threads, (2, 16, 64), ["seed=1"]),
    "a method's registers": (registers, (1, 64, 256), []),
}


def seconds_of(program, text, words):
    before = resource.getrusage(resource.RUSAGE_CHILDREN)
    done = subprocess.run([program, "run", "Main", *words], input=text.encode(), capture_output=True)
    after = resource.getrusage(resource.RUSAGE_CHILDREN)
    printed = done.stdout.decode()
    if not printed.endswith("#end steps\n"):
        sys.exit(f"bench/steps.py: the run ended otherwise:\n{printed[-400:]}")
    return after.ru_utime + after.ru_stime - before.ru_utime - before.ru_stime


def step_time(program, text, budget, words):
    """Nanoseconds a step, the least of three runs."""
    few = min(seconds_of(program, text, [f"budget={budget // 100}", *words]) for _ in range(3))
    all_of = min(seconds_of(program, text, [f"budget={budget}", *words]) for _ in range(3))
    return (all_of - few) / (budget - budget // 100) * 1e9


def main(words):
    if words[:1] == ["--text"]:
        print(CASES[words[1]][0](int(words[2])), end="")
        return
    program, budget = f"{TOP}/crates/dvm/out/dvm", BUDGET
    while words[:1] in (["--program"], ["--budget"]):
        if words[0] == "--program":
            program = words[1]
        else:
            budget = int(words[1])
        words = words[2:]
    for name in words or CASES:
        make, sizes, more = CASES[name]
        times = [step_time(program, make(size), budget, more) for size in sizes]
        told = "; ".join(f"{size}: {time:.0f} ns" for size, time in zip(sizes, times))
        print(f"{name}: {told}; {times[-1] / times[0]:.1f} times as long", flush=True)


if __name__ == "__main__":
    main(sys.argv[1:])
