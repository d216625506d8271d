"""Proves crates and builds their libraries, as many side by side as there are processors, those with the longest chain of others above them first."""
import os
import re
import subprocess
import sys
import threading
import time
from concurrent.futures import FIRST_COMPLETED, ThreadPoolExecutor, wait

from crates import BUILT, RATTLE, TOP, all_crates, built, text_of

# What a proof may take of memory, in bytes.
PROOF_TAKES = 2_500_000_000
PRINTING = threading.Lock()


def say(text):
    with PRINTING:
        print(text, file=sys.stderr, flush=True)


def minutes(seconds):
    return f"{int(seconds) // 60} min {int(seconds) % 60:02} s"


def lanes():
    """How many proofs run at once: one a processor, as many as memory holds."""
    found = re.search(r"MemAvailable:\s+(\d+)", text_of("/proc/meminfo"))
    return max(1, min(len(os.sched_getaffinity(0)), int(found[1]) * 1024 // PROOF_TAKES))


def is_kept(crate, sums):
    mark = f"{BUILT}/{crate.name}.sum"
    return os.path.isdir(built(crate)) and os.path.isfile(mark) and text_of(mark) == crate.sum(sums)


def prove(crate, sums, jobs):
    """Proves a crate from nothing and builds its library. Returns how long it took, or None with what the prover said."""
    began, mark = time.time(), f"{BUILT}/{crate.name}.sum"
    with open(f"{BUILT}/{crate.name}.said", "w", encoding="utf-8") as said:
        if os.path.exists(mark):
            os.remove(mark)
        words = [RATTLE, "build", *crate.words(built, jobs), "--statements", "-o", built(crate)]
        ran = subprocess.run(words, cwd=crate.folder, stdin=subprocess.DEVNULL, stdout=said, stderr=subprocess.STDOUT)
    if ran.returncode:
        return None
    with open(mark, "w", encoding="utf-8") as file:
        file.write(crate.sum(sums))
    return time.time() - began


def weights():
    """About how many seconds each crate's proof takes, as it was measured once."""
    return {name: int(seconds) for name, seconds in (it.split() for it in text_of(f"{TOP}/build/seconds.txt").splitlines() if not it.startswith("#"))}


def chains(every):
    """By crate, the seconds of the longest chain of crates that begins with it."""
    took, begins = weights(), {}
    for it in reversed([*every.values()]):
        above = [begins[other.name] for other in every.values() if it in other.deps]
        begins[it.name] = (took.get(it.name) or it.lines() // 25) + max(above, default=0)
    return begins


class Proving:
    """Crates that are to be proved, side by side."""

    def __init__(self, names, head):
        every = all_crates()
        wanted = {it.name: it for name in names for it in [*every[name].below().values(), every[name]] if not it.is_program()}
        self.head, self.sums, self.began, self.running = head, {}, time.time(), {}
        self.left = [it for it in wanted.values() if not is_kept(it, self.sums)]
        self.done = {it for it in wanted if wanted[it] not in self.left}
        self.number = len(self.left)
        begins = chains({it: wanted[it] for it in every if it in wanted})
        self.left.sort(key=lambda it: -begins[it.name])

    def told(self, crate, seconds):
        self.done.add(crate.name)
        now = ", ".join(sorted(it.name for it, _ in self.running.values()))
        rest = f"{len(self.left) + len(self.running)} of {self.number} are left after {minutes(time.time() - self.began)}"
        say(f"{self.head}: {crate.name} is proved, in {minutes(seconds)}; {rest}{f', now {now}' if now else ''}")

    def run(self):
        """Returns whether all of them are proved."""
        most = lanes()
        with ThreadPoolExecutor(most) as pool:
            while self.left or self.running:
                ready = [it for it in self.left if all(dep.name in self.done for dep in it.deps)]
                idle = most - sum(jobs for _, jobs in self.running.values())
                for at, crate in enumerate(ready[:idle]):
                    # (several jobs for one crate cost more in all, so only where processors would be idle)
                    jobs = max(1, (idle - at) // (len(ready) - at))
                    self.left.remove(crate)
                    self.running[pool.submit(prove, crate, self.sums, jobs)] = crate, jobs
                    idle -= jobs - 1
                for it in wait(self.running, return_when=FIRST_COMPLETED).done:
                    crate, _ = self.running.pop(it)
                    if it.result() is None:
                        say(f"{self.head}: {crate.name} is not proved:\n{text_of(f'{BUILT}/{crate.name}.said')[-3000:]}")
                        return False
                    self.told(crate, it.result())
        return True


def prove_all(names, head):
    """Proves these crates and those below them, where that wasn't done yet, and says after each how far it is. Returns whether all are proved."""
    os.makedirs(BUILT, exist_ok=True)
    proving = Proving(names, head)
    if proving.left:
        before = f"; {len(proving.done)} were proved before" if proving.done else ""
        say(f"{head}: {proving.number} crates are to be proved, {lanes()} at a time{before}")
    return proving.run()
