"""The crates of crates.txt, what a check of one reads, and the words of the prover's command for it."""
import hashlib
import os
import shutil
import sys

TOP = os.path.dirname(os.path.dirname(os.path.realpath(__file__)))
# Where the libraries are kept that these scripts build: rt keeps what stands in an out/rlib, and the program has none of its own.
BUILT = f"{TOP}/crates/dvm/out/rlib"
PARTS = ("src", "specs", "proofs")


def stop(why):
    print(f"{os.path.relpath(sys.argv[0], TOP)}: {why}", file=sys.stderr)
    sys.exit(2)


def text_of(path):
    with open(path, encoding="utf-8") as file:
        return file.read()


def kit():
    """The toolchain's folder."""
    command = shutil.which("rt") or stop("the toolchain's command rt isn't on the PATH")
    return os.path.dirname(os.path.dirname(os.path.realpath(command)))


class Crate:
    """A crate: its line in crates.txt, and its libraries of the repository and of the toolchain."""

    def __init__(self, name, line, uses):
        self.name, self.line, self.uses, self.folder = name, line, uses, f"{TOP}/crates/{name}"
        self.deps, self.of_kit, self.found = [], [], None

    def below(self):
        """The crates that this one stands on, by name."""
        if self.found is None:
            self.found = {}
            for it in self.deps:
                self.found.update({**it.below(), it.name: it})
        return self.found

    def files(self):
        """The files that a check of the crate reads."""
        walked = [(at, names) for part in PARTS for at, _, names in os.walk(f"{self.folder}/{part}")]
        return sorted(f"{at}/{name}" for at, names in walked for name in names)

    def lines(self):
        """How long the crate is, which tells roughly how long its proof takes."""
        return sum(text_of(it).count("\n") for it in self.files())

    def is_program(self):
        return os.path.isfile(f"{self.folder}/src/main.rt")

    def own_sum(self, more=()):
        """A sum of the crate's own files, and of further ones."""
        made = hashlib.sha256(self.line.encode())
        for path in [*self.files(), *more]:
            with open(path, "rb") as file:
                made.update(repr((os.path.relpath(path, TOP), file.read())).encode())
        return made.hexdigest()

    def sum(self, known):
        """A sum of all that the crate's proof reads: the toolchain, its own files, and the same of the crates below."""
        if self.name not in known:
            parts = [text_of(f"{KIT}/KIT-ID"), self.own_sum(), *[it.sum(known) for it in self.deps]]
            known[self.name] = hashlib.sha256("\n".join(parts).encode()).hexdigest()
        return known[self.name]

    def words(self, rlib_of, jobs=1):
        """The words of a check or a build of the crate, run in a folder that holds its files; rlib_of gives the library of a crate below."""
        words = ["--crate-name", self.name, "src/main.rt" if self.is_program() else "src/lib.rt"]
        for it in self.of_kit:
            words += ["--extern", f"{it}={KIT}/rlibs/{it}.rlib"]
        words += ["-L", f"dependency={KIT}/rlibs"]
        for it in self.deps:
            words += ["--extern", f"{it.name}={rlib_of(it)}"]
        for it in sorted({os.path.dirname(rlib_of(it)) for it in self.below().values()}):
            words += ["-L", f"dependency={it}"]
        words += ["--antt-project", f"{KIT}/rattle/logic/antt-project.json", "--logic-built", f"{KIT}/logic_built"]
        return [*words, "--jobs", str(jobs), "--links", f"{self.name}="]


def built(crate):
    """The library that these scripts build of a crate."""
    return f"{BUILT}/{crate.name}.rlib"


def all_crates():
    """The crates of crates.txt by name, lowest first."""
    found = {}
    for line in text_of(f"{TOP}/crates.txt").splitlines():
        head, colon, tail = line.partition("#")[0].partition(":")
        if colon:
            found[head.split()[0]] = Crate(head.split()[0], line, tail.split())
    for it in found.values():
        it.deps = [found[name] for name in it.uses if name in found]
        it.of_kit = ["std", *[name for name in it.uses if name not in found]]
    return dict(sorted(found.items(), key=lambda it: len(it[1].below())))


KIT = kit()
RATTLE = f"{KIT}/bin/rattle"
