#!/usr/bin/env python3
"""Builds the program: proves its crates side by side, the ones that most others wait for first, and links them.

Usage: build/program.py        (called by ./adrep build)

Each crate is one call of the toolchain's compiler, over the statements of the libraries below it, as `rt ci` has it. What is built of a
library stands until a file of it, or of a crate below, changes; the program itself is proved and linked at each call. Standard error tells how far it is.
"""
import contextlib
import hashlib
import os
import shutil
import subprocess
import sys
import threading
import time

TOP = os.path.dirname(os.path.dirname(os.path.abspath(__file__)))
PROGRAM = "adrep"
# What the check of a large crate takes, in bytes.
MEMORY = 3_000_000_000
# Processes for a check that others wait for: it ends in half of the time, and takes a third more of the processors.
JOBS = 3
# By how many seconds a crate may end later than the one that most wait for, and still have as many.
NEAR = 30
# Seconds of such slack for each step of niceness.
STEP = 40


def tell(text):
    print(f"adrep: {text}", file=sys.stderr, flush=True)


class Crate:
    """A crate of the program: what it uses of the repository and of the toolchain, and its files."""

    def __init__(self, name, line, uses, below):
        self.name, self.line, self.uses, self.below = name, line, uses, below
        self.root = "src/main.rt" if name == PROGRAM else "src/lib.rt"
        self.folder = f"{TOP}/crates/{name}"
        self.log = f"{self.folder}/out/build.log"
        # Where rt has a crate's library too; it removes the folder when it builds its own.
        self.built = f"{self.folder}/out/rlib"
        self.library = f"{self.built}/{name}.rlib"
        self.sum = f"{self.built}/sum"

    def is_built_of(self, sum):
        """Whether its library was built of files with this sum."""
        return os.path.isdir(self.library) and os.path.exists(self.sum) and read(self.sum).decode() == sum

    def files(self, *parts):
        """Its files in some of its folders, in order."""
        return sorted(f"{folder}/{file}" for part in parts for folder, _, files in os.walk(f"{self.folder}/{part}") for file in files)

    def seconds(self, below):
        """A guess of what its check takes: what it loads of the crates below, its lines of code, and its lines of proof."""
        code, proof = (sum(read(it).count(b"\n") for it in self.files(part)) for part in ("src", "proofs"))
        return 8 + below / 3 + code / 14 + proof / 65


def read(file):
    with open(file, "rb") as it:
        return it.read()


def crates_of_program():
    """The crates that the program stands on, by name."""
    listed = {}
    for line in read(f"{TOP}/crates.txt").decode().splitlines():
        name, found, uses = line.split("#")[0].partition(":")
        if found:
            listed[name.split()[0]] = (line, uses.split())
    wanted, left = {}, [PROGRAM]
    while left:
        name = left.pop()
        if name not in wanted:
            line, uses = listed[name]
            below = [it for it in uses if it in listed]
            wanted[name] = Crate(name, line, [it for it in uses if it not in listed], below)
            left += below
    return wanted


def times_that_wait(crates):
    """For each crate the time of the longest chain of crates that begins with it, each waiting for the one before."""
    above = {name: [it.name for it in crates.values() if name in it.below] for name in crates}
    stands_on, lengths = {}, {}

    def below(name):
        if name not in stands_on:
            stands_on[name] = set(crates[name].below).union(*map(below, crates[name].below))
        return stands_on[name]

    def length(name):
        if name not in lengths:
            lengths[name] = crates[name].seconds(len(below(name))) + max((length(it) for it in above[name]), default=0)
        return lengths[name]

    return {name: length(name) for name in crates}


def sums_of(crates, kit):
    """For each crate the sum of the toolchain's line, of its files, and of the crates below."""
    sums = {}

    def sum_of(name):
        if name not in sums:
            crate = crates[name]
            parts = [kit, crate.line, *(f"{os.path.relpath(it, TOP)} {hashlib.sha256(read(it)).hexdigest()}" for it in crate.files("src", "specs", "proofs")), *map(sum_of, crate.below)]
            sums[name] = hashlib.sha256("\n".join(parts).encode()).hexdigest()
        return sums[name]

    return {name: sum_of(name) for name in crates}


class Toolchain:
    """The compiler and the linker of the kit that the command rt belongs to."""

    def __init__(self):
        self.kit = os.path.dirname(output("rt", "doc"))
        self.line = output("rt", "version")

    def words(self, crate, crates, jobs):
        """What tells the compiler of a crate, its libraries and the logic."""
        words = ["--crate-name", crate.name, crate.root]
        for name in ["std", *crate.uses]:
            words += ["--extern", f"{name}={self.kit}/rlibs/{name}.rlib"]
        for name in crate.below:
            words += ["--extern", f"{name}={crates[name].library}"]
        for folder in [f"{self.kit}/rlibs", *(it.built for it in crates.values())]:
            words += ["-L", f"dependency={folder}"]
        return [*words, "--antt-project", f"{self.kit}/rattle/logic/antt-project.json", "--logic-built", f"{self.kit}/logic_built", "--jobs", str(jobs)]

    def build_library(self, crate, words, niceness):
        """Proves a library and builds it; whether it went well."""
        shutil.rmtree(crate.built, ignore_errors=True)
        os.makedirs(crate.built)
        return call(crate, "nice", "-n", str(niceness), f"{self.kit}/bin/rattle", "build", *words, "--statements", "-o", crate.library)

    def build_program(self, crate, words):
        """Proves the program, compiles it and links it; whether it went well."""
        tools, made = ["--toolchain", f"{self.kit}/toolchain"], f"{crate.folder}/out/{crate.name}"
        return call(crate, f"{self.kit}/bin/rattle", "build", *words, *tools, "--backend", "llvm", "-o", f"{made}.o") and call(
            crate, f"{self.kit}/bin/rattle-link", "--target", "x86_64-unknown-linux-gnu", *tools, "-o", made, f"{made}.o", f"{self.kit}/c/libos_c.a", f"{self.kit}/c/liblibc_c.a"
        )


def output(*words):
    return subprocess.run(words, check=True, capture_output=True, text=True).stdout.strip()


def call(crate, *words):
    """Runs a tool in a crate's folder, with its log; whether it went well."""
    with open(crate.log, "ab") as log:
        return subprocess.call(words, cwd=crate.folder, stdin=subprocess.DEVNULL, stdout=log, stderr=log) == 0


class Build:
    """Crates that are proved side by side, each one once those below it are.

    More may be under way than there are processors: then no crate of the longest chain waits until one that can wait is done.
    """

    def __init__(self, crates, toolchain, processors, workers):
        self.crates, self.toolchain, self.processors, self.workers = crates, toolchain, processors, workers
        self.waiting, self.sums = times_that_wait(crates), sums_of(crates, toolchain.line)
        self.state = threading.Condition()
        self.left, self.done, self.failed = set(crates), set(), []
        # How many processes each crate's check has that is under way.
        self.under_way = {}
        self.begun = time.monotonic()

    def ready(self):
        return [it for it in self.left if set(self.crates[it].below) <= self.done]

    def share_of(self, name):
        """Processes for a crate's check, and their niceness, by how much later it may end than the crate that most wait for.

        It has several processes where others wait for it, or where processors would have nothing to do.
        """
        slack = max(map(self.waiting.get, [name, *self.under_way])) - self.waiting[name]
        beside = min(len(self.ready()), self.workers - len(self.under_way) - 1)
        idle = self.processors - sum(self.under_way.values()) - beside
        jobs = self.processors if slack < NEAR else idle
        return max(1, min(JOBS, jobs)), min(19, int(slack / STEP))

    def next(self):
        """The name of a crate to prove and its share of the processors, once there is one; None when nothing is left."""
        with self.state:
            while not self.failed and self.left and not self.ready():
                self.state.wait()
            if self.failed or not self.left:
                return None
            name = max(self.ready(), key=self.waiting.get)
            self.left.discard(name)
            share = self.share_of(name)
            self.under_way[name], _ = share
            return name, share

    def build(self, crate, share):
        """Proves and builds a crate, unless its library was built of the same files before; whether it went well."""
        if crate.is_built_of(self.sums[crate.name]):
            return True
        os.makedirs(os.path.dirname(crate.log), exist_ok=True)
        with contextlib.suppress(FileNotFoundError):
            os.remove(crate.log)
        jobs, niceness = share
        words = self.toolchain.words(crate, self.crates, jobs)
        if crate.name == PROGRAM:
            return self.toolchain.build_program(crate, words)
        if not self.toolchain.build_library(crate, words, niceness):
            return False
        with open(crate.sum, "w", encoding="utf-8") as it:
            it.write(self.sums[crate.name])
        return True

    def work(self):
        while (found := self.next()) is not None:
            name, share = found
            well = False
            try:
                well = self.build(self.crates[name], share)
            finally:
                self.end(name, well)

    def end(self, name, well):
        """A crate is done, or failed."""
        with self.state:
            del self.under_way[name]
            if well:
                self.done.add(name)
                tell(f"{name} is proved; {len(self.done)} of {len(self.crates)} crates, {(time.monotonic() - self.begun) / 60:.0f} min gone")
            else:
                self.failed.append(name)
            self.state.notify_all()

    def run(self):
        """Proves and builds all; whether it went well."""
        workers = [threading.Thread(target=self.work) for _ in range(self.workers)]
        for it in workers:
            it.start()
        for it in workers:
            it.join()
        for name in self.failed:
            sys.stderr.write("".join(read(self.crates[name].log).decode(errors="replace").splitlines(True)[-20:]))
        return not self.failed


def main():
    memory = os.sysconf("SC_PAGE_SIZE") * os.sysconf("SC_PHYS_PAGES")
    processors = len(os.sched_getaffinity(0))
    workers = max(1, min(processors + 1, memory // MEMORY))
    crates = crates_of_program()
    tell(f"building the program: its {len(crates)} crates are proved, {workers} at a time, which takes some minutes once")
    if not Build(crates, Toolchain(), processors, workers).run():
        sys.exit("adrep: the program could not be built")
    tell("built")


if __name__ == "__main__":
    main()
