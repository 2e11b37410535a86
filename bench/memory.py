#!/usr/bin/env python3
"""Refuses memory at each allocation in turn, and looks at what is left: nothing may be wrong, and nothing lost.

Usage: bench/memory.py [--program PROGRAM] [--most N] [SCHEDULE..]   (without schedules: those of examples/)

A library that is loaded before the program's own counts what it allocates and refuses one allocation, the Nth (gcc makes it).
A `replay` ends with 8 then, and has written a front of the bytes that are due; or it did without, and has written all. A
command over a file ends with 8 too, and a `show` finds what was there before it or what it was to leave, nothing else. A
server that ends so has lost nothing that it answered. With more than N allocations (5,000 without --most) the first
half of N and every so many of the others are tried.
"""
import argparse
import glob
import os
import shutil
import socket
import subprocess
import sys
import tempfile
import time

TOP = os.path.dirname(os.path.dirname(os.path.abspath(__file__)))
BUILT = f"{TOP}/crates/adrep/out/adrep"
NO_MEMORY = 8

# glibc's own names are called, so that nothing has to be looked up before the first allocation.
SHIM = r"""
#include <errno.h>
#include <stddef.h>
#include <stdlib.h>
#include <unistd.h>
extern void *__libc_malloc(size_t), *__libc_calloc(size_t, size_t), *__libc_realloc(void *, size_t), *__libc_memalign(size_t, size_t);
static long made, refused = -1;
static int refuses(void) {
    if (refused == -1) { const char *at = getenv("REFUSED_AT"); refused = at ? atol(at) : 0; }
    made++;
    if (made != refused) return 0;
    errno = ENOMEM;
    return 1;
}
void *malloc(size_t n) { return refuses() ? NULL : __libc_malloc(n); }
void *calloc(size_t k, size_t n) { return refuses() ? NULL : __libc_calloc(k, n); }
void *realloc(void *p, size_t n) { return refuses() ? NULL : __libc_realloc(p, n); }
void *aligned_alloc(size_t to, size_t n) { return refuses() ? NULL : __libc_memalign(to, n); }
int posix_memalign(void **p, size_t to, size_t n) { *p = refuses() ? NULL : __libc_memalign(to, n); return *p || !n ? 0 : ENOMEM; }
__attribute__((destructor)) static void tell(void) {
    const char *to = getenv("ALLOCATIONS_TO");
    if (!to || refused > 0) return;
    char text[24]; int at = 24; long n = made;
    do { text[--at] = '0' + n % 10; n /= 10; } while (n);
    int file = atoi(to);
    if (write(file, text + at, 24 - at) < 0) return;
}
"""


class Refusing:
    """The program, with a library before its own that refuses one allocation."""

    def __init__(self, program, folder):
        self.program, self.library = program, f"{folder}/refusing.so"
        source = f"{folder}/refusing.c"
        with open(source, "w", encoding="utf-8") as it:
            it.write(SHIM)
        subprocess.run(["gcc", "-O1", "-shared", "-fPIC", "-o", self.library, source], check=True)
        self.tried = self.wrong = 0

    def run(self, words, given=b"", at=0, folder=None):
        """The status and what was written where the allocation of that number is refused; 0 refuses none."""
        told = {**os.environ, "LD_PRELOAD": self.library, "REFUSED_AT": str(at)}
        ran = subprocess.run([self.program, *words], input=given, capture_output=True, env=told, cwd=folder, check=False)
        return ran.returncode, ran.stdout

    def allocations(self, words, given=b"", folder=None):
        read, write = os.pipe()
        told = {**os.environ, "LD_PRELOAD": self.library, "REFUSED_AT": "0", "ALLOCATIONS_TO": str(write)}
        subprocess.run([self.program, *words], input=given, capture_output=True, env=told, cwd=folder, pass_fds=[write], check=False)
        os.close(write)
        with os.fdopen(read, "rb") as it:
            said = it.read()
        if not said:
            sys.exit("memory: the program's allocations can't be counted: is it linked to the system's C library?")
        return int(said)

    def judge(self, is_right, what):
        self.tried += 1
        if not is_right:
            self.wrong += 1
            print(f"WRONG: {what}", flush=True)


def places(count, most):
    """All numbers up to a count; of more than so many half as many at the front, and some of the rest, evenly."""
    if count <= most:
        return range(1, count + 1)
    front = most // 2
    step = (count - front) // (most - front) + 1
    return [*range(1, front + 1), *range(front + 1, count + 1, step)]


def replays(refusing, path, most):
    with open(path, "rb") as it:
        text = it.read()
    status, due = refusing.run(["replay"], text)
    count = refusing.allocations(["replay"], text)
    for at in places(count, most):
        ended, written = refusing.run(["replay"], text, at)
        is_front = ended == NO_MEMORY and due.startswith(written) or (ended, written) == (status, due)
        refusing.judge(is_front, f"replay {os.path.basename(path)} without allocation {at}: status {ended}, {len(written)} bytes")
    print(f"{os.path.basename(path)}: {count} allocations", flush=True)


def found(refusing, folder):
    """What a `show` finds of the file; None where there is none."""
    if not os.path.exists(f"{folder}/N.adr"):
        return None
    return refusing.run(["show", "N"], folder=folder)


def over_a_file(refusing, words, given, before, most):
    """A command that makes or looks at N, in a folder that has what was there before."""
    with tempfile.TemporaryDirectory() as room:

        def fresh():
            folder = tempfile.mkdtemp(dir=room)
            for name in before:
                shutil.copy(name, folder)
            return folder

        whole = fresh()
        was = found(refusing, whole)
        status, due = refusing.run(words, given, folder=whole)
        behind = found(refusing, whole)
        count = refusing.allocations(words, given, folder=fresh())
        for at in places(count, most):
            folder = fresh()
            ended, written = refusing.run(words, given, at, folder)
            left = found(refusing, folder)
            # a state that was begun and isn't there whole is told as damage at its first byte
            begun = left is not None and left[0] != 0 and was is None
            is_made = left is not None and behind is not None and left[0] == behind[0]
            is_right = ended in (NO_MEMORY, status) and (left in (was, behind) or is_made or begun)
            if ended == status == 0:
                is_right = is_right and len(written) == len(due)
            refusing.judge(is_right, f"{' '.join(words)} without allocation {at}: status {ended}, {left}")
            shutil.rmtree(folder)
        print(f"{' '.join(words)}: {count} allocations", flush=True)


def served(refusing, most):
    """A server that adds for a client: whatever was answered ok is there behind it."""
    lines = [f'add #{0x10 + at:x} user #1 "p{at}" sAMAccountName="p{at}"' for at in range(3)]
    text = "\n".join(lines).encode() + b"\n"
    with tempfile.TemporaryDirectory() as room:

        def one(at, counted=None):
            folder = tempfile.mkdtemp(dir=room)
            refusing.run(["create", "N"], folder=folder)
            with socket.socket() as free:
                free.bind(("127.0.0.1", 0))
                port = str(free.getsockname()[1])
            told = {**os.environ, "LD_PRELOAD": refusing.library, "REFUSED_AT": str(at)}
            if counted:
                told["ALLOCATIONS_TO"] = str(counted)
            server = subprocess.Popen(
                [refusing.program, "serve", "N", port, "1"], cwd=folder, env=told, stdout=subprocess.PIPE, pass_fds=[counted] if counted else []
            )
            answers = b""
            for _ in range(200):
                sent = subprocess.run([refusing.program, "send", port], input=text, capture_output=True, check=False)
                answers = sent.stdout
                if answers or server.poll() is not None:
                    break
                time.sleep(0.01)
            status = server.wait(timeout=100)
            _, shown = refusing.run(["show", "N"], folder=folder)
            return folder, status, answers, shown

        read, write = os.pipe()
        one(0, write)
        os.close(write)
        with os.fdopen(read, "rb") as it:
            count = int(it.read() or b"0")
        for at in places(count, most):
            folder, status, answers, shown = one(at)
            added = answers.count(b"add: ok")
            there = shown.count(b" user ")
            is_right = status in (0, NO_MEMORY) and shown.startswith(b"show N: ") and added <= there <= added + 1
            refusing.judge(is_right, f"serve without allocation {at}: status {status}, {added} answered, {there} there")
            shutil.rmtree(folder)
        print(f"serve: {count} allocations", flush=True)


def main():
    asked = argparse.ArgumentParser(description=__doc__.split("\n", 1)[0])
    asked.add_argument("schedules", nargs="*")
    asked.add_argument("--program", default=BUILT)
    asked.add_argument("--most", type=int, default=5000)
    given = asked.parse_args()
    with tempfile.TemporaryDirectory() as folder:
        refusing = Refusing(os.path.abspath(given.program), folder)
        for path in given.schedules or sorted(glob.glob(f"{TOP}/examples/*.schedule")):
            replays(refusing, path, given.most)
        if not given.schedules:
            made = f"{folder}/made"
            os.mkdir(made)
            refusing.run(["create", "N"], folder=made)
            _, image = refusing.run(["backup", "N"], folder=made)
            identifier = "#00000001-0000-0000-0000-000000000000"
            over_a_file(refusing, ["create", "N"], b"", [], given.most)
            over_a_file(refusing, ["install", "N"], image, [], given.most)
            over_a_file(refusing, ["restore", "N", identifier], image, [], given.most)
            for word in ("show", "export", "backup"):
                over_a_file(refusing, [word, "N"], b"", [f"{made}/N.adr"], given.most)
            served(refusing, min(given.most, 400))
        print(f"{refusing.tried} tried, {refusing.wrong} wrong")
        sys.exit(1 if refusing.wrong else 0)


if __name__ == "__main__":
    main()
