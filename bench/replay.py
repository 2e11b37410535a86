#!/usr/bin/env python3
"""Replays generated schedules at a size and at twice the size, and prints time, ratio and memory.

Usage: bench/replay.py [--count] [--before PROGRAM] [WORD..]   (only the works whose names have one of these words; else all)

The time is that of the processor. That of a work is the time of its whole schedule less that of the lines before it, each
the least of three runs. With --count the instructions are counted (by valgrind) at a tenth of the sizes, in place of time
and memory: a count is the same from run to run, whatever else the machine does. With --before a program that was built
earlier replays the same works in turn with this one, at the smaller size, and the last column is what part of its time,
or of its instructions, this one takes.
"""
import argparse
import os
import re
import subprocess
import sys
import tempfile

TOP = os.path.dirname(os.path.dirname(os.path.abspath(__file__)))
BUILT = f"{TOP}/crates/adrep/out/adrep"
RUNS = 3


def controllers(names):
    """Lines that make controllers, each with identifiers of its own."""
    made = [f"controller {name} #{0xA0000000 + 2 * at:x} #{0xA0000001 + 2 * at:x}" for at, name in enumerate(names)]
    return made + ["time 1000"]


def guid(number):
    """The identifiers of objects, not in the order in which they are added."""
    return f"#{0x1000 + number * 2654435761 % 0x8FFFEFFF:x}"


def user(controller, number, parent="#1"):
    return f'add {controller} {guid(number)} user {parent} "person {number}" sAMAccountName="p{number}"'


def users(controller, numbers, parent="#1"):
    return [user(controller, number, parent) for number in numbers]


def adds(size):
    return controllers(["A"]), users("A", range(size))


def cycles_of(most):
    """All that one controller holds, to a new one, with at most so many objects in a reply."""
    return lambda size: (controllers(["A", "B"]) + users("A", range(size)), [f"cycle B A {most}"])


def both_ways(size):
    """Half of the adds at each of two controllers, and a cycle each way."""
    lines = [user("AB"[number % 2], number) for number in range(size)]
    return controllers(["A", "B"]), lines + ["cycle B A 1000", "cycle A B 1000"]


def modifies(size):
    before = controllers(["A"]) + users("A", range(size))
    return before, [f'modify A {guid(number)} description="person {number}, again"' for number in range(size)]


def deletes(size):
    before = controllers(["A", "B"]) + users("A", range(size)) + ["cycle B A 1000"]
    return before, [f"delete A {guid(number)}" for number in range(size)] + ["cycle B A 1000"]


def one_group(size):
    """A group that gets its members one by one, and a cycle."""
    before = controllers(["A", "B"]) + users("A", range(size))
    before += [f'add A #10 group #1 "All" groupType=2 sAMAccountName="all"']
    return before, [f"link A #10 member {guid(number)}" for number in range(size)] + ["cycle B A 1000"]


def group_deleted(size):
    """The death of a group with all its links, and a cycle."""
    before, links = one_group(size)
    return before + links, ["delete A #10", "cycle B A 1000"]


def deep_chain(size):
    """Containers one in the other, and moves of the last of them between the two above it."""
    before = controllers(["A"])
    parent = "#1"
    for number in range(size):
        before.append(f'add A {guid(number)} container {parent} "box {number}"')
        parent = guid(number)
    foot, above, higher = guid(size - 1), guid(size - 2), guid(size - 3)
    return before, [f'rename A {foot} {(above, higher)[turn % 2]} "box {size} {turn}"' for turn in range(20)]


def units_moved(size):
    """Objects spread over fifty units, and half of them moved to the next unit."""
    before = controllers(["A", "B"])
    units = [f"#{0x100 + unit:x}" for unit in range(50)]
    before += [f'add A {units[unit]} organizationalUnit #1 "unit {unit}"' for unit in range(50)]
    before += [user("A", number, units[number % 50]) for number in range(size)] + ["cycle B A 1000"]
    moves = [f'rename A {guid(number)} {units[(number + 1) % 50]} "person {number}"' for number in range(0, size, 2)]
    return before, moves + ["cycle B A 1000"]


def ring(size):
    """Adds spread over 64 controllers, and each pulls everything from the one before it, round the ring once."""
    names = [f"C{at}" for at in range(64)]
    lines = [user(names[number % 64], number) for number in range(size)]
    lines += [f"cycle {names[(at + 1) % 64]} {names[at]} 1000" for at in range(64)]
    return controllers(names), lines


def ring_line(size):
    """The same by one `ring` line, which then compares all directories and vectors."""
    names = [f"C{at}" for at in range(64)]
    return controllers(names), [user(names[number % 64], number) for number in range(size)] + [f"ring 1 1000 {' '.join(names)}"]


def shows(size):
    before = controllers(["A"]) + users("A", range(size))
    return before, ["show A"] * 5


def few_objects(size):
    """Writes of ten objects, so that the log is written anew again and again."""
    before = controllers(["A"]) + [f'add A #{0x10 + number:x} container #1 "box {number}"' for number in range(10)]
    return before, [f'modify A #{0x10 + turn % 10:x} description="turn {turn}"' for turn in range(size)]


def start(size):
    before = controllers(["A"]) + users("A", range(size))
    return before, ["stop A", "start A"]


# Each work with its name and the smaller of its two sizes.
WORKS = [
    ("adds at one controller", adds, 20000),
    ("cycle, MAX 1", cycles_of(1), 10000),
    ("cycle, MAX 50", cycles_of(50), 20000),
    ("cycle, MAX 1000", cycles_of(1000), 20000),
    ("adds on both sides, cycles both ways", both_ways, 20000),
    ("modifies of all", modifies, 20000),
    ("modifies of ten objects", few_objects, 50000),
    ("deletes of all, and the cycle", deletes, 10000),
    ("members of one group, and the cycle", one_group, 20000),
    ("death of the group, and the cycle", group_deleted, 20000),
    ("deep chain, moves at its foot", deep_chain, 20000),
    ("fifty units, half moved", units_moved, 20000),
    ("ring of 64 controllers", ring, 2000),
    ("ring of 64 controllers, by one line", ring_line, 2000),
    ("five shows", shows, 10000),
    ("start behind as many adds", start, 20000),
]


def one_run(program, given):
    """Seconds of the processor and MiB of one replay."""
    given.seek(0)
    with tempfile.TemporaryFile() as written:
        replay = subprocess.Popen([program, "replay"], stdin=given, stdout=written)
        _, status, usage = os.wait4(replay.pid, 0)
        written.seek(0)
        refused = [line for line in written if b": refused" in line][:1]
    if status != 0 or refused:
        sys.exit(f"the replay ended with status {status}, {refused}")
    return usage.ru_utime + usage.ru_stime, usage.ru_maxrss / 1024


def measured(lines, programs):
    """For each program the seconds of the processor and the MiB of a replay of these lines, the least and the most of some runs in turn."""
    runs = [[] for _ in programs]
    with tempfile.TemporaryFile() as given:
        given.write("\n".join(lines).encode() + b"\n")
        for _ in range(RUNS):
            for program, of_it in zip(programs, runs):
                of_it.append(one_run(program, given))
    return [(min(seconds for seconds, _ in of_it), max(memory for _, memory in of_it)) for of_it in runs]


def work(made, size, programs):
    """For each program the seconds and MiB of a work at a size, without the lines before it."""
    before, lines = made(size)
    alone, whole = measured(before, programs), measured(before + lines, programs)
    return [(seconds - less, memory) for (less, _), (seconds, memory) in zip(alone, whole)]


def counted(lines, program):
    """Millions of instructions of one replay of these lines."""
    tool = ["valgrind", "--tool=cachegrind", "--cache-sim=no", "--cachegrind-out-file=/dev/null"]
    text = "\n".join(lines).encode() + b"\n"
    run = subprocess.run(tool + [program, "replay"], input=text, capture_output=True, check=True)
    refs = re.search(rb"I +refs: +([0-9,]+)", run.stderr)
    return int(refs.group(1).replace(b",", b"")) / 1e6


def count(made, size, program=BUILT):
    """Millions of instructions of a work at a size, without the lines before it."""
    before, lines = made(size)
    return counted(before + lines, program) - counted(before, program)


def whole_run(name, lines):
    ((seconds, memory),) = measured(lines, [BUILT])
    print(f"{name:40} {seconds:9.2f} s {memory:7.0f} MiB", flush=True)


def count_all(works, earlier):
    print(f"{'work':40} {'n':>7} {'millions':>9} {'at 2n':>9} {'ratio':>6}" + (f" {'of before':>9}" if earlier else ""))
    for name, made, size in works:
        size //= 10
        once, twice = count(made, size), count(made, 2 * size)
        part = f" {once / count(made, size, earlier):9.2f}" if earlier else ""
        print(f"{name:40} {size:7} {once:9.1f} {twice:9.1f} {twice / once:6.2f}{part}", flush=True)


def time_all(works, earlier):
    print(f"{'work':40} {'n':>7} {'seconds':>9} {'at 2n':>9} {'ratio':>6} {'MiB':>6} {'at 2n':>6}" + (f" {'of before':>9}" if earlier else ""))
    for name, made, size in works:
        (once, small), *was = work(made, size, [BUILT, *earlier])
        ((twice, large),) = work(made, 2 * size, [BUILT])
        part = "".join(f" {once / seconds:9.2f}" for seconds, _ in was)
        print(f"{name:40} {size:7} {once:9.3f} {twice:9.3f} {twice / once:6.2f} {small:6.0f} {large:6.0f}{part}", flush=True)


def main():
    words = argparse.ArgumentParser()
    words.add_argument("--count", action="store_true")
    words.add_argument("--before", metavar="PROGRAM")
    words.add_argument("names", nargs="*")
    asked = words.parse_args()
    subprocess.run([f"{TOP}/adrep", "build"], check=True)
    works = [it for it in WORKS if not asked.names or any(word in it[0] for word in asked.names)]
    if asked.count:
        count_all(works, asked.before)
        return
    time_all(works, [asked.before] if asked.before else [])
    if not asked.names:
        before, lines = cycles_of(1000)(100000)
        whole_run("100,000 adds, a cycle and a show", before + lines + ["show B"])
        ((seconds, _),) = work(one_group, 20000, [BUILT])
        print(f"{'20,000 members of one group':40} {seconds:9.2f} s")


if __name__ == "__main__":
    main()
