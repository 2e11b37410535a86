#!/usr/bin/env python3
"""Counts the instructions of each single step of a replay, for one unit of it, beside a target.

Usage: bench/steps.py [--size N] [--before PROGRAM] [PROGRAM]   (the built program; 2,000 units, and twice as many)

A step's count is that of the schedule that has it less that of the same schedule without it, by valgrind, divided by the
number of units: it is the same from run to run, whatever else the machine does. The growth is the step's count of all units
at twice the size beside that at the size: 2 is linear. It ends with 1 where a step is more than a twentieth above its target,
or grows by more than 2.15.
"""
import argparse
import sys

from replay import BUILT, controllers, counted, guid, user, users


def both(size):
    """An office with so many users, and an empty one."""
    return controllers(["A", "B"]) + users("A", range(size))


def group():
    return ['add A #10 group #1 "All" groupType=2 sAMAccountName="all"']


def deletes(size):
    return [f"delete A {guid(number)}" for number in range(size)]


def links(size):
    return [f"link A #10 member {guid(number)}" for number in range(size)]


def ring(rounds):
    """So many rounds of a ring of 64, of which all but the first ones bring nothing."""
    names = [f"C{at}" for at in range(64)]
    return controllers(names) + [user(name, at) for at, name in enumerate(names)] + [f"ring {rounds} 1000 {' '.join(names)}"]


CYCLE = ["cycle B A 1000"]

# Each step with its name, the schedule with it, the one without it, and how many instructions a unit should take at most.
STEPS = [
    ("add line", lambda n: both(n), lambda n: controllers(["A", "B"]), None),
    ("modify line", lambda n: both(n) + [f'modify A {guid(at)} description="{at}, again"' for at in range(n)], both, None),
    ("delete line", lambda n: both(n) + deletes(n), both, 20_000),
    ("link line", lambda n: both(n) + group() + links(n), lambda n: both(n) + group(), 19_000),
    ("object in a cycle", lambda n: both(n) + CYCLE, both, 36_000),
    ("dead object in a cycle", lambda n: both(n) + deletes(n) + CYCLE, lambda n: both(n) + deletes(n), 16_000),
    (
        "link in a cycle",
        lambda n: both(n) + group() + CYCLE + links(n) + CYCLE,
        lambda n: both(n) + group() + CYCLE + links(n),
        16_000,
    ),
    ("object of a start", lambda n: both(n) + ["stop A", "start A"], both, 26_000),
    ("entry of a show", lambda n: both(n) + ["show A"], both, None),
]


def ring_pull(program):
    """Instructions of an empty pull where each vector has 64 cursors: twenty rounds of a ring of 64 that bring nothing."""
    return (counted(ring(120), program) - counted(ring(100), program)) * 1e6 / (20 * 64)


def step(with_it, without, size, program):
    return (counted(with_it(size), program) - counted(without(size), program)) * 1e6 / size


def main():
    asked = argparse.ArgumentParser(description=__doc__.split("\n", 1)[0])
    asked.add_argument("program", nargs="?", default=BUILT)
    asked.add_argument("--size", type=int, default=2000)
    asked.add_argument("--before", help="a program that was built before, whose counts stand in a column of their own")
    given = asked.parse_args()
    print(f"| step | a unit, n = {given.size} | growth | target | before |")
    print("|---|---|---|---|---|")
    missed = 0
    for name, with_it, without, target in STEPS:
        unit = step(with_it, without, given.size, given.program)
        growth = 2 * step(with_it, without, 2 * given.size, given.program) / unit
        before = f"{step(with_it, without, given.size, given.before):,.0f}" if given.before else ""
        missed += (target is not None and unit > 1.05 * target) or growth > 2.15
        print(f"| {name} | {unit:,.0f} | {growth:.2f} | {target and f'{target:,}' or ''} | {before} |", flush=True)
    unit = ring_pull(given.program)
    before = f"{ring_pull(given.before):,.0f}" if given.before else ""
    missed += unit > 1.05 * 35_000
    print(f"| empty pull, vectors of 64 | {unit:,.0f} | | 35,000 | {before} |")
    sys.exit(1 if missed else 0)


if __name__ == "__main__":
    main()
