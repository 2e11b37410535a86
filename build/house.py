#!/usr/bin/env python3
"""Whether the house stands as it is drawn: what has no prefix is the product, and no crate of it stands on the rehearsal.

A crate `adr_run_*` is there because a schedule is run, one called `adr_test_*` has tests, and `adr_law_*` are laws. No
crate but these, and the program itself, stands on a crate of the first two kinds, and none of a run stands on tests.
The groups of `crates.txt` are those of "The rooms" in `docs/ARCHITECTURE.md`, with the same crates in the same order. No
crate stands on one of a later group. `docs/house.svg` is the picture of them, which `build/house.py --draw` makes.
The rooms that have an `OUTLINE.md` are those to which the table of `docs/PROOFS.md` leads. What has to be believed is
what the tables of `docs/MODEL.md` list (`bench/believed.py`). A line of prose has at most 120 columns.
It writes what is wrong, a line each, and ends with 1 if something is.
"""
import glob
import os
import re
import sys

from drawing import picture

TOP = os.path.join(os.path.dirname(os.path.abspath(__file__)), "..")
PROGRAM = ("adr_cmd", "adrep")
COLUMNS = 120
PICTURE = "docs/house.svg"


def groups_of_crates(text):
    """The groups of crates.txt: for each its heading, and its crates with what they stand on."""
    groups = []
    for line in text.splitlines():
        if line.startswith("# "):
            groups.append((line[2:], []))
        elif line:
            name, below = line.split(":", 1)
            groups[-1][1].append((name, below.split()))
    return [group for group in groups if group[1]]


def groups_of_page(text):
    """The groups of the page: for each its heading, and the crates that the first cells of its table name."""
    rooms = text.split("\n## The rooms\n", 1)[1].split("\n## ", 1)[0]
    groups = []
    for line in rooms.splitlines():
        heading = re.match(r"### (.*)", line)
        if heading:
            groups.append((heading[1], []))
        elif line.startswith("| `") and groups:
            groups[-1][1].extend(re.findall(r"`(\w+)`", line.split("|")[1]))
    return groups


def kind(name):
    """`run`, `test`, `program`, or `product` for any other, laws among them."""
    if name in PROGRAM:
        return "program"
    prefix = re.match(r"adr_(run|test)_", name)
    return prefix[1] if prefix else "product"


def wrong_edges(groups):
    """A line for each crate that stands where it may not."""
    may = {"product": ("product",), "run": ("product", "run"), "program": ("product", "run", "program")}
    return [
        f"{name} ({kind(name)}) stands on {below} ({kind(below)})"
        for _, crates in groups
        for name, belows in crates
        for below in belows
        if below.startswith("adr") and kind(below) not in may.get(kind(name), ("product", "run", "program", "test"))
    ]


def upward_edges(groups):
    """A line for each crate that stands on one of a later group."""
    place = {name: at for at, (_, crates) in enumerate(groups) for name, _ in crates}
    return [
        f"{name} stands on {below}, which is in a later group of crates.txt"
        for at, (_, crates) in enumerate(groups)
        for name, belows in crates
        for below in belows
        if place.get(below, at) > at
    ]


def wrong_picture(groups):
    """A line where the picture isn't that of the groups."""
    path = os.path.join(TOP, PICTURE)
    is_drawn = os.path.exists(path) and read(PICTURE) == picture(groups)
    return [] if is_drawn else [f"{PICTURE} isn't the picture of crates.txt: build/house.py --draw"]


def differences(groups, page):
    """A line for each group that the page has otherwise."""
    named = [(heading, [name for name, _ in crates]) for heading, crates in groups]
    if [heading for heading, _ in named] != [heading for heading, _ in page]:
        return [f"the groups of crates.txt are {[h for h, _ in named]}, those of the page {[h for h, _ in page]}"]
    lines = []
    for (heading, mine), (_, theirs) in zip(named, page):
        lines += [f"docs/ARCHITECTURE.md, {heading}: {name} is lacking" for name in mine if name not in theirs]
        lines += [f"docs/ARCHITECTURE.md, {heading}: {name} isn't in crates.txt there" for name in theirs if name not in mine]
        if sorted(mine) == sorted(theirs) and mine != theirs:
            lines.append(f"docs/ARCHITECTURE.md, {heading}: crates.txt has the order {' '.join(mine)}")
    return lines


def read(path):
    """The text of a file of the repository."""
    with open(os.path.join(TOP, path), encoding="utf-8") as file:
        return file.read()


def pages():
    """The pages of the repository, those beside the rooms among them."""
    patterns = ("README.md", "CONTRIBUTING.md", "docs/*.md", "crates/*/OUTLINE.md")
    return sorted(os.path.relpath(path, TOP) for pattern in patterns for path in glob.glob(os.path.join(TOP, pattern)))


def wrong_outlines(names):
    """A line for each outline that `docs/PROOFS.md` doesn't lead to, or that isn't there, and for a room without a row."""
    table = read("docs/PROOFS.md").split("\n## Room by room\n", 1)[1]
    led_to = set(re.findall(r"\(\.\./(crates/\w+/OUTLINE\.md)\)", table))
    there = {page for page in pages() if page.endswith("/OUTLINE.md")}
    rooms = set(re.findall(r"`(adr\w*)`", " ".join(line.split("|")[1] for line in table.splitlines() if line.startswith("|"))))
    return (
        [f"docs/PROOFS.md, room by room: {page} isn't named" for page in sorted(there - led_to)]
        + [f"docs/PROOFS.md, room by room: there is no {page}" for page in sorted(led_to - there)]
        + [f"docs/PROOFS.md, room by room: there is no room {room}" for room in sorted(rooms - names)]
    )


def wide_lines():
    """A line for each line of prose that isn't wrapped; rows of tables and code may be longer."""
    wide = []
    for page in pages():
        is_code = False
        for number, line in enumerate(read(page).splitlines(), 1):
            is_code ^= line.lstrip().startswith("```")
            if len(line) > COLUMNS and not is_code and not line.startswith("|"):
                wide.append(f"{page}:{number}: {len(line)} columns, and prose has at most {COLUMNS}")
    return wide


def main():
    sys.path.insert(0, os.path.join(TOP, "bench"))
    sys.dont_write_bytecode = True
    from believed import lacking

    groups = groups_of_crates(read("crates.txt"))
    names = {name for _, crates in groups for name, _ in crates}
    if sys.argv[1:] == ["--draw"]:
        with open(os.path.join(TOP, PICTURE), "w", encoding="utf-8") as file:
            file.write(picture(groups))
    wrong = wrong_edges(groups) + upward_edges(groups) + wrong_picture(groups) + differences(groups, groups_of_page(read("docs/ARCHITECTURE.md")))
    wrong += wrong_outlines(names) + lacking() + wide_lines()
    for line in wrong:
        print(line)
    return 1 if wrong else 0


if __name__ == "__main__":
    sys.exit(main())
