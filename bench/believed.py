#!/usr/bin/env python3
"""What a reader has to believe, held against the three tables of docs/MODEL.md.

It goes from contracts along the imports, definition by definition: of each it takes the names that its own text uses,
and from there the definitions of these. The first table is what the claims on schedules reach (THEOREM), the second
what else the contract of `run` does (COMMANDS), the third what else the other claims reach (OTHERS). A type that has a
view is followed by its view, another by its fields, and a trait whole. Fields of records count with their record, and a
local name that is also that of a definition counts as that, so a little too much is found, and nothing too little. The
standard library's definitions are left out.

It prints which files a table lacks, which are listed though nothing reaches them, and how many lines are reached: those
of the definitions, without imports and comments. The status is 1 where MODEL lacks a file. `build/house.py`, which the
gate runs, asks for the same.

    bench/believed.py            # the comparison
    bench/believed.py --names    # and the definitions that are reached, file by file
"""
import re
import sys
from functools import lru_cache
from pathlib import Path

TREE = Path(__file__).resolve().parent.parent
CRATES = TREE / "crates"

# Functions, types with all their public functions, and traits.
THEOREM = [("adr_run_replay", "fn *"), ("adr_words/src/reading.rt", "fn command")]
COMMANDS = [("adr_cmd/src/top.rt", "fn run")]
OTHERS = [
    ("adr_run_world/src/world.rt", "type World"),
    ("adr_run_replica", "type Replica"),
    ("adr_controller", "type Controller"),
    ("adr_journal", "type Journal"),
    ("adr_journal/src/keeper.rt", "trait Keeper"),
    ("adr_run_keeper/src/planned.rt", "trait PlannedKeeper"),
    ("adr_run_keeper", "fn *"),
    ("adr_records/src/records.rt", "type Records"),
    ("adr_disk/src/disk.rt", "trait Disk"),
    ("adr_run_disk", "type MemDisk"),
    ("adr_image/src/encoding.rt", "fn encode"),
    ("adr_image/src/decoding.rt", "fn decode"),
    ("adr_image/src/changes.rt", "fn decode_change"),
    ("adr_image/src/bodies.rt", "fn encode_change"),
    ("adr_image/src/laws.rt", "fn images_have_one_spelling"),
    ("adr_image/src/laws.rt", "fn images_are_as_long_as_counted"),
    ("adr_image/src/laws.rt", "fn changes_have_one_spelling"),
    ("adr_image/src/laws.rt", "fn stores_stay_spelled"),
    ("adr_packet", "fn *"),
    ("adr_law_messages", "fn *"),
    ("adr_json", "fn *"),
    ("adr_frames", "fn *"),
    ("adr_session", "fn *"),
    ("adr_pull", "fn *"),
    ("adr_restore", "type Image"),
    ("adr_law_journal", "fn *"),
    ("adr_law_controller", "fn *"),
    ("adr_law_convergence", "fn *"),
    ("adr_law_headline", "fn *"),
    ("adr_law_rollback", "fn *"),
]

WORD = re.compile(r"(?<![\w.'])[A-Za-z_][\w'-]*")
HEADER = re.compile(r"(?:(?:abbrev|unfoldable|pub)\s+)*(?:(record|data)\s+([\w-]+)|(?!--|use |infix)([\w◌>=<*+-]+)\s*:)")
USE = re.compile(r"^\s*(?:pub )?(?:ghost )?use ([^;{\n]*?)(?:\{([^}]*)\})?(?: as (\w+))?;?$", re.M)
TYPE = r"^(?:pub(?:\([a-z]+\))? )?(?:struct|enum|trait|type) {}\b"


@lru_cache(None)
def code(path):
    """A file without its comments and what stands in quotes."""
    comment = "//" if path.endswith(".rt") else "--"
    left_out = re.compile(rf'"(?:[^"\\\n]|\\.)*"|{comment}.*')
    return left_out.sub(lambda m: '""' if m[0][0] == '"' else "", (CRATES / path).read_text())


@lru_cache(None)
def names_of(file, crate):
    """What a file's imports bind: a name to the path of what it names."""
    names = {}
    for path, inside, alias in USE.findall(code(file)):
        path = re.sub(r"^crate\b", crate, path.strip()).replace("::", ".").rstrip(".").removeprefix("Rattle.")
        entries = [f"{path}.{entry.strip()}" for entry in inside.split(",") if entry.strip()] or [f"{path} as {alias}" if alias else path]
        for entry in entries:
            whole, _, name = entry.partition(" as ")
            names[name or whole.rsplit(".", 1)[1]] = whole
    return names


@lru_cache(None)
def imported(file, crate):
    """What its imports bind besides: operators with their signs, and whole files of definitions."""
    names = names_of(file, crate)
    signs = [(name, name.strip("◌")) for name in names if "◌" in name]
    return signs, {name for name, whole in names.items() if whole.split(".")[1:2] == ["specs"] and whole.count(".") == 2}


@lru_cache(None)
def antt(path):
    """The definitions of a file: the text of each, and the names that a name of the file stands for."""
    texts, owner, current, is_data = {}, {}, None, False
    for line in re.sub(USE, "", code(path)).splitlines():
        header = HEADER.match(line)
        first = line.split(" ", 1)[0]
        if header:
            current = header[2] or header[3]
            owner[current] = current
            is_data = header[1] == "data"
        elif first in texts:
            current = first
        elif line.startswith(" ") and is_data and (made := re.match(r" +(?:pub )?([\w-]+) :", line)):
            owner[made[1]] = current
        if current:
            texts[current] = texts.get(current, "") + line + "\n"
    return texts, owner


@lru_cache(None)
def sources(crate):
    return sorted(str(p.relative_to(CRATES)) for p in (CRATES / crate / "src").glob("**/*.rt"))


def blocks(path, pattern):
    """The items of a file that begin so: of one line, or to the brace at the margin."""
    return [m[0] for m in re.finditer(rf"{pattern}(?:[^\n]*[;}}]$|.*?^\}})", code(path), re.M | re.S)]


def contracts(text):
    """The public functions of a text, each without its body."""
    return [m[0] for m in re.finditer(r"^( *)pub fn .*?(?:^\1\{|\{$|;$)", text, re.M | re.S)]


def ghosts(impl, crate):
    """The ghost definitions in an impl, without its functions, and without its proofs of the trait's laws."""
    text = re.sub(r"^    (?:pub )?fn .*?^    \}$", "", impl, flags=re.M | re.S)
    if trait := re.match(r"impl\b[^\n]*?\b(\w+)(?:<[^\n]*?>)? for ", impl):
        there = declared(crate, trait[1])
        for law in re.findall(r"ghost (\w+): \{ (?:\(|Is)", there[1] if there else ""):
            text = re.sub(rf"^    ghost {law} = .*?\}};$", "", text, flags=re.M | re.S)
    return text


@lru_cache(None)
def declarations(crate):
    """The types and traits of a crate, each with the files that may declare it."""
    files = {}
    for path in sources(crate):
        for name in re.findall(TYPE.format(r"(\w+)"), code(path), re.M):
            files.setdefault(name, []).append(path)
    return files


@lru_cache(None)
def declared(crate, name):
    """Where a type or trait is declared, and its text: of a type its views, or else its fields."""
    for path in declarations(crate).get(name, []):
        if found := blocks(path, TYPE.format(name)):
            views = blocks(path, rf"^impl\b[^\n]*\bModel for {name}\b")
            return path, "\n".join(views or found)
    for path in sources(crate):
        whole = names_of(path, crate).get(name, "")
        if whole.startswith("adr_") and whole.split(".")[0] != crate:
            return declared(whole.split(".")[0], whole.rsplit(".", 1)[1])
    return None


@lru_cache(None)
def is_crate(name):
    return (CRATES / name).is_dir()


@lru_cache(None)
def resolved(whole):
    """The definition that a path names: its file and its name there."""
    parts = whole.split(".")
    crate = parts[0]
    if not is_crate(crate) or "contracts" in parts or "proofs" in parts:
        return None
    if "specs" not in parts or "declared" in parts:
        name = next((p for p in parts[1:] if p[0].isupper()), None)
        found = name and declared(crate, name)
        return found and (found[0], re.search(r"\w+$", name)[0])
    path = f"{crate}/specs/{parts[2]}.antt"
    if not (CRATES / path).exists():
        # A file of a crate below, which this one passes on.
        below = re.search(rf"^pub use Rattle\.(\w+)\.specs\.{parts[2]}$", code(f"{crate}/specs/Lib.antt"), re.M)[1]
        return resolved(".".join([below, *parts[1:]]))
    return (path, antt(path)[1].get(parts[3])) if len(parts) > 3 else None


def used(path, text):
    """The definitions that a text of a file uses."""
    crate = path.split("/")[0]
    names = names_of(path, crate)
    own = antt(path)[1] if path.endswith(".antt") else {}
    text = USE.sub("", text)
    words = set(WORD.findall(text))
    for word in words:
        if word in own:
            yield path, own[word]
        elif word in names:
            yield resolved(names[word])
        elif path.endswith(".rt") and word[0].isupper() and (found := declared(crate, word)):
            yield found[0], word
    signs, files = imported(path, crate)
    for name, sign in signs:
        if sign in text:
            yield resolved(names[name])
    for name in files & words:
        yield from (resolved(f"{names[name]}.{word}") for word in re.findall(rf"\b{name}\.([\w-]+)", text))


def told_by(path, kind, name):
    """What a claim of a file says: the contract of a function, those of a type with what its impls tell, or a trait."""
    if kind == "fn":
        texts = [text for text in contracts(code(path)) if name == "*" or re.search(rf"pub fn {name}\b", text)]
    elif kind == "trait":
        texts = blocks(path, TYPE.format(name))
    else:
        impls = blocks(path, rf"^impl\b(?:<[^\n]*?>)? (?:[^\n{{]* for )?{name}\b")
        texts = [text for impl in impls for text in contracts(impl) + [ghosts(impl, path.split("/")[0])]]
    return "\n".join(texts)


def reach(roots, found):
    """Adds the definitions that these contracts reach: by file and name, their texts."""
    ahead = []
    for place, root in roots:
        told = {(path, root): told_by(path, *root.split()) for path in (sources(place) if "/" not in place else [place])}
        if not any(told.values()):
            sys.exit(f"{place} has no {root}")
        found.update(told)
        ahead += told
    while ahead:
        path, name = ahead.pop()
        for there in used(path, found[path, name]):
            if there and there[1] and there not in found:
                is_antt = there[0].endswith(".antt")
                found[there] = antt(there[0])[0][there[1]] if is_antt else declared(there[0].split("/")[0], there[1])[1]
                ahead.append(there)


def listed():
    """The files of each table of docs/MODEL.md, in the order of its tables."""
    part = (TREE / "docs/MODEL.md").read_text().split("## What has to be believed")[1].split("\n## ")[0]
    tables = []
    for table in re.findall(r"(?:^\|.*\n)+", part, re.M):
        files = []
        for row in table.splitlines()[2:]:
            for group in row.split("|")[2].split(";"):
                base = ""
                for name in re.findall(r"`([^`]*)`", re.sub(r"\([^)]*\)", "", group)):
                    if name.endswith("/"):
                        base = name
                    else:
                        name = base + name
                        files.append(name + ("" if name.endswith(".rt") else ".antt"))
        tables.append(set(files))
    return tables


def parts():
    """Of each table: its title, the definitions that it is there for, its files, and those of the tables before."""
    found, before = {}, set()
    titles = (
        ("What the theorem says", THEOREM),
        ("What the commands say beyond that", COMMANDS),
        ("What the other claims say beyond that", OTHERS),
    )
    for (title, roots), table in zip(titles, listed(), strict=True):
        seen = set(found)
        reach(roots, found)
        # What begins a search is what is claimed, and no definition.
        yield title, {d: t for d, t in found.items() if " " not in d[1] and d not in seen}, table, before
        before = before | table


def lacks(there, table, before):
    """The files of these definitions that the table doesn't have, nor one before it."""
    return sorted({path for path, _ in there} - table - before)


def lacking():
    """A line for each file that a table of docs/MODEL.md lacks."""
    return [
        f"docs/MODEL.md, what has to be believed: {path} is lacking ({title[:1].lower()}{title[1:]})"
        for title, there, table, before in parts()
        for path in lacks(there, table, before)
    ]


def tell(title, there, table, before):
    """Tells what a table lacks of these definitions, and what of it none of them needs."""
    files = {}
    for (path, name), text in sorted(there.items()):
        files.setdefault(path, []).append((name, sum(1 for line in USE.sub("", text).splitlines() if line.strip())))
    lines = sum(n for told in files.values() for _, n in told)
    own = len(set(files) - before)
    print(f"{title}: {lines} lines of {len(there)} definitions in {len(files)} files, {own} of them its own")
    for path, told in files.items():
        if "--names" in sys.argv:
            print(f"  {path} ({sum(n for _, n in told)}): {', '.join(name for name, _ in told)}")
    for path in lacks(there, table, before):
        print(f"  MODEL lacks {path}")
    for path in sorted(table - set(files)):
        print(f"  nothing reaches {path}")


def main():
    some = False
    for part in parts():
        tell(*part)
        some = some or bool(lacks(*part[1:]))
    return some


if __name__ == "__main__":
    sys.exit(main())
