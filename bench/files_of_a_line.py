#!/usr/bin/env python3
"""In how many files the line of a word is named: its event, its call, its write or its report, and its verb.

A file names it where it has the variant of one of these types: as `Event::Collect`, by the name under which it imported the
variants (`events.Collect`), or alone where it imported the variant itself. So this counts what has to be looked at when such
a line comes, changes or goes, without what does its work.

    bench/files_of_a_line.py                     # a few words
    bench/files_of_a_line.py collect marks       # these
    bench/files_of_a_line.py --files collect     # and the files
    bench/files_of_a_line.py --tree DIR collect  # of another checkout
"""
import re
import sys
from pathlib import Path

WORDS = ["add", "collect", "upgrade", "serve", "deliver", "pull", "backup", "restore", "start", "marks", "meta"]
TYPES = ("Event", "Call", "Coming", "Use", "Made", "Exchange", "Meeting", "Report", "Write", "Verb")
# The files that say what there is.
SAID = {"Directory": "show", "StopAfter": "stop"}


def variant_of(word):
    return [word.capitalize()] + [variant for variant, said in SAID.items() if said == word]


def code_of(path):
    """The text of a file without comments and strings."""
    text = path.read_text()
    if path.suffix == ".rt":
        text = re.sub(r"//[^\n]*", "", text)
    else:
        text = re.sub(r"(?<!\S)--[^\n]*", "", text)
    return re.sub(r'"(?:[^"\\\n]|\\.)*"', '""', text)


def names_it(text, variant):
    kinds = "|".join(TYPES)
    if re.search(rf"\b(?:{kinds})(?:::|\.){variant}\b", text):
        return True
    imports = r"declared\.(?:\w+)\.(?:%s)\.TheVariants" % kinds
    body = re.sub(r"^(?:ghost )?use [^\n]*", "", text, flags=re.M)
    for alias in re.findall(imports + r" as (\w+)", text):
        if re.search(rf"(?<![\w.]){alias}\.{variant}\b", body):
            return True
    for names in re.findall(imports + r"\.\{([^}]*)\}", text):
        for name in (part.strip() for part in names.split(",")):
            said = name.split(" as ")
            if said[0] == variant and re.search(rf"(?<![\w.:]){said[-1]}\b", body):
                return True
    return False


def files_of(tree, word):
    found = []
    for path in sorted((tree / "crates").glob("*/*/**/*")):
        if path.suffix not in (".rt", ".antt") or path.relative_to(tree / "crates").parts[1] == "out":
            continue
        text = code_of(path)
        if any(names_it(text, variant) for variant in variant_of(word)):
            found.append(path.relative_to(tree / "crates"))
    return found


def main():
    arguments = sys.argv[1:]
    tree = Path(__file__).resolve().parent.parent
    if "--tree" in arguments:
        at = arguments.index("--tree")
        tree = Path(arguments[at + 1])
        del arguments[at : at + 2]
    listed = "--files" in arguments
    for word in [argument for argument in arguments if argument != "--files"] or WORDS:
        found = files_of(tree, word)
        print(f"{word}: {len(found)}")
        if listed:
            for path in found:
                print(f"  {path}")


if __name__ == "__main__":
    main()
