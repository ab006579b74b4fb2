#!/usr/bin/env python3
"""Writes the texts of the corpus, with their trees by the program, for the tests of each language.

    bindings/corpus.py PROGRAM FOLDER    PROGRAM is a built sql_tree

Of each text the folder gets N.sql, its tree as the program prints it as N.tree, and the same in numbers as N.plain: a line
`DEPTH KIND START END` for each node and token, and a line `error POSITION MESSAGE` for each error in the tree."""
import json
import re
import subprocess
import sys
from pathlib import Path

TOP = Path(__file__).resolve().parent.parent
ELEMENT = re.compile(r"( *)([A-Z_0-9]+)@(\d+)\.\.(\d+)")
ERROR = re.compile(r" *error@(\d+) (.*)")


def texts():
    """The texts of the corpus' cases, and those of the examples."""
    found = {}
    for file in sorted((TOP / "crates/corpus/data").glob("*.txt")):
        lines = None
        for line in file.read_text().split("\n"):
            part = re.match(r"(text|more) \|(.*)\|", line)
            if part and part[1] == "more" and lines:
                lines.append(part[2])
            else:
                if lines:
                    found["\n".join(lines)] = None
                lines = [part[2]] if part else None
    for file in sorted((TOP / "examples").glob("*.sql")):
        found[file.read_text()] = None
    return list(found)


def plain(tree, numbers):
    elements, errors = [], []
    for line in tree.split("\n"):
        if error := ERROR.fullmatch(line):
            errors.append(f"error {error[1]} {json.loads(error[2])}")
        elif element := ELEMENT.match(line):
            indent, name, start, end = element.groups()
            elements.append(f"{len(indent) // 2} {numbers[name]} {start} {end}")
    return "".join(line + "\n" for line in elements + errors)


def main():
    if len(sys.argv) != 3:
        sys.exit(__doc__)
    program, folder = sys.argv[1], Path(sys.argv[2])
    folder.mkdir(parents=True, exist_ok=True)
    header = (TOP / "bindings/c/caliperdock_kinds.h").read_text()
    numbers = {name: int(number) for name, number in re.findall(r"CALIPERDOCK_KIND_([A-Z_0-9]+) = (\d+)", header)}
    for number, text in enumerate(texts()):
        file = folder / f"{number}.sql"
        file.write_text(text, newline="")
        done = subprocess.run([program, file], capture_output=True)
        if done.returncode not in (0, 1):
            sys.exit(f"{program} {file}: status {done.returncode}")
        tree = done.stdout.decode().rstrip("\n")
        file.with_suffix(".tree").write_text(tree, newline="")
        file.with_suffix(".plain").write_text(plain(tree, numbers), newline="")
    print(f"corpus.py: {number + 1} texts")


main()
