#!/usr/bin/env python3
"""uncited.py, from anywhere: the definitions and lemmas of specs/ and proofs/ that no file cites, one a line; status 1 where there is one.

A name counts as cited where it stands outside of its own definition: in its file, or in one that names its module. Not asked for are fields
and constructors, answers and invariants, whose names are those of goals, files of examples, lemmas that docs/LEMMAS.md offers to authors,
and what a comment above calls a law: it stands for itself."""
import glob
import os
import re
import sys

NAME = r"[^\s(){}\[\].;,:λ`\"]+"
HEAD = re.compile(rf"^(\s*)(?:pub |abbrev |unfoldable |data |record )*({NAME}) (?:\(.*|\{{.*)?:(?: |$)")
GIVEN = {"Answers.antt", "Invariants.antt", "Proof.antt", "Lib.antt"}


def tokens(text):
    return set(re.findall(NAME, re.sub(r"--.*", "", text)))


def blocks(path):
    """The definitions of a file: each name with its lines, from its signature to the last line of its last equation."""
    with open(path) as file:
        lines = file.read().split("\n")
    spans = []
    record = None
    for at, line in enumerate(lines):
        if record is not None and line.strip() and len(line) - len(line.lstrip()) <= record:
            record = None
        head = HEAD.match(line)
        if head and head.group(2) != "module" and record is None and not lines[at - 1].lstrip().startswith("-- a law"):
            spans.append((head.group(2), len(head.group(1)), at))
        if re.match(r"\s*(pub )?(record|data) ", line):
            record = len(line) - len(line.lstrip())
    for name, indent, start in spans:
        end = start + 1
        while end < len(lines):
            line = lines[end]
            here = len(line) - len(line.lstrip())
            own = re.match(rf"\s*{re.escape(name)}( |$)", line)
            if line.strip() and here <= indent and not own and not line.lstrip().startswith("unfolding"):
                break
            end += 1
        yield name, lines[start:end], lines[:start] + lines[end:]


def main():
    top = os.path.join(os.path.dirname(os.path.abspath(__file__)), "..")
    with open(os.path.join(top, "docs", "LEMMAS.md")) as file:
        offered = set(re.findall(r"`([^`]+)`", file.read()))
    sources = {}
    for pattern in ("crates/*/src/**/*.rt", "crates/*/specs/**/*.antt", "crates/*/proofs/**/*.antt"):
        for path in glob.glob(os.path.join(top, pattern), recursive=True):
            with open(path) as file:
                text = file.read()
            sources[path] = (text, tokens(text.replace("::", " ").replace(".", " ")))
    uncited = []
    for path in sorted(sources):
        base = os.path.basename(path)
        if not path.endswith(".antt") or base in GIVEN or base.endswith("Examples.antt"):
            continue
        module = base[: -len(".antt")]
        naming = [words for other, (text, words) in sources.items() if other != path and module in words]
        for name, own, rest in blocks(path):
            if name in offered or any(name in words for words in naming):
                continue
            if name not in tokens("\n".join(rest).replace(".", " ")):
                uncited.append(f"{os.path.relpath(path, top)}: {name}")
    print("\n".join(uncited), end="\n" if uncited else "")
    sys.exit(1 if uncited else 0)


main()
