#!/usr/bin/env python3
"""Writes the kinds of tokens and nodes for C, Rust and Python, from the crates' constants.

    bindings/kinds.py            writes the three files
    bindings/kinds.py --check    fails where one of them differs
"""
import re
import sys
import textwrap
from pathlib import Path

TOP = Path(__file__).resolve().parent.parent
CONSTANT = re.compile(r"pub const ([A-Z_0-9]+): SyntaxKind = SyntaxKind\((\d+)\);")


def kinds():
    """The kinds by number, each with its name."""
    sources = [TOP / "crates/squawk_kinds/src/syntax_kind.rt", *sorted((TOP / "crates/sql_words/src/kinds").glob("*.rt"))]
    found = {}
    for source in sources:
        for name, number in CONSTANT.findall(source.read_text()):
            if found.setdefault(int(number), name) != name:
                sys.exit(f"kinds.py: {number} is {found[int(number)]} and {name}")
    return sorted(found.items())


def c_header(all_kinds):
    lines = [
        "/* caliperdock_kinds.h - the kinds of tokens and nodes. Written by bindings/kinds.py.",
        " *",
        " * Of SQL: 200 to 638 are keywords, those from 700 on nodes. A parser of its own events may give these",
        " * numbers another sense. */",
        "#ifndef CALIPERDOCK_KINDS_H",
        "#define CALIPERDOCK_KINDS_H",
        "",
        "enum caliperdock_kind {",
        ",\n".join(f"    CALIPERDOCK_KIND_{name} = {number}" for number, name in all_kinds),
        "};",
        "",
        "#endif",
    ]
    return "\n".join(lines) + "\n"


def rust_enum(all_kinds):
    lines = [
        "//! The kinds of tokens and nodes. Written by `bindings/kinds.py`.",
        "",
        "/// The kind of a token or of a node.",
        "///",
        "/// A number that has no name here, as a parser of its own events may use, is `Other`.",
        "#[allow(non_camel_case_types)]",
        "#[derive(Clone, Copy, Debug, PartialEq, Eq, PartialOrd, Ord, Hash)]",
        "#[non_exhaustive]",
        "pub enum SyntaxKind {",
        *[f"    {name}," for _, name in all_kinds],
        "    Other(u16),",
        "}",
        "",
        "impl From<u16> for SyntaxKind {",
        "    fn from(number: u16) -> SyntaxKind {",
        "        match number {",
        *[f"            {number} => SyntaxKind::{name}," for number, name in all_kinds],
        "            _ => SyntaxKind::Other(number),",
        "        }",
        "    }",
        "}",
        "",
        "impl From<SyntaxKind> for u16 {",
        "    fn from(kind: SyntaxKind) -> u16 {",
        "        match kind {",
        *[f"            SyntaxKind::{name} => {number}," for number, name in all_kinds],
        "            SyntaxKind::Other(number) => number,",
        "        }",
        "    }",
        "}",
    ]
    return "\n".join(lines) + "\n"


def python_table(all_kinds):
    names = ", ".join(f'"{name}"' for _, name in all_kinds)
    lines = [
        '"""The kinds of tokens and nodes. Written by bindings/kinds.py."""',
        "from typing import Dict, Literal",
        "",
        "# The name of a kind. A type checker tells a name that is none.",
        "SyntaxKind = Literal[",
        *textwrap.wrap(names, 118, initial_indent="    ", subsequent_indent="    "),
        "]",
        "",
        "# The names by number.",
        "KINDS: Dict[int, SyntaxKind] = {",
        *[f'    {number}: "{name}",' for number, name in all_kinds],
        "}",
    ]
    return "\n".join(lines) + "\n"


FILES = {
    "c/caliperdock_kinds.h": c_header,
    "rust/src/syntax_kind.rs": rust_enum,
    "python/caliperdock/_kinds.py": python_table,
}


def main():
    all_kinds = kinds()
    for name, written in FILES.items():
        path = TOP / "bindings" / name
        text = written(all_kinds)
        if sys.argv[1:] == ["--check"]:
            if path.read_text() != text:
                sys.exit(f"kinds.py: {name} isn't what the crates' constants give")
        else:
            path.write_text(text)


main()
