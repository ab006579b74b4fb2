#!/usr/bin/env python3
"""Writes src/tables/, by which keywords are looked up, from the crate's words and kinds.

A proof tests that the tables are those of the words, so wrong ones are refused. Write them again where a word or the
number of its kind changes, or the hash of `squawk_keywords`.
"""
import re
import textwrap
from pathlib import Path

HERE = Path(__file__).resolve().parent
CONSTANT = re.compile(r"pub const (\w+): SyntaxKind =\s+SyntaxKind(?:\((\d+)\)|::(\w+));")
BUCKETS, LONGEST, NOT_KEPT = 2048, 16, 65535


def keywords():
    """The keywords, each with its kind and its category."""
    numbers = {}
    for source in [HERE.parent / "squawk_kinds/src/syntax_kind.rt", *sorted((HERE / "src/kinds").glob("*.rt"))]:
        for name, number, same in CONSTANT.findall(source.read_text()):
            numbers[name] = int(number) if number else numbers[same]
    rows = re.findall(r'"(\w+)" (\w+_KW) (\w+)', (HERE / "src/keywords.rt").read_text())
    return [(word, numbers[kind], category) for word, kind, category in rows]


def contextual_keywords():
    rows = re.findall(r'\("(\w+)", (\d+)\)', (HERE / "src/contextual.rt").read_text())
    return [(word, int(kind)) for word, kind in rows]


def key(word):
    """The first four bytes, the next, the next, and the last four; of a shorter word three bytes, maybe one twice."""
    text = word.encode()
    if len(text) < 4:
        return int.from_bytes([text[0], text[len(text) // 2], text[-1]], "little"), 0
    last = len(text) - 4
    parts = [int.from_bytes(text[at:at + 4], "little") for at in (0, min(last, 4), min(last, 8), last)]
    return parts[0] + (parts[1] << 32), parts[2] + (parts[3] << 32)


def bucket(word):
    return sum(key(word)) * 0x9E37_79B9_7F4A_7C15 % 2**64 >> 53


def slots_and_rows(words):
    """Each word takes the first free slot of its bucket. A long one has no row, and a third of a bucket nothing."""
    slots, rows = [0] * (2 * BUCKETS), []
    for word, kind in words:
        at = 2 * bucket(word)
        free = [place for place in (at, at + 1) if slots[place] == 0]
        if free and len(word) <= LONGEST:
            rows.append((*key(word), len(word), kind))
        if free:
            slots[free[0]] = len(rows) if len(word) <= LONGEST else NOT_KEPT
    return slots, rows


def set_of(kinds):
    return [sum(1 << kind % 64 for kind in kinds if kind // 64 == word) for word in range(10)]


def wrapped(items):
    return textwrap.wrap(items, 120, initial_indent="    ", subsequent_indent="    ", break_long_words=False)


def slots_module(of, slots):
    return [
        f"//! The slots of {of}. Written by `tables.py`.",
        "",
        "#[rattlefmt::skip]",
        f"pub static SLOTS: [u16; {len(slots)}] = [",
        *wrapped(", ".join(map(str, slots))),
        "];",
    ]


def rows_module(of, rows):
    lines = ["{} {} {} {}".format(*row) for row in rows]
    pairs = [", ".join(lines[at:at + 2]) for at in range(0, len(lines), 2)]
    return [
        f"//! The rows of {of}. Written by `tables.py`.",
        "",
        "use squawk_keywords::KeptRow;",
        "",
        "/// Rows by key, length and kind.",
        "macro_rules! rows {",
        "    ($($low:literal $high:literal $len:literal $kind:literal),*) => {",
        "        [$(KeptRow { low: $low, high: $high, len: $len, kind: $kind }),*]",
        "    };",
        "}",
        "",
        "#[rattlefmt::skip]",
        f"pub static ROWS: [KeptRow; {len(rows)}] = rows![",
        ",\n".join(f"    {pair}" for pair in pairs),
        "];",
    ]


def sets_module(words, contextual):
    sets = [
        ("KEYWORDS", "keywords", [kind for _, kind, _ in words]),
        ("CONTEXTUAL", "contextual keywords", [kind for _, kind in contextual]),
    ]
    for name, category in ("RESERVED", "Reserved"), ("COL_NAME", "ColName"), ("TYPE_FUNC_NAME", "TypeFuncName"):
        kinds = [kind for _, kind, own in words if own == category]
        sets.append((name, f"the keywords of the category `{category}`", kinds))
    lines = ["//! Sets of the kinds of keywords. Written by `tables.py`.", "", "use squawk_kinds::TokenSet;"]
    for name, of, kinds in sets:
        lines += [
            "",
            f"/// The kinds of {of}.",
            "#[rattlefmt::skip]",
            f"pub const {name}: TokenSet = TokenSet([",
            *wrapped(", ".join(map(str, set_of(kinds)))),
            "]);",
        ]
    return lines


def main():
    words, contextual = keywords(), contextual_keywords()
    modules = {"kind_sets": sets_module(words, contextual)}
    for name, of, pairs in [
        ("keyword", "the keywords", [(word, kind) for word, kind, _ in words]),
        ("contextual", "the contextual keywords", contextual),
    ]:
        slots, rows = slots_and_rows(pairs)
        modules[f"{name}_slots"] = slots_module(of, slots)
        modules[f"{name}_rows"] = rows_module(of, rows)
    for name, lines in modules.items():
        (HERE / f"src/tables/{name}.rt").write_text("\n".join(lines) + "\n")


main()
