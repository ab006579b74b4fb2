#!/usr/bin/python3
"""scanner.py PROGRAM [--random N] [--seed S] [FILE-OR-FOLDER ..]: raw tokens of `PROGRAM --tokens` against PostgreSQL's
own scanner.

PROGRAM is `crates/sql_tree/out/sql_tree`; the judge is Debian's python3-pglast (the system's Python runs this). Over
each file and the SQL in each folder, and over N texts made at random (left out: 100,000 by seed 1; such a text
counts where the judge takes it, else the program must show an error in it). All that isn't white space must stand in
the same places, the judge's operators cut into signs. Prints what the judge was asked otherwise, by reasons; a line
WRONG for each text with a difference that has none; and counts. Reasons that begin with FAULT are the program's."""
import argparse
import os
import random
import sys
import tempfile
from collections import Counter

import postgres
from postgres import Compared, files_in, judge, judged, listed, read

BATCH = 500
PIECES = [
    "select", "a", "é", "_x", "U&", "u", "e", "E", "b", "x", "N", "n", "uescape", "from", "日本", "a$", "x1", "0", "1",
    "23", "1.5", ".5", "1.", "..", "1e5", "1e", "1e-", "1.e+3", "0x1F", "0b1", "0o7", "1_000", "$1", "$1a", "$", "$$",
    "$a$", "$é$", "$1$", "'", "'", "''", "'a'", "E'\\'", "E'\\\\'", "'b\\'", "B'1'", "U&'a'", 'U&"b"', '"', '"a"',
    '""', "\\", "\\d", "--", "-- c\n", "/*", "*/", "/**/", "/", "*", "-", "+", "@", "~", "!", "#", "%", "^", "&", "|",
    "`", "?", "<", ">", "=", ":", "::", ":=", "=>", "<=", "(", ")", "[", "]", "{", "}", ",", ";", ".", "\n", "\r",
    "copy t from stdin;\n", "copy t (a) FROM /* c */ Stdin with (format csv) ;", "copy t from StdOut;", "\r\n", "\\.\n", "\n\\.\n", "\t", "\f", "\v", " ", "  ", "\n ", "\x01", "\x7f", "\xa0", "\u3000", "\ufeff", "\U0001f600"]


def difference(text, listing, reasons, tally):
    """What has no reason, if there is something. Reasons and tokens that agree are counted."""
    compared = Compared(text, listing)
    scanned = compared.ask()
    reasons.update(compared.reasons)
    tally["texts that it takes as they are"] += not compared.reasons
    if compared.unexplained:
        return compared.unexplained[0]
    left = "".join(compared.left)
    ours, theirs = compared.expected(), judged(left, scanned)
    for (start, end), (other_start, other_end) in zip(ours, theirs):
        if start != other_start or other_end not in (end, None):
            return f"{start}..{end} {text[start:end][:40]!r}, and not {other_start}..{other_end} in {left[max(start - 20, 0):start + 20]!r}"
    tally["tokens that agree"] += len(ours)
    return None if len(ours) == len(theirs) else f"{len(ours)} tokens, and not {len(theirs)}"


def random_text(chance):
    count = chance.choice((2, 3, 5, 10, 20, 40))
    between = chance.choice(("", "", " ", "\n"))
    return between.join(chance.choice(PIECES) for _ in range(count))


def batches(items):
    for at in range(0, len(items), BATCH):
        yield items[at:at + BATCH]


def sweep_files(program, paths, tally):
    texts = {path: read(path) for path in paths}
    for path in [path for path in paths if texts[path] is None]:
        tally.update(["not UTF-8"])
    for batch in batches([path for path in paths if texts[path] is not None]):
        for path, listing in zip(batch, listed(program, "--tokens", batch)):
            tally.update(["files"])
            tally["bytes"] += os.path.getsize(path)
            yield path, texts[path], listing


def sweep_random(program, count, seed, tally):
    chance = random.Random(seed)
    with tempfile.TemporaryDirectory() as folder:
        for batch in batches(range(count)):
            texts = [random_text(chance) for _ in batch]
            paths = [os.path.join(folder, str(number)) for number in range(len(texts))]
            for path, text in zip(paths, texts):
                with open(path, "w", newline="") as file:
                    file.write(text)
            for text, listing in zip(texts, listed(program, "--tokens", paths)):
                tally.update(["random texts"])
                yield repr(text), text, listing


def main():
    parser = argparse.ArgumentParser(usage=__doc__)
    parser.add_argument("program")
    parser.add_argument("--random", type=int, default=100000)
    parser.add_argument("--seed", type=int, default=1)
    parser.add_argument("paths", nargs="*")
    arguments = parser.parse_intermixed_args()
    tally, reasons, wrong = Counter(), Counter(), 0
    sweeps = (sweep_files(arguments.program, files_in(arguments.paths), tally),
              sweep_random(arguments.program, arguments.random, arguments.seed, tally))
    for sweep in sweeps:
        for name, text, listing in sweep:
            found = difference(text, listing, reasons, tally)
            if found:
                wrong += 1
                print(f"WRONG {name}: {found}")
    for reason, count in reasons.most_common():
        print(f"{count} {reason}")
    print(f"scanner: {', '.join(f'{count} {what}' for what, count in tally.items())}, {wrong} wrong")
    sys.exit(1 if wrong else 0)


if __name__ == "__main__":
    main()
