#!/usr/bin/env python3
"""growths.py PROGRAM [--most N]: refuses the program memory; growths.py --sql SQL_TREE [--most N] does so to
`sql_tree`.

Over each document of documents.py and of examples/: one run for each of its growths, in which that one is refused, one
for each in which all later ones are refused, too, and one behind the last. Each must end with status 7, `memory` and
nothing on standard output, or, where the program needed no more memory, with the document's answer. Before, a run in
which all are granted must have this answer.

`sql_tree` prints the tree, as text and as JSON, the statements, the raw tokens and the errors alone of examples/migration.sql, from standard
input and by its name, its help, and why an argument is refused. A run must end with status 3 and a line about memory on
standard error, and no other listing than the full one; or with the full answer.

With --most N, at most N growths of a document are refused, spread evenly over them."""
import argparse
import os
import sys

import documents
from program import HERE, MEMORY, Program, Tally

SQL = os.path.join(HERE, "..", "examples", "migration.sql")
MODES = [(), ("--json",), ("--statements",), ("--tokens",), ("--quiet",)]


def places(growths, most):
    """The growths to refuse, and the one behind the last."""
    if most is None or growths <= most:
        return range(1, growths + 2)
    spread = {1 + i * (growths - 1) // (most - 1) for i in range(most)}
    return sorted(spread) + [growths + 1]


class SqlTree(Program):
    """`sql_tree` with arguments."""

    def __init__(self, path, words):
        super().__init__(path)
        self.words = words

    def command(self):
        return [self.path, *self.words]


def is_refusal(program, answer, wanted):
    """Whether a program says that it had no memory, as it must."""
    if isinstance(program, SqlTree):
        return answer.status == 3 and b"memory\n" in answer.fault and answer.lines in (b"", wanted.lines)
    return answer == MEMORY


def sweep(program, name, document, wanted, most, tally):
    answer, counts = program.counted(document)
    tally.expect(f"{name}: nothing refused", answer, "granted", wanted)
    for growth in places(counts.growths, most):
        for later in (0, 1):
            answer = program.run_refused(document, REFUSE_GROWTH=growth, REFUSE_LATER=later)
            what = f"{name}: growth {growth} of {counts.growths} refused{', and all later' * later}"
            if growth <= counts.growths and is_refusal(program, answer, wanted):
                tally.note("memory")
            else:
                way = "the answer" if growth <= counts.growths else "the answer behind the last"
                tally.expect(what, answer, way, wanted)
    return counts.growths


def many_words():
    """A document of 300 words, each in a node, with 20 errors and 30 keywords."""
    words = 300
    calls = [["start"]]
    for word in range(words):
        calls += [["start"], ["bump_any"], ["complete", word + 1, 701]] + [["error", "e"]] * (word % 15 == 0)
    calls.append(["complete", 0, 700])
    keywords = {"keywords": [[f"k{i}", 200 + i] for i in range(30)], "contextual": []}
    tokens = [documents.WORD, documents.SPACE] * words
    lines = ["enter 700"]
    for word in range(words):
        error = [f'error {2 * word + 1} "e"'] * (word % 15 == 0)
        lines += ["enter 701", 'token 3 "a"'] + error + ["exit", 'token 639 " "']
    document = documents.document("a " * words, tokens, calls, vocabulary=keywords)
    return document, documents.lines(*lines, "exit", "all")


def sweep_sql(path, most, tally):
    """Sweeps `sql_tree` in all its modes. What it answers where it has memory is that of its own crate's tests."""
    with open(SQL, "rb") as file:
        text = file.read()
    runs = [(mode, text) for mode in MODES] + [((*mode, SQL), b"") for mode in MODES] + [(("--help",), b""), (("--trees",), b"")]
    growths = 0
    for words, stdin in runs:
        program = SqlTree(path, words)
        growths += sweep(program, f"sql_tree {' '.join(words)}", stdin, program.run(stdin), most, tally)
    print(f"growths: {len(runs)} runs of sql_tree, {growths} growths, {tally}")


def main():
    parser = argparse.ArgumentParser(usage=__doc__)
    parser.add_argument("program")
    parser.add_argument("--sql", action="store_true")
    parser.add_argument("--most", type=int)
    arguments = parser.parse_args()
    tally = Tally()
    if arguments.sql:
        sweep_sql(arguments.program, arguments.most, tally)
        return 1 if tally.wrong else 0
    program = Program(arguments.program)
    growths = swept = 0
    every = [*documents.answered(), *documents.refused(), *documents.examples(), ("300 words", *many_words())]
    for name, document, wanted in every:
        growths += sweep(program, name, document, wanted, arguments.most, tally)
        swept += 1
    print(f"growths: {swept} documents, {growths} growths, {tally}")
    return 1 if tally.wrong else 0


if __name__ == "__main__":
    sys.exit(main())
