#!/usr/bin/python3
"""parser.py PROGRAM [--statements N] [--mutants N] [--fronts N] [--seed S] FILE-OR-FOLDER ..: errors of `PROGRAM
--statements` against PostgreSQL's own parser.

PROGRAM is `crates/sql_tree/out/sql_tree`; the judge is Debian's python3-pglast (the system's Python runs this). Of the
statements in each file and in the SQL in each folder, which `real_sql.py` fetches, one of each shape, or of N:

- taken: what the judge takes has no error;
- refused: what it refuses has one;
- mutants: the same of N statements in which a token was left out, doubled, swapped with the next one, or replaced by
  one of another statement;
- fronts: N statements cut behind a token, which it refuses, have one error, in the place where it sees one;
- broken: the same of the statements of `broken.txt`, as people write them.

Characters beyond ASCII are told as a q, since pglast takes its place for one in bytes. Prints a line WRONG for each
statement that is taken and has an error, the reasons for what else differs, each figure with its bound, and counts."""
import argparse
import os
import random
import re
import sys
import tempfile
from collections import Counter
from typing import NamedTuple

from postgres import judge, listed
from real_sql import statements

BATCH = 2000
SHOWN = 12
COMMENTS = {"SQL_COMMENT", "C_COMMENT"}
TRIVIA = re.compile(r"(\s|--[^\n]*|/\*.*?\*/)*", re.DOTALL)
# A colon, which the program may take for a variable of psql; and a parameter, which libpg_query takes in more places
# than PostgreSQL does.
FOREIGN = {"ASCII_58", "PARAM"}
BROKEN = os.path.join(os.path.dirname(os.path.abspath(__file__)), "broken.txt")


class Refusal(NamedTuple):
    message: str
    place: int

    def reason(self):
        """The message without texts of the statement, but for the token that a syntax error stands at."""
        if self.message.startswith("syntax error"):
            return re.sub(r"near \"'.*", "near a string", self.message, flags=re.DOTALL)
        return re.sub('".*"', '".."', self.message, flags=re.DOTALL)


class Error(NamedTuple):
    place: int
    message: str


class Told(NamedTuple):
    """What both say of a text: how many statements the judge takes it for, or why it refuses it; and how many the
    program cuts it into, with its errors."""
    text: str
    judged: object
    count: int
    errors: list

    def is_refused(self):
        return isinstance(self.judged, Refusal)

    def is_one(self):
        return self.count == 1 and (self.is_refused() or self.judged == 1)

    def difference(self):
        """What is wrong with the errors of a text, or None where the judge refuses it and there is one in its place.
        White space and comments may stand in between, since a missing token is missed behind the one before."""
        if not self.is_refused():
            return "taken"
        if len(self.errors) != 1:
            return f"{len(self.errors) or 'no'} errors"
        between = sorted((self.errors[0].place, self.judged.place))
        return None if TRIVIA.fullmatch(self.text, *between) else "elsewhere"

    def reason(self):
        return f"{self.difference()}: {' and '.join(error.message for error in self.errors)}"


def asked(text):
    """How many statements the judge takes a text for, or why it refuses it."""
    try:
        return len(judge.split(text))
    except judge.ParseError as refused:
        message, place = (*refused.args, None)[:2]
        return Refusal(message, len(text) if place is None else place)


def place_of(text, line, column):
    """The place of a line and column."""
    return sum(len(part) + 1 for part in text.split("\n")[:line - 1]) + column - 1


def told(program, texts):
    """What both say of each text."""
    with tempfile.TemporaryDirectory() as folder:
        for first in range(0, len(texts), BATCH):
            batch = texts[first:first + BATCH]
            paths = [os.path.join(folder, str(number)) for number in range(len(batch))]
            for path, text in zip(paths, batch):
                with open(path, "w", encoding="ascii", newline="") as file:
                    file.write(text)
            for text, listing in zip(batch, listed(program, "--statements", paths)):
                errors = [Error(place_of(text, line, column), message) for line, column, message in listing.errors]
                yield Told(text, asked(text), len(listing.lines), errors)


def plain(statement):
    return re.sub(r"[^\x00-\x7f]", "q", statement.replace("\r", ""))


def tokens(text):
    """The tokens of a text by the judge's scanner, or none where it refuses it."""
    try:
        return [token for token in judge.scan(text) if token.name not in COMMENTS]
    except (judge.ParseError, TypeError):
        return []


def places_of(text):
    return [(token.start, token.end + 1) for token in tokens(text)]


def is_foreign(text):
    """Whether a text has tokens that the two read otherwise."""
    return any(token.name in FOREIGN for token in tokens(text))


def mutant(chance, statement, other):
    """A statement with one token changed, of which the other statement may give one."""
    spans = places_of(statement)
    at = chance.randrange(len(spans))
    start, end = spans[at]
    token = statement[start:end]
    way = chance.choice(("without", "doubled", "swapped", "replaced"))
    if way == "swapped" and at + 1 < len(spans):
        behind, last = spans[at + 1]
        return f"{statement[:start]} {statement[behind:last]} {statement[end:behind]} {token} {statement[last:]}"
    if way == "replaced":
        token = other[slice(*chance.choice(places_of(other)))]
    part = {"without": " ", "replaced": f" {token} "}.get(way, f" {token} {token} ")
    return statement[:start] + part + statement[end:]


def mutants(chance, taken, count):
    made = {}
    while len(made) < count:
        statement, other = chance.choice(taken), chance.choice(taken)
        made.setdefault(mutant(chance, statement, other).strip())
    return [text for text in made if text and not is_foreign(text)]


def fronts(chance, taken, count):
    """Statements that are cut behind a token, as the judge refuses them."""
    made = {}
    while len(made) < count:
        statement = chance.choice(taken)
        front = statement[:chance.choice(places_of(statement))[1]]
        if front not in made and isinstance(asked(front), Refusal):
            made[front] = None
    return list(made)


class Sweep:
    """What was found, and whether it is within its bounds."""

    def __init__(self):
        self.figures, self.wrong = [], 0

    def note(self, name, found, of, most, what, reasons=None):
        """Notes how many of some texts differ, where so many in a thousand may."""
        for reason, texts in sorted((reasons or {}).items(), key=lambda pair: -len(pair[1]))[:SHOWN]:
            print(f"  {len(texts)} {name}: {reason}: {texts[0][-150:]!r}")
        is_wrong = found * 1000 > most * of
        self.wrong += is_wrong
        self.figures.append(f"{name} {found} of {of}")
        print(f"{'WRONG ' if is_wrong else ''}{name}: {found} of {of} {what} (at most {most} in 1,000)")

    def __str__(self):
        return f"{', '.join(self.figures)}, {self.wrong} wrong"

    def taken(self, name, every):
        """Texts that the judge takes have no error."""
        taken = [one for one in every if not one.is_refused()]
        bad = [one for one in taken if one.errors]
        for one in bad:
            place, message = one.errors[0]
            print(f"WRONG {name}: {message}: {one.text[max(place - 100, 0):place]!r} {one.text[place:place + 40]!r}")
        self.note(f"{name} taken", len(bad), len(taken), 0, "with an error")

    def refused(self, name, every, most):
        """Texts that it refuses have an error, but for so many in a thousand."""
        refused = [one for one in every if one.is_refused()]
        missed = [one for one in refused if not one.errors]
        reasons = by_reason(missed, lambda one: one.judged.reason())
        self.note(f"{name} refused", len(missed), len(refused), most, "without an error", reasons)

    def placed(self, name, every):
        """Texts that it refuses have one error in its place, in 95 of 100."""
        differing = [one for one in every if one.difference()]
        reasons = by_reason(differing, Told.reason)
        self.note(name, len(differing), len(every), 50, "without one error in the parser's place", reasons)


def by_reason(every, reason):
    reasons = {}
    for one in every:
        reasons.setdefault(reason(one), []).append(one.text)
    return reasons


def broken():
    with open(BROKEN, encoding="ascii") as file:
        return [line.rstrip("\n") for line in file if not line.startswith("--")]


def main(program, paths, statement_count, mutant_count, front_count, seed):
    chance, sweep, ways = random.Random(seed), Sweep(), Counter()
    every = list(told(program, [plain(statement) for statement in statements(paths, seed)[:statement_count]]))
    ways.update("one" if one.is_one() else "several" for one in every)
    whole = [one for one in every if one.is_one()]
    sweep.taken("statements", whole)
    sweep.refused("statements", [one for one in whole if not is_foreign(one.text)], 30)
    taken = [one.text for one in whole if not one.is_refused() and places_of(one.text)]
    mutated = [one for one in told(program, mutants(chance, taken, mutant_count)) if one.is_one()]
    sweep.taken("mutants", mutated)
    sweep.refused("mutants", mutated, 1)
    sweep.placed("fronts", list(told(program, fronts(chance, taken, front_count))))
    sweep.placed("broken", list(told(program, broken())))
    print(f"parser: {ways['one']} statements by seed {seed}, {ways['several']} cut otherwise, {sweep}")
    return 1 if sweep.wrong else 0


if __name__ == "__main__":
    options = argparse.ArgumentParser(usage=__doc__)
    options.add_argument("program")
    options.add_argument("--statements", type=int)
    options.add_argument("--mutants", type=int, default=100_000)
    options.add_argument("--fronts", type=int, default=20_000)
    options.add_argument("--seed", type=int, default=1)
    options.add_argument("paths", nargs="+")
    given = options.parse_intermixed_args()
    sys.exit(main(given.program, given.paths, given.statements, given.mutants, given.fronts, given.seed))
