#!/usr/bin/python3
"""sentences.py SQL_TREE [COUNT [SEED]]: statements made from the rules at random, against PostgreSQL's parser.

SQL_TREE is `crates/sql_tree/out/sql_tree`; the system's Python runs this. COUNT statements, 20,000 if left out, are
made from `sql_rule_texts`, without the clauses of PostgreSQL 16 and later. Of those that the program takes at most 3 in
100 may be refused by PostgreSQL's parser. Prints these by the parser's messages, those that the program itself has an
error for by its messages, each with a statement, and counts."""
import random
import re
import sys
from collections import Counter

import rule_reader
from trees import Theirs, errors_of, ours, theirs

COUNT, SEED, BATCH = 20000, 1, 2000
# How deep calls of rules go before the shortest ways are taken.
DEPTH = 14
MOST = 3
NEVER = 1000
# What stands in the rules, and what is put there: without clauses of later versions, variables of psql, UESCAPE,
# whose string is one character, and VARIADIC, which stands before the last argument.
LEFT_OUT = {
    "returning_names? targets": "targets",
    "merge_when+ returning?": "merge_when+",
    "BY SourceTarget (AND expression)? THEN (merge_insert | UPDATE set_clause | DELETE | DO NOTHING)\n        | ": "",
    "CONCURRENTLY?+ name_ref?)": "CONCURRENTLY?+ name_ref)",
    "WITH {member_option}": "WITH ADMIN OPTION",
    "(ADMIN | INHERIT | SET) OPTION FOR privileges": "ADMIN OPTION FOR privileges",
    "= LARGE Objects | TABLES": "= TABLES",
    "= relation columns?\n": "= table columns?\n",
    "type column_storage? compression?": "type compression?",
    "(NOT NULL column_ref constraint_flag* => NOT_NULL_CONSTRAINT\n        | CHECK": "(CHECK",
    "{column_ref} (WITHOUT OVERLAPS)?": "{column_ref}",
    "    | SET EXPRESSION AS '(' expression ')' => SET_EXPRESSION\n": "",
    "NOT NULL no_inherit?": "NOT NULL",
    "    / variable\n": "",
    "constant_string | variable\n": "constant_string\n",
    " | ':' Label => PARAM_REF": "",
    " (UESCAPE STRING)?": "",
    "(STORED | Virtual)?+": "STORED",
    "constraint_time | enforced | ": "constraint_time | ",
    "{period_column}": "{column_ref}",
    "\n    | Json (VALUE | ARRAY | OBJECT)?+ ((WITH | WITHOUT) UNIQUE Keys?+)?+": "",
    " | _ (VALUE | ':') expression => JSON_KEY_VALUE": "",
    " (AS name)? json_passing? (json_columns json_clause*)?": "",
    " (NO? Indent)?": "",
    " | unknown\n": "\n",
    "VARIADIC? arg json_format?+": "arg",
    " order_by? json_passing? json_clause*": " order_by?",
    "(constraint_flag | INHERIT)*": "constraint_flag*",
    "ACCESS METHOD (name_ref | DEFAULT)": "ACCESS METHOD name_ref",
    "(signed_integer | DEFAULT) => SET_STATISTICS": "signed_integer => SET_STATISTICS",
    "STATISTICS ((IF NOT EXISTS)? new_path)? (": "STATISTICS (IF NOT EXISTS)? new_path (",
    "LATERAL ('(' query ')' alias?+ =>": "LATERAL ('(' query ')' alias =>",
    "(@begins_query '(' query ')' alias?+ => FROM_SUBQUERY": "(@begins_query '(' query ')' alias => FROM_SUBQUERY",
    " | _ UESCAPE STRING => LITERAL": "",
    " => BIN_EXPR | LOCAL => AT_LOCAL_EXPR)": " => BIN_EXPR)",
}
SAMPLES = {
    "IDENT": ["a", "b", "c1", "tbl", '"Q d"', "fn"], "INT_NUMBER": ["0", "1", "42"], "NUMERIC_NUMBER": ["1.5", ".5", "1e3"],
    "STRING": ["'s'", "''", "'it''s'"], "NATIONAL_STRING": ["N'n'"], "BYTE_STRING": ["X'1F'"], "BIT_STRING": ["B'01'"],
    "DOLLAR_QUOTED_STRING": ["$$d$$", "$t$ x $t$"], "UNICODE_ESC_STRING": ["U&'u'"], "ESC_STRING": ["E'e\\n'"],
    "POSITIONAL_PARAM": ["$1", "$2"], "CUSTOM_OP": ["||", "@>", "~", "<->", "&&"],
}


class Unfit(Exception):
    """A node that a check refuses."""


class Maker:
    """Makes token lists from rules."""

    def __init__(self, seed):
        text = rule_reader.sources()
        for old, new in LEFT_OUT.items():
            if old not in text:
                raise SystemExit(f"WRONG: no {old!r} in the rules")
            text = text.replace(old, new)
        self.rules, self.classes = rule_reader.read(text, rule_reader.keywords())
        self.random = random.Random(seed)
        self.kind = None
        self.least = dict.fromkeys(self.rules, NEVER)
        while self._lower():
            pass

    def _lower(self):
        """Finds the least depth of each rule, in rounds."""
        found = {name: 1 + self.height(rule.operands) for name, rule in self.rules.items()}
        changed, self.least = found != self.least, found
        return changed

    def height(self, part):
        word, what = part
        if word == "call":
            return self.least[what]
        if word == "seq":
            return max((self.height(one) for one in what), default=0)
        if word == "choice":
            return min(map(self.height, what))
        if word == "list":
            return self.height(what[0])
        return self.height(what[0]) if word == "repeat" and what[1] else 0

    def statement(self):
        while True:
            try:
                # Strings that continue one another stand on lines of their own.
                return re.sub(r"(?<=') (?=')", "\n", " ".join(self.call("whole", 0)))
            except Unfit:
                continue

    def call(self, name, depth, level=0):
        """The tokens of a rule; with a level its operators bind at least so."""
        rule = self.rules[name]
        levels = [at for at in range(level, len(rule.levels))]
        if levels and depth < DEPTH and self.random.random() < 0.35:
            return self.operator(name, rule, self.random.choice(levels), depth + 1)
        return self.part(rule.operands, depth + 1, None)

    def operator(self, name, rule, at, depth):
        """The tokens of an operator with its operands, whose levels its word says."""
        word, part = rule.levels[at]
        inner = {"left": (at, at + 1), "right": (at + 1, at), "none": (at + 1, at + 1)}[word]
        first = part[1][0] if part[0] == "choice" else part
        begins = first[1] and first[1][0][0] == "operand"
        return self.part(part, depth, [name, *(inner if begins else (at, at))])

    def part(self, part, depth, operands):
        return getattr(self, "of_" + part[0])(part[1], depth, operands)

    def of_token(self, name, depth, operands):
        return [name[1:-1] if name[0] == "'" else self.random.choice(SAMPLES.get(name, [name.lower()]))]

    def of_class(self, name, depth, operands):
        tokens = self.classes[name]
        plain = "IDENT" in tokens and self.random.random() < 0.8
        return self.of_token("IDENT" if plain else self.random.choice(tokens), depth, operands)

    def of_call(self, name, depth, operands):
        return self.call(name, depth)

    def of_seq(self, parts, depth, operands):
        operands = operands and list(operands)
        told = []
        for one in parts:
            told += self.part(one, depth, operands)
        return told

    def of_choice(self, parts, depth, operands):
        ways = parts
        if depth > DEPTH:
            least = min(map(self.height, parts))
            ways = [part for part in parts if self.height(part) <= least]
        else:
            ways = [part for part in parts if self.height(part) < NEVER]
        return self.part(self.random.choice(ways), depth, operands)

    def of_repeat(self, what, depth, operands):
        part, least, most = what
        count, told = least, []
        while count < most and depth <= DEPTH and self.random.random() < 0.35 and self.height(part) < NEVER:
            count += 1
        for _ in range(count):
            told += self.part(part, depth, operands)
        return told

    def of_list(self, what, depth, operands):
        told = self.part(what[0], depth, operands)
        while depth <= DEPTH and self.random.random() < 0.3:
            told += self.part(what[1], depth, operands) + self.part(what[0], depth, operands)
        return told

    def of_kind(self, name, depth, operands):
        self.kind = name
        return []

    def of_check(self, names, depth, operands):
        if self.kind not in names:
            raise Unfit
        return []

    def of_operand(self, _, depth, operands):
        name, first = operands[0], operands.pop(1) if len(operands) > 2 else operands[1]
        return self.call(name, depth, first)


def message(refused):
    return re.sub(r' at or near ".*', " at or near", refused.split("\n")[0])


def main(program, count=COUNT, seed=SEED):
    maker, tally = Maker(int(seed)), Counter()
    refused, errors, shown = Counter(), Counter(), {}
    for first in range(0, int(count), BATCH):
        texts = [maker.statement() for _ in range(min(BATCH, int(count) - first))]
        for text, found in zip(texts, ours(program, texts)):
            tally["statements"] += 1
            told = errors_of(found) if len(found) == 1 else ["cut otherwise"]
            tree = theirs(text)
            if told:
                tally["with an error of ours"] += 1
                errors[told[0], isinstance(tree, Theirs)] += 1
                shown.setdefault((told[0], isinstance(tree, Theirs)), text)
            else:
                tally["taken"] += 1
                if not isinstance(tree, Theirs):
                    tally["refused by the parser"] += 1
                    refused[message(tree)] += 1
                    shown.setdefault(message(tree), f"{tree}: {text}")
    for what, number in refused.most_common():
        print(f"{number} refused: {what}: {shown[what][:300]}")
    for what, number in errors.most_common():
        print(f"{number} errors of ours{', taken by the parser' if what[1] else ''}: {what[0]}: {shown[what][:300]}")
    is_wrong = tally["refused by the parser"] * 100 > tally["taken"] * MOST
    print(f"sentences: {', '.join(f'{number} {what}' for what, number in tally.items())}{', WRONG' if is_wrong else ''}")
    return 1 if is_wrong else 0


if __name__ == "__main__":
    sys.exit(main(sys.argv[1], *sys.argv[2:]))
