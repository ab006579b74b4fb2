#!/usr/bin/env python3
"""Prints a document of at least N raw tokens for timing: statements with columns, paths, sums, comments and a glued sign.

make_document.py N
"""

import json
import sys

FILE, SELECT, COLUMNS, COLUMN, PATH, BINARY, FROM, WHERE, NAME = range(700, 709)
EQ, GTEQ, CUSTOM_OP = 20, 52, 664
OPERATORS = [20, 22, 23, 24, 27, 28, 29]
WORDS = ["select", "from", "where", "and", "order", "by", "group", "having", "limit", "offset"]
NAMES = ["users", "orders", "items", "total", "price", "quantity", "status", "region", "country", "größe"]


class Statements:
    """The text so far, its raw tokens, and the calls of a parser over them."""

    def __init__(self):
        self.text, self.tokens, self.calls, self.markers = [], [], [["start"]], 1

    def raw(self, kind, text, *fields):
        self.text.append(text)
        self.tokens.append([kind, len(text.encode()), *fields])

    def token(self, kind, text, *fields):
        self.raw(kind, text, *fields)
        self.calls.append(["bump_any"])

    def space(self, text=" "):
        self.raw("whitespace", text)

    def start(self):
        self.calls.append(["start"])
        self.markers += 1
        return self.markers - 1

    def precede(self, node):
        self.calls.append(["precede", node])
        self.markers += 1
        return self.markers - 1

    def complete(self, marker, kind):
        self.calls.append(["complete", marker, kind])
        return marker

    def name(self, n):
        marker = self.start()
        self.token("ident", NAMES[n % len(NAMES)])
        return self.complete(marker, NAME)

    def path(self, n):
        outer = self.precede(self.name(n))
        self.token("dot", ".")
        self.token("ident", NAMES[(n + 3) % len(NAMES)])
        return self.complete(outer, PATH)

    def sum(self, n):
        outer = self.precede(self.path(n))
        self.space()
        operator = self.start()
        self.token("plus", "+")
        self.complete(operator, CUSTOM_OP)
        self.space()
        self.token("int", str(n), False, 10, len(str(n)))
        return self.complete(outer, BINARY)

    def column(self, n):
        marker = self.start()
        self.sum(n) if n % 3 == 0 else self.path(n)
        self.complete(marker, COLUMN)

    def statement(self, n):
        select = self.start()
        self.token("ident", "select")
        columns = self.start()
        for i in range(3):
            self.space()
            self.column(n + i)
            self.token("comma", ",")
        self.space("\n  ")
        self.raw("line_comment", "-- the last one")
        self.space("\n  ")
        self.column(n + 3)
        self.complete(columns, COLUMNS)
        self.space("\n")
        clause = self.start()
        self.token("ident", "from")
        self.space()
        self.name(n)
        self.complete(clause, FROM)
        self.space()
        clause = self.start()
        self.token("ident", "where")
        self.space()
        outer = self.precede(self.path(n + 1))
        self.space()
        self.raw("gt", ">")
        self.raw("eq", "=")
        self.calls.append(["eat", GTEQ])
        self.space()
        self.token("str", "'%d'" % n, True)
        self.complete(outer, BINARY)
        self.complete(clause, WHERE)
        self.complete(select, SELECT)
        self.token("semi", ";")
        self.space("\n")


def document(least):
    made = Statements()
    n = 0
    while len(made.tokens) < least:
        made.statement(n)
        n += 1
    made.complete(0, FILE)
    return {
        "text": "".join(made.text),
        "tokens": made.tokens,
        "words": {"operator_first": OPERATORS, "names": [[5, "SEMICOLON"]]},
        "vocabulary": {"keywords": [[word, 200 + i] for i, word in enumerate(WORDS)], "contextual": [["status", 300]]},
        "entry": "sql",
        "calls": made.calls,
    }


if len(sys.argv) != 2:
    sys.exit("make_document.py N")
json.dump(document(int(sys.argv[1])), sys.stdout, ensure_ascii=False, separators=(",", ":"))
