"""Statements as two trees: PostgreSQL's, of Debian's python3-pglast (version 15), and that of `sql_tree --json`.

Places count bytes, from the statement's start. `pairs` gives both trees of each statement that both sides take."""
import json
import os
import re
import subprocess
import sys
import tempfile

import pglast.parser as judge
from pglast import ast

from real_sql import statements

sys.setrecursionlimit(100000)

BATCH = 2000
# Data follow these for our program, which a line ends.
READS_DATA = re.compile(r"\s*copy\b.*\b(stdin|stdout)\b", re.IGNORECASE | re.DOTALL)
TRIVIA = {"WHITESPACE", "COMMENT"}


class Theirs:
    """A node of PostgreSQL's tree: its kind, its fields, and its place where it has one."""

    def __init__(self, kind, raw):
        slots = getattr(ast, kind).__slots__
        self.kind = kind
        self.place = raw.get("location", 0) if "location" in slots or kind == "A_Const" else None
        self.place = self.place if isinstance(self.place, int) and self.place >= 0 else None
        self.fields = {name: made(value, slots[name].c_type if name in slots else "") for name, value in raw.items()}

    def __getattr__(self, name):
        return self.fields.get(name)

    def children(self):
        """The nodes in its fields, also in lists, each once."""
        for name, value in self.fields.items():
            if not self._is_copy(name):
                yield from nodes_in(value)

    def _is_copy(self, name):
        """Whether a field stands elsewhere, too: the value that several columns share, and types of parameters."""
        if name == "returnType":
            return any(parameter.mode == "FUNC_PARAM_TABLE" for parameter in self.parameters or [])
        return name == "source" and self.colno != 1 or name == "objargs" and bool(self.objfuncargs)


def nodes_in(value):
    if isinstance(value, Theirs):
        yield value
    elif isinstance(value, list):
        for item in value:
            yield from nodes_in(item)


def made(value, c_type):
    """What a field holds, whose type in C is told where its JSON leaves it out."""
    if isinstance(value, list):
        return [made(item, "") for item in value]
    if not isinstance(value, dict):
        return value
    named = c_type.rstrip("*")
    if named not in ("Node", "List", "Expr") and hasattr(ast, named):
        return Theirs(named, value)
    for kind, fields in value.items():
        if kind == "List":
            return made(fields.get("items", []), "")
        return Theirs(kind, fields) if hasattr(ast, kind) else value
    return None


def walked(tree):
    """A tree's nodes, children before their parent."""
    for child in tree.children():
        yield from walked(child)
    yield tree


def theirs(statement):
    """PostgreSQL's tree of a statement, or why it has none."""
    try:
        found = json.loads(judge.parse_sql_json(statement))["stmts"]
    except judge.ParseError as refused:
        return str(refused.args[0])
    except (UnicodeDecodeError, UnicodeEncodeError, ValueError):
        return "no text"
    return made(found[0]["stmt"], "Node*") if len(found) == 1 else f"{len(found)} statements"


class Ours:
    """A node or token of our tree; a token has no children."""

    def __init__(self, raw, base, parent=None):
        self.kind = str(raw["kind"])
        self.start, self.end = raw["start"] - base, raw["end"] - base
        self.parent = parent
        self.errors = [error["message"] for error in raw.get("errors", [])]
        self.is_token = "children" not in raw
        self.children = [Ours(child, base, self) for child in raw.get("children", []) if child["kind"] not in TRIVIA]

    def walked(self):
        yield self
        for child in self.children:
            yield from child.walked()

    def child(self, *kinds):
        """Its first child of these kinds, or None."""
        return next((child for child in self.children if child.kind in kinds), None)

    def nodes(self):
        """Its children that are nodes of the grammar, without operators."""
        return [child for child in self.children if not child.is_token and child.kind not in SIGNS]


# Nodes that the engine makes of several signs.
SIGNS = {"CUSTOM_OP", "COLON_COLON", "LTEQ", "GTEQ", "NEQ", "NEQB", "COLON_EQ", "FAT_ARROW"}


def listed(program, text):
    """The lines of JSON that the program prints of a text."""
    with tempfile.TemporaryDirectory() as folder:
        path = os.path.join(folder, "all.sql")
        with open(path, "w", encoding="utf-8", newline="") as file:
            file.write(text)
        done = subprocess.run([program, "--json", path], capture_output=True)
    if done.returncode not in (0, 1):
        raise SystemExit(f"WRONG status {done.returncode}: {done.stderr[-300:]!r}")
    return [json.loads(line) for line in done.stdout.splitlines()]


def ours(program, texts):
    """The trees that the program makes of each text: one, where it takes it for a statement."""
    whole, bounds, at = [], [], 0
    for text in texts:
        part = text + "\n;\n" + ("\\.\n" if READS_DATA.match(text) else "")
        whole.append(part)
        bounds.append((at, at + len(text.encode()) + 2))
        at += len(part.encode())
    found, which = [[] for _ in texts], 0
    for raw in listed(program, "".join(whole)):
        while which < len(texts) and raw["start"] >= bounds[which][1]:
            which += 1
        if which < len(texts) and bounds[which][0] <= raw["start"]:
            found[which].append(Ours(raw, bounds[which][0]))
    return found


def errors_of(trees):
    return [message for tree in trees for node in tree.walked() for message in node.errors]


def pairs(program, paths, tally):
    """Each statement of the files with both trees, and counts of those that one side refuses."""
    every = statements(paths)
    for first in range(0, len(every), BATCH):
        taken = []
        for statement in every[first:first + BATCH]:
            tree = theirs(statement)
            tally["statements" if isinstance(tree, Theirs) else "that the parser refuses"] += 1
            if isinstance(tree, Theirs):
                taken.append((statement, tree))
        for (statement, tree), found in zip(taken, ours(program, [statement for statement, _ in taken])):
            if len(found) != 1:
                tally["cut otherwise"] += 1
            elif errors_of(found):
                tally["with an error of ours"] += 1
            else:
                yield statement, tree, found[0]
