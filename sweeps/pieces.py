#!/usr/bin/env python3
"""pieces.py [COUNT [SEED]]: COUNT scripts of nasty signs, made at random (left out: 400 by seed 1), read piece by piece from Python, over
the library that `bindings/build` makes.

Pieces begin with each size from 1 byte on. Statements, their places, kinds and errors must be those of the whole. A reader that fails
after so many bytes, or a byte there that isn't UTF-8, gives the statements that end before it in any case, and then the error."""
import io
import os
import random
import sys

sys.path.insert(0, os.path.join(os.path.dirname(os.path.abspath(__file__)), "..", "bindings", "python"))
import caliperdock
from caliperdock import _script
from nasty import PIECES

LINES = [
    "select 1;\n", "select 'a'\n'b';\n", "select 'a;\n", "select f(1;\n", "copy t from stdin;\n1;\n\\.\n", "copy t from stdin; copy u from stdin;\n1\n\\.\n2\n\\.\n",
    "\\copy t from stdin\n1\n", "\\.\n", "create function f() returns int begin atomic select 1;\nselect 2; end;\n", "do $$;\n$$;\n", "/* ;\n", "*/\n", "-- ;\r\n", "\\g\n", ";",
]


class Failing(io.RawIOBase):
    """A reader that fails after some bytes."""

    def __init__(self, data):
        self.data = data

    def read(self, wanted):
        piece, self.data = self.data[:wanted], self.data[wanted:]
        if not piece:
            raise OSError("failed")
        return piece


def made(chance):
    pieces = [chance.choice(LINES if chance.random() < 0.6 else PIECES[:-4]) for _ in range(chance.choice((2, 5, 9)))]
    return ("\ufeff" if chance.random() < 0.1 else "") + "".join(pieces)


def told(statement):
    return statement.kind, statement.text, statement.start, statement.end, statement.start_byte, statement.end_byte, statement.errors


def whole(text):
    """What is told of a script in one piece, by the tree of all of it."""
    tree = caliperdock.parse(text)
    nodes = [node for node in tree.root.children if not node.is_token]
    return [(node.kind, node.text, node.start, node.end, node.start_byte, node.end_byte) for node in nodes], tree.errors


def read(file):
    """The statements of a file, and the error after them."""
    statements = []
    try:
        for statement in caliperdock.statements(file):
            statements.append(told(statement))
    except (OSError, caliperdock.Refused) as error:
        return statements, error
    return statements, None


def fault(text, size, chance):
    """What is wrong with a script in pieces that begin with this size."""
    _script._PIECE = size
    data = text.encode()
    wanted, errors = whole(text)
    statements, error = read(io.BytesIO(data))
    nodes = [statement[:6] for statement in statements if statement[0] != "COMMENT"]
    if error is not None or nodes != wanted or [e for statement in statements for e in statement[6]] != errors:
        return "the whole is another"
    if len(statements) > len(wanted) + 1 or "".join(part.text for part in caliperdock.parts(io.BytesIO(data))) != text:
        return "the text is another"
    at = chance.randrange(len(data) + 1)
    for file, reason in ((Failing(data[:at]), OSError), (io.BytesIO(data[:at] + b"\xff" + data[at:]), caliperdock.Refused)):
        before, error = read(file)
        if not isinstance(error, reason) or before != statements[: len(before)]:
            return f"{reason.__name__} at {at}"
        # What ends with a line before the last one is sure to come.
        end = data.rfind(b"\n", 0, at)
        sure = [s for s in statements if s[5] <= end and s[1].endswith(";") and "copy" not in text and "\\" not in text]
        if len(before) < len(sure):
            return f"statements are lost before {at}"
    return None


def main():
    count, seed = (int(word) for word in (sys.argv[1:] + ["400", "1"][len(sys.argv) - 1:]))
    chance = random.Random(seed)
    runs = wrong = 0
    for _ in range(count):
        text = made(chance)
        for size in range(1, min(len(text.encode()), 80) + 2):
            runs += 1
            found = fault(text, size, chance)
            if found:
                wrong += 1
                print(f"WRONG {found}: pieces of {size}: {text!r}")
    print(f"pieces: {runs} runs, {wrong} wrong")
    return 1 if wrong else 0


if __name__ == "__main__":
    sys.exit(main())
