#!/usr/bin/env python3
"""edited.py [COUNT [SEED]]: COUNT edits at random of random scripts (left out: 20,000 by seed 1), from Python, over the library that
`bindings/build` makes.

After each edit a document must tell what is told of its text from scratch: its statements, their places, kinds and errors. Documents have
from nothing up to some 3,000 characters, in pieces of from 1 to 512 bytes."""
import os
import random
import sys

sys.path.insert(0, os.path.join(os.path.dirname(os.path.abspath(__file__)), "..", "bindings", "python"))
import caliperdock
from caliperdock import _document
from nasty import PIECES
from pieces import LINES, told, whole

EDITS = 100


def made(chance, most):
    return "".join(chance.choice(LINES if chance.random() < 0.7 else PIECES[:-4]) for _ in range(chance.randrange(most + 1)))


def edited(chance, text):
    """Where a text is edited, and what is put there: a key in most cases, or what was cut, or a line, or nothing."""
    start = chance.randrange(len(text) + 1)
    end = min(len(text), start + chance.choice((0, 0, 0, 0, 1, 1, 3, 20, 300)))
    word = chance.choice(("", "", "'", '"', "(", ")", ";", "$", "a", "\n", "é", "/*", "*/", "\\", text[start:end], made(chance, 2)))
    return start, end, word


def is_same(document, text):
    wanted, errors = whole(text)
    statements = [told(statement) for statement in document.statements]
    nodes = [statement[:6] for statement in statements if statement[0] != "COMMENT"]
    return document.text == text and nodes == wanted and document.errors == errors


def main():
    count, seed = (int(word) for word in (sys.argv[1:] + ["20000", "1"][len(sys.argv) - 1:]))
    chance = random.Random(seed)
    runs = wrong = 0
    while runs < count:
        _document._EDITED = chance.choice((1, 8, 64, 512))
        _document._NEW = chance.choice((1, 64, 512))
        text = made(chance, chance.choice((0, 5, 40, 200)))
        document = caliperdock.Document(text)
        for _ in range(EDITS):
            start, end, word = edited(chance, text)
            document.edit(start, end, word)
            before, text = text, text[:start] + word + text[end:]
            runs += 1
            if not is_same(document, text):
                wrong += 1
                print(f"WRONG {start}..{end} {word!r} by {_document._EDITED}: {before!r}")
                break
    print(f"edited: {runs} edits, {wrong} wrong")
    return 1 if wrong else 0


if __name__ == "__main__":
    sys.exit(main())
