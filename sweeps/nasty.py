#!/usr/bin/env python3
"""nasty.py PROGRAM [COUNT [SEED]]: COUNT texts of nasty signs, made at random (left out: 10,000 by seed 1).

Of each the texts of the tree's tokens, joined, must be the text, and each token begins where the one before ends. Many texts are read by one run, which ends with status 0 or 1; where one ends
otherwise, its texts are run one by one."""
import os
import random
import re
import subprocess
import sys
import tempfile

BATCH = 250
PIECES = [
    "'", "''", '"', "$", "$$", "$a$", "$b$", "\\", "\\\\", "\\g\n", "\\d x\n", "\\.\n", "--", "-- c\n", "/*", "*/",
    "/*/", "(", ")", "[", "]", "{", "}", ";", ",", ".", "..", ":", "::", "begin atomic ", "begin ", "atomic ", "end ",
    "end;", "case ", "when ", "create rule r as on insert to t do ", "create or replace function f() ",
    "create procedure p() ", "copy t from stdin;\n", "copy t (a) from stdin with (format csv); ", "select ", "from ", "join x using ", "with ", "union ", "insert into ", "as ", "for ",
    "is not distinct from ", "not ", "in ", "e'", "E'\\", "b'2'", "u&'\\00", 'U&"', "n'", "x'g'", "1", "0x", "1_",
    "1e", ".5", "$1", "<", ">", "=", "<>", "-", "+", "@", "|", "&", "#", "~", "!", "?", "`", "%", "^", " ", "\n",
    "\r", "\r\n", "\t", "\v", "\f", "\0", "\x01", "\x7f", "\x85", "\xa0", "é", "ß", "\u2028", "\u202e", "\ufeff",
    "\ufffd", "\U0001f600", "\U0010ffff", "a", "A", "_", "x" * 70, "'" * 9, "(" * 510, ")" * 30, "case " * 505]
TOKEN = re.compile(r' *\w+@(\d+)\.\.(\d+) "((?:[^"\\]|\\.)*)"', re.DOTALL)
OTHER = re.compile(r' *(?:\w+@\d+\.\.\d+|error@\d+ "(?:[^"\\]|\\.)*")', re.DOTALL)
ESCAPES = {"n": "\n", "r": "\r", "t": "\t", "\\": "\\", '"': '"'}


def made(chance):
    pieces = PIECES if chance.random() < 0.1 else PIECES[:-4]
    text = "".join(chance.choice(pieces) for _ in range(chance.choice((1, 3, 8, 20, 60))))
    return "\ufeff" + text if chance.random() < 0.1 else text


def fault(text, tree):
    """What is wrong with the tree of a text. A line feed in the text is escaped, so each line is a step."""
    joined, at = [], 0
    for line in tree.split("\n")[:-1]:
        token = TOKEN.fullmatch(line)
        if not token:
            if not OTHER.fullmatch(line):
                return f"the line {line[:60]!r}"
            continue
        part = re.sub(r"\\(.)", lambda found: ESCAPES[found[1]], token[3])
        end = at + len(part.encode())
        if (int(token[1]), int(token[2])) != (at, end):
            return f"the places of {line[:60]!r}"
        joined.append(part)
        at = end
    return None if "".join(joined) == text else "the joined texts"


def trees(program, paths):
    """The trees of several files by one run, or None."""
    done = subprocess.run([program, *paths], capture_output=True, timeout=600)
    if done.returncode not in (0, 1):
        return done.returncode, None
    out = done.stdout.decode().split("\n")
    starts = {f"{path}:" for path in paths}
    told = []
    for line in out[:-1]:
        if line in starts:
            told.append([])
        else:
            told[-1].append(line + "\n")
    return done.returncode, ["".join(lines) for lines in told]


def main(program, count=10000, seed=1):
    chance = random.Random(seed)
    wrong, statuses = 0, {}
    with tempfile.TemporaryDirectory() as folder:
        for first in range(0, count, BATCH):
            texts = [made(chance) for _ in range(min(BATCH, count - first))]
            paths = [os.path.join(folder, str(number)) for number in range(len(texts))]
            for path, text in zip(paths, texts):
                with open(path, "wb") as file:
                    file.write(text.encode())
            # The last is read twice, so that each run has several and prints their names.
            status, told = trees(program, paths + paths[-1:])
            statuses[status] = statuses.get(status, 0) + 1
            for at, text in enumerate(texts):
                found = fault(text, told[at]) if told else None
                if not told:
                    status, alone = trees(program, [paths[at]] * 2)
                    found = fault(text, alone[0]) if alone else f"status {status}"
                if found:
                    wrong += 1
                    print(f"WRONG {text[:200]!r}: {found}")
    print(f"nasty: {count} texts by seed {seed}, runs by status {statuses}, {wrong} wrong")
    return 1 if wrong else 0


if __name__ == "__main__":
    sys.exit(main(sys.argv[1], *map(int, sys.argv[2:])))
