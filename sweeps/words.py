#!/usr/bin/env python3
"""words.py [PROGRAMS]: the table of keywords of crates/sql_words against keywords.txt, which is what `pg_get_keywords()` of PostgreSQL 15.18 answers.

Word for word, category by category, and each kind by the rule: a word that the engine has a constant for has its number, the others are
numbered from 200 in the order of their bytes. PROGRAMS is the folder of a PostgreSQL server's programs (Debian's package postgresql-15:
/usr/lib/postgresql/15/bin): then that server is asked, too. It doesn't run as root."""
import glob
import os
import re
import subprocess
import sys
import tempfile

HERE = os.path.dirname(os.path.abspath(__file__))
CRATES = os.path.join(HERE, "..", "crates")
CATEGORIES = {"Unreserved": "unreserved", "ColName": "col_name", "TypeFuncName": "type_func_name", "Reserved": "reserved"}
CODES = {"U": "unreserved", "C": "col_name", "T": "type_func_name", "R": "reserved"}
FIRST = 200


def read(*parts):
    with open(os.path.join(*parts)) as file:
        return file.read()


def constants(text):
    """The numbers of constants; that of one that is another of this name is None."""
    found = re.findall(r"pub const (\w+): SyntaxKind = (?:SyntaxKind\((\d+)\)|SyntaxKind::(\w+));", text)
    return {name: int(number) if number else None for name, number, same in found if number or same == name}


def table():
    """The rows of the crate: words, their kinds' constants, and categories."""
    rows = re.findall(r'"(\w+)" (\w+) (\w+)', read(CRATES, "sql_words", "src", "keywords.rt"))
    return [(word, name, CATEGORIES.get(category)) for word, name, category in rows]


def asked(programs):
    """The rows that a server answers."""
    query = "select word, catcode from pg_get_keywords()\n"
    with tempfile.TemporaryDirectory() as folder:
        data = os.path.join(folder, "data")
        subprocess.run([os.path.join(programs, "initdb"), "-D", data, "-A", "trust", "--no-sync"], check=True, stdout=subprocess.DEVNULL)
        told = subprocess.run([os.path.join(programs, "postgres"), "--single", "-D", data, "postgres"], check=True, input=query,
                              stdout=subprocess.PIPE, stderr=subprocess.DEVNULL, text=True).stdout
    return sorted((word, CODES[code]) for word, code in re.findall(r'1: word = "(\w+)".*\n\s*2: catcode = "(\w)"', told))


def main():
    wrong = 0

    def differ(what, one, other):
        nonlocal wrong
        if one != other:
            wrong += 1
            print(f"WRONG {what}: {one}, not {other}")

    listed = [tuple(line.split()) for line in read(HERE, "keywords.txt").splitlines()]
    differ("order of the list", listed, sorted(set(listed)))
    if len(sys.argv) > 1:
        differ("the server's list", asked(sys.argv[1]), listed)
    engine = constants(read(CRATES, "squawk_kinds", "src", "syntax_kind.rt"))
    numbers = {}
    for path in glob.glob(os.path.join(CRATES, "sql_words", "src", "kinds", "*.rt")):
        numbers.update(constants(read(path)))
    rows = table()
    differ("rows", len(rows), len(listed))
    number = FIRST
    for (word, category), row in zip(listed, rows):
        name = word.upper() + "_KW"
        differ(word, row, (word, name, category))
        wanted = None
        if name not in engine:
            wanted = number
            number += 1
        differ(name, numbers.get(name, "no constant"), wanted)
    print(f"{len(listed)} words, kinds up to {number - 1}, {wrong} wrong")
    sys.exit(1 if wrong else 0)


if __name__ == "__main__":
    main()
