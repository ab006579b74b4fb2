#!/usr/bin/python3
"""real_sql.py FOLDER [PACKAGE..]: fetches SQL that people wrote into FOLDER: the files of Debian packages, and the
tests of PostgreSQL 15 and of its extensions from source packages. It needs `apt-get update` before, and `deb-src` for
the sources.

As a module: `statements(paths, seed)` gives the distinct statements of files, and of the SQL in folders."""
import glob
import gzip
import os
import random
import re
import subprocess
import sys
import tempfile

from postgres import COPY_COMMAND, ENDS_QUERY, copies, data_behind, files_in, line_behind, read

PACKAGES = """postgresql-15 postgresql-15-pgtap postgresql-15-partman postgresql-15-cron postgresql-15-postgis-3-scripts
    postgresql-15-mimeo postgresql-15-pgrouting-scripts postgresql-15-londiste-sql postgresql-15-pgq-node
    postgresql-15-pg-track-settings zabbix-server-pgsql roundcube-core bacula-director-pgsql gnunet prelude-manager
    gnumed-server mediawiki tt-rss icingaweb2-module-director icingaweb2 ledgersmb sql-ledger libchado-perl openqa davical
    osmosis sogo-common spamassassin request-tracker5 sqitch ocsinventory-reports cl-postmodern""".split()
# Each has tests in SQL.
SOURCES = """postgresql-15 extra-window-functions first-last-agg londiste-sql mimeo pg-rational pg-similarity pgaudit-1.7
    pglogical pglogical-ticker pgmemcache pgpcre pgq-node postgis postgresql-numeral postgresql-plsh
    postgresql-prioritize preprepare""".split()
# Other systems, whose SQL is another one.
OTHERS = {"mysql", "mariadb", "sqlite", "sqlite3", "oracle", "mssql"}
# Larger files are rows of data, most of them.
LARGEST = 4_000_000
# Parts of a text in psql's way: what may hold a semicolon is one part.
PART = re.compile(r"""
      (?P<trivia> \s+ | --[^\n]* | /\*(?:[^*/] | \*(?!/) | /(?!\*) | /\*(?:[^*]|\*(?!/))*\*/)*\*/ )
    | (?P<name> "(?:[^"]|"")*" )
    | (?P<value> [eE]'(?:[^'\\]|''|\\.)*' | '(?:[^']|'')*' | (?P<tag>\$(?:[^\W\d]\w*)?\$).*?(?P=tag) )
    | (?P<variable> (?<!:):(?:[^\W\d]\w*|'\w+'|"\w+"|\{\?\w+\}) )
    | (?P<word> [^\W\d][\w$]* )
    | (?P<number> \d[\w.]* | \.\d\w* )
    | (?P<command> \\; | \\[^\n]* )
    | (?P<sign> :: | := | . )""", re.VERBOSE | re.DOTALL)
# What stands for values in a shape.
VALUES = {"trivia": " ", "value": "''", "tag": "''", "number": "0"}


class Cut:
    """Cuts a text into statements. Those with a variable of psql are left out."""

    def __init__(self, text):
        self.text = text
        self.found = []
        self._begin()
        at = 0
        while at < len(text):
            part = PART.match(text, at)
            at = part.end()
            if part.lastgroup != "trivia":
                at = self._take(part)
        self._end()

    def _begin(self):
        self.first, self.last = None, None
        self.words, self.depth, self.blocks, self.is_plain = [], 0, 0, True

    def _end(self):
        if self.first is not None and self.is_plain:
            self.found.append(self.text[self.first:self.last])
        self._begin()

    def _take(self, part):
        """Takes a part that isn't trivia, and tells where to go on."""
        kind, text, at = part.lastgroup, part[0], part.end()
        if kind == "command":
            return self._take_command(part)
        if text == ";" and not self._is_inside():
            has_data = copies(self.words)
            self._end()
            return data_behind(self.text, line_behind(self.text, at)[1], 1)[1] if has_data else at
        self.first = part.start() if self.first is None else self.first
        self.last = at
        self.is_plain &= kind != "variable"
        self.depth = max(self.depth + {"(": 1, "[": 1, ")": -1, "]": -1}.get(text, 0), 0)
        self.words.append(text.lower() if kind == "word" and not self.depth else None)
        if kind == "word" and self.words[0] == "create" and {"function", "procedure"} & set(self.words[1:4]):
            self._count_blocks()
        return at

    def _take_command(self, part):
        text, at = part[0], part.end()
        if text == "\\;" or ENDS_QUERY.match(text):
            self._end()
        elif self.first is not None:
            self.is_plain = False
        if COPY_COMMAND.match(text):
            return data_behind(self.text, line_behind(self.text, at)[1], 1)[1]
        return at

    def _count_blocks(self):
        if self.words[-2:] == ["begin", "atomic"] or self.blocks and self.words[-1] == "case":
            self.blocks += 1
        elif self.blocks and self.words[-1] == "end":
            self.blocks -= 1

    def _is_inside(self):
        return self.blocks or self.depth and self.words[0] == "create" and "rule" in self.words[1:4]


def shape(statement):
    """A statement without its values, white space and comments."""
    return "".join(VALUES.get(part.lastgroup, part[0]) for part in PART.finditer(statement))


def statements(paths, seed=1):
    """Statements of these files and folders, one of each shape, in an order that the seed makes."""
    found = {}
    for path in files_in(paths):
        # CREATE EXTENSION puts a name in place of that word.
        text = (read(path) or "").removeprefix("\ufeff").replace("@extschema@", "extschema")
        for statement in Cut(text).found:
            found.setdefault(shape(statement), statement)
    shuffled = list(found.values())
    random.Random(seed).shuffle(shuffled)
    return shuffled


def is_sql(path):
    """Whether a file has SQL of PostgreSQL. Debian's dbconfig keeps it in files and folders named so."""
    parts = set(re.split(r"[./_-]", path.lower()))
    return (path.endswith((".sql", ".sql.gz")) or {"dbconfig", "pgsql"} <= parts) and not OTHERS & parts


def keep_all(inside, folder):
    """Copies the SQL below a folder to another one, unpacked and each text once, and counts the files."""
    kept = set()
    for path in glob.glob(os.path.join(inside, "**", "*"), recursive=True):
        if not os.path.isfile(path) or not is_sql(os.path.relpath(path, inside)):
            continue
        with (gzip.open if path.endswith(".gz") else open)(path, "rb") as file:
            text = file.read()
        if text in kept or len(text) > LARGEST:
            continue
        kept.add(text)
        target = os.path.join(folder, os.path.relpath(path, inside).removesuffix(".gz").removesuffix(".sql") + ".sql")
        os.makedirs(os.path.dirname(target), exist_ok=True)
        with open(target, "wb") as out:
            out.write(text)
    return len(kept)


def fetch(name, folder, download, unpack):
    """Downloads the archive of a package, and keeps the SQL in it, in a folder of its name."""
    with tempfile.TemporaryDirectory() as inside:
        done = subprocess.run(["apt-get", "-q", *download, name], cwd=inside, capture_output=True, text=True)
        archives = glob.glob(os.path.join(inside, "*.deb")) + glob.glob(os.path.join(inside, "*.tar.*[!c]"))
        if done.returncode or not archives:
            print(f"no {name}: {done.stderr.strip()[-200:]}")
            return
        subprocess.run([word.format(archives[0]) for word in unpack], cwd=inside, check=True)
        print(f"{keep_all(inside, os.path.join(folder, name.partition('/')[0]))} files of {name}")


def main(folder, packages):
    for package in packages or PACKAGES:
        fetch(package, folder, ["download"], ["dpkg-deb", "-x", "{}", "."])
    for source in [] if packages else SOURCES:
        download = ["source", "--download-only", "--tar-only"]
        fetch(f"{source}/bookworm", os.path.join(folder, "source"), download, ["tar", "-xf", "{}"])


if __name__ == "__main__":
    sys.exit(main(sys.argv[1], sys.argv[2:]))
