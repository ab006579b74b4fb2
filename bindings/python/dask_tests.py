"""Tests of examples/dask_lint.py on clusters of its own, on loopback: python3 -m unittest dask_tests."""
import contextlib
import io
import os
import pathlib
import subprocess
import sys
import tempfile
import unittest

import caliperdock
import fsspec
from distributed import LocalCluster

EXAMPLES = pathlib.Path(__file__).resolve().parent.parent.parent / "examples"
sys.path.append(str(EXAMPLES))

import dask_lint  # noqa: E402

NOT_NULL = "adding-not-nullable-field: rows that stand may have no value"
DROPPED = "ban-drop-column: programs may use the column"
LOCKED = "require-concurrent-index-creation: CREATE INDEX without CONCURRENTLY"

COLUMNS = """\
alter table t add a text not null, add column if not exists b text constraint c not null;
alter table t
    add c text not null default '',
    add d bigint not null generated always as identity,
    add e bigint generated always as (d * 2) stored not null,
    add f text,
    drop g,
\tdrop column if exists h cascade;
alter foreign table t drop a;
alter table t drop constraint c, alter a drop not null;
create table u (a text not null);
alter table u drop a;
"""

INDEXES = """\
create index concurrently a on t (b);\r
\r
/* é */ create unique index c on t (d);\r
drop index a; create index if not exists a on t (b)"""

# Files, and what is found in them, worked out by hand.
FILES = {
    "below.sql/errors.sql": ("-- é\nselect 'é', f('é';\nselect 1;\n", ["2:18: syntax-error: expected )"]),
    "below.sql/indexes.sql": (INDEXES, [f"3:9: {LOCKED}", f"4:15: {LOCKED}"]),
    "columns.sql": (
        COLUMNS,
        [f"1:19: {NOT_NULL}", f"1:61: {NOT_NULL}", f"7:5: {DROPPED}", f"8:2: {DROPPED}", f"12:15: {DROPPED}"],
    ),
    "empty.sql": ("", []),
    "notes.txt": ("select (", []),
}


def lines_of(folder, names=tuple(FILES)):
    """What is printed of these files in a folder."""
    return [f"{folder}/{name}:{found}" for name in names for found in FILES[name][1]]


class Folder(unittest.TestCase):
    """The example as a program, in a folder of files."""

    def setUp(self):
        scratch = tempfile.TemporaryDirectory()
        self.addCleanup(scratch.cleanup)
        self.folder = pathlib.Path(scratch.name).resolve()
        for name, (text, _) in FILES.items():
            self.write(name, text)

    def write(self, name, text):
        path = self.folder / name
        path.parent.mkdir(exist_ok=True)
        path.write_bytes(text.encode())

    def check(self, arguments, lines, status):
        """What it prints, and its status, with the package that is tested here."""
        package = pathlib.Path(caliperdock.__file__).resolve().parent
        run = subprocess.run(
            [sys.executable, EXAMPLES / "dask_lint.py", *arguments],
            capture_output=True, text=True, cwd=self.folder, env={**os.environ, "PYTHONPATH": str(package.parent)},
        )
        self.assertEqual((run.stdout.splitlines(), run.returncode), (lines, status), run.stderr)

    def test_workers(self):
        for workers in ("1", "2"):
            with self.subTest(workers=workers):
                lines = [*lines_of(self.folder), "files: 4, findings: 8, unreadable: 0"]
                self.check([self.folder, "--workers", workers], lines, 1)

    def test_batches(self):
        """Each file is linted once, in one of several batches, also where two URLs name it."""
        names = [f"many/{number}.sql" for number in range(2 * dask_lint.BATCH + 1)]
        for name in names:
            self.write(name, "create index on t (a)")
        lines = [f"{self.folder}/{name}:1:1: {LOCKED}" for name in sorted(names)]
        count = f"files: {len(names)}, findings: {len(names)}, unreadable: 0"
        self.check(["many", f"file://{self.folder}/many/1*", "--workers", "2"], [*lines, count], 1)

    def test_parts(self):
        """Lines and columns count on from part to part, and what stands before a fault is linted."""
        text = "select 1;\n" * 20_000 + "select 2; " * 20_000 + "create index on t (a);\n/* é */ create index on t (a);\n"
        (self.folder / "a.sql").write_bytes(text.encode() + b"\xff")
        lines = [
            f"{self.folder}/a.sql:20001:200001: {LOCKED}",
            f"{self.folder}/a.sql:20002:9: {LOCKED}",
            f"{self.folder}/a.sql:20002:31: unreadable: the text isn't UTF-8 at byte 400055",
            "files: 1, findings: 2, unreadable: 1",
        ]
        self.check(["a.sql", "--workers", "1"], lines, 3)

    def test_unreadable(self):
        """What can't be read is told, and the rest is linted."""
        (self.folder / "a.sql").write_bytes(b"select 'caf\xe9';\n")
        (self.folder / "b.sql").symlink_to("nowhere")
        lines = [
            f"{self.folder}/a.sql:1:1: unreadable: the text isn't UTF-8 at byte 11",
            f"{self.folder}/b.sql:1:1: unreadable: FileNotFoundError(2, 'No such file or directory')",
            *lines_of(self.folder),
            f"nowhere:1:1: unreadable: FileNotFoundError(['{self.folder}/nowhere'])",
            "files: 6, findings: 8, unreadable: 3",
        ]
        self.check(["nowhere", self.folder, "--workers", "2"], lines, 3)

    def test_no_files(self):
        (self.folder / "none").mkdir()
        self.check(["none", "--workers", "1"], ["files: 0, findings: 0, unreadable: 0"], 0)

    def test_wrong_arguments(self):
        for arguments in ("", ". --workers 0", ". --workers two", ". --workers 2 --scheduler localhost:1"):
            with self.subTest(arguments=arguments):
                self.check(arguments.split(), [], 2)

    def test_no_cluster(self):
        self.check([self.folder, "--scheduler", "an address without a port"], [], 3)


class Bucket(unittest.TestCase):
    """Files in the memory of this process, and a cluster in it to join."""

    def check(self, cluster, urls, names):
        told = io.StringIO()
        with contextlib.redirect_stdout(told):
            status = dask_lint.main([*urls, "--scheduler", cluster.scheduler_address])
        lines = lines_of("memory:///bucket", names)
        self.assertEqual((told.getvalue().splitlines()[:-1], status), (lines, 1))

    def test_bucket(self):
        storage = fsspec.filesystem("memory")
        self.addCleanup(storage.rm, "/bucket", recursive=True)
        for name, (text, _) in FILES.items():
            storage.pipe(f"/bucket/{name}", text.encode())
        pages = {"dashboard_address": "127.0.0.1:0", "worker_dashboard_address": "127.0.0.1:0"}
        with LocalCluster(n_workers=2, threads_per_worker=1, processes=False, **pages) as cluster:
            self.check(cluster, ["memory://bucket"], FILES)
            self.check(cluster, ["memory://bucket/b*", "memory://bucket/columns.sql"], list(FILES)[:3])


if __name__ == "__main__":
    unittest.main()
