#!/usr/bin/env python3
"""Lints SQL files on a Dask cluster: syntax errors, and three rules in the manner of Squawk.

    dask_lint.py migrations 's3://bucket/2026-*'
    dask_lint.py s3://bucket --scheduler tcp://10.0.0.1:8786

A URL names a folder, bucket, file or glob for fsspec, and all *.sql there and below are linted; fsspec passes over
folders that it can't list. Without --scheduler the workers are processes on this machine. A cluster is `dask scheduler`
on one machine and `dask worker ADDRESS --nworkers -1 --nthreads 1` on each that works. All machines have the same
versions of Python, caliperdock, distributed, fsspec and what it needs, as s3fs, and a URL names the same files on each.

Status: 0 without findings, 1 with some, 2 with wrong arguments, 3 where a file can't be read or the cluster fails.
"""
import argparse
import re
import sys
from bisect import bisect_right
from typing import Iterator, Optional, Sequence

import caliperdock
from caliperdock import Node, Part, SyntaxKind
from distributed import Client, KilledWorker
from fsspec.core import OpenFile, url_to_fs
from toolz import partition_all

# A path, a line, a column, a rule and a message: a tuple, so that no class has to reach the workers.
Finding = tuple[str, int, int, str, str]

# How many files a task takes at most: Dask spends more time on a task than a worker does on a small file.
BATCH = 50
UNREADABLE = "unreadable"


def inside(node: Node, *kinds: SyntaxKind) -> list[Node]:
    """The nodes and tokens of these kinds directly in a node."""
    return [child for child in node.children if child.kind in kinds]


def broken_rules(statement: Node) -> Iterator[tuple[int, str, str]]:
    """Where a statement breaks rules: the character, the rule and its message."""
    if statement.kind == "CREATE_INDEX" and not inside(statement, "CONCURRENTLY_KW"):
        yield statement.start, "require-concurrent-index-creation", "CREATE INDEX without CONCURRENTLY"
    if statement.kind == "ALTER_TABLE":
        for action in inside(statement, "DROP_COLUMN"):
            yield action.start, "ban-drop-column", "programs may use the column"
        for action in inside(statement, "ADD_COLUMN"):
            for column in inside(action, "COLUMN_DEF"):
                has_value = inside(column, "DEFAULT_CONSTRAINT", "GENERATED_CONSTRAINT", "IDENTITY_CONSTRAINT")
                if inside(column, "NOT_NULL_CONSTRAINT") and not has_value:
                    yield column.start, "adding-not-nullable-field", "rows that stand may have no value"


def lint(file: OpenFile) -> list[Finding]:
    """What is found in a file, of which a part is held at once. Lines and columns count from 1, columns in characters."""
    name = file.full_name.removeprefix("file://")
    findings, line, column = [], 1, 1
    try:
        with file as stream:
            for part in caliperdock.parts(stream):
                lines = [0, *(newline.end() for newline in re.finditer("\n", part.text))]
                for at, rule, message in found_in(part):
                    index = bisect_right(lines, at) - 1
                    findings.append((name, line + index, at - lines[index] + (1 if index else column), rule, message))
                column = len(part.text) - lines[-1] + (1 if len(lines) > 1 else column)
                line += len(lines) - 1
    except caliperdock.Refused as refused:
        findings.append((name, line, column, UNREADABLE, str(refused)))
    except Exception as error:  # each kind of storage has its own
        findings.append((name, line, column, UNREADABLE, repr(error)))
    return findings


def found_in(part: Part) -> Iterator[tuple[int, str, str]]:
    """What is found in statements: the character, the rule and its message."""
    for error in part.errors:
        yield error.start, "syntax-error", f"{error.message} ({error.hint})" if error.hint else error.message
    for statement in part.root.children:
        yield from broken_rules(statement)


def lint_all(files: Sequence[OpenFile]) -> list[Finding]:
    """What is found in a batch of files: a task, which runs on a worker."""
    return [finding for file in files for finding in lint(file)]


def files_at(url: str) -> Iterator[OpenFile]:
    """The SQL files at a URL and below; an error where there is nothing at all."""
    storage, top = url_to_fs(url)
    for path in storage.expand_path(top, recursive=True):
        if path.endswith(".sql") and not storage.isdir(path):
            yield OpenFile(storage, path)


def connect(scheduler: Optional[str], workers: Optional[int]) -> Client:
    """Joins a cluster, or starts one on loopback."""
    if scheduler:
        return Client(scheduler)
    # Without a dashboard Dask serves HTTP all the same: on loopback, too, where it is given an address.
    http = {"dashboard_address": "127.0.0.1:0", "worker_dashboard_address": "127.0.0.1:0"}
    hidden = {"dashboard": False}
    return Client(host="127.0.0.1", n_workers=workers, threads_per_worker=1, scheduler_kwargs=hidden, **http)


def main(arguments: Optional[Sequence[str]] = None) -> int:
    parser = argparse.ArgumentParser(description=__doc__, formatter_class=argparse.RawDescriptionHelpFormatter)
    parser.add_argument("urls", metavar="URL", nargs="+")
    where = parser.add_mutually_exclusive_group()
    where.add_argument("--scheduler", metavar="ADDRESS", help="the cluster to join")
    where.add_argument("--workers", metavar="N", type=int, help="how many processes to start, else one for each CPU")
    args = parser.parse_args(arguments)
    if args.workers is not None and args.workers < 1:
        parser.error("--workers takes a number from 1 on")

    files: dict[str, OpenFile] = {}
    findings: list[Finding] = []
    for url in args.urls:
        try:
            files.update((file.full_name, file) for file in files_at(url))
        except Exception as error:  # each kind of storage has its own
            findings.append((url, 1, 1, UNREADABLE, repr(error)))
    try:
        with connect(args.scheduler, args.workers) as client:
            # A few files are shared out, too: there are some four tasks for each worker, or more.
            size = min(BATCH, len(files) // (4 * max(1, len(client.nthreads()))) + 1)
            tasks = client.map(lint_all, list(partition_all(size, files.values())), pure=False)
            for found in client.gather(tasks):
                findings += found
    except (OSError, ValueError, ImportError, KilledWorker) as error:
        print(f"dask_lint.py: {error}", file=sys.stderr)
        return 3

    for finding in sorted(findings):
        print("{}:{}:{}: {}: {}".format(*finding))
    unreadable = sum(finding[3] == UNREADABLE for finding in findings)
    print(f"files: {len(files)}, findings: {len(findings) - unreadable}, unreadable: {unreadable}")
    return 3 if unreadable else 1 if findings else 0


if __name__ == "__main__":
    sys.exit(main())
