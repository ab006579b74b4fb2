"""Runs the program, alone or with refuse.c preloaded."""
import os
import subprocess
import tempfile
from typing import NamedTuple

HERE = os.path.dirname(os.path.abspath(__file__))


class Answer(NamedTuple):
    status: int
    lines: bytes
    fault: bytes


class Counts(NamedTuple):
    growths: int
    reads: int
    writes: int


MEMORY = Answer(7, b"", b"memory\n")


class Program:
    def __init__(self, path):
        self.path = os.path.abspath(path)
        self.folder = tempfile.TemporaryDirectory()
        self.refuse = os.path.join(self.folder.name, "refuse.so")
        self.counts = os.path.join(self.folder.name, "counts")
        source = os.path.join(HERE, "refuse.c")
        subprocess.run(["cc", "-O2", "-shared", "-fPIC", "-o", self.refuse, source, "-ldl"], check=True)

    def run(self, document, seconds=120):
        """The answer to a document, with nothing preloaded."""
        return self._answer(document, dict(os.environ), seconds)

    def run_refused(self, document, seconds=120, **plan):
        """The answer to a document, with what the plan says refused (refuse.c has its words)."""
        plan = {name: str(value) for name, value in plan.items()}
        return self._answer(document, dict(os.environ, LD_PRELOAD=self.refuse, **plan), seconds)

    def counted(self, document, seconds=120, **plan):
        """The answer to a document, and how many growths, reads and writes there were."""
        answer = self.run_refused(document, seconds, COUNTS=self.counts, **plan)
        with open(self.counts) as file:
            return answer, Counts(*map(int, file.read().split()))

    def command(self):
        return [self.path]

    def _answer(self, document, env, seconds):
        done = subprocess.run(self.command(), input=document, capture_output=True, env=env, timeout=seconds)
        return Answer(done.returncode, done.stdout, done.stderr)


class Tally:
    """What a sweep saw: how many runs ended in each of the ways that are right, and each that ended otherwise."""

    def __init__(self):
        self.runs = 0
        self.ways = {}
        self.wrong = 0

    def note(self, way):
        self.runs += 1
        self.ways[way] = self.ways.get(way, 0) + 1

    def note_wrong(self, what, answer):
        self.runs += 1
        self.wrong += 1
        print(f"WRONG {what}: status {answer.status}, {len(answer.lines)} bytes {answer.lines[:60]!r}, {answer.fault[:60]!r}")

    def expect(self, what, answer, way, wanted):
        if answer == wanted:
            self.note(way)
        else:
            self.note_wrong(what, answer)

    def __str__(self):
        ways = ", ".join(f"{count} {way}" for way, count in self.ways.items())
        return f"{self.runs} runs: {ways}, {self.wrong} wrong"
