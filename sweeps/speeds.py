#!/usr/bin/env python3
"""speeds.py PROGRAM [--most BYTES] [--modes]: how long `sql_tree --quiet` takes, and how much memory.

Over texts of make_sql.py of 1, 10 and 100 MB, up to BYTES, and over hostile texts of 200,000 and of 1,000,000
repeats; with --modes those of 200,000 in every mode, too. Prints the processor time, the user's and the system's, in
nanoseconds a byte: the least of three runs, or of nine short ones, less the least of runs over no text; of long
texts the user's alone, too. Prints the most memory, and for texts of 10 MB and more as a multiple of the text; of
smaller ones the program itself and this one count. A line SLOW tells where a byte takes more than 1.2 times as long
in the largest as in the smallest text, or in 1,000,000 repeats more than 1.3 times as long as in 200,000; a line
LARGE where there is more memory than ten times the text; a line WRONG tells of another status than 0 and 1.
Processor time grows, too, where others work beside."""
import argparse
import os
import subprocess
import sys
import tempfile

HERE = os.path.dirname(os.path.abspath(__file__))
SIZES = (1000000, 10000000, 100000000)
FEW, MANY = 200000, 1000000
LONG = 10000000
SHORT = 0.2
PART = 10000
HOSTILE = {
    "parentheses that open": "(", "parentheses that close": ")", "square brackets that open": "[", "semicolons": ";", "single quotes": "'",
    "double quotes": '"', "comments that open": "/*", "CASE": "case ", "BEGIN ATOMIC": "begin atomic ", "dollar signs": "$", "line feeds": "\n",
    "lines with errors": "1x\n", "errors in one line": "1x ", "strings that go on": "'a'\n", "bit strings that go on": "B'2'\n",
    "psql's commands": "\\g\n", "subqueries": "(select ", "joins": "join a using ", "operators": "+", "composites": "is not distinct from ",
    "dots": ".", "one number": "1", "one name": "é", "control signs": "\x01"}
BEFORE = {"BEGIN ATOMIC in a function": ("create function f() ", "begin atomic "),
          "CASE in a function": ("create function f() begin atomic ", "case "),
          "parentheses in a rule": ("create rule r as on insert to t do ", "(")}


def run(program, option, path):
    """The processor time, that of the user alone, the most memory and the status of a run."""
    files = [(os.POSIX_SPAWN_OPEN, 1, os.devnull, os.O_WRONLY, 0), (os.POSIX_SPAWN_OPEN, 2, os.devnull, os.O_WRONLY, 0)]
    child = os.posix_spawn(program, [program, *option, path], os.environ, file_actions=files)
    _, status, usage = os.wait4(child, 0)
    return usage.ru_utime + usage.ru_stime, usage.ru_utime, usage.ru_maxrss * 1024, os.waitstatus_to_exitcode(status)


class Measures:
    def __init__(self, program):
        self.program = os.path.abspath(program)
        self.faults = 0
        self.start = min(run(self.program, ("--quiet",), os.devnull)[0] for _ in range(20))

    def fault(self, line):
        self.faults += 1
        print(line, flush=True)

    def measure(self, what, path, option=("--quiet",)):
        """Nanoseconds a byte."""
        runs = [run(self.program, option, path) for _ in range(3)]
        if runs[0][0] < SHORT:
            runs += [run(self.program, option, path) for _ in range(6)]
        size = os.path.getsize(path)
        nanoseconds, memory = (min(one[0] for one in runs) - self.start) * 1e9 / size, max(one[2] for one in runs)
        user, times = "", ""
        if size >= LONG:
            user = f" ({min(one[1] for one in runs) * 1e9 / size:.1f} the user's)"
            times = f", {memory / size:.1f} times the text"
        status = runs[0][3]
        print(f"{what}: {size} bytes, {nanoseconds:.1f} ns a byte{user}, {memory / 1e6:.0f} MB{times}, status {status}", flush=True)
        if any(one[3] not in (0, 1) for one in runs):
            self.fault(f"WRONG {what}: statuses {[one[3] for one in runs]}")
        if size >= LONG and memory > 10 * size:
            self.fault(f"LARGE {what}: {memory / size:.1f} times the text")
        return nanoseconds

    def compare(self, what, small, large, most):
        if large > most * small:
            self.fault(f"SLOW {what}: {large / small:.2f} times as long a byte")


def write(path, before, piece, count):
    with open(path, "w") as file:
        file.write(before)
        # In parts, since the system counts what this process had, too.
        for _ in range(count // PART):
            file.write(piece * PART)


def main():
    parser = argparse.ArgumentParser(usage=__doc__)
    parser.add_argument("program")
    parser.add_argument("--most", type=int, default=SIZES[-1])
    parser.add_argument("--modes", action="store_true")
    arguments = parser.parse_args()
    measures = Measures(arguments.program)
    with tempfile.TemporaryDirectory() as folder:
        path = os.path.join(folder, "a.sql")
        found = []
        for size in [size for size in SIZES if size <= arguments.most]:
            with open(path, "wb") as file:
                subprocess.run([sys.executable, os.path.join(HERE, "make_sql.py"), str(size), "1"], stdout=file, check=True)
            found.append(measures.measure("mixed SQL", path))
        measures.compare("mixed SQL", found[0], found[-1], 1.2)
        shapes = {**{name: ("", piece) for name, piece in HOSTILE.items()}, **BEFORE}
        for name, (before, piece) in shapes.items():
            times = []
            for count in (FEW, MANY):
                write(path, before, piece, count)
                times.append(measures.measure(f"{name}, {count}", path))
            measures.compare(name, *times, 1.3)
        # Tags of dollar quotes, each another one.
        times = []
        for count in (FEW, MANY):
            with open(path, "w") as file:
                file.writelines(f"$t{number}" for number in range(count))
            times.append(measures.measure(f"tags of dollar quotes, {count}", path))
        measures.compare("tags of dollar quotes", *times, 1.3)
        if arguments.modes:
            for name, (before, piece) in shapes.items():
                write(path, before, piece, FEW)
                for option in ((), ("--json",), ("--statements",), ("--tokens",)):
                    measures.measure(f"{name}, {FEW}, {' '.join(option) or 'tree'}", path, option)
    print(f"speeds: {measures.faults} faults")
    sys.exit(1 if measures.faults else 0)


if __name__ == "__main__":
    main()
