#!/usr/bin/env python3
"""tests.py TESTS WORD..: refuses memory to the tests whose names have one of the words.

TESTS is a test program, as `rt test` leaves it in a crate's out/. One run for each growth of each such test, in which that one is refused:
each must pass, as these tests do with the right answer or want of memory, and, where they ask twice, with the right answer one of the two times.
In `engine_tests`, `answer_tests` and `rule_tests` these are the tests of `memory`."""
import subprocess
import sys

from program import Program, Tally


class Test(Program):
    """A test program that runs one test."""

    def __init__(self, path, test):
        super().__init__(path)
        self.test = test

    def command(self):
        return [self.path, self.test]


def names(path, words):
    listed = subprocess.run([path, "--list"], capture_output=True, text=True, check=True).stdout
    tests = [line[:-len(": test")] for line in listed.splitlines() if line.endswith(": test")]
    return [test for test in tests if any(word in test for word in words)]


def main():
    path, words = sys.argv[1], sys.argv[2:]
    tally = Tally()
    growths = 0
    for test in names(path, words):
        program = Test(path, test)
        passed, counts = program.counted(b"")
        tally.expect(f"{test}: nothing refused", passed, "granted", passed._replace(status=0))
        growths += counts.growths
        for growth in range(1, counts.growths + 1):
            answer = program.run_refused(b"", REFUSE_GROWTH=growth)
            tally.expect(f"{test}: growth {growth} of {counts.growths} refused", answer, "passed", passed)
        print(f"{test}: {counts.growths} growths")
    print(f"tests: {growths} growths, {tally}")
    if growths == 0:
        print("WRONG: no test with such a name asks for memory")
    return 1 if tally.wrong or growths == 0 else 0


if __name__ == "__main__":
    sys.exit(main())
