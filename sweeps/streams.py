#!/usr/bin/env python3
"""streams.py PROGRAM: cuts, interrupts and fails the program's reads and writes, by count.

Over a small document, byte by byte, and over one of a megabyte, in pieces of 4096 bytes: each read and each write in turn moves one byte,
is interrupted once, is interrupted seven times running, or fails. Short and interrupted ones change nothing; a read that fails ends with
status 8, `io` and nothing written, and a write that fails, or moves nothing, with status 8, `io` and the bytes of the writes before it. Before, documents
of all faults with a standard output and a standard error that take nothing."""
import subprocess
import sys

import documents
from program import Answer, Program, Tally


def megabyte():
    """A document of a megabyte of words in one node, and its answer."""
    words = 40000
    tokens = [["ident", 1], ["whitespace", 1]] * words
    document = documents.document("a " * words, tokens, documents.in_one_node(words))
    answer = ["enter 700"] + ['token 3 "a"', 'token 639 " "'] * (words - 1) + ['token 3 "a"', 'token 639 " "', "exit", "all"]
    return document, documents.lines(*answer)


def sweep_calls(program, call, document, wanted, most, count, tally):
    """Changes each of so many calls, none of which moves more than `most` bytes."""
    for at in range(1, count + 1):
        plan = dict(CALL=call, CALL_MOST=most, CALL_AT=at)
        for how, times in (("short", 1), ("interrupt", 1), ("interrupt", 7)):
            answer = program.run_refused(document, CALL_HOW=how, CALL_TIMES=times, **plan)
            tally.expect(f"{call} {at}: {how} {times} times", answer, f"{how} {times}", wanted)
        written = wanted.lines[:(at - 1) * most] if call == "write" else b""
        for how in ("fail", "nothing") if call == "write" else ("fail",):
            answer = program.run_refused(document, CALL_HOW=how, **plan)
            tally.expect(f"{call} {at}: {how}", answer, how, Answer(8, written, b"io\n"))


def sweep(program, name, document, wanted, most):
    tally = Tally()
    answer, counts = program.counted(document, CALL_MOST=most)
    tally.expect(f"{name}: nothing changed", answer, "plain", wanted)
    sweep_calls(program, "read", document, wanted, most, counts.reads, tally)
    sweep_calls(program, "write", document, wanted, most, counts.writes, tally)
    for call, count in (("read", counts.reads), ("write", counts.writes)):
        answer = program.run_refused(document, CALL=call, CALL_MOST=most, CALL_AT=count + 1, CALL_HOW="fail")
        tally.expect(f"{call} {count + 1}, which isn't made, fails", answer, "behind the last", wanted)
    print(f"streams, {name}: {len(document)} bytes in {counts.reads} reads, {len(wanted.lines)} in {counts.writes} writes; {tally}")
    return tally.wrong


def sweep_closed(program):
    """The status stays where standard output or standard error takes nothing."""
    tally = Tally()
    for name, document, wanted in (*documents.answered(), *documents.refused()):
        with open("/dev/full", "w") as full:
            done = subprocess.run([program.path], input=document, stdout=subprocess.PIPE, stderr=full)
            tally.expect(f"{name}: no standard error", Answer(done.returncode, done.stdout, wanted.fault), "no standard error", wanted)
            done = subprocess.run([program.path], input=document, stdout=full, stderr=subprocess.PIPE)
            if wanted.status == 0:
                wanted = Answer(8, wanted.lines, b"io\n")
            tally.expect(f"{name}: no standard output", Answer(done.returncode, wanted.lines, done.stderr), "no standard output", wanted)
    print(f"streams, nothing is taken: {tally}")
    return tally.wrong


def main():
    program = Program(sys.argv[1])
    wrong = sweep_closed(program)
    wrong += sweep(program, "a small document", documents.NAME, documents.NAME_LINES, 1)
    wrong += sweep(program, "a megabyte", *megabyte(), 4096)
    return 1 if wrong else 0


if __name__ == "__main__":
    sys.exit(main())
