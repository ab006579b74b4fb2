#!/usr/bin/env python3
"""endless.py PROGRAM: a reader that is interrupted for ever. The program gives up at its 4294967296th read, with status 8, `io` and nothing
written. A read that was interrupted 4294967295 times and then finds the end is no such reader: nothing is `json`."""
import sys
import time

from documents import fault
from program import Program, Tally

MOST_READS = 4294967296


def main():
    program = Program(sys.argv[1])
    tally = Tally()
    for times, wanted in ((2 * MOST_READS, fault(8, "io")), (MOST_READS - 1, fault(2, "json"))):
        begun = time.monotonic()
        plan = dict(CALL="read", CALL_HOW="interrupt", CALL_AT=1, CALL_TIMES=times)
        answer, counts = program.counted(b"", seconds=3600, **plan)
        tally.expect(f"{times} interruptions", answer, wanted.fault.decode().strip(), wanted)
        if counts.reads != MOST_READS:
            tally.note_wrong(f"{times} interruptions: {counts.reads} reads", answer)
        print(f"{times} interruptions: {counts.reads} reads in {time.monotonic() - begun:.0f} s")
    print(f"endless: {tally}")
    return 1 if tally.wrong else 0


if __name__ == "__main__":
    sys.exit(main())
