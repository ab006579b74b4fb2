#!/usr/bin/env python3
"""cuts.py PROGRAM: each document of examples/ cut at each byte, and with each byte in turn one that no text has. A beginning that ends
before the last brace, and a document with such a byte, is `json`, with nothing written."""
import sys

import documents
from program import Program, Tally


def main():
    program = Program(sys.argv[1])
    tally = Tally()
    for name, document, wanted in documents.examples():
        tally.expect(name, program.run(document), "whole", wanted)
        end = document.rindex(b"}")
        for place in range(len(document)):
            cut = document[:place]
            json = documents.fault(2, "json")
            if place <= end:
                tally.expect(f"{name} cut at {place}", program.run(cut), "cut", json)
            else:
                tally.expect(f"{name} cut at {place}", program.run(cut), "cut behind the end", wanted)
            changed = cut + b"\xff" + document[place + 1:]
            tally.expect(f"{name} with a byte at {place}", program.run(changed), "changed", json)
    print(f"cuts: {tally}")
    return 1 if tally.wrong else 0


if __name__ == "__main__":
    sys.exit(main())
