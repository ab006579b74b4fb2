#!/usr/bin/env python3
"""mutations.py PROGRAM [RUNS [SEED]]: the documents of documents.py and of examples/ with one to three places changed at random: bytes put in,
taken out, doubled or exchanged, or members, items and numbers. Each run must end with lines of the format, or with one of the lines of faults and
its status and nothing on standard output; with `json` exactly where Python's reader finds no JSON; and with the first bad call or the least open
marker exactly where the rules of docs/FORMAT.md, told here once more, find one behind good tokens. Numbers that are too large, which Python reads,
and escapes of half a character may be `json`, too."""
import json
import random
import re
import sys

import documents
from program import Program, Tally

STRING = rb'"(?:[^"\\\x00-\x1f]|\\.)*"'
LINES = re.compile(
    rb"(?:lex \d+\.\.\d+ " + STRING + rb"(?: " + STRING + rb")?\n)*(?:enter \d+\n|exit\n|token \d+ " + STRING + rb"\n|error \d+ " + STRING
    + rb"\n)+(?:all|rest)\n")
FAULTS = {
    2: re.compile(rb"(?:json|shape)\n"), 3: re.compile(rb"(?:text too long|bad token \d+|text left at \d+)\n"),
    4: re.compile(rb"(?:bad call \d+|unspent \d+)\n"), 6: re.compile(rb"does not fit\n")}
MAY_BE_REFUSED = re.compile(rb"\\u[dD][89a-fA-F]|\d[eE]|\d{18}")
PIECES = [b"[", b"]", b"{", b"}", b",", b":", b'"', b"\\", b"0", b"1", b"9", b"-", b".", b"e", b" ", b"true", b"null", b"4294967295", b"65536", b"'",
          b"\xc3\xa9", b"\xc3", b"\x00", b'["start"],', b'["bump_any"],', b'["error","e"],', b'["precede",0],', b'["abandon",1],', b'["eat",664],']


def changed(document, chance):
    place = chance.randrange(len(document) + 1)
    end = min(len(document), place + chance.choice((1, 1, 1, 2, 5, 20)))
    way = chance.randrange(4)
    if way == 0:
        return document[:place] + chance.choice(PIECES) + document[place:]
    if way == 1:
        return document[:place] + document[end:]
    if way == 2:
        return document[:end] + document[place:]
    return document[:place] + chance.choice(PIECES) + document[end:]


CALLS = [["start"], ["bump_any"], ["complete", 0, 700], ["complete", 1, 701], ["complete", 2, 1], ["abandon", 0], ["abandon", 1], ["precede", 0],
         ["precede", 1], ["extend_to", 1, 0], ["extend_to", 2, 1], ["eat", 45], ["eat", 646], ["expect", 5], ["expect", 0], ["error", "e"],
         ["err_and_bump", "m"], ["bump_remap", 5], ["err_recover", "m", [3]]]
VALUES = CALLS + [
    None, True, 0, 1, 2, 3, 4, 45, 639, 640, 646, 658, 664, 700, 65535, 65536, 4294967295, 4294967296, -1, 0.5, "", "x", [], {}, "tiny", "plpgsql",
    ["whitespace", 1], ["ident", 1], ["unknown", 2], ["int", 1, False, 10, 1]]


def places(value):
    """The lists and objects in a value, with the keys of what stands in them."""
    if isinstance(value, (dict, list)):
        for key in value if isinstance(value, dict) else range(len(value)):
            yield value, key
            yield from places(value[key])


def changed_value(document, chance):
    value = json.loads(document)
    inside, key = chance.choice(list(places(value)))
    values = VALUES
    calls = value.get("calls") if isinstance(value, dict) else None
    if isinstance(calls, list) and calls and chance.randrange(2):
        inside, key, values = calls, chance.randrange(len(calls)), CALLS
    way = chance.randrange(4)
    if way == 0 or isinstance(inside, dict):
        inside[key] = chance.choice(values)
    elif way == 1:
        del inside[key]
    elif way == 2:
        inside.insert(key, chance.choice(values))
    else:
        other = chance.randrange(len(inside))
        inside[key], inside[other] = inside[other], inside[key]
    return json.dumps(value, separators=(",", ":"), ensure_ascii=False).encode()


def script_fault(calls):
    """The fault of a list of calls, none where all can be made."""
    markers = []

    def is_at(marker, state):
        return marker < len(markers) and markers[marker] == state

    for index, (name, *fields) in enumerate(calls):
        is_good = True
        if name == "complete":
            is_good = is_at(fields[0], "open") and fields[1] != 1
        elif name == "abandon":
            is_good = is_at(fields[0], "open")
        elif name == "precede":
            is_good = is_at(fields[0], "complete")
        elif name == "extend_to":
            is_good = is_at(fields[0], "complete") and is_at(fields[1], "open") and fields[1] < fields[0]
        elif name in ("eat", "expect"):
            is_good = fields[0] != 0 and fields[0] != 658 and not 646 <= fields[0] <= 655
        if not is_good:
            return f"bad call {index}\n".encode()
        if name in ("abandon", "precede", "extend_to"):
            markers[fields[-1]] = "spent"
        elif name == "complete":
            markers[fields[0]] = "complete"
        if name in ("start", "precede"):
            markers.append("open")
    return f"unspent {markers.index('open')}\n".encode() if "open" in markers else None


def refuse(_):
    raise ValueError


def is_json(document):
    try:
        json.loads(document.decode(), parse_constant=refuse)
        return True
    except ValueError:
        return False


def way_of(document, answer):
    """How a run ended, if rightly."""
    if answer.status in (0, 4, 6):
        script = script_fault(json.loads(document)["calls"])
        if script != (answer.fault if answer.status == 4 else None):
            return None
    if answer.status == 0:
        is_right = not answer.fault and LINES.fullmatch(answer.lines) and is_json(document)
        return "lines" if is_right else None
    fault = FAULTS.get(answer.status)
    if answer.lines or not fault or not fault.fullmatch(answer.fault):
        return None
    if answer.fault != b"json\n":
        return answer.fault.rstrip(b"\n0123456789 ").decode() if is_json(document) else None
    return "json" if not is_json(document) or MAY_BE_REFUSED.search(document) else None


def main():
    program = Program(sys.argv[1])
    runs = int(sys.argv[2]) if len(sys.argv) > 2 else 10000
    seed = int(sys.argv[3]) if len(sys.argv) > 3 else 1
    chance = random.Random(seed)
    whole = [document for _, document, _ in (*documents.answered(), *documents.refused(), *documents.examples())]
    tally = Tally()
    for run in range(runs):
        document = chance.choice(whole)
        change = changed if run % 4 == 0 or not is_json(document) else changed_value
        for _ in range(chance.choice((1, 1, 2, 3))):
            document = change(document, chance)
        answer = program.run(document)
        way = way_of(document, answer)
        if way:
            tally.note(way)
        else:
            tally.note_wrong(f"run {run}: {document!r}", answer)
    print(f"mutations, seed {seed}: {tally}")
    return 1 if tally.wrong else 0


if __name__ == "__main__":
    sys.exit(main())
