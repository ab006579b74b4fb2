#!/usr/bin/env python3
"""bounds.py PROGRAM: raw tokens of each kind with each field at its bounds and one past, and the numbers of calls, words and vocabularies
at theirs. The answers were worked out by hand, from docs/DEFINITIONS.md and docs/FORMAT.md."""
import json
import sys

from documents import NO_KEYWORDS, NO_WORDS, document, fault, in_one_node, lines
from program import Program, Tally

MOST = 4294967295
BAD = fault(3, "bad token 0")
SHAPE = fault(2, "shape")

PLAIN = {
    "unknown": 2, "line_comment": 4, "whitespace": 639, "ident": 3, "semi": 5, "comma": 6, "dot": 7, "dot_dot": 8, "open_paren": 9,
    "close_paren": 10, "open_bracket": 11, "close_bracket": 12, "open_curly": 13, "close_curly": 14, "at": 15, "pound": 16,
    "tilde": 17, "question": 18, "colon": 19, "eq": 20, "bang": 21, "lt": 22, "gt": 23, "minus": 24, "and": 25, "or": 26,
    "plus": 27, "star": 28, "slash": 29, "caret": 30, "percent": 31, "backtick": 32}

JUNK = "trailing junk after numeric literal"
NO_EXPONENT = "missing digits after the exponent symbol"
NO_DIGITS = "missing digits after the integer base prefix"
OPEN = "missing trailing `'` symbol to terminate the "


def token(kind, text, *errors):
    """The answer for a text of one raw token: its kind, and its lexical errors as ranges and messages."""
    errors = [f"lex {start}..{end} {json.dumps(message)}" for start, end, message in errors]
    return lines(*errors, "enter 700", f"token {kind} {json.dumps(text, ensure_ascii=False)}", "exit", "all")


def of_lengths():
    fields = {"block_comment": [True], "quoted_ident": [True, False], "psql_command": [True], "national_str": [True],
              "dollar_quoted_string": [True], "unicode_esc_str": [True]}
    kinds = {"block_comment": 4, "quoted_ident": 3, "psql_command": 44, "national_str": 36, "dollar_quoted_string": 39,
             "unicode_esc_str": 40}
    for spelling, kind in {**PLAIN, **kinds}.items():
        more = fields.get(spelling, [])
        yield "ab", [spelling, 2, *more], token(kind, "ab")
        yield "ab", [spelling, 1, *more], fault(3, "text left at 1")
        for length in (0, 3, MOST):
            yield "ab", [spelling, length, *more], BAD
        for length in (MOST + 1, -1):
            yield "ab", [spelling, length, *more], SHAPE
        yield "é", [spelling, 2, *more], token(kind, "é")
        yield "é", [spelling, 1, *more], BAD
        yield "ab", [spelling, 2, *more, 0], SHAPE
    for length in (0, 1, 2, 3):
        yield "ab", ["eof", length], BAD


def of_answers():
    yield "/*", ["block_comment", 2, False], token(4, "/*", (0, 2, "missing trailing `*/` symbols to terminate the block comment"))
    open_quote = "missing trailing \" to terminate the quoted identifier"
    for unicode in (False, True):
        yield '"a', ["quoted_ident", 2, False, unicode], token(3, '"a', (0, 2, open_quote))
    empty = "empty delimited identifier"
    yield '""', ["quoted_ident", 2, True, False], token(3, '""', (0, 2, empty))
    yield '""', ["quoted_ident", 2, True, True], token(3, '""')
    yield 'U&""', ["quoted_ident", 4, True, True], token(3, 'U&""', (0, 4, empty))
    yield 'U&""', ["quoted_ident", 4, True, False], token(3, 'U&""')
    yield "\\g", ["psql_command", 2, False], token(43, "\\g")
    names = {"str": (35, "string literal"), "national_str": (36, "national character string literal"),
             "byte_str": (37, "hex bit string literal"), "bit_str": (38, "bit string literal"),
             "unicode_esc_str": (40, "unicode escape string literal"), "esc_str": (41, "escape string literal")}
    for spelling, (kind, name) in names.items():
        yield "a", [spelling, 1, False], token(kind, "a", (0, 1, OPEN + name))
    open_dollar = "unterminated dollar quoted string literal"
    yield "a", ["dollar_quoted_string", 1, False], token(39, "a", (0, 1, open_dollar))


def of_quotes():
    for text in ("'", "a", "'a", "a'", "ab"):
        yield text, ["str", len(text), True], BAD
    yield "''", ["str", 2, True], token(35, "''")
    for spelling, kind in (("byte_str", 37), ("bit_str", 38), ("esc_str", 41)):
        for text in ("'", "''", "a'", "ab'", "a'b", "abc"):
            yield text, [spelling, len(text), True], BAD
        yield "a''", [spelling, 3, True], token(kind, "a''")


def of_parameters():
    junk = "trailing junk after positional parameter"
    for start, answer in ((0, BAD), (1, token(42, "$1a", (0, 1, "missing parameter number"))), (2, token(42, "$1a", (2, 3, junk))),
                          (3, BAD), (4, BAD), (MOST, BAD), (MOST + 1, SHAPE)):
        yield "$1a", ["positional_param", 3, start], answer
    yield "$12", ["positional_param", 3, 3], token(42, "$12")
    yield "$12", ["positional_param", 3, 4], BAD
    yield "$", ["positional_param", 1, 1], token(42, "$", (0, 1, "missing parameter number"))
    yield "a1", ["positional_param", 2, 2], BAD
    yield "$2147483647", ["positional_param", 11, 11], token(42, "$2147483647")
    yield "$2147483648", ["positional_param", 11, 11], token(42, "$2147483648", (0, 11, "parameter number too large"))
    zeros = "$" + "0" * 300 + "1"
    yield zeros, ["positional_param", 302, 302], token(42, zeros)


def of_integers():
    for base in (10, 16):
        for start in (0, 1, 2):
            yield "12a", ["int", 3, False, base, start], token(33, "12a", (start, 3, JUNK))
        yield "12a", ["int", 3, False, base, 3], token(33, "12a")
        for start in (4, MOST):
            yield "12a", ["int", 3, False, base, start], BAD
    for base, text, digit in ((2, "0b2", "invalid digit for a base 2 literal"), (8, "0o8", "invalid digit for a base 8 literal")):
        for start in (0, 1, 4, MOST):
            yield text, ["int", 3, False, base, start], BAD
        yield text, ["int", 3, False, base, 2], token(33, text, (2, 3, JUNK))
        yield text, ["int", 3, False, base, 3], token(33, text, (2, 3, digit))
        yield "0é", ["int", 3, False, base, 3], BAD
    yield "1é", ["int", 3, False, 10, 2], BAD
    yield "1é", ["int", 3, False, 10, 1], token(33, "1é", (1, 3, JUNK))
    for start in (0, 2, MOST):
        yield "0x", ["int", 2, True, 16, start], token(33, "0x", (0, 2, NO_DIGITS))
    yield "0x", ["int", 2, True, 16, MOST + 1], SHAPE
    for base in (0, 1, 3, 7, 9, 11, 15, 17, MOST + 1):
        yield "0x", ["int", 2, True, base, 0], SHAPE


def of_numerics():
    for start, answer in ((0, token(34, "1e", (0, 1, NO_EXPONENT))), (1, token(34, "1e", (1, 2, NO_EXPONENT))), (2, BAD), (MOST, BAD),
                          (MOST + 1, SHAPE)):
        yield "1e", ["numeric", 2, start, MOST], answer
    for start, answer in ((0, token(34, "1e", (0, 2, JUNK))), (1, token(34, "1e", (1, 2, JUNK))), (2, token(34, "1e")), (3, BAD),
                          (MOST, BAD), (MOST + 1, SHAPE)):
        yield "1e", ["numeric", 2, None, start], answer
    for start in (0, 1):
        yield "é", ["numeric", 2, start, 0], BAD
    yield "é", ["numeric", 2, None, 1], BAD


def of_calls():
    """Calls over the text `x`, with their answers."""
    start, bump, node = ["start"], ["bump_any"], ["complete", 0, 700]
    for kind, answer in ((0, lines("enter 0", 'token 3 "x"', "exit", "all")), (1, fault(4, "bad call 2")),
                         (65535, lines("enter 65535", 'token 3 "x"', "exit", "all")), (65536, SHAPE)):
        yield [start, bump, ["complete", 0, kind]], answer
    for marker, answer in ((1, fault(4, "bad call 2")), (MOST, fault(4, "bad call 2")), (MOST + 1, SHAPE)):
        yield [start, bump, ["complete", marker, 700]], answer
        yield [start, bump, ["abandon", marker]], answer
        yield [start, bump, ["precede", marker]], answer
    for kind in (0, 1, 640, 65535):
        yield [start, ["bump_remap", kind], node], lines("enter 700", f'token {kind} "x"', "exit", "all")
    for name, kind in (("eat", 0), ("expect", 0), ("eat", 646), ("expect", 655), ("eat", 658), ("expect", 658)):
        yield [start, [name, kind], node], fault(4, "bad call 1")
    left = lines("enter 700", "exit", "rest")
    for kind in (1, 656, 657, 659, 65535):
        yield [start, ["eat", kind], node], left
        yield [start, ["expect", kind], node], lines("enter 700", f'error 0 "expected {kind}"', "exit", "rest")
    for name in ("bump_remap", "eat", "expect"):
        yield [start, [name, 65536], node], SHAPE
    for kind, answer in ((0, None), (639, None), (640, SHAPE)):
        skipped = lines("enter 700", "enter 2", 'error 0 "m"', 'token 3 "x"', "exit", "exit", "all")
        yield [start, ["err_recover", "m", [kind]], node], answer or skipped
    yield [start, ["err_recover", "m", [3]], node], lines("enter 700", 'error 0 "m"', "exit", "rest")


def of_words():
    """Words of a grammar and vocabularies, with the answers of a node over the text `x`."""
    plain = lines("enter 700", 'token 3 "x"', "exit", "all")
    for kind, answer in ((0, SHAPE), (1, plain), (639, plain), (640, SHAPE)):
        yield {"operator_first": [kind], "names": []}, NO_KEYWORDS, answer
    for kind, answer in ((0, plain), (65535, plain), (65536, SHAPE)):
        yield {"operator_first": [], "names": [[kind, "n"]]}, NO_KEYWORDS, answer
    for kind in (2, 5, 45, 638):
        keyword = lines("enter 700", f'token {kind} "x"', "exit", "all")
        yield NO_WORDS, {"keywords": [["x", kind], ["x", 300]], "contextual": []}, keyword
        yield NO_WORDS, {"keywords": [], "contextual": [["x", kind]]}, plain
    for kind in (0, 1, 4, 639, 640, 65536):
        yield NO_WORDS, {"keywords": [["x", kind]], "contextual": []}, SHAPE
        yield NO_WORDS, {"keywords": [], "contextual": [["x", kind]]}, SHAPE


def main():
    program = Program(sys.argv[1])
    tally = Tally()
    one = in_one_node(1)
    x = [["ident", 1]]
    for rows in (of_lengths, of_answers, of_quotes, of_parameters, of_integers, of_numerics):
        for text, raw, answer in rows():
            tally.expect(f"{text!r} {raw}", program.run(document(text, [raw], one)), rows.__name__, answer)
    for calls, answer in of_calls():
        tally.expect(f"{calls}", program.run(document("x", x, calls)), "of_calls", answer)
    for words, vocabulary, answer in of_words():
        tally.expect(f"{words} {vocabulary}", program.run(document("x", x, one, words, vocabulary)), "of_words", answer)
    print(f"bounds: {tally}")
    return 1 if tally.wrong else 0


if __name__ == "__main__":
    sys.exit(main())
