"""Documents with their answers, which were worked out by hand."""
import glob
import json
import os

from program import HERE, Answer

NO_WORDS = {"operator_first": [], "names": []}
NO_KEYWORDS = {"keywords": [], "contextual": []}


def document(text, tokens, calls, words=NO_WORDS, vocabulary=NO_KEYWORDS, entry="sql"):
    members = {"text": text, "tokens": tokens, "words": words, "vocabulary": vocabulary, "entry": entry, "calls": calls}
    return json.dumps(members, separators=(",", ":"), ensure_ascii=False).encode()


def lines(*items):
    return Answer(0, "".join(item + "\n" for item in items).encode(), b"")


def fault(status, line):
    return Answer(status, b"", line.encode() + b"\n")


WORD = ["ident", 1]
SPACE = ["whitespace", 1]


def in_one_node(tokens):
    """The calls that put so many tokens into one node."""
    return [["start"]] + [["bump_any"]] * tokens + [["complete", 0, 700]]


NAME = document(
    "x ", [WORD, SPACE],
    [["start"], ["start"], ["bump_any"], ["complete", 1, 701], ["error", "e"], ["complete", 0, 700]])
NAME_LINES = lines("enter 700", "enter 701", 'token 3 "x"', 'error 1 "e"', "exit", 'token 639 " "', "exit", "all")


def answered():
    """Documents that are answered with lines: a name, the document, its answer."""
    nothing = document("", [], in_one_node(0))
    yield "a node over nothing", nothing, lines("enter 700", "exit", "all")
    yield "an error behind a node", NAME, NAME_LINES
    left = document("a b", [WORD, SPACE, WORD], in_one_node(1))
    yield "a token left", left, lines("enter 700", 'token 3 "a"', 'token 639 " "', "exit", "rest")
    yield from of_lexical_errors()
    yield from of_moved_nodes()
    yield from of_eaten_kinds()
    yield from of_the_small_grammar()


def of_lexical_errors():
    escape = document("E'\\u0'", [["esc_str", 6, True]], in_one_node(1))
    yield "a short escape", escape, lines(
        r'lex 2..5 "incomplete unicode escape" "expected 4 hex digits, like `\\uXXXX`"',
        "enter 700", r'''token 41 "E'\\u0'"''', "exit", "all")
    string = document("'a", [["str", 2, False]], in_one_node(1))
    yield "an open string", string, lines(
        r'''lex 0..2 "missing trailing `'` symbol to terminate the string literal"''',
        "enter 700", '''token 35 "'a"''', "exit", "all")
    tokens = [["bit_str", 6, True], SPACE, ["byte_str", 5, True], SPACE, ["esc_str", 7, True]]
    strings = document(r"B'102' X'1G' E'\u00'", tokens, in_one_node(3))
    yield "three bad strings", strings, lines(
        r'lex 4..5 "\"2\" is not a valid binary digit"', r'lex 10..11 "\"G\" is not a valid hexadecimal digit"',
        r'lex 15..19 "incomplete unicode escape" "expected 4 hex digits, like `\\uXXXX`"',
        "enter 700", '''token 38 "B'102'"''', 'token 639 " "', '''token 37 "X'1G'"''', 'token 639 " "',
        r'''token 41 "E'\\u00'"''', "exit", "all")


def of_moved_nodes():
    path = document("foo.bar", [["ident", 3], ["dot", 1], ["ident", 3]], [
        ["start"], ["bump_any"], ["complete", 0, 706], ["precede", 0], ["bump_any"], ["bump_any"], ["complete", 1, 706]])
    yield "a preceded node", path, lines(
        "enter 706", "enter 706", 'token 3 "foo"', "exit", 'token 7 "."', 'token 3 "bar"', "exit", "all")
    three = [WORD, SPACE, WORD, SPACE, WORD]
    extended = document("a b c", three, [
        ["start"], ["start"], ["bump_any"], ["start"], ["bump_any"], ["start"], ["bump_any"], ["complete", 3, 705],
        ["extend_to", 3, 2], ["extend_to", 3, 1], ["complete", 0, 700]])
    yield "a node that is extended twice", extended, lines(
        "enter 700", "enter 705", 'token 3 "a"', 'token 639 " "', 'token 3 "b"', 'token 639 " "', 'token 3 "c"', "exit",
        "exit", "all")
    given_up = document("a b", [WORD, SPACE, WORD], [
        ["start"], ["start"], ["bump_any"], ["complete", 1, 701], ["precede", 1], ["abandon", 2], ["start"], ["bump_any"],
        ["complete", 3, 702], ["complete", 0, 700]])
    yield "a node in front that is given up", given_up, lines(
        "enter 700", "enter 701", 'token 3 "a"', "exit", 'token 639 " "', "enter 702", 'token 3 "b"', "exit", "exit", "all")
    in_front = document("a", [WORD], [
        ["start"], ["start"], ["start"], ["bump_any"], ["complete", 1, 705], ["precede", 1], ["complete", 3, 701],
        ["extend_to", 3, 2], ["complete", 0, 700]])
    yield "an extended node in front of another", in_front, lines(
        "enter 700", "enter 701", "enter 705", 'token 3 "a"', "exit", "exit", "exit", "all")
    crossing = document("a", [WORD], [["start"], ["start"], ["complete", 0, 703], ["bump_any"], ["complete", 1, 704]])
    yield "crossing markers", crossing, lines("enter 703", "enter 704", "exit", 'token 3 "a"', "exit", "all")


def of_eaten_kinds():
    keywords = {"keywords": [["is", 70], ["nfc", 72], ["normalized", 76]], "contextual": []}
    tokens = [WORD, SPACE, ["ident", 2], SPACE, ["ident", 3], SPACE, ["ident", 10]]
    normal = document(
        "x is nfc normalized", tokens, [["start"], ["bump_any"], ["eat", 644], ["complete", 0, 700]], vocabulary=keywords)
    yield "a sequence of keywords", normal, lines(
        "enter 700", 'token 3 "x"', 'token 639 " "', "enter 644", 'token 70 "is"', 'token 639 " "', "enter 665",
        'token 72 "nfc"', "exit", 'token 639 " "', 'token 76 "normalized"', "exit", "exit", "all")
    signs = {"operator_first": [15, 22, 24], "names": []}
    less = document(
        "<@-1", [["lt", 1], ["at", 1], ["minus", 1], ["int", 1, False, 10, 1]],
        [["start"], ["eat", 664], ["bump_any"], ["complete", 0, 700]], words=signs)
    yield "an operator", less, lines(
        "enter 700", "enter 664", 'token 22 "<"', 'token 15 "@"', 'token 24 "-"', "exit", 'token 33 "1"', "exit", "all")
    names = {"operator_first": [], "names": [[5, "SEMICOLON"]]}
    expected = document("a", [WORD], [["start"], ["bump_any"], ["expect", 5], ["complete", 0, 700]], words=names)
    yield "a kind that was expected", expected, lines("enter 700", 'token 3 "a"', 'error 1 "expected SEMICOLON"', "exit", "all")
    skipped = document(" ,", [SPACE, ["comma", 1]], [["start"], ["err_and_bump", "\n"], ["complete", 0, 700]])
    yield "a skipped token", skipped, lines(
        "enter 700", 'token 639 " "', "enter 2", r'error 1 "\n"', 'token 6 ","', "exit", "exit", "all")


def of_the_small_grammar():
    yield "no operand", document("", [], [], entry="tiny"), lines(
        "enter 720", "enter 722", 'error 0 "expected operand"', "exit", "exit", "all")
    rest = document("a b", [WORD, SPACE, WORD], [], entry="tiny")
    yield "a token behind an operand", rest, lines(
        "enter 720", "enter 722", 'token 3 "a"', "exit", 'token 639 " "', "enter 2", 'error 2 "expected end"', 'token 3 "b"',
        "exit", "exit", "all")
    tokens = [WORD, ["plus", 1], WORD, ["star", 1], ["int", 1, False, 10, 1]]
    yield "two operators", document("a+b*1", tokens, [], entry="tiny"), lines(
        "enter 720", "enter 721", "enter 721", "enter 722", 'token 3 "a"', "exit", "enter 664", 'token 27 "+"', "exit", "enter 722", 'token 3 "b"', "exit", "exit", "enter 664", 'token 28 "*"', "exit", "enter 722", 'token 33 "1"', "exit",
        "exit", "exit", "all")


def refused():
    """Documents that are refused: a name, the document, its fault."""
    start = [["start"]]
    node = ["complete", 0, 700]
    yield "no JSON", b"{", fault(2, "json")
    yield "a byte that is no text", b"\xff", fault(2, "json")
    yield "a kind with a fraction", document("", [], [["start"], ["complete", 0, 700.5]]), fault(2, "shape")
    yield "a kind with a sign", document("", [], [["start"], ["complete", 0, -1]]), fault(2, "shape")
    yield "an unknown entry", document("", [], in_one_node(0), entry="pg"), fault(2, "shape")
    yield "calls for the small grammar", document("", [], start, entry="tiny"), fault(2, "shape")
    yield "an empty token", document("", [["ident", 0]], in_one_node(0)), fault(3, "bad token 0")
    yield "a text left", document("ab", [WORD], in_one_node(1)), fault(3, "text left at 1")
    yield "an open marker", document("", [], start), fault(4, "unspent 0")
    yield "a marker that isn't there", document("", [], [node]), fault(4, "bad call 0")
    yield "two nodes", document("", [], [["start"], node, ["start"], ["complete", 1, 700]]), fault(6, "does not fit")
    yield "no node", document("", [], []), fault(6, "does not fit")


def examples():
    """The documents of examples/, with the answers beside them."""
    for path in sorted(glob.glob(os.path.join(HERE, "..", "examples", "*.json"))):
        with open(path, "rb") as file, open(path[:-len("json")] + "txt", "rb") as answer:
            yield os.path.basename(path), file.read(), Answer(0, answer.read(), b"")
