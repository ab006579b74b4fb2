"""PostgreSQL's scanner, as Debian's python3-pglast has it (version 15), beside the raw tokens of `sql_tree`.

What the two are known to read differently is blanked in the judge's text before: `Compared` has the text that is
left, the raw tokens of the original, and why what was blanked. Places count characters. Faults of pglast that are
worked around: the place of a refusal has been taken for one in bytes; `U&` strings have no end, or make it fail."""
import os
import re
import subprocess
from bisect import bisect_left, bisect_right
from typing import NamedTuple

import pglast.parser as judge

QUOTED = {"Str", "EscStr", "BitStr", "ByteStr", "NationalStr", "UnicodeEscStr"}
BITS = {"BitStr", "ByteStr"}
BLANKED = "Blanked"
COMMENTS = {"LineComment", "BlockComment"}
NUMBERS = {"Int", "Numeric"}
JUNK = NUMBERS | {"PositionalParam"}
SIGNS = {"Op", "TYPECAST", "COLON_EQUALS", "EQUALS_GREATER", "LESS_EQUALS", "GREATER_EQUALS", "NOT_EQUALS"}
OPERATOR = "~!@#^&|`?+-*/%<>="
LONG = 100000
# White space between two strings that are one.
CONTINUED = re.compile(r"[ \t\f]*[\n\r][ \t\n\r\f]*")
NEWER_NUMBER = re.compile(r"0[xX](_?[0-9a-fA-F])+|0[oO](_?[0-7])+|0[bB](_?[01])+"
                          r"|(?=.*_)(\d(_?\d)*)?\.?(\d(_?\d)*)?([eE][-+]?\d(_?\d)*)?")
# What the scanner refuses, and a lexer without values doesn't look for; escapes of characters at their own places.
OF_CHARACTERS = "invalid Unicode"
OF_VALUES = {
    OF_CHARACTERS: "escapes that are no character",
    "invalid byte sequence for encoding": "escapes that are no UTF-8",
    "operator too long": "operators of 64 signs and more",
}
# Errors that aren't the lexer's.
GRAMMATICAL = re.compile("expected |closing |nested ")
STRING = re.compile(r"'(?:[^']|'')*'")
# The same with escapes, behind its E.
ESCAPED = re.compile(r"'(?:[^'\\]|''|\\.)*'(?!')", re.DOTALL)
BYTE_ESCAPE = re.compile(r"\\([0-3]?[0-7]|x[0-9a-fA-F])")


TRIVIA = {"Whitespace", "LineComment", "BlockComment"}
BRACKETS = {"OpenParen": 1, "OpenBracket": 1, "CloseParen": -1, "CloseBracket": -1}
ENDS_QUERY = re.compile(r"\\(g|gx|gexec|gset|gdesc|crosstabview|watch)(?![^\s\\])")
COPY_COMMAND = re.compile(r"\\(?i:copy)\s(?:[^()']|\([^()]*\))*\b(?i:from(?:\s|/\*.*?\*/)+(?:stdin|stdout))\b")


class Raw(NamedTuple):
    kind: str
    start: int
    end: int


class Listing(NamedTuple):
    """What the program printed of a text: lines of its listing, and errors as lines, columns and messages."""
    lines: list
    errors: list


def listed(program, option, paths):
    """Runs the program once over all files, and gives the listing of each."""
    done = subprocess.run([program, option, *paths], capture_output=True)
    if done.returncode not in (0, 1):
        raise SystemExit(f"WRONG status {done.returncode} of {option} {paths[0]} ..: {done.stderr[-200:]!r}")
    out, told = done.stdout.decode(), done.stderr.decode()
    listings = {path: Listing([], []) for path in paths}
    of = listings[paths[0]]
    for line in out.split("\n")[:-1]:
        if line[-1:] == ":" and line[:-1] in listings:
            of = listings[line[:-1]]
        else:
            of.lines.append(line)
    for line in told.split("\n"):
        found = re.match(r"(.*?):(\d+):(\d+): (.*)", line)
        if found and found[1] in listings:
            listings[found[1]].errors.append((int(found[2]), int(found[3]), found[4]))
    return [listings[path] for path in paths]


def characters(text, places):
    """The places in characters that are these in bytes, in the order of the text."""
    if text.isascii():
        return places
    data = text.encode()
    told, chars, at = [], 0, 0
    for place in places:
        chars += len(data[at:place].decode())
        at = place
        told.append(chars)
    return told


def raw_tokens(text, lines):
    kinds, spans = zip(*(line.split(" ") for line in lines)) if lines else ((), ())
    ends = characters(text, [int(span.split("..")[1]) for span in spans])
    return [Raw(kind, start, end) for kind, start, end in zip(kinds, [0, *ends], ends)]


def copies(words):
    """Whether data follow a statement of these words, where None stands for what is in brackets."""
    return words[:1] == ["copy"] and any(pair in (("from", "stdin"), ("from", "stdout")) for pair in zip(words, words[1:]))


def line_behind(text, start):
    """Where the line ends, and where the next one starts."""
    newline = text.find("\n", start)
    newline = len(text) if newline < 0 else newline
    return newline - text.endswith("\r", start, newline), newline + 1


def data_behind(text, start, waiting):
    """The lines of data for so many COPY statements, and where they end."""
    lines = []
    while waiting and start < len(text):
        end, behind = line_behind(text, start)
        if start < end:
            lines.append((start, end))
        waiting -= text[start:end] == "\\."
        start = behind
    return lines, start


def lines_of_data(text, raw):
    """The lines of data of COPY, as places in the text, and what stands before them on the lines of COPY."""
    lines, rests, words, depth, past, waiting = [], [], [], 0, 0, 0
    for kind, start, end in raw:
        if waiting and start >= rests[-1].stop and kind not in TRIVIA:
            found, past = data_behind(text, line_behind(text, rests[-1].start)[1], waiting)
            lines += found
            words, depth, waiting = [], 0, 0
        if start < past or kind in TRIVIA:
            continue
        if COPY_COMMAND.match(text, start, end) if kind == "PsqlCommand" else kind == "Semi" and copies(words):
            if not waiting:
                rests.append(range(end, line_behind(text, end)[0]))
            waiting += 1
        if kind == "PsqlCommand":
            words = [] if not words or ENDS_QUERY.match(text[start:end]) else [*words, None]
        elif kind == "Semi" and not (depth and words[:1] == ["create"] and "rule" in words[:4]):
            words = []
        else:
            depth = max(depth + BRACKETS.get(kind, 0), 0)
            words.append(None if depth or kind != "Ident" else text[start:end].lower())
        depth = depth if words else 0
    return lines, rests


class Compared:
    """A text with its raw tokens, and what is left of it for the judge."""

    def __init__(self, text, listing):
        self.text = text
        self.raw = raw_tokens(text, listing.lines)
        # As the program has them, where `raw` has commas for what is blanked.
        self.original = tuple(self.raw)
        self.starts = [token.start for token in self.raw]
        lines = [0] + [at + 1 for at, sign in enumerate(text) if sign == "\n"]
        self.errors = sorted(lines[line - 1] + column - 1 for line, column, message in listing.errors if not GRAMMATICAL.match(message))
        self.left = list(text)
        self.reasons = []
        # Problems for which there is no reason.
        self.unexplained = []
        # In a block semicolons end nothing; such texts are left to the tests.
        data, self.rests = ([], []) if "atomic" in text.lower() else lines_of_data(text, self.raw)
        if "atomic" not in text.lower():
            self._expect_commands(data)
        if len(text) > LONG and not text.isascii():
            self.left = [sign if sign.isascii() else "q" for sign in text]
            self.reasons.append("long texts, told with a q for each character beyond ASCII, since pglast is slow over these")
        self._blank_known()

    def _expect_commands(self, data):
        """Commands of psql are lines of data, by a second reading of the rule, or begin with a backslash."""
        commands = [(start, end) for kind, start, end in self.raw if kind == "PsqlCommand"]
        wanted = sorted({*data, *(place for place in commands if self.text[place[0]] == "\\")})
        for place in set(commands) ^ set(wanted):
            self.unexplained.append(f"{place[0]}..{place[1]} {self.text[slice(*place)][:40]!r} as data of COPY")

    def _blank_known(self):
        for at, (kind, start, end) in enumerate(self.raw):
            part = self.text[start:end]
            if kind == "PsqlCommand":
                self.blank(at, "commands of psql")
            elif kind != "Whitespace" and any(start in rest for rest in self.rests):
                self.blank(at, "tokens behind COPY on its line, which are cut as if the text ended there")
            elif at == 0 and part == "\ufeff":
                self.exchange(start, " ", "byte order marks, which psql skips")
            elif kind == "Whitespace" and "\v" in part:
                self.exchange(start, part.replace("\v", " "), "vertical tabs, white space since version 16")
            elif kind in NUMBERS and NEWER_NUMBER.fullmatch(part):
                self.exchange(start, self._older_number(part, end), "numbers as of version 16")
            elif kind in BITS and "''" in part[2:] or kind == "Str" and "''" in part[1:] and self._begun(at) in BITS:
                edge = 2 if kind in BITS else 1
                self.exchange(start + edge, part[edge:].replace("''", "11"), "FAULT: doubled quotes in bit strings, which end it")
            elif kind == "Str" and "\\" in part and self._begun(at) == "EscStr" and self._escapes_quotes(part):
                inner = len(part) - (2 if STRING.fullmatch(part) else 1)
                self.exchange(start + 1, "x" * inner, "FAULT: quotes behind backslashes, where an E string goes on")

    @staticmethod
    def _escapes_quotes(part):
        """Whether a string ends elsewhere where a backslash escapes a quote."""
        plain, escaped = STRING.fullmatch(part), ESCAPED.match(part)
        return (plain and plain[0]) != (escaped and escaped[0])

    def _older_number(self, part, end):
        """A number of the same length, or an identifier, which ends before a point, as a number of another base
        does."""
        if not part[1:2].isalpha():
            return part.replace("_", "1")
        return ("x" if self.text[end:end + 1] == "." else "1") * len(part)

    def _begun(self, at):
        """The kind of the string that this one goes on, over line ends."""
        while at >= 2 and self.raw[at].kind == "Str" and CONTINUED.fullmatch(self.text[self.raw[at - 1].start:self.raw[at - 1].end]):
            at -= 2
        return self.raw[at].kind

    def blank(self, at, reason):
        """Takes a raw token out of the judge's text, where a comma stands for it, so that no strings go on over it."""
        token = self.raw[at]
        self.left[token.start:token.end] = "," + " " * (token.end - token.start - 1)
        self.raw[at] = Raw(BLANKED, token.start, token.start + 1)
        self.reasons.append(reason)

    def exchange(self, start, part, reason):
        """Puts a part of the same length there in the judge's text."""
        self.left[start:start + len(part)] = part
        self.reasons.append(reason)

    def ask(self):
        """What the judge makes of the text, when all that it refuses is blanked."""
        while True:
            left = "".join(self.left)
            try:
                return judge.scan(left)
            except judge.ParseError as refused:
                self._blank_refused(left, *refused.args)
            except UnicodeDecodeError as refused:
                # The message ends within a character.
                self._blank_refused(left, refused.object.decode(errors="ignore"))
            except TypeError:
                self._blank_unicode()

    def _blank_refused(self, left, message, place=None):
        near = message.partition(' at or near "')[2][:-1]
        is_within = message.startswith(OF_CHARACTERS)
        at = self._token_near(near) if place is None else self._token_at(left, place, near, is_within)
        if at is None:
            self.unexplained.append(f"refused at {place}: {message!r}")
            self.left = [" "] * len(self.left)
            self.raw = []
            return
        last = self._goes_on_to(at)
        start, end = self.raw[at].start, self.raw[last].end
        found = bisect_left(self.errors, start)
        reason = "refused by both" if found < len(self.errors) and self.errors[found] <= end else None
        reason = reason or next((why for what, why in OF_VALUES.items() if message.startswith(what)), None)
        if reason is None:
            self.unexplained.append(f"refused: {message!r}: {self.text[start:end][:60]!r}")
        for token in range(at, last + 1):
            if self.raw[token].kind != "Whitespace":
                self.blank(token, reason or "unexplained")

    def _goes_on_to(self, at):
        """The last raw token of what the judge takes for one: of a string that goes on, or of an operator."""
        if self.raw[at].kind in QUOTED:
            for behind in range(at + 1, len(self.raw)):
                kind, start, _ = self.raw[behind]
                if kind == "Str" and CONTINUED.fullmatch("".join(self.left[self.raw[at].end:start])):
                    at = behind
                elif kind != "Whitespace":
                    break
        elif self.text[self.raw[at].start] in OPERATOR:
            while at + 1 < len(self.raw) and self.text[self.raw[at + 1].start] in OPERATOR and self.raw[at + 1].kind not in COMMENTS:
                at += 1
        return at

    def _token_at(self, left, place, near, is_within):
        """Which raw token stands where the judge refuses the text, with this text in front.

        Its place in characters was taken for one in bytes, so it is one of those that the bytes of a character have."""
        first = len(left[:place].encode())
        for char in range(first, first + len(left[place:place + 1].encode())):
            at = bisect_right(self.starts, char) - 1
            if self.raw[at].kind in ("Whitespace", BLANKED) or not left.startswith(near, char):
                continue
            # The N of a national string is a token by itself, and an escape is refused at its own place.
            within = char - self.starts[at]
            if within == 0 or self.raw[at].kind == "NationalStr" and within == 1 or is_within:
                return at
        return None

    def _token_near(self, near):
        """Which raw token may be refused where no place is told: a number with junk beyond ASCII, or an E string
        with escaped bytes."""
        for at, (kind, start, end) in enumerate(self.raw):
            part = self.text[start:end]
            if near and kind in JUNK and re.fullmatch(re.escape(near) + r"?[^\x00-\x7f].*", part):
                return at
            if not near and kind == "EscStr" and BYTE_ESCAPE.search(part):
                return at
        return None

    def _blank_unicode(self):
        """Takes the U& in front of strings away, since the judge fails over some."""
        for at, (kind, start, end) in enumerate(self.raw):
            if self.left[start] in "uU" and "".join(self.left[start + 1:start + 3]) in ("&'", '&"'):
                self.left[start:start + 2] = "  "
                self.starts[at] = start + 2
                self.raw[at] = Raw("Str" if kind == "UnicodeEscStr" else kind, start + 2, end)
                self.reasons.append("U& strings that pglast fails over, told without U&")

    def expected(self):
        """Where tokens start and end by the program: strings that go on are one, and the N of a national string
        stands alone."""
        told, goes_on = [], False
        for kind, start, end in self.raw:
            if kind == "Whitespace":
                continue
            if goes_on and kind == "Str" and CONTINUED.fullmatch("".join(self.left[told[-1][1]:start])):
                told[-1] = (told[-1][0], end)
                continue
            goes_on = kind in QUOTED
            if kind == "NationalStr":
                told.append((start, start + 1))
                start += 1
            told.append((start, end))
        return told


def judged(left, scanned):
    """Where tokens start and end by the judge, operators cut into signs; an end is None where it isn't told."""
    told = []
    for token in scanned:
        if token.name in SIGNS:
            told += [(at, at + 1) for at in range(token.start, token.end + 1)]
        elif token.name == "USCONST" or left[token.start:token.start + 3] in ('U&"', 'u&"'):
            told.append((token.start, None))
        else:
            told.append((token.start, token.end + 1))
    return told


def files_in(paths):
    """The files that are named, and the SQL in folders, each file once."""
    found = {}
    for path in paths:
        inside = [os.path.join(folder, name) for folder, _, names in os.walk(path) for name in sorted(names) if name.endswith(".sql")]
        for file in inside or [path]:
            found.setdefault(os.path.realpath(file))
    return list(found)


def read(path):
    """A file's text, or None where it has none that both sides can read."""
    with open(path, "rb") as file:
        data = file.read()
    try:
        return data.decode() if b"\0" not in data else None
    except UnicodeDecodeError:
        return None
