#!/usr/bin/python3
"""splitter.py PROGRAM FILE-OR-FOLDER ..: statements of `PROGRAM --statements` against PostgreSQL's, as python3-pglast
cuts them.

PROGRAM is `crates/sql_tree/out/sql_tree`; the system's Python runs this. Over each file, and the SQL in each folder:
the statements, without comments, semicolons and empty ones, must stand in the places in which the judge's scanner
cuts them, and those in which its parser does, where it takes the file. Each statement by itself is given to the
parser, too, which takes it as one, or refuses it. Commands of psql are blanked, those that end a query are
semicolons. Prints what differs by reasons, a line WRONG for each difference that has none, and counts."""
import re
import sys
from bisect import bisect_left
from collections import Counter

from postgres import BLANKED, COMMENTS, Compared, characters, files_in, judge, listed, read

ENDS_QUERY = re.compile(r"\\(g|gx|gexec|gset|gdesc|crosstabview|watch)([\s\\]|$)")
ATOMIC = re.compile(r"\bbegin\s+atomic\b", re.IGNORECASE)


class Cut:
    """A text as the judge gets it, and the statements of the program as pairs: where the first token starts, and
    where the last one ends."""

    def __init__(self, text, tokens, statements):
        self.compared = Compared(text, tokens)
        self.terminators = [token.start for token in self.compared.original if token.kind == "PsqlCommand" and ENDS_QUERY.match(text, token.start)]
        self.compared.ask()
        for token in self.compared.raw:
            if token.kind == BLANKED:
                self.compared.left[token.start] = " "
        for at in self.terminators:
            self.compared.left[at] = ";"
        self.left = "".join(self.compared.left)
        kept = [token for token in self.compared.raw if token.kind not in COMMENTS | {"Whitespace", "Semi", BLANKED}]
        self.starts, self.ends = [token.start for token in kept], [token.end for token in kept]
        spans = [tuple(map(int, line.split(" ")[0].split(".."))) for line in statements]
        flat = characters(text, [place for span in spans for place in span])
        every = [self.trimmed(start, end) for start, end in zip(flat[::2], flat[1::2])]
        self.ours = [span for span in every if span]
        self.empty = len(every) - len(self.ours)
        while self._blank_unclosed():
            pass

    def _blank_unclosed(self):
        """Where the judge's scanner loses all that is left behind a parenthesis that isn't closed, blanks that
        statement."""
        theirs = self.theirs(False)
        lost = [span for span in self.ours if not theirs or span[0] >= theirs[-1][1]]
        for start, end in lost[:-1]:
            kinds = [token.kind for token in self.compared.raw if start <= token.start < end]
            if kinds.count("OpenParen") > kinds.count("CloseParen") and self.parsed((start, end)) is None:
                self.left = self.left[:start] + " " * (end - start) + self.left[end:]
                self.ours.remove((start, end))
                self.compared.reasons.append("statements with an open parenthesis, which the parser refuses and behind which its scanner loses all")
                return True
        return False

    def trimmed(self, start, end):
        """A span from its first token to its last, or None where it has none."""
        first, behind = bisect_left(self.starts, start), bisect_left(self.starts, end)
        return (self.starts[first], self.ends[behind - 1]) if first < behind else None

    def theirs(self, with_parser):
        """The judge's statements. It is asked for texts, since its places are those of a text that stands within the
        statement before, too."""
        spans, at = [], 0
        for statement in judge.split(self.left, with_parser=with_parser):
            start = self.left.index(statement, at)
            at = start + len(statement)
            spans.append(self.trimmed(start, at))
        return [span for span in spans if span]

    def parsed(self, span):
        """How many statements the parser takes a span for, or None."""
        try:
            return len(judge.split(self.left[span[0]:span[1]], with_parser=True))
        except (judge.ParseError, TypeError, ValueError):
            return None

    def differences(self, with_parser):
        """What the program and the judge cut otherwise: pairs of lists of spans, those that overlap together."""
        tagged = sorted([(span, 0) for span in self.ours] + [(span, 1) for span in self.theirs(with_parser)])
        end, groups = -1, []
        for span, side in tagged:
            if span[0] >= end:
                groups.append(([], []))
            groups[-1][side].append(span)
            end = max(end, span[1])
        return [group for group in groups if group[0] != group[1]]

    def cuts_in_parentheses(self, ours, start, end):
        """Whether the program cuts this span, and each time at a semicolon behind a parenthesis that is open in it."""
        depth, inside = 0, []
        for token in self.compared.raw:
            if start <= token.start < end:
                depth = max(depth + {"OpenParen": 1, "CloseParen": -1}.get(token.kind, 0), 0)
                if token.kind == "Semi" and depth:
                    inside.append(token.start)
        cuts = [range(one[1], other[0]) for one, other in zip(ours, ours[1:])]
        return bool(cuts) and all(any(at in cut for at in inside) for cut in cuts)

    def reason(self, ours, theirs):
        """Why the judge's scanner may cut this otherwise, or None."""
        if not theirs:
            words = judge.scan(self.left[ours[0][0]:ours[0][1]])
            return "without a keyword, which its scanner leaves out" if all(word.kind == "NO_KEYWORD" for word in words) else None
        if len(ours) == 1 and ATOMIC.search(self.left, *ours[0]):
            return "with BEGIN ATOMIC, which its scanner cuts and its parser takes for one" if self.parsed(ours[0]) == 1 else None
        if len(theirs) == 1 and self.cuts_in_parentheses(ours, *theirs[0]) and self.parsed(theirs[0]) is None:
            return "with semicolons in parentheses, which its scanner takes for one and its parser refuses"
        return None


def shown(cut, spans):
    return [cut.left[start:min(end, start + 50)] + ("" if end <= start + 50 else " ..") for start, end in spans]


def sweep(cut, tally, reasons):
    """What is wrong in a file."""
    reasons.update(cut.compared.reasons)
    yield from cut.compared.unexplained
    tally["statements"] += len(cut.ours)
    tally["empty ones"] += cut.empty
    for ours, theirs in cut.differences(False):
        reason = cut.reason(ours, theirs)
        if reason:
            reasons[f"statements {reason}"] += len(ours)
        else:
            yield f"by its scanner: {shown(cut, ours)}, and not {shown(cut, theirs)}"
    for span in cut.ours:
        count = cut.parsed(span)
        tally["that the parser takes for one" if count == 1 else "that the parser refuses"] += 1
        if count not in (1, None):
            yield f"{count} by its parser: {shown(cut, [span])}"
    try:
        for ours, theirs in cut.differences(True):
            yield f"by its parser: {shown(cut, ours)}, and not {shown(cut, theirs)}"
        tally["files that the parser takes"] += 1
    except judge.ParseError:
        tally["files that the parser refuses"] += 1


def main(program, paths):
    tally, reasons, wrong = Counter(), Counter(), 0
    for path in files_in(paths):
        text = read(path)
        if text is None:
            tally["files that aren't UTF-8"] += 1
            continue
        cut = Cut(text, listed(program, "--tokens", [path])[0], listed(program, "--statements", [path])[0].lines)
        for found in sweep(cut, tally, reasons):
            wrong += 1
            print(f"WRONG {path}: {found}")
    for reason, count in reasons.most_common():
        print(f"{count} {reason}")
    print(f"splitter: {', '.join(f'{count} {what}' for what, count in tally.items())}, {wrong} wrong")
    return 1 if wrong else 0


if __name__ == "__main__":
    sys.exit(main(sys.argv[1], sys.argv[2:]))
