"""Statements, raw tokens and errors of a text."""
from typing import List, NamedTuple, Optional

from ._kinds import KINDS, SyntaxKind
from ._library import Written, rows, statement_rows
from ._places import Source


class Statement(NamedTuple):
    """A statement: the kind of its first word, as SELECT, its text, its semicolon in it, and where that stands."""

    kind: SyntaxKind
    text: str
    start: int
    end: int
    start_byte: int
    end_byte: int


class Token(NamedTuple):
    """A raw token. A string, a quoted name or a comment that has no end isn't `terminated`."""

    kind: str
    text: str
    start: int
    end: int
    start_byte: int
    end_byte: int
    terminated: bool


class Error(NamedTuple):
    """What is wrong with a text, and what is wanted instead, where that is said."""

    message: str
    hint: Optional[str]
    start: int
    end: int
    start_byte: int
    end_byte: int


_TOKEN_KINDS = (
    "Unknown LineComment BlockComment Whitespace Ident QuotedIdent PsqlCommand PositionalParam Semi Comma Dot DotDot "
    "OpenParen CloseParen OpenBracket CloseBracket OpenCurly CloseCurly At Pound Tilde Question Colon Eq Bang Lt Gt "
    "Minus And Or Plus Star Slash Caret Percent Backtick Int Numeric Str NationalStr ByteStr BitStr DollarQuotedString "
    "UnicodeEscStr EscStr"
).split()

# The kinds that say whether they are terminated.
_CLOSED = {2, 5, *range(38, 45)}


def kind_name(kind: int) -> SyntaxKind:
    """The name of a kind of nodes or tokens."""
    return KINDS[kind]


def split(sql: str) -> List[Statement]:
    """The statements of a text.

    A semicolon in a string, a comment, a dollar quote, or the body of a routine or a rule ends none.

    >>> [statement.text for statement in split("do $$ begin; end $$; select ';'")]
    ['do $$ begin; end $$;', "select ';'"]
    """
    source = Source(sql)
    statements, at, char = [], 0, 0
    for kind, start_byte, end_byte in statement_rows(source.data):
        start = char + source.len(at, start_byte)
        text = source.text(start_byte, end_byte)
        at, char = end_byte, start + len(text)
        statements.append(Statement(kind_name(kind), text, start, char, start_byte, end_byte))
    return statements


def tokenize(sql: str) -> List[Token]:
    """The raw tokens of a text, by PostgreSQL's rules. Their texts, joined, are the text.

    >>> [token.kind for token in tokenize("select 1")]
    ['Ident', 'Whitespace', 'Int']
    """
    source = Source(sql)
    written = Written(source.data, tokens=True)
    tokens, at, char = [], 0, 0
    for kind, size, _, _, flags in rows(written.tokens, "=IIIII", written.counts.tokens):
        text = source.text(at, at + size)
        terminated = kind not in _CLOSED or bool(flags & 1)
        tokens.append(Token(_TOKEN_KINDS[kind], text, char, char + len(text), at, at + size, terminated))
        at, char = at + size, char + len(text)
    return tokens


def errors(sql: str) -> List[Error]:
    """What is wrong with a text, in the order of places.

    >>> [error.message for error in errors("select f(1")]
    ['expected )']
    """
    source = Source(sql)
    return errors_in(source, Written(source.data, errors=True))


def errors_in(source: Source, written: Written) -> List[Error]:
    """The errors that were written, in the order of places; at one place the lexical ones come first."""
    found = written.errors[: written.counts.errors]
    lexical = range(written.counts.step_errors, len(found))
    numbered = [*((found[i].start, i) for i in lexical), *((found[i].start, i) for i in range(lexical.start))]
    numbered.sort(key=lambda pair: pair[0])
    told = []
    for _, i in numbered:
        raw = found[i]
        message = written.text(raw.message_start, raw.message_end)
        hint = written.text(raw.message_end, raw.hint_end) or None
        told.append(Error(message, hint, source.char(raw.start), source.char(raw.end), raw.start, raw.end))
    return told
