"""Scripts of any size, from a file or a stream."""
from typing import BinaryIO, Iterator, List, Optional, Tuple, Union

from ._kinds import SyntaxKind
from ._library import KeptPart, Refused, WrittenPart
from ._places import Source
from ._sql import Error, kind_name
from ._tree import Node, Tree

# How many bytes are read at once.
_PIECE = 64 * 1024

_NOT_UTF8 = 3


class Part(Tree):
    """Statements of a script, one after another, and what stands between them.

    Places in the tree count from `start`, which is how many characters of the script stand before it.
    """

    def __init__(self, text: str, written: Union[WrittenPart, KeptPart], start: int, start_byte: int):
        self._hold(Source(text), written)
        self.text, self.start, self.start_byte = text, start, start_byte
        self._nodes = None

    def _node(self, start_byte: int) -> Node:
        """The node or token at the top that begins at a byte; all are found at once."""
        if self._nodes is None:
            self._nodes = {node.start_byte: node for node in self.root.children}
        return self._nodes[start_byte]


class ScriptStatement:
    """A statement of a script: its kind, as CREATE_TABLE, its text, where that stands in the script, and what is wrong with it."""

    __slots__ = ("kind", "text", "start", "end", "start_byte", "end_byte", "errors", "_part")

    def __init__(self, part: Part, kind: SyntaxKind, text: str, start: int, start_byte: int, end_byte: int, errors: List[Error]):
        self._part, self.kind, self.text, self.errors = part, kind, text, errors
        self.start, self.end = part.start + start, part.start + start + len(text)
        self.start_byte, self.end_byte = part.start_byte + start_byte, part.start_byte + end_byte

    @property
    def part(self) -> Part:
        """The part of the script that it is in."""
        return self._part

    @property
    def node(self) -> Node:
        """Its node in the tree of its part."""
        return self._part._node(self.start_byte - self._part.start_byte)

    def __repr__(self) -> str:
        return f"<{self.kind} {self.start}..{self.end}>"


def parts(file: BinaryIO) -> Iterator[Part]:
    """The parts of a script, read from a file or a stream of bytes: some 64 kilobytes at once, or a statement that is longer.

    Where the file fails, or isn't UTF-8, the error is raised after the part that ends before it.

    >>> import io
    >>> [part.text for part in parts(io.BytesIO(b"select 1; select 2;"))]
    ['select 1; select 2;']
    """
    data, place, start, start_byte = b"", 0, 0, 0
    last, failed = False, None
    while not last and failed is None:
        data, last, failed = _longer(file, data, max(_PIECE - len(data), len(data)))
        try:
            written = WrittenPart(data, place, last)
        except Refused as refused:
            if refused.status != _NOT_UTF8:
                raise
            last, failed = False, Refused(_NOT_UTF8, start_byte + refused.place)
            written = WrittenPart(data[: refused.place], place, last)
        if written.counts.whole:
            size = written.counts.bytes
            part = Part(data[:size].decode(), written, start, start_byte)
            data, place, start, start_byte = data[size:], written.counts.place, start + len(part.text), start_byte + size
            yield part
    if failed is not None:
        raise failed


def _longer(file: BinaryIO, data: bytes, wanted: int) -> Tuple[bytes, bool, Optional[Exception]]:
    """Bytes with so many more of a file; whether it ends with them; and why it gives no more, if it has failed."""
    pieces = [data]
    try:
        while wanted > 0:
            piece = file.read(wanted)
            if piece is None:
                raise BlockingIOError("the stream has no byte yet")
            if isinstance(piece, str):
                raise TypeError('a script is read as bytes: open the file with "rb"')
            if not piece:
                return b"".join(pieces), True, None
            pieces.append(piece)
            wanted -= len(piece)
    except OSError as error:
        return b"".join(pieces), False, error
    return b"".join(pieces), False, None


def statements(file: BinaryIO) -> Iterator[ScriptStatement]:
    """The statements of a script of any size, read from a file or a stream of bytes. What is held is a part of it.

    A line of data after COPY is a statement of psql. A comment without an end comes last, as a statement of the kind COMMENT.

    >>> import io
    >>> [statement.kind for statement in statements(io.BytesIO(b"create table t (a int); select a from t"))]
    ['CREATE_TABLE', 'QUERY']
    """
    for part in parts(file):
        yield from statements_in(part)


def statements_in(part: Part) -> Iterator[ScriptStatement]:
    source = part._source
    told = [(kind_name(kind), start, end) for kind, start, end in part._written.statements()]
    behind = told[-1][2] if told else 0
    errors = part.errors
    told += [("COMMENT", error.start_byte, error.end_byte) for error in errors if error.end_byte > behind]
    at = char = first = 0
    for i, (kind, start_byte, end_byte) in enumerate(told):
        start = char + source.len(at, start_byte)
        text = source.text(start_byte, end_byte)
        at, char = end_byte, start + len(text)
        limit = told[i + 1][1] if i + 1 < len(told) else end_byte + 1
        last = first
        while last < len(errors) and errors[last].end_byte <= end_byte and errors[last].start_byte < limit:
            last += 1
        found = [moved(error, part) for error in errors[first:last]]
        first = last
        yield ScriptStatement(part, kind, text, start, start_byte, end_byte, found)


def moved(error: Error, part: Part) -> Error:
    """An error of a part, with its places in the script."""
    return error._replace(
        start=part.start + error.start,
        end=part.start + error.end,
        start_byte=part.start_byte + error.start_byte,
        end_byte=part.start_byte + error.end_byte,
    )
