"""A script that is edited."""
from bisect import bisect_right
from typing import Iterator, List, NamedTuple, Optional

from ._library import KeptPart, WrittenPart
from ._script import Part, ScriptStatement, moved, statements_in
from ._sql import Error

# How many bytes a piece has at least when a text is new, and where it is edited.
_NEW, _EDITED = 16 * 1024, 512

# What the end of a script depends on: all that may follow.
_ALL = 1 << 62


class _Piece(NamedTuple):
    """Statements of a script, one after another: a part of it, which is what it is whatever stands `seen` bytes after its end.

    `place` is where the script stands before it.
    """

    data: bytes
    chars: int
    place: int
    seen: int
    written: KeptPart


class _Starts:
    """Where the pieces begin, and the last one ends. Those from one on are moved by a number that isn't written into them."""

    def __init__(self):
        self._at, self._from, self._by = [0], 1, 0

    def __getitem__(self, i: int) -> int:
        return self._at[i] + (self._by if i >= self._from else 0)

    def piece(self, place: int) -> int:
        """The piece in which a place is, or the one after the last where it is the end."""
        if self._from < len(self._at) and place >= self[self._from]:
            return bisect_right(self._at, place - self._by, self._from) - 1
        return bisect_right(self._at, place, 0, self._from) - 1

    def replace(self, first: int, last: int, sizes: List[int]) -> None:
        """Puts pieces of these sizes in the place of some."""
        start, old_end = self[first], self[last]
        if self._from < last:
            self._at[self._from : last] = [at + self._by for at in self._at[self._from : last]]
        elif self._from > last:
            self._at[last : self._from] = [at - self._by for at in self._at[last : self._from]]
        starts = []
        for size in sizes:
            starts.append(start)
            start += size
        self._at[first:last] = starts
        self._from, self._by = first + len(starts), self._by + start - old_end


class Document:
    """A script that is edited. An edit parses the statements that it touches, and as many as it takes until one ends where one ended before.

    >>> document = Document("create table t (a int);\\nselect a from t;\\n")
    >>> document.edit(39, 39, "1")
    >>> document.text
    'create table t (a int);\\nselect a from t1;\\n'
    >>> [statement.kind for statement in document.statements]
    ['CREATE_TABLE', 'QUERY']
    """

    def __init__(self, text: str = ""):
        self._pieces: List[_Piece] = []
        self._chars, self._bytes = _Starts(), _Starts()
        self._put(0, 0, text.encode(), _NEW)

    @property
    def text(self) -> str:
        """All of the text."""
        return b"".join(piece.data for piece in self._pieces).decode()

    def __len__(self) -> int:
        """How many characters it has."""
        return self._chars[len(self._pieces)]

    def edit(self, start: int, end: int, replacement: str) -> None:
        """Puts a text in the place of the characters from `start` up to `end`. Where that is refused, all is as before."""
        if not 0 <= start <= end <= len(self):
            raise IndexError(f"{start}..{end} isn't within the {len(self)} characters of the document")
        new = replacement.encode()
        first = last = min(self._chars.piece(start), max(len(self._pieces) - 1, 0))
        while last < len(self._pieces) and (last == first or self._chars[last] < end):
            last += 1
        touched = b"".join(piece.data for piece in self._pieces[first:last])
        low = _byte(touched, start - self._chars[first])
        high = _byte(touched, end - self._chars[first])
        at = self._bytes[first] + low
        data = touched[:low] + new + touched[high:]
        while first > 0 and self._bytes[first] + self._pieces[first - 1].seen > at:
            first -= 1
            data = self._pieces[first].data + data
        self._put(first, last, data, _EDITED)

    def _put(self, first: int, last: int, data: bytes, size: int) -> None:
        """Puts these bytes in the place of some pieces, and of those after them up to one that is the same as before."""
        old, new = self._pieces, []
        place = old[first].place if first < len(old) else 0
        # What is not much longer than a piece was cut before.
        least = size if len(data) > 8 * size else _ALL
        at, wanted, more = 0, least, 1
        while at < len(data) or (place != old[last].place if last < len(old) else place == 0 and not new):
            end = data.find(b"\n", at + wanted) + 1
            ends = end == 0 and last == len(old)
            if end > 0:
                seen = data[at:end]
            elif ends:
                seen = data[at:]
            else:
                before = old[last - 1]
                seen = data[at:] + old[last].data[: before.seen]
            written = WrittenPart(seen, place, ends)
            if written.counts.whole:
                part = seen[: written.counts.bytes]
                new.append(_Piece(part, len(part.decode()), place, _ALL if ends else len(seen) - len(part), written.kept()))
                at, place, wanted = at + len(part), written.counts.place, least
            elif end > 0:
                wanted *= 2
            else:
                data, last, more = _joined(data, old, last, more), min(last + more, len(old)), 2 * more
            if at > len(data):
                data, last = _joined(data, old, last, 1), last + 1
        self._chars.replace(first, last, [piece.chars for piece in new])
        self._bytes.replace(first, last, [len(piece.data) for piece in new])
        old[first:last] = new

    def _part(self, i: int) -> Part:
        piece = self._pieces[i]
        return Part(piece.data.decode(), piece.written, self._chars[i], self._bytes[i])

    @property
    def parts(self) -> Iterator[Part]:
        """Its parts, one after another. A part that is taken stays as it is after an edit."""
        for i in range(len(self._pieces)):
            yield self._part(i)

    @property
    def statements(self) -> Iterator[ScriptStatement]:
        """Its statements, as `statements` tells those of a file."""
        for part in self.parts:
            yield from statements_in(part)

    def statement_at(self, place: int) -> Optional[ScriptStatement]:
        """The statement that has the character at a place, if it is in one."""
        if not 0 <= place < len(self):
            return None
        for statement in statements_in(self._part(self._chars.piece(place))):
            if statement.start <= place < statement.end:
                return statement
        return None

    @property
    def errors(self) -> List[Error]:
        """What is wrong with the text, in the order of places."""
        told = []
        for i, piece in enumerate(self._pieces):
            if piece.written.counts.errors:
                part = self._part(i)
                told += [moved(error, part) for error in part.errors]
        return told

    def __repr__(self) -> str:
        return f"<Document of {len(self)} characters>"


def _byte(data: bytes, char: int) -> int:
    """How many bytes the first characters are."""
    return char if data.isascii() else len(data.decode()[:char].encode())


def _joined(data: bytes, pieces: List[_Piece], first: int, count: int) -> bytes:
    """These bytes, and those of so many pieces."""
    return b"".join([data, *(piece.data for piece in pieces[first : first + count])])
