"""Places in a text, in bytes and in characters."""
_BLOCK = 1024
_CONTINUATION = bytes(range(0x80, 0xC0))


class Source:
    """A text, and its bytes."""

    def __init__(self, text: str):
        self.data = text.encode()
        self._text = text
        self._ascii = text.isascii()
        self._before = None

    def char(self, at: int) -> int:
        """How many characters stand before a byte."""
        if self._ascii:
            return at
        if self._before is None:
            self._before = [0]
            for start in range(0, len(self.data), _BLOCK):
                self._before.append(self._before[-1] + self._count(start, start + _BLOCK))
        block = at // _BLOCK
        return self._before[block] + self._count(block * _BLOCK, at)

    def _count(self, start: int, end: int) -> int:
        """How many characters begin in these bytes."""
        return len(self.data[start:end].translate(None, _CONTINUATION))

    def len(self, start: int, end: int) -> int:
        """How many characters these bytes are."""
        return end - start if self._ascii else self._count(start, end)

    def text(self, start: int, end: int) -> str:
        """The characters of these bytes."""
        return self._text[start:end] if self._ascii else self.data[start:end].decode()
