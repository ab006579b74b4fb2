"""The tree of a text."""
from typing import Iterator, List, Optional, Tuple

from ._kinds import SyntaxKind
from ._library import Written
from ._places import Source
from ._sql import Error, errors_in, kind_name

_TOKEN, _ENTER, _EXIT, _ERROR = range(4)

_ESCAPES = str.maketrans({"\n": "\\n", "\r": "\\r", "\t": "\\t", "\\": "\\\\", '"': '\\"'})


def _quoted(text: str) -> str:
    return '"' + text.translate(_ESCAPES) + '"'


class Node:
    """A node or a token of a tree; a token has no children.

    Nodes are made when they are asked for: two that are asked for separately are equal, and not the same object.
    """

    __slots__ = ("_tree", "_index", "_parent")

    def __init__(self, tree: "Tree", index: int, parent: Optional["Node"]):
        self._tree, self._index, self._parent = tree, index, parent

    @property
    def kind(self) -> SyntaxKind:
        """The name of its kind, as QUERY."""
        return kind_name(self._tree._steps[self._index].kind)

    @property
    def is_token(self) -> bool:
        return self._tree._steps[self._index].tag == _TOKEN

    @property
    def start_byte(self) -> int:
        return self._tree._steps[self._index].start

    @property
    def end_byte(self) -> int:
        if self.is_token:
            return self._tree._steps[self._index].end
        return self._tree._steps[self._tree._exit(self._index)].start

    @property
    def start(self) -> int:
        """How many characters stand before it."""
        return self._tree._source.char(self.start_byte)

    @property
    def end(self) -> int:
        """How many characters stand before its end."""
        return self._tree._source.char(self.end_byte)

    @property
    def text(self) -> str:
        return self._tree._source.text(self.start_byte, self.end_byte)

    @property
    def parent(self) -> Optional["Node"]:
        """The node directly around it; the root has none."""
        return self._parent

    @property
    def children(self) -> Tuple["Node", ...]:
        """The nodes and tokens directly in it."""
        if self.is_token:
            return ()
        return tuple(Node(self._tree, index, self) for index in self._tree._inside(self._index))

    def walk(self) -> Iterator["Node"]:
        """It, and all nodes and tokens in it, in the order of the text."""
        waiting = [self]
        while waiting:
            node = waiting.pop()
            yield node
            waiting.extend(reversed(node.children))

    def __eq__(self, other: object) -> bool:
        return isinstance(other, Node) and self._tree is other._tree and self._index == other._index

    def __hash__(self) -> int:
        return hash((id(self._tree), self._index))

    def __repr__(self) -> str:
        return f"<{self.kind} {self.start}..{self.end}>"


class Tree:
    """The tree of a text: all of the text is in its tokens. `print` shows it."""

    def __init__(self, sql: str):
        source = Source(sql)
        self._hold(source, Written(source.data, steps=True, errors=True))

    def _hold(self, source: Source, written: Written):
        self._source = source
        self._written = written
        self._steps = written.steps
        self._exits: Optional[List[int]] = None

    @property
    def root(self) -> Node:
        """The node over the whole text."""
        return Node(self, 0, None)

    @property
    def errors(self) -> List[Error]:
        """What is wrong with the text, in the order of places."""
        return errors_in(self._source, self._written)

    def _exit(self, index: int) -> int:
        """The step that leaves a node; all are found at once."""
        if self._exits is None:
            count = self._written.counts.steps
            self._exits, nodes = [0] * count, []
            for i in range(count):
                tag = self._steps[i].tag
                if tag == _ENTER:
                    nodes.append(i)
                elif tag == _EXIT:
                    self._exits[nodes.pop()] = i
        return self._exits[index]

    def _inside(self, index: int) -> Iterator[int]:
        """The steps of the nodes and tokens directly in a node."""
        at, end = index + 1, self._exit(index)
        while at < end:
            tag = self._steps[at].tag
            if tag != _ERROR:
                yield at
            at = self._exit(at) + 1 if tag == _ENTER else at + 1

    def __str__(self) -> str:
        lines, depth = [], 0
        for i in range(self._written.counts.steps):
            step = self._steps[i]
            indent = "  " * depth
            if step.tag == _TOKEN:
                text = self._source.text(step.start, step.end)
                lines.append(f"{indent}{kind_name(step.kind)}@{step.start}..{step.end} {_quoted(text)}")
            elif step.tag == _ENTER:
                lines.append(f"{indent}{kind_name(step.kind)}@{step.start}..{self._steps[self._exit(i)].start}")
                depth += 1
            elif step.tag == _EXIT:
                depth -= 1
            else:
                raw = self._written.errors[step.start]
                message = self._written.text(raw.message_start, raw.message_end)
                lines.append(f"{indent}error@{step.end} {_quoted(message)}")
        return "\n".join(lines)

    def __repr__(self) -> str:
        return f"<Tree of {len(self._source.data)} bytes>"


def parse(sql: str) -> Tree:
    """The tree of a text of SQL.

    >>> parse("select 1").root.children[0].kind
    'QUERY'
    """
    return Tree(sql)
