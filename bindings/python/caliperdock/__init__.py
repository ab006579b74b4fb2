"""Trees, statements and raw tokens of SQL text, for x86-64 Linux.

    >>> import caliperdock
    >>> print(caliperdock.parse("select 1"))
    SOURCE_FILE@0..8
      QUERY@0..8
        SELECT@0..8
          SELECT_KW@0..6 "select"
          WHITESPACE@6..7 " "
          TARGET_LIST@7..8
            TARGET@7..8
              LITERAL@7..8
                INT_NUMBER@7..8 "1"

A text may be wrong: it has a tree all the same, and `errors` says what is wrong with it. Places count
characters, as Python does; those that count bytes of UTF-8 have names that end in `_byte`. `print` of a
tree shows bytes.

A statement in a tree has the kind that PostgreSQL's grammar says, as QUERY or CREATE_TABLE. One of `split`
has the kind of its first word, as SELECT or CREATE.

A script of any size is read from a file: `for statement in caliperdock.statements(open("dump.sql", "rb"))`.
"""
from ._document import Document
from ._kinds import SyntaxKind
from ._library import Refused
from ._script import Part, ScriptStatement, parts, statements
from ._sql import Error, Statement, Token, errors, split, tokenize
from ._tree import Node, Tree, parse

__all__ = [
    "Document", "Error", "Node", "Part", "Refused", "ScriptStatement", "Statement", "SyntaxKind", "Token", "Tree", "errors", "parse", "parts",
    "split", "statements", "tokenize",
]
