"""Tests of the package: python3 -m unittest tests."""
import doctest
import io
import pathlib
import unittest

import caliperdock
from caliperdock import _document, _script, _sql, _tree


def load_tests(loader, tests, ignore):
    for module in (caliperdock, _document, _script, _sql, _tree):
        tests.addTests(doctest.DocTestSuite(module))
    return tests


class Split(unittest.TestCase):
    def check(self, *statements):
        told = caliperdock.split(" ".join(statements))
        self.assertEqual([statement.text for statement in told], list(statements))

    def test_quotes(self):
        self.check("select ';';", 'select ";";', "select E'\\';';", "select $$;$$;", "select $a$;$$;$a$;")

    def test_comments(self):
        self.check("select /* ; /* ; */ ; */ 1;", "select 1 -- ;\n;")

    def test_bodies(self):
        self.check("create function f() returns int begin atomic select 1; select 2; end;", "select 3;")
        self.check("create rule r as on insert to t do also (delete from a; delete from b);", "select 4;")

    def test_places(self):
        first, second = caliperdock.split("select 'é'; select 2")
        self.assertEqual((first.start, first.end, first.start_byte, first.end_byte), (0, 11, 0, 12))
        self.assertEqual((second.start, second.end, second.start_byte, second.end_byte), (12, 20, 13, 21))
        self.assertEqual(second.kind, "SELECT")


class Trees(unittest.TestCase):
    def test_nodes(self):
        tree = caliperdock.parse("select a -- é\nfrom t")
        query = tree.root.children[0]
        self.assertEqual(query.kind, "QUERY")
        select = query.children[0]
        kinds = ["SELECT_KW", "WHITESPACE", "TARGET_LIST", "WHITESPACE", "COMMENT", "WHITESPACE", "FROM_CLAUSE"]
        self.assertEqual([child.kind for child in select.children], kinds)
        clause = select.children[6]
        self.assertEqual((clause.text, clause.start, clause.end, clause.start_byte), ("from t", 14, 20, 15))
        self.assertEqual(clause.parent, select)
        self.assertIsNone(tree.root.parent)
        self.assertEqual("".join(node.text for node in tree.root.walk() if node.is_token), "select a -- é\nfrom t")

    def test_errors(self):
        message, hint, start, end, start_byte, end_byte = caliperdock.errors("select 'é")[0]
        self.assertEqual(message, "missing trailing `'` symbol to terminate the string literal")
        self.assertIsNone(hint)
        self.assertEqual((start, end, start_byte, end_byte), (7, 9, 7, 10))

    def test_nothing(self):
        self.assertEqual(caliperdock.split(""), [])
        self.assertEqual(caliperdock.tokenize(""), [])
        self.assertEqual(str(caliperdock.parse("")), "SOURCE_FILE@0..0")


class Slow(io.RawIOBase):
    """A stream that gives so many bytes at once, and fails after a text, if it is to."""

    def __init__(self, data, size, fails=False):
        self.data, self.size, self.fails = data, size, fails

    def read(self, wanted):
        piece, self.data = self.data[: min(wanted, self.size)], self.data[min(wanted, self.size) :]
        if not piece and self.fails:
            raise OSError("the disk is gone")
        return piece


class Scripts(unittest.TestCase):
    PIECE = "select f(1;\nselect 'é'\n'b', 'c' 'd', 1x;\ncopy t from stdin;\nit's\n\\.\n\\x\n/* ; */ ;\n"

    def check(self, text, told):
        whole = caliperdock.parse(text)
        told = list(told)
        nodes = [node for node in whole.root.children if not node.is_token]
        places = [(node.kind, node.text, node.start, node.end, node.start_byte, node.end_byte) for node in nodes]
        self.assertEqual([(s.kind, s.text, s.start, s.end, s.start_byte, s.end_byte) for s in told], places)
        self.assertEqual([error for statement in told for error in statement.errors], whole.errors)
        for statement in told:
            self.assertEqual((statement.node.kind, statement.node.text), (statement.kind, statement.text))

    def test_parts(self):
        long = "select '" + "a;\n" * 50_000 + "';\n"
        for text in ("select 1", self.PIECE * 3, self.PIECE * 1500, long + self.PIECE + long):
            data = text.encode()
            self.check(text, caliperdock.statements(io.BytesIO(data)))
            self.check(text, caliperdock.statements(Slow(data, 1000)))
        self.assertEqual(list(caliperdock.statements(io.BytesIO())), [])

    def test_comment_without_an_end(self):
        first, second = caliperdock.statements(io.BytesIO(b"select 1 /* a"))
        self.assertEqual((first.kind, first.text, first.errors), ("QUERY", "select 1", []))
        self.assertEqual((second.kind, second.text, second.start, len(second.errors)), ("COMMENT", "/* a", 9, 1))

    def test_failures(self):
        told = caliperdock.statements(Slow(b"select 1;\nselect 2;\nselect", 7, fails=True))
        self.assertEqual([next(told).text, next(told).text], ["select 1;", "select 2;"])
        with self.assertRaisesRegex(OSError, "the disk is gone"):
            next(told)
        told = caliperdock.statements(io.BytesIO(b"select 1;\nselect '\xff'"))
        self.assertEqual(next(told).text, "select 1;")
        with self.assertRaisesRegex(caliperdock.Refused, "at byte 18"):
            next(told)
        with self.assertRaisesRegex(TypeError, "rb"):
            next(caliperdock.statements(io.StringIO("select 1")))


class Documents(unittest.TestCase):
    def check(self, document, text):
        self.assertEqual(document.text, text)
        self.assertEqual(len(document), len(text))
        tree = caliperdock.parse(text)
        nodes = [(node.kind, node.text, node.start, node.end, node.start_byte) for node in tree.root.children if not node.is_token]
        told = [(s.kind, s.text, s.start, s.end, s.start_byte) for s in document.statements if s.kind != "COMMENT"]
        self.assertEqual(told, nodes)
        self.assertEqual(document.errors, tree.errors)

    def edit(self, document, text, start, end, replacement):
        document.edit(start, end, replacement)
        text = text[:start] + replacement + text[end:]
        self.check(document, text)
        return text

    def test_edits(self):
        text = "select 'é';\n" * 20000
        document = caliperdock.Document(text)
        self.assertGreater(len(document._pieces), 1)
        for place in (120001, 120003, 0, len(text), 5):
            text = self.edit(document, text, place, place, "x")
        text = self.edit(document, text, 100, 200000, "")
        self.assertEqual(document.statement_at(10).text, "xselexct 'é';")

    def test_quotes(self):
        text = "create table t (a int);\n" * 100
        document = caliperdock.Document(text)
        for place, sign in ((700, "'"), (1300, "'"), (700, "$$"), (0, "copy t from stdin;\n"), (900, "\n\\.\n")):
            text = self.edit(document, text, place, place, sign)

    def test_a_part_stays(self):
        document = caliperdock.Document("select 1;\n" * 1000)
        document.edit(5000, 5000, " ")
        before = document._pieces
        sizes = [len(piece.data) for piece in before]
        kept = list(before)
        document.edit(5001, 5002, "")
        self.assertLessEqual(sum(piece not in kept for piece in document._pieces), 2)
        self.assertLessEqual(max(sizes), 1024)

    def test_outside(self):
        document = caliperdock.Document("select 1")
        for start, end in ((-1, 0), (3, 2), (0, 9)):
            with self.assertRaises(IndexError):
                document.edit(start, end, "")
        with self.assertRaises(UnicodeEncodeError):
            document.edit(0, 6, "\ud800")
        self.check(document, "select 1")
        self.assertIsNone(document.statement_at(8))

    def test_nothing(self):
        document = caliperdock.Document()
        self.check(document, "")
        self.check(document, self.edit(document, self.edit(document, "", 0, 0, "select"), 0, 6, ""))


class Corpus(unittest.TestCase):
    """The trees of the corpus' texts are those that the program prints: the files are those of bindings/corpus.py."""

    def test_trees(self):
        folder = pathlib.Path(__file__).resolve().parent.parent / "out" / "corpus"
        texts = sorted(folder.glob("*.sql"))
        if not texts:
            self.skipTest("bindings/corpus.py writes the texts")
        for file in texts:
            text = file.read_bytes().decode()
            with self.subTest(text=text):
                tree = caliperdock.parse(text)
                self.assertEqual(str(tree), file.with_suffix(".tree").read_bytes().decode())
                self.assertEqual("".join(node.text for node in tree.root.walk() if node.is_token), text)
                self.assertEqual("".join(token.text for token in caliperdock.tokenize(text)), text)


if __name__ == "__main__":
    unittest.main()
