"""Reads the texts of SQL's rules, as `docs/RULES.md` describes them, without what decides between ways.

A part is a pair of a word and what it holds:

    ("token", name)  ("call", rule)  ("class", name)  ("seq", parts)  ("choice", parts)
    ("repeat", (part, least, most))  ("list", (part, separator))  ("kind", name)  ("check", names)  ("operand", None)

A rule has alternatives, and levels of operators, each with its word and alternatives."""
import glob
import os
import re
from typing import NamedTuple

HERE = os.path.dirname(os.path.abspath(__file__))
TEXTS = os.path.join(HERE, "..", "crates", "sql_rule_texts", "src", "texts")
WORD = re.compile(r"""\s*(?:--[^\n]*\n\s*)*(?P<all>=>|\?\+|\*\+|\+\+|'[^']*'|"[^"]*"|[A-Za-z_]\w*|[()|/?*+{}%~@&=_-])""")
# What stands before the first sign of equality outside of a message, and after it.
HEAD = re.compile(r'((?:[^"=]|"[^"]*")*)=(.*)', re.DOTALL)
MANY = 3


class Rule(NamedTuple):
    operands: tuple
    levels: list


def sources():
    """The texts of all areas, one after another."""
    told = []
    for path in sorted(glob.glob(os.path.join(TEXTS, "*.rt"))):
        with open(path, encoding="utf-8") as file:
            told.append(file.read().split('r#"')[1].split('"#')[0])
    return "\n".join(told)


def items(text):
    """The lines, those that go on together."""
    found = []
    for line in text.split("\n"):
        if line.startswith("--") or not line.strip():
            continue
        if line[0].isspace():
            found[-1] += "\n" + line
        else:
            found.append(line)
    return found


class Reader:
    """Reads the parts of one rule."""

    def __init__(self, text):
        self.words = [match["all"] for match in WORD.finditer(text)]
        self.at = 0

    def peek(self):
        return self.words[self.at] if self.at < len(self.words) else None

    def next(self):
        self.at += 1
        return self.words[self.at - 1]

    def take(self, word):
        if self.peek() != word:
            return False
        self.at += 1
        return True

    def rule(self):
        operands, levels = self.choice(), []
        while self.peek() in ("left", "right", "none"):
            levels.append((self.next(), self.choice()))
        return Rule(operands, levels)

    def choice(self):
        parts = [self.sequence()]
        while self.peek() in ("|", "/"):
            self.next()
            parts.append(self.sequence())
        return parts[0] if len(parts) == 1 else ("choice", parts)

    def sequence(self):
        parts = []
        while self.peek() not in (None, "|", "/", ")", "}", "%", "left", "right", "none"):
            part = self.part()
            if part:
                parts.append(part)
        return "seq", parts

    def part(self):
        word = self.next()
        if word == "=>":
            return "kind", self.next()
        if word == "~":
            return "check", self.names()
        if word == "@":
            self.next()
            return None
        if word == "&":
            self.names()
            return None
        return self.repeated(self.plain(word))

    def names(self):
        if not self.take("("):
            return {self.next()}
        found = set()
        while not self.take(")"):
            found.add(self.next())
        return found

    def plain(self, word):
        if word == "(":
            part = self.choice()
            self.next()
            return part
        if word == "{":
            item, separator = self.choice(), ("token", "','")
            if self.take("%"):
                separator = self.part()
            self.next()
            return "list", (item, separator)
        if word == "_":
            return "operand", None
        return "call" if word[0].islower() else "token" if word.isupper() or word[0] == "'" else "class", word

    def repeated(self, part):
        word = self.peek()
        if word not in ("?", "*", "+", "?+", "*+", "++"):
            return part
        self.next()
        return "repeat", (part, 1 if word[0] == "+" else 0, 1 if word[0] == "?" else MANY)


def read(text, keywords):
    """The rules by name, and the classes as lists of tokens."""
    rules, classes = {}, {}
    for item in items(text):
        head, body = HEAD.match(item).groups()
        words = head.split()
        if words[0] == "class":
            classes[words[1]] = members(body, keywords)
        elif words[0] == "words":
            classes[words[1]] = body.upper().split()
        elif words[0] != "guard":
            rules[words[0]] = Reader(body).rule()
    return rules, classes


def members(body, keywords):
    """The tokens of a class."""
    inside, outside = [], set()
    for word in body.partition("=>")[0].split():
        if word in ("unreserved", "col_name", "type_func_name", "reserved"):
            inside += [name for name, kind in keywords.items() if kind == word]
        elif word == "keyword":
            inside += keywords
        elif word[0] == "-":
            outside |= set(members(word[1:], keywords))
        else:
            inside.append(word)
    return [word for word in inside if word not in outside]


def keywords():
    """PostgreSQL's keywords in capitals, with their classes."""
    with open(os.path.join(HERE, "keywords.txt"), encoding="utf-8") as file:
        return {word.upper(): kind for word, kind in (line.split()[:2] for line in file if line.strip() and line[0] != "#")}
