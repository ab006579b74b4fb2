"""The texts of `their_forms.py` from our tree."""
from their_forms import ATOM, COUNTED, SPECIAL, call, joined, special, word_at
from trees import SIGNS

NAMED = {"BETWEEN_EXPR": "between", "IN_EXPR": "in", "LIKE_EXPR": "like"}
ATOMS = {"LITERAL", "NAME_REF", "PARAM_REF", "DEFAULT_EXPR"}
EXPRESSIONS = ATOMS | {
    "BIN_EXPR", "PREFIX_EXPR", "IS_EXPR", "BETWEEN_EXPR", "IN_EXPR", "LIKE_EXPR", "ROW_EXPR", "OVERLAPS_EXPR",
    "COLLATE_EXPR", "CAST_EXPR", "SUBQUERY", "FIELD_EXPR", "INDEX_EXPR", "SLICE_EXPR", "PAREN_EXPR", "CALL_EXPR", "EXISTS_EXPR",
    "ARRAY_EXPR", "CASE_EXPR", "NAMED_ARG"}
# What an expression may have between itself and its operands.
PARTS = {
    "ARG_LIST", "WHEN_CLAUSE", "ELSE_CLAUSE", "ARRAY_ITEMS", "ROW_VALUES", "SOME_OF", "FILTER_CLAUSE", "WHERE_CLAUSE",
    "WITHIN_CLAUSE", "ORDER_BY_CLAUSE", "SORT_ITEM", "OVER_CLAUSE", "WINDOW_SPEC", "PARTITION_BY", "FRAME_CLAUSE",
    "FRAME_BOUND", "XML_ATTRIBUTES", "XML_ATTRIBUTE", "XML_PASSING"}
LEAVES = {"NAME", "TYPE", "OP", "QUERY", "COLUMN_LIST", "PATH"}
CLAUSES = {"WITH_CLAUSE": "withClause", "ORDER_BY_CLAUSE": "sortClause", "OFFSET_CLAUSE": "limitOffset",
           "LIMIT_CLAUSE": "limitCount", "FETCH_CLAUSE": "limitCount"}


class OurForms:
    """The forms of our tree over this text."""

    def __init__(self, text):
        self.text = text

    def of(self, node):
        of = getattr(self, "of_" + node.kind, None)
        return of(node) if of else f"?{node.kind}"

    def operands(self, node):
        """The forms of the expressions in a node, also through its parts."""
        for child in node.nodes():
            if child.kind in PARTS:
                yield from self.operands(child)
            elif child.kind not in LEAVES:
                yield self.of(child)

    def all(self, node):
        return joined(self.operands(node))

    def of_NAME_REF(self, node):
        return f"c{node.start}/1"

    def of_LITERAL(self, node):
        return f"k{node.start}"

    def of_PARAM_REF(self, node):
        return f"p{node.start}"

    def of_DEFAULT_EXPR(self, node):
        return f"d{node.start}"

    def of_PAREN_EXPR(self, node):
        return self.all(node)

    def of_SUBQUERY(self, node):
        return f"Q{node.start}"

    def of_EXISTS_EXPR(self, node):
        return f"exists{node.start}"

    def of_BIN_EXPR(self, node):
        left, right = node.nodes()[0], node.nodes()[-1]
        sign = next(child for child in node.children if child.is_token or child.kind in SIGNS)
        if right.kind == "SOME_OF":
            return self.some_of("", sign.start, left, right)
        if sign.kind == "AT_KW":
            return f"(tz@{sign.start} {self.of(left)} {self.of(right)})"
        if sign.kind in ("AND_KW", "OR_KW"):
            word = sign.kind[:-3].lower()
            first = self.of(left)
            begun = first[:-1] if first.startswith(f"({word}@") else f"({word}@{sign.start} {first}"
            return f"{begun} {self.of(right)})"
        return f"(@{self.sign(sign)} {self.of(left)} {self.of(right)})"

    def sign(self, sign):
        """An operator's place and size; one with a schema has no size."""
        return f"{sign.start}:{0 if sign.kind == 'OPERATOR_KW' else sign.end - sign.start}"

    def some_of(self, negated, place, left, right):
        word = "all" if right.children[0].kind == "ALL_KW" else "any"
        return f"({word}@{place} {self.of(left)} {'Q' if right.child('QUERY') else self.all(right)})"

    def of_PREFIX_EXPR(self, node):
        sign, inner = node.children[0], self.of(node.nodes()[-1])
        if sign.kind == "NOT_KW":
            return f"(not@{sign.start} {inner})"
        if sign.kind == "MINUS" and inner[0] == "k":
            # A string stays the operand, and takes the place.
            is_number = self.text[int(inner[1:]):int(inner[1:]) + 1] in b"0123456789.-"
            return f"k{sign.start}" if is_number else f"(@{sign.start}:1 k{sign.start})"
        return f"(@{self.sign(sign)} {inner})"

    def of_IS_EXPR(self, node):
        words = [child for child in node.children if child.is_token]
        kinds = {word.kind for word in words}
        inner = f"(is@{words[0].start} {self.of(node.nodes()[0])})"
        if "DISTINCT_KW" in kinds:
            return f"({'not' if 'NOT_KW' in kinds else ''}distinct@{words[0].start} {self.all(node)})"
        is_wrapped = "NOT_KW" in kinds and kinds & {"DOCUMENT_KW", "NORMALIZED_KW"}
        return f"(not@{words[0].start} {inner})" if is_wrapped else inner

    def named(self, node):
        words = [child for child in node.children if child.is_token]
        word, place, negated = NAMED[node.kind], words[0].start, "not" if words[0].kind == "NOT_KW" else ""
        operands = node.nodes()
        if operands[-1].kind == "SOME_OF":
            return self.some_of(negated, place, operands[0], operands[-1])
        if operands[-1].kind == "SUBQUERY" and word == "in":
            inner = f"(in@{place} {self.of(operands[0])} Q)"
            return f"(not@{place} {inner})" if negated else inner
        return f"({negated}{word}@{place} {self.all(node)})"

    of_BETWEEN_EXPR = of_IN_EXPR = named

    def of_LIKE_EXPR(self, node):
        inner, escape = node.nodes()[0], node.child("ESCAPE_KW")
        if not escape:
            return self.named(node)
        form = self.of(inner)
        pattern = self.of(inner.nodes()[-1])
        return f"{form[:-len(pattern) - 1]}(escape {pattern} {self.of(node.nodes()[-1])}))"

    def of_CAST_EXPR(self, node):
        kind = node.child("TYPE") or node.children[0]
        operands = [child for child in node.nodes() if child.kind not in ("TYPE", "TYPE_ARGS")]
        operand = operands[0 if node.child("COLON_COLON", "CAST_KW") else -1]
        parts = [child.kind for child in kind.children]
        place = kind.children[1].start if parts[:1] == ["SETOF_KW"] else kind.start
        return f"(cast {self.of(operand)} t{place}/{max(parts.count('L_BRACK'), parts.count('ARRAY_KW'))})"

    def of_COLLATE_EXPR(self, node):
        return f"(collate@{node.child('COLLATE_KW').start} {self.all(node)})"

    def of_ROW_EXPR(self, node):
        return f"row{node.start}({self.all(node)})"

    def of_OVERLAPS_EXPR(self, node):
        return f"(overlaps@{node.child('OVERLAPS_KW').start} {joined(self.all(row) for row in node.nodes())})"

    def of_CASE_EXPR(self, node):
        return f"(case@{node.start} {joined(map(self.case_part, node.nodes()))})"

    def case_part(self, node):
        if node.kind == "WHEN_CLAUSE":
            return f"(when {self.all(node)})"
        return self.all(node) if node.kind == "ELSE_CLAUSE" else self.of(node)

    def of_ARRAY_EXPR(self, node):
        items = node.child("ARRAY_ITEMS")
        return self.of_ARRAY_ITEMS(items, node.start) if items else f"array{node.start}"

    def of_ARRAY_ITEMS(self, node, place=None):
        items = joined(self.of(item) for item in node.nodes())
        return f"[{node.start if place is None else place}: {items}]"

    def of_NAMED_ARG(self, node):
        return f"(named@{node.start} {self.of(node.nodes()[-1])})"

    def of_FIELD_EXPR(self, node):
        base, steps = node, []
        while base.kind in ("FIELD_EXPR", "INDEX_EXPR", "SLICE_EXPR"):
            steps.append(base)
            base = base.nodes()[0]
        steps.reverse()
        form = self.of(base)
        if base.kind == "NAME_REF":
            names = next((at for at, step in enumerate(steps) if step.kind != "FIELD_EXPR"), len(steps))
            form, steps = f"c{base.start}/{names + 1}", steps[names:]
        return f"(in {form}{''.join(map(self.step, steps))})" if steps else form

    of_INDEX_EXPR = of_SLICE_EXPR = of_FIELD_EXPR

    def step(self, node):
        if node.kind == "FIELD_EXPR":
            return "."
        if node.kind == "INDEX_EXPR":
            return f"[{self.of(node.nodes()[-1])}]"
        colon = node.child("COLON").start
        bounds = {child.start < colon: self.of(child) for child in node.nodes()[1:]}
        return f"[{bounds.get(True, '')}:{bounds.get(False, '')}]"

    def of_CALL_EXPR(self, node):
        word, args = word_at(self.text, node.start), node.child("ARG_LIST")
        if not args and word in SPECIAL:
            return special(node.start, self.special_args(node))
        if not args:
            return f"v{node.start}"
        return self.called(node, args)

    def called(self, node, args):
        over, within, condition = node.child("OVER_CLAUSE"), node.child("WITHIN_CLAUSE"), node.child("FILTER_CLAUSE")
        told = [*self.in_order(args), *(self.in_order(within) if within else [])]
        window = over and (joined(self.in_order(over.child("WINDOW_SPEC"))) if over.child("WINDOW_SPEC") else "")
        return call(node.start, told, condition and self.all(condition), window)

    def in_order(self, node):
        """The forms of arguments, partitions and bounds, and those by which rows are sorted."""
        for child in node.nodes():
            if child.kind == "SORT_ITEM":
                yield f"sort {self.of(child.nodes()[0])}"
            elif child.kind in PARTS:
                yield from self.in_order(child)
            elif not (node.kind == "WINDOW_SPEC" and child.kind == "NAME_REF"):
                yield self.of(child)

    def special_args(self, node):
        """The arguments of such a call; those of SUBSTRING with SIMILAR are what stands between its words."""
        for child in node.nodes():
            if child.kind == "LIKE_EXPR" and child.child("ESCAPE_KW") and word_at(self.text, node.start) == "substring":
                yield from self.operands(child.nodes()[0])
                yield self.of(child.nodes()[-1])
            elif child.kind in PARTS:
                yield from self.operands(child)
            elif child.kind not in LEAVES:
                yield self.of(child)

    def of_TABLE_FUNCTION(self, node):
        return self.called(node, node.child("ARG_LIST"))

    def of_CALL(self, node):
        return call(node.nodes()[0].start, self.in_order(node.child("ARG_LIST")), None, None)

    def table(self, node):
        """A table of FROM, as a part of a join."""
        if node.kind in ("PAREN_JOIN", "LATERAL_FUNCTION"):
            return self.table(node.nodes()[0])
        if node.kind == "JOIN_EXPR":
            kinds = {child.kind for child in node.children}
            outer = next((word for word in ("left", "right", "full") if word.upper() + "_KW" in kinds), "inner")
            ways = {"NATURAL_KW": "natural", "JOIN_ON": "on", "JOIN_USING": "using"}
            how = next((ways[kind] for kind in ways if kind in kinds), "cross")
            return f"({outer} {how} {joined(map(self.table, node.nodes()[:2]))})"
        if node.kind == "FROM_TABLE":
            return f"t{node.child('PATH').start}"
        if node.kind == "TABLE_FUNCTION":
            return f"t{node.start}" if node.child("XMLTABLE_KW") else "RangeFunction"
        return "RangeSubselect"

    def query(self, node, around=None):
        """A query as a part of a set operation; around it may be clauses of those that have it in parentheses."""
        if node.kind == "PAREN_QUERY":
            return self.query(node.child("QUERY"), around)
        clauses = dict(around or {})
        if node.kind == "QUERY":
            core = next(child for child in node.nodes() if child.kind not in CLAUSES and child.kind != "LOCKING_CLAUSE")
            clauses.update((CLAUSES[child.kind], child) for child in node.nodes() if child.kind in CLAUSES)
            return self.query(core, clauses)
        told = joined(f"{name}{len(clauses[name].nodes()) if name in COUNTED else ''}"
                      for name in dict.fromkeys(CLAUSES.values()) if name in clauses)
        if node.kind == "COMPOUND_SELECT":
            left, right = node.nodes()
            word = next(child.kind for child in node.children if child.is_token)[:-3].lower()
            word += " all" if node.child("ALL_KW") else ""
            return f"({word} {self.query(left)} {self.query(right)})[{told}]"
        targets = node.child("TARGET_LIST")
        first = "V" if node.kind == "VALUES_CLAUSE" else f"S{targets.start}" if targets else "S"
        return f"{first}[{told}]"


def is_expression(node):
    """Also the call that a table or CALL is."""
    return node.kind in EXPRESSIONS or node.kind in ("TABLE_FUNCTION", "CALL") and node.child("ARG_LIST")


def above(node, *kinds):
    """What a node stands in, through these kinds."""
    node = node.parent
    while node and node.kind in kinds:
        node = node.parent
    return node


def our_forms(tree, text):
    """The forms of what isn't an operand of something larger."""
    forms, found = OurForms(text), []
    for node in tree.walked():
        if is_expression(node) and node.kind not in ATOMS:
            around = above(node, *PARTS)
            if not (around and is_expression(around)):
                found.append(forms.of(node))
        elif node.kind == "LITERAL" and node.child("PLUS") and node.parent.kind == "FETCH_CLAUSE":
            # A sign before the count of FETCH is no operator in our tree.
            found.append(f"(@{node.start}:1 k{node.children[1].start})")
        elif node.kind == "JOIN_EXPR" and above(node, "PAREN_JOIN").kind != "JOIN_EXPR":
            found.append(forms.table(node))
        elif node.kind == "QUERY" and (node.parent is None or node.parent.kind != "PAREN_QUERY"):
            form = forms.query(node)
            found += [form] if form.startswith("(") else []
    return [form for form in found if not ATOM.fullmatch(form)]
