"""One text for an expression, a join or a set operation, from PostgreSQL's tree and from ours.

Each operand stands in parentheses with its operator, which is told by its place in bytes: `(@9:2 c4/1 k12)` is an
operator of two signs at 9, between a column at 4 and a constant at 12. Nodes that PostgreSQL leaves out or makes anew
are put the same way: parentheses are none, AND and OR take all operands of a run from the left, and a minus before a
number is a part of it."""
import re

# Calls whose arguments PostgreSQL orders anew; constants are left out, since it adds some.
SPECIAL = {"coalesce", "collation", "extract", "greatest", "grouping", "least", "normalize", "nullif", "overlay",
           "position", "substring", "treat", "trim", "xmlconcat", "xmlelement", "xmlexists", "xmlforest", "xmlparse", "xmlpi",
           "xmlroot", "xmlserialize"}
# Clauses of a query, and those whose items are counted.
CLAUSES = "withClause", "sortClause", "limitOffset", "limitCount"
COUNTED = {"withClause", "sortClause"}
ATOM = re.compile(r"[kcpvd](\d+|None)?(/\d+)?|Q\d+")
WORD = re.compile(rb"[A-Za-z_]*")


def word_at(text, place):
    return WORD.match(text, place)[0].decode().lower()


def joined(forms):
    return " ".join(form for form in forms if form)


def special(place, forms):
    return f"F{place}({joined(sorted(form for form in forms if form[0] != 'k'))})"


class TheirForms:
    """The forms of PostgreSQL's tree over this text."""

    def __init__(self, text):
        self.text = text

    def of(self, node):
        return getattr(self, "of_" + node.kind)(node)

    def all(self, nodes):
        return [self.of(node) for node in nodes or []]

    def of_ColumnRef(self, node):
        return f"c{node.place}/{len(node.fields['fields'])}"

    def of_A_Const(self, node):
        return "k" if node.place is None else f"k{node.place}"

    def of_ParamRef(self, node):
        return f"p{node.place}"

    def of_SetToDefault(self, node):
        return f"d{node.place}"

    def of_SQLValueFunction(self, node):
        return f"c{node.place}/1" if node.op == "SVFOP_CURRENT_SCHEMA" else f"v{node.place}"

    def of_A_Expr(self, node):
        kind = node.fields["kind"].removeprefix("AEXPR_")
        name, at = node.name[-1].sval, node.place
        if kind == "NULLIF":
            return special(at, self.all([node.lexpr, node.rexpr]))
        left = node.lexpr and self.of(node.lexpr)
        right = self.all(node.rexpr if isinstance(node.rexpr, list) else [node.rexpr])
        is_negated = name[:1] in "!<" and kind in ("IN", "LIKE", "ILIKE", "SIMILAR") or kind.startswith("NOT_")
        negated = "not" if is_negated else ""
        if kind == "OP":
            size = 0 if word_at(self.text, at) else len(name)
            return f"(@{at}:{size} {joined([left, *right])})"
        word = {"OP_ANY": "any", "OP_ALL": "all", "ILIKE": "like", "SIMILAR": "like"}.get(kind)
        word = word or kind.removeprefix("NOT_").removesuffix("_SYM").lower()
        return f"({negated}{word}@{at} {joined([left, *right])})"

    def of_BoolExpr(self, node):
        return f"({node.boolop.removesuffix('_EXPR').lower()}@{node.place} {joined(self.all(node.args))})"

    def of_NullTest(self, node):
        return f"(is@{node.place} {self.of(node.arg)})"

    of_BooleanTest = of_NullTest

    def of_XmlExpr(self, node):
        if node.op == "IS_DOCUMENT":
            return f"(is@{node.place} {self.of(node.args[0])})"
        return special(node.place, self.all(node.args) + [self.of(one.val) for one in node.named_args or []])

    def of_XmlSerialize(self, node):
        return special(node.place, [self.of(node.expr)])

    def of_CoalesceExpr(self, node):
        return special(node.place, self.all(node.args))

    of_MinMaxExpr = of_GroupingFunc = of_CoalesceExpr

    def of_TypeCast(self, node):
        kind = node.typeName
        inner = self.of(node.arg)
        return inner if kind.place is None else f"(cast {inner} t{kind.place}/{len(kind.arrayBounds or [])})"

    def of_CollateClause(self, node):
        return f"(collate@{node.place} {self.of(node.arg)})"

    def of_SubLink(self, node):
        kind = node.subLinkType.removesuffix("_SUBLINK").lower()
        if kind in ("any", "all"):
            return f"({'in' if kind == 'any' and not node.operName else kind}@{node.place} {self.of(node.testexpr)} Q)"
        return f"Q{node.place}" if kind == "expr" else f"{kind}{node.place}"

    def of_CaseExpr(self, node):
        whens = [f"(when {self.of(when.expr)} {self.of(when.result)})" for when in node.args]
        around = [one and self.of(one) for one in (node.arg, node.defresult)]
        return f"(case@{node.place} {joined([around[0], *whens, around[1]])})"

    def of_A_ArrayExpr(self, node):
        return f"[{node.place}: {joined(self.all(node.elements))}]"

    def of_RowExpr(self, node):
        return f"row{node.place}({joined(self.all(node.args))})"

    def of_NamedArgExpr(self, node):
        return f"(named@{node.place} {self.of(node.arg)})"

    def of_A_Indirection(self, node):
        return f"(in {self.of(node.arg)}{''.join(map(self.step, node.indirection))})"

    def step(self, node):
        if node.kind != "A_Indices":
            return "."
        bounds = [one and self.of(one) or "" for one in (node.lidx, node.uidx)]
        return f"[{':'.join(bounds)}]" if node.is_slice else f"[{bounds[1]}]"

    def of_FuncCall(self, node):
        name, at, args = node.funcname[-1].sval, node.place, self.all(node.args)
        word = word_at(self.text, at)
        if word == "at" and name == "timezone":
            return f"(tz@{at} {args[1]} {args[0]})"
        if word == "overlaps" and name == "overlaps":
            return f"(overlaps@{at} {joined(args)})"
        if word == "is" and name == "is_normalized":
            return f"(is@{at} {args[0]})"
        if word in ("like", "ilike", "similar", "not", "escape") and name in ("like_escape", "similar_to_escape"):
            return f"(escape {joined(args)})" if len(args) > 1 else args[0]
        if word in SPECIAL:
            return special(at, args)
        condition, over = node.agg_filter and self.of(node.agg_filter), node.over and self.window(node.over)
        return call(at, args + self.sorts(node.agg_order), condition, over)

    def sorts(self, items):
        return [f"sort {self.of(item.node)}" for item in items or []]

    def window(self, node):
        bounds = [one and self.of(one) for one in (node.startOffset, node.endOffset)]
        return joined(self.all(node.partitionClause) + self.sorts(node.orderClause) + bounds)

    def table(self, node):
        """A table of FROM, as a part of a join."""
        if node.kind == "JoinExpr":
            how = "natural" if node.isNatural else "on" if node.quals else "using" if node.usingClause else "cross"
            outer = node.jointype.removeprefix("JOIN_").lower()
            return f"({outer} {how} {self.table(node.larg)} {self.table(node.rarg)})"
        if node.kind == "RangeTableSample":
            return self.table(node.relation)
        return f"t{node.place}" if node.kind in ("RangeVar", "RangeTableFunc") else node.kind

    def query(self, node):
        """A query as a part of a set operation."""
        counts = {"withClause": node.withClause and len(node.withClause.ctes), "sortClause": len(node.sortClause or [])}
        clauses = joined(f"{name}{counts.get(name, '')}" for name in CLAUSES if node.fields.get(name))
        if node.op == "SETOP_NONE":
            first = node.targetList and node.targetList[0].place
            return f"{'V' if node.valuesLists else 'S' if first is None else f'S{first}'}[{clauses}]"
        word = node.op.removeprefix("SETOP_").lower() + (" all" if node.all else "")
        return f"({word} {self.query(node.larg)} {self.query(node.rarg)})[{clauses}]"


def call(place, args, condition, over):
    return f"f{place}({joined(args)}{' filter ' + condition if condition else ''}{'' if over is None else ' over ' + over})"


EXPRESSIONS = {name.removeprefix("of_") for name in vars(TheirForms) if name.startswith("of_")}


def their_forms(tree, text):
    """The forms of what isn't an operand of something larger."""
    forms = TheirForms(text)

    def found(node, is_inside, above):
        if node.kind in EXPRESSIONS:
            if not is_inside and not (node.kind == "CollateClause" and not node.arg):
                yield forms.of(node)
            is_inside = True
        elif node.kind in ("SelectStmt", "TypeName"):
            is_inside = False
        if node.kind == "JoinExpr" and above.kind != "JoinExpr":
            yield forms.table(node)
        is_part = above.kind == "SelectStmt" and node in (above.larg, above.rarg)
        if node.kind == "SelectStmt" and node.op != "SETOP_NONE" and not is_part:
            yield forms.query(node)
        for child in node.children():
            yield from found(child, is_inside, node)

    return [form for form in found(tree, False, tree) if not ATOM.fullmatch(form)]
