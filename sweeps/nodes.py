#!/usr/bin/python3
"""nodes.py SQL_TREE FOLDER..: places and kinds of nodes against PostgreSQL's parser, as python3-pglast has it.

SQL_TREE is `crates/sql_tree/out/sql_tree`; the system's Python runs this. Of each statement that both take: each node
of PostgreSQL's tree that has a place, or lies around one that has, must have a node of ours there, with a kind that
`node_rows.py` says, and none is taken twice. Actions of ALTER TABLE and items of an index, which have no places, are
compared in order. Prints counts by kind and by reason, a line WRONG for each node that has none, and counts."""
import sys
from collections import Counter, defaultdict

from node_rows import ACTIONS, rows
from trees import SIGNS, pairs, walked

ROWS = rows()
COMPARED = {key.partition(" ")[0] for key in ROWS}
SHOWN = 300
# Kinds of nodes without a place of their own, whose places nothing tells.
PLACELESS = {"FuncCall", "A_Const", "ColumnRef", "RangeVar", "ResTarget", "TypeName", "TypeCast", "A_Expr", "DefElem",
             "CommonTableExpr", "SelectStmt", "RangeSubselect", "SortBy", "Constraint", "ColumnDef", "RoleSpec",
             "WithClause"}
OPERATORS = {"OP": "", "OP_ANY": "ANY", "OP_ALL": "ANY", "ILIKE": "LIKE", "SIMILAR": "LIKE", "BETWEEN_SYM": "BETWEEN"}
ALTERED = {"ALTER_TABLE", "ALTER_INDEX", "ALTER_VIEW", "ALTER_FOREIGN_TABLE", "ALTER_MATERIALIZED_VIEW", "ALTER_SEQUENCE"}


def variant(node):
    """The word by which rows tell nodes of one kind apart, or an empty one."""
    name = node.kind
    if name == "A_Expr":
        word = node.fields["kind"].removeprefix("AEXPR_").removeprefix("NOT_")
        return OPERATORS.get(word, word)
    if name == "BoolExpr":
        return "NOT" if node.boolop == "NOT_EXPR" else ""
    if name == "SubLink":
        return node.subLinkType.removesuffix("_SUBLINK").replace("ALL", "ANY")
    if name == "XmlExpr":
        return "DOCUMENT" if node.op == "IS_DOCUMENT" else ""
    if name == "Constraint":
        return node.contype.removeprefix("CONSTR_")
    if name == "FuncCall":
        return node.funcname[-1].sval
    if name == "SelectStmt":
        return "VALUES" if node.valuesLists else "" if node.op == "SETOP_NONE" else "SETOP"
    return ""


class Places:
    """Our tree by places, and which node of PostgreSQL's stands for which of ours."""

    def __init__(self, tree):
        self.at = defaultdict(list)
        for node in tree.walked():
            self.at[node.start].append(node)
        self.found = {}
        self.taken = set()

    def candidates(self, node, role, kinds):
        """The nodes of ours that this row may mean, the innermost first."""
        if role.startswith("above "):
            inner = self.found_in(node.fields.get(role.removeprefix("above ")))
            while inner:
                if inner.kind in kinds:
                    yield inner
                inner = inner.parent
        elif node.place is not None:
            for ours in reversed(self.at.get(node.place, [])):
                if role == "first" and ours.kind in kinds:
                    yield ours
                above = ours.parent
                is_sign = ours.is_token or ours.kind in SIGNS or ours.kind == "OP"
                if role != "first" and above and above.kind in kinds and (role == "held" or is_sign):
                    yield above

    def found_in(self, field):
        """Our node of a field, or of the first one of a list."""
        if isinstance(field, list):
            return next(filter(None, map(self.found_in, field)), None)
        return self.found.get(id(field))

    def match(self, node):
        """The row by which this node has one of ours, or None."""
        for kind in dict.fromkeys((f"{node.kind} {variant(node)}", node.kind)):
            for row in ROWS.get(kind, []):
                for ours in self.candidates(node, *row[:2]):
                    # A statement may hold many options.
                    key = node.kind, id(ours), node.place if node.kind == "DefElem" else None
                    if key not in self.taken:
                        self.taken.add(key)
                        self.found[id(node)] = ours
                        return row
        return None


def actions_of(tree):
    """The actions of ALTER TABLE and its like, also those on a column."""
    for child in tree.nodes():
        if child.kind == "ALTER_COLUMN":
            yield child.nodes()[-1]
        elif child.kind not in ("RELATION", "PATH"):
            yield child


def unordered(tree, ours, tally):
    """What is wrong in the order of actions and of an index's items."""
    if tree.kind == "AlterTableStmt" and ours.kind in ALTERED:
        tally["AlterTableCmd"] += len(tree.cmds)
        names = [command.subtype.removeprefix("AT_") for command in tree.cmds]
        kinds = [action.kind for action in actions_of(ours)]
        fit = [kind in ACTIONS.get(name, "").split() for name, kind in zip(names, kinds)]
        if len(names) != len(kinds) or not all(fit):
            yield f"actions {names} as {kinds}"
    if tree.kind == "IndexStmt":
        tally["IndexElem"] += len(tree.indexParams)
        items = [child for child in ours.nodes() if child.kind == "INDEX_ITEM"]
        if len(items) != len(tree.indexParams):
            yield f"{len(tree.indexParams)} items of an index as {len(items)}"


def wrong_nodes(tree, ours, tally, reasons):
    """The nodes of PostgreSQL's tree that have none of ours."""
    places = Places(ours)
    for node in walked(tree):
        if node.kind not in COMPARED:
            continue
        row = places.match(node)
        if row:
            tally[node.kind] += 1
            if row[2]:
                reasons[f"{node.kind}: {row[2]}"] += 1
        elif node.place is None and node.kind in PLACELESS:
            reasons[f"{node.kind} without a place, which the parser makes"] += 1
        else:
            yield node, [f"{one.kind}@{one.start}" for one in places.at.get(node.place, [])]


def shown(statement, node):
    if node.place is None:
        return repr(statement[:120])
    text = statement.encode()
    before, behind = text[max(node.place - 60, 0):node.place], text[node.place:node.place + 60]
    return repr(before.decode(errors="ignore") + "<HERE>" + behind.decode(errors="ignore"))


def main(program, paths):
    counts, tally, reasons, wrong = Counter(), Counter(), Counter(), 0
    for statement, tree, ours in pairs(program, paths, counts):
        counts["compared"] += 1
        told = [f"{node.kind} {variant(node)} in {near}: {shown(statement, node)}"
                for node, near in wrong_nodes(tree, ours, tally, reasons)]
        told += [f"{what}: {statement[:200]!r}" for what in unordered(tree, ours, tally)]
        for line in told:
            wrong += 1
            if wrong <= SHOWN:
                print(f"WRONG {line}")
    for kind, count in tally.most_common():
        print(f"{count} {kind}")
    for reason, count in reasons.most_common():
        print(f"{count} by reason: {reason}")
    told = ", ".join(f"{count} {what}" for what, count in counts.items())
    print(f"nodes: {told}, {sum(tally.values())} nodes, {wrong} wrong")
    return 1 if wrong else 0


if __name__ == "__main__":
    sys.exit(main(sys.argv[1], sys.argv[2:]))
