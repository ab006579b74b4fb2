"""Where each node of PostgreSQL's tree stands in ours: a row is its kind, what stands at its place, and our kinds; and
a reason, where PostgreSQL's tree is another one than its grammar says. `nodes.py` reads these.

`first`: our node starts at the place. `sign`: the place is that of a token or an operator that is its own. `held`: a
part of it starts there. `above FIELD`: PostgreSQL's node has no place; ours is around that of the field.
"""

OPTIONS = ("OPTION SEQUENCE_OPTION FUNCTION_OPTION SET_OPTION RESET_OPTION ROLE_OPTION DATABASE_OPTION "
           "TRANSACTION_MODE EVENT_FILTER")
STATEMENTS_WITH_WORDS = ("EXPLAIN VACUUM ANALYZE CLUSTER REINDEX COPY DROP DO CREATE_EXTENSION ALTER_EXTENSION "
                         "CREATE_FOREIGN_DATA_WRAPPER ALTER_FOREIGN_DATA_WRAPPER ALTER_DEFAULT_PRIVILEGES")

ROWS = f"""
ColumnRef | first | NAME_REF FIELD_EXPR
ColumnRef | sign | TARGET | a * that stands alone is a sign of its target
A_Const | first | LITERAL
A_Const | sign | PREFIX_EXPR | a minus before a constant is a part of it
A_Const | first | NAME_REF | a word as the value of a parameter is a string
A_Const | sign | TYPE CAST_EXPR TYPE_ARGS | fields and precision of a type are numbers
A_Const | sign | CALL_EXPR | the field of EXTRACT and a normal form are strings
A_Const | sign | IS_EXPR | a normal form is a string
A_Const | sign | LIMIT_CLAUSE | ALL is NULL
A_Const | sign | TRANSACTION_MODE SET SET_OPTION | a mode is a constant
ParamRef | first | PARAM_REF
A_Expr | sign | BIN_EXPR PREFIX_EXPR
A_Expr IN | sign | IN_EXPR
A_Expr LIKE | sign | LIKE_EXPR
A_Expr BETWEEN | sign | BETWEEN_EXPR
A_Expr DISTINCT | sign | IS_EXPR
A_Expr NULLIF | first | CALL_EXPR
A_Expr ANY | sign | BIN_EXPR LIKE_EXPR
A_Expr | sign | LITERAL | the count of FETCH has its sign
BoolExpr | sign | BIN_EXPR
BoolExpr NOT | sign | PREFIX_EXPR
BoolExpr NOT | sign | IN_EXPR IS_EXPR | NOT before IN, DOCUMENT and NORMALIZED is a node
NullTest | sign | IS_EXPR
BooleanTest | sign | IS_EXPR
TypeCast | sign | CAST_EXPR
TypeCast | first | CAST_EXPR
TypeCast | above arg | CAST_EXPR | a type before a string has no place
CollateClause | sign | COLLATE_EXPR
CollateClause | first | COLLATE_CLAUSE
SubLink EXISTS | first | EXISTS_EXPR
SubLink ARRAY | first | ARRAY_EXPR
SubLink EXPR | first | SUBQUERY
SubLink ANY | sign | IN_EXPR BIN_EXPR LIKE_EXPR
CaseExpr | first | CASE_EXPR
CaseWhen | first | WHEN_CLAUSE
CoalesceExpr | first | CALL_EXPR
MinMaxExpr | first | CALL_EXPR
GroupingFunc | first | CALL_EXPR
XmlExpr | first | CALL_EXPR
XmlExpr DOCUMENT | sign | IS_EXPR
XmlSerialize | first | CALL_EXPR
SQLValueFunction | first | CALL_EXPR TABLE_FUNCTION
SQLValueFunction | first | NAME_REF | CURRENT_SCHEMA may be a function's name, too
FuncCall | first | CALL_EXPR TABLE_FUNCTION
FuncCall | held | CALL | the procedure that is called
FuncCall timezone | sign | BIN_EXPR | AT TIME ZONE is a call
FuncCall overlaps | sign | OVERLAPS_EXPR | OVERLAPS is a call
FuncCall is_normalized | sign | IS_EXPR | IS NORMALIZED is a call
FuncCall like_escape | sign | LIKE_EXPR | ESCAPE is a call
FuncCall similar_to_escape | sign | LIKE_EXPR | SIMILAR TO calls a function
NamedArgExpr | first | NAMED_ARG
A_ArrayExpr | first | ARRAY_EXPR ARRAY_ITEMS
RowExpr | first | ROW_EXPR
A_Indirection | above arg | INDEX_EXPR SLICE_EXPR FIELD_EXPR
SetToDefault | first | DEFAULT_EXPR
TypeName | first | TYPE
TypeName | held | TYPE | SETOF stands before a type's place
TypeName | first | CAST_EXPR | a type before a string
TypeName | first | PATH | of OF and the like, a name alone
RangeVar | first | PATH
JoinExpr | above larg | JOIN_EXPR
RangeSubselect | above subquery | FROM_SUBQUERY
RangeFunction | above functions | TABLE_FUNCTION
RangeTableFunc | first | TABLE_FUNCTION
RangeTableFuncCol | first | XML_COLUMN
RangeTableSample | held | TABLESAMPLE_CLAUSE
SelectStmt VALUES | above valuesLists | VALUES_CLAUSE
SelectStmt SETOP | above larg | COMPOUND_SELECT
SelectStmt | above targetList | SELECT
ResTarget | first | TARGET SET_COLUMN
ResTarget | first | XML_ATTRIBUTE XML_NAMESPACE
SortBy | above node | SORT_ITEM
SortBy | sign | SORT_ITEM | that with USING has its operator's place
WindowDef | first | WINDOW_SPEC
WindowDef | held | OVER_CLAUSE | a window's name
GroupingSet | first | EMPTY_GROUP GROUP_CALL GROUPING_SETS
WithClause | first | WITH_CLAUSE
CommonTableExpr | first | WITH_TABLE
CTESearchClause | first | SEARCH_CLAUSE
CTECycleClause | first | CYCLE_CLAUSE
InferClause | first | CONFLICT_TARGET
InferClause | sign | ON_CONFLICT_CLAUSE | ON CONSTRAINT
OnConflictClause | first | ON_CONFLICT_CLAUSE
ColumnDef | first | COLUMN_DEF
ColumnDef | first | COLUMN_OPTIONS | of a table of a type, or a partition
ColumnDef | held | ALTER_COLUMN TYPE_ACTION | a column's new type has the name's place
PartitionSpec | first | PARTITION_BY
PartitionElem | first | PARTITION_ITEM
PartitionBoundSpec | first | PARTITION_BOUND
PartitionBoundSpec | sign | PARTITION_BOUND
PublicationTable | above relation | PUBLICATION_ITEM
PublicationObjSpec | first | PUBLICATION_ITEM
PublicationObjSpec | held | PUBLICATION_ITEM | a schema has the place of its name
PublicationObjSpec | above pubtable | PUBLICATION_ITEM | a table with its keyword has no place
RoleSpec | first | ROLE_REF
DefElem | first | {OPTIONS}
DefElem | sign | {STATEMENTS_WITH_WORDS} | a word of a statement is an option
DefElem | sign | PARTITION_BOUND | modulus and remainder are options
DefElem | held | OPTION | ADD, SET and DROP stand before an option's place
DefElem | held | SEQUENCE_OPTION | SET stands before a sequence's option
DefElem | first | ALTER_SUBSCRIPTION | ENABLE and DISABLE have the place of the statement
DefElem | held | DO CREATE_COLLATION ALTER_ROLE | the option is what a keyword stands before
Constraint CHECK | first | CHECK_CONSTRAINT
Constraint DEFAULT | first | DEFAULT_CONSTRAINT
Constraint NOTNULL | first | NOT_NULL_CONSTRAINT
Constraint NULL | first | NULL_CONSTRAINT
Constraint IDENTITY | first | IDENTITY_CONSTRAINT
Constraint IDENTITY | sign | ADD_IDENTITY
Constraint GENERATED | first | GENERATED_CONSTRAINT
Constraint PRIMARY | first | PRIMARY_KEY_CONSTRAINT
Constraint UNIQUE | first | UNIQUE_CONSTRAINT
Constraint EXCLUSION | first | EXCLUDE_CONSTRAINT
Constraint FOREIGN | first | REFERENCES_CONSTRAINT FOREIGN_KEY_CONSTRAINT
Constraint FOREIGN | first | ALTER_TABLE ALTER_FOREIGN_TABLE | ALTER CONSTRAINT has no place, which reads as 0
Constraint ATTR_DEFERRABLE | first | DEFERRABLE
Constraint ATTR_NOT_DEFERRABLE | first | NOT_DEFERRABLE
Constraint ATTR_DEFERRED | first | INITIALLY_DEFERRED
Constraint ATTR_IMMEDIATE | first | INITIALLY_IMMEDIATE
"""

# The kinds of ALTER TABLE's actions, in the order in which they stand.
ACTIONS = {name: kinds for kinds, names in (line.split(" | ") for line in """\
ADD_COLUMN | AddColumn
DROP_COLUMN | DropColumn
ADD_CONSTRAINT | AddConstraint
ALTER_CONSTRAINT | AlterConstraint
VALIDATE_CONSTRAINT | ValidateConstraint
DROP_CONSTRAINT | DropConstraint
OWNER_TO | ChangeOwner
CLUSTER_ON | ClusterOn
SET_WITHOUT | DropCluster DropOids
SET_LOGGED | SetLogged SetUnLogged
SET_ACCESS_METHOD | SetAccessMethod
SET_TABLESPACE | SetTableSpace
SET_OPTIONS | SetRelOptions SetOptions
RESET_OPTIONS | ResetRelOptions ResetOptions
INHERIT | AddInherit
NO_INHERIT_TABLE | DropInherit
OF_TYPE | AddOf
NOT_OF | DropOf
REPLICA_IDENTITY | ReplicaIdentity
ATTACH_PARTITION | AttachPartition
DETACH_PARTITION | DetachPartition DetachPartitionFinalize
FOREIGN_OPTIONS | GenericOptions AlterColumnGenericOptions
ROW_SECURITY | EnableRowSecurity DisableRowSecurity ForceRowSecurity NoForceRowSecurity
TRIGGER_ACTION | EnableTrig EnableAlwaysTrig EnableReplicaTrig DisableTrig
TRIGGER_ACTION | EnableTrigAll DisableTrigAll EnableTrigUser DisableTrigUser
RULE_ACTION | EnableRule EnableAlwaysRule EnableReplicaRule DisableRule
SET_DEFAULT DROP_DEFAULT | ColumnDefault
DROP_NOT_NULL | DropNotNull
SET_NOT_NULL | SetNotNull
DROP_EXPRESSION | DropExpression
SET_STATISTICS | SetStatistics
SET_STORAGE | SetStorage
SET_COMPRESSION | SetCompression
ADD_IDENTITY | AddIdentity
ALTER_IDENTITY | SetIdentity
DROP_IDENTITY | DropIdentity
SET_TYPE | AlterColumnType
""".splitlines()) for name in names.split()}


def rows():
    """The rows of each kind, in order: the role, our kinds, and the reason or None."""
    found = {}
    for line in ROWS.strip().split("\n"):
        kind, role, kinds, *reason = line.split(" | ")
        found.setdefault(kind, []).append((role, frozenset(kinds.split()), reason[0] if reason else None))
    return found
