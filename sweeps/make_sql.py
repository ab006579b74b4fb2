#!/usr/bin/env python3
"""make_sql.py BYTES SEED: SQL of many kinds, made at random, on standard output: whole statements, of BYTES or just
more.

Queries with joins, groups, CASE and subqueries, changes of rows with many values, tables, indexes, views, rules,
functions in dollar quotes and with BEGIN ATOMIC, comments, names in quotes and beyond ASCII. PostgreSQL's parser
takes all of it."""
import random
import sys

NAMES = ["account", "balance", "owner", "city", "região", "straße", "kunde", "\"Order Line\"", "\"x\"\"y\"", "created_at",
         "amount", "code", "notes", "t", "u", "v", "invoice", "event_log", "id", "parent_id", "level", "weight", "名前", "flags", "payload"]
TYPES = ["integer", "text", "numeric(12, 2)", "timestamp with time zone", "char(3)", "jsonb", "double precision[]", "uuid", "boolean"]
OPERATORS = ["+", "-", "*", "/", "||", "=", "<>", "<=", ">=", "<", ">", "->>", "->", "@>", "and", "or", "~*", "::text =",
             "is distinct from", "%", "^"]
TABLES = [*NAMES, "public.invoice", "audit.event_log"]
WORDS = "the accounts of their owners keep a currency each, and what is behind it isn't told: see ticket 4711 or page 12".split()


class Maker:
    def __init__(self, seed):
        self.chance = random.Random(seed)

    def name(self):
        return self.chance.choice(NAMES)

    def table_name(self):
        return self.chance.choice(TABLES)

    def some(self, make, least, most, between=", "):
        return between.join(make() for _ in range(self.chance.randint(least, most)))

    def words(self):
        return self.some(lambda: self.chance.choice(WORDS), 2, 9, " ")

    def constant(self):
        number = self.chance.randint(0, 10 ** self.chance.randint(1, 9))
        return self.chance.choice([
            str(number), f"{number}.{number % 97:02}", f"{number % 900}e-{number % 9}", "'" + self.words().replace("'", "''") + "'", "null", "true",
            f"E'a\\n{number}\\'b'", f"date '20{number % 100:02}-01-02'", "$1", f"B'{number % 2}01'", f"x'{number:x}'", f"U&'d\\0061t{number}'",
            f"interval '{number % 40} days'", f"'{{{number}, 2}}'::int[]", "current_date"])

    def expression(self, depth=2):
        way = self.chance.randrange(9) if depth else self.chance.randrange(4)
        inner = lambda: self.expression(depth - 1)
        if way < 2:
            return self.name()
        if way < 4:
            return self.constant()
        if way < 6:
            return f"{self.name()} {self.chance.choice(OPERATORS)} ({inner()})"
        if way == 6:
            return f"{self.chance.choice(['coalesce', 'sum', 'lower', 'max', 'jsonb_build_object'])}({self.some(inner, 1, 3)})"
        if way == 7:
            return f"case when {inner()} then {inner()} else {inner()} end"
        return f"({self.constant()} {self.chance.choice(OPERATORS)} ({inner()}))"

    def query(self, depth=2):
        parts = [f"select {self.some(self.expression, 1, 6)}\nfrom {self.table_name()}"]
        if self.chance.random() < 0.5:
            parts.append(f"  left join {self.table_name()} as j on j.id = ({self.expression()})")
        if depth and self.chance.random() < 0.3:
            parts.append(f"  join (\n{self.query(depth - 1)}\n) as s using (id, code)")
        parts.append(f"where ({self.expression()}) and {self.name()} is not null")
        if depth and self.chance.random() < 0.2:
            parts.append(f"  and exists (select 1 from {self.table_name()} where {self.expression()})")
        if self.chance.random() < 0.3:
            parts.append(f"group by {self.some(self.name, 1, 3)} having count(*) > {self.constant()}")
        if self.chance.random() < 0.3:
            return "\n".join(parts) + f"\norder by {self.some(self.name, 1, 2)} desc nulls last limit 10"
        if depth and self.chance.random() < 0.2:
            parts.append(f"union all\n{self.query(depth - 1)}")
        return "\n".join(parts)

    def row(self):
        return f"({self.some(self.constant, 4, 7)})"

    def insert(self):
        rows = self.some(self.row, 1, self.chance.choice((2, 2, 40)), ",\n    ")
        return f"insert into {self.table_name()} ({self.some(self.name, 4, 7)}) values\n    {rows}\non conflict (id) do nothing;"

    def new_table(self):
        column = lambda: f"    {self.name()} {self.chance.choice(TYPES)} not null default {self.constant()} check ({self.expression(1)})"
        return f"create table if not exists {self.table_name()} (\n{self.some(column, 2, 9, ',' + chr(10))},\n    primary key (id)\n);"

    def function(self):
        if self.chance.random() < 0.3:
            return (f"create or replace function f(a integer) returns integer language sql\nbegin atomic\n    {self.query(0)};\n"
                    f"    select case when a > 1 then 2 else 3 end;\nend;")
        tag = self.chance.choice(("$$", "$body$", "$_$"))
        return (f"create function {self.table_name()}(a integer, b text) returns void language plpgsql as {tag}\n"
                f"declare\n    n integer := 0;\nbegin\n"
                f"    if a > {self.constant()} then\n        {self.insert()}\n    end if;\n    return;\nend;\n{tag};")

    def statement(self):
        way = self.chance.randrange(20)
        if way < 7:
            return self.query() + ";"
        if way < 10:
            return self.insert()
        if way < 12:
            return f"update {self.table_name()} set {self.name()} = {self.expression()} where {self.expression()} returning *;"
        if way == 12:
            return self.new_table()
        if way == 13:
            return self.function()
        if way == 14:
            return f"with w as (\n{self.query(1)}\n), x as (select 1)\ndelete from {self.table_name()} using w where {self.expression()};"
        if way == 15:
            return (f"create index concurrently on {self.table_name()} using btree ({self.some(self.name, 1, 3)});\n"
                    f"create view {self.table_name()} as\n{self.query(1)};")
        if way == 16:
            return f"create rule r as on update to {self.table_name()} do also (\n    {self.insert()}\n    select {self.expression()};\n);"
        if way == 17:
            return f"/* {self.words()}\n   {self.words()} /* and {self.words()} */ */\nbegin; set local search_path = {self.name()}; commit;"
        if way == 18:
            return f"alter table {self.table_name()} add column {self.name()} {self.chance.choice(TYPES)};"
        words = self.words().replace("'", "")
        return f"grant select, insert on {self.table_name()} to {self.name()};\ncomment on table {self.table_name()} is '{words}';"

    def pieces(self, size):
        """Statements with comments before some, until there are so many bytes."""
        while size > 0:
            comment = f"-- {self.words()}\n" if self.chance.random() < 0.3 else ""
            piece = f"{comment}{self.statement()}\n\n".encode()
            size -= len(piece)
            yield piece


if __name__ == "__main__":
    for made in Maker(int(sys.argv[2])).pieces(int(sys.argv[1])):
        sys.stdout.buffer.write(made)
