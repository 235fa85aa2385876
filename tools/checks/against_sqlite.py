#!/usr/bin/env python3
"""Compares the program with SQLite on random databases and statements.

    python3 tools against_sqlite                         100 databases with 40 statements each, some again
    python3 tools against_sqlite --databases 2500        100,000 statements
    python3 tools against_sqlite --seed 7 --databases 1  the same database and statements again
    python3 tools against_sqlite --program 'CMD ..'      another program that runs a world

Each database becomes a world whose script asks the statements one by one, a third of them three times more
with other parameters. `ldv run` runs it, and Python's `sqlite3` asks the same statements of the same rows.
Replies are compared one by one: rows, numbers of changed rows, and refusals. After the last statement all
tables are asked whole. If a reply differs, the world is kept in a file and the statement is shown.

What is left out, as the two don't mean the same there (docs/SQL.md):
- the order of an answer without ORDER BY, and that of rows whose sorting keys are the same. Rows are then
  compared without their order, and LIMIT stands only where all columns are sorting keys;
- numbers near the ends of 64 bits: SQLite goes on with floating point, and its SUM fails. Statements are made
  of numbers for which that is rare, and where it happens the statement is counted as left out;
- an UPDATE of key columns: SQLite judges keys row by row, and not after the statement. So code 9 is met by
  DELETE alone;
- which of two refusals an INSERT of several rows meets: SQLite judges row by row;
- what a refusal of code 6, 8 or 9 names, which SQLite doesn't tell;
- statements whose kinds don't fit, which SQLite converts, and everything else that is refused by a code
  of 1 to 4, or by 7;
- a condition of JOIN that names a source after it;
- which rows a statement needs: an outcome doesn't say it.

Statuses: 0 no difference; 1 a difference, or a program that failed; 2 wrong words.
"""
from __future__ import annotations

import argparse
import collections
import json
import os
import random
import shlex
import sqlite3
import subprocess
import sys
from typing import Any, Iterable, Mapping, NamedTuple, Optional, Sequence, Union

from ldvtools.errors import Malformed, words_of
from ldvtools.outcomes import read_outcome
from ldvtools.scripts_of_statements import escaped

from . import ROOT

TEXTS = ["", "a", "b", "A", "ab", "a'b", "é", "z z", "10", "9", "null", "\\n\"", "two\nlines\t?"]
COMPARISONS = ["=", "<>", "!=", "<", "<=", ">", ">="]
NOT_NULL, KEY_TAKEN, NO_PARENT, HAS_CHILD = 5, 6, 8, 9
# Older ones have HAVING only after GROUP BY.
HAVING_ALONE = sqlite3.sqlite_version_info >= (3, 39, 0)

# Values and replies of SQLite: a reply is its kind, with its rows, a number of rows, or a code.
Value = Union[int, str, None]
Row = list[Value]
Reply = tuple[str, Any]
# A world document, before it is spelled.
World = dict[str, Any]
Scope = Sequence["Source"]
# How many replies of each kind there were, by the verb of the statement.
Counts = collections.Counter[tuple[str, str]]


class Column(NamedTuple):
    """A column of texts or of numbers."""

    name: str
    text: bool
    not_null: bool


class Foreign(NamedTuple):
    """A foreign key: places of columns, and the name of the parent."""

    columns: list[int]
    parent: str


class Table(NamedTuple):
    """A table with its rows, and the places of its key's columns."""

    name: str
    columns: list[Column]
    key: list[int]
    rows: list[Row]
    foreign: Sequence[Foreign] = ()


class Source(NamedTuple):
    """A table of a FROM, by the name that it has there."""

    name: str
    table: Table


class Asked(NamedTuple):
    """A statement with its parameters."""

    text: str
    params: list[Value]
    order: Sequence[tuple[int, bool]] = ()
    """By which columns of its answer it is sorted, with their directions."""
    rows: int = 1
    """How many rows it inserts."""


def has_parents(row: Row, table: Table, keys: Mapping[str, set[tuple[Value, ...]]]) -> bool:
    """Whether the references of a row are among the keys of tables."""
    for places, parent in table.foreign:
        reference = tuple(row[place] for place in places)
        if None not in reference and reference not in keys[parent]:
            return False
    return True


class Maker:
    """Makes random tables and statements that both sides take."""

    def __init__(self, chance: random.Random) -> None:
        self.chance = chance
        self.params: list[Value] = []

    def some(self, most: int, least: int = 0) -> range:
        return range(self.chance.randint(least, most))

    def perhaps(self, likely: float) -> bool:
        return self.chance.random() < likely

    # ---- tables

    def value(self, column: Column) -> Value:
        if not column.not_null and self.perhaps(0.2):
            return None
        return self.chance.choice(TEXTS) if column.text else self.number()

    def number(self) -> int:
        return self.chance.choice([0, 1, 2, 3, 5, 10, -1, -7, 100]) if self.perhaps(0.8) else \
            self.chance.randint(-10_000, 10_000)

    def table(self, name: str) -> Table:
        columns = [Column(f"c{place}", self.perhaps(0.4), self.perhaps(0.4)) for place in self.some(4, 1)]
        key: list[int] = []
        if self.perhaps(0.6):
            width = self.chance.randint(1, min(2, len(columns)))
            key = self.chance.sample(range(len(columns)), width)
            columns = [column._replace(not_null=column.not_null or place in key)
                       for place, column in enumerate(columns)]
        return Table(name, columns, key, self.rows(columns, key))

    def rows(self, columns: list[Column], key: list[int]) -> list[Row]:
        rows: list[Row] = []
        keys: set[tuple[Value, ...]] = set()
        for _ in self.some(12):
            row = [self.value(column) for column in columns]
            own = tuple(row[place] for place in key)
            if not key or own not in keys:
                keys.add(own)
                rows.append(row)
        return rows

    def with_foreign(self, tables: Sequence[Table]) -> list[Table]:
        """The tables, some with foreign keys, without the rows that have no parent by them."""
        found = []
        for table in tables:
            foreign: list[Foreign] = []
            for parent in tables:
                places = self.fitting(table, parent)
                if places and self.perhaps(0.6):
                    foreign.append(Foreign(places, parent.name))
            rows = table.rows
            if foreign and not any(place in table.key for places, _ in foreign for place in places):
                rows = [self.referring(row, foreign, tables) for row in rows]
            found.append(table._replace(foreign=foreign, rows=rows))
        before: Optional[list[Table]] = None
        while before != found:
            before = found
            keys = {table.name: {tuple(row[place] for place in table.key) for row in table.rows}
                    for table in found}
            found = [table._replace(rows=[row for row in table.rows if has_parents(row, table, keys)])
                     for table in found]
        return found

    def fitting(self, table: Table, parent: Table) -> Optional[list[int]]:
        """Columns that may refer to the key of the parent, or None."""
        places: list[int] = []
        for key in parent.key:
            fit = [place for place, column in enumerate(table.columns)
                   if column.text == parent.columns[key].text and place not in places]
            if not fit:
                return None
            places.append(self.chance.choice(fit))
        return places

    def referring(self, row: Row, foreign: Sequence[Foreign], tables: Sequence[Table]) -> Row:
        """The row, which refers to rows that are there."""
        row = list(row)
        for places, name in foreign:
            parent = next(each for each in tables if each.name == name)
            if parent.rows and self.perhaps(0.8):
                other = self.chance.choice(parent.rows)
                for place, key in zip(places, parent.key):
                    row[place] = other[key]
        return row

    # ---- expressions

    def constant(self, value: Value) -> str:
        """A constant as a literal or as a parameter."""
        if self.perhaps(0.3):
            self.params.append(value)
            return "?"
        if value is None:
            return "NULL"
        if isinstance(value, int):
            return str(value) if value >= 0 else f"(- {-value})"
        return "'" + value.replace("'", "''") + "'"

    def column(self, scope: Scope, text: bool) -> Optional[str]:
        """A column of a kind, with its source, or None where there is none."""
        found = [(source, column) for source in scope for column in source.table.columns
                 if column.text == text]
        if not found:
            return None
        source, column = self.chance.choice(found)
        return f"{source.name}.{column.name}"

    def column_or_bare(self, scope: Scope, text: bool) -> Optional[str]:
        """The same; where there is one source, perhaps without it."""
        column = self.column(scope, text)
        return column.split(".")[1] if column and len(scope) == 1 and self.perhaps(0.3) else column

    def number_expr(self, scope: Scope, depth: int, operators: str = "+-*") -> str:
        """An expression of numbers. A product has no product within, by which numbers might leave 64 bits."""
        column = self.column_or_bare(scope, False)
        if depth == 0 or self.perhaps(0.4):
            return column if column and self.perhaps(0.7) else \
                self.constant(None if self.perhaps(0.05) else self.number())
        if self.perhaps(0.15):
            return f"- {self.parted(self.number_expr(scope, depth - 1, operators))}"
        operator = self.chance.choice(operators)
        within = "+-" if operator == "*" else operators
        left = self.parted(self.number_expr(scope, depth - 1, within))
        right = self.parted(self.number_expr(scope, depth - 1, within))
        return f"{left} {operator} {right}"

    @staticmethod
    def parted(expr: str) -> str:
        return f"({expr})" if " " in expr else expr

    def text_expr(self, scope: Scope) -> str:
        column = self.column_or_bare(scope, True)
        return column if column and self.perhaps(0.7) else self.constant(self.chance.choice(TEXTS))

    def expr(self, scope: Scope, depth: int) -> str:
        return self.number_expr(scope, depth) if self.perhaps(0.6) else self.text_expr(scope)

    def test(self, scope: Scope, depth: int) -> str:
        if depth > 0 and self.perhaps(0.5):
            if self.perhaps(0.25):
                return f"NOT ({self.test(scope, depth - 1)})"
            left = self.test(scope, depth - 1)
            right = self.test(scope, depth - 1)
            return f"({left}) {self.chance.choice(['AND', 'OR'])} ({right})"
        if self.perhaps(0.2):
            operand = self.parted(self.expr(scope, 1))
            return f"{operand} IS {self.chance.choice(['', 'NOT '])}NULL"
        compare = self.chance.choice(COMPARISONS)
        if self.perhaps(0.6):
            left = self.parted(self.number_expr(scope, 1))
            return f"{left} {compare} {self.parted(self.number_expr(scope, 1))}"
        return f"{self.text_expr(scope)} {compare} {self.text_expr(scope)}"

    # ---- queries

    def source(self, tables: Sequence[Table], place: int, scope: Scope) -> tuple[Source, str]:
        """One more source, and its text. Its name is its table's where no other has it, or one of its own."""
        table = self.chance.choice(tables)
        if self.perhaps(0.3) and table.name not in [source.name for source in scope]:
            return Source(table.name, table), table.name
        return Source(f"s{place}", table), f"{table.name}{self.chance.choice([' ', ' AS '])}s{place}"

    def sources(self, tables: Sequence[Table], most: int) -> tuple[list[Source], str]:
        scope: list[Source] = []
        text = ""
        for place in self.some(most, 1):
            source, named = self.source(tables, place, scope)
            scope.append(source)
            if place == 0:
                text = named
            elif self.perhaps(0.5):
                text += f" {self.chance.choice(['', 'INNER '])}JOIN {named} ON {self.test(scope, 1)}"
            else:
                text += f", {named}"
        return scope, text

    def core(self, tables: Sequence[Table], kinds: Sequence[bool]) -> str:
        """The text of a core with items of these kinds (True: TEXT)."""
        groups = self.perhaps(0.35)
        distinct = "DISTINCT " if self.perhaps(0.2) else ""
        # Parameters are counted from left to right. The items come first and are made last, so theirs are
        # kept apart.
        outer, self.params = self.params, []
        scope, sources = self.sources(tables, 1 if groups and self.perhaps(0.5) else 3)
        where = f" WHERE {self.test(scope, 2)}" if self.perhaps(0.6) else ""
        behind, self.params = self.params, []
        rest = ""
        if groups:
            by = sorted({column for column in (self.column(scope, self.perhaps(0.5)) for _ in self.some(2))
                         if column})
            items = [self.folded(scope, by, text) for text in kinds]
            before, self.params = self.params, []
            if by:
                rest = f" GROUP BY {', '.join(by)}"
            if self.perhaps(0.4) and (by or HAVING_ALONE):
                rest += f" HAVING {self.having(scope)}"
            after = self.params
        else:
            items = [self.text_expr(scope) if text else self.number_expr(scope, 2) for text in kinds]
            before, after = self.params, []
        self.params = outer + before + behind + after
        named = [f"{item} AS a{place}" for place, item in enumerate(items)]
        return f"SELECT {distinct}{', '.join(named)} FROM {sources}{where}{rest}"

    def folded(self, scope: Scope, by: Sequence[str], text: bool) -> str:
        """An item of a core that groups."""
        own = [name for name in by if self.is_text(scope, name) == text]
        if own and self.perhaps(0.5):
            name = self.chance.choice(own)
            return name.split(".")[1] if len(scope) == 1 and self.perhaps(0.3) else name
        if text:
            return f"{self.chance.choice(['MIN', 'MAX'])}({self.text_expr(scope)})"
        return self.fold(scope)

    @staticmethod
    def is_text(scope: Scope, name: str) -> bool:
        source, column = name.split(".")
        table = next(each.table for each in scope if each.name == source)
        return next(each.text for each in table.columns if each.name == column)

    def fold(self, scope: Scope) -> str:
        """A number of a group. Over a join there is no count, and a sum is of a column."""
        kind = self.chance.choice((["COUNT(*)", "COUNT"] if len(scope) == 1 else []) + ["SUM", "MIN", "MAX"])
        if kind == "COUNT(*)":
            return kind
        if kind == "COUNT":
            return f"COUNT({self.expr(scope, 1)})"
        column = self.column(scope, False)
        if kind == "SUM" and len(scope) > 1 and column:
            times = f" * {self.number_expr(scope, 0)}" if self.perhaps(0.5) else ""
            return f"SUM({column}{times})"
        kind = "MAX" if kind == "SUM" and len(scope) > 1 else kind
        return f"{kind}({self.number_expr(scope, 1)})"

    def having(self, scope: Scope) -> str:
        return f"{self.fold(scope)} {self.chance.choice(COMPARISONS)} {self.constant(self.number())}"

    def all_columns(self, tables: Sequence[Table]) -> tuple[str, int]:
        """The text of a core with `*`, and how many columns it has."""
        distinct = "DISTINCT " if self.perhaps(0.2) else ""
        scope, sources = self.sources(tables, 2)
        where = f" WHERE {self.test(scope, 2)}" if self.perhaps(0.6) else ""
        return f"SELECT {distinct}* FROM {sources}{where}", sum(len(source.table.columns) for source in scope)

    def query(self, tables: Sequence[Table]) -> Asked:
        self.params = []
        if self.perhaps(0.15):
            text, width = self.all_columns(tables)
            return self.ordered(text, width, False)
        kinds = [self.perhaps(0.4) for _ in self.some(3, 1)]
        text = self.core(tables, kinds)
        while self.perhaps(0.2):
            text += f" UNION {self.chance.choice(['', 'ALL '])}{self.core(tables, kinds)}"
        return self.ordered(text, len(kinds), True)

    def ordered(self, text: str, width: int, named: bool) -> Asked:
        """The query with or without ORDER BY and LIMIT. Keys are places, or the names of the items."""
        order: list[tuple[int, bool]] = []
        if self.perhaps(0.5):
            places = self.chance.sample(range(width), width)
            order = [(place, self.perhaps(0.4)) for place in places]
            order = order if self.perhaps(0.5) else order[:1]
            keys = [(f"a{place}" if named and self.perhaps(0.5) else str(place + 1))
                    + (" DESC" if down else self.chance.choice(["", " ASC"])) for place, down in order]
            text += f" ORDER BY {', '.join(keys)}"
            if len(order) == width and self.perhaps(0.5):
                text += f" LIMIT {self.limit()}"
        return Asked(text, self.params, order)

    def limit(self) -> str:
        """A number or a parameter, and no other expression."""
        number = self.chance.randint(0, 8)
        if self.perhaps(0.3):
            self.params.append(number)
            return "?"
        return str(number)

    # ---- changes

    def insert(self, tables: Sequence[Table]) -> Asked:
        table = self.chance.choice(tables)
        named = list(range(len(table.columns)))
        columns = ""
        if self.perhaps(0.4):
            named = self.chance.sample(named, self.chance.randint(1, len(named)))
            columns = f" ({', '.join(table.columns[place].name for place in named)})"
        self.params = []
        tuples = []
        for _ in self.some(3, 1):
            values = [self.constant(self.value(table.columns[place]) if self.perhaps(0.9) else None)
                      for place in named]
            tuples.append(f"({', '.join(values)})")
        return Asked(f"INSERT INTO {table.name}{columns} VALUES {', '.join(tuples)}", self.params,
                     rows=len(tuples))

    def update(self, tables: Sequence[Table]) -> Asked:
        table = self.chance.choice(tables)
        free = [place for place in range(len(table.columns)) if place not in table.key]
        if not free:
            return self.delete(tables)
        scope = [Source(table.name, table)]
        self.params = []
        sets = []
        for place in self.chance.sample(free, self.chance.randint(1, len(free))):
            column = table.columns[place]
            value = self.text_expr(scope) if column.text else self.shifted(scope)
            sets.append(f"{column.name} = {value}")
        where = f" WHERE {self.test(scope, 1)}" if self.perhaps(0.8) else ""
        return Asked(f"UPDATE {table.name} SET {', '.join(sets)}{where}", self.params)

    def shifted(self, scope: Scope) -> str:
        """A number for an UPDATE. It adds no two columns: after many such changes
        numbers would leave 64 bits."""
        value = self.number_expr(scope, 0)
        if self.perhaps(0.5):
            return value
        return f"{value} {self.chance.choice('+-')} {self.constant(self.number())}"

    def delete(self, tables: Sequence[Table]) -> Asked:
        table = self.chance.choice(tables)
        self.params = []
        where = f" WHERE {self.test([Source(table.name, table)], 1)}" if self.perhaps(0.95) else ""
        return Asked(f"DELETE FROM {table.name}{where}", self.params)

    def statement(self, tables: Sequence[Table]) -> Asked:
        kind = self.chance.random()
        if kind < 0.65:
            return self.query(tables)
        if kind < 0.82:
            return self.insert(tables)
        return self.update(tables) if kind < 0.95 else self.delete(tables)

    # ---- the same text again

    def other_value(self, value: Value) -> Value:
        """A parameter of the same kind, or NULL. NULL stays, since it doesn't tell the kind of its place."""
        if value is None or self.perhaps(0.1):
            return None
        return self.number() if isinstance(value, int) else self.chance.choice(TEXTS)

    def with_others(self, asked: Asked) -> Asked:
        """A statement with other parameters. What stands after LIMIT stays a number of rows."""
        params = [self.other_value(value) for value in asked.params]
        if asked.text.endswith("LIMIT ?"):
            params[-1] = self.chance.randint(0, 8)
        return asked._replace(params=params)

    def repeated(self, asked: Sequence[Asked]) -> list[Asked]:
        """Each statement, and a third of them three times more."""
        return [again for each in asked
                for again in [each] + [self.with_others(each) for _ in range(self.chance.choice([0, 0, 3]))]]


# ---- the program

def operand(value: Value) -> str:
    if value is None:
        return "null"
    return str(value) if isinstance(value, int) else f'"{escaped(value)}"'


def world_of(tables: Sequence[Table], asked: Sequence[Asked]) -> World:
    lines = [f'sql q "{escaped(each.text)}" {" ".join(map(operand, each.params))}'.rstrip() for each in asked]
    return {
        "start": ["main"],
        "files": {"main": "".join(line + "\n" for line in lines)},
        "tables": {table.name: {
            "columns": [[column.name, ("TEXT" if column.text else "INT")
                         + (" NOT NULL" if column.not_null else "")]
                        for column in table.columns],
            "key": [table.columns[place].name for place in table.key],
            "rows": table.rows,
            **({"foreign": [[[table.columns[place].name for place in places], parent]
                            for places, parent in table.foreign]} if table.foreign else {}),
        } for table in tables},
    }


def replies_of(program: Sequence[str], world: World) -> list[Reply]:
    done = subprocess.run(program, input=json.dumps(world).encode(), capture_output=True, check=False)
    if done.returncode != 0:
        raise Malformed(f"status {done.returncode}: {done.stderr.decode(errors='replace').strip()}")
    processes, _paths = read_outcome(done.stdout)
    return [(str(each[0]), each[1]) for each in (reply.brief() for reply in processes[0].replies)]


# ---- SQLite

def opened(tables: Sequence[Table]) -> sqlite3.Connection:
    base = sqlite3.connect(":memory:", isolation_level=None)
    for table in tables:
        columns = [f"{column.name} {'TEXT' if column.text else 'INT'}{' NOT NULL' if column.not_null else ''}"
                   for column in table.columns]
        if table.key:
            columns.append(f"PRIMARY KEY ({', '.join(table.columns[place].name for place in table.key)})")
        for places, parent in table.foreign:
            names = ", ".join(table.columns[place].name for place in places)
            columns.append(f"FOREIGN KEY ({names}) REFERENCES {parent}")
        base.execute(f"CREATE TABLE {table.name} ({', '.join(columns)})")
        marks = ", ".join("?" * len(table.columns))
        base.executemany(f"INSERT INTO {table.name} VALUES ({marks})", table.rows)
    base.execute("PRAGMA foreign_keys = ON")
    return base


def reply_of(base: sqlite3.Connection, asked: Asked) -> Optional[Reply]:
    """What SQLite replies, as `read_outcome` gives replies; of a refusal, its code only.
    None where a number left 64 bits."""
    try:
        done = base.execute(asked.text, asked.params)
        if done.description is None:
            return ("changed", done.rowcount)
        rows = [list(row) for row in done.fetchall()]
    except sqlite3.IntegrityError as refused:
        return ("refused", refusal_code(str(refused), asked.text))
    except sqlite3.Error as failed:
        if "integer overflow" in str(failed):
            return None
        raise
    return None if any(isinstance(value, float) for row in rows for value in row) else ("rows", rows)


def refusal_code(message: str, text: str) -> int:
    if message.startswith("FOREIGN KEY"):
        return HAS_CHILD if text.startswith("DELETE") else NO_PARENT
    return NOT_NULL if message.startswith("NOT NULL") else KEY_TAKEN


# ---- both

def sorting(value: Value) -> tuple[int, int, bytes]:
    """Orders values as both sides do: NULL, numbers, texts by their bytes."""
    if value is None:
        return (0, 0, b"")
    return (1, value, b"") if isinstance(value, int) else (2, 0, value.encode())


def in_some_order(rows: Iterable[Row]) -> list[Row]:
    return sorted(rows, key=lambda row: [sorting(value) for value in row])


def are_same(asked: Asked, ours: Reply, theirs: Reply) -> bool:
    if ours[0] != theirs[0]:
        return False
    if ours[0] == "refused":
        by_row = (NOT_NULL, KEY_TAKEN)
        return bool(ours[1] == theirs[1]) or asked.rows > 1 and ours[1] in by_row and theirs[1] in by_row
    if ours[0] == "changed":
        return bool(ours[1] == theirs[1])
    if [[row[place] for place, _down in asked.order] for row in ours[1]] != \
            [[row[place] for place, _down in asked.order] for row in theirs[1]]:
        return False
    return in_some_order(ours[1]) == in_some_order(theirs[1])


def made(seed: int, statements: int) -> tuple[list[Table], list[Asked]]:
    """The tables and statements of a seed; at the end each table is asked whole."""
    return made_by(random.Random(seed), statements)


def made_by(chance: random.Random, statements: int) -> tuple[list[Table], list[Asked]]:
    """The same, by the choices of somebody else."""
    maker = Maker(chance)
    tables = [maker.table(name) for name in ("t", "u", "v")[:maker.chance.randint(1, 3)]]
    tables = maker.with_foreign(tables) if maker.perhaps(0.5) else tables
    asked = maker.repeated([maker.statement(tables) for _ in range(statements)])
    return tables, asked + [Asked(f"SELECT * FROM {table.name}", []) for table in tables]


def difference(asked: Sequence[Asked], base: sqlite3.Connection, replies: Sequence[Reply],
               counts: Counts) -> Optional[str]:
    """The first statement to which the replies aren't the same, as a text, or None."""
    if len(replies) != len(asked):
        return f"{len(replies)} replies to {len(asked)} statements"
    for each, ours in zip(asked, replies):
        theirs = reply_of(base, each)
        if theirs is None:
            counts[each.text.split()[0], "left out"] += 1
            continue
        counts[each.text.split()[0], theirs[0] + (f" {theirs[1]}" if theirs[0] == "refused" else "")] += 1
        if not are_same(each, ours, theirs):
            return f"{each.text}\nparameters {each.params}\nhere   {ours}\nSQLite {theirs}"
    return None


def compare(program: Sequence[str], seed: int, statements: int,
            counts: Counts) -> Optional[tuple[str, World]]:
    """The first difference of the database of a seed, as a text, with the world; or None."""
    return compare_made(program, *made(seed, statements), counts)


def compare_made(program: Sequence[str], tables: Sequence[Table], asked: Sequence[Asked],
                 counts: Counts) -> Optional[tuple[str, World]]:
    """The same of these tables and statements."""
    world = world_of(tables, asked)
    base = opened(tables)
    try:
        found = difference(asked, base, replies_of(program, world), counts)
    except Malformed as fault:
        found = str(fault)
    finally:
        base.close()
    return None if found is None else (found, world)


def keep(world: World, folder: str, seed: int) -> str:
    path = os.path.join(folder, f"against_sqlite_{seed}.json")
    with open(path, "w", encoding="utf-8") as file:
        json.dump(world, file, ensure_ascii=False, indent=1)
    return path


def read_words(given: Optional[Sequence[str]]) -> argparse.Namespace:
    parser = words_of(__doc__)
    parser.add_argument("--databases", type=int, default=100, metavar="N")
    parser.add_argument("--statements", type=int, default=40, metavar="N",
                       help="of each database (default 40)")
    parser.add_argument("--seed", type=int, default=1, metavar="N", help="of the first database (default 1)")
    parser.add_argument("--program", default=os.path.join(ROOT, "ldv") + " run", metavar="'CMD ..'")
    parser.add_argument("--folder", default=".",
                       help="where the world of a difference is kept (default: here)")
    return parser.parse_args(given)


def main(given: Optional[Sequence[str]] = None) -> int:
    words = read_words(given)
    counts: Counts = collections.Counter()
    for seed in range(words.seed, words.seed + words.databases):
        found = compare(shlex.split(words.program), seed, words.statements, counts)
        if found is not None:
            print(f"seed {seed}: {found[0]}\nthe world is in {keep(found[1], words.folder, seed)}")
            return 1
    for (kind, reply), count in sorted(counts.items()):
        print(f"{kind:8} {reply:10} {count:8}")
    print(f"{sum(counts.values())} statements over {words.databases} databases, SQLite "
          f"{sqlite3.sqlite_version}: "
          "no difference")
    return 0


if __name__ == "__main__":
    sys.exit(main())
