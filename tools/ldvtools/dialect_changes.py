"""Puts changes of SQLite and PostgreSQL into the dialect of docs/SQL.md, and says what a statement
becomes."""
from __future__ import annotations

import re
from typing import Any, List, Mapping, NamedTuple, Optional, Sequence, Tuple, Union

from .dialect_queries import Plan, Queries
from .dialect_rules import Made, Shape
from .dialect_values import NUMBER, carried_column
from .dialects import SQLITE, Delete, Expr, Insert, Query, Source, Statement, Unreadable, Update
from .language import MAX_OPERANDS, MAX_TEXT
from .sql import NoReading, parse_statement
from .world_columns import Column

DEFAULT_NUMBER = re.compile(r"\(?(-?[0-9]+(?:\.[0-9]+)?)\)?(?:::[a-z ]+(?:\([0-9, ]+\))?)?\Z")
DEFAULT_TEXT = re.compile(r"\(?'((?:[^']|'')*)'\)?(?:::[a-z ]+(?:\([0-9, ]+\))?)?\Z")
DEFAULT_WORDS = {"null": None, "true": True, "false": False}


class Given(NamedTuple):
    """The keys that the database gave to the rows of an INSERT, one for each row."""

    keys: Sequence[int]


class Changes(Queries):
    """The rules for changes."""

    def __init__(self, shapes: Mapping[str, Shape], driver: str, params: Any, given: Given) -> None:
        super().__init__(shapes, driver, params)
        self.given = given

    def plan(self, statement: Statement) -> Plan:
        if isinstance(statement, Query):
            return self.query(statement)
        if isinstance(statement, Insert):
            text = self.insert(statement)
        elif isinstance(statement, Update):
            text = self.update(statement)
        else:
            text = self.delete(statement)
        return Plan(*self.finished(text))

    # ---- INSERT

    def insert(self, insert: Insert) -> str:
        shape = self.shape(insert.table)
        self.scope = []
        names = insert.columns if insert.columns is not None else shape.names
        columns = [self.target(shape, name) for name in names]
        for row in insert.rows:
            if len(row) != len(columns):
                raise Unreadable("another number of values than of columns", "")
        rows = [[self.stored(expr, column) for expr, column in zip(row, columns)] for row in insert.rows]
        self.add_key(shape, columns, rows)
        self.add_defaults(shape, columns, rows)
        tuples = ", ".join(f"({', '.join(row)})" for row in rows)
        own = [column.name for column in columns]
        head = "" if own == [column.name for column in shape.table.columns] else f" ({', '.join(own)})"
        return f"INSERT INTO {shape.table.name}{head} VALUES {tuples}"

    def target(self, shape: Shape, name: str) -> Column:
        column = shape.column(name)
        if column is None:
            raise Unreadable(f"{name} is no column of {shape.table.old}")
        return column

    def stored(self, expr: Expr, column: Column) -> str:
        """A value as a column stores it."""
        made = self.made(expr)
        carried = carried_column(column, self.driver)
        if made.is_constant:
            return self.beside(made, carried).text
        if made.carried.kind != carried.kind or made.carried.scale != carried.scale:
            raise Unreadable(f"a value of another kind, or with other decimals, in {column.old}", "")
        if carried.is_float and made.carried.column is None:
            raise Unreadable("arithmetic of floats", "reckon in the program")
        return made.text

    def add_key(self, shape: Shape, columns: List[Column], rows: List[List[str]]) -> None:
        """Writes the keys that the database gave, as far as the statement gives none."""
        key = key_given(shape, self.driver)
        if key is None:
            return
        if len(self.given.keys) != len(rows):
            if key not in columns:
                raise Unreadable(f"the database makes {key.old} by itself, and which one isn't seen",
                                 f"give {key.old} in the statement, or write RETURNING {key.old}")
            return
        if key not in columns:
            columns.insert(0, key)
            for row, value in zip(rows, self.given.keys):
                row.insert(0, str(value))
            return
        place = columns.index(key)
        for row, value in zip(rows, self.given.keys):
            if self.finished(row[place]) in (("NULL", []), ("?", [None])):
                row[place] = str(value)

    def add_defaults(self, shape: Shape, columns: List[Column], rows: List[List[str]]) -> None:
        """Writes the defaults of columns that the statement doesn't name."""
        for column in shape.table.columns:
            if column in columns or column.default is None:
                continue
            value = default_of(column)
            if value is None:
                continue
            text = self.beside(Made("", NUMBER, is_constant=True, value=value),
                               carried_column(column, self.driver))
            columns.append(column)
            for row in rows:
                row.append(text.text)

    # ---- UPDATE, DELETE

    def enter_table(self, table: str, name: str) -> Shape:
        self.enter([Source(table, name)])
        self.is_bare = True
        return self.shape(table)

    def update(self, update: Update) -> str:
        shape = self.enter_table(update.table, update.name)
        sets = []
        for name, expr in update.sets:
            column = self.target(shape, name)
            sets.append(f"{column.name} = {self.stored(expr, column)}")
        return f"UPDATE {shape.table.name} SET {', '.join(sets)}{self.picked(update.pick)}"

    def delete(self, delete: Delete) -> str:
        shape = self.enter_table(delete.table, delete.name)
        return f"DELETE FROM {shape.table.name}{self.picked(delete.pick)}"

    def picked(self, pick: Optional[Expr]) -> str:
        return "" if pick is None else f" WHERE {self.truth(pick).text}"


def key_given(shape: Shape, driver: str) -> Optional[Column]:
    """The column to whose rows the database gives keys, where a statement doesn't."""
    table = shape.table
    if driver != SQLITE:
        named = [column for column in table.columns if str(column.default or "").startswith("nextval(")
                 or str(column.default or "") == "identity"]
        return named[0] if named else None
    found = [column for column in table.columns if [column.name] == table.key]
    return found[0] if found and found[0].declared.upper() == "INTEGER" else None


def default_of(column: Column) -> Union[None, bool, str, Tuple[str, str]]:
    """The value of a default, or None where it is NULL."""
    text = str(column.default).strip()
    if text.lower() in DEFAULT_WORDS:
        return DEFAULT_WORDS[text.lower()]
    if match := DEFAULT_NUMBER.match(text):
        return "decimal", match[1]
    if match := DEFAULT_TEXT.match(text):
        return match[1].replace("''", "'")
    raise Unreadable(f"DEFAULT {text} of {column.old}", f"give {column.old} in the statement")


def plan_of(statement: Statement, shapes: Mapping[str, Shape],
            driver: str, params: Any, given: Given) -> Plan:
    """What a statement becomes in the dialect, with its parameters; Unreadable where that isn't exact."""
    plan = Changes(shapes, driver, params, given).plan(statement)
    if len(plan.text.encode()) > MAX_TEXT or len(plan.params) > MAX_OPERANDS:
        raise Unreadable("a statement that is too long here", "ask for less at once")
    try:
        parse_statement(plan.text)
    except NoReading as fault:
        raise Unreadable(f"it would be {plan.text[:200]}, and there {fault}") from None
    return plan
