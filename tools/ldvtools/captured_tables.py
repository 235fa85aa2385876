"""The tables of a world as a program saw them before its first statement: from a copy of a database
file."""
from __future__ import annotations

import contextlib
import os
import re
import sqlite3
from typing import Dict, Iterator, List, NamedTuple, Sequence, Tuple

from . import world
from .dialect_rules import Shape
from .errors import Refused, program_name
from .progress import Progress
from .world_columns import Table
from .world_sqlite import FAULTS, schema_text, told_fault

SECONDS = 30
COLLATED = r"(?:^|[(,])\s*[\"`\[]?{0}[\"`\]]?\s[^,]*?\bCOLLATE\s+(\w+)"


class Taken(NamedTuple):
    """The tables of a world, their shapes by the names of the database in lower case, and what is said of
    them."""

    tables: List[Table]
    shapes: Dict[str, Shape]
    notes: List[str]
    hints: List[str]


def copy_database(path: str, copy: str) -> None:
    """Copies a database file as it is now, with what a write-ahead log has."""
    if not os.path.isfile(path):
        raise Refused(
            f"{path}: there is no such file; a world has the tables as they are before the first statement")
    try:
        with contextlib.closing(sqlite3.connect(path, timeout=SECONDS)) as base, \
                contextlib.closing(sqlite3.connect(copy)) as other:
            base.execute("SELECT COUNT(*) FROM sqlite_master").fetchone()
            base.backup(other)
    except FAULTS as fault:
        raise Refused(f"{path}: {told_fault(fault)}") from None


@contextlib.contextmanager
def reading(copy: str) -> Iterator[sqlite3.Connection]:
    """A connection to the copy of a database. What is wrong with it is said of the database."""
    try:
        with contextlib.closing(sqlite3.connect(copy)) as base:
            base.text_factory = schema_text
            yield base
    except FAULTS as fault:
        raise Refused(f"the database: {told_fault(fault)}") from None


def names_there(copy: str) -> Tuple[List[str], List[str]]:
    """The tables and the views of a database."""
    with reading(copy) as base:
        rows = base.execute(
            "SELECT name, type FROM sqlite_master WHERE name NOT LIKE 'sqlite\\_%' ESCAPE '\\'")
        found = rows.fetchall()
    return ([name for name, kind in found if kind == "table"],
            [name for name, kind in found if kind == "view"])


def related(copy: str, names: Sequence[str]) -> List[str]:
    """The tables that are named, and those that are their parents or children, again and again."""
    tables, _ = names_there(copy)
    by_name = {table.lower(): table for table in tables}
    with reading(copy) as base:
        pairs = [(table.lower(), str(row[2]).lower()) for table in tables
                 for row in base.execute(f'PRAGMA foreign_key_list("{table}")')]
    found = {name.lower() for name in names if name.lower() in by_name}
    while True:
        more = {each for pair in pairs if found & set(pair) for each in pair if each in by_name} - found
        if not more:
            return [table for table in tables if table.lower() in found]
        found |= more


def tables_taken(copy: str, names: Sequence[str], options: Sequence[str], collation: str = "") -> Taken:
    """The tables of these names, by the options of world.py."""
    if not names:
        return Taken([], {}, [], [])
    words = ["--look", "--tidy", "--sqlite", copy, *options]
    for name in names:
        words += ["--table", name]
    notes: List[str] = []
    hints: List[str] = []
    tables = world.world_tables(world.read_words(words), notes, hints, Progress(program_name(), True))
    shapes = {}
    with reading(copy) as base:
        for table in tables:
            shapes[table.old.lower()] = shape_of(base, table, collation)
    return Taken(tables, shapes, notes, hints)


def shape_of(base: sqlite3.Connection, table: Table, collation: str) -> Shape:
    quoted = '"' + table.old.replace('"', '""') + '"'
    rows = base.execute(f"PRAGMA table_xinfo({quoted})").fetchall()
    names = [str(row[1]) for row in rows if row[6] != 1]
    sql = str(base.execute("SELECT sql FROM sqlite_master WHERE type = 'table' AND name = ?",
                           (table.old,)).fetchone()[0])
    collated = {}
    for name in names:
        match = re.search(COLLATED.format(re.escape(name)), sql, re.IGNORECASE)
        if match and match[1].upper() != "BINARY":
            collated[name.lower()] = match[1].upper()
    return Shape(table, names, collation, collated)
