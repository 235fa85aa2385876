"""The tables of a package for people and for other tools, with their cells as they were read."""
from __future__ import annotations

import os
import re
import sqlite3
from decimal import Decimal
from typing import Dict, Iterator, List, NamedTuple, Optional, Sequence, Union

from .columns import UNKNOWN, Columns, Known, columns_in, heads_shown, shown_row
from .errors import Refused
from .packages import Joined, Package, PackedTable
from .values import Row, Scaled, Value, csv_field

# The collations that each database of SQLite has, beside that by bytes.
COLLATIONS = ("NOCASE", "RTRIM")
REASON_COLUMNS = ["ldv_row", "ldv_statement", "ldv_rule"]
# A type of SQLite as a table may declare it, with nothing else in it.
DECLARED = re.compile(r"[A-Za-z][A-Za-z0-9_ ]*(?:\([0-9]+(?:, ?[0-9]+)?\))?\Z")
# Words of a declaration that mean more than a type.
NO_TYPES = re.compile(r"\b(?:primary|key|not|null|unique|check|default|collate|references|generated|as|"
                      r"constraint|autoincrement)\b", re.IGNORECASE)


def columns_of(package: Union[Package, Joined]) -> Columns:
    """What a package says of its columns. One of recorded replies has no tables."""
    kinds = {table.name: table.columns for table in package.tables}
    return columns_in(dict(package.files), kinds or None)


def tables_as_read(tables: Sequence[PackedTable], columns: Columns) -> List[PackedTable]:
    """Tables with their cells as they were read, and with units behind the names of columns."""
    found = []
    for table in tables:
        known = columns.of_table(table.name, table.names())
        heads = zip(heads_shown(table.names(), known), (kind for _, kind in table.columns))
        rows = [row._replace(values=shown_row(row.values, known)) for row in table.rows]
        found.append(table._replace(columns=list(heads), rows=rows))
    return found


def names_of(table: PackedTable, reasons: bool) -> List[str]:
    return (REASON_COLUMNS if reasons else []) + table.names()


def rows_of(table: PackedTable, reasons: bool) -> Iterator[List[Value]]:
    for row in table.rows:
        why: Row = [row.number, row.statement, row.rule] if reasons else []
        yield why + row.values


def check_rows(package: Package, what: str) -> None:
    if package.mode == "excluded":
        raise Refused(f"it has recorded replies and no rows, so that it makes no {what}")


# ---- CSV

def null_word(column: Optional[Known]) -> str:
    """What stood for NULL in a column: an empty cell where that did."""
    return "" if column is None or not column.nulls or "" in column.nulls else column.nulls[0]


def csv_row(values: Sequence[Value], nulls: Sequence[str]) -> str:
    fields = [csv_field(word) if value is None and word else csv_field(value, word)
              for value, word in zip(values, nulls)]
    return ",".join(fields) + "\r\n"


def write_csv(package: Package, folder: str, reasons: bool, columns: Columns = UNKNOWN) -> None:
    """A file for each table, in a folder that is made where it isn't there."""
    check_rows(package, "table")
    os.makedirs(folder, exist_ok=True)
    for before, table in zip(package.tables, tables_as_read(package.tables, columns)):
        nulls = [""] * (3 if reasons else 0) + [null_word(column) for column in
                                                columns.of_table(before.name, before.names())]
        with open(os.path.join(folder, table.name + ".csv"), "w", encoding="utf-8", newline="") as file:
            file.write(csv_row(names_of(table, reasons), nulls))
            for row in rows_of(table, reasons):
                file.write(csv_row(row, nulls))


# ---- SQLite

def quoted(name: str) -> str:
    return '"' + name.replace('"', '""') + '"'


def type_of(kind: str, column: Optional[Known]) -> str:
    """The type of a column in SQLite: the one that it was declared with, where that is nothing else."""
    declared = column.declared if column is not None else ""
    plain = "REAL" if column is not None and column.kind == "decimal" else kind.split()[0].replace(
        "INT", "INTEGER")
    is_type = DECLARED.match(declared) and not NO_TYPES.search(declared)
    collation = column.collation if column is not None and column.collation in COLLATIONS else ""
    return ((declared if is_type else plain) + (" NOT NULL" if kind.endswith("NOT NULL") else "")
            + (f" COLLATE {collation}" if collation else ""))


def other_collations(target: "Target") -> Iterator[str]:
    """The columns that their source compares in a way that a new database hasn't."""
    for column in target.known:
        if column is not None and column.collation and column.collation not in COLLATIONS:
            yield (f"{target.table.name}.{column.name} is COLLATE {column.collation} in its source, and "
                   "compares by its bytes there")


def is_name(text: str) -> bool:
    """Whether SQLite takes a text as a name between quotes."""
    is_kept = text.lower().startswith("sqlite_")
    is_odd = any(char == "\0" or "\ud800" <= char <= "\udfff" for char in text)
    return bool(text) and not is_kept and not is_odd


def are_apart(names: Sequence[str]) -> bool:
    """Names that SQLite tells apart, which it does without their case."""
    return len({name.lower() for name in names}) == len(names) and all(map(is_name, names))


def source_columns(table: PackedTable, known: Sequence[Optional[Known]]) -> List[str]:
    """The names of columns as they were read, with their units. Where these can't be names of one table,
    those of the package."""
    names = [name if column is None else
             (column.source or name) + (f" ({column.unit})" if column.unit else "")
             for name, column in zip(table.names(), known)]
    return names if are_apart([*REASON_COLUMNS, *names]) else table.names()


def source_tables(tables: Sequence[PackedTable], columns: Columns) -> Dict[str, str]:
    """The names of tables where they were read, by those of the package."""
    names = {table.name: table.name for table in tables}
    for name in names:
        if name in columns.tables:
            names[name] = columns.tables[name].source.table or name
    return names if are_apart(list(names.values())) else {name: name for name in names}


class Target(NamedTuple):
    """A table as the database has it: its name and those of its columns, by the names of the package."""

    table: PackedTable
    known: Sequence[Optional[Known]]
    names: Dict[str, str]
    columns: Dict[str, Dict[str, str]]

    @property
    def name(self) -> str:
        return self.names[self.table.name]

    def listed(self, columns: Sequence[str]) -> str:
        return ", ".join(quoted(self.columns[self.table.name][name]) for name in columns)


def targets_of(package: Package, columns: Columns) -> List[Target]:
    known = {table.name: columns.of_table(table.name, table.names()) for table in package.tables}
    names = source_tables(package.tables, columns)
    own = {table.name: dict(zip(table.names(), source_columns(table, known[table.name])))
           for table in package.tables}
    return [Target(table, known[table.name], names, own) for table in package.tables]


def make_table(target: Target, reasons: bool) -> str:
    table, own = target.table, target.columns[target.table.name]
    types = dict(zip(table.names(), (type_of(kind, column)
                                     for (_, kind), column in zip(table.columns, target.known))))
    parts = [f"{quoted(name)} {kind}" for name, kind in zip(REASON_COLUMNS, ("INTEGER", "INTEGER", "TEXT"))
             if reasons]
    parts += [f"{quoted(own[name])} {types[name]}" for name in table.names()]
    if table.key:
        parts.append(f"PRIMARY KEY ({target.listed(table.key)})")
    for foreign in table.foreign:
        parts.append(f"FOREIGN KEY ({target.listed(foreign.columns)}) REFERENCES "
                     f"{quoted(target.names.get(foreign.parent, foreign.parent))}")
    return f"CREATE TABLE {quoted(target.name)} ({', '.join(parts)})"


def sqlite_value(value: Value) -> Union[Value, float]:
    """A value as SQLite has it. A decimal is a REAL."""
    if not isinstance(value, Scaled):
        return value
    return float(Decimal(int(value)).scaleb(-value.scale))


def inexact(table: PackedTable) -> Iterator[str]:
    """The columns of which some decimal has more digits than a REAL."""
    for place, name in enumerate(table.names()):
        for row in table.rows:
            value = row.values[place]
            if isinstance(value, Scaled) and Decimal(repr(sqlite_value(value))) != Decimal(
                    int(value)).scaleb(-value.scale):
                yield f"{table.name}.{name}: {value} has more digits than a REAL, and is rounded there"
                break


def write_sqlite(package: Package, path: str, reasons: bool, columns: Columns = UNKNOWN) -> List[str]:
    """A new database of the tables. Gives what is said of it."""
    check_rows(package, "table")
    if os.path.lexists(path):
        raise Refused(f"{path} is there already")
    folder = os.path.dirname(path) or "."
    if not os.path.isdir(folder):
        raise Refused(f"{path}: there is no folder {folder}")
    notes: List[str] = []
    try:
        fill_database(package, path, reasons, columns, notes)
    except (sqlite3.Error, OSError) as fault:
        if os.path.exists(path):
            os.remove(path)
        raise Refused(f"{path}: {fault}" if "unable to open" in str(fault) else str(fault)) from None
    return notes


def fill_database(package: Package, path: str, reasons: bool, columns: Columns, notes: List[str]) -> None:
    database = sqlite3.connect(path)
    try:
        # A package may have a row without the rows to which it refers.
        database.execute("PRAGMA foreign_keys = OFF")
        with database:
            for target in targets_of(package, columns):
                database.execute(make_table(target, reasons))
                marks = ", ".join("?" * len(names_of(target.table, reasons)))
                shown = target.table._replace(rows=tables_as_read([target.table], columns)[0].rows)
                notes += [*inexact(shown), *other_collations(target)]
                database.executemany(f"INSERT INTO {quoted(target.name)} VALUES ({marks})",
                                     (list(map(sqlite_value, row)) for row in rows_of(shown, reasons)))
    finally:
        database.close()
