"""What world.py knows of the columns of its tables, for the files that say it in a world."""
from __future__ import annotations

import hashlib
import os
import re
from typing import Dict, Sequence

from .columns import Known, KnownTable, Source, columns_file, path_of
from .world_columns import Column, Table
from .world_dates import own_date

BOOLEAN = re.compile("bool", re.IGNORECASE)
TRUTHS = frozenset(("true", "false"))


def kind_of(column: Column) -> str:
    """What a settled column is in its source."""
    if column.scale is not None:
        return "decimal"
    if BOOLEAN.search(column.declared):
        return "boolean"
    if column.kind == "INT":
        return "integer"
    date = column.date or own_date(column)
    if date is not None:
        return "time" if date == "time" else "date"
    texts = {cell.lower() for cell in set(column.cells) if isinstance(cell, str)}
    return "boolean" if texts and texts <= TRUTHS else "text"


def known_column(column: Column) -> Known:
    return Known(column.name, column.old, kind_of(column), column.scale or 0,
                 column.form.decimal if column.scale is not None else ".", column.form.unit,
                 column.date or "", column.date_form, tuple(sorted(column.nulls)), column.declared,
                 column.collation)


def known_table(table: Table) -> KnownTable:
    """What is known of a settled table."""
    source = Source(os.path.basename(table.path), table.digest, table.old if table.is_of_database else "")
    return KnownTable(table.name, source, tuple(map(known_column, table.columns)))


def known_files(tables: Sequence[Table]) -> Dict[str, bytes]:
    """The files of a world that say what its columns are, by path."""
    return {path_of(table.name): columns_file(known_table(table)) for table in tables}


def digest_of(path: str) -> str:
    """The SHA-256 of a file; the empty text where a log beside it has changes that aren't in it yet."""
    log = os.path.realpath(path) + "-wal"
    if os.path.exists(log) and os.path.getsize(log):
        return ""
    found = hashlib.sha256()
    with open(path, "rb") as file:
        while chunk := file.read(1 << 20):
            found.update(chunk)
    return found.hexdigest()
