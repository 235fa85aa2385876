"""Tables of an SQLite database.

What has no equal in a world is noted by name. A value that has none is refused.
"""
from __future__ import annotations

import contextlib
import os
import re
import sqlite3
from typing import Any, Dict, List, Optional, Sequence, Set, Tuple, Union

from .errors import Refused
from .world_columns import BadText, Column, Reference, Table
from .world_csv import read_file
from .world_known import digest_of
from .world_settings import Settings, tidy_name, tidy_names
from .world_tables import keep_columns

# A column of PRAGMA table_xinfo: place, name, declared type, NOT NULL, default, place in the key from 1,
# hidden.
Shape = Tuple[int, str, str, int, Any, int, int]


# What comes of a file that is damaged. A message of SQLite that has bytes of it may be no UTF-8.
FAULTS = (sqlite3.Error, UnicodeDecodeError)


def told_fault(fault: Exception) -> str:
    return "its schema is damaged" if isinstance(fault, UnicodeDecodeError) else str(fault)


def read_database(path: str, only: Sequence[str], settings: Settings, notes: List[str]) -> List[Table]:
    """The tables of a database that aren't settled yet: all, or those that `only` names."""
    read_file(path, 0)
    log = os.path.realpath(path) + "-wal"
    is_logged = os.path.exists(log)
    try:
        return tables_of(path, only, settings, notes)
    except FAULTS as fault:
        raise Refused(f"{path}: {told_fault(fault)}") from None
    finally:
        if not is_logged and os.path.exists(log):
            drop_log(path)


def drop_log(path: str) -> None:
    """Takes away the files of a write-ahead log that reading made: SQLite does it where it might write."""
    try:
        with contextlib.closing(connected(path, "rw")) as base:
            base.execute("SELECT 1 FROM sqlite_master").fetchall()
    except FAULTS:
        pass


def connected(path: str, mode: str) -> sqlite3.Connection:
    return sqlite3.connect(f"file:{in_uri(path)}?mode={mode}", uri=True)


def tables_of(path: str, only: Sequence[str], settings: Settings, notes: List[str]) -> List[Table]:
    base = connected(path, "ro")
    base.text_factory = schema_text
    try:
        entries = entries_of(base)
        there = [name for kind, name, _, _ in entries if kind == "table" and not name.startswith("sqlite_")]
        if not there and not only:
            raise Refused(f"{path} has no table" + ("" if entries else ": it is an empty database, as SQLite "
                                                    "makes one of a name that isn't there"))
        views = [name for kind, name, _, _ in entries if kind == "view"]
        for name in only:
            if name in views:
                raise Refused(f"{path}: {name} is a view; CREATE TABLE t AS SELECT * FROM {name} in a copy "
                              "of the database makes it a table")
            if name not in there:
                raise Refused(f"{path}: there is no table {name}; there are {', '.join(there) or 'none'}")
        hidden, digest = shadow_tables(base), digest_of(path)
        found: List[Table] = []
        for kind, name, on, sql in entries:
            if only and on not in only or settings.is_left_out(name):
                continue
            if kind == "table" and not name.startswith("sqlite_") and name not in hidden:
                found += read_table(base, name, sql, settings, notes)
                for table in found[-1:]:
                    table.path, table.digest = path, digest
            elif kind == "view":
                notes.append(f"the view {name} isn't carried; CREATE TABLE .. AS SELECT .. makes it a table")
            elif kind == "trigger":
                notes.append(f"the trigger {name} of {on} isn't carried: a change runs nothing else here")
        return found
    finally:
        base.close()


def entries_of(base: sqlite3.Connection) -> List[Tuple[str, str, str, str]]:
    """The kind, the name, the table and the statement of all that a database has."""
    found = base.execute("SELECT type, name, tbl_name, sql FROM sqlite_master ORDER BY rowid").fetchall()
    return [(checked_name(kind), checked_name(name), checked_name(on), sql if isinstance(sql, str) else "")
            for kind, name, on, sql in found]


def checked_name(name: object) -> str:
    """A name of the schema, which statements can have. Within quotes SQLite takes another one for a text."""
    if not isinstance(name, str):
        raise sqlite3.DatabaseError("the schema has an entry without a name: the file is damaged")
    if any("\ud800" <= char <= "\udfff" for char in name):
        raise sqlite3.DatabaseError(f"the name {name!r} isn't UTF-8; ALTER TABLE .. RENAME in a copy of the "
                                    "database gives it another one")
    return name


def schema_text(data: bytes) -> str:
    """A text of the schema, with half a surrogate pair for each byte that isn't UTF-8."""
    return data.decode(errors="surrogateescape")


def in_uri(path: str) -> str:
    # What stands between the first two slashes and the next one would be a host.
    path = "//" + path if path.startswith("/") else path
    return path.replace("%", "%25").replace("?", "%3f").replace("#", "%23")


def decoded(data: bytes) -> Union[str, BadText]:
    try:
        return data.decode()
    except UnicodeDecodeError:
        return BadText()


def quoted(name: str) -> str:
    return '"' + name.replace('"', '""') + '"'


def shadow_tables(base: sqlite3.Connection) -> Set[str]:
    """The tables in which virtual tables keep their data. SQLite before 3.37 doesn't report them."""
    try:
        return {row[1] for row in base.execute("PRAGMA table_list") if row[2] == "shadow"}
    except FAULTS:
        return set()


def read_table(base: sqlite3.Connection, name: str, sql: str, settings: Settings,
               notes: List[str]) -> List[Table]:
    if re.match(r"\s*create\s+virtual\b", sql, re.IGNORECASE):
        notes.append(f"the virtual table {name} isn't carried")
        return []
    new = settings.new_name(name, tidy_name(name) if settings.tidy else name)
    shape: List[Shape] = [row for row in base.execute(f"PRAGMA table_xinfo({quoted(name)})") if row[6] != 1]
    for row in shape:
        checked_name(row[1])
    columns = []
    collations = collations_of(sql)
    plain = tidy_names([row[1] for row in shape]) if settings.tidy else [row[1] for row in shape]
    for place, ((_, old, declared, not_null, default, _, _), tidied) in enumerate(zip(shape, plain), 1):
        own = settings.new_name(f"{new}.{old}", tidied, f"{new}.#{place}")
        columns.append(Column(own, old, place, kind_of_type(declared), bool(not_null), declared))
        columns[-1].default = default
        columns[-1].collation = collations.get(old.lower(), "")
    key = [columns[place].name for _, place in sorted((row[5], row[0]) for row in shape if row[5])]
    chosen = ", ".join(quoted(row[1]) for row in shape)
    order = row_order(base, name, shape)
    rows = rows_of(base, f"SELECT {chosen} FROM {quoted(name)} ORDER BY {order}")
    for place, column in enumerate(columns):
        column.cells = [row[place] for row in rows]
    table = Table(new, keep_columns(new, columns, settings), len(rows), key=key)
    table.old, table.references = name, references_of(base, name)
    note_columns(new, [row for row in shape if row[1] in {column.old for column in table.columns}], notes)
    note_constraints(base, name, new, sql, notes)
    return [table]


def rows_of(base: sqlite3.Connection, query: str) -> List[Tuple[Any, ...]]:
    base.text_factory = decoded
    try:
        return base.execute(query).fetchall()
    finally:
        base.text_factory = schema_text


NAME = r"(?:\"(?:[^\"]|\"\")*\"|`[^`]*`|\[[^]]*\]|\w+)"


def collations_of(sql: str) -> Dict[str, str]:
    """The collations of the columns of a CREATE TABLE, by their names in lower case, but BINARY."""
    found: Dict[str, str] = {}
    plain = re.sub(r"--[^\n]*|/\*.*?\*/", " ", sql, flags=re.DOTALL)
    body = plain[plain.find("(") + 1:]
    for part in split_at_commas(body):
        name = re.match(rf"\s*({NAME})", part)
        collation = re.search(rf"\bCOLLATE\s+({NAME})", part, re.IGNORECASE)
        if name and collation and collation[1].strip('"`[]').upper() != "BINARY":
            found[name[1].strip('"`[]').lower()] = collation[1].strip('"`[]').upper()
    return found


def split_at_commas(text: str) -> List[str]:
    """The parts of a text between commas that stand in no quotes and no brackets."""
    parts, depth, begun = [], 0, 0
    for found in re.finditer(r"'(?:[^']|'')*'|\"(?:[^\"]|\"\")*\"|`[^`]*`|\[[^]]*\]|[(),]", text):
        depth += {"(": 1, ")": -1}.get(found[0], 0)
        if found[0] == "," and depth == 0:
            parts.append(text[begun:found.start()])
            begun = found.end()
    return [*parts, text[begun:]]


def kind_of_type(declared: str) -> Optional[str]:
    """The kind of a declared type, by SQLite's rules for types; None where the values decide."""
    declared = declared.upper()
    if "INT" in declared:
        return "INT"
    return "TEXT" if any(word in declared for word in ("CHAR", "CLOB", "TEXT")) else None


def row_order(base: sqlite3.Connection, name: str, shape: Sequence[Shape]) -> str:
    """By rowid; by the key in a table that has no rowid."""
    taken = {row[1].lower() for row in shape}
    for word in ("rowid", "_rowid_", "oid"):
        if word not in taken:
            try:
                base.execute(f"SELECT {word} FROM {quoted(name)} LIMIT 0")
                return word
            except FAULTS:
                break
    keys = sorted((row[5], row[1]) for row in shape if row[5])
    return ", ".join(quoted(column) for _, column in keys) or "1"


def references_of(base: sqlite3.Connection, name: str) -> List[Reference]:
    """The foreign keys of a table, as they were declared. One that names no column means the primary key."""
    found: Dict[int, Reference] = {}
    rows = base.execute(f"PRAGMA foreign_key_list({quoted(name)})").fetchall()
    # SQLite counts them from the last one.
    for row in sorted(rows, key=lambda row: (-row[0], row[1])):
        number, place, parent, own, other, on_update, on_delete, _ = row
        if other is None:
            shape = base.execute(f"PRAGMA table_info({quoted(parent)})").fetchall()
            keys = sorted((each[5], each[1]) for each in shape if each[5])
            other = keys[place][1] if place < len(keys) else ""
        actions = [f"ON {when} {action}" for when, action in (("UPDATE", on_update), ("DELETE", on_delete))
                   if action not in ("NO ACTION", "RESTRICT")]
        found.setdefault(number, Reference([], parent, " ".join(actions))).pairs.append((own, other))
    return list(found.values())


def note_columns(table_name: str, shape: Sequence[Shape], notes: List[str]) -> None:
    for _, name, _, _, _, _, hidden in shape:
        if hidden in (2, 3):
            notes.append(f"{table_name}.{name} is GENERATED: its values are carried, its rule isn't")


def note_constraints(base: sqlite3.Connection, name: str, new: str, sql: str, notes: List[str]) -> None:
    for row in base.execute(f"PRAGMA index_list({quoted(name)})").fetchall():
        if row[2] and row[3] != "pk":
            parts = base.execute(f"PRAGMA index_info({quoted(row[1])})")
            columns = ", ".join(str(part[2]) for part in parts)
            notes.append(f"{new}: UNIQUE ({columns}) isn't carried: a table has one key here")
    words = re.sub(r"'[^']*'|\"[^\"]*\"|`[^`]*`|\[[^]]*\]|--[^\n]*|/\*.*?\*/", " ", sql,
                   flags=re.DOTALL).upper()
    if re.search(r"\bCHECK\b", words):
        notes.append(f"{new}: CHECK isn't carried: nothing checks it here")
    if re.search(r"\bAUTOINCREMENT\b", words):
        notes.append(f"{new}: AUTOINCREMENT isn't carried: an INSERT has to give the key here")
    for collation in sorted(set(re.findall(r"\bCOLLATE\s+(\w+)", words)) - {"BINARY"}):
        notes.append(f"{new}: COLLATE {collation} isn't carried: texts compare by their bytes here")


def note_types(table: Table, notes: List[str]) -> None:
    """Notes the defaults and the declared types of a settled table that have no equal here."""
    for column in table.columns:
        if column.default is not None:
            what = "is refused with code 5 here" if column.not_null else "gives NULL here"
            notes.append(f"{table.name}.{column.old}: DEFAULT {column.default} isn't carried: an INSERT that "
                         f"doesn't name the column {what}")
        if kind_of_type(column.declared) is None and column.scale is None:
            declared = column.declared or "no type"
            isn_t = re.search("DATE|TIME", declared, re.IGNORECASE) and column.kind == "TEXT"
            dates = "; texts such as 2019-01-31 compare as dates do" if isn_t else ""
            notes.append(f"{table.name}.{column.name}: declared {declared}, carried as {column.kind}{dates}")
