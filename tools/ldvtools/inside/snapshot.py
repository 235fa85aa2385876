"""Copies tables of a PostgreSQL database, as they are when it begins, into an SQLite file.

    python3 -m ldvtools.inside.snapshot DSN FILE

begins one transaction that sees the database as it is now, and writes a line of JSON: the name of the
database. Then it reads a line of JSON with names of tables, copies these and the tables to which they refer,
and writes a line of JSON: what the columns are in the database. An empty line ends it. It is run by a Python
that has psycopg2. """
from __future__ import annotations

import datetime
import decimal
import importlib
import json
import re
import sqlite3
import sys
from typing import Any, Dict, List, Sequence, Tuple

BYTES = ("C", "POSIX", "C.UTF-8", "C.utf8", "ucs_basic")
TABLES = """SELECT c.oid, c.relname FROM pg_catalog.pg_class c JOIN pg_catalog.pg_namespace n
    ON n.oid = c.relnamespace WHERE n.nspname = 'public' AND c.relkind IN ('r', 'p') ORDER BY c.relname"""
VIEWS = """SELECT c.relname FROM pg_catalog.pg_class c JOIN pg_catalog.pg_namespace n
    ON n.oid = c.relnamespace WHERE n.nspname = 'public' AND c.relkind IN ('v', 'm') ORDER BY c.relname"""
COLUMNS = """SELECT a.attnum, a.attname, pg_catalog.format_type(a.atttypid, a.atttypmod), a.attnotnull,
    a.attidentity <> '', pg_catalog.pg_get_expr(d.adbin, d.adrelid) FROM pg_catalog.pg_attribute a
    LEFT JOIN pg_catalog.pg_attrdef d ON d.adrelid = a.attrelid AND d.adnum = a.attnum
    WHERE a.attrelid = %s AND a.attnum > 0 AND NOT a.attisdropped ORDER BY a.attnum"""
KEYS = """SELECT indisprimary, indkey::text FROM pg_catalog.pg_index
    WHERE indrelid = %s AND indisunique AND indpred IS NULL ORDER BY indexrelid"""
FOREIGN = """SELECT conkey, confrelid, confkey FROM pg_catalog.pg_constraint
    WHERE conrelid = %s AND contype = 'f' ORDER BY oid"""
COLLATION = "SELECT datcollate FROM pg_catalog.pg_database WHERE datname = pg_catalog.current_database()"
# The beginnings of types, and the types of SQLite by which they are carried; none where they aren't.
TYPES = (("interval", ""), ("point", ""), ("int4range", ""), ("int8range", ""), ("smallint", "INTEGER"),
         ("integer", "INTEGER"), ("bigint", "INTEGER"), ("boolean", "INT"), ("character", "TEXT"), ("text",
                                                                                                    "TEXT"),
         ("double precision", "REAL"), ("real", "REAL"), ("date", "TEXT"), ("timestamp", "TEXT"), ("time",
                                                                                                   "TEXT"),
         ("uuid", "TEXT"), ("name", "TEXT"), ("citext", ""))
NUMERIC = re.compile(r"numeric\(([0-9]+),(-?[0-9]+)\)\Z")


def type_of(declared: str) -> str:
    """The type of SQLite by which a column is carried, or nothing where it isn't."""
    if declared.endswith("[]"):
        return ""
    if match := NUMERIC.match(declared):
        return "INTEGER" if match[2] == "0" else "TEXT"
    if declared == "numeric":
        return "NUMERIC"
    return next((kind for begin, kind in TYPES if declared.startswith(begin)), "")


def carried(value: Any) -> Any:
    """A value as SQLite has it."""
    if isinstance(value, bool):
        return int(value)
    if isinstance(value, decimal.Decimal):
        return int(value) if value == value.to_integral_value() and value.as_tuple().exponent == 0 \
            else format(value, "f")
    if isinstance(value, datetime.datetime):
        return (value.astimezone(datetime.timezone.utc) if value.tzinfo else value).isoformat(" ")
    if isinstance(value, (datetime.date, datetime.time)):
        return value.isoformat()
    return value if value is None or isinstance(value, (int, float, str)) else str(value)


def quoted(name: str) -> str:
    return '"' + name.replace('"', '""') + '"'


class Snapshot:
    """A transaction that sees the database as it was when it began."""

    def __init__(self, dsn: str) -> None:
        driver = importlib.import_module("psycopg2")
        self.base = driver.connect(dsn)
        self.base.set_session(isolation_level="REPEATABLE READ", readonly=True)
        self.tables: Dict[str, int] = {str(name): oid for oid, name in self.rows(TABLES)}
        self.views = [str(name) for name, in self.rows(VIEWS)]
        self.columns = {name: self.rows(COLUMNS, (oid,)) for name, oid in self.tables.items()}
        self.keys = {name: self.rows(KEYS, (oid,)) for name, oid in self.tables.items()}
        self.foreign = {name: self.rows(FOREIGN, (oid,)) for name, oid in self.tables.items()}
        self.following = {name: self.following_of(name) for name in self.tables}
        collation = str(self.rows(COLLATION)[0][0])
        self.collation = "" if collation in BYTES else collation

    def rows(self, statement: str, params: Sequence[Any] = ()) -> List[Tuple[Any, ...]]:
        with self.base.cursor() as cursor:
            cursor.execute(statement, params or None)
            found: List[Tuple[Any, ...]] = cursor.fetchall()
        return found

    def following_of(self, table: str) -> Dict[str, int]:
        """The number that each column of a table gets next, where a sequence gives it."""
        found = {}
        for _, column, _, _, identity, default in self.columns[table]:
            if not (identity or str(default or "").startswith("nextval(")):
                continue
            name = self.rows("SELECT pg_catalog.pg_get_serial_sequence(%s, %s)",
                             (f"public.{quoted(table)}", column))[0][0]
            if name is not None:
                last, is_called = self.rows(f"SELECT last_value, is_called FROM {name}")[0]
                found[str(column)] = int(last) + (1 if is_called else 0)
        return found

    def closed(self, names: Sequence[str]) -> List[str]:
        """The tables of these names, and those to which they refer or that refer to them, again and
        again."""
        named = {oid: name for name, oid in self.tables.items()}
        pairs = {(name, named[parent]) for name, rows in self.foreign.items() for _, parent, _ in rows
                 if parent in named}
        found = {name for name in self.tables if name in names}
        while True:
            more = {each for pair in pairs if found & set(pair) for each in pair} - found
            if not more:
                return [name for name in self.tables if name in found]
            found |= more

    def names_at(self, table: str, places: Sequence[int]) -> List[str]:
        names = {number: name for number, name, *_ in self.columns[table]}
        return [str(names[place]) for place in places]

    def copy(self, names: Sequence[str], path: str) -> Dict[str, Any]:
        """Copies tables into a file, and gives what their columns are."""
        found = {}
        base = sqlite3.connect(path)
        for name in self.closed(names):
            base.execute(self.definition(name))
            found[name] = [{"name": column, "declared": declared,
                            "default": "identity" if identity else default,
                            "carried": bool(type_of(declared)),
                            "following": self.following[name].get(str(column))}
                           for _, column, declared, _, identity, default in self.columns[name]]
            self.copy_rows(name, base)
        base.commit()
        base.close()
        return {"collation": self.collation, "there": list(self.tables), "views": self.views, "tables": found}

    def copy_rows(self, name: str, base: sqlite3.Connection) -> None:
        columns = [(str(column), type_of(declared)) for _, column, declared, *_ in self.columns[name]]
        chosen = ", ".join(quoted(column) if kind else "NULL" for column, kind in columns)
        marks = ", ".join("?" for _ in columns)
        with self.base.cursor(name="ldv") as cursor:
            cursor.itersize = 10_000
            cursor.execute(f"SELECT {chosen} FROM public.{quoted(name)}")
            base.executemany(f"INSERT INTO {quoted(name)} VALUES ({marks})",
                             (tuple(map(carried, row)) for row in cursor))

    def definition(self, name: str) -> str:
        """The table as SQLite has it, with its keys and foreign keys."""
        parts = [f"{quoted(column)} {type_of(declared) or 'TEXT'}" + (" NOT NULL" if is_not_null else "")
                 for _, column, declared, is_not_null, _, _ in self.columns[name]]
        for is_primary, places in self.keys[name]:
            numbers = [int(place) for place in str(places).split()]
            if 0 not in numbers:
                columns = ", ".join(map(quoted, self.names_at(name, numbers)))
                parts.append(f"{'PRIMARY KEY' if is_primary else 'UNIQUE'} ({columns})")
        named = {oid: table for table, oid in self.tables.items()}
        for own, parent, others in self.foreign[name]:
            if parent in named:
                parts.append(f"FOREIGN KEY ({', '.join(map(quoted, self.names_at(name, own)))}) REFERENCES "
                             f"{quoted(named[parent])} "
                             f"({', '.join(map(quoted, self.names_at(named[parent], others)))})")
        return f"CREATE TABLE {quoted(name)} ({', '.join(parts)})"


def main() -> int:
    dsn, path = sys.argv[1:]
    try:
        snapshot = Snapshot(dsn)
    except Exception as fault:
        print(json.dumps({"fault": str(fault).strip()}), flush=True)
        return 1
    print(json.dumps({"ready": snapshot.base.info.dbname}), flush=True)
    line = sys.stdin.readline()
    if line.strip():
        print(json.dumps(snapshot.copy(json.loads(line), path)), flush=True)
    return 0


if __name__ == "__main__":
    sys.exit(main())
