"""What the columns of a world's tables are where they were read, and how their values are shown as they were.

A world has whole numbers and texts: a price of 12.50 is 1250 there, and 1.2.2024 is 2024-02-01. So a world
keeps a small file for each of its tables, `ldv-columns/TABLE.json`, which says what each column was in its
source. docs/FORMATS.md has its form. A script that reads the first line of these files has them in each
package of its run; the script that world.py makes of --sql does so at its end.
"""
from __future__ import annotations

import json
import re
from typing import Any, Dict, Iterable, List, Mapping, NamedTuple, Optional, Sequence, Tuple

from .date_forms import PARTS, in_form
from .errors import Malformed
from .language import NAME
from .values import Row, Scaled, Value

FOLDER = "ldv-columns/"
MAX_SCALE = 18
KINDS = ("integer", "decimal", "date", "time", "boolean", "text")
ORDERS = ("dmy", "mdy", "ymd", "time")
# What stands in the form of a date or a clock time: its parts, and signs between them.
FORM = re.compile(rf"(?:{PARTS.pattern}|[-./: T,])+\Z")


class Known(NamedTuple):
    """A column: its name in the world and in its source, and what it is there.

    `kind` is one of KINDS. A decimal is carried times 10 ** `scale`, and its source writes `decimal` before
    the decimals. `order` says which part of a date of the source comes first, and `form` how all its dates
    are written, where they are alike. `nulls` are the texts of the source that are NULL here, the empty one
    for an empty cell. `declared` is the type that a database gives the column, and `collation` how it
    compares its texts there, where that isn't by their bytes.
    """

    name: str
    source: str
    kind: str
    scale: int = 0
    decimal: str = "."
    unit: str = ""
    order: str = ""
    form: str = ""
    nulls: Tuple[str, ...] = ()
    declared: str = ""
    collation: str = ""

    @property
    def head(self) -> str:
        """Its name with its unit."""
        return f"{self.name} ({self.unit})" if self.unit else self.name

    @property
    def is_carried(self) -> bool:
        """Whether its values are other ones here than in the source."""
        return self.scale > 0 or bool(self.form) and self.form not in ("YYYY-MM-DD", "hh:mm")

    def shown(self, value: Value) -> Value:
        """A value as it was in the source."""
        if isinstance(value, int):
            return Scaled(value, self.scale, self.decimal) if self.scale else value
        if isinstance(value, str) and self.form:
            return in_form(value, self.form) or value
        return value


class Source(NamedTuple):
    """Where a table was read: the name of the file without its folders, the SHA-256 of its bytes in hex, and
    for a database the table's name there. What isn't known is empty."""

    file: str = ""
    digest: str = ""
    table: str = ""


class KnownTable(NamedTuple):
    """What is known of a table of a world."""

    table: str
    source: Source
    columns: Tuple[Known, ...]

    def column(self, name: str) -> Optional[Known]:
        return next((each for each in self.columns if each.name == name), None)


def path_of(table: str) -> str:
    """The path at which a world has what is known of a table."""
    return f"{FOLDER}{table}.json"


# ---- written

def spelled(value: object) -> str:
    return json.dumps(value, ensure_ascii=False)


def column_members(column: Known) -> Dict[str, object]:
    found: Dict[str, object] = {"name": column.name, "source": column.source, "kind": column.kind}
    if column.scale:
        found["scale"] = column.scale
    if column.kind == "decimal" and column.decimal != ".":
        found["decimal"] = column.decimal
    for name in ("unit", "order", "form", "declared", "collation"):
        if getattr(column, name):
            found[name] = getattr(column, name)
    if column.nulls:
        found["null"] = list(column.nulls)
    return found


def columns_file(known: KnownTable) -> bytes:
    """The bytes of the file that says what is known of a table: a line for each column."""
    members = {"file": known.source.file, "sha256": known.source.digest, "table": known.source.table}
    source = {name: value for name, value in members.items() if value}
    lines = [f'"table": {spelled(known.table)}', f'"source": {spelled(source)}']
    columns = ",\n    ".join(spelled(column_members(column)) for column in known.columns)
    return ("{\n  " + ",\n  ".join(lines) + f',\n  "columns": [\n    {columns}\n  ]\n' + "}\n").encode()


def script_lines(tables: Iterable[str]) -> List[str]:
    """The lines at the end of a script by which each package of its run has what is known of these tables. A
    label `known` stands behind them."""
    lines: List[str] = []
    for table in tables:
        lines += [f'open columns r "{path_of(table)}" else known', "readline line columns else known"]
    return lines


# ---- read

def member(given: Mapping[str, Any], name: str, kind: type, default: Any = None) -> Any:
    """A member of an object, which has a type."""
    found = given.get(name, default)
    if not isinstance(found, kind) or isinstance(found, bool):
        what = {str: "a text", int: "a whole number", list: "an array", dict: "an object"}[kind]
        raise Malformed(f"{name} isn't {what}" if name in given else f"{name} is missing")
    return found


def column_of(given: Any) -> Known:
    if not isinstance(given, dict):
        raise Malformed("a column isn't an object")
    nulls = member(given, "null", list, [])
    found = Known(member(given, "name", str), member(given, "source", str, ""), member(given, "kind", str),
                  member(given, "scale", int, 0), member(given, "decimal", str, "."),
                  member(given, "unit", str, ""), member(given, "order", str, ""),
                  member(given, "form", str, ""), tuple(nulls), member(given, "declared", str, ""),
                  member(given, "collation", str, ""))
    for is_right, what in (
            (NAME.match(found.name), f"{found.name!r} is no name"),
            (found.kind in KINDS, f"the kind {found.kind!r} is none of {', '.join(KINDS)}"),
            (0 <= found.scale <= MAX_SCALE, f"the scale {found.scale} isn't from 0 to {MAX_SCALE}"),
            (found.kind == "decimal" or not found.scale, "a scale of what is no decimal"),
            (len(found.decimal) == 1 and not found.decimal.isalnum(), "the decimal mark isn't one sign"),
            (not found.order or found.order in ORDERS, f"the order {found.order!r} is none of "
                                                       f"{', '.join(ORDERS)}"),
            (not found.form or FORM.match(found.form), f"the form {found.form!r} is none"),
            (all(isinstance(word, str) for word in nulls), "null isn't an array of texts")):
        if not is_right:
            raise Malformed(what)
    return found


def read_columns(data: bytes) -> KnownTable:
    """What such a file says; Malformed where it is none. Members that aren't known are left alone."""
    try:
        given = json.loads(data.decode())
    except UnicodeDecodeError as fault:
        raise Malformed(f"byte {fault.start} isn't UTF-8") from None
    except (ValueError, RecursionError):
        raise Malformed("it isn't JSON") from None
    if not isinstance(given, dict):
        raise Malformed("it isn't an object")
    source = member(given, "source", dict, {})
    columns = tuple(map(column_of, member(given, "columns", list)))
    names = [column.name for column in columns]
    if len(set(names)) < len(names):
        raise Malformed("a column is there twice")
    return KnownTable(member(given, "table", str), Source(
        member(source, "file", str, ""), member(source, "sha256", str, ""), member(source, "table", str, "")),
        columns)


class Columns(NamedTuple):
    """What is known of the tables of a world or package, by name, and which of the files that should say it
    can't be read, with why."""

    tables: Mapping[str, KnownTable]
    faults: Sequence[str] = ()

    def column(self, table: str, name: str) -> Optional[Known]:
        found = self.tables.get(table)
        return found.column(name) if found else None

    def notes(self, has_numbers: bool) -> List[str]:
        """That numbers are shown as they are carried, where there are any and nothing says what they are, or
        what does say it can't be read."""
        if self.tables or self.faults or not has_numbers:
            return list(self.faults)
        return ["nothing says what the columns are where they were read: numbers are shown as they are "
                "carried"]

    def of_table(self, table: str, names: Sequence[str]) -> List[Optional[Known]]:
        """What is known of some columns of a table."""
        return [self.column(table, name) for name in names]


UNKNOWN = Columns({})
Kinds = Mapping[str, Sequence[Tuple[str, str]]]


def columns_in(files: Mapping[str, Optional[bytes]], schemas: Optional[Kinds] = None) -> Columns:
    """What the files of a world or package say of its columns. Where the columns of its tables are known,
    what doesn't fit these is left out, and said."""
    tables: Dict[str, KnownTable] = {}
    faults: List[str] = []
    for path, content in files.items():
        if not path.startswith(FOLDER) or content is None:
            continue
        try:
            known = read_columns(content)
            if path != path_of(known.table):
                raise Malformed(f"it is of the table {known.table!r}")
            tables[known.table] = fitting(known, schemas)
        except Malformed as fault:
            faults.append(f"{path} doesn't say what columns are ({fault}), and isn't used")
    return Columns(tables, faults)


def fitting(known: KnownTable, schemas: Optional[Kinds]) -> KnownTable:
    """What is known of a table, where it fits the kinds of its columns."""
    kinds = dict(schemas.get(known.table, ())) if schemas is not None else {}
    for column in known.columns if known.table in (schemas or {}) else ():
        kind = kinds.get(column.name, "")
        if column.name in kinds and (kind.startswith("TEXT") and column.scale
                                     or kind.startswith("INT") and column.kind in ("date", "time")):
            raise Malformed(f"the column {column.name} is {column.kind} there, and {kind} in its table")
    return known


# ---- applied

def shown_row(row: Sequence[Value], columns: Sequence[Optional[Known]]) -> Row:
    """A row as it was in the source. Behind the last column that is known all is as it is."""
    found = [value if column is None else column.shown(value) for value, column in zip(row, columns)]
    return found + list(row[len(found):])


def heads_shown(names: Sequence[str], columns: Sequence[Optional[Known]]) -> List[str]:
    """Names of columns with their units."""
    found = [f"{name} ({column.unit})" if column is not None and column.unit else name
             for name, column in zip(names, columns)]
    return found + list(names[len(found):])
