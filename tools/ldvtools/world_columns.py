"""Tables and columns that are being read."""
from __future__ import annotations

from typing import Any, Callable, List, NamedTuple, Optional, Sequence, Set, Tuple

# A cell as it was read: NULL, a number, a text, or what has no equal in a world.
Cell = Any

# What stands for NULL in files without quotes.
NO_VALUE = "\\N"


class Remark(str):
    """What is said of a world and is nothing to be mended. What else is said is refused by --strict."""


class BadText:
    """A text of a database whose bytes aren't UTF-8."""


class OtherValue:
    """A value of a data frame that is neither a number nor a text, such as a date: what a message calls it,
    and how its column becomes texts or numbers, where that is known."""

    def __init__(self, what: str, advice: str = "") -> None:
        self.what, self.advice = what, advice


class Form(NamedTuple):
    """How numbers are written: the sign before the decimals, the one between thousands, and the unit."""

    decimal: str = "."
    thousands: str = ""
    unit: str = ""


PLAIN = Form()


class Column:
    """A column. `kind` is INT, TEXT, or None where the values decide; `old` is its name where it was read,
    `place` its place there from 1, `default` what an INSERT there gives it."""

    def __init__(self, name: str, old: str, place: int, kind: Optional[str] = None, not_null: bool = False,
                 declared: str = "") -> None:
        self.name, self.old, self.place, self.declared = name, old, place, declared
        self.kind, self.not_null = kind, not_null
        self.scale: Optional[int] = None
        self.date: Optional[str] = None
        # How its dates or clock times were written, where all were written alike (date_forms).
        self.date_form = ""
        self.form = PLAIN
        # The words of its cells that became NULL.
        self.nulls: Set[str] = set()
        self.default: Any = None
        # By what its database compares its texts, where that isn't their bytes.
        self.collation = ""
        self.cells: List[Cell] = []
        # The cells of an INT column as the document has them, where they were read so.
        self.spelled: Optional[List[str]] = None

    def full_kind(self) -> str:
        return (self.kind or "TEXT") + (" NOT NULL" if self.not_null else "")


class Reference(NamedTuple):
    """A foreign key as it was read, by names of the database: pairs of a column and the one to which it
    refers, the parent, and what happens with a child where its parent goes."""

    pairs: List[Tuple[str, str]]
    parent: str
    actions: str


class Foreign(NamedTuple):
    """A foreign key of a world: columns in the order of the parent's key."""

    columns: List[str]
    parent: str


class Table:
    """A table that is being read. `row_name` says how a message names one of its rows. It has its
    file, where it is of one, and one of a database its name and foreign keys there."""

    def __init__(self, name: str, columns: List[Column], count: int, key: Sequence[str] = (),
                 row_name: Optional[Callable[[int], str]] = None, from_text: bool = False) -> None:
        self.name, self.columns, self.count, self.key = name, columns, count, list(key)
        self.row_name = row_name or (lambda row: f"row {row} of {name}")
        self.from_text = from_text
        self.path, self.old = "", name
        # The SHA-256 of its file.
        self.digest = ""
        self.references: List[Reference] = []
        self.foreign: List[Foreign] = []

    @property
    def is_of_database(self) -> bool:
        return bool(self.path) and not self.from_text

    def at(self, row: int, column: Column) -> str:
        return f"{self.row_name(row)}, column {column.name}"

    def full_name(self, column: Column) -> str:
        return f"{self.name}.{column.name}"

    def place_name(self, column: Column) -> str:
        """The column by its place, for --rename and --leave-out."""
        return f"{self.name}.#{column.place}"
