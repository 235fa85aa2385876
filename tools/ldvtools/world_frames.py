"""Tables of data frames, of pandas or of any library whose frames have columns and rows.

A number is carried as it is where it is whole: pandas has whole numbers as floats where some are missing. A
truth is 1 or 0. What pandas, NumPy and Python have for a missing value is NULL. A number with a part has no
equal without --scale, and a date has none: it is made a text first.
"""
from __future__ import annotations

import datetime
import operator
from decimal import Decimal
from typing import Any, Iterable, List, Mapping, NamedTuple, Optional, Sequence, Tuple

from .errors import Refused
from .values import plain_count
from .world_columns import BadText, Cell, Column, OtherValue, Table
from .world_settings import Settings, tidy_name, tidy_names
from .world_tables import keep_columns

# The types of pandas for a missing value, which is asked of no library by name.
MISSING = ("NAType", "NaTType")
# From here on, not each whole number is a float.
MAX_EXACT = 2**53


class Given(NamedTuple):
    """What a world is made of beside the files that words name: data frames by the names of their tables, and
    files by their paths."""

    frames: Mapping[str, Any] = {}
    files: Mapping[str, bytes] = {}


NOTHING = Given()


def read_frame(name: str, frame: Any, settings: Settings, hints: List[str]) -> Table:
    """The table of a data frame, not settled yet."""
    new = settings.new_name(name, tidy_name(name) if settings.tidy else name)
    labels, found, count = columns_in(name, frame)
    plain = tidy_names(labels) if settings.tidy else labels
    types = list(map(str, getattr(frame, "dtypes", ())))
    columns = []
    for place, (label, own, cells) in enumerate(zip(labels, plain, found), 1):
        column = Column(settings.new_name(f"{new}.{label}", own, f"{new}.#{place}"), label, place)
        column.kind = kind_of_type(types[place - 1]) if len(types) == len(labels) else None
        column.declared = "BOOLEAN" if are_truths(cells) else ""
        hints += [f"{new}.{column.name}: {said}" for said in inexact(cells)]
        column.cells = [cell_of(cell, label) for cell in cells]
        columns.append(column)
    hints += index_left(new, frame)
    return Table(new, keep_columns(new, columns, settings), count)


def columns_in(name: str, frame: Any) -> Tuple[List[str], List[List[Any]], int]:
    """The names of a frame's columns, their cells, and how many rows there are."""
    if not hasattr(frame, "columns") or not (hasattr(frame, "iloc") or hasattr(frame, "rows")):
        raise Refused(f"{name}: a {type(frame).__name__} is no data frame: it has no columns and rows")
    labels = [str(label) for label in frame.columns]
    if hasattr(frame, "iloc"):
        return labels, [frame.iloc[:, place].tolist() for place in range(len(labels))], len(frame)
    rows = [tuple(row) for row in (frame.rows() if callable(frame.rows) else frame.rows)]
    for place, row in enumerate(rows):
        if len(row) != len(labels):
            raise Refused(f"row {place} of {name}: {plain_count(len(row), 'cell')}, and the frame has "
                          f"{plain_count(len(labels), 'column')}")
    return labels, [list(cells) for cells in zip(*rows)] or [[] for _ in labels], len(rows)


def kind_of_type(declared: str) -> Optional[str]:
    """The kind of a column by its type in the frame; None where the values decide."""
    return "INT" if declared.lower().startswith(("int", "uint", "float", "bool")) else None


def are_truths(cells: Iterable[Any]) -> bool:
    """Whether a column has truths, and nothing else but missing values."""
    types = {type(cell).__name__ for cell in cells if not is_missing(cell)}
    return bool(types) and types <= {"bool", "bool_"}


def is_missing(value: Any) -> bool:
    """Whether a value stands for none: None, NaN, NaT, or NA of pandas."""
    if value is None or type(value).__name__ in MISSING:
        return True
    if isinstance(value, Decimal):
        return value.is_nan()
    return isinstance(value, float) and value != value


def cell_of(value: Any, label: str) -> Cell:
    """A cell as a table that is being read has it: None, an int, a str, or what has no equal in a world."""
    if type(value) is int or value is None:
        return value
    if isinstance(value, str):
        return text_of(value)
    if is_missing(value):
        return None
    if isinstance(value, (bytes, bytearray)):
        return bytes(value)
    if isinstance(value, (float, Decimal)):
        return whole_of(value)
    return other_of(value, label)


def text_of(value: str) -> Cell:
    try:
        value.encode()
    except UnicodeEncodeError:
        return BadText()
    return str(value)


def whole_of(value: Any) -> Cell:
    """The whole number that a float or a decimal is, or itself where it is none."""
    try:
        number = int(value)
    except (OverflowError, ValueError):
        return float(value)
    return number if number == value else value if isinstance(value, Decimal) else float(value)


def other_of(value: Any, label: str) -> Cell:
    """A truth or a number of NumPy; else what has no equal."""
    if type(value).__name__ in ("bool", "bool_"):
        return int(bool(value))
    try:
        return operator.index(value)
    except TypeError:
        pass
    if isinstance(value, (datetime.date, datetime.time)) or type(value).__name__ == "datetime64":
        what = "time" if isinstance(value, datetime.time) else "date"
        return OtherValue(f"the {what} {value}", advice_of_date(value, label))
    if type(value).__name__.startswith("float"):
        return whole_of(float(value))
    return OtherValue(f"a {type(value).__name__}")


def advice_of_date(value: Any, label: str) -> str:
    """How a column of dates or clock times becomes one of texts that compare as they do."""
    made, like = ".map(str, na_action='ignore')", str(value)
    if isinstance(value, datetime.datetime):
        form = "%Y-%m-%d" if value.time() == datetime.time() else "%Y-%m-%d %H:%M:%S"
        made, like = f".dt.strftime('{form}')", value.strftime(form)
    return f"frame[{label!r}]{made} makes texts such as {like}, which compare as these do"


def inexact(cells: Sequence[Any]) -> List[str]:
    """That a column has whole numbers as floats where floats leave some out."""
    found = next((cell for cell in cells if isinstance(cell, float) and abs(cell) >= MAX_EXACT
                  and cell.is_integer()), None)
    return [] if found is None else [
        f"{found!r} is a float, and from 2 ** 53 on floats leave whole numbers out: it may have been another "
        "one before; the type Int64 of pandas has all of them, and missing values"]


def index_left(name: str, frame: Any) -> List[str]:
    """That an index with a name isn't carried."""
    names = [str(each) for each in getattr(getattr(frame, "index", None), "names", ()) if each is not None]
    return [f"{name}: the index {', '.join(names)} isn't carried; frame.reset_index() makes columns of it"
            ] if names else []
