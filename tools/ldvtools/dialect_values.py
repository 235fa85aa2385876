"""Constants of a program's statements as the columns of a world carry them."""
from __future__ import annotations

import datetime
import re
from decimal import Decimal, InvalidOperation
from typing import Any, NamedTuple, Optional

from .dialects import Unreadable
from .language import MAX_INT, MAX_TEXT, MIN_INT
from .values import Value
from .world_columns import Column

WHOLE = re.compile(r"[+-]?[0-9]+\Z")
DATE = re.compile(r"[0-9]{4}-[0-9]{2}-[0-9]{2}\Z")
FLOATS = ("REAL", "FLOA", "DOUB")


class Carried(NamedTuple):
    """How an expression is carried: its kind, the decimals by which a number is multiplied, the column that
    it is where it is one, and whether its numbers are floats in the database."""

    kind: str
    scale: int = 0
    column: Optional[Column] = None
    is_float: bool = False


NUMBER, TEXT, ANY = Carried("INT"), Carried("TEXT"), Carried("ANY")


def is_float(column: Column, driver: str) -> bool:
    """Whether the numbers of a column are floats in the database. SQLite has no other decimals."""
    declared = column.declared.upper()
    return column.scale is not None and (driver == "sqlite3" or any(word in declared for word in FLOATS))


def carried_column(column: Column, driver: str) -> Carried:
    """How a column is carried; Unreadable where its texts are others than those of the program."""
    if column.date is not None:
        raise Unreadable(f"{column.old} is carried in another form by --date", "leave --date out")
    return Carried(column.kind or "TEXT", column.scale or 0, column, is_float(column, driver))


def natural(value: Any) -> Value:
    """A constant that is compared with no column."""
    if isinstance(value, tuple):
        value = text_of(value) if value[0] in ("date", "datetime", "time", "uuid") else whole_of(value)
    return checked(int(value) if isinstance(value, (bool, float)) and value == int(value) else value)


def checked(value: Any) -> Value:
    if value is None or isinstance(value, str):
        if value is not None and len(value.encode(errors="surrogatepass")) > MAX_TEXT:
            raise Unreadable(f"a text of more than {MAX_TEXT} bytes")
        return value
    if isinstance(value, int) and MIN_INT <= value <= MAX_INT:
        return int(value)
    raise Unreadable(f"the value {value!r} has no equal in a world")


def whole_of(value: Any) -> int:
    """The whole number of a decimal that is one."""
    number = number_of(value)
    if number is None or number != number.to_integral_value():
        raise Unreadable(f"the value {shown(value)} has no equal in a world")
    return int(number)


def number_of(value: Any) -> Optional[Decimal]:
    """The number of a constant, or None."""
    if isinstance(value, tuple):
        value = value[1] if value[0] == "decimal" else None
    if isinstance(value, float):
        value = repr(value)
    if not isinstance(value, (bool, int, str)):
        return None
    try:
        number = Decimal(value)
    except InvalidOperation:
        return None
    return number if number.is_finite() else None


def text_of(value: Any) -> Optional[str]:
    """A date, a time or an identifier as the text by which it is carried."""
    return value[1] if isinstance(value, tuple) and value[0] in ("date", "datetime", "time", "uuid") else None


def shown(value: Any) -> str:
    return str(value[1]) if isinstance(value, tuple) and len(value) > 1 else repr(value)


def fitted(value: Any, carried: Carried, driver: str) -> Value:
    """A constant as it stands beside what is carried so."""
    if value is None:
        return None
    if carried.kind == "ANY":
        return natural(value)
    if carried.kind == "INT":
        return fitted_number(value, carried)
    return fitted_text(value, carried, driver)


def fitted_number(value: Any, carried: Carried) -> int:
    number = number_of(value)
    if number is None or isinstance(value, str) and not carried.scale and not WHOLE.match(value):
        raise Unreadable(f"{shown(value)} beside a column of numbers")
    scaled = number.scaleb(carried.scale)
    if scaled != scaled.to_integral_value():
        what = f"more decimals than the {carried.scale} of the column" if carried.scale else "decimals"
        raise Unreadable(f"{shown(value)} has {what}", "give --scale with more decimals")
    return int(checked(int(scaled)) or 0)


def fitted_text(value: Any, carried: Carried, driver: str) -> str:
    declared = carried.column.declared.lower() if carried.column is not None else ""
    text = text_of(value)
    if text is not None and declared.startswith("timestamp with time zone"):
        text = in_utc(text)
    if text is None and isinstance(value, int) and driver == "sqlite3" and not isinstance(value, bool):
        # A column of texts makes a text of a number.
        text = str(value)
    if text is None and not isinstance(value, str):
        raise Unreadable(f"{shown(value)} beside a column of texts")
    text = str(value) if text is None else text
    if driver != "sqlite3" and carried.column is not None:
        text = in_form(text, declared)
    return str(checked(text))


def in_utc(text: str) -> str:
    found = datetime.datetime.fromisoformat(text)
    return found.astimezone(datetime.timezone.utc).isoformat(" ") if found.tzinfo else text


def in_form(text: str, declared: str) -> str:
    """A text beside a column of dates or times as the column is carried."""
    if declared == "date" and not DATE.match(text):
        raise Unreadable(f"{text!r} beside a column of dates", "write the date as 2019-01-31")
    if not declared.startswith("timestamp"):
        return text
    try:
        return datetime.datetime.fromisoformat(text).isoformat(" ")
    except ValueError:
        raise Unreadable(f"{text!r} beside a column of times", "write it as 2019-01-31 09:05:00") from None
