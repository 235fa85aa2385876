"""Cells of tables: what they become in a world, and why one doesn't fit."""
from __future__ import annotations

import datetime
import functools
import re
from decimal import ROUND_HALF_EVEN, Context, Decimal
from typing import Optional, Pattern

from .errors import Unfit
from .language import MAX_INT, MAX_TEXT, MIN_INT
from .values import plain_count
from .world_columns import PLAIN, BadText, Cell, Form, OtherValue

# A whole number; a decimal number.
WHOLE = re.compile(r"[+-]?[0-9]+\Z")
DECIMAL = re.compile(r"([+-]?)(?=\.?[0-9])([0-9]*)(?:\.([0-9]*))?\Z")
MAX_SCALE = 18
# Signs that are written for a minus.
OTHER_MINUSES = "\u2212\u2013\u2010\u2011\ufe63\uff0d"
MINUSES = str.maketrans(dict.fromkeys(OTHER_MINUSES, "-"))
OTHER_MINUS = re.compile(f"[{OTHER_MINUSES}]")
# Blanks that don't break a line, which stand for a blank between thousands or before a unit.
OTHER_BLANKS = "\u00a0\u202f\u2009"
TIME = re.compile(r"([0-9]{1,2}):([0-9]{2})(:[0-9]{2}(?:\.[0-9]+)?)?(?: ?([AaPp])\.?[Mm]\.?)?\Z")
DATE = re.compile(r"([0-9]{1,4})([./-])([0-9]{1,2})\2([0-9]{1,4})(?:(?:[T ]|, ?)(.+))?\Z")


def shown(value: Cell) -> str:
    """How a message shows a cell."""
    if isinstance(value, float):
        return f"the REAL value {value!r}"
    if isinstance(value, Decimal):
        return f"the decimal {value}"
    if isinstance(value, bytes):
        return f"a BLOB of {len(value)} bytes"
    if isinstance(value, BadText):
        return "a text that isn't UTF-8"
    if isinstance(value, OtherValue):
        return value.what
    text = repr(value)
    return text if len(text) <= 60 else text[:57] + ".."


def has_no_equal(value: Cell) -> bool:
    return isinstance(value, (float, Decimal, bytes, BadText, OtherValue))


# ---- numbers

def plain_number(text: str, form: Form) -> str:
    """A number as -1234.5, as far as a text is one in a form; else some text that is no number."""
    if not text.isascii() and OTHER_MINUS.search(text):
        text = text.translate(MINUSES)
    text = text.strip()
    if form.unit:
        text = without_unit(text, form.unit)
    if form.thousands:
        text = without_thousands(text, form)
    if form.decimal != ".":
        text = text.replace(".", "x").replace(form.decimal, ".")
    return text


def without_unit(text: str, unit: str) -> str:
    text = text.strip()
    if text.endswith(unit):
        return text[:-len(unit)].strip()
    sign, rest = (text[0], text[1:]) if text[:1] in ("+", "-") else ("", text)
    return sign + rest[len(unit):].strip() if rest.startswith(unit) else text


def without_thousands(text: str, form: Form) -> str:
    """Without the signs between thousands, where these stand in groups of three."""
    if form.thousands == " ":
        for blank in OTHER_BLANKS:
            text = text.replace(blank, " ")
    return text.replace(form.thousands, "" if grouped(form).match(text) else "x")


@functools.lru_cache(maxsize=None)
def grouped(form: Form) -> Pattern[str]:
    """Numbers in a form that has signs between thousands, in groups of three. None of 0.500 begins with 0."""
    between, decimal = re.escape(form.thousands), re.escape(form.decimal)
    return re.compile(rf"[+-]?[1-9][0-9]{{0,2}}(?:{between}[0-9]{{3}})+(?:{decimal}[0-9]*)?\Z")


def whole_number(value: Cell, form: Form = PLAIN) -> int:
    """The number of a cell of an INT column."""
    number = plain_number(value, form) if isinstance(value, str) else value
    if isinstance(number, str) and WHOLE.match(number):
        sign, digits = number[0], number.lstrip("+-0")
        # Longer ones are outside 64 bits, and python doesn't read numbers of every length.
        number = MAX_INT + 1 if len(digits) > 19 else int(digits or "0")
        number = -number if sign == "-" else number
    if not isinstance(number, int):
        raise Unfit(f"{shown(value)} is no whole number, and the column is INT")
    if not MIN_INT <= number <= MAX_INT:
        raise Unfit(f"{shown(value)} is outside 64 bits ({MIN_INT} to {MAX_INT})")
    return number


def decimal_text(value: Cell, form: Form) -> str:
    """A cell of a column of decimals with a point, as far as it is one."""
    if isinstance(value, float):
        return format(Decimal(repr(value)), "f")
    if isinstance(value, Decimal):
        return format(value, "f")
    return plain_number(str(value), form)


def scaled_number(value: Cell, scale: int, form: Form, rounds: bool) -> int:
    """The number of a cell of an INT column that carries so many decimals."""
    text = decimal_text(value, form)
    match = None if isinstance(value, (bytes, BadText, OtherValue)) else DECIMAL.match(text)
    if match is None:
        raise Unfit(f"{shown(value)} is no decimal number such as -1{form.decimal}25{form.unit}")
    sign, whole, part = match.group(1), match.group(2), match.group(3) or ""
    if part[scale:].strip("0"):
        if not rounds:
            raise Unfit(f"{shown(value)} has more than the {plain_count(scale, 'decimal')} of --scale; "
                        "--round rounds")
        exact = Context(prec=len(whole) + scale + 2, rounding=ROUND_HALF_EVEN)
        rounded = exact.quantize(Decimal(f"{sign}0{whole}.{part}"), Decimal(1).scaleb(-scale))
        return within(format(rounded, "f").replace(".", ""), value, scale)
    return within(f"{sign}0{whole}{part[:scale].ljust(scale, '0')}", value, scale)


def within(text: str, value: Cell, scale: int) -> int:
    """The whole number that a text of a sign and digits is. A message has the value as it was read."""
    if len(text) <= MAX_SCALE:
        return int(text)
    try:
        return whole_number(text)
    except Unfit:
        raise Unfit(f"{shown(value)} is outside 64 bits at --scale {scale} ({MIN_INT} to {MAX_INT} by "
                    f"{10 ** scale})") from None


# ---- texts, dates and times

def text_value(value: Cell) -> str:
    """The text of a cell of a TEXT column."""
    text = str(value)
    # A character has at most 4 bytes.
    length = len(text.encode()) if len(text) * 4 > MAX_TEXT else 0
    if length > MAX_TEXT:
        raise Unfit(f"a text of {length} bytes; the limit is {MAX_TEXT}")
    return text


EXAMPLES = {"dmy": "31.1.2019", "mdy": "1/31/2019", "ymd": "2019-1-31", "time": "9:05"}


def comparable(value: Cell, date: str) -> str:
    """A date or a clock time as a text that compares as it does: 2019-01-31, 09:05, or both."""
    text = str(value).strip() if isinstance(value, str) else ""
    found = padded_time(text) if date == "time" else padded_date(text, date)
    if found is None:
        what = "clock time" if date == "time" else "date"
        raise Unfit(f"{shown(value)} is no {what} such as {EXAMPLES[date]} (--date {date})")
    return found


def padded_time(text: str) -> Optional[str]:
    """A clock time with two digits for its hour, of 24."""
    match = TIME.match(text)
    if match is None:
        return None
    hour, minute, rest, half = int(match[1]), match[2], match[3] or "", (match[4] or "").lower()
    if half and not 1 <= hour <= 12 or hour > 23 or int(minute) > 59 or rest[1:3] > "59":
        return None
    if half:
        hour = hour % 12 + (12 if half == "p" else 0)
    return f"{hour:02}:{minute}{rest}"


def padded_date(text: str, date: str) -> Optional[str]:
    """A date from the year down, with a clock time where there is one."""
    match = DATE.match(text)
    if match is None:
        return None
    first, middle, last = match[1], match[3], match[4]
    # One that begins with its year is such a date in each form.
    year, month, day = {"dmy": (last, middle, first), "mdy": (last, first, middle),
                        "ymd": (first, middle, last)}["ymd" if len(first) == 4 else date]
    time = padded_time(match[5]) if match[5] else ""
    if len(year) != 4 or len(month) > 2 or len(day) > 2 or time is None:
        return None
    try:
        found = datetime.date(int(year), int(month), int(day))
    except ValueError:
        return None
    return f"{year}-{found.month:02}-{found.day:02}" + (f" {time}" if time else "")
