"""Columns of dates and clock times that compare as these do, and texts that statements compare with them."""
from __future__ import annotations

import datetime
import itertools
import re
from typing import Dict, Iterable, Iterator, Optional

from .world_cells import DATE, TIME, padded_date, padded_time, shown
from .world_columns import Cell, Column, Table

SAMPLE = 1000
# The beginnings of texts as --date carries them: a year, a month, a day, an hour and so on; a file may have a
# zone behind them.
CLOCK = r"[0-9]{2}(?::[0-9]{2}(?::[0-9]{2}(?:\.[0-9]+)?)?)?"
ZONE = r"(?:Z|[+-][0-9]{2}(?::?[0-9]{2})?)?"
CARRIED_TIME = re.compile(CLOCK + r"\Z")
CARRIED_DATE = re.compile(rf"([0-9]{{4}})(?:-([0-9]{{2}})(?:-([0-9]{{2}})(?:[ T]({CLOCK}){ZONE})?)?)?\Z")
# What is behind a time or a day and says no more.
ZEROS = (re.compile(r":00(?:\.0+)?\Z"), re.compile(r"[ T]00:00(?::00(?:\.0+)?)?\Z"))
DIGITS = str.maketrans("123456789", "000000000")


def own_date(column: Column) -> Optional[str]:
    """Whether the texts of a column are dates or clock times in the form of --date, without that option."""
    sample = list(itertools.islice((cell for cell in column.cells if isinstance(cell, str)), SAMPLE))
    for date in ("time", "ymd"):
        if sample and all(len(cell) > 4 and is_as_carried(date, cell) for cell in sample):
            return date
    return None


def is_as_carried(date: str, text: str) -> bool:
    """Whether a text is a date or a clock time as --date carries it, or the beginning of one."""
    return (CARRIED_TIME if date == "time" else CARRIED_DATE).match(text) is not None


def is_in_calendar(date: str, text: str) -> bool:
    """Whether a text that is as --date carries it, or the beginning of one, is one that there is."""
    if date == "time":
        return padded_time(text if ":" in text else text + ":00") is not None
    match = CARRIED_DATE.match(text)
    if match is None:
        return False
    day = f"{match[1]}-{match[2] or '01'}-{match[3] or '01'}"
    return padded_date(day, "ymd") is not None and (match[4] is None or is_in_calendar("time", match[4]))


# An offset of a zone behind a clock time.
OFFSET = re.compile(r":[0-9.]+([+-][0-9:]+)\Z")
# Parts of a second, which have their place in the order however long they are; before a Z they haven't.
PARTS = re.compile(r"(:00)\.0+(?!0*Z)")


def shape_of(text: str) -> str:
    """The form of a text, without parts of a second: 0 for each digit but for those of a zone, since times of
    two zones don't compare."""
    match = OFFSET.search(text)
    end = match.start(1) if match else len(text)
    return PARTS.sub(r"\1", text[:end].translate(DIGITS)) + text[end:]


def shapes_of(cells: Iterable[Cell]) -> Dict[str, str]:
    """The forms of some texts, and the first text of each."""
    found: Dict[str, str] = {}
    for cell in cells:
        if isinstance(cell, str):
            found.setdefault(shape_of(cell), cell)
    return found


def hint_of_shapes(table: Table, column: Column) -> Optional[str]:
    """That the dates or the clock times of a column have several forms, and don't compare as these do."""
    if column.kind != "TEXT" or column.date is None and own_date(column) is None:
        return None
    shapes = list(shapes_of(dict.fromkeys(column.cells)).values())
    if len(shapes) < 2:
        return None
    return (f"{table.full_name(column)} has {shown(shapes[0])} and {shown(shapes[1])} side by side, and "
            "texts of two forms don't compare as times do; write them in one form in the file first")


# ---- what a statement compares with them

def said_of_date(name: str, column: Column, text: str, compare: str) -> Optional[str]:
    """What to write in place of a text that isn't in the form of its column of dates or times."""
    date = column.date or own_date(column)
    if date is None:
        return None
    if not is_as_carried(date, text):
        return said_of_other(name, column, date, text)
    if not is_in_calendar(date, text):
        return f"'{text}' is no {'clock time' if date == 'time' else 'day of the calendar'}"
    return said_of_shape(name, shapes_of(itertools.islice(column.cells, SAMPLE)), text, compare)


def said_of_other(name: str, column: Column, date: str, text: str) -> Optional[str]:
    found = padded_time(text.strip()) if date == "time" else padded_day(column.date, text.strip())
    like = "09:05" if date == "time" else "2019-01-31"
    if found is None and column.date is None and not (TIME.match(text) or DATE.match(text)):
        return None
    what = f"'{text}' is written '{found}'" if found else f"'{text}' isn't, and compares as a text"
    return f"{name} has texts such as {like}: {what}"


def said_of_shape(name: str, shapes: Dict[str, str], text: str, compare: str) -> Optional[str]:
    """What to write in place of a date or a time that a column has in another form. The beginning of one has
    a place in the order, and is equal to none."""
    own, is_order = shape_of(text), compare not in ("=", "<>")
    if compare in ("<=", ">") and CARRIED_DATE.match(text) and len(text) == 10 and any(
            each.startswith(own) and len(each) > len(own) for each in shapes):
        what = "<= leaves that day out" if compare == "<=" else "> takes that day in"
        day = (datetime.date.fromisoformat(text) + datetime.timedelta(days=1)).isoformat()
        return (f"{name} has times behind its days, such as {next(iter(shapes.values()))}, and each comes "
                f"after '{text}': {what}; write {'<' if compare == '<=' else '>='} '{day}'")
    if not shapes or own in shapes or is_order and any(each.startswith(own) for each in shapes):
        return None
    like = f"{name} has texts such as {next(iter(shapes.values()))}"
    written = next(in_shapes(shapes, text), None)
    if written is not None:
        return f"{like}: '{text}' is written '{written}'"
    if any(each.startswith(own) for each in shapes):
        return f"{like}, and '{text}' is only the beginning of one and equal to none; write >= and <"
    if is_order and any(own.startswith(each) for each in shapes):
        return None
    return f"{like}: '{text}' isn't, and compares as a text"


def in_shapes(shapes: Dict[str, str], text: str) -> Iterator[str]:
    """The same date or time in a form that a column has."""
    for each in (text.replace(" ", "T", 1), text.replace("T", " ", 1), text):
        for other in (each, each + ":00", *(zeros.sub("", each) for zeros in ZEROS)):
            if shape_of(other) in shapes:
                yield other
        if each != text and any(shape.startswith(shape_of(each)) for shape in shapes):
            yield each


def padded_day(date: Optional[str], text: str) -> Optional[str]:
    """A date as it is carried. Where nothing says which part is the day, points stand in dates that have the
    day first."""
    return padded_date(text, date or ("dmy" if "." in text else "ymd"))
