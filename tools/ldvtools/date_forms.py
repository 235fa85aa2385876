"""Forms of dates and clock times: how those of a column were written, and how one that is carried as
2019-01-31 or 09:05 is written so again.

A form has D and DD for the day, M and MM for the month, YYYY for the year, h and hh for the hour, mm and ss
for minutes and seconds, P and p for AM and am or PM and pm, and the signs between them: D.M.YYYY h:mm. One or
two letters say how many digits a number has at least.
"""
from __future__ import annotations

import itertools
import re
from typing import Iterable, Iterator, List, Mapping, Optional

from .world_cells import DATE, TIME

CARRIED = re.compile(
    r"(?:([0-9]{4})-([0-9]{2})-([0-9]{2}))?(?:(?:^| )([0-9]{2}):([0-9]{2})(?::([0-9]{2}))?)?\Z")
PARTS = re.compile(r"D{1,2}|M{1,2}|YYYY|hh?|mm|ss|[Pp]")
ORDERS = {"dmy": "DMY", "mdy": "MDY", "ymd": "YMD"}


def in_form(carried: str, form: str) -> Optional[str]:
    """A date or clock time as a form has it; None where it is none, or has a part that the form hasn't."""
    match = CARRIED.match(carried)
    if match is None or not carried:
        return None
    year, month, day, hour, minute, second = match.groups()
    is_half = "P" in form or "p" in form
    half = "AM" if hour is not None and int(hour) < 12 else "PM"
    shown_hour = str((int(hour) + 11) % 12 + 1) if hour is not None and is_half else hour
    parts = {"D": day, "M": month, "Y": year, "h": shown_hour, "m": minute, "s": second}
    used = {each[0] for each in PARTS.findall(form)} - {"P", "p"}
    if used != {name for name, part in parts.items() if part is not None}:
        return None

    def written(found: "re.Match[str]") -> str:
        name = found[0][0]
        if name in "Pp":
            return half if name == "P" else half.lower()
        return str(int(parts[name] or "0")).rjust(len(found[0]), "0")

    return PARTS.sub(written, form)


def time_forms(text: str) -> Iterator[str]:
    """The forms that a clock time may have."""
    match = TIME.match(text)
    if match is None:
        return
    end = ":ss" if match[3] else ""
    if match[4]:
        between = " " if " " in text else ""
        end += between + ("P" if match[4].isupper() else "p")
    yield from (f"{hour}:mm{end}" for hour in ("hh", "h"))


def date_forms(text: str, order: str) -> Iterator[str]:
    """The forms that a date may have which begins with the day, the month or the year, as `order` says."""
    match = DATE.match(text)
    if match is None:
        return
    parts = ORDERS["ymd" if len(match[1]) == 4 else order]
    rest = match[5] or ""
    between = text[match.end(4):len(text) - len(rest)] if rest else ""
    times: List[str] = list(time_forms(rest)) if rest else [""]
    for day, month, time in itertools.product(("DD", "D"), ("MM", "M"), times):
        words = {"D": day, "M": month, "Y": "YYYY"}
        yield match[2].join(words[part] for part in parts) + between + time


def form_of(carried: Mapping[str, str], order: str) -> str:
    """The form of some dates or clock times, by what each is carried as; the empty text where they aren't
    alike."""
    first = next(iter(carried), "").strip()
    forms: Iterable[str] = time_forms(first) if order == "time" else date_forms(first, order)
    for form in forms:
        if all(in_form(value, form) == text.strip() for text, value in carried.items()):
            return form
    return ""
