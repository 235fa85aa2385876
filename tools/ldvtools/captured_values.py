"""Values that a program gets, made of those of a reply; and values of a log in JSON."""
from __future__ import annotations

import datetime
from decimal import Decimal
from typing import Any, List, Optional, Sequence, Tuple

from .dialect_queries import Part, Plan
from .dialects import SQLITE
from .values import Row, Value

# How a column of an answer is made of a value of a reply.
PLAIN, FLOAT, NUMERIC, DECIMAL, BOOL, BYTES = "plain", "float", "numeric", "decimal", "bool", "bytes"
TEXTS = ("date", "datetime", "time", "uuid")
SIGNIFICANT, GROUP = 16, 4


def kind_of(values: Sequence[Any], part: Part, driver: str) -> str:
    """The kind of a column by the values that the program saw in it, in the form of a log."""
    found = {value[0] if isinstance(value, tuple) else type(
        value).__name__ for value in values if value is not None}
    if len(found) == 1:
        name = found.pop()
        if name == "datetime":
            return ";".join(["datetime", *zone_marks(values)])
        if name in ("float", "decimal", "bool", "bytes") or name in TEXTS:
            return str(name)
    elif found == {"int", "float"}:
        return NUMERIC
    elif not found:
        return declared_kind(part, driver)
    return PLAIN


def zone_marks(values: Sequence[Any]) -> List[str]:
    """Of times with a zone the first ones of each offset, in their order; none where all are those of UTC or
    have no zone. A session's zone has one offset from such a time to the next."""
    times = {datetime.datetime.fromisoformat(value[1]) for value in values if value is not None}
    if not any(time.utcoffset() for time in times):
        return []
    found: List[datetime.datetime] = []
    for time in sorted(times):
        if not found or time.utcoffset() != found[-1].utcoffset():
            found.append(time)
    return [time.isoformat(" ") for time in found]


def in_zone(kind: str, text: str) -> str:
    """A time of UTC as the zone of a session shows it."""
    time = datetime.datetime.fromisoformat(text)
    marks = list(map(datetime.datetime.fromisoformat, kind.split(";")[1:]))
    mark = next((each for each in reversed(marks) if each <= time), marks[0])
    return time.astimezone(mark.tzinfo).isoformat(" ")


def declared_kind(part: Part, driver: str) -> str:
    """The kind of a column of which no value was seen."""
    declared = part.column.declared.lower() if part.column is not None else ""
    if driver == SQLITE:
        is_real = part.column is not None and part.column.scale is not None
        return FLOAT if is_real or part.way == "avg" else PLAIN
    for begin, kind in (("numeric", DECIMAL), ("boolean", BOOL), ("date", "date"), ("timestamp", "datetime"),
                        ("time", "time"), ("uuid", "uuid"), ("double", FLOAT), ("real", FLOAT)):
        if declared.startswith(begin):
            return kind
    return PLAIN


def made_value(kind: str, scale: int, value: Value) -> Any:
    """A value of a reply as the program gets it, in the form of a log."""
    if value is None or kind == PLAIN and not scale:
        return value
    if isinstance(value, str) and kind.startswith("datetime;"):
        return ("datetime", in_zone(kind, value))
    if isinstance(value, str):
        return value.encode() if kind == BYTES else (kind, value) if kind in TEXTS else value
    number = decimal_of(value, scale)
    if kind == DECIMAL:
        return ("decimal", str(number))
    if kind == BOOL:
        return bool(value)
    if kind == FLOAT or kind == NUMERIC and number != number.to_integral_value():
        return float(number)
    return int(number) if number == number.to_integral_value() else float(number)


def quotient(kind: str, scale: int, total: Value, count: Value) -> Any:
    """The value of AVG."""
    if total is None or not count or not isinstance(total, int) or not isinstance(count, int):
        return None
    if kind == DECIMAL:
        return ("decimal", str(divided(total, scale, count)))
    return total / count


def divided(total: int, scale: int, count: int) -> Decimal:
    """A quotient with as many decimals as PostgreSQL gives it: 16 digits of significance at least, counted
    in groups of four."""
    weights, firsts = [], []
    for number, decimals in ((abs(total), scale), (count, 0)):
        groups, weight = grouped(number, decimals)
        weights.append(weight)
        firsts.append(groups)
    weight = weights[0] - weights[1] - (1 if firsts[0] <= firsts[1] else 0)
    places = max(SIGNIFICANT - weight * GROUP, scale, 0)
    # Rounded half away from 0.
    numerator, denominator = abs(total) * 10**places, count * 10**scale
    whole = (2 * numerator + denominator) // (2 * denominator)
    return decimal_of(whole if total >= 0 else -whole, places)


def decimal_of(number: int, places: int) -> Decimal:
    """A decimal with all digits of a number, so many of them after the point."""
    return Decimal(f"{number}E-{places}")


def grouped(number: int, decimals: int) -> Tuple[int, int]:
    """The first group of four digits of a number, and how many groups stand between it and the point."""
    if number == 0:
        return 0, 0
    number *= 10 ** (-decimals % GROUP)
    weight = -(-decimals // GROUP)
    digits = str(number)
    groups = -(-len(digits) // GROUP)
    return int(digits[:len(digits) - (groups - 1) * GROUP]), groups - 1 - weight


def made_row(parts: Sequence[Part], kinds: Sequence[str], scales: Sequence[int], row: Row) -> Tuple[Any, ...]:
    """A row of the program's answer, made of one of a reply."""
    found = []
    for part, kind in zip(parts, kinds):
        if part.way == "avg":
            found.append(quotient(kind, scales[part.place], row[part.place], row[part.other]))
            continue
        value = row[part.place]
        if part.way == "count" and value is None:
            value = 0
        found.append(made_value(kind, scales[part.place], value))
    return tuple(found)


def is_plain(parts: Sequence[Part], kinds: Sequence[str], scales: Sequence[int]) -> bool:
    """Whether rows are as those of the reply."""
    return all(part.way == "take" and part.place == place and kind == PLAIN and not scales[place]
               for place, (part, kind) in enumerate(zip(parts, kinds))) and len(parts) == len(scales)


def made_rows(plan: Plan, kinds: Sequence[str], rows: List[Row]) -> List[Tuple[Any, ...]]:
    """The rows of the program's answer, without those that OFFSET passes over."""
    parts = plan.parts or []
    rows = rows[plan.skip:]
    if is_plain(parts, kinds, plan.scales):
        return [tuple(row) for row in rows]
    return [made_row(parts, kinds, plan.scales, row) for row in rows]


# ---- JSON

def to_json(value: Any) -> Any:
    """A value of a log in JSON: what isn't a number, a text, NULL or a truth is an object."""
    if isinstance(value, bytes):
        return {"bytes": value.hex()}
    if isinstance(value, float):
        return {"float": repr(value)}
    if isinstance(value, tuple) and value and value[0] == "list":
        return {"list": [to_json(each) for each in value[1]]}
    if isinstance(value, tuple):
        return {"kind": list(map(str, value))}
    return value


def from_json(value: Any) -> Any:
    if not isinstance(value, dict):
        return value
    if "bytes" in value:
        return bytes.fromhex(value["bytes"])
    if "float" in value:
        return float(value["float"])
    if "list" in value:
        return ("list", [from_json(each) for each in value["list"]])
    return tuple(value["kind"])


def params_to_json(params: Any) -> Any:
    if isinstance(params, dict):
        return {"named": {name: to_json(value) for name, value in params.items()}}
    if isinstance(params, tuple) and params[:1] == ("other",):
        return {"kind": list(map(str, params))}
    return [to_json(value) for value in params]


def params_from_json(params: Any) -> Any:
    if isinstance(params, dict) and "named" in params:
        return {name: from_json(value) for name, value in params["named"].items()}
    if isinstance(params, dict):
        return tuple(params["kind"])
    return tuple(from_json(value) for value in params)


def shown(value: Any) -> str:
    """A value of a log for a reader."""
    if value is None:
        return "NULL"
    if isinstance(value, tuple):
        return str(value[1]) if value[0] != "list" else ", ".join(map(shown, value[1]))
    text = repr(value) if not isinstance(value, datetime.date) else value.isoformat()
    return text if len(text) <= 60 else text[:57] + ".."


def shown_row(row: Optional[Sequence[Any]]) -> str:
    return "no row" if row is None else f"({', '.join(map(shown, row))})"


def shown_params(params: Any) -> str:
    if isinstance(params, dict):
        return ", ".join(f"{name}={shown(value)}" for name, value in params.items())
    return ", ".join(map(shown, params))
