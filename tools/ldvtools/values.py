"""Values and replies, and how people and CSV are shown them."""
from __future__ import annotations

import json
import re
from typing import List, NamedTuple, Optional, Sequence, Tuple, Union

from .language import KEYED_REFUSALS, REFUSALS

Value = Union[None, int, str]
Row = List[Value]


class Scaled(int):
    """A number that is carried as a whole number of tenths, hundredths and so on, and shown as a decimal,
    with `mark` before the decimals."""

    scale: int
    mark: str

    def __new__(cls, number: int, scale: int, mark: str = ".") -> Scaled:
        found = super().__new__(cls, number)
        found.scale, found.mark = scale, mark
        return found

    def __eq__(self, other: object) -> bool:
        return int(self) == other and (not isinstance(other, Scaled) or self.scale == other.scale)

    def __ne__(self, other: object) -> bool:
        return not self == other

    __hash__ = int.__hash__

    def __str__(self) -> str:
        if self.scale == 0:
            return int.__repr__(self)
        digits = int.__repr__(abs(self)).rjust(self.scale + 1, "0")
        return f"{'-' if self < 0 else ''}{digits[:-self.scale]}{self.mark}{digits[-self.scale:]}"


class Reply(NamedTuple):
    """A reply. `kind` is "rows", "changed" or "refused", and only the fields of that kind have a meaning."""

    kind: str
    rows: List[Row] = []
    changed: int = 0
    code: int = 0
    table: str = ""
    key: Row = []

    def brief(self) -> Tuple[object, ...]:
        """The kind with the rows, the number of changed rows, or the code."""
        return self.kind, {"rows": self.rows, "changed": self.changed, "refused": self.code}[self.kind]


def rows_reply(rows: List[Row]) -> Reply:
    return Reply("rows", rows=rows)


def changed_reply(count: int) -> Reply:
    return Reply("changed", changed=count)


def refused_reply(code: int, table: str = "", key: Sequence[Value] = ()) -> Reply:
    return Reply("refused", code=code, table=table, key=list(key))


# ---- for people

def escaped(text: str) -> str:
    """A text with control characters as escapes: a terminal could take them for commands."""
    return "".join(char if char.isprintable() or char == "\t" else json.dumps(char)[1:-1] for char in text)


def cell(value: Value) -> str:
    """A value as a table shows it: a text that would look like something else stands in quotes."""
    if value is None:
        return "NULL"
    if isinstance(value, int):
        return str(value)
    looks_else = value in ("", "NULL") or re.fullmatch("-?[0-9]+", value) or value[0] == '"'
    if looks_else or value != value.strip() or not value.isprintable():
        return escaped(json.dumps(value, ensure_ascii=False))
    return value


def heads_of(names: Sequence[str], width: int) -> List[str]:
    """The heads of columns: their names, as far as these are known, and their places from 1."""
    return [*names, *(str(place) for place in range(len(names) + 1, width + 1))]


def table_lines(rows: Sequence[Row], names: Optional[Sequence[str]] = None) -> List[str]:
    """Rows as a table with the names of its columns, or with these counted from 1."""
    heads = heads_of(names or (), max(map(len, rows), default=0))
    width = len(heads)
    cells = [[cell(value) for value in row] for row in rows]
    sizes = [max(len(row[place]) for row in [heads] + cells if place < len(row)) for place in range(width)]

    def line(texts: Sequence[str], values: Sequence[Value]) -> str:
        padded = [text.rjust(size) if isinstance(value, int) else text.ljust(size)
                  for text, size, value in zip(texts, sizes, values)]
        return "  " + " | ".join(padded).rstrip()

    lines = [line(heads, heads), "  " + "-+-".join("-" * size for size in sizes)]
    return lines + [line(texts, row) for texts, row in zip(cells, rows)]


def counted(number: int, what: str, many: Optional[str] = None) -> str:
    """A number with its noun."""
    return f"{number:,} {what}" if number == 1 else f"{number:,} {many or what + 's'}"


def reply_title(reply: Reply) -> str:
    """What a reply is, in a few words."""
    if reply.kind == "rows":
        return plain_count(len(reply.rows), "row")
    if reply.kind == "changed":
        return f"{plain_count(reply.changed, 'row')} changed"
    where = ""
    if reply.code in KEYED_REFUSALS:
        where = f" (table {escaped(reply.table)}, key {', '.join(cell(value) for value in reply.key)})"
    return f"refused with code {reply.code}: {REFUSALS[reply.code]}{where}"


def plain_count(number: int, what: str, many: Optional[str] = None) -> str:
    """A number without separators, with its noun."""
    return f"{number} {what}" if number == 1 else f"{number} {many or what + 's'}"


# ---- CSV

def csv_field(value: Value, null: str = "") -> str:
    """A field of CSV (RFC 4180): NULL is `null`, and a text stands in quotes where it has to."""
    if value is None:
        return null
    if type(value) is int:
        return str(value)
    text = str(value)
    is_plain = (isinstance(value, int) or text not in ("", null)) and not re.search('[",\r\n]', text)
    return text if is_plain else '"' + text.replace('"', '""') + '"'


def csv_line(values: Sequence[Value], null: str = "", end: str = "\n") -> str:
    return ",".join(csv_field(value, null) for value in values) + end
