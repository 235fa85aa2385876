"""Puts two packages into the input of `ldv join`, and says in words why two can't be joined.

    tools/join.py FIRST.package SECOND.package > pair.input
    ./ldv join < pair.input > both.joined
    tools/join.py FIRST.package SECOND.package | ./ldv join > both.joined

The input of `ldv join` is each package with its length before it, a number of four bytes, the highest first.
Where the two clash nothing is written, and it is said what differs first, and in which package: a file that
both have whole, a table, a row, or two rows of one key. This is the clash that `ldv join` would name. That
both are valid packages is what `ldv join` says. Cells are shown as they were read, where the packages say
what their columns are; --raw shows them as they are carried.

Statuses: 0 written; 1 they clash, one has recorded replies in place of rows, is no package or is too long, or
a file can't be read or written; 2 wrong words.
"""
from __future__ import annotations

import sys
from typing import Dict, Iterator, List, NamedTuple, Optional, Sequence, Tuple

from .columns import FOLDER, UNKNOWN, Columns, Known, Source, read_columns
from .errors import Malformed, Misused, Refused, TwoRuns, command, program_name, words_of
from .outcome import read_input
from .package_tables import columns_of
from .packages import Package, PackedRow, PackedTable, read_package
from .values import Value, cell, counted, escaped

MAX_LENGTH = (1 << 32) - 1
BothColumns = Tuple[Columns, Columns]


class Clash(NamedTuple):
    """What differs first: the words that the program names it by, and lines that say how."""

    name: str
    lines: List[str]


# ---- what differs, in the order in which the program looks

def file_clash(first: Package, second: Package, names: Tuple[str, str]) -> Optional[Clash]:
    """The least path that both have whole with different bytes."""
    others = {path: content for path, content in second.files if content is not None}
    for path, content in sorted(first.files, key=lambda file: file[0].encode()):
        other = others.get(path)
        if content is None or other is None or content == other:
            continue
        place = next((place for place, pair in enumerate(zip(content, other)) if pair[0] != pair[1]),
                     min(len(content), len(other)))
        line = content[:place].count(b"\n") + 1
        return Clash(f"file {path}", [
            f"{names[0]} has {counted(len(content), 'byte')} of it, {names[1]} "
            f"{counted(len(other), 'byte')}; the first difference is at byte {place}, in line {line}",
            *file_advice(path, content, other, names, path in (first.start[:1] + second.start[:1]))])
    return None


def file_advice(path: str, content: bytes, other: bytes, names: Tuple[str, str],
                is_start: bool) -> Iterator[str]:
    """What to do about a file that both have with other bytes, where that is known."""
    if path.startswith(FOLDER):
        yield from columns_advice(content, other, names)
    elif is_start:
        yield ("it is the script of a run; where world.py made it of statements, --name gives it another "
               "name, which is that of the world's file where -o names one")


def columns_advice(content: bytes, other: bytes, names: Tuple[str, str]) -> Iterator[str]:
    """In what two files differ that say what columns of a table are."""
    try:
        one, another = read_columns(content), read_columns(other)
    except Malformed:
        return
    if one.source != another.source:
        yield (f"the table {one.table} was read from {told_source(one.source)} in {names[0]}, from "
               f"{told_source(another.source)} in {names[1]}: it has to come of one file or database")
    for column in one.columns:
        twin = another.column(column.name)
        if twin is not None and twin != column:
            differs = [field for field in column._fields if getattr(column, field) != getattr(twin, field)]
            yield (f"column {column.name}: " + "; ".join(
                f"{field} {getattr(column, field) or 'none'} in {names[0]}, {getattr(twin, field) or 'none'} "
                f"in {names[1]}" for field in differs))


def told_source(source: Source) -> str:
    digest = f" (SHA-256 {source.digest[:16]}..)" if source.digest else ""
    return f"{escaped(source.file) or 'a file without a name'}{digest}"


def foreign_text(table: PackedTable) -> str:
    found = [f"({', '.join(each.columns)}) refers to {each.parent}" for each in table.foreign]
    return "; ".join(found) or "none"


def columns_text(table: PackedTable) -> str:
    return ", ".join(f"{name} {kind}" for name, kind in table.columns)


def table_lines(first: PackedTable, second: PackedTable, names: Tuple[str, str]) -> Iterator[str]:
    """In what two tables of one name differ, rows aside."""
    parts = (("columns", columns_text(first), columns_text(second)),
             ("key", ", ".join(first.key) or "none", ", ".join(second.key) or "none"),
             ("foreign keys", foreign_text(first), foreign_text(second)),
             ("next row number", str(first.next), str(second.next)))
    for part, one, other in parts:
        if one != other:
            yield f"{part}: {one} in {names[0]}, {other} in {names[1]}"


def pairs(first: Package, second: Package) -> Iterator[Tuple[PackedTable, PackedTable]]:
    """The tables that both have, by name."""
    others = {table.name: table for table in second.tables}
    for table in sorted(first.tables, key=lambda table: table.name):
        if table.name in others:
            yield table, others[table.name]


def table_clash(first: Package, second: Package, names: Tuple[str, str]) -> Optional[Clash]:
    """The least table that both have with different schemas or next row numbers."""
    for one, other in pairs(first, second):
        lines = list(table_lines(one, other, names))
        if lines:
            return Clash(f"table {one.name}", lines)
    return None


def cell_as_read(value: Value, column: Optional[Known]) -> str:
    return cell(value if column is None else column.shown(value))


def row_clash(first: Package, second: Package, names: Tuple[str, str],
              columns: BothColumns = (UNKNOWN, UNKNOWN)) -> Optional[Clash]:
    """The least table and number of a row that both have with different values."""
    for one, other in pairs(first, second):
        others = {row.number: row for row in other.rows}
        for row in sorted(one.rows, key=lambda row: row.number):
            twin = others.get(row.number)
            if twin is not None and twin.values != row.values:
                cells = zip(one.names(), row.values, twin.values)
                return Clash(f"row {one.name} {row.number}", [
                    f"column {name}: {cell_as_read(value, columns[0].column(one.name, name))} in {names[0]}, "
                    f"{cell_as_read(another, columns[1].column(one.name, name))} in {names[1]}"
                    for name, value, another in cells if value != another])
    return None


def merged(first: Package, second: Package) -> Dict[str, Tuple[PackedTable, Dict[int, PackedRow]]]:
    """The tables of both, each with the rows of both by number."""
    found: Dict[str, Tuple[PackedTable, Dict[int, PackedRow]]] = {}
    for table in [*first.tables, *second.tables]:
        rows = found.setdefault(table.name, (table, {}))[1]
        for row in table.rows:
            rows.setdefault(row.number, row)
    return found


def holders(first: Package, second: Package, table: str, number: int, names: Tuple[str, str]) -> str:
    """Which of the two has a row."""
    has = [name for package, name in zip((first, second), names)
           if any(row.number == number for each in package.tables if each.name == table for row in each.rows)]
    return " and ".join(has)


def key_clash(first: Package, second: Package, names: Tuple[str, str],
              columns: BothColumns = (UNKNOWN, UNKNOWN)) -> Optional[Clash]:
    """The least table in which a row of either has the key of an earlier row, and the first such row."""
    for name, (table, rows) in sorted(merged(first, second).items()):
        places = [table.names().index(column) for column in table.key]
        seen: Dict[Tuple[Value, ...], int] = {}
        for number in sorted(rows) if places else ():
            key = tuple(rows[number].values[place] for place in places)
            if key in seen:
                shown = ", ".join(f"{column} {cell_as_read(value, columns[0].column(name, column))}"
                                  for column, value in zip(table.key, key))
                both = " and ".join(f"row {row} of {holders(first, second, name, row, names)}"
                                    for row in (seen[key], number))
                return Clash(f"key {name} {number}", [f"{both} have the same key: {shown}"])
            seen[key] = number
    return None


def clash_of(first: Package, second: Package, names: Tuple[str, str] = ("the first", "the second"),
             columns: BothColumns = (UNKNOWN, UNKNOWN)) -> Optional[Clash]:
    """What differs first: all files are looked at before tables, these before rows, and these before keys."""
    return (file_clash(first, second, names) or table_clash(first, second, names)
            or row_clash(first, second, names, columns) or key_clash(first, second, names, columns))


# ---- the input of `ldv join`

def sized(data: bytes) -> bytes:
    """Bytes with their number before them."""
    if len(data) > MAX_LENGTH:
        raise Refused(f"{counted(len(data), 'byte')} have no length of four bytes")
    return len(data).to_bytes(4, "big") + data


def read_one(name: str) -> Tuple[bytes, Package]:
    data = read_input(None if name == "-" else name)
    try:
        package = read_package(data)
    except TwoRuns:
        raise Refused(f"{name} is a joined package already; packages of one run are joined, and no more than "
                      "two") from None
    except Malformed as fault:
        raise Malformed(f"{name}: {fault}") from None
    if package.mode != "included":
        raise Refused(f"{name} has recorded replies and no rows, so that it can't be joined")
    return data, package


def work(words: Optional[Sequence[str]]) -> int:
    parser = words_of(__doc__)
    parser.add_argument("packages", nargs=2, metavar="PACKAGE",
                        help="an included package; - is standard input")
    parser.add_argument("--raw", action="store_true", help="numbers and dates as the packages carry them")
    given = parser.parse_args(words)
    names = given.packages
    if names == ["-", "-"]:
        raise Misused("standard input is only one of them")
    (one, first), (other, second) = map(read_one, names)
    said = (names[0], names[1]) if names[0] != names[1] else ("the first", "the second")
    columns = (UNKNOWN, UNKNOWN) if given.raw else (columns_of(first), columns_of(second))
    clash = clash_of(first, second, said, columns)
    if clash is not None:
        print(f"{program_name()}: clash: {escaped(clash.name)}", file=sys.stderr)
        for line in clash.lines:
            print(f"  {line}", file=sys.stderr)
        return 1
    sys.stdout.buffer.write(sized(one) + sized(other))
    sys.stdout.buffer.flush()
    return 0


def main(words: Optional[Sequence[str]] = None) -> int:
    return command(work, words, "package")


if __name__ == "__main__":
    sys.exit(main())
