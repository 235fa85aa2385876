"""Tables of a world: names, kinds, cells and keys.

A table is read with its cells as they are, column by column, and then settled: it gets its kinds, its cells
are brought to them, and what doesn't fit is refused with its row and column.
"""
from __future__ import annotations

import json.encoder
import re
import shlex
from decimal import Decimal
from typing import Callable, Dict, Iterator, List, Optional, Sequence, Tuple, Union

from .date_forms import form_of as form_of_dates
from .documents import Rows, row_lines
from .errors import Misused, Refused, Unfit
from .language import MAX_COLUMNS, MAX_INT, MAX_NAME, MAX_ROWS, MAX_TEXT, MIN_INT, NAME, RESERVED
from .world_cells import MAX_SCALE, comparable, has_no_equal, scaled_number, shown, text_value, whole_number
from .world_columns import NO_VALUE, Cell, Column, Form, OtherValue, Remark, Table
from .world_dates import hint_of_shapes
from .world_hints import advice_of, hint_of_text, largest, scale_advised
from .world_settings import Settings, fold, tidy_names
from .world_texts import odd_texts, plain_text

# Written in C where that is built.
spelled_text: Callable[[str], str] = getattr(json.encoder, "encode_basestring")


# ---- names

def check_name(what: str, name: str, place: str = "", how: str = "") -> None:
    how = how or f"--rename {named_word(place or name, 'NAME')}"
    if name in RESERVED:
        raise Refused(f"{what} {name!r} is a reserved word; give {how}")
    # A word of the command line that isn't UTF-8 has half surrogate pairs.
    if len(name.encode(errors="surrogatepass")) > MAX_NAME:
        raise Refused(f"{what} {name!r} has more than {MAX_NAME} bytes; give {how}")
    if NAME.match(name):
        return
    if NAME.match(fold(name)):
        raise Refused(f"{what} {name!r}: names have no upper-case letters; give --lower or {how}")
    raise Refused(f"{what} {name!r} isn't a name: a letter a to z or _, then such letters, digits and _; "
                  f"give {how}")


def named_word(name: str, value: str) -> str:
    """NAME=VALUE as a word for a shell."""
    word = f"{name}={value}"
    return shlex.quote(word) if any(sign in word for sign in "\"$`\\!") else f'"{word}"'


# ---- kinds

def canonical_numbers(cells: List[Optional[str]]) -> Optional[Tuple[List[Optional[int]], List[str]]]:
    """The numbers of texts that are each written in the only way that loses nothing as a number, and how the
    document has them, or None."""
    has_null = None in cells
    texts = [cell for cell in cells if cell is not None]
    try:
        numbers = list(map(int, texts))
    except ValueError:
        return None
    if not numbers or list(map(str, numbers)) != texts or not are_within(numbers, texts):
        return None
    if not has_null:
        return list(numbers), texts
    following = iter(numbers)
    return ([None if cell is None else next(following) for cell in cells],
            ["null" if cell is None else cell for cell in cells])


def are_within(numbers: Sequence[int], texts: Sequence[str]) -> bool:
    """Whether all numbers have 64 bits. One of at most 18 digits has them."""
    return max(map(len, texts)) <= MAX_SCALE or min(numbers) >= MIN_INT and max(numbers) <= MAX_INT


def no_equal(table: Table, column: Column, value: Cell) -> Unfit:
    name = table.full_name(column)
    advice = f"--leave-out {name} leaves the column out"
    if isinstance(value, (float, Decimal)):
        advice = f"--scale {name}=DECIMALS carries it as a whole number, {advice}"
    elif isinstance(value, OtherValue) and value.advice:
        advice = f"{value.advice}, {advice}"
    return Unfit(f"{shown(value)} has no equal here; {advice}")


def kind_of_values(table: Table, column: Column) -> str:
    """The kind of a column of a database whose declared type is neither whole number nor text."""
    found: Optional[str] = None
    for row, value in enumerate(column.cells):
        kind = "INT" if isinstance(value, int) else "TEXT"
        if value is None or has_no_equal(value):
            continue
        if found not in (None, kind):
            raise Refused(f"{table.at(row, column)}: {shown(value)}, but rows before have the kind {found}; "
                          f"--kind {table.full_name(column)}=TEXT carries the column as texts")
        found = kind
    return found or "TEXT"


def fitting(table: Table, column: Column, value: Cell, is_given: bool, settings: Settings) -> Cell:
    """A cell as its column carries it. `is_given`: the kind was given by an option."""
    if value is None:
        if column.not_null:
            raise Unfit(f"NULL, but it is in the key; --key {table.name}=none makes a table without one"
                        if column.name in table.key else "NULL, but it is NOT NULL")
        return None
    if column.scale is not None:
        return scaled_number(value, column.scale, column.form, settings.rounds)
    if has_no_equal(value):
        raise no_equal(table, column, value)
    if column.date is not None:
        return comparable(value, column.date)
    if column.kind == "TEXT":
        return text_value(value)
    if isinstance(value, int) or table.from_text or is_given:
        return whole_number(value, column.form)
    raise Unfit(f"{shown(value)} is no whole number, and the column is INT; "
                f"--kind {table.full_name(column)}=TEXT carries the column as texts")


def fill_column(table: Table, column: Column, is_given: bool, settings: Settings) -> None:
    """Brings the cells of a column to its kind."""
    if is_filled(column) or is_scaled(column) or is_filled_by_texts(table, column, is_given, settings):
        return
    for row, value in enumerate(column.cells):
        try:
            column.cells[row] = fitting(table, column, value, is_given, settings)
        except Unfit as fault:
            advice = advice_of(table, column, value)
            raise Refused(f"{table.at(row, column)}: {fault}{advice}") from None


def is_filled_by_texts(table: Table, column: Column, is_given: bool, settings: Settings) -> bool:
    """Whether all cells were texts that fit, and are brought to the kind of the column: each text once, since
    dates and prices come many times."""
    if set(map(type, column.cells)) - {str, type(None)}:
        return False
    try:
        found = {text: fitting(table, column, text, is_given, settings) for text in set(column.cells)}
    except Unfit:
        return False
    if column.date is not None:
        texts = {text: str(value) for text, value in found.items() if text is not None}
        column.date_form = form_of_dates(texts, column.date)
    column.cells = list(map(found.__getitem__, column.cells))
    return True


def is_filled(column: Column) -> bool:
    """Whether all cells are as the column carries them already."""
    if column.scale is not None or column.date is not None or column.not_null and None in column.cells:
        return False
    if column.spelled is not None:
        return True
    types = set(map(type, column.cells)) - {type(None)}
    if column.kind == "TEXT":
        return types <= {str} and max(map(len, filter(None, column.cells)), default=0) * 4 <= MAX_TEXT
    return types <= {int} and (min(filter(None, column.cells), default=0) >= MIN_INT
                               and max(filter(None, column.cells), default=0) <= MAX_INT)


def is_scaled(column: Column) -> bool:
    """Whether all cells were short decimals in plain digits,
    and are brought to their whole numbers by that."""
    if column.scale is None or column.not_null or column.form.thousands or column.form.unit:
        return False
    if set(map(type, column.cells)) - {str, type(None)}:
        return False
    scale, sign = column.scale, column.form.decimal
    most = MAX_SCALE - scale or 1
    match = re.compile(rf"-?[0-9]{{1,{most}}}(?:{re.escape(sign)}[0-9]{{0,{scale}}})?\Z").match
    # Measurements have few values, each many times.
    texts = set(column.cells) - {None}
    if scale >= MAX_SCALE or not all(map(match, texts)):
        return False
    parts = ((text, text.partition(sign)) for text in texts)
    numbers: Dict[Optional[str], Optional[int]] = {
        text: int(whole + part.ljust(scale, "0")) for text, (whole, _, part) in parts}
    numbers[None] = None
    spelled = {text: "null" if number is None else str(number) for text, number in numbers.items()}
    column.spelled = list(map(spelled.__getitem__, column.cells))
    column.cells = list(map(numbers.__getitem__, column.cells))
    return True


# ---- tables

def settle(tables: Sequence[Table], settings: Settings, hints: List[str]) -> None:
    """Gives tables that were read their kinds, cells and keys, within the limits."""
    given = [prepare(table, settings) for table in tables]
    check_scales(tables, settings)
    for table, are_given in zip(tables, given):
        for column, is_given in zip(table.columns, are_given):
            settle_cells(table, column, is_given, settings, hints)
        check_key(table)


def prepare(table: Table, settings: Settings) -> List[bool]:
    """Takes what the options say of a table. Whether they name the kind, of each column."""
    check_name("the table", table.name, how="--csv NAME=FILE, or --tidy" if table.from_text else "")
    if not 1 <= len(table.columns) <= MAX_COLUMNS:
        raise Refused(f"{table.name} has {len(table.columns)} columns; a table has 1 to {MAX_COLUMNS}")
    if table.count > MAX_ROWS:
        raise Refused(f"{table.name} has {table.count} rows; the limit is {MAX_ROWS}")
    key = settings.take("--key", table.name)
    if key is not None:
        table.key = [] if key == "none" else key.split(",")
    check_columns(table)
    return [settle_kind(table, column, settings) for column in table.columns]


def check_columns(table: Table) -> None:
    names = [column.name for column in table.columns]
    check_many(table, names)
    for place, name in enumerate(names):
        column = table.columns[place]
        by_place = table.place_name(column)
        check_name(f"{table.name}: column {column.place}", name, by_place)
        if name in names[:place]:
            how = f"--rename {named_word(by_place, 'NAME')} renames the column {column.place}"
            raise Refused(f"{table.name}: two columns have the name {name}; {how}")
    for place, name in enumerate(table.key):
        if name not in names:
            raise Refused(f"{table.name}: the key names {name}, which is no column; "
                          f"there are {', '.join(names)}")
        if name in table.key[:place]:
            raise Refused(f"{table.name}: the key names {name} twice")


def check_many(table: Table, names: Sequence[str]) -> None:
    """Where several columns have no name, all of them at once."""
    bad = [place for place, name in enumerate(names)
           if not NAME.match(name) or name in RESERVED or name in names[:place]]
    if len(bad) < 2 or all(NAME.match(fold(names[place])) for place in bad):
        return
    tidied = tidy_names([column.old for column in table.columns])
    pairs = [(table.columns[place], tidied[place]) for place in bad]
    words = " ".join(f"--rename {named_word(table.place_name(column), name)}" for column, name in pairs)
    shown_names = ", ".join(f"{column.place} {column.name!r}" for column, _ in pairs)
    title = "; where the first line is a title, take it off first" if not any(names[1:]) else ""
    raise Refused(f"{table.name}: {len(bad)} columns need another name, column {shown_names}: a letter a to "
                  "z or _, then such letters, digits and _, no reserved word, and none twice; give --tidy, "
                  f"or {words}{title}")


def settle_kind(table: Table, column: Column, settings: Settings) -> bool:
    """Takes what the options say of a column's kind. Whether they name it."""
    name = table.full_name(column)
    kind = settings.take("--kind", name)
    scale = settings.take("--scale", name)
    date = settings.take("--date", name)
    column.form = form_of(table, column, settings)
    if kind is not None:
        column.kind, column.not_null = kind.split()[0], kind.endswith("NOT NULL")
    elif column.form.unit or ("--thousands", name) in settings.values:
        column.kind = "INT"
    if scale is not None:
        column.kind, column.scale = "INT", int(scale)
    if date is not None:
        column.kind, column.date = "TEXT", date
    column.not_null = column.not_null or column.name in table.key
    is_text = (settings.take("--empty", name) or ("text" if settings.is_tsv else "null")) == "text"
    nulls = settings.nulls_of(table.name, column.name)
    if table.from_text:
        words = nulls | (set() if is_text else {""}) | ({NO_VALUE} if settings.is_tsv else set())
        column.nulls = {word for word in words if word in column.cells}
    else:
        words = nulls
        column.nulls = {word for word in words if word in column.cells}
    if column.nulls:
        column.cells = [None if isinstance(cell, str) and cell in words else cell for cell in column.cells]
    if settings.is_plain:
        column.cells = [plain_text(cell) if isinstance(cell, str) else cell for cell in column.cells]
    return kind is not None or bool(column.form.unit)


def form_of(table: Table, column: Column, settings: Settings) -> Form:
    """How the options say that the numbers of a column are written."""
    unit = settings.take("--unit", table.full_name(column)) or ""
    thousands = settings.of_column("--thousands", table.name, column.name, "")
    # Where the point stands between thousands, the comma stands before decimals.
    decimal = settings.of_column("--decimal", table.name, column.name, "," if thousands == "." else ".")
    if decimal == thousands:
        raise Misused(f"{table.full_name(column)}: --decimal and --thousands are both {decimal}")
    return Form(decimal, thousands, unit)


def check_scales(tables: Sequence[Table], settings: Settings) -> None:
    """All columns with REAL values that need --scale, at once."""
    needed = [(table, row, column, value) for table in tables if not table.from_text
              for column in table.columns
              if column.scale is None for row, value in first_float(column)]
    if not needed:
        return
    table, row, column, value = needed[0]
    begin = f"{table.at(row, column)}: {shown(value)} has no equal here"
    # A number of 20 digits is outside 64 bits at each scale.
    outside = [each.full_name(other) for each, _, other, _ in needed if largest(other) > MAX_INT]
    scales = [(each.full_name(other), *scale_advised(other)) for each, _, other, _ in needed
              if each.full_name(other) not in outside]
    words = " ".join(f"--scale {name}={scale}" for name, scale, _ in scales)
    are_rounded = any(is_rounded for _, _, is_rounded in scales)
    words, how = (words + " --round", ", rounded") if are_rounded else (words, "")
    if outside:
        left = " ".join(f"--leave-out {name}" for name in outside)
        rest = f"; {words} carries the others as whole numbers{how}" if words else ""
        raise Refused(f"{begin}; {', '.join(outside)}: numbers outside 64 bits, which no --scale carries: "
                      f"{left}{rest}")
    raise Refused(f"{begin}; {words} carries all of them as whole numbers{how}, --leave-out "
                  f"{table.full_name(column)} leaves the column out")


def first_float(column: Column) -> Iterator[Tuple[int, Union[float, Decimal]]]:
    for row, value in enumerate(column.cells):
        if isinstance(value, (float, Decimal)):
            yield row, value
            return


def settle_cells(table: Table, column: Column, is_given: bool, settings: Settings, hints: List[str]) -> None:
    if table.from_text and column.kind != "TEXT" and column.scale is None:
        found = canonical_numbers(column.cells)
        if found is not None:
            column.kind = "INT"
            column.cells, column.spelled = found
    if column.kind is None and table.from_text:
        column.kind = "TEXT"
        hint_of_text(table, column, hints)
    elif column.kind is None:
        column.kind = kind_of_values(table, column)
    if column.form.unit:
        hint_of_unit(table, column, hints)
    fill_column(table, column, is_given, settings)
    if not table.from_text and column.kind == "TEXT" and column.date is None and not is_given:
        hint_of_text(table, column, hints)
    hints += odd_texts(table, column)
    hint = hint_of_shapes(table, column)
    hints += [hint] if hint else []
    if column.scale is not None and sum(map(abs, filter(None, column.cells))) > MAX_INT:
        hints.append(Remark(f"{table.full_name(column)}: the sum of its rows may leave 64 bits at --scale "
                            f"{column.scale}, and SUM is NULL there"))


def hint_of_unit(table: Table, column: Column, hints: List[str]) -> None:
    """Says that some cells haven't the unit of --unit. A number of a database has none in its cell."""
    unit = column.form.unit
    cells = [cell for cell in column.cells if isinstance(cell, str) or table.from_text and cell is not None]
    missing = sum(unit not in str(cell) for cell in cells)
    if missing:
        hints.append(f"{table.full_name(column)}: {missing} of {len(cells)} cells have no {unit}, and "
                     f"are read "
                     "as if they had it")


def check_key(table: Table) -> None:
    keys = [column.cells for name in table.key for column in table.columns if column.name == name]
    if not keys or len(set(keys[0] if len(keys) == 1 else zip(*keys))) == table.count:
        return
    seen: Dict[Tuple[Cell, ...], int] = {}
    for row, key in enumerate(zip(*keys)):
        if key in seen:
            values = ", ".join(shown(value) for value in key)
            raise Refused(f"{table.row_name(row)}: the key ({', '.join(table.key)}) is ({values}), "
                          f"as in {table.row_name(seen[key])}")
        seen[key] = row


def keep_columns(table_name: str, columns: Sequence[Column], settings: Settings) -> List[Column]:
    """The columns that --leave-out keeps. It names one by its name or by its place."""
    return [column for column in columns
            if not settings.is_left_out(f"{table_name}.{column.name}", f"{table_name}.#{column.place}")]


SPELLERS: Dict[str, Callable[[Cell], str]] = {"INT": str, "TEXT": spelled_text}


def rows_json(columns: Sequence[Column]) -> Rows:
    """The rows of a settled table as JSON."""
    spelled: List[Sequence[str]] = []
    for column in columns:
        if column.spelled is not None:
            spelled.append(column.spelled)
            continue
        spell = SPELLERS[column.kind or "TEXT"]
        has_null = None in column.cells
        spelled.append(["null" if cell is None else spell(cell) for cell in column.cells] if has_null
                       else list(map(spell, column.cells)))
    return row_lines(map(",".join, zip(*spelled)), len(columns[0].cells))
