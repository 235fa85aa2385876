"""Tables with the names of their columns, as they were read, and as data frames of pandas."""
from __future__ import annotations

import importlib
from decimal import Decimal
from typing import Any, Dict, Iterator, List, Sequence, Tuple, Union

from ..columns import UNKNOWN, Columns
from ..package_tables import tables_as_read
from ..packages import PackedTable
from ..values import Row, Scaled, Value
from .exceptions import PandasMissingError
from .markup import MANY_ROWS, table_html

Cell = Union[None, int, str, Decimal]


def cell_of(value: Value) -> Cell:
    """A value as Python has it: a number that is carried as a whole number of tenths and so on is a
    Decimal."""
    return Decimal(int(value)).scaleb(-value.scale) if isinstance(value, Scaled) else value


def pandas_module() -> Any:
    """pandas, which is asked for only here."""
    try:
        return importlib.import_module("pandas")
    except ImportError:
        raise PandasMissingError("pandas isn't installed, and data frames are of pandas; without it, tables "
                                 "have their columns and rows") from None


class Table:
    """A table, or the rows of a reply.

    `name` is what it is called, `columns` has the names of its columns, and `rows` its rows as tuples of
    None, int, str and Decimal. `kinds` has INT or TEXT of each column where that is known, else the empty
    text. `statement` is the statement that was asked, of a reply whose statement is known.
    """

    def __init__(self, name: str, columns: Sequence[str], rows: Sequence[Row], kinds: Sequence[str] = (),
                 statement: str = "") -> None:
        self.name, self.columns, self.statement = name, list(columns), statement
        self.rows: List[Tuple[Cell, ...]] = [tuple(map(cell_of, row)) for row in rows]
        self.kinds = list(kinds) or [""] * len(self.columns)

    def __len__(self) -> int:
        return len(self.rows)

    def __iter__(self) -> Iterator[Tuple[Cell, ...]]:
        return iter(self.rows)

    def column(self, name: str) -> List[Cell]:
        """The cells of a column; KeyError where there is none of this name."""
        if name not in self.columns:
            raise KeyError(f"{self.name} has no column {name}; there are {', '.join(self.columns)}")
        place = self.columns.index(name)
        return [row[place] for row in self.rows]

    def to_dataframe(self) -> Any:
        """The table as a data frame of pandas: Int64 for whole numbers, float64 for decimals, and object for
        texts; NULL is NA, NaN or None there."""
        pandas = pandas_module()
        cells = list(zip(*self.rows)) or [()] * len(self.columns)
        series = [pandas.Series(*series_of(column, kind)) for column, kind in zip(cells, self.kinds)]
        frame = pandas.concat(series, axis=1) if series else pandas.DataFrame(index=range(len(self.rows)))
        frame.columns = self.columns
        return frame

    def __repr__(self) -> str:
        rows = "1 row" if len(self) == 1 else f"{len(self)} rows"
        return f"<Table {self.name}: {rows} of {', '.join(self.columns)}>"

    def _repr_html_(self) -> str:
        return table_html(self.columns, self.rows, self.name, self.statement)


def series_of(cells: Sequence[Cell], kind: str) -> Tuple[List[Any], None, str]:
    """The values, the index and the type of a series."""
    types = {type(cell) for cell in cells if cell is not None}
    if Decimal in types:
        return [None if cell is None else float(cell) for cell in cells], None, "float64"
    if types == {int} or not types and kind.startswith("INT"):
        return list(cells), None, "Int64"
    return list(cells), None, "object"


def tables_html(packed: Sequence[PackedTable], columns: Columns) -> List[str]:
    """Tables as HTML, of which only the rows that are shown are looked at."""
    found = []
    for table in packed:
        begin = tables_of([table._replace(rows=table.rows[:MANY_ROWS])], columns, False)[table.name]
        found.append(table_html(begin.columns, begin.rows, table.name, count=len(table.rows)))
    return found


def tables_of(packed: Sequence[PackedTable], columns: Columns, raw: bool) -> Dict[str, Table]:
    """Tables by their names, with their cells as they were read, or with `raw` as they are carried."""
    shown = tables_as_read(packed, UNKNOWN if raw else columns)
    return {before.name: Table(before.name, before.names(), [row.values for row in table.rows],
                               [kind for _, kind in before.columns])
            for before, table in zip(packed, shown)}
