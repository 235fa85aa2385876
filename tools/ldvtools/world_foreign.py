"""Foreign keys of a world's tables: those of databases, and those that --foreign gives.

One of a database that a world can't have is noted, with the reason. Each row has to have its parents.
"""
from __future__ import annotations

from typing import List, Sequence, Tuple

from .errors import Refused, Unfit
from .language import MAX_FOREIGN
from .world_cells import shown
from .world_columns import Column, Foreign, Reference, Table
from .world_settings import Settings, fold


def settle_foreign(tables: Sequence[Table], settings: Settings, notes: List[str]) -> None:
    """Gives settled tables their foreign keys."""
    for table in tables:
        is_told = settings.take("--foreign", table.name) == "none"
        for reference in [] if is_told else table.references:
            try:
                table.foreign.append(of_database(table, reference, tables))
            except Unfit as why:
                notes.append(f"{named(table, reference)} isn't carried: {why}")
                continue
            check_rows(table, table.foreign[-1], tables,
                       f"; --foreign {table.name}=none takes no foreign key of it from the database")
            if reference.actions:
                notes.append(f"{named(table, reference)}: {reference.actions} isn't carried: a change that "
                             "leaves a row without its parent is refused with code 9 here")
        for columns, parent in settings.foreign_of(table.name):
            try:
                table.foreign.append(given(table, columns, parent, tables))
            except Unfit as why:
                raise Refused(f"--foreign {table.name}.{','.join(columns)}={parent}: {why}") from None
            check_rows(table, table.foreign[-1], tables)
        if len(table.foreign) > MAX_FOREIGN:
            raise Refused(f"{table.name} has {len(table.foreign)} foreign keys; the limit is {MAX_FOREIGN}")


def named(table: Table, reference: Reference) -> str:
    columns = ", ".join(own for own, _ in reference.pairs)
    return f"{table.name}: the foreign key ({columns}) to {reference.parent}"


def of_database(table: Table, reference: Reference, tables: Sequence[Table]) -> Foreign:
    parents = [each for each in tables
               if not each.from_text and each.path == table.path and fold(each.old) == fold(reference.parent)]
    if not parents:
        raise Unfit(f"{reference.parent} is no table of this world")
    pairs = [(column_read_as(table, own), column_read_as(parents[0], other))
             for own, other in reference.pairs]
    return fitting_key(table, pairs, parents[0])


def column_read_as(table: Table, old: str) -> Column:
    for column in table.columns:
        if fold(column.old) == fold(old):
            return column
    raise Unfit(f"{table.name} has no column {old} here" if old
                else f"it doesn't fit the key of {table.name}")


def given(table: Table, names: Sequence[str], parent_name: str, tables: Sequence[Table]) -> Foreign:
    parents = [each for each in tables if each.name == parent_name]
    if not parents:
        raise Unfit(f"there is no table {parent_name}; there are {', '.join(each.name for each in tables)}")
    columns = [column_named(table, name) for name in names]
    key = [column_named(parents[0], name) for name in parents[0].key]
    if len(key) != len(columns):
        raise Unfit(f"the key of {parent_name} is ({', '.join(parents[0].key)})")
    return fitting_key(table, list(zip(columns, key)), parents[0])


def column_named(table: Table, name: str) -> Column:
    for column in table.columns:
        if column.name == name:
            return column
    there = ", ".join(column.name for column in table.columns)
    raise Unfit(f"{table.name} has no column {name}; there are {there}")


def fitting_key(table: Table, pairs: Sequence[Tuple[Column, Column]], parent: Table) -> Foreign:
    """The foreign key of a world: its columns stand as those of the parent's key do."""
    names = [other.name for _, other in pairs]
    if sorted(names) != sorted(parent.key):
        raise Unfit(f"it refers to ({', '.join(names)}), and the key of {parent.name} is "
                    f"({', '.join(parent.key)})" if parent.key else f"{parent.name} has no key")
    if len({own.name for own, _ in pairs}) < len(pairs):
        raise Unfit("it has a column twice")
    for own, other in pairs:
        if own.kind != other.kind:
            number = table.full_name(own) if own.kind == "INT" else parent.full_name(other)
            raise Unfit(f"{table.full_name(own)} is {own.kind}, and {parent.full_name(other)} is "
                        f"{other.kind}; --kind {number}=TEXT gives both one kind")
        if (own.scale or 0) != (other.scale or 0):
            most = max(own.scale or 0, other.scale or 0)
            fewer = parent.full_name(other) if own.scale == most else table.full_name(own)
            raise Unfit(f"{table.full_name(own)} and {parent.full_name(other)} have different decimals; "
                        f"--scale {fewer}={most} gives both the same")
    columns = [own.name for name in parent.key for own, other in pairs if other.name == name]
    return Foreign(columns, parent.name)


def check_rows(table: Table, foreign: Foreign, tables: Sequence[Table], advice: str = "") -> None:
    """Refuses a row that has no parent."""
    parent = next(each for each in tables if each.name == foreign.parent)
    keys = set(zip(*(column_named(parent, name).cells for name in parent.key)))
    references = zip(*(column_named(table, name).cells for name in foreign.columns))
    for row, reference in enumerate(references):
        if reference not in keys and None not in reference:
            values = ", ".join(map(shown, reference))
            raise Refused(f"{table.row_name(row)}: ({', '.join(foreign.columns)}) is ({values}), and no row "
                          f"of {parent.name} has this key{advice}")
