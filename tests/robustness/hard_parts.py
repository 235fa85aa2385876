"""What hard inputs are made of: pairs, documents, tables and scripts."""
from __future__ import annotations

import json
from typing import Any, Callable, NamedTuple, Optional, Sequence, Union

INT = 'INT NOT NULL'
# The most bytes of a text and of a file.
TEXT, FILE = 65_536, 16_777_216


# A hard and a usual input.
Texts = tuple[str, ...]
Packed = tuple[bytes, ...]
# A table of a world, and all of its tables.
Table = dict[str, Any]
Tables = dict[str, Table]
# The columns of a foreign key and the table to whose key they refer, each.
Foreign = Sequence[tuple[list[str], str]]


class Pair(NamedTuple):
    """A hard and a usual input of one command, of about as many bytes, steps, rows or combinations."""

    make: Callable[[int], Union[Texts, Packed]]
    """Gives both, as texts or as bytes, of a number of rows, turns or lines."""
    size: int
    """That number."""
    differ: str
    """What they differ in, or what the hard one has more of."""
    words: tuple[str, ...] = ('run',)
    """The command that reads them."""
    statuses: tuple[int, int] = (0, 0)
    """What it ends with for both."""


def world(files: dict[str, Any], tables: Optional[Tables] = None, start: Sequence[str] = ('main',)) -> str:
    return json.dumps({'start': list(start), 'files': files, 'tables': tables or {}}, separators=(',', ':'))


def main_only(script: str, tables: Optional[Tables] = None) -> str:
    return world({'main': script}, tables)


def table(columns: list[list[str]], key: list[str], rows: list[list[Any]], foreign: Foreign = ()) -> Table:
    made: Table = {'columns': columns, 'key': key, 'rows': rows}
    if foreign:
        made['foreign'] = [[columns_of, parent] for columns_of, parent in foreign]
    return made


def numbers(size: int) -> Tables:
    """One table of so many keys."""
    return {'t': table([['k', INT]], ['k'], [[i] for i in range(size)])}


def loop(turns: object, body: str, before: str = '') -> str:
    return f'let i = 0\n{before}next:\n{body}let i = i + 1\nif i < {turns} goto next\n'


def asked(text: str, turns: int = 1) -> str:
    return f'sql q "{text}"\n' if turns == 1 else loop(turns, f'sql q "{text}"\n')


def balanced(parts: list[str], operator: str) -> str:
    """An expression of many parts, no deeper than need be: it may have 64 levels."""
    while len(parts) > 1:
        tied = [f'({one} {operator} {other})' for one, other in zip(parts[::2], parts[1::2])]
        parts = tied + parts[len(parts) // 2 * 2:]
    return parts[0]
