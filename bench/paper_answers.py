"""Compares what `ldv` answered with what sqlite3 did, and looks at packages.

An answer is given ten times, and nothing changes between them. So each of ldv's ten replies has to be the
same bytes, and each of sqlite3's, and one is compared with the other, row by row. SQL says nothing of the
order of rows, so that both are sorted before."""
from __future__ import annotations

import lzma
import re
from typing import Dict, List, NamedTuple, Optional, Tuple

from paper_queries import ASKS, MARK

PIECE = 1 << 20


class Wrong(Exception):
    """What isn't as it has to be."""


class Answers(NamedTuple):
    """The rows of an answer, as lines of values with `|` between, and how many rows were changed."""

    rows: List[bytes]
    changed: int


# ---- outcomes

def line_at(data: bytes, place: int) -> Tuple[bytes, int]:
    end = data.index(b'\n', place)
    return data[place:end], end + 1


def value_at(data: bytes, place: int) -> Tuple[bytes, int]:
    """A value as sqlite3 shows it, and where the next one begins."""
    line, place = line_at(data, place)
    if line == b'null':
        return b'NULL', place
    kind, _, number = line.partition(b' ')
    if kind == b'int':
        return number, place
    end = place + int(number)
    if kind != b'text' or data[end:end + 1] != b'\n':
        raise Wrong(f'{line[:40]!r} is no value')
    return data[place:end], end + 1


def row_at(data: bytes, place: int) -> Tuple[bytes, int]:
    line, place = line_at(data, place)
    values = []
    for _ in range(int(line.partition(b'row ')[2])):
        value, place = value_at(data, place)
        values.append(value)
    return b'|'.join(values), place


def replies_at(data: bytes) -> int:
    """Where the replies of the one process begin. It has to have ended well."""
    found = re.match(rb'outcome 1 0\nprocess 0 0 (\d+) \d+\n', data)
    if found is None:
        raise Wrong(f'the outcome begins with {data[:40]!r}')
    return found.end() + int(found[1]) + 1


def answers_of_outcome(path: str) -> Answers:
    with open(path, 'rb') as file:
        data = file.read()
    place, changed, first, times = replies_at(data), 0, b'', 0
    rows: List[bytes] = []
    while place < len(data):
        start = place
        line, place = line_at(data, place)
        kind, _, number = line.partition(b' ')
        if kind == b'changed':
            changed += int(number)
        elif kind == b'rows' and times and data.startswith(first, start):
            place, times = start + len(first), times + 1
        elif kind == b'rows' and not times:
            for _ in range(int(number)):
                row, place = row_at(data, place)
                rows.append(row)
            first, times = data[start:place], 1
        else:
            raise Wrong('the replies to a query differ' if kind == b'rows' else f'ldv says {line[:40]!r}')
    if times != ASKS:
        raise Wrong(f'ldv gave {times} answers')
    return Answers(sorted(rows), changed)


# ---- what sqlite3 writes

def answers_of_sqlite(path: str) -> Answers:
    with open(path, 'rb') as file:
        before, *parts = file.read().split(f'{MARK}\n'.encode())
    if before or len(parts) != ASKS + 1:
        raise Wrong(f'sqlite3 gave {len(parts) - 1} answers after {before[:40]!r}')
    if any(part != parts[0] for part in parts[:-1]):
        raise Wrong('the answers of sqlite3 differ')
    return Answers(sorted(parts[0].splitlines()), int(parts[-1]))


def difference(outcome: str, found: str) -> Optional[str]:
    """What ldv and sqlite3 say otherwise, or None."""
    try:
        one, other = answers_of_outcome(outcome), answers_of_sqlite(found)
    except Wrong as wrong:
        return str(wrong)
    if one.changed != other.changed:
        return f'ldv changed {one.changed} rows, sqlite3 {other.changed}'
    if len(one.rows) != len(other.rows):
        return f'ldv finds {len(one.rows)} rows, sqlite3 {len(other.rows)}'
    for ours, theirs in zip(one.rows, other.rows):
        if ours != theirs:
            return f'ldv finds the row {ours.decode()!r}, sqlite3 {theirs.decode()!r}'
    return None


# ---- packages

def rows_by_table(path: str) -> Dict[str, int]:
    """How many rows of each table `inspect rows` names."""
    counts: Dict[str, int] = {}
    with open(path, encoding='ascii') as file:
        for line in file:
            table = line.partition(' ')[0]
            counts[table] = counts.get(table, 0) + 1
    return counts


def size_by_xz(path: str) -> int:
    """How long a file is by xz."""
    packer, size = lzma.LZMACompressor(), 0
    with open(path, 'rb') as file:
        for piece in iter(lambda: file.read(PIECE), b''):
            size += len(packer.compress(piece))
    return size + len(packer.flush())
