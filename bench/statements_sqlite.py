"""The statements of a case by Python's sqlite3, in memory.

usage: statements_sqlite.py CASE SIZE

It loads the rows in one transaction, which Python makes, and asks the statements, each of which commits
alone. All rows of the answers are taken and none is written. Foreign keys are on. It prints the seconds of a
processor for the load and for what was asked, and what was found.
"""
from __future__ import annotations

import json
import sqlite3
import sys
import time
from typing import List, Optional, Tuple

from statements import (
    CASES,
    FOREIGN,
    TABLES,
    Statement,
    count_of,
    first_parameter,
    is_paired,
    rows_of,
    text_of,
)


def load(database: sqlite3.Connection, tables: str, size: int) -> None:
    database.execute('BEGIN')
    for name in sorted(tables):
        columns = TABLES[name][0]
        kinds = [f'{columns[0]} INTEGER NOT NULL PRIMARY KEY'] + [f'{column} INTEGER'
                                                                  for column in columns[1:]]
        foreign = FOREIGN.get(name, [])
        kinds += [f'FOREIGN KEY ({column}) REFERENCES {parent}' for column, parent in foreign]
        database.execute(f'CREATE TABLE {name} ({", ".join(kinds)})')
        marks = ', '.join('?' * len(columns))
        database.executemany(f'INSERT INTO {name} VALUES ({marks})', rows_of(name, size))
        for column, _ in foreign:
            # sqlite3 makes no index of a child by itself
            database.execute(f'CREATE INDEX {name}_{column} ON {name} ({column})')
    database.execute('COMMIT')


def ask(database: sqlite3.Connection, statement: Statement,
        size: int) -> Tuple[List[Tuple[Optional[int], ...]], int, int]:
    """All rows of a statement that is asked some times, how many it changed, and how often it was refused."""
    text, times = text_of(statement, size), statement.times
    first = first_parameter(statement, size)
    parents = count_of('p', size)
    rows: List[Tuple[Optional[int], ...]] = []
    changed = refused = 0
    for i in range(first + 1, first + times + 1):
        given: Tuple[int, ...] = () if times == 1 else (i,)
        if is_paired(statement):
            given = (i, (i - first - 1) % parents + 1)
        try:
            cursor = database.execute(text, given)
        except sqlite3.IntegrityError:
            refused += 1
            continue
        if cursor.description:
            rows += cursor.fetchall()
        else:
            changed += cursor.rowcount
    return rows, changed, refused


def main(case: str, size: int) -> None:
    tables, statements = CASES[case]
    # Each statement commits alone.
    database = sqlite3.connect(':memory:', isolation_level=None)
    database.execute('PRAGMA foreign_keys = ON')
    start = time.process_time()
    load(database, tables, size)
    loaded = time.process_time()
    answers = [ask(database, statement, size) for statement in statements]
    asked = time.process_time()
    count = sum(len(rows) + changed for rows, changed, _ in answers)
    total = sum(sum(value for value in row if value is not None) for rows, _, _ in answers for row in rows)
    refused = sum(each for _, _, each in answers)
    json.dump([loaded - start, asked - loaded, count, total, refused], sys.stdout)


if __name__ == '__main__':
    main(sys.argv[1], int(sys.argv[2]))
