"""One SELECT over a table, beside the same by the program `sqlite3`, where that is installed.

Three conditions: an equality that picks one row of a hundred, one that picks all, and five tests that pick
one of a hundred again. What `ldv` reads is the whole world as JSON, which it also checks for two rows of one
key. `sqlite3` is asked alone, over a database in a file, and with the import of the rows from CSV.
"""
from __future__ import annotations

import json
import os
import shutil
from typing import Dict, Iterator

import harness
from results import AGAINST, LDV, Line, line_of
from setting import Job, Setting

COLUMNS = [['id', 'INT NOT NULL'], ['part', 'INT'], ['one', 'INT'], ['name', 'TEXT']]
CREATE = 'CREATE TABLE t (id INTEGER NOT NULL PRIMARY KEY, part INTEGER, one INTEGER, name TEXT)'
CONDITIONS = {
    'one of a hundred': 'part = 7',
    'all': 'one = 1',
    # True where part is 7.
    'five tests': "NOT (part * 2 - one > 14 OR name IS NULL) AND part + one >= 8"
                  " AND (id <> 5 OR name < 'o')",
}
SELECT, IMPORT = 'sqlite3, SELECT alone', 'sqlite3, with import'


def make_rows(path: str, size: int) -> None:
    """A file of CSV: each row has an id, a number below 100, the number 1 and a text."""
    with open(path, 'w', encoding='utf-8') as out:
        out.writelines(f'{n},{n % 100},1,name {n}\n' for n in range(size))


def make_world(path: str, condition: str, size: int) -> None:
    script = f'sql q "SELECT * FROM t WHERE {condition}"\n'
    with open(path, 'w', encoding='utf-8') as out:
        out.write(f'{{"start":["main"],"files":{{"main":{json.dumps(script)}}},"tables":{{"t":{{"columns":')
        out.write(f'{json.dumps(COLUMNS)},"key":["id"],"rows":[')
        out.writelines(f'{"," if n else ""}[{n},{n % 100},1,"name {n}"]' for n in range(size))
        out.write(']}}}\n')


def make_database(setting: Setting) -> None:
    if os.path.exists(setting.path('db')):
        os.remove(setting.path('db'))
    words = ['sqlite3', '-csv', setting.path('db'), CREATE, f'.import {setting.path("rows.csv")} t']
    harness.measure_well(words, os.devnull, os.devnull)


def jobs_of_sqlite(setting: Setting, condition: str) -> Dict[str, Job]:
    # The commands are given as words; the rows are read from the file that .import names.
    select = f'SELECT * FROM t WHERE {condition}'
    alone = ['sqlite3', '-csv', setting.path('db'), select]
    imported = ['sqlite3', '-csv', ':memory:', CREATE, f'.import {setting.path("rows.csv")} t', select]
    return {SELECT: setting.job(alone, os.devnull, setting.path('found')),
            IMPORT: setting.job(imported, os.devnull, setting.path('found'))}


def count_lines(path: str, line: bytes = b'') -> int:
    """How many lines a file has, or how many that are this one."""
    with open(path, 'rb') as file:
        return sum(not line or each == line for each in file)


def lines_of(setting: Setting, name: str, size: int, beside: bool) -> Iterator[Line]:
    condition = CONDITIONS[name]
    harness.apart(make_world, setting.path('world'), condition, size)
    taken = setting.measured(['run'], 'world', 'outcome', same=True,
                             beside=jobs_of_sqlite(setting, condition) if beside else {})
    picked = harness.apart(count_lines, setting.own(LDV, 'outcome'), b'row 4\n')
    if beside and harness.apart(count_lines, setting.path('found')) != picked:
        harness.failed(f'first: {name} {size}: ldv and sqlite3 find other rows')
    least = {program: harness.least(each) for program, each in taken.items()}
    for program, each in taken.items():
        source = 'world' if program in (LDV, AGAINST) else 'rows.csv'
        size_in = os.path.getsize(setting.path(source))
        seconds = max(least[program], 0.001)
        more: Dict[str, float] = {'picked': picked, 'rows/s': size / seconds, 'bytes/s': size_in / seconds}
        if beside and program in (LDV, AGAINST):
            more['of_select'] = harness.ratio(least[program], least[SELECT])
            more['of_import'] = harness.ratio(least[program], least[IMPORT])
        yield line_of('first', name, size, program, each, **more)


def measured(setting: Setting) -> Iterator[Line]:
    beside = shutil.which('sqlite3') is not None
    if not beside:
        print("first: sqlite3 isn't installed, so nothing stands beside ldv")
    for size in setting.sizes:
        harness.apart(make_rows, setting.path('rows.csv'), size)
        if beside:
            make_database(setting)
        for name in CONDITIONS:
            if setting.wants(name):
                yield from lines_of(setting, name, size, beside)
