"""The statements of the run `engine`: tables of numbers with a key, and what is asked of them.

A world has the rows of its tables and a script that asks the statements of a case. `statements_sqlite.py`
asks the same of sqlite3, over the same rows.
"""
from __future__ import annotations

import json
from typing import Callable, Dict, Iterator, List, NamedTuple, Optional, Sequence, TextIO, Tuple

# The budget: a loop over statements with two parameters takes six steps a turn.
STEPS = '10000000'
POINTS = 100000
INSERTS = 300000
CHILDLESS = 100000

Row = Tuple[int, ...]


class Statement(NamedTuple):
    """A statement, how often it is asked, and the parameter before its first one."""

    text: str
    times: int
    before: Optional[int]
    """Nothing stands for the greatest key of what isn't a parent."""


class Found(NamedTuple):
    """How many rows or changed rows, the sum of all numbers in them, and how many statements were refused."""

    rows: int
    total: int
    refused: int


# ---- tables: name, columns, and the row of a number from 1

def row_of_t(i: int) -> Row:
    return (i, i % 10, i * 7919 % 100003, i % 100000)


def row_of_a(i: int) -> Row:
    return (i, i * 7919 % 1000)


def row_of_b(i: int) -> Row:
    return (i, i * 104729 % 1000)


def row_of_c(i: int) -> Row:
    return (i, i * 1299709 % 1000)


def row_of_parent(i: int) -> Row:
    return (i, i % 10)


def row_of_child(i: int) -> Row:
    return (i, i, i % 10)


def row_of_couple(i: int) -> Row:
    return (i, i, i + 1)


TABLES: Dict[str, Tuple[List[str], Callable[[int], Row]]] = {
    't': (['k', 'g', 'v', 'h'], row_of_t),
    'a': (['id', 'v'], row_of_a),
    'b': (['id', 'w'], row_of_b),
    'c': (['id', 'x'], row_of_c),
    'p': (['id', 'g'], row_of_parent),
    'q': (['id', 'parent', 'g'], row_of_child),
    'r': (['id', 'parent', 'other'], row_of_couple),
}

# How many rows a table has for each child: half of the parents have no child.
RATES = {'p': 2}

# The columns of a child, each with the table to whose key it refers.
FOREIGN = {'q': [('parent', 'p')], 'r': [('parent', 'p'), ('other', 'p')]}


# ---- cases: the tables, and statements with how often each is asked and its parameter

def once(text: str) -> List[Statement]:
    return [Statement(text, 1, None)]


CASES: Dict[str, Tuple[str, List[Statement]]] = {
    # a join of two tables on their keys
    'join2': ('ab', once('SELECT a.id, b.w FROM a JOIN b ON a.id = b.id')),
    # a join of three with a filter on each
    'join3': ('abc', once('SELECT a.id, b.w, c.x FROM a JOIN b ON a.id = b.id JOIN c ON b.id = c.id '
                          'WHERE a.v < 500 AND b.w < 500 AND c.x < 500')),
    'group10': ('t', once('SELECT g, COUNT(*), SUM(v), MIN(v), MAX(v) FROM t GROUP BY g')),
    'group100000': ('t', once('SELECT h, COUNT(*), SUM(v), MIN(v), MAX(v) FROM t GROUP BY h')),
    'distinct': ('t', once('SELECT DISTINCT g, v FROM t')),
    'union': ('t', once('SELECT v FROM t WHERE g < 5 UNION SELECT h FROM t WHERE g > 3')),
    'order': ('t', once('SELECT g, v, k FROM t ORDER BY v DESC, g')),
    # the parameter goes from 1 up to the number of times; keys above the number of rows find nothing
    'points': ('t', [Statement('SELECT v FROM t WHERE k = ?', POINTS, 0)]),
    # new keys, after those that are there
    'inserts': ('t', [Statement('INSERT INTO t VALUES (?, 1, 2, 3)', INSERTS, None)]),
    'update': ('t', once('UPDATE t SET v = v + 1 WHERE g = 3')),
    # each key becomes the one before it. Upwards sqlite3 refuses it, as it tests the keys row by row
    'shift': ('t', once('UPDATE t SET k = k - 1')),
    'delete': ('t', once('DELETE FROM t WHERE g = 3')),
    # new children, of each parent in its turn
    'children': ('pq', [Statement('INSERT INTO q VALUES (?, ?, 1)', INSERTS, None)]),
    # the same where each child refers to two parents
    'couples': ('pr', [Statement('INSERT INTO r VALUES (?, ?, 1)', INSERTS, None)]),
    # parents that have no child, one by one; keys above the last one find nothing
    'childless': ('pq', [Statement('DELETE FROM p WHERE id = ?', CHILDLESS, None)]),
    # a tenth of the parents, of which none has a child, and then each one: that is refused
    'parents': ('pq', once('DELETE FROM p WHERE g = 3 AND id > {size}')),
    'orphans': ('pq', once('DELETE FROM p WHERE g = 3')),
    # a tenth of the children get the next parent
    'adopt': ('pq', once('UPDATE q SET parent = parent + 1 WHERE g = 3')),
}


def count_of(name: str, size: int) -> int:
    return size * RATES.get(name, 1)


def rows_of(name: str, size: int) -> Iterator[Row]:
    row = TABLES[name][1]
    return (row(i) for i in range(1, count_of(name, size) + 1))


def first_parameter(statement: Statement, size: int) -> int:
    """The parameter before the first one: 0, or the greatest key of what isn't a parent."""
    return size if statement.before is None else statement.before


def text_of(statement: Statement, size: int) -> str:
    return statement.text.replace('{size}', str(size))


def is_paired(statement: Statement) -> bool:
    """A second parameter goes round all parents."""
    return statement.text.count('?') == 2


# ---- worlds

def script_of(statements: Sequence[Statement], size: int) -> str:
    lines = []
    for place, statement in enumerate(statements):
        text, times = text_of(statement, size), statement.times
        if times == 1:
            lines.append(f'sql q "{text}"')
            continue
        first = first_parameter(statement, size)
        lines += [f'let i = {first}', 'let j = 0', f'l{place}:', 'let i = i + 1']
        if is_paired(statement):
            lines += ['let j = j + 1', f'if j < {count_of("p", size) + 1} goto m{place}', 'let j = 1',
                      f'm{place}:', f'sql q "{text}" i j']
        else:
            lines.append(f'sql q "{text}" i')
        lines.append(f'if i < {first + times} goto l{place}')
    return ''.join(line + '\n' for line in lines)


def write_table(out: TextIO, name: str, size: int) -> None:
    columns = TABLES[name][0]
    kinds = [[column, 'INT NOT NULL' if place == 0 else 'INT'] for place, column in enumerate(columns)]
    out.write(f'{json.dumps(name)}:{{"columns":{json.dumps(kinds)},"key":["{columns[0]}"],')
    if name in FOREIGN:
        out.write(f'"foreign":{json.dumps([[[column], parent] for column, parent in FOREIGN[name]])},')
    out.write('"rows":[')
    for place, row in enumerate(rows_of(name, size)):
        out.write((',[' if place else '[') + ','.join(map(str, row)) + ']')
    out.write(']}')


def write_world(path: str, script: str, tables: str, size: int) -> None:
    with open(path, 'w', encoding='utf-8') as out:
        out.write(f'{{"start":["main"],"files":{{"main":{json.dumps(script)}}},"tables":{{')
        for place, name in enumerate(sorted(tables)):
            out.write(',' if place else '')
            write_table(out, name, size)
        out.write('}}\n')


# ---- what was found

def found_in(path: str) -> Found:
    """What an outcome has."""
    count = total = refused = 0
    answered = True
    with open(path, 'rb') as lines:
        for line in lines:
            word, _, rest = line.partition(b' ')
            if word == b'int':
                # the values after a refusal are those of its key
                total += int(rest) if answered else 0
            elif word in (b'rows', b'changed'):
                answered = True
                count += int(rest)
            elif word == b'refused':
                answered = False
                refused += 1
    return Found(count, total, refused)
