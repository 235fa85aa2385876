#!/usr/bin/env python3
"""What `ldv run` takes for statements over values that are hard for a map or a sort, as a multiple of what it
takes for values in no order.

    hard.py LDV FOLDER [--size 300000] [--runs 5] [--cases group,distinct,..]

Values are in one of four forms: `usual`, each another one and in no order; `falling`, each less than the
one before; `equal`, all the same; and of texts `last`, of 64 bytes that differ in the last six alone, where
`usual` differs in the first six. A join over equal values isn't asked, as its answer has the square of the
rows.

Seconds are the least of some runs, of a processor, without those of a run of the same tables whose script
only ends. At most twice the usual time is aimed at; the last line says how many lines miss that.
"""
from __future__ import annotations

import argparse
import json
import os
import sys
from typing import Any, Callable, Iterable, Optional, Sequence

from multiples import Tally, least, ratio
from statements import found_in

STEPS = '10000000'
# What values in no order take, times this, is the most that the others may take.
MOST = 2.0
TAIL = 'x' * 58
# How far one value is from the next in `usual`: a prime above any size that is asked.
STRIDE = 7_368_787


def spread(number: int, size: int) -> int:
    return number * STRIDE % size


# By form: the number and the text of a row from 0, of so many rows.
FORMS: dict[str, Callable[[int, int], tuple[int, str]]] = {
    'usual': lambda i, size: (spread(i, size), f'{spread(i, size):06d}{TAIL}'),
    'falling': lambda i, size: (size - i, f'{size - i:06d}{TAIL}'),
    'equal': lambda _i, _size: (7, f'{7:06d}{TAIL}'),
    'last': lambda i, size: (spread(i, size), f'{TAIL}{spread(i, size):06d}'),
}
BY_NUMBER = ('usual', 'falling', 'equal')
BY_TEXT = ('usual', 'falling', 'equal', 'last')

# By case: the statement, with the column in place of `{c}`, and whether all values may be equal.
CASES = {
    'group': ('SELECT {c}, COUNT(*), MIN(k), MAX(k) FROM t GROUP BY {c}', True),
    'distinct': ('SELECT DISTINCT {c} FROM t', True),
    'union': ('SELECT {c} FROM t WHERE k < {half} UNION SELECT {c} FROM t WHERE k >= {half}', True),
    'order': ('SELECT {c}, k FROM t ORDER BY {c}', True),
    'join': ('SELECT a.k FROM t a JOIN t b ON a.{c} = b.{c}', False),
    'update': ('UPDATE t SET {c} = {c}', True),
}
# Rows that are inserted one by one into an empty table, by the form of their keys: the script's first lines,
# the statement's key and the next turn.
INSERTS = {
    'number usual': ('let i = 0', '', 'i', 'let i = i + 1', 'if i < {size} goto next'),
    'number falling': ('let i = {size}', '', 'i', 'let i = i - 1', 'if 0 < i goto next'),
    'text usual': ('let i = 100000', f'let s = i ++ "{TAIL}"', 's', 'let i = i + 1',
                   'if i < {last} goto next'),
    'text falling': ('let i = {last}', f'let s = i ++ "{TAIL}"', 's', 'let i = i - 1',
                     'if 100000 < i goto next'),
    'text last': ('let i = 100000', f'let s = "{TAIL}" ++ i', 's', 'let i = i + 1',
                  'if i < {last} goto next'),
}


# ---- worlds

def write_world(path: str, script: str, columns: list[list[str]], rows: Iterable[Sequence[Any]]) -> None:
    with open(path, 'w', encoding='utf-8') as out:
        out.write(f'{{"start":["main"],"files":{{"main":{json.dumps(script)}}},"tables":{{"t":{{"columns":')
        out.write(json.dumps(columns))
        out.write(f',"key":["{columns[0][0]}"],"rows":[')
        for place, row in enumerate(rows):
            out.write((',' if place else '') + json.dumps(row))
        out.write(']}}}\n')


def write_form(path: str, form: str, size: int, script: str) -> None:
    make = FORMS[form]
    columns = [['k', 'INT NOT NULL'], ['v', 'INT'], ['s', 'TEXT']]
    write_world(path, script, columns, ((i, *make(i, size)) for i in range(size)))


def insert_script(form: str, size: int) -> str:
    first, made, key, after, again = INSERTS[form]
    lines = [first, 'next:', made, f'sql q "INSERT INTO t VALUES (?)" {key}', after, again]
    text = ''.join(line + '\n' for line in lines if line)
    return text.replace('{size}', str(size)).replace('{last}', str(100000 + size))


# ---- what a run takes

def seconds_of(given: argparse.Namespace, world: str) -> float:
    """The least seconds of a processor, of some runs."""
    outcome = os.path.join(given.folder, 'outcome')
    status, seconds, _ = least([given.ldv, 'run', '--steps', STEPS], world, outcome, given.runs)
    if status:
        sys.exit(f'hard: {given.ldv} ended with {status}')
    if found_in(outcome).refused:
        sys.exit('hard: a statement is refused, and so says nothing of its values')
    return seconds


def taken(given: argparse.Namespace, case: str, column: str, form: str) -> float:
    """What a case takes over values of a form, without the load."""
    world = os.path.join(given.folder, 'world')
    write_form(world, form, given.size, 'exit 0\n')
    load = seconds_of(given, world)
    text = CASES[case][0].replace('{c}', column).replace('{half}', str(given.size // 2))
    write_form(world, form, given.size, f'sql q "{text}"\n')
    return max(seconds_of(given, world) - load, 0.0)


def taken_by_inserts(given: argparse.Namespace, kind: str, form: str) -> float:
    world = os.path.join(given.folder, 'world')
    columns = [['k', ('INT' if kind == 'number' else 'TEXT') + ' NOT NULL']]
    write_world(world, insert_script(f'{kind} {form}', given.size), columns, [])
    return seconds_of(given, world)


def show(given: argparse.Namespace, case: str, kind: str, form: str, seconds: float, usual: float) -> None:
    of_usual = ratio(seconds, usual)
    aimed = given.tally.noted(of_usual, MOST)
    print(f'{case:10s} {kind:8s} {form:8s} {given.size:8d} {seconds:9.3f} {of_usual:9.2f} {aimed:>6s}',
          flush=True)


def measure(given: argparse.Namespace, case: str, kind: str, forms: Sequence[str],
            take: Callable[[str, str], float]) -> None:
    usual: Optional[float] = None
    for form in forms:
        seconds = take(kind, form)
        usual = seconds if usual is None else usual
        show(given, case, kind, form, seconds, usual)


def measure_statements(given: argparse.Namespace, case: str) -> None:
    columns = {'number': 'v', 'text': 's'}
    for kind, forms in (('number', BY_NUMBER), ('text', BY_TEXT)):
        fitting = [form for form in forms if form != 'equal' or CASES[case][1]]
        measure(given, case, kind, fitting, lambda kind, form: taken(given, case, columns[kind], form))


def measure_inserts(given: argparse.Namespace) -> None:
    for kind in ('number', 'text'):
        forms = [form.split(' ')[1] for form in INSERTS if form.startswith(kind)]
        measure(given, 'insert', kind, forms, lambda kind, form: taken_by_inserts(given, kind, form))


def arguments() -> argparse.Namespace:
    parser = argparse.ArgumentParser(description=__doc__,
                                     formatter_class=argparse.RawDescriptionHelpFormatter)
    parser.add_argument('ldv')
    parser.add_argument('folder')
    parser.add_argument('--size', type=int, default=300000)
    parser.add_argument('--runs', type=int, default=5)
    parser.add_argument('--cases', default=','.join([*CASES, 'insert']))
    return parser.parse_args()


def main() -> None:
    given = arguments()
    given.tally = Tally()
    print(f'{"case":10s} {"values":8s} {"form":8s} {"rows":>8s} {"seconds":>9s} {"of-usual":>9s} {"aim":>6s}')
    for case in given.cases.split(','):
        if case == 'insert':
            measure_inserts(given)
        else:
            measure_statements(given, case)
    print(given.tally.last_line())


if __name__ == '__main__':
    main()
