"""`gen N`, which makes, records and replays a world, beside the same by the program `sqlite3` in memory.

sqlite3 makes the rows by SQL, or imports them from CSV; then it asks the same script. The two have to find
the same. `of_made` and `of_imported` are multiples of what sqlite3 takes.
"""
from __future__ import annotations

import re
import shutil
from typing import Dict, Iterator, List

import harness
from results import Line, line_of
from setting import Job, Setting

TABLES = """CREATE TABLE customers (id INTEGER NOT NULL PRIMARY KEY, name TEXT NOT NULL);
CREATE TABLE orders (id INTEGER NOT NULL PRIMARY KEY, customer INTEGER NOT NULL, amount INTEGER NOT NULL);
"""
MADE = """BEGIN;
WITH RECURSIVE n (i) AS (VALUES (0) UNION ALL SELECT i + 1 FROM n WHERE i < 9)
INSERT INTO customers SELECT i, 'c' || i FROM n;
WITH RECURSIVE n (i) AS (VALUES (0) UNION ALL SELECT i + 1 FROM n WHERE i < {last})
INSERT INTO orders SELECT i, i % 10, 7 * i % 100 FROM n;
COMMIT;
"""
# The lines of the report, and then how many orders were deleted and how many are counted.
SCRIPT = """SELECT c.name, SUM(o.amount) FROM orders o JOIN customers c ON o.customer = c.id
WHERE o.amount < 50 GROUP BY c.name;
DELETE FROM orders WHERE amount >= 90;
SELECT changes();
SELECT COUNT(*) FROM orders WHERE amount < 50;
"""
HOWS = ('made', 'imported')


def make_sql(setting: Setting, number: int) -> None:
    """The files of SQL, and those of CSV that one of them imports."""
    orders, customers = setting.path('orders.csv'), setting.path('customers.csv')
    with open(orders, 'w', encoding='ascii') as out:
        out.writelines(f'{i},{i % 10},{7 * i % 100}\n' for i in range(number))
    with open(customers, 'w', encoding='ascii') as out:
        out.writelines(f'{i},c{i}\n' for i in range(10))
    rows = {'made': MADE.replace('{last}', str(number - 1)),
            'imported': f'.import {customers} customers\n.import {orders} orders\n'}
    for how, text in rows.items():
        with open(setting.path(f'{how}.sql'), 'w', encoding='utf-8') as out:
            out.write(TABLES + text + SCRIPT)


def length_of(lines: List[str]) -> int:
    """The length of the outcome that has what sqlite3 found."""
    report = replies = ''
    last: List[str] = []
    rows = 0
    for line in lines:
        name, comma, total = line.partition(',')
        if comma:
            report += f'{name} {total}\n'
            replies += f'row 2\ntext {len(name)}\n{name}\nint {total}\n'
            rows += 1
        else:
            last.append(name)
    printed = f'{last[1]}\n'
    return len(f'outcome 1 1\nprocess 0 0 {len(printed)} 3\n{printed}\nrows {rows}\n{replies}'
               f'changed {last[0]}\nrows 1\nrow 1\nint {last[1]}\n'
               f'file 10 {len(report)}\nreport.txt\n{report}\n')


def check_found(setting: Setting, program: str, number: int) -> None:
    with open(setting.own(program, 'summary'), encoding='utf-8') as file:
        replay = re.search(r'^replay (\d+)$', file.read(), re.M)
    for how in HOWS:
        with open(setting.path(f'found {how}'), encoding='utf-8') as file:
            length = length_of(file.read().split())
        if replay is None or int(replay[1]) != length:
            harness.failed(f'gen {number}: {program} and sqlite3 with rows {how} find other things')


def measured(setting: Setting) -> Iterator[Line]:
    beside = shutil.which('sqlite3') is not None
    if not beside:
        print("gen: sqlite3 isn't installed, so nothing stands beside ldv")
    with open(setting.path('empty'), 'w', encoding='ascii'):
        pass
    for number in setting.sizes:
        jobs: Dict[str, Job] = {}
        if beside:
            make_sql(setting, number)
            jobs = {f'sqlite3, rows {how}': setting.job(['sqlite3', '-csv', ':memory:'],
                                                        setting.path(f'{how}.sql'),
                                                        setting.path(f'found {how}')) for how in HOWS}
        taken = setting.measured(['gen', str(number)], 'empty', 'summary', same=True, beside=jobs)
        for program, each in taken.items():
            more: Dict[str, float] = {}
            if beside and program in setting.programs:
                check_found(setting, program, number)
                more = {f'of_{how}': harness.ratio(harness.least(each),
                                                   harness.least(taken[f'sqlite3, rows {how}']))
                        for how in HOWS}
            yield line_of('gen', 'orders', number, program, each, **more)
