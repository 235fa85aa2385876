"""What capturing a Python program costs.

`statements` asks an SQLite database for INSERTs of a row, SELECTs by a key and UPDATEs by one, in the shares
4, 4 and 2, by itself and under the recorder, in turn; the size is their number. `rows` takes an answer of so
many rows: the program by itself, `capture.py` of it, `record` of the world, and `playback.py` of the package.
The memory is the most that a process of it had. All have to print the same.
"""
from __future__ import annotations

import contextlib
import os
import sqlite3
import sys
import tempfile
from functools import partial
from typing import Dict, Iterator, List

import harness
from harness import Took
from results import LDV, Line, line_of
from setting import Job, Setting

TOOLS = os.path.join(harness.ROOT, 'tools')
INSIDE = os.path.join(TOOLS, 'ldvtools', 'inside')

SMALL = """
import sqlite3
con = sqlite3.connect({path!r})
con.execute("DELETE FROM t")
for number in range({part} * 4):
    con.execute("INSERT INTO t VALUES (?, ?, ?)", (number, f"name{{number}}", number * 2))
con.commit()
for number in range({part} * 4):
    con.execute("SELECT a, b FROM t WHERE id = ?", (number,)).fetchone()
for number in range({part} * 2):
    con.execute("UPDATE t SET b = b + 1 WHERE id = ?", (number,))
con.commit()
"""
ROWS = """
import sqlite3
con = sqlite3.connect({path!r})
print(sum(b for _, _, b in con.execute("SELECT id, a, b FROM t")))
"""
TABLE = 'CREATE TABLE t (id INTEGER PRIMARY KEY, a TEXT, b INT)'


def make_database(path: str, rows: int) -> None:
    with contextlib.closing(sqlite3.connect(path)) as base:
        base.execute('DROP TABLE IF EXISTS t')
        base.execute(TABLE)
        base.executemany('INSERT INTO t VALUES (?, ?, ?)', ((n, f'n{n % 1000}', n % 7) for n in range(rows)))
        base.commit()


# ---- statements

def recorded(words: List[str], folder: str, sizes: List[int]) -> Took:
    """A run under the recorder, whose log goes into a new folder; the bytes of the log are noted."""
    with tempfile.TemporaryDirectory(dir=folder) as log:
        # capture.py starts a program with these variables, and goes on after its end.
        path = os.pathsep.join([INSIDE, *filter(None, [os.environ.get('PYTHONPATH')])])
        given = [f'PYTHONPATH={path}', 'LDV_INSIDE=record', f'LDV_FOLDER={log}']
        took = harness.measure_well(['env', *given, *words], os.devnull, os.devnull)
        sizes.append(sum(os.path.getsize(os.path.join(log, name)) for name in os.listdir(log)))
    return took


def lines_of_statements(setting: Setting, count: int) -> Iterator[Line]:
    path = setting.path('statements.db')
    harness.apart(make_database, path, 0)
    words = [sys.executable, '-c', SMALL.format(path=path, part=count // 10)]
    sizes: List[int] = []
    jobs: Dict[str, Job] = {'by itself': setting.job(words, os.devnull, os.devnull),
                            'recorded': partial(recorded, words, setting.folder, sizes)}
    taken = setting.turns(jobs)
    plain = taken['by itself']
    for name, each in taken.items():
        more: Dict[str, float] = {}
        if name == 'recorded':
            added = harness.least(each) - harness.least(plain)
            more = {'of_itself': harness.ratio(harness.least(each), harness.least(plain)),
                    'us/statement': added * 1e6 / count, 'bytes': sizes[-1]}
        yield line_of('capture', 'statements', count, name, each, **more)


# ---- rows

def jobs_of_rows(setting: Setting, program: str) -> Dict[str, Job]:
    path, script = setting.path('rows.db'), setting.path('program.py')
    world, package = setting.path('bench.json'), setting.path('bench.package')
    own, python = setting.programs[LDV], sys.executable
    capture = [python, os.path.join(TOOLS, 'capture.py'), '-q', '--ldv', own, '--sqlite', path, '-o', world,
               '--', python, script]
    playback = [python, os.path.join(TOOLS, 'playback.py'), '--ldv', own, package, '--', python, script]
    return {program: setting.job([python, script], os.devnull, setting.path(program)),
            'capture.py': setting.job(capture, os.devnull, setting.path('capture.py')),
            'ldv record': setting.job([own, 'record'], world, package),
            'playback.py': setting.job(playback, os.devnull, setting.path('playback.py'))}


def lines_of_rows(setting: Setting, count: int) -> Iterator[Line]:
    path, program = setting.path('rows.db'), 'the program'
    harness.apart(make_database, path, count)
    with open(setting.path('program.py'), 'w', encoding='ascii') as file:
        file.write(ROWS.format(path=path))
    # Each reads what the one before it wrote, so that the first turn has to be in this order.
    jobs = jobs_of_rows(setting, program)
    for job in jobs.values():
        job()
    taken = setting.turns(jobs)
    for name in ('capture.py', 'playback.py'):
        harness.check_same(setting.path(program), setting.path(name), f'capture {count}')
    size = os.path.getsize(setting.path('bench.package'))
    for name, each in taken.items():
        yield line_of('capture rows', 'rows', count, name, each, **{
            'of_itself': harness.ratio(harness.least(each), harness.least(taken[program])), 'bytes': size})


def measured_statements(setting: Setting) -> Iterator[Line]:
    for count in setting.sizes:
        yield from lines_of_statements(setting, count)


def measured_rows(setting: Setting) -> Iterator[Line]:
    for count in setting.sizes:
        yield from lines_of_rows(setting, count)
