"""What `tools/world.py` takes for a CSV file.

`plain` has a key, a word, a date from the year down and a decimal; `excel` has dates with the day first,
clock times with one digit and prices with a unit, and all are carried; in `guessed` the same file is read
without a word about it, so that each column is looked at for what it may be.
"""
from __future__ import annotations

import os
import sys
from typing import Callable, Dict, Iterator, List, Tuple

import harness
from results import Line, line_of
from setting import Setting

TOOL = os.path.join(harness.ROOT, 'tools', 'world.py')
STATIONS = ('Bergen', 'Bod\u00f8', 'Geilo', 'Narvik', 'Oslo', 'R\u00f8ros', 'Troms\u00f8', 'Vard\u00f8')


def plain_lines(count: int) -> Iterator[str]:
    yield 'id,station,day,celsius\n'
    for n in range(count):
        day = f'{1900 + n // 2880 % 120}-{n // 240 % 12 + 1:02}-{n // 8 % 28 + 1:02}'
        yield f'{n},{STATIONS[n % 8]},{day},{(n * 7919 % 601 - 300) / 10}\n'


def excel_lines(count: int) -> Iterator[str]:
    yield 'Nr;Datum;Zeit;Preis;Text\n'
    for n in range(count):
        day = f'{n % 28 + 1}.{n // 28 % 12 + 1}.{2004 + n % 20}'
        price = f'{n % 900 + 1}.{n * 7919 % 900 + 100},{n % 100:02} \u20ac'
        yield f'{n};{day};{n % 24}:{n % 60:02};{price};t{n % 5000}\n'


CARRIED = ['--date', 'rows.datum=dmy', '--date', 'rows.zeit=time', '--unit', 'rows.preis=\u20ac',
           '--thousands', 'rows.preis=.', '--scale', 'rows.preis=2']
ASK = ['--ask', 'SELECT nr FROM rows']
# The lines of a file, and the words of the tool.
FORMS: Dict[str, Tuple[Callable[[int], Iterator[str]], List[str]]] = {
    'plain': (plain_lines, ['--key', 'rows=id', '--scale', 'rows.celsius=1', '--ask',
                            'SELECT id FROM rows WHERE celsius > 20 * 10']),
    'excel': (excel_lines, ['--delimiter', ';', '--tidy', *CARRIED, *ASK]),
    'guessed': (excel_lines, ['--delimiter', ';', '--tidy', *ASK]),
}


def make_file(path: str, form: str, count: int) -> None:
    with open(path, 'w', encoding='utf-8') as file:
        file.writelines(FORMS[form][0](count))


def measured(setting: Setting) -> Iterator[Line]:
    path, world = setting.path('rows.csv'), setting.path('world.json')
    for form in filter(setting.wants, FORMS):
        for size in setting.sizes:
            harness.apart(make_file, path, form, size)
            words = [sys.executable, TOOL, '-q', '--csv', path, *FORMS[form][1], '-o', world]
            taken = setting.turns({'world.py': setting.job(words, os.devnull, os.devnull)})
            for program, each in taken.items():
                yield line_of('csv', form, size, program, each, bytes=os.path.getsize(path))
