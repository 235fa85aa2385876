#!/usr/bin/env python3
"""Measures what the program takes, and writes it as data.

    bench/bench.py [RUN ..] [--sizes N,..] [--lines NAME,..] [--runs N] [--program PROGRAM]
                   [--against PROGRAM] [--beside WORK] [--shared] [--least] [-o FILE]

RUN is one of those below, by default all. Each makes its worlds, runs the program over them, and says in a
table what it took; what is compared runs in turn. --sizes has other sizes for each run that is named, and
--lines the names of the lines that are wanted. --program is the program, by default that of this checkout,
and --against another one, which has to write the same bytes. --beside says what else was at work on other
processors meanwhile, which the tables say too. --shared is for a host whose processors do other work all the
time: runs count at its usual pace, which the tables say. --least takes each run at its least size, once, and
however busy the host is: that shows whether it works.

Each line is the least seconds of a processor of so many runs (5), and the greatest memory; quiet.py says
which runs count. All are on one processor, if the system allows it, but for --least. -o writes them to FILE,
and adds them to what it has of the same program; report.py makes tables and plots of it. Without -o a run of
all is written to bench/results/VERSION-HOST.json, and another one to no file. Where an aim is known it stands
beside its value.
"""
from __future__ import annotations

import argparse
import datetime
import hashlib
import os
import sys
import tempfile
from typing import Any, Callable, Dict, Iterable, Iterator, List, NamedTuple, Optional, Sequence, Tuple

import aims
import calls
import captured
import csv_files
import engine
import events
import first
import gen
import harness
import joined
import packages
import results
import scripts
import tables
import worlds
from results import AGAINST, LDV, Line, Results
from setting import Setting

SIZES = (1000, 10000, 100000, 1000000)


class Run(NamedTuple):
    """A run: what it measures, its sizes with their unit and the least of them, and what makes its lines."""

    title: str
    unit: str
    sizes: Tuple[int, ...]
    least: int
    measured: Callable[[Setting], Iterator[Line]]


RUNS = {
    'engine': Run('statements beside sqlite3 in memory', 'rows', (1000, 10000, 100000, 500000, 1000000), 1000,
                  engine.measured),
    'scripts': Run('scripts beside the same programs in Python', 'hundredths', (100,), 1, scripts.measured),
    'first': Run('one SELECT beside the program sqlite3', 'rows', SIZES, 1000, first.measured),
    'worlds': Run('worlds that are read and do nothing', 'MiB', (1, 4, 16, 60), 1, worlds.measured),
    'package': Run('run, record and replay', 'rows', SIZES, 1000, packages.measured),
    'sums': Run('the same of fifty sums in a loop', 'rows', SIZES[:3], 1000, packages.measured_sums),
    'loop': Run('the same of a long trace, and what looks at its package', 'events', (9980004,), 1004,
                packages.measured_loop),
    'depends': Run('inspect depends', 'events', SIZES, 1000, events.measured_depends),
    'prov': Run('prov and prov depends', 'events', (1000, 10000, 100000, 150000, 400000, 1000000), 1000,
                events.measured_prov),
    'table': Run('table beside replay', 'rows', SIZES, 1000, tables.measured),
    'join': Run('join, and the replay of a joined run', 'rows', (1000, 10000, 100000, 500000), 1000,
                joined.measured),
    'gen': Run('gen beside the program sqlite3', 'orders', SIZES[:3], 1000, gen.measured),
    'csv': Run('tools/world.py over CSV', 'rows', SIZES[1:], 1000, csv_files.measured),
    'calls': Run('what ./ldv adds to a call', 'calls', (200,), 2, calls.measured),
    'capture': Run('what capturing a program costs', 'statements', (100000,), 1000,
                   captured.measured_statements),
    'capture rows': Run('an answer captured and played back', 'rows', (1000000,), 1000,
                        captured.measured_rows),
}
# Values that all lines have, with their heads.
SHARED = ('seconds', 'median', 'clock', 'MiB')


# ---- what is printed

def shown(number: float) -> str:
    return f'{number:.0f}' if number == int(number) else f'{number:.3f}'


def text_of(line: Line) -> str:
    """A line of a table: the values that all have, then the others by name, then its aims."""
    own = [f'{name} {shown(value)}' for name, value in line.values.items() if name not in SHARED]
    aimed = [f'{each.aim.value} {each.value:.2f} aim {each.aim.bound:g} {"met" if each.is_met else "MISSED"}'
             for each in aims.of_line(line)]
    numbers = ' '.join(f'{line.values[name]:9.3f}' for name in SHARED[:3])
    return (f'{line.name:24} {line.size:8} {line.program:22} {numbers} {line.values["MiB"]:8.1f}'
            f'  {", ".join(own)}' + (f'  [{"; ".join(aimed)}]' if aimed else ''))


def head_of(name: str, run: Run) -> str:
    return (f'{name}: {run.title}\n{"line":24} {run.unit:>8} {"program":22} '
            + ' '.join(f'{head:>9}' for head in SHARED[:3]) + f' {"MiB":>8}')


def printed(lines: Iterable[Line]) -> Iterator[Line]:
    for line in lines:
        print(text_of(line), flush=True)
        yield line


# ---- runs

def made(given: argparse.Namespace, programs: Dict[str, str]) -> List[Line]:
    """The lines of all runs that are wanted, each in a folder of its own."""
    found: List[Line] = []
    for name in given.names:
        run = RUNS[name]
        sizes = given.sizes or ([run.least] if given.least else run.sizes)
        with tempfile.TemporaryDirectory() as folder:
            for program in programs:
                os.mkdir(os.path.join(folder, program))
            print(head_of(name, run))
            setting = Setting(programs, folder, sizes, given.runs, given.least, given.lines)
            found += printed(run.measured(setting))
        print()
    return found


def sum_of(path: str) -> str:
    with open(path, 'rb') as file:
        return hashlib.sha256(file.read()).hexdigest()


def facts_of(given: argparse.Namespace, programs: Dict[str, str]) -> Dict[str, Any]:
    return {'version': harness.version(), 'date': datetime.date.today().isoformat(),
            'host': harness.host()._asdict(), 'runs': given.runs, 'as_it_comes': given.least,
            'beside': given.beside, 'shared': given.shared,
            'programs': {name: sum_of(path) for name, path in programs.items()}}


# The facts that all lines of a file share.
ALIKE = ('version', 'runs', 'as_it_comes', 'shared', 'programs')


def earlier_in(given: argparse.Namespace, programs: Dict[str, str]) -> Optional[Results]:
    """What the file has, to which lines are added; it has to be of the same programs on the same host."""
    if not given.output or not os.path.exists(given.output):
        return None
    found, facts = results.read(given.output), facts_of(given, programs)
    alike = all(found.facts.get(name, False) == facts[name] for name in ALIKE)
    if not alike or found.facts['host']['name'] != facts['host']['name']:
        harness.failed(f'{given.output} has results of another program, host or number of runs')
    return found


def measured(given: argparse.Namespace, programs: Dict[str, str]) -> Results:
    """All lines, with the pace of the host before and after them."""
    facts = facts_of(given, programs)
    # On a busy host one processor may be the busiest.
    facts['pinned'] = not given.least and harness.pinned() is not None
    before = harness.pace()
    if given.shared:
        facts['usual'] = harness.usual_pace()
    lines = made(given, programs)
    facts['pace'] = {'before': round(before, 1), 'after': round(harness.pace(), 1)}
    return Results(facts, lines)


# ---- words

def listed(text: str) -> List[str]:
    return [word.strip() for word in text.split(',') if word.strip()]


def numbers(text: str) -> List[int]:
    return [int(word.replace('_', '')) for word in text.replace(',', ' ').split()]


def arguments(words: Optional[Sequence[str]]) -> argparse.Namespace:
    table = '\n'.join(f'    {name:13} {run.title} ({run.unit}: {", ".join(map(str, run.sizes))})'
                      for name, run in RUNS.items())
    parser = argparse.ArgumentParser(description=f'{__doc__}\n{table}\n',
                                     formatter_class=argparse.RawDescriptionHelpFormatter)
    parser.add_argument('names', nargs='*', metavar='RUN')
    parser.add_argument('--sizes', type=numbers, default=[], metavar='N,..')
    parser.add_argument('--lines', type=listed, default=[], metavar='NAME,..')
    parser.add_argument('--runs', type=int, default=0, metavar='N')
    parser.add_argument('--program', default=harness.BUILT)
    parser.add_argument('--against', metavar='PROGRAM')
    parser.add_argument('--beside', default='', metavar='WORK')
    parser.add_argument('--shared', action='store_true')
    parser.add_argument('--least', action='store_true')
    parser.add_argument('-o', dest='output', metavar='FILE')
    given = parser.parse_args(words)
    unknown = [name for name in given.names if name not in RUNS]
    if unknown:
        parser.error(f'there is no run {unknown[0]}')
    if not given.output and not given.names and not given.sizes and not given.least:
        given.output = results.path_of(harness.version(), harness.host().name)
    given.names = given.names or list(RUNS)
    given.runs = given.runs or (1 if given.least else 5)
    return given


def programs_of(given: argparse.Namespace) -> Dict[str, str]:
    named = {LDV: given.program, **({AGAINST: given.against} if given.against else {})}
    for path in named.values():
        if not os.access(path, os.X_OK) or os.path.isdir(path):
            harness.failed(f'{path} is no program')
    return {name: os.path.abspath(path) for name, path in named.items()}


def main(words: Optional[Sequence[str]] = None) -> int:
    given = arguments(words)
    programs = programs_of(given)
    earlier = earlier_in(given, programs)
    found = measured(given, programs)
    counted = aims.counted(judged for line in found.lines for judged in aims.of_line(line))
    print(f'pace: {found.facts["pace"]["before"]} ns a turn before, {found.facts["pace"]["after"]} after'
          + (f'; {counted}' if counted else ''))
    if given.output:
        found = results.merged([earlier, found]) if earlier else found
        os.makedirs(os.path.dirname(os.path.abspath(given.output)), exist_ok=True)
        results.write(given.output, found)
    return 0


if __name__ == '__main__':
    sys.exit(main())
