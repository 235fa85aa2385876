#!/usr/bin/env python3
"""Makes the tables and figures of bench/PAPER.md of a file that paper.py wrote.

    bench/paper_report.py FILE [--fill]

It prints, as Markdown, what the paper says beside what is found here, where that is worse, and two tables
of all queries, of sizes and of times. --fill writes that between the two marks of bench/PAPER.md, and draws
the figures beside FILE; for these matplotlib has to be installed (python3-matplotlib of Debian)."""
from __future__ import annotations

import argparse
import os
import re
import sys
from typing import Callable, Dict, List, Mapping, NamedTuple, Optional, Sequence, Tuple

import harness
import paper_plots
import report
import results
from paper_plots import Figure
from paper_queries import QUERIES
from paper_worlds import COLUMNS, DOCUMENT_LIMIT
from results import Line, Results

PAGE = os.path.join(harness.HERE, 'PAPER.md')
BEGIN = '<!-- begin: paper_report.py --fill made this of {} -->'
END = '<!-- end: paper_report.py --fill -->'
BETWEEN = re.compile(re.escape(BEGIN).replace(re.escape('{}'), '(.*?)') + r'\n(.*?)' + re.escape(END), re.S)
MB = 1e6
KINDS = {'': 'package of rows', ' excluded': 'package of replies'}
LONG = 'above 64 MiB'
Value = Callable[['Row'], Optional[float]]


class Row(NamedTuple):
    """A query with its lines."""

    name: str
    lines: Mapping[str, Line]

    def value(self, line: str, value: str) -> Optional[float]:
        found = self.lines.get(line)
        return found.values.get(value) if found else None

    def seconds(self, line: str) -> Optional[float]:
        return self.value(line, 'seconds')

    def is_long(self, kind: str) -> bool:
        return self.value(f'record{kind}', 'too_long') == 1

    def package(self, kind: str) -> Optional[float]:
        return self.value(f'record{kind}', 'bytes')


def rows_of(found: Results) -> List[Row]:
    """The queries that were measured, in the order of the paper."""
    rows = []
    for query in QUERIES:
        start = f'{query.name()} '
        lines = {line.name[len(start):]: line for line in found.lines
                 if line.run == 'paper' and line.name.startswith(start)}
        if 'run' in lines:
            rows.append(Row(query.name(), lines))
    return rows


# ---- cells

def megabytes(size: Optional[float]) -> str:
    return '-' if size is None else f'{size / MB:,.2f}'


def package_cell(row: Row, kind: str) -> str:
    if row.is_long(kind):
        return LONG
    return f'{megabytes(row.package(kind))} ({megabytes(row.value(f"record{kind}", "bytes_by_xz"))})'


def time_cell(row: Row, name: str) -> str:
    seconds, of_run = row.seconds(name), row.value(name, 'of_run')
    if seconds is None or of_run is None:
        return '-'
    return f'{seconds:.2f}' if name == 'run' else f'{seconds:.2f} ({of_run:.2f})'


def cells_of(row: Row) -> List[str]:
    share = row.value('run', 'share') or 0.0
    packages = [package_cell(row, kind) for kind in KINDS]
    cells = [row.name, f'{share * 100:.2f} %', *packages, time_cell(row, 'run')]
    for kind in KINDS:
        cells += ['-', '-'] if row.is_long(kind) else [time_cell(row, f'{name}{kind}')
                                                      for name in ('record', 'replay')]
    return [*cells, time_cell(row, 'sqlite3')]


def queries_table(rows: Sequence[Row]) -> List[str]:
    return report.table(['Query', 'Needed', 'Rows', 'Replies', 'run', 'record', 'replay', 'record, replies',
                         'replay, replies', 'sqlite3'], [cells_of(row) for row in rows])


# ---- what is said

def listed(rows: Sequence[Row]) -> str:
    """The names of queries, once for each form."""
    forms: Dict[str, List[str]] = {}
    for row in rows:
        form, _, parameter = row.name.partition(' ')
        forms.setdefault(form, []).append(parameter)
    return '; '.join(f'{form} {", ".join(parameters)}' for form, parameters in forms.items())


def ratios(rows: Sequence[Row], one: Value, other: Value) -> List[Tuple[Row, float]]:
    """One value as a multiple of another, of the rows that have both."""
    found = []
    for row in rows:
        a, b = one(row), other(row)
        if a is not None and b:
            found.append((row, a / b))
    return found


def span(found: Sequence[Tuple[Row, float]]) -> str:
    """From which ratio to which."""
    numbers = [f'{number:.2g}' if number < 1 else f'{number:,.2f}' for _, number in found]
    values = [number for _, number in found]
    if not found:
        return 'not measured'
    least, most = numbers[values.index(min(values))], numbers[values.index(max(values))]
    return least if least == most else f'{least} to {most}'


def value_of(line: str, value: str) -> Value:
    return lambda row: row.value(line, value)


def recording(kind: str) -> Value:
    return lambda row: None if row.is_long(kind) else row.seconds(f'record{kind}')


def comparisons() -> List[Tuple[str, Value, Value]]:
    """What is worse if one is more than the other."""
    run, tar = value_of('run', 'seconds'), value_of('run', 'tar')
    found: List[Tuple[str, Value, Value]] = []
    for kind, name in KINDS.items():
        size, by_xz = value_of(f'record{kind}', 'bytes'), value_of(f'record{kind}', 'bytes_by_xz')
        replay = value_of(f'replay{kind}', 'seconds')
        found += [(f'The {name} is larger than the tar', size, tar),
                  (f'The {name} by xz is larger than .backup by xz', by_xz, value_of('run', 'backup.xz')),
                  (f'Replaying the {name} takes longer than `run`', replay, run)]
    return [*found, ('`run` takes longer than sqlite3', run, value_of('sqlite3', 'seconds'))]


def worse(rows: Sequence[Row]) -> List[str]:
    """Where ours is worse."""
    found = []
    for kind, name in KINDS.items():
        long = [row for row in rows if row.is_long(kind)]
        if long:
            found.append(f"- The {name} would have more than 64 MiB, and isn't written: {listed(long)}.")
    for text, one, other in comparisons():
        more = [(row, number) for row, number in ratios(rows, one, other) if number > 1]
        if more:
            found.append(f'- {text}, {span(more)} times: {listed([row for row, _ in more])}.')
    return found or ['- Nowhere in this file.']


def said(rows: Sequence[Row]) -> List[str]:
    """What the paper says, beside what is found here."""
    run = value_of('run', 'seconds')
    sizes, records, replays = [], [], []
    for kind, name in KINDS.items():
        size, replay = value_of(f'record{kind}', 'bytes'), value_of(f'replay{kind}', 'seconds')
        sizes.append(f'{name} {span(ratios(rows, size, value_of("run", "tar")))}')
        records.append(f'{name} {span(ratios(rows, recording(kind), run))}')
        replays.append(f'{name} {span(ratios(rows, replay, run))}')
    return report.table(['The paper', 'Its figure', 'Here'], [
        ['packages are more than ten times smaller than an image of a virtual machine', 'package sizes',
         f'no image is made; as a multiple of the tar of script and SQLite file: {"; ".join(sizes)}'],
        ['monitoring has an overhead', 'times while monitored',
         f'`record` as a multiple of `run`: {"; ".join(records)}'],
        ['replay is faster than the run', 'times of re-execution',
         f'`replay` as a multiple of `run`: {"; ".join(replays)}']])


def sizes_of(rows: Sequence[Row]) -> str:
    """The sizes that are nearly the same for all queries, since the data are."""
    parts = []
    for name, value in (('the world', 'world'), ('the SQLite file', 'database'),
                        ('its tar with the script', 'tar'), ('.backup by xz', 'backup.xz')):
        sizes = sorted({megabytes(row.value('run', value)) for row in rows})
        parts.append(f'{name} {" to ".join(dict.fromkeys((sizes[0], sizes[-1])))}')
    return f'In MB (10^6 bytes): {", ".join(parts)}.'


def measured_of(found: Results, rows: Sequence[Row]) -> List[str]:
    """Where it was measured, over which data, and what a copy takes."""
    first = rows[0]
    scales = sorted({row.value('run', 'scale') or 0.0 for row in rows})
    text = [f'Scale {", ".join(f"{scale:g}" for scale in scales)}: '
            f'{first.value("run", "rows") or 0:,.0f} rows in {len(COLUMNS)} tables.', sizes_of(rows)]
    for name, line in (('.backup with xz', first.lines.get('backup')), ('tar', first.lines.get('tar'))):
        if line:
            text.append(f'{name} takes {line.values["seconds"]:.2f} s of a processor.')
    return [*report.host_of(found), ' '.join(text)]


def page(found: Results, figures: Mapping[str, str]) -> List[str]:
    """The lines of the page; figures that are there are named by their files."""
    rows = rows_of(found)
    if not rows:
        return ['No query of these was measured.']
    named = [f'[{name}]({path})' for name, path in figures.items()]
    return [*measured_of(found, rows), *([f'Figures: {", ".join(named)}.'] if named else []), '',
            *said(rows), '', 'Where ours is worse:', '', *worse(rows), '',
            'Packages in MB, in brackets by xz; seconds of a processor, in brackets of `run`:', '',
            *queries_table(rows)]


# ---- figures

def figures_of(rows: Sequence[Row]) -> Dict[str, Figure]:
    """The three figures in the order of the paper, by their names."""
    names = [row.name for row in rows]

    def series(values: Mapping[str, Value], limit: Optional[float] = None, axis: str = 'seconds') -> Figure:
        numbers = {name: [value(row) for row in rows] for name, value in values.items()}
        return Figure(axis, names, numbers, limit)

    run, sqlite = value_of('run', 'seconds'), value_of('sqlite3', 'seconds')
    packages = {name: value_of(f'record{kind}', 'bytes') for kind, name in KINDS.items()}
    records = {f'record, {name}': recording(kind) for kind, name in KINDS.items()}
    replays = {f'replay, {name}': value_of(f'replay{kind}', 'seconds') for kind, name in KINDS.items()}
    return {
        'sizes': series({**packages, 'world': value_of('run', 'world'),
                         'SQLite file': value_of('run', 'database'), 'tar': value_of('run', 'tar'),
                         '.backup by xz': value_of('run', 'backup.xz')}, DOCUMENT_LIMIT, 'bytes'),
        'recording': series({'run': run, **records, 'sqlite3': sqlite}),
        'replaying': series({'run': run, **replays, 'sqlite3': sqlite})}


def draw(path: str, found: Results) -> Dict[str, str]:
    """Draws the figures beside a file of results, and names those that are there from the page's folder."""
    files = {}
    for name, figure in figures_of(rows_of(found)).items():
        file = f'{os.path.splitext(path)[0]}-{name}.svg'
        if figure.names and paper_plots.drawn(file, figure) or os.path.exists(file):
            files[name] = os.path.relpath(file, harness.HERE).replace(os.sep, '/')
    return files


def filled(text: str, name: str, lines: Sequence[str]) -> str:
    """The text of the page with these lines between its marks."""
    made = BEGIN.replace('{}', name) + '\n' + '\n'.join(lines) + '\n' + END
    return BETWEEN.sub(lambda _: made, text)


def fill(path: str, found: Results) -> None:
    with open(PAGE, encoding='utf-8') as file:
        text = file.read()
    name = os.path.relpath(path, harness.HERE).replace(os.sep, '/')
    text = filled(text, name, page(found, draw(path, found)))
    with open(PAGE, 'w', encoding='utf-8') as file:
        file.write(text)


def main(words: Optional[Sequence[str]] = None) -> int:
    parser = argparse.ArgumentParser(description=__doc__,
                                     formatter_class=argparse.RawDescriptionHelpFormatter)
    parser.add_argument('file', metavar='FILE')
    parser.add_argument('--fill', action='store_true')
    given = parser.parse_args(words)
    found = results.read(given.file)
    if given.fill:
        fill(given.file, found)
    else:
        print('\n'.join(page(found, {})))
    return 0


if __name__ == '__main__':
    sys.exit(main())
