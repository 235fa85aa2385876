#!/usr/bin/env python3
"""Makes tables and plots of files that bench.py wrote.

    bench/report.py FILE.. [--all] [--plots FOLDER]
    bench/report.py FILE.. --fill

It prints, as Markdown, the host, each aim beside its value with the causes of those that are missed, the
memory, and how time grows with rows. --all prints the lines of each run besides. Of several files a later
line stands for an earlier one. --plots draws the growth on logarithmic axes, as FOLDER/NAME.svg; for that
matplotlib has to be installed (python3-matplotlib of Debian). --fill writes the tables between the two marks
of bench/README.md, the plot beside the file, and each figure that figures.txt names into its document.
"""
from __future__ import annotations

import argparse
import os
import sys
from typing import Dict, List, Optional, Sequence, Tuple

import aims
import causes
import figures
import harness
import plots
import results
from aims import Judged
from results import Line, Results

# How a value is said.
WORDS = {
    'of_sqlite3': 'of sqlite3', 'of_python': 'of Python', 'of_run': 'of `run`', 'of_replay': 'of `replay`',
    'of_imported': 'of sqlite3 with import', 'of_bytes': 'times the bytes', 'of_input': 'times the bytes',
    'us/event': 'us an event', 'us/edge': 'us an edge', 'MB/s': 'MB a second', 'seconds': 'seconds',
    'added ms': 'ms added', 'of_itself': 'of the program itself', 'MiB': 'MiB',
}
UNITS = {'engine': 'rows', 'scripts': '% of the whole', 'package': 'rows', 'sums': 'rows', 'loop': 'events',
         'worlds': 'MiB', 'depends': 'events', 'prov': 'events', 'table': 'rows', 'join': 'rows',
         'gen': 'orders', 'csv': 'rows', 'calls': 'calls', 'capture': 'statements'}
# The lines of the table of memory, with the value that stands beside the MiB.
MEMORY = [(run, name, size, value) for run, size, names, value in (
    ('worlds', 60, ('rows', 'rows without key', 'texts', 'hex'), 'of_input'),
    ('package', 1000000, [f'{world} {call}' for world in ('pick', 'change', 'groups')
                          for call in ('run', 'record', 'replay')], 'memory_of_run'),
    ('sums', 100000, ('sums run', 'sums record'), 'memory_of_run'),
    ('depends', 1000000, ('rows',), 'of_bytes'),
    ('engine', 1000000, ('join2', 'shift'), 'MiB beyond load')) for name in names]


def grouped(number: float, decimals: int = 0) -> str:
    return f'{number:,.{decimals}f}'


def table(head: Sequence[str], rows: Sequence[Sequence[str]]) -> List[str]:
    return [f'| {" | ".join(cells)} |' for cells in (head, ['---'] * len(head), *rows)]


# ---- the host

def pace_of(found: Results) -> str:
    """What the fixed loop took, and what it takes where other machines use the same processors."""
    pace, usual = found.facts['pace'], found.facts.get('usual')
    least = f'{pace["before"]} ns before and {pace["after"]} after'
    if usual is None:
        return f'A turn of the loop of `quiet.py` took {least}.'
    return (f'**The host shared its processors with other machines all the time**: a turn of the loop of '
            f'`quiet.py` took {usual} ns in the median, by which runs are judged, and at least {least}.')


def host_of(found: Results) -> List[str]:
    """Two lines that say where and with what it was measured."""
    host = found.facts['host']
    return [f'Version {found.facts["version"]}, commit `{host["commit"][:12]}`, `{host["kit"]}`, on '
            f'{found.facts["date"]}: {host["processors"]} processors, {host["processor"]}, {host["system"]}.',
            f'Each line is the least of {found.facts["runs"]} runs'
            + (', on one processor' if found.facts['pinned'] else '')
            + (', however busy the host was' if found.facts['as_it_comes'] else '')
            + (f', beside {found.facts["beside"]}' if found.facts.get('beside') else '')
            + f'. {pace_of(found)}']


# ---- aims

def cell_of(each: Judged) -> str:
    """The name of a line with its value and the aim; a miss is bold."""
    text = f'{each.aim.name} {grouped(each.value, 2)} ({grouped(each.aim.bound, 2)})'
    return text if each.is_met else f'**{text}**'


def rows_of_aims(judged: Sequence[Judged]) -> List[List[str]]:
    """A row for all lines of a run that share a size and a value."""
    rows: Dict[Tuple[str, str], List[str]] = {}
    for each in judged:
        aim = each.aim
        value = WORDS[aim.value] + (', at least' if aim.is_least else '')
        row = (f'`{aim.run}`, {grouped(aim.size)} {UNITS[aim.run]}', value)
        rows.setdefault(row, []).append(cell_of(each))
    return [[run, value, ', '.join(cells)] for (run, value), cells in rows.items()]


def causes_of(judged: Sequence[Judged]) -> List[str]:
    """The cause of each miss, once for all that it is the cause of."""
    found: Dict[str, List[str]] = {}
    for each in judged:
        if not each.is_met:
            text = causes.cause_of(each.aim.run, each.aim.name)
            names = found.setdefault(text, [])
            if f'`{each.aim.name}`' not in names:
                names.append(f'`{each.aim.name}`')
    return [f'- {", ".join(names)}: {text}' for text, names in found.items()]


def aims_table(found: Results) -> List[str]:
    judged = aims.of_results(found)
    counted = aims.counted(judged)
    if counted is None:
        return ['No line of these has an aim.']
    head = ['Run', 'Value', 'Lines with the aim in brackets; **misses** are bold']
    lines = table(head, rows_of_aims(judged))
    reasons = causes_of(judged)
    return [*lines, '', f'{counted[0].upper()}{counted[1:]}.' + (' Causes:' if reasons else ''),
            *([''] if reasons else []), *reasons]


# ---- memory

def memory_table(found: Results) -> List[str]:
    says = {'of_input': '{:.1f} times the bytes', 'memory_of_run': '{:.2f} of `run`',
            'of_bytes': '{:.1f} times the package', 'MiB beyond load': '{:.0f} beyond the load'}
    rows: Dict[str, List[str]] = {}
    for run, name, size, value in MEMORY:
        line = found.line(run, name, size)
        if line:
            rows.setdefault(f'`{run}`, {grouped(size)} {UNITS[run]}', []).append(
                f'{name} {line.values["MiB"]:.0f} ({says[value].format(line.values[value])})')
    if not rows:
        return ['No line of these is of memory.']
    return table(['Run', 'MiB'], [[run, ', '.join(cells)] for run, cells in rows.items()])


# ---- growth

def growth_of(found: Results) -> Tuple[List[int], Dict[str, Dict[str, Dict[int, float]]]]:
    """Sizes, and by case and program the seconds that are asked, by size."""
    lines = [line for line in found.lines if line.run == 'engine' and line.program in ('ldv', 'sqlite3')]
    cases: Dict[str, Dict[str, Dict[int, float]]] = {}
    for line in lines:
        by_size = cases.setdefault(line.name, {}).setdefault(line.program, {})
        by_size[line.size] = line.values['asked']
    return results.sizes_of(lines), cases


def growth_table(found: Results) -> List[str]:
    sizes, cases = growth_of(found)
    if not sizes:
        return ['No line of these is of a statement.']
    rows = [[f'`{case}`', *(' / '.join(f'{each[program][size]:.3f}' if size in each.get(program, {}) else '-'
                                       for program in ('ldv', 'sqlite3')) for size in sizes)]
            for case, each in cases.items()]
    return table(['Statement', *map(grouped, sizes)], rows)


# ---- all

def values_of(line: Line) -> str:
    return ', '.join(f'{name} {value:g}' for name, value in line.values.items()
                     if name not in ('seconds', 'median', 'clock', 'MiB'))


def all_tables(found: Results) -> List[str]:
    text: List[str] = []
    for run, lines in results.runs_of(found):
        rows = [[line.name, grouped(line.size), line.program, f'{line.values["seconds"]:.3f}',
                 f'{line.values["median"]:.3f}', f'{line.values["clock"]:.3f}', f'{line.values["MiB"]:.1f}',
                 values_of(line)] for line in lines]
        head = ['Line', UNITS.get(run, 'size'), 'Program', 'Seconds', 'Median', 'Clock', 'MiB', '']
        text += [f'### {run}', '', *table(head, rows), '']
    return text


def report(found: Results, plot: Optional[str] = None) -> List[str]:
    """The lines of the report; the plot is named where there is one."""
    return [*host_of(found), '', '### Aims', '', *aims_table(found), '', '### Memory', '',
            *memory_table(found), '', '### Growth', '',
            'Seconds of what is asked, without the load: `ldv` / sqlite3'
            + (f' ([plot]({plot})).' if plot else '.'), '', *growth_table(found)]


# ---- words

def plot_of(path: str) -> str:
    """The plot beside a file of results."""
    return f'{os.path.splitext(path)[0]}-growth.svg'


def fill(path: str, found: Results) -> None:
    """The page, the plot and the documents, from the file of a release."""
    plot = plot_of(path)
    if not plots.drawn(plot, *growth_of(found)):
        plot = plot if os.path.exists(plot) else ''
    figures.fill_page(harness.ROOT, path, report(found, relative(plot) if plot else None))
    figures.fill_documents(harness.ROOT, found)


def relative(path: str) -> str:
    return os.path.relpath(path, harness.HERE).replace(os.sep, '/')


def main(words: Optional[Sequence[str]] = None) -> int:
    parser = argparse.ArgumentParser(description=__doc__,
                                     formatter_class=argparse.RawDescriptionHelpFormatter)
    parser.add_argument('files', nargs='+', metavar='FILE')
    parser.add_argument('--all', action='store_true')
    parser.add_argument('--plots', metavar='FOLDER')
    parser.add_argument('--fill', action='store_true')
    given = parser.parse_args(words)
    found = results.merged([results.read(path) for path in given.files])
    if given.fill:
        if len(given.files) > 1:
            parser.error('--fill takes one file')
        fill(given.files[0], found)
        return 0
    print('\n'.join([*report(found), *(['', *all_tables(found)] if given.all else [])]))
    if given.plots:
        os.makedirs(given.plots, exist_ok=True)
        name = os.path.basename(plot_of(given.files[0]))
        plots.drawn(os.path.join(given.plots, name), *growth_of(found))
    return 0


if __name__ == '__main__':
    sys.exit(main())
