#!/usr/bin/env python3
"""Measures the application of the paper that `ldv` follows, over data in the shape of TPC-H.

    bench/paper.py [--scale S] [--rows N,..] [--runs N] [--program PROGRAM] [--sqlite PROGRAM]
                   [--beside WORK] [--shared] [--least] [-o FILE]

The paper is "LDV: Light-weight Database Virtualization" (CITATION.cff). The application makes 1,000
INSERTs, asks one of eighteen queries ten times, and makes 100 UPDATEs. For each query it is run, recorded
and replayed with both kinds of package, and the program sqlite3 does the same work over a copy of its file
in memory, all in turn. Beside them stand two copies of everything: that of sqlite3's .backup by xz, and a
tar of script and file.

It checks that run and replays write the same bytes, that sqlite3 finds the same rows and changes as many,
and that the rows in the package are as many as SQLite counts; else it ends with an error. A package of more
than 64 MiB isn't written, which its row says.

--scale is that of the data, by default the greatest of 0.01 to 0.07 whose world document has at most 64
MiB. --rows names queries by their place, such as 1-5,18. --least takes the scale 0.0006 and a query of each
form, once, and however busy the host is: that shows whether it works. --beside says what else was at work on
other processors meanwhile; --shared is that of bench.py. -o writes what was measured to FILE after each
query, and adds it to what FILE has of the same program; without -o a run of all eighteen is written to
bench/results/VERSION-HOST-paper.json. paper_report.py makes the page of it."""
from __future__ import annotations

import argparse
import os
import shutil
import sys
import tempfile
from typing import Callable, Dict, Iterator, List, Mapping, NamedTuple, Optional, Sequence

import bench
import harness
import paper_answers
import paper_queries
import paper_worlds
import results
from harness import Took
from paper_queries import QUERIES, Query
from paper_worlds import Data
from results import LDV, Line, Results, line_of
from setting import Setting

SQLITE, COPY = 'sqlite3', 'copy'
TOO_LONG = 12
LEAST_ROWS = (1, 6, 10, 14)
Maybe = Optional[Took]


class Kind(NamedTuple):
    """A kind of package: its name, the words that record it, and its files."""

    name: str
    words: Sequence[str]
    package: str
    replayed: str


KINDS = (Kind('', ['record'], 'package', 'replayed'),
         Kind(' excluded', ['record', '--excluded'], 'excluded', 'replayed excluded'))


class Given(NamedTuple):
    """What is measured, and with what."""

    program: str
    sqlite: Optional[str]
    scale: Optional[float]
    """The scale, or None for the greatest that fits."""
    places: Sequence[int]
    runs: int
    as_it_comes: bool
    beside: str = ''
    shared: bool = False
    """Whether the host shares its processors all the time (quiet.py)."""


class Copies(NamedTuple):
    """Sizes and times that all queries share."""

    scale: float
    rows: Mapping[str, int]
    backup: List[Took]
    """What .backup and xz took, or nothing where they aren't there."""

    def all_rows(self) -> int:
        return sum(self.rows.values())


# ---- files

def prepare(setting: Setting, given: Given) -> Copies:
    """The tables as JSON and as an SQLite file, and the copy of that file by xz."""
    scale, rows = harness.apart(write_data, setting.path('tables'), setting.path('database'), given.scale)
    counts = ', '.join(f'{count:,} rows of {table}' for table, count in rows.items())
    print(f'scale {scale}: {counts}', flush=True)
    return Copies(scale, rows, backed_up(setting, given.sqlite))


def write_data(tables: str, database: str, scale: Optional[float]) -> List[object]:
    if scale is None:
        known, rows = paper_worlds.write_greatest(tables)
    else:
        known, rows = scale, paper_worlds.write_tables(tables, Data(scale))
    paper_worlds.write_database(database, Data(known))
    return [known, rows]


def backed_up(setting: Setting, sqlite: Optional[str]) -> List[Took]:
    missing = [name for name, path in ((SQLITE, sqlite), ('xz', shutil.which('xz'))) if path is None]
    if sqlite is None or missing:
        print(f'paper: {" and ".join(missing)} isn\'t installed, so there is no .backup by xz')
        return []
    text = '"$0" database ".backup backup" && xz -c backup'
    words = ['sh', '-c', f'cd "$1" && {text}', sqlite, setting.folder]
    return [harness.measure_well(words, os.devnull, setting.path('backup.xz'))]


def put(path: str, text: str) -> None:
    with open(path, 'w', encoding='utf-8') as out:
        out.write(text)


# ---- the commands of a query

def recording(setting: Setting, kind: Kind) -> Callable[[], Maybe]:
    """Records a package, or finds that it would be too long."""
    program, target = setting.programs[LDV], setting.own(LDV, kind.package)

    def job() -> Maybe:
        took = harness.measure([program, *kind.words], setting.path('world'), target)
        if took.status not in (0, TOO_LONG):
            harness.failed(f'{" ".join(kind.words)} ended with {took.status}')
        return took
    return job


def replaying(setting: Setting, kind: Kind) -> Callable[[], Maybe]:
    """Replays a package, where there is one."""
    program, source = setting.programs[LDV], setting.own(LDV, kind.package)

    def job() -> Maybe:
        if os.path.getsize(source) == 0:
            return None
        return harness.measure_well([program, 'replay'], source, setting.own(LDV, kind.replayed))
    return job


def jobs_of(setting: Setting, sqlite: Optional[str]) -> Dict[str, Callable[[], Maybe]]:
    """All commands by their names. The first turn has them in this order: it makes the packages."""
    world = setting.path('world')
    jobs: Dict[str, Callable[[], Maybe]] = {
        'run': setting.job([setting.programs[LDV], 'run'], world, setting.own(LDV, 'outcome'))}
    for kind in KINDS:
        jobs[f'record{kind.name}'] = recording(setting, kind)
        jobs[f'replay{kind.name}'] = replaying(setting, kind)
    if sqlite:
        jobs[SQLITE] = setting.job([sqlite], setting.path('work.sql'), setting.path('found'))
    if shutil.which('tar'):
        jobs['tar'] = setting.job(['tar', '-cf', '-', '-C', setting.folder, 'main', 'database'], os.devnull,
                                  setting.path('tar'))
    return jobs


def check(setting: Setting, query: Query, sqlite: Optional[str]) -> None:
    """Ends the bench where outcomes differ, or sqlite3 finds something else."""
    for kind in KINDS:
        if os.path.getsize(setting.own(LDV, kind.package)):
            harness.check_same(setting.own(LDV, 'outcome'), setting.own(LDV, kind.replayed),
                               f'paper: {query.name()} replay{kind.name}')
    if sqlite:
        difference = harness.apart(paper_answers.difference, setting.own(LDV, 'outcome'),
                                   setting.path('found'))
        if difference:
            harness.failed(f'paper: {query.name()}: {difference}')


def needed(setting: Setting, query: Query) -> Dict[str, int]:
    """How many rows of each table are needed, by SQLite, which has to be what the package has."""
    counts: Dict[str, int] = harness.apart(paper_queries.needed_rows, setting.path('database'), query)
    package = setting.own(LDV, 'package')
    if os.path.getsize(package):
        harness.measure_well([setting.programs[LDV], 'inspect', 'rows'], package, setting.path('rows'))
        packed: Dict[str, int] = harness.apart(paper_answers.rows_by_table, setting.path('rows'))
        if packed != {table: count for table, count in counts.items() if count}:
            harness.failed(f'paper: {query.name()}: the package has {packed}, and SQLite needs {counts}')
    return counts


# ---- lines

def sizes_of(setting: Setting, copies: Copies, query: Query) -> Dict[str, float]:
    """The sizes that a row of the page has, and how many rows are needed."""
    counts = needed(setting, query)
    values: Dict[str, float] = {
        'scale': copies.scale, 'world': os.path.getsize(setting.path('world')),
        'database': os.path.getsize(setting.path('database')), 'rows': copies.all_rows(),
        'needed': sum(counts.values()), 'share': sum(counts.values()) / copies.all_rows(),
        **{f'needed_{table}': count for table, count in counts.items()}}
    for name in ('backup.xz', 'tar'):
        if os.path.exists(setting.path(name)):
            values[name] = os.path.getsize(setting.path(name))
    return values


def package_values(setting: Setting, kind: Kind) -> Dict[str, float]:
    """The size of a package, and that by xz; or that it is too long."""
    path = setting.own(LDV, kind.package)
    if os.path.getsize(path) == 0:
        return {'too_long': 1}
    return {'bytes': os.path.getsize(path), 'bytes_by_xz': harness.apart(paper_answers.size_by_xz, path)}


def lines_of(setting: Setting, given: Given, copies: Copies, query: Query) -> Iterator[Line]:
    """The lines of a query."""
    script = paper_queries.script_of(query)
    put(setting.path('main'), script)
    put(setting.path('work.sql'), paper_queries.work_of(query, setting.path('database')))
    paper_worlds.write_world(setting.path('world'), script, setting.path('tables'))
    if os.path.getsize(setting.path('world')) > paper_worlds.DOCUMENT_LIMIT:
        harness.failed(f'paper: at the scale {copies.scale} the world has more than 64 MiB')
    taken = {name: [took for took in each if took]
             for name, each in setting.turns(jobs_of(setting, given.sqlite)).items()}
    check(setting, query, given.sqlite)
    values = {'run': sizes_of(setting, copies, query)}
    for kind in KINDS:
        values[f'record{kind.name}'] = package_values(setting, kind)
    of_run = harness.least(taken['run'])
    programs = {SQLITE: SQLITE, 'tar': COPY, 'backup': COPY}
    for name, each in {**taken, 'backup': copies.backup}.items():
        if each:
            yield line_of('paper', f'{query.name()} {name}', copies.all_rows(), programs.get(name, LDV), each,
                          of_run=harness.ratio(harness.least(each), of_run), **values.get(name, {}))


def text_of(line: Line) -> str:
    own = [f'{name} {bench.shown(value)}' for name, value in line.values.items() if name not in bench.SHARED]
    numbers = ' '.join(f'{line.values[name]:9.3f}' for name in bench.SHARED[:3])
    return f'{line.name:24} {line.program:8} {numbers} {line.values["MiB"]:8.1f}  {", ".join(own)}'


def queries(given: Given) -> Iterator[List[Line]]:
    """The lines of each query."""
    heads = ' '.join(f'{head:>9}' for head in bench.SHARED[:3])
    print(f'{"line":24} {"program":8} {heads} {"MiB":>8}')
    with tempfile.TemporaryDirectory() as folder:
        os.mkdir(os.path.join(folder, LDV))
        setting = Setting({LDV: given.program}, folder, [], given.runs, given.as_it_comes, [])
        copies = prepare(setting, given)
        for place in given.places:
            found = []
            for line in lines_of(setting, given, copies, QUERIES[place - 1]):
                print(text_of(line), flush=True)
                found.append(line)
            yield found


def told_of(given: Given, output: Optional[str] = None) -> argparse.Namespace:
    """What bench.py asks of its words."""
    return argparse.Namespace(runs=given.runs, least=given.as_it_comes, beside=given.beside,
                              shared=given.shared, output=output)


def measured(given: Given) -> Iterator[Results]:
    """The lines so far, after each query, with the pace of the host before the first and after the last."""
    facts = bench.facts_of(told_of(given), {LDV: given.program})
    facts['sqlite'] = harness.said([given.sqlite, '--version']).partition(' ')[0] if given.sqlite else ''
    facts['pinned'] = not given.as_it_comes and harness.pinned() is not None
    before = round(harness.pace(), 1)
    if given.shared:
        facts['usual'] = harness.usual_pace()
    found: List[Line] = []
    for lines in queries(given):
        found += lines
        facts['pace'] = {'before': before, 'after': round(harness.pace(), 1)}
        yield Results(facts, found)


# ---- words

def places(text: str) -> List[int]:
    """The places of `1-5,18`."""
    found: List[int] = []
    for part in text.split(','):
        first, _, last = part.partition('-')
        found += range(int(first), int(last or first) + 1)
    if not all(1 <= place <= len(QUERIES) for place in found):
        raise argparse.ArgumentTypeError(f'rows are 1 to {len(QUERIES)}')
    return found


def path_of() -> str:
    return results.path_of(harness.version(), harness.host().name)[:-len('.json')] + '-paper.json'


def arguments(words: Optional[Sequence[str]]) -> argparse.Namespace:
    parser = argparse.ArgumentParser(description=__doc__,
                                     formatter_class=argparse.RawDescriptionHelpFormatter)
    parser.add_argument('--scale', type=float, metavar='S')
    parser.add_argument('--rows', type=places, metavar='N,..')
    parser.add_argument('--runs', type=int, default=0, metavar='N')
    parser.add_argument('--program', default=harness.BUILT)
    parser.add_argument('--sqlite', default=shutil.which('sqlite3'), metavar='PROGRAM')
    parser.add_argument('--beside', default='', metavar='WORK')
    parser.add_argument('--shared', action='store_true')
    parser.add_argument('--least', action='store_true')
    parser.add_argument('-o', dest='output', metavar='FILE')
    given = parser.parse_args(words)
    if not given.output and not given.rows and given.scale is None and not given.least:
        given.output = path_of()
    return given


def given_of(words: argparse.Namespace) -> Given:
    if not os.access(words.program, os.X_OK) or os.path.isdir(words.program):
        harness.failed(f'{words.program} is no program')
    if not words.sqlite:
        print("paper: sqlite3 isn't installed, so nothing stands beside ldv and no answer is compared")
    scale = words.scale if words.scale is not None or not words.least else paper_worlds.LEAST_SCALE
    rows = words.rows or (LEAST_ROWS if words.least else range(1, len(QUERIES) + 1))
    return Given(os.path.abspath(words.program), words.sqlite or None, scale, list(rows),
                 words.runs or (1 if words.least else 5), words.least, words.beside, words.shared)


def main(words: Optional[Sequence[str]] = None) -> int:
    parsed = arguments(words)
    given = given_of(parsed)
    earlier = bench.earlier_in(told_of(given, parsed.output), {LDV: given.program})
    for found in measured(given):
        if parsed.output:
            keep(parsed.output, results.merged([earlier, found]) if earlier else found)
        print(f'pace: {found.facts["pace"]["before"]} ns a turn before, {found.facts["pace"]["after"]} after')
    return 0


def keep(path: str, found: Results) -> None:
    """Writes what was found so far, for a run that is stopped later."""
    os.makedirs(os.path.dirname(os.path.abspath(path)), exist_ok=True)
    results.write(path, found)


if __name__ == '__main__':
    sys.exit(main())
