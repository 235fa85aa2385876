#!/usr/bin/env python3
"""Compares two programs, or two files of results.

    bench/compare.py BEFORE AFTER [RUN ..] [--sizes N,..] [--lines NAME,..] [--runs N] [--least]
    bench/compare.py BEFORE.json AFTER.json

Two programs get the same worlds and run in turn (by default the runs engine and package, at 100,000 and
1,000,000 rows), so that what else the machine does falls on both, and have to write the same bytes. Shown are
the least seconds of a processor and the greatest MiB of each, and those of AFTER as multiples of those of
BEFORE; `asked` is without the load. Of two files the lines that both have are compared. Their hosts may
differ: the loop of quiet.py says how much.
"""
from __future__ import annotations

import argparse
import sys
from typing import Iterator, List, NamedTuple, Optional, Sequence, Tuple

import bench
import results
from harness import ratio
from results import AGAINST, LDV, Line, Results

DEFAULT_RUNS = ['engine', 'package']
DEFAULT_SIZES = ['--sizes', '100000,1000000']
HEAD = (f'{"run":12} {"line":24} {"size":>8} {"before s":>9} {"after s":>9} {"ratio":>6}'
        f' {"before MiB":>10} {"after MiB":>10} {"ratio":>6}')


class Pair(NamedTuple):
    """The same line before and after."""

    before: Line
    after: Line


def row_of(pair: Pair, name: str, value: str) -> str:
    before, after = pair.before.values, pair.after.values
    return (f'{pair.after.run:12} {name:24} {pair.after.size:8} {before[value]:9.3f} {after[value]:9.3f}'
            f' {ratio(after[value], before[value]):6.2f} {before["MiB"]:10.1f} {after["MiB"]:10.1f}'
            f' {after["MiB"] / before["MiB"]:6.2f}')


def rows_of(pairs: Sequence[Pair]) -> Iterator[str]:
    for pair in pairs:
        yield row_of(pair, pair.after.name, 'seconds')
        if 'asked' in pair.before.values and 'asked' in pair.after.values:
            yield row_of(pair, f'{pair.after.name}, asked', 'asked')


def pairs_of(before: Results, after: Results, program: str) -> List[Pair]:
    """The lines of ldv that both have. Of the first those of a program are taken."""
    found = [(before.line(line.run, line.name, line.size, program), line) for line in after.lines
             if line.program == LDV]
    return [Pair(other, line) for other, line in found if other]


def measured(before: str, after: str, rest: Sequence[str]) -> Tuple[Results, Results]:
    """The results of both programs."""
    words = list(rest)
    if not words or words[0].startswith('-'):
        words = DEFAULT_RUNS + words
    if '--sizes' not in words and '--least' not in words:
        words += DEFAULT_SIZES
    given = bench.arguments([*words, '--program', after, '--against', before])
    found = bench.measured(given, bench.programs_of(given))
    return found, found


def main(words: Optional[Sequence[str]] = None) -> int:
    parser = argparse.ArgumentParser(description=__doc__,
                                     formatter_class=argparse.RawDescriptionHelpFormatter)
    parser.add_argument('before', metavar='BEFORE')
    parser.add_argument('after', metavar='AFTER')
    given, rest = parser.parse_known_args(words)
    if given.before.endswith('.json') and given.after.endswith('.json'):
        before, after, program = results.read(given.before), results.read(given.after), LDV
        paces = ' and '.join(f'{each.facts["pace"]["before"]} ns' for each in (before, after))
        print(f'a turn of the loop took {paces}')
    else:
        before, after = measured(given.before, given.after, rest)
        program = AGAINST
    print('\n'.join([HEAD, *rows_of(pairs_of(before, after, program))]))
    return 0


if __name__ == '__main__':
    sys.exit(main())
