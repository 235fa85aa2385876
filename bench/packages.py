"""`run`, `record` and `replay` of both kinds of package, over the worlds of package_worlds.py.

`package` has a table of so many rows, `sums` fifty sums over one, and `loop` a trace of so many events, whose
package is short since the events of each turn are one run; the commands that look at a package are measured
over it too. Each world is private, so that the packages of recorded replies are replayed under another seed
as well. A replay that doesn't write what the run wrote ends the bench.

`of_run` and `memory_of_run` are multiples of what `run` takes, `of_needed` is a package as a multiple of its
rows, replies and trace.
"""
from __future__ import annotations

from typing import Dict, Iterator, List, Mapping, NamedTuple, Sequence

import harness
import package_worlds
import recorded
from harness import Took
from results import LDV, Line, line_of
from setting import Setting

STEPS = ['--steps', '10000000']


class Call(NamedTuple):
    """A command over a world or its package."""

    name: str
    words: List[str]
    source: str
    target: str
    like: str = ''
    """The file of which it has to write the bytes, or nothing."""


RUN = Call('run', ['run'], 'world', 'outcome')
RECORDS = (
    RUN,
    Call('record', ['record'], 'world', 'package'),
    Call('replay', ['replay'], 'package', 'replayed', 'outcome'),
    Call('record excluded', ['record', '--excluded'], 'world', 'excluded'),
    Call('replay excluded', ['replay'], 'excluded', 'replayed', 'outcome'),
    Call('replay --seed 7', ['replay', '--seed', '7'], 'excluded', 'replayed', 'outcome'),
)
REPORTS = ('files', 'rows', 'why t 7', 'depends out', 'trace')
LOOKS = (
    Call('audit', ['audit', *STEPS], 'package', 'report'),
    Call('table t 0', ['table', 't', '0', *STEPS], 'package', 'report'),
    Call('migrate', ['migrate'], 'package', 'migrated', 'package'),
    *(Call(f'inspect {report}', ['inspect', *report.split()], 'package', 'report') for report in REPORTS),
)


def check_written(setting: Setting, call: Call, what: str) -> None:
    if call.like:
        for program in setting.programs:
            harness.check_same(setting.own(program, call.like), setting.own(program, call.target),
                               f'{what} {call.name}')


def lines_of(setting: Setting, run: str, world: str, size: int, calls: Sequence[Call],
             words: Sequence[str] = ()) -> Iterator[Line]:
    """The lines of some commands, the first of which is `run`. The words go to those that make a run."""
    harness.apart(package_worlds.write_world, setting.path('world'), world, size)
    of_run: Mapping[str, List[Took]] = {}
    for call in calls:
        same = call.target in ('outcome', 'replayed')
        given = [*call.words, *(words if call in RECORDS else ())]
        taken = setting.measured(given, call.source, call.target, same=same)
        of_run = of_run or taken
        check_written(setting, call, f'{world} {size}')
        for program, each in taken.items():
            yield line_of(run, f'{world} {call.name}', size, program, each,
                          **values_of(setting, call, program, each, of_run[program]))


def values_of(setting: Setting, call: Call, program: str, each: Sequence[Took],
              of_run: Sequence[Took]) -> Dict[str, float]:
    values = {
        'of_run': harness.ratio(harness.least(each), harness.least(of_run)),
        'memory_of_run': harness.mebibytes(each) / harness.mebibytes(of_run),
        'bytes_in': setting.size_of(program, call.source),
        'bytes_out': setting.size_of(program, call.target)}
    if call.words[0] == 'record' and program == LDV:
        values['of_needed'] = recorded.of_needed(setting.own(program, call.target))
    return values


def measured(setting: Setting) -> Iterator[Line]:
    for world in filter(setting.wants, ('pick', 'change', 'groups')):
        for size in setting.sizes:
            yield from lines_of(setting, 'package', world, size, RECORDS)


def measured_sums(setting: Setting) -> Iterator[Line]:
    for size in setting.sizes:
        yield from lines_of(setting, 'sums', 'sums', size, RECORDS)


def measured_loop(setting: Setting) -> Iterator[Line]:
    for size in setting.sizes:
        yield from lines_of(setting, 'loop', 'loop', size, (*RECORDS, *LOOKS), STEPS)
