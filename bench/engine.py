"""Statements by `ldv run` beside the same statements over the same rows by Python's sqlite3, in memory.

`all` is with the load, `load` alone, and `asked` what is left, in seconds of a processor. For `ldv` the load
is a run of the same world whose script only ends: it reads a document and checks it. `asked` has what is
printed: `ldv` writes each row of each reply. Both read a statement of `points` and `inserts` once, and put
its parameters in at each question. `of_sqlite3` compares what is asked, `all_of_sqlite3` the whole. A case
in which the two don't find as many rows with the same sum, or don't refuse as many statements, ends the
bench.

A run with the load alone is made beside each run of all: what is asked is the difference, which may be a
tenth of either, and a host that gets slower in between would make it larger or less than nothing.
"""
from __future__ import annotations

import json
import os
import sys
from functools import partial
from typing import Callable, Dict, Iterator, List, NamedTuple, Tuple

import harness
import statements
from harness import Took
from results import LDV, Line, line_of
from setting import Setting
from statements import CASES, Found

SQLITE = 'sqlite3'
CHILD = os.path.join(harness.HERE, 'statements_sqlite.py')


class Parts(NamedTuple):
    """A run of all, with what its load took alone."""

    whole: Took
    load: float
    seconds: float
    """The load with what is asked: without the start of Python for sqlite3."""
    found: Found
    memory_of_load: int = 0


def ran_by_ldv(setting: Setting, program: str, path: str) -> Parts:
    """Both worlds, one after the other."""
    words = [path, 'run', '--steps', statements.STEPS]
    outcome = setting.own(program, 'outcome')
    load = harness.measure_well(words, setting.path('bare'), outcome)
    whole = harness.measure_well(words, setting.path('world'), outcome)
    return Parts(whole, load.processor, whole.processor, Found(0, 0, 0), load.memory)


def ran_by_sqlite(setting: Setting, case: str, size: int) -> Parts:
    told = setting.path('told')
    whole = harness.measure_well([sys.executable, CHILD, case, str(size)], os.devnull, told)
    with open(told, encoding='utf-8') as file:
        load, asked, count, total, refused = json.load(file)
    return Parts(whole, load, load + asked, Found(count, total, refused))


def make_worlds(setting: Setting, case: str, size: int) -> None:
    tables, asked = CASES[case]
    statements.write_world(setting.path('bare'), 'exit 0', tables, size)
    statements.write_world(setting.path('world'), statements.script_of(asked, size), tables, size)


def asked_of(parts: List[Parts]) -> Tuple[float, float, float]:
    """The least seconds of all and of the load, and what is asked: their difference."""
    whole, load = min(each.seconds for each in parts), min(each.load for each in parts)
    return whole, load, max(whole - load, 0.0)


def lines_of(setting: Setting, case: str, size: int) -> Iterator[Line]:
    harness.apart(make_worlds, setting, case, size)
    runs: Dict[str, Callable[[], Parts]] = {program: partial(ran_by_ldv, setting, program, path)
                                            for program, path in setting.programs.items()}
    runs[SQLITE] = partial(ran_by_sqlite, setting, case, size)
    taken = setting.turns(runs)
    beside, beside_load, beside_asked = asked_of(taken[SQLITE])
    theirs = taken[SQLITE][0].found
    times = sum(statement.times for statement in CASES[case][1])
    for program in setting.programs:
        ours = Found(*harness.apart(statements.found_in, setting.own(program, 'outcome')))
        if ours != theirs:
            harness.failed(f'engine: {case} {size}: {program} found {ours}, sqlite3 {theirs}')
        if program != LDV:
            harness.check_same(setting.own(LDV, 'outcome'), setting.own(program, 'outcome'), f'engine {case}')
        whole, load, asked = asked_of(taken[program])
        memory = harness.mebibytes([each.whole for each in taken[program]])
        memory_of_load = max(each.memory_of_load for each in taken[program]) / harness.MIB
        yield line_of('engine', case, size, program, [each.whole for each in taken[program]], **{
            'all': whole, 'load': load, 'asked': asked, 'us/statement': asked * 1e6 / times,
            'MiB of load': memory_of_load, 'MiB beyond load': memory - memory_of_load,
            'of_sqlite3': harness.ratio(asked, beside_asked), 'all_of_sqlite3': harness.ratio(whole, beside)})
    yield line_of('engine', case, size, SQLITE, [each.whole for each in taken[SQLITE]],
                  all=beside, load=beside_load, asked=beside_asked)


def measured(setting: Setting) -> Iterator[Line]:
    for case in filter(setting.wants, CASES):
        for size in setting.sizes:
            yield from lines_of(setting, case, size)
