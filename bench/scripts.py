"""Scripts beside the same programs in Python with sqlite3, which are in the folder `python`.

A size is in hundredths of the whole: a loop of 3,000,000 turns, 300,000 INSERTs from a loop into a table with
a key, a file of 16 MiB that is read line by line, cut and written, 65,000 processes that each write a line to
one log, and a report over 100,000 orders. A step is an instruction of the script, and Python's steps a second
are those of the same script. The budget of a run is the exact number of its steps, and the two have to give
the same bytes; the order of the lines of `processes` isn't compared. `of_python` is a multiple of what Python
takes, in which the orders are imported from the document.
"""
from __future__ import annotations

import os
import subprocess
import sys
from typing import Dict, Iterator, List, NamedTuple

import harness
import script_worlds
from results import Line, line_of
from setting import Setting

PYTHON = os.path.join(harness.HERE, 'python')
OUTCOME = os.path.join(harness.ROOT, 'tools', 'outcome.py')


class Script(NamedTuple):
    """A world, the seed of its run, the size of the whole, and the program in Python."""

    world: str
    seed: int
    whole: int
    program: str
    words: str
    """The words of the program, with `{size}`, `{seed}` and files of the folder as `{/NAME}`."""
    file: str = ''
    """The file that the program writes beside standard output."""
    is_sorted: bool = False
    """Whether lines may come in another order."""


SCRIPTS = {
    'loop': Script('loop', 0, 3000000, 'loop.py', '{size}'),
    'inserts': Script('inserts', 0, 300000, 'inserts.py', '{size}'),
    'lines': Script('lines', 0, 16777216, 'lines.py', '{/big} {/out}', 'out'),
    'processes': Script('processes', 0, 65000, 'processes.py', '{size} {seed} {/log}', 'log', True),
    'processes seed 7': Script('processes', 7, 65000, 'processes.py', '{size} {seed} {/log}', 'log', True),
    'report': Script('report', 0, 100000, 'orders_report.py', '{/report.txt}', 'report.txt'),
}
BESIDE, IN_FILE = 'Python', 'sqlite3, in a file'


def words_of(setting: Setting, script: Script, size: int) -> List[str]:
    given = [setting.path(word[2:-1]) if word.startswith('{/') else word.format(size=size, seed=script.seed)
             for word in script.words.split()]
    return [sys.executable, os.path.join(PYTHON, script.program), *given]


def part_of(path: str, *words: str) -> bytes:
    """A part of an outcome, as outcome.py writes it."""
    return subprocess.run([sys.executable, OUTCOME, *words, path], stdout=subprocess.PIPE, check=True).stdout


def result_of(path: str, file: str) -> bytes:
    """What the first process of an outcome printed, and then the file of this name, where it has one."""
    return part_of(path, '--printed') + (part_of(path, '--file', file) if file else b'')


def is_same(setting: Setting, script: Script, program: str) -> bool:
    """Whether an outcome has what Python wrote."""
    expected = b''
    for name in ('expected', script.file) if script.file else ('expected',):
        with open(setting.path(name), 'rb') as file:
            expected += file.read()
    result = result_of(setting.own(program, 'outcome'), script.file)
    if script.is_sorted:
        return sorted(result.splitlines()) == sorted(expected.splitlines())
    return result == expected


def lines_of(setting: Setting, name: str, share: int) -> Iterator[Line]:
    script = SCRIPTS[name]
    size = max(1, script.whole * share // 100)
    steps = harness.apart(script_worlds.write_world, setting.folder, script.world, size, script.seed)
    words, world = words_of(setting, script, size), setting.path('world')
    beside = {BESIDE: setting.job(words, world, setting.path('expected'))}
    if script.world == 'report':
        database = setting.path('db')
        if os.path.exists(database):
            os.remove(database)
        harness.measure_well([*words, database], world, os.devnull)
        beside[IN_FILE] = setting.job([*words, database], world, setting.path('expected'))
    taken = setting.measured(['run', '--steps', str(steps)], 'world', 'outcome', same=True, beside=beside)
    for program in setting.programs:
        if not harness.apart(is_same, setting, script, program):
            harness.failed(f'scripts: {name} {size}: {program} and Python give other bytes')
    for program, each in taken.items():
        more: Dict[str, float] = {'steps': steps, 'steps/s': steps / max(harness.least(each), 0.001)}
        if program in setting.programs:
            more['of_python'] = harness.ratio(harness.least(each), harness.least(taken[BESIDE]))
        yield line_of('scripts', name, share, program, each, **more)


def measured(setting: Setting) -> Iterator[Line]:
    for name in filter(setting.wants, SCRIPTS):
        for share in setting.sizes:
            yield from lines_of(setting, name, share)
