"""What `table` takes beside `replay` of the same package, at the first, the middle and the last step.

They run in turn. `of_replay` and `memory_of_replay` are multiples of what `replay` takes.
"""
from __future__ import annotations

import os
from typing import Dict, Iterator, List

import harness
import recorded
from results import Line, line_of
from setting import Job, Setting


def jobs_of(setting: Setting, steps: int) -> Dict[str, Job]:
    """By program and command, with a blank between."""
    words: Dict[str, List[str]] = {'replay': ['replay']}
    for place, step in (('first', 0), ('middle', steps // 2), ('last', steps)):
        words[f'table {place}'] = ['table', 't', str(step)]
    return {f'{program} {name}': setting.job([path, *call], setting.path('package'),
                                             setting.own(program, name.replace(' ', '_')))
            for program, path in setting.programs.items() for name, call in words.items()}


def measured(setting: Setting) -> Iterator[Line]:
    for world in filter(setting.wants, ('change', 'groups')):
        for size in setting.sizes:
            package = recorded.record(setting, world, size)
            taken = setting.turns(jobs_of(setting, package.steps))
            for job, each in taken.items():
                program, _, name = job.partition(' ')
                replay = taken[f'{program} replay']
                yield line_of('table', f'{world} {name}', size, program, each, **{
                    'of_replay': harness.ratio(harness.least(each), harness.least(replay)),
                    'memory_of_replay': harness.mebibytes(each) / harness.mebibytes(replay),
                    'bytes_out': os.path.getsize(setting.own(program, name.replace(' ', '_')))})
