"""`join` of two packages over one table, and the replay of the first run, beside `replay` of its own package.

Both runs need all rows (`same`), or each needs a half of its own (`apart`). The replay of the joined run has
to write what the replay of its package writes. `of_bytes` is the memory as a multiple of the bytes that are
read.
"""
from __future__ import annotations

import os
import shutil
import struct
from typing import Iterator

import harness
import recorded
from events import of_bytes
from results import Line, line_of
from setting import Setting

CALLS = (('join', ['join'], 'pair', 'both'), ('replay', ['replay'], 'first', 'outcome'),
         ('replay --run 1', ['replay', '--run', '1'], 'both', 'replayed'))


def write_pair(target: str, *paths: str) -> None:
    """Writes packages one after the other, each with its length before it."""
    with open(target, 'wb') as out:
        for path in paths:
            out.write(struct.pack('>I', os.path.getsize(path)))
            with open(path, 'rb') as source:
                shutil.copyfileobj(source, out)


def make_pair(setting: Setting, name: str, size: int) -> None:
    worlds = ('groups', 'groups') if name == 'same' else ('low', 'high')
    for world, target in zip(worlds, ('first', 'second')):
        recorded.record(setting, world, size, target)
    write_pair(setting.path('pair'), setting.path('first'), setting.path('second'))


def measured(setting: Setting) -> Iterator[Line]:
    for name in filter(setting.wants, ('same', 'apart')):
        for size in setting.sizes:
            make_pair(setting, name, size)
            for call, words, source, target in CALLS:
                taken = setting.measured(words, source, target, same=True)
                for program, each in taken.items():
                    length = setting.size_of(program, source)
                    yield line_of('join', f'{name} {call}', size, program, each, **{
                        'us/row': harness.least(each) * 1e6 / size,
                        'of_bytes': of_bytes(harness.mebibytes(each), length),
                        'bytes_in': length, 'bytes_out': setting.size_of(program, target)})
            for program in setting.programs:
                harness.check_same(setting.own(program, 'outcome'), setting.own(program, 'replayed'),
                                   f'join {name} {size}')
