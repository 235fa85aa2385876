"""Worlds that are read and do nothing: of rows with a key, of rows without one, of files as texts and as hex.

A size is in MiB. Tables have at most a million rows and files at most 15 MiB, as their limits want it.
"""
from __future__ import annotations

import os
from typing import Callable, Dict, Iterator, TextIO

import harness
from results import Line, line_of
from setting import Setting

FILE = 15 << 20
ROWS = 1_000_000
COLUMNS = '"columns":[["id","INT NOT NULL"],["n","INT"],["s","TEXT"]]'


def write_files(out: TextIO, size: int, content: Callable[[int], str]) -> None:
    left, number = size, 0
    while left > 0:
        part = min(left, FILE)
        out.write(f',"file{number}":{content(part)}')
        left -= part
        number += 1


def write_tables(out: TextIO, size: int, key: str) -> None:
    left, number = size, 0
    out.write(',"tables":{')
    while left > 0:
        out.write(f'{"," if number else ""}"t{number}":{{{COLUMNS},{key}"rows":[')
        for i in range(ROWS):
            row = f'{"," if i else ""}[{i},{i * 7919 % 1000003},"name {i}"]'
            out.write(row)
            left -= len(row)
            if left <= 0:
                break
        out.write(']}')
        number += 1
    out.write('}')


def text_of(size: int) -> str:
    return '"' + 'one line of a file\\n' * (size // 20) + '"'


def hex_of(size: int) -> str:
    return '{"hex":"' + '00ff7f80' * (size // 8) + '"}'


# By kind: the content of a file of so many bytes, or the key of tables.
FILES: Dict[str, Callable[[int], str]] = {'texts': text_of, 'hex': hex_of}
TABLES = {'rows': '"key":["id"],', 'rows without key': ''}
KINDS = (*TABLES, *FILES)


def make_world(path: str, kind: str, mebibytes: int) -> None:
    with open(path, 'w', encoding='utf-8') as out:
        out.write('{"start":["main"],"files":{"main":"exit 0"')
        if kind in FILES:
            write_files(out, mebibytes << 20, FILES[kind])
        out.write('}')
        if kind in TABLES:
            write_tables(out, mebibytes << 20, TABLES[kind])
        out.write('}\n')


def measured(setting: Setting) -> Iterator[Line]:
    for kind in filter(setting.wants, KINDS):
        for size in setting.sizes:
            world = setting.path('world')
            harness.apart(make_world, world, kind, size)
            length = os.path.getsize(world)
            for program, each in setting.measured(['run'], 'world', 'outcome', same=True).items():
                seconds = max(harness.least(each), 0.001)
                yield line_of('worlds', kind, size, program, each, **{
                    'bytes': length, 'MB/s': length / seconds / 1e6,
                    'of_input': harness.mebibytes(each) * (1 << 20) / length})
