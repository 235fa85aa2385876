"""What `inspect depends`, `prov` and `prov depends` take for the events of a run.

Three worlds: each event has another file (`files`), all have the same (`one`), each changes a row (`rows`).
`us/event` and `us/edge` are microseconds, to stay about the same; `of_bytes` is the memory as a multiple of
the bytes of the package or of the provenance document.
"""
from __future__ import annotations

import os
from typing import Iterator

import harness
import recorded
from results import LDV, Line, line_of
from setting import Setting

# What an input may have.
LONGEST = 67108864
FIRST = b'"ldv:first"'
# How many events of a run are asked for `prov`: one that changes a row is six edges, and a document of a
# million edges takes 2 GiB.
MOST = {'files': 1_000_000, 'rows': 150_000}


def count_lines(path: str) -> int:
    with open(path, 'rb') as file:
        return sum(1 for _ in file)


def count_edges(path: str) -> int:
    """How many edges a provenance document has: each has one number of its first event."""
    with open(path, 'rb') as file:
        return sum(line.count(FIRST) for line in file)


def of_bytes(mebibytes: float, size: int) -> float:
    return mebibytes * (1 << 20) / size


def measured_depends(setting: Setting) -> Iterator[Line]:
    for name in filter(setting.wants, ('files', 'one', 'rows')):
        for size in setting.sizes:
            package = recorded.record(setting, name, size)
            taken = setting.measured(['inspect', 'depends', 'out'], 'package', 'report', same=True)
            for program, each in taken.items():
                yield line_of('depends', name, size, program, each, **{
                    'events': package.events, 'steps': package.steps, 'bytes_in': package.size,
                    'us/event': harness.least(each) * 1e6 / package.events,
                    'of_bytes': of_bytes(harness.mebibytes(each), package.size),
                    'lines': harness.apart(count_lines, setting.own(program, 'report'))})


def measured_prov(setting: Setting) -> Iterator[Line]:
    for name in filter(setting.wants, ('files', 'rows')):
        for size in setting.sizes:
            if size > MOST[name]:
                continue
            recorded.record(setting, name, size)
            yield from prov_lines(setting, name, size)


def prov_lines(setting: Setting, name: str, size: int) -> Iterator[Line]:
    """Of `prov`, and of `prov depends` over what it wrote if that isn't longer than an input may be."""
    calls = {'prov': ['prov'], 'prov depends out': ['prov', 'depends', 'out']}
    edges = 0
    for call, words in calls.items():
        source, target = ('package', 'document') if call == 'prov' else ('document', 'report')
        if call != 'prov' and setting.size_of(LDV, source) > LONGEST:
            continue
        taken = setting.measured(words, source, target, same=True)
        edges = edges or harness.apart(count_edges, setting.own(LDV, 'document'))
        for program, each in taken.items():
            length = os.path.getsize(setting.own(program, 'document'))
            yield line_of('prov', f'{name} {call}', size, program, each, **{
                'edges': edges, 'bytes': length, 'us/edge': harness.least(each) * 1e6 / edges,
                'of_bytes': of_bytes(harness.mebibytes(each), length)})
