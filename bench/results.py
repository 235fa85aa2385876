"""Results of benches as data: the lines, and the file that they stand in.

A file is JSON: where and with what was measured, and a list of lines. A line has its run, its name, its size,
the program that was measured, what each of its runs took (seconds of a processor, seconds of the clock, KiB),
and its values by name. `seconds` is the least of a processor, `median` their median, `clock` the least of the
clock, `MiB` the greatest memory; what else a run says of a line stands beside them. The key of a value is its
path, such as `engine/join2/1000000/ldv/of_sqlite3`.
"""
from __future__ import annotations

import json
import os
import re
from typing import Any, Dict, Iterator, List, Mapping, NamedTuple, Optional, Sequence, Tuple

import harness
from harness import Took

FOLDER = os.path.join(harness.HERE, 'results')
LDV, AGAINST = 'ldv', 'against'


class Line(NamedTuple):
    """What was measured of one program."""

    run: str
    name: str
    size: int
    program: str
    each: Sequence[Tuple[float, float, int]]
    """Seconds of a processor, seconds of the clock and KiB of each run."""
    values: Mapping[str, float]

    def key(self) -> str:
        return f'{self.run}/{self.name}/{self.size}/{self.program}'


class Results(NamedTuple):
    """Lines, with where and with what they were measured."""

    facts: Dict[str, Any]
    lines: List[Line]

    def line(self, run: str, name: str, size: int, program: str = LDV) -> Optional[Line]:
        return next((line for line in self.lines
                     if (line.run, line.name, line.size, line.program) == (run, name, size, program)), None)

    def value(self, key: str) -> Optional[float]:
        """The value of a key, or None where nothing has it."""
        found = re.fullmatch(r'([^/]+)/([^/]+)/(\d+)/([^/]+)/(.+)', key)
        if found is None:
            return None
        line = self.line(found[1], found[2], int(found[3]), found[4])
        return line.values.get(found[5]) if line else None


def line_of(run: str, name: str, size: int, program: str, each: Sequence[Took], **values: float) -> Line:
    """A line of some runs, with what is said of it besides."""
    shared = {'seconds': harness.least(each), 'median': harness.median(each),
              'clock': min(took.clock for took in each), 'MiB': harness.mebibytes(each)}
    return Line(run, name, size, program, [(took.processor, took.clock, took.memory) for took in each],
                {**shared, **values})


# ---- files

def rounded(number: float) -> float:
    """A number with the digits that say something."""
    return number if number == int(number) else float(f'{number:.6g}')


def document_of(results: Results) -> Dict[str, Any]:
    lines = [{'run': line.run, 'name': line.name, 'size': line.size, 'program': line.program,
              'values': {name: rounded(value) for name, value in line.values.items()},
              'each': [[rounded(number) for number in took] for took in line.each]}
             for line in results.lines]
    return {**results.facts, 'lines': lines}


def write(path: str, results: Results) -> None:
    """Writes a file of results, a line for each of its lines."""
    document = document_of(results)
    lines = document.pop('lines')
    head = json.dumps(document, indent=1, ensure_ascii=False)[:-2]
    text = ',\n  '.join(json.dumps(line, ensure_ascii=False) for line in lines)
    with open(path, 'w', encoding='utf-8') as file:
        file.write(f'{head},\n "lines": [\n  {text}\n ]\n}}\n')


def read(path: str) -> Results:
    with open(path, encoding='utf-8') as file:
        document = json.load(file)
    lines = [Line(each['run'], each['name'], each['size'], each['program'],
                  [(took[0], took[1], took[2]) for took in each['each']], each['values'])
             for each in document.pop('lines')]
    return Results(document, lines)


def merged(parts: Sequence[Results]) -> Results:
    """The lines of some files, each with the facts of the first. A later line stands for an earlier one."""
    lines = {line.key(): line for part in parts for line in part.lines}
    return Results(parts[0].facts, list(lines.values()))


def path_of(version: str, host: str) -> str:
    """The file of a release and a host."""
    return os.path.join(FOLDER, f'{version}-{re.sub(r"[^A-Za-z0-9_]+", "_", host)}.json')


def sizes_of(lines: Sequence[Line]) -> List[int]:
    return sorted({line.size for line in lines})


def runs_of(results: Results) -> Iterator[Tuple[str, List[Line]]]:
    """Each run with its lines, in the order of the file."""
    for run in dict.fromkeys(line.run for line in results.lines):
        yield run, [line for line in results.lines if line.run == run]
