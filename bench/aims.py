"""What is aimed at, and whether it is met.

An aim is the most that a value of a line may be, or the least of one that is a rate. A value counts with the
decimals of its aim, at least two.
"""
from __future__ import annotations

from typing import Iterable, List, NamedTuple, Optional

from results import LDV, Line, Results

MILLION = 1000000


class Aim(NamedTuple):
    """What is aimed at in a value of a line."""

    run: str
    name: str
    size: int
    value: str
    bound: float
    program: str = LDV
    is_least: bool = False
    """Whether the value is a rate, so that the bound is the least that it may be."""

    def key(self) -> str:
        return f'{self.run}/{self.name}/{self.size}/{self.program}/{self.value}'

    def is_met(self, value: float) -> bool:
        rounded = round(value, 2)
        return rounded >= self.bound if self.is_least else rounded <= self.bound


def engine(name: str, bound: float, size: int = MILLION) -> Aim:
    """An aim of what is asked, without the load, as a multiple of what sqlite3 takes."""
    return Aim('engine', name, size, 'of_sqlite3', bound)


def scripts(name: str, bound: float) -> Aim:
    return Aim('scripts', name, 100, 'of_python', bound)


def package(world: str, command: str, bound: float, value: str = 'of_run') -> Aim:
    return Aim('package', f'{world} {command}', MILLION, value, bound)


AIMS: List[Aim] = [
    scripts('loop', 1.0),
    scripts('inserts', 0.7),
    scripts('lines', 1.2),
    scripts('processes', 1.1),
    scripts('processes seed 7', 1.2),
    scripts('report', 0.4),
    engine('join2', 1.68),
    engine('join3', 2.3),
    engine('group10', 1.79),
    engine('group100000', 1.46),
    engine('distinct', 1.0),
    engine('union', 2.0),
    engine('order', 2.01),
    engine('points', 0.6, 100000),
    engine('points', 0.6),
    engine('inserts', 0.4, 100000),
    engine('inserts', 0.4),
    engine('update', 0.6),
    engine('shift', 0.9),
    Aim('engine', 'shift', MILLION, 'MiB', 400.0),
    engine('delete', 0.4),
    *(engine(name, bound, 500000)
      for name, bound in (('children', 0.45), ('couples', 0.45), ('childless', 0.7), ('parents', 1.0),
                          ('orphans', 1.0), ('adopt', 1.0))),
    Aim('depends', 'rows', MILLION, 'us/event', 4.5),
    Aim('depends', 'rows', MILLION, 'of_bytes', 8.0),
    *(Aim('prov', f'{name} {call}', size, value, bound)
      for name, size in (('files', 400000), ('rows', 10000)) for call in ('prov', 'prov depends out')
      for value, bound in (('us/edge', 4.0), ('of_bytes', 16.0))),
    *(Aim('table', f'{world} table {place}', MILLION, 'of_replay', 1.1)
      for world in ('change', 'groups') for place in ('first', 'middle', 'last')),
    *(Aim('join', f'{name} join', 500000, 'of_bytes', 3.0) for name in ('same', 'apart')),
    Aim('gen', 'orders', 100000, 'of_imported', 1.0),
    *(package(world, command, bound) for world in ('pick', 'change', 'groups')
      for command, bound in (('record', 1.1), ('replay', 1.0), ('replay excluded', 1.0))),
    Aim('worlds', 'rows', 60, 'MB/s', 120, is_least=True),
    Aim('worlds', 'rows', 60, 'of_input', 5),
    Aim('csv', 'plain', MILLION, 'seconds', 5.0, 'world.py'),
    Aim('csv', 'excel', MILLION, 'seconds', 5.0, 'world.py'),
    Aim('csv', 'guessed', MILLION, 'seconds', 5.0, 'world.py'),
    Aim('calls', 'a world that ends', 200, 'added ms', 5.0, 'script'),
    Aim('capture', 'statements', 100000, 'of_itself', 2.0, 'recorded'),
]


class Judged(NamedTuple):
    """An aim with the value of a line."""

    aim: Aim
    value: float

    @property
    def is_met(self) -> bool:
        return self.aim.is_met(self.value)


def of_line(line: Line, aims: Iterable[Aim] = AIMS) -> List[Judged]:
    """The aims of a line, with what it took."""
    return [Judged(aim, line.values[aim.value]) for aim in aims
            if aim.key() == f'{line.key()}/{aim.value}' and aim.value in line.values]


def of_results(results: Results, aims: Iterable[Aim] = AIMS) -> List[Judged]:
    """All aims whose line was measured, in the order of the aims."""
    found = [(aim, results.value(aim.key())) for aim in aims]
    return [Judged(aim, value) for aim, value in found if value is not None]


def counted(judged: Iterable[Judged]) -> Optional[str]:
    """A line that says how many aims are missed, or nothing if there are none."""
    met = [each.is_met for each in judged]
    return f'aims missed: {met.count(False)} of {len(met)}' if met else None
