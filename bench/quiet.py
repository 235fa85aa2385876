"""Runs that count: those during which the host of a virtual machine gave it whole processors.

Linux tells of each processor how long it had work while the host ran something else, the eighth number of
its line in /proc/stat (proc(5), `steal`). Those count on which this process may run, so that a run on one
processor isn't judged by the others. A host can also run slower without telling, so that a fixed loop is
timed after each run. A run is made again if more than 2 % of a processor was withheld, or if the loop took
more than 1.25 times the least that it ever took here, at most ten times as often as runs are wanted; the
rest is taken as it comes, and a line on standard error says so.

A host whose processors do other work all the time is never quiet, but may be steady. `settle` takes what the
loop takes there in the median: a run counts from then on if the loop took no more than 1.25 times as long,
and no less than that divided by 1.25.
"""
from __future__ import annotations

import os
import statistics
import sys
import time
from typing import Callable, Set, Tuple, TypeVar

SHARE = 0.02
PACE = 1.25
TRIES = 10
TURNS = 200_000
SETTLES = 100

T = TypeVar('T')

# The least seconds of the loop, of all calls.
least = [float('inf')]
# The seconds of the loop in the median, or nothing where the least is what counts.
usual = [0.0]


def processors() -> Set[int]:
    """The processors on which this process may run, or none where the system doesn't tell."""
    return os.sched_getaffinity(0) if hasattr(os, 'sched_getaffinity') else set()


def withheld(path: str = '/proc/stat') -> float:
    """Seconds that the host withheld of these since the machine began, or 0 where it isn't told."""
    names = {f'cpu{number}' for number in processors()}
    try:
        with open(path, encoding='ascii') as file:
            lines = [line.split() for line in file if line.startswith('cpu')]
        return sum(int(line[8]) for line in lines if line[0] in names) / os.sysconf('SC_CLK_TCK')
    except (OSError, IndexError, ValueError):
        return 0.0


def pace() -> float:
    """Seconds of a processor for a loop that is always the same; the lesser of two tries."""
    took = []
    for _ in range(2):
        start = time.process_time()
        number = 0
        while number < TURNS:
            number += 1
        took.append(time.process_time() - start)
    return min(took)


def settle(looped: Callable[[], float] = pace) -> float:
    """The seconds of the loop in the median, by which runs are judged from now on."""
    usual[0] = statistics.median(looped() for _ in range(SETTLES))
    return usual[0]


def is_quiet(share: float, loop: float) -> bool:
    """Whether a run counts, by the share that was withheld and the seconds of the loop after it."""
    least[0] = min(least[0], loop)
    if usual[0] > 0.0:
        return share <= SHARE and usual[0] <= PACE * loop and loop <= PACE * usual[0]
    return share <= SHARE and loop <= PACE * least[0]


def judged(run: Callable[[], T], told: Callable[[], float] = withheld,
           looped: Callable[[], float] = pace) -> Tuple[T, bool]:
    """What a run gave, and whether it counts."""
    before, start = told(), time.monotonic()
    gave = run()
    seconds = max(time.monotonic() - start, 0.001)
    return gave, is_quiet((told() - before) / seconds, looped())


def say_withheld() -> None:
    """Says that not each run that is taken is quiet."""
    print('the host withheld processors: not each run is quiet', file=sys.stderr)
