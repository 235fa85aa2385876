"""Tasks that each start two others, as long as there are so many, and write a line.
usage: processes.py N SEED LOG

They take turns under seed 0, and else each turn is drawn.
Each task is a generator: processes of the system would take minutes.
"""
from __future__ import annotations

import collections
import random
import sys
from typing import Callable, Deque, Iterator, List, TextIO

Task = Iterator[None]
ENDED = object()


def task(me: int, most: int, start: Callable[[Task], None], log: TextIO) -> Task:
    for child in (2 * me, 2 * me + 1):
        if child <= most:
            start(task(child, most, start, log))
            yield
    log.write(f"process {me}\n")
    yield


def in_turn(tasks: Deque[Task]) -> None:
    while tasks:
        each = tasks.popleft()
        if next(each, ENDED) is not ENDED:
            tasks.append(each)


def at_random(tasks: List[Task], chance: random.Random) -> None:
    while tasks:
        place = chance.randrange(len(tasks))
        if next(tasks[place], ENDED) is ENDED:
            tasks[place] = tasks[-1]
            tasks.pop()


def main(most: int, seed: int, path: str) -> None:
    drawn: List[Task] = []
    turns: Deque[Task] = collections.deque()
    start: Callable[[Task], None] = drawn.append if seed else turns.append
    with open(path, "w", encoding="utf-8") as log:
        start(task(1, most, start, log))
        if seed:
            at_random(drawn, random.Random(seed))
        else:
            in_turn(turns)


main(int(sys.argv[1]), int(sys.argv[2]), sys.argv[3])
