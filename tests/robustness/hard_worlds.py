#!/usr/bin/env python3
"""What `ldv` takes for inputs that are made to be dear, as a multiple of a usual input of the same size.

    hard_worlds.py LDV FOLDER [--scale 1.0] [--runs 3] [--worlds cut,union,..]

A pair is a hard and a usual input of one command. They have about as many bytes, steps, rows or combinations,
and differ in the one thing that the pair names. There are worlds that are dear by their scripts
(hard_scripts.py) or by their statements (hard_statements.py), documents of worlds that are dear to read
(hard_documents.py), and packages and provenance documents (hard_packages.py). `--scale` makes all of them
smaller.

Seconds are the least of some runs, of a processor, and MiB the greatest, both with the load. At most three
times the usual seconds and twice the usual MiB are aimed at, and the last line says how many of both are
missed.
"""
from __future__ import annotations

import argparse
import os
import sys
from typing import Union

import hard_documents
import hard_packages
import hard_scripts
import hard_statements
from multiples import Tally, least, ratio

PAIRS = {**hard_scripts.PAIRS, **hard_statements.PAIRS, **hard_documents.PAIRS, **hard_packages.PAIRS}
# The commands that take a number of steps.
RUNS = ('run', 'record', 'replay', 'audit')
STEPS = ('--steps', '10000000')
# How many times the usual seconds and the usual memory a hard input may take.
MOST, MOST_MEMORY = 3.0, 2.0


def taken(given: argparse.Namespace, name: str, data: Union[str, bytes], wanted: int) -> tuple[float, float]:
    """The least seconds and the greatest MiB of some runs of one input of a pair."""
    path, outcome = (os.path.join(given.folder, file) for file in ('world', 'outcome'))
    with open(path, 'wb') as file:
        file.write(data if isinstance(data, bytes) else data.encode())
    words = PAIRS[name].words
    words += STEPS if words[0] in RUNS else ()
    status, seconds, memory = least([given.ldv, *words], path, outcome, given.runs)
    if status != wanted:
        sys.exit(f'hard_worlds: {name} ended with {status} and not with {wanted}')
    return seconds, memory


def measure(given: argparse.Namespace, name: str) -> None:
    pair = PAIRS[name]
    hard, usual = pair.make(max(4, int(pair.size * given.scale)))
    seconds, memory = taken(given, name, hard, pair.statuses[0])
    usual_seconds, usual_memory = taken(given, name, usual, pair.statuses[1])
    times, more = ratio(seconds, usual_seconds), ratio(memory, usual_memory)
    aim = given.tally.noted(times, MOST)
    aim_memory = given.tally.noted(more, MOST_MEMORY)
    print(f'{name:20s} {seconds:9.3f} {usual_seconds:9.3f} {times:9.2f} {aim:>6s}'
          f' {memory:9.1f} {usual_memory:9.1f} {more:9.2f} {aim_memory:>6s}', flush=True)


def arguments() -> argparse.Namespace:
    parser = argparse.ArgumentParser(description=__doc__,
                                     formatter_class=argparse.RawDescriptionHelpFormatter)
    parser.add_argument('ldv')
    parser.add_argument('folder')
    parser.add_argument('--scale', type=float, default=1.0)
    parser.add_argument('--runs', type=int, default=3)
    parser.add_argument('--worlds', default=','.join(PAIRS))
    return parser.parse_args()


def main() -> None:
    given = arguments()
    given.tally = Tally()
    print(f'{"world":20s} {"seconds":>9s} {"usual":>9s} {"of-usual":>9s} {"aim":>6s}'
          f' {"MiB":>9s} {"usual":>9s} {"of-usual":>9s} {"aim":>6s}')
    for name in given.worlds.split(','):
        measure(given, name)
    print(given.tally.last_line())


if __name__ == '__main__':
    main()
