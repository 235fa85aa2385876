#!/usr/bin/env python3
"""Refuses the program its memory, one request at a time, and looks at each answer.

    refused.py PROGRAM SHIM [--world FILE] [--jobs J]

Each command is run over a world (default: examples/orders.json) or its packages, first with nothing refused,
to count its requests of memory, then once for each of them with that one refused. Each such answer has to be
`ldv: out of memory` with status 11 and no output, or the very answer with nothing refused, where less memory
does as well. SHIM is refuse.c as a shared library. `table` and `inspect why` are run where the package of the
world has a row.

It prints the number of requests by command, how many of them the command did without, and how many answers
are others; it ends with status 1 where there are such, or where no request was counted.
"""
from __future__ import annotations

import argparse
import concurrent.futures
import functools
import os
import subprocess
import sys
import tempfile
from typing import Iterator, Optional, Sequence

HERE = os.path.dirname(os.path.abspath(__file__))
from ldvtools.join import sized
from ldvtools.packages import Package, read_package

SECONDS = 60
NO_MEMORY = 11
REFUSED = (NO_MEMORY, b'', b'ldv: out of memory\n')


# What a call ended with, if it did in time, and what it wrote: output and message.
Answer = tuple[Optional[int], bytes, bytes]


class Program:
    """The program with a shim between it and the C library."""

    def __init__(self, path: str, shim: str, folder: str) -> None:
        self.path, self.shim, self.folder = path, shim, folder

    def call(self, words: list[str], data: bytes, refused: int = 0, count: str = '') -> Answer:
        """Status, output and message, where the request of that number is refused.
        No status: no answer in time."""
        try:
            done = subprocess.run([self.path, *words], input=data, capture_output=True, timeout=SECONDS,
                                  env=dict(LD_PRELOAD=self.shim, REFUSE_AT=str(refused), REFUSE_COUNT=count))
        except subprocess.TimeoutExpired:
            return None, b'', b''
        return done.returncode, done.stdout, done.stderr

    def requests(self, words: list[str], data: bytes) -> tuple[int, bytes]:
        """How often the call asks for memory, and its output."""
        count = os.path.join(self.folder, 'count')
        # Not that of the call before.
        if os.path.exists(count):
            os.remove(count)
        status, output, message = self.call(words, data, count=count)
        error = message.decode(errors='replace')
        if status != 0:
            sys.exit('refused.py: %s: status %s: %s' % (' '.join(words), status, error))
        if not os.path.exists(count):
            sys.exit('refused.py: %s: %s was not taken in: %s' % (' '.join(words), self.shim, error))
        with open(count, encoding='ascii') as given:
            number = int(given.read())
        if number == 0:
            sys.exit('refused.py: %s: no request of memory goes through the C library' % ' '.join(words))
        return number, output


def calls_of(program: Program, world: bytes) -> Iterator[tuple[list[str], bytes]]:
    """Each command with its input: those of a world, and those of its packages."""
    included = program.requests(['record'], world)[1]
    excluded = program.requests(['record', '--excluded'], world)[1]
    for words in (['run'], ['record'], ['record', '--excluded']):
        yield words, world
    for words in (['replay'], ['audit'], ['inspect', 'rows'], ['inspect', 'files'], ['inspect', 'trace'],
                  ['migrate'], *items_of(read_package(included))):
        yield words, included
    yield ['replay'], excluded
    pair = sized(included) + sized(included)
    yield ['join'], pair
    yield ['replay', '--run', '2'], program.requests(['join'], pair)[1]
    yield ['gen', '2'], b''


def items_of(package: Package) -> Iterator[list[str]]:
    """The commands that name an item: the last path of the trace, a row, and its table at the last step."""
    # The first event has a path. An act that says whether the file was there may be one that found none.
    *_, path = (event.path for event in package.events if event.path and event.found is None)
    yield ['inspect', 'depends', path]
    for table in reversed(package.tables):
        for row in table.rows[:1]:
            yield ['inspect', 'why', table.name, str(row.number)]
            yield ['table', table.name, str(package.steps)]
            return


def main(words: Optional[Sequence[str]] = None) -> int:
    parser = argparse.ArgumentParser(description=__doc__,
                                     formatter_class=argparse.RawDescriptionHelpFormatter)
    parser.add_argument('program')
    parser.add_argument('shim')
    parser.add_argument('--world', default=os.path.join(HERE, '../../examples/orders.json'))
    parser.add_argument('--jobs', type=int, default=os.cpu_count())
    given = parser.parse_args(words)
    for path in (given.program, given.shim, given.world):
        if not os.path.isfile(path):
            parser.error('there is no file %s' % path)
    with open(given.world, 'rb') as file:
        world = file.read()
    wrong = 0
    with tempfile.TemporaryDirectory() as folder, concurrent.futures.ThreadPoolExecutor(given.jobs) as pool:
        program = Program(os.path.abspath(given.program), os.path.abspath(given.shim), folder)
        for called, data in calls_of(program, world):
            count, output = program.requests(called, data)
            given_up = pool.map(functools.partial(program.call, called, data), range(1, count + 1))
            answers = [(number, answer) for number, answer in enumerate(given_up, 1) if answer != REFUSED]
            others = [(number, answer) for number, answer in answers if answer != (0, output, b'')]
            wrong += len(others)
            print('%s: %d requests, %d done without, %d answered otherwise'
                  % (' '.join(called), count, len(answers) - len(others), len(others)), flush=True)
            for number, (status, written, error) in others[:5]:
                print('  request %d: status %s, %d bytes, %.80r' % (number, status, len(written), error))
    return 1 if wrong else 0


if __name__ == '__main__':
    sys.exit(main())
