#!/usr/bin/env python3
"""Asks texts again and again, and compares each reply with that of a text that is asked once.

    repeated.py PROGRAM [--worlds 100] [--seed 1] [--folder .]

The program keeps texts that were asked before, and puts new parameters into them. Each world here asks its
texts several times. Its twin asks the same questions in the same order, but writes each as a text of its own:
blanks and tabs at its end spell the number of the question. They mean nothing to SQL (docs/SQL.md), so both
worlds have the same outcome, and their packages the same events and rows.

First come worlds that ask for parameters of other kinds, NULLs, wrong numbers of parameters, numbers of rows
after LIMIT, more texts than are kept, texts about as long as those that are kept, refused texts between good
ones, and changes between questions. Then come random worlds of against_sqlite.py, whose texts are asked again
with parameters of any kind.

It prints how many questions were answered by rows, by a change and by each refusal; it ends with status 1 if
two outcomes or packages differ, and keeps both worlds in the folder.
"""
from __future__ import annotations

import argparse
import collections
import itertools
import json
import os
import random
import subprocess
import sys
from typing import Any, Iterator, NamedTuple, Optional, Sequence, Union

from checks import against_sqlite
from checks.against_sqlite import Asked
from ldvtools.errors import Malformed
from ldvtools.outcomes import read_outcome

SECONDS = 120
STEPS = '1000000'
LEAST, MOST = -2 ** 63, 2 ** 63 - 1
# Values of each kind, and those that are near the numbers that stand for open parameters.
VALUES = [None, 0, 1, 2, 3, -1, -2, -3, LEAST, MOST, '', 'a', 'b', '1']
TABLES = {
    't': {'columns': [['k', 'INT NOT NULL'], ['g', 'INT'], ['s', 'TEXT']], 'key': ['k'],
          'rows': [[1, 10, 'a'], [2, None, 'b'], [3, 10, None], [4, -1, 'a'], [5, -2, '']]},
    'u': {'columns': [['t', 'INT'], ['w', 'INT NOT NULL']], 'rows': [[1, 7], [None, 8]],
          'foreign': [[['t'], 't']]},
}

Value = Union[int, str, None]
Counts = collections.Counter[str]


class Question(NamedTuple):
    """A statement with its parameters."""

    text: str
    params: Sequence[Value]


# ---- the questions of the worlds

def rounds(count: int, texts: Sequence[str], params: Sequence[Sequence[Value]]) -> list[Question]:
    """Each text with each of some parameters, so many times."""
    return [Question(text, each) for _ in range(count) for text in texts for each in params]


def other_kinds() -> list[Question]:
    """Texts with one and two parameters, with each value and each pair of kinds."""
    one = ['SELECT k FROM t WHERE k = ?', 'SELECT k FROM t WHERE s = ? OR g IS NULL',
           'SELECT ? AS a, k FROM t', 'SELECT k FROM t WHERE ? IS NULL',
           'SELECT k FROM t UNION SELECT ? FROM t', 'SELECT MAX(?) FROM t',
           'SELECT - ? AS a FROM t WHERE k = 1', 'SELECT -1 + ? AS a, -2 AS b FROM t WHERE k = -(-1)']
    two = ['SELECT k FROM t WHERE ? = ?', 'SELECT k FROM t WHERE g = ? AND s <> ?',
           'UPDATE t SET g = ? WHERE k = ?',
           'SELECT s, COUNT(*) AS n FROM t WHERE k > ? GROUP BY s HAVING MIN(g) < ?']
    return rounds(3, one, [[value] for value in VALUES]) + \
        rounds(3, two, list(itertools.product([None, 1, -1, -2, 'a'], repeat=2)))


def numbers_of_parameters() -> list[Question]:
    """Texts with too few, enough and too many parameters, and with as many as a script can give."""
    wide = [f"SELECT {', '.join('?' * count)} FROM t WHERE k = 1" for count in (254, 255)]
    return rounds(3, ['SELECT k FROM t WHERE k = ? OR k = ?'], [[], [1], [1, 2], [1, 2, 3]]) + \
        [Question(text, [(turn + place) % 9 for place in range(text.count('?'))])
         for turn in range(4) for text in wide]


def limits() -> list[Question]:
    return rounds(3, ['SELECT k FROM t ORDER BY k DESC LIMIT ?'],
                  [[value] for value in (2, 0, 100, MOST, -1, -2, LEAST, None, 'a', 3)] + [[], [1, 2]]) + \
        rounds(2, ['SELECT k FROM t WHERE k > ? ORDER BY k LIMIT ?'],
               [[1, 2], [2, 1], [-1, 2], [2, -1], [None, 1], [1, None], ['a', 1], [1, 'a'], [0, 3]])


def many_texts() -> list[Question]:
    """More texts than are kept, in turn; then some of them alone."""
    texts = [f'SELECT k + {number} AS n FROM t WHERE k >= ?' for number in range(150)]
    questions = [Question(text, [turn]) for count in (64, 65, 66, 150) for turn in range(3)
                 for text in texts[:count]]
    return questions + [Question(text, [turn]) for turn in range(3) for text in texts[::7]]


def long_texts() -> list[Question]:
    """Texts of about 1,024 bytes, or of about as many characters."""
    texts = []
    for fill in ('x', 'é'):
        for size in (1022, 1023, 1024, 1025, 1026):
            front, back = "SELECT k, '", "' AS a FROM t WHERE k = ?"
            room = size - len(front) - len(back)
            texts.append(front + fill * room + back)
            count, rest = divmod(room, len(fill.encode()))
            texts.append(front + fill * count + ' ' * rest + back)
    return [Question(text, [turn]) for turn in (1, 2, -1, None, 'a', 3) for text in texts]


def refused_between() -> list[Question]:
    """Each refusal that statements over these tables meet, between answered ones."""
    asked: list[tuple[str, list[Value]]] = [
             ('SELECT g FROM t WHERE k = ?', [1]), ('SELECT g FROM t WHERE k = = ?', [1]),
             ('SELECT g FROM none WHERE k = ?', [1]), ('SELECT none FROM t WHERE k = ?', [2]),
             ('SELECT g FROM t WHERE k = ?', ['a']), ('INSERT INTO u VALUES (?, ?)', [1, None]),
             ('INSERT INTO t VALUES (?, 1, ?)', [1, 'a']), ('INSERT INTO u VALUES (?, ?)', [77, 1]),
             ('DELETE FROM t WHERE k = ?', [1]), ('INSERT INTO u VALUES (?, ?)', [2, 5]),
             ('SELECT g FROM t WHERE k = ?', [2]), ('UPDATE u SET t = ? WHERE w = ?', [99, 7]),
             ('SELECT COUNT(*) AS n FROM t, u WHERE t.k = ?', [1]), ('SELECT * FROM u', [])]
    return [Question(*each) for _ in range(4) for each in asked]


def changed_between() -> list[Question]:
    """A change and a question after it, of the same texts with other rows."""
    questions = []
    for key in range(6, 40):
        questions += [Question('INSERT INTO t VALUES (?, ?, ?)', [key, key % 3, 'ab'[key % 2]]),
                      Question('SELECT k, g, s FROM t WHERE k = ?', [key]),
                      Question('UPDATE t SET g = g + ?, s = ? WHERE k = ?', [key, 'new', key - 1]),
                      Question('SELECT g, COUNT(*) AS n, MAX(s) AS m FROM t GROUP BY g ORDER BY g', []),
                      Question('INSERT INTO u VALUES (?, ?)', [key, -key]),
                      Question('SELECT t.k, u.w FROM t JOIN u ON t.k = u.t WHERE u.w < ?', [5 - key]),
                      Question('DELETE FROM t WHERE k = ?', [key - 2]),
                      Question('DELETE FROM u WHERE t = ?', [key - 3])]
    return questions


WORLDS = {each.__name__: each for each in (
    other_kinds, numbers_of_parameters, limits, many_texts, long_texts, refused_between, changed_between)}


def any_value(chance: random.Random, value: Value) -> Value:
    """Mostly a value of the same kind, sometimes any other."""
    if value is None or chance.random() < 0.25:
        return chance.choice(VALUES)
    return chance.choice([each for each in VALUES if isinstance(each, type(value))])


def random_world(seed: int) -> tuple[dict[str, Any], list[Question]]:
    """The tables of a world of against_sqlite.py, and its statements, each asked up to six times more, in
    any order."""
    chance = random.Random(seed)
    tables, asked = against_sqlite.made(seed, 12)
    questions = []
    for each in asked:
        questions.append(Question(each.text, each.params))
        for _ in range(chance.choice([0, 2, 6])):
            questions.append(Question(each.text, [any_value(chance, value) for value in each.params]))
    chance.shuffle(questions)
    return against_sqlite.world_of(tables, [])['tables'], questions


# ---- worlds

def as_its_own(place: int, question: Question) -> Question:
    """The question as a text that no other question has: what stands behind it is the place, in binary."""
    tail = f'{place:016b}'.replace('0', ' ').replace('1', '\t')
    return question._replace(text=question.text + tail)


def twin(questions: Sequence[Question]) -> list[Question]:
    return [as_its_own(place, each) for place, each in enumerate(questions)]


def world_of(tables: dict[str, Any], questions: Sequence[Question]) -> bytes:
    """A world of two processes, each of which asks every other question."""
    world = against_sqlite.world_of([], [Asked(each.text, list(each.params)) for each in questions])
    lines = world['files']['main'].splitlines(keepends=True)
    files = {'main': 'spawn c "second" else no\nno:\n' + ''.join(lines[0::2]),
             'second': ''.join(lines[1::2])}
    return json.dumps({**world, 'files': files, 'tables': tables}).encode()


# ---- the program

def answer(program: str, words: list[str], data: bytes) -> bytes:
    """What the program writes."""
    done = subprocess.run([program, *words], input=data, capture_output=True, timeout=SECONDS, check=False)
    if done.returncode != 0:
        said = done.stderr.decode(errors='replace')
        raise Malformed(f"{' '.join(words)}: status {done.returncode}: {said}")
    return done.stdout


def answers(program: str, world: bytes) -> dict[str, bytes]:
    """The outcome of a world, and what its package says of its run."""
    package = answer(program, ['record', '--steps', STEPS], world)
    return {'run': answer(program, ['run', '--steps', STEPS], world),
            **{' '.join(words): answer(program, words, package)
               for words in (['replay'], ['inspect', 'rows'], ['inspect', 'trace'])}}


def counted(outcome: bytes, counts: Counts) -> int:
    """How many replies there are, each counted by its kind."""
    processes, _paths = read_outcome(outcome)
    replies = [reply.brief() for process in processes for reply in process.replies]
    counts.update(f'refused {reply[1]}' if reply[0] == 'refused' else str(reply[0]) for reply in replies)
    return len(replies)


def difference(program: str, tables: dict[str, Any], questions: Sequence[Question],
               counts: Counts) -> Optional[str]:
    """What differs between a world and its twin, or None."""
    try:
        told = answers(program, world_of(tables, questions))
        other = answers(program, world_of(tables, twin(questions)))
        found = counted(told['run'], counts)
    except (Malformed, subprocess.TimeoutExpired) as fault:
        return str(fault)
    if found != len(questions):
        return f'{found} replies to {len(questions)} questions'
    return next((f'`{name}` writes something else' for name in told if told[name] != other[name]), None)


def keep(folder: str, name: str, tables: dict[str, Any], questions: Sequence[Question]) -> None:
    for kind, asked in (('again', questions), ('once', twin(questions))):
        with open(os.path.join(folder, f'repeated_{name}_{kind}.json'), 'wb') as file:
            file.write(world_of(tables, asked))


def worlds(first: int, count: int) -> Iterator[tuple[str, dict[str, Any], Sequence[Question]]]:
    """Each world by its name: its tables and its questions."""
    for name, questions in WORLDS.items():
        yield name, TABLES, questions()
    for seed in range(first, first + count):
        yield (f'seed_{seed}', *random_world(seed))


def main(given: Optional[Sequence[str]] = None) -> int:
    parser = argparse.ArgumentParser(description=__doc__,
                                     formatter_class=argparse.RawDescriptionHelpFormatter)
    parser.add_argument('program')
    parser.add_argument('--worlds', type=int, default=100, metavar='N', help='random ones (default 100)')
    parser.add_argument('--seed', type=int, default=1, metavar='N', help='of the first of them (default 1)')
    parser.add_argument('--folder', default='.', help='where worlds that differ are kept (default: here)')
    words = parser.parse_args(given)
    counts: Counts = collections.Counter()
    wrong = 0
    for name, tables, questions in worlds(words.seed, words.worlds):
        found = difference(words.program, tables, questions, counts)
        if found is not None:
            wrong += 1
            keep(words.folder, name, tables, questions)
            print(f'{name}: {found}')
    for kind, count in sorted(counts.items()):
        print(f'{kind:10} {count:8}')
    print(f'{wrong} worlds differ from their twins')
    return 1 if wrong else 0


if __name__ == '__main__':
    sys.exit(main())
