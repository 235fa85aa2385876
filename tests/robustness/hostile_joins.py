"""Pairs of packages and joined packages that are made to break the program, and what `join` has to say of a
pair."""
from __future__ import annotations

import contextlib
import random
from typing import Any, Callable, Optional, Sequence

from cases.encoder import Part, encode, foreign
from cases.package_versions import parts_of
from cases.packages_joined import joined
from hostile_packages import (
    EDGES,
    FEW_EVENTS,
    NO_SPELLING,
    Answer,
    mutated_bytes,
    mutated_package,
    read,
    with_digest,
)
from ldvtools.errors import Malformed
from ldvtools.join import clash_of
from ldvtools.packages import Joined, read_any, read_package

LENGTH = 4
MANY_ROWS = 10_000
DIGEST_LENGTH = 32


# ---- pairs

def sized(data: bytes) -> bytes:
    """A package with its length before it."""
    return len(data).to_bytes(LENGTH, 'big') + data


def pair_in(data: bytes) -> Optional[list[bytes]]:
    """The two packages of an input of `join`; None where it isn't made of them and their lengths."""
    found: list[bytes] = []
    while len(found) < 2 and len(data) >= LENGTH + int.from_bytes(data[:LENGTH], 'big'):
        end = LENGTH + int.from_bytes(data[:LENGTH], 'big')
        found.append(data[LENGTH:end])
        data = data[end:]
    return None if data or len(found) < 2 else found


def changed_file(rng: random.Random, parts: Part) -> None:
    each = rng.choice(parts['files'])
    if each['path'] == parts['start'][0] and rng.random() < 0.7:
        parts['start'] = parts['start'] + [rng.choice(('', 'x'))]
    else:
        each['content'] = rng.choice((None, b'', b'exit 0\n', (each['content'] or b'') + b'\n'))


def referring(rng: random.Random, each: Part, parent: Part) -> list[int]:
    """Columns of a table that fit the key of a parent, as far as there are such."""
    found = []
    for place in parent['key']:
        kind = parent['columns'][place]['kind'].split(' ')[0]
        fitting = [n for n, column in enumerate(each['columns'])
                   if n not in found and column['kind'].split(' ')[0] == kind]
        found += rng.sample(fitting, min(len(fitting), 1))
    return found


def changed_foreign(rng: random.Random, each: Part, tables: list[Part]) -> None:
    """A table with other foreign keys: one fewer, all in another order, one to another parent or of other
    columns, or one more."""
    keys, parent, how = each['foreign'], rng.choice(tables), rng.randrange(5)
    if how == 0 and keys:
        del keys[rng.randrange(len(keys))]
    elif how == 1 and len(keys) > 1:
        keys.reverse()
    elif how == 2 and keys:
        rng.choice(keys)['parent'] = parent['name']
    elif how == 3 and keys:
        rng.shuffle(rng.choice(keys)['columns'])
    else:
        keys.append(foreign(referring(rng, each, parent), parent['name']))


def changed_table(rng: random.Random, parts: Part) -> None:
    each = rng.choice(parts['tables'])
    how = rng.randrange(6)
    if how == 0:
        each['next'] = rng.choice((each['next'] + 1, 4_294_967_295))
    elif how == 1:
        each['key'] = each['key'][:-1]
    elif how == 2:
        each['columns'][rng.randrange(len(each['columns']))]['name'] += '_'
    elif how in (3, 4):
        changed_foreign(rng, each, parts['tables'])
    else:
        parts['tables'].remove(each)


def changed_rows(rng: random.Random, parts: Part) -> None:
    """A row goes, or it has another value or another number, or there is another row."""
    each = rng.choice([table for table in parts['tables'] if table['rows']])
    rows = each['rows']
    at, how = rng.randrange(len(rows)), rng.randrange(4)
    free = sorted(set(range(min(each['next'], MANY_ROWS))) - {row['number'] for row in rows})
    if how == 0:
        del rows[at]
    elif how == 1 or not free:
        values = rows[at]['values']
        place = rng.randrange(len(values))
        values[place] = rng.choice((None, 0, 1, -1, '', 'a', values[place]))
    elif how == 2:
        rows[at]['number'] = rng.choice(free)
    else:
        values = [value + 1000 if isinstance(value, int) else value for value in rows[at]['values']]
        rows.append({**rows[at], 'number': rng.choice(free), 'values': values})
    rows.sort(key=lambda row: row['number'])


def changed_package(rng: random.Random, data: bytes) -> bytes:
    """A package that differs in a file, a table, a row or its seed, and is mostly valid; the bytes where they
    spell none."""
    found = read(data)
    if found is None or found.mode != 'included':
        return data
    parts = parts_of(found)
    ways: list[Callable[[], None]] = [lambda: parts.update(seed=rng.choice((0, 1, 2 ** 64 - 1)))]
    if parts['files']:
        ways.append(lambda: changed_file(rng, parts))
    if parts['tables']:
        ways.append(lambda: changed_table(rng, parts))
    if any(table['rows'] for table in parts['tables']):
        ways += [lambda: changed_rows(rng, parts)] * 3
    for _ in range(rng.choice((1, 1, 2))):
        # What was there at first may have been taken out.
        with contextlib.suppress(IndexError):
            rng.choice(ways)()
    try:
        return encode(parts)
    except NO_SPELLING:
        return data


def mutated_pair(rng: random.Random, packages: Sequence[bytes], others: Sequence[bytes]) -> bytes:
    """An input of `join`: two packages, mostly two that are alike, and now and then no pair."""
    first = rng.choice(packages)
    how = rng.random()
    second = first if how < 0.1 else changed_package(rng, first) if how < 0.8 else rng.choice(others)
    pair = [mutated_package(rng, each) if rng.random() < 0.05 else each for each in (first, second)]
    if rng.random() < 0.5:
        pair.reverse()
    data = b''.join(map(sized, pair))
    if rng.random() < 0.05:
        length = rng.choice(EDGES) % 256 ** LENGTH
        at = rng.choice((0, LENGTH + len(pair[0])))
        data = data[:at] + length.to_bytes(LENGTH, 'big') + data[at + LENGTH:]
    return mutated_bytes(rng, data) if rng.random() < 0.05 else data


def judges(data: bytes, answer: Answer) -> Optional[str]:
    """What isn't as it has to be in an answer of `join` to a pair of packages, or None: the clash and the
    joined package are those that tools/ finds."""
    status, output, error = answer
    if status not in (0, 15):
        return None
    pair = pair_in(data)
    if pair is None:
        return 'status %r where the input is no pair' % status
    try:
        first, second = map(read_package, pair)
    except Malformed as fault:
        return 'status %r where a package is none: %s' % (status, fault)
    if max(first.event_count(), second.event_count()) > FEW_EVENTS:
        return None
    clash = clash_of(first, second)
    if status == 15:
        named = clash and ('ldv: clash: %s\n' % clash.name).encode()
        return None if error == named else 'it names %r, and %r differs first' % (error, named)
    if clash is not None:
        return 'status 0 where %s differs' % clash.name
    return None if output == joined(first, second) else 'the joined package is another one'


# ---- joined packages

def sections(data: bytes) -> list[bytes]:
    """The sections of a joined package that was read, but its digest."""
    found, at = [], 0
    for size in read_any(data).sizes.values():
        found.append(data[at:at + size])
        at += size
    return found[:-1]


def moved_sections(rng: random.Random, data: bytes, other: bytes) -> Optional[bytes]:
    """A joined package whose runs are exchanged, or that has sections of another one; None where one of the
    two is none."""
    try:
        mine, others = sections(data), sections(other)
    except Malformed:
        return None
    how = rng.randrange(4)
    if how == 0:
        mine[-2:] = reversed(mine[-2:])
    elif how == 1:
        mine[-1] = mine[-2]
    else:
        at = rng.randrange(1, len(mine))
        mine[at] = others[at]
    return with_digest(b''.join(mine) + bytes(DIGEST_LENGTH))


def mutated_joined(rng: random.Random, packages: Sequence[bytes]) -> bytes:
    """A joined package that is made another one; now and then one as it is."""
    data = rng.choice(packages)
    how = rng.random()
    if how < 0.1:
        return data
    if how < 0.15 or len(data) <= DIGEST_LENGTH:
        return mutated_bytes(rng, data)
    moved = moved_sections(rng, data, rng.choice(packages)) if how < 0.4 else None
    return moved or with_digest(mutated_bytes(rng, data[:-DIGEST_LENGTH]) + bytes(DIGEST_LENGTH))


def is_joined(data: bytes) -> bool:
    """Whether bytes can be read as a joined package."""
    try:
        return isinstance(read_any(data), Joined)
    except Malformed:
        return False


# ---- runs of one world

def joins(calls: Any, package: bytes, outcome: bytes, other: bytes, other_outcome: bytes) -> Optional[str]:
    """What isn't as it has to be where the packages of two runs over one database are joined, and each run is
    replayed; or None."""
    status, both, _ = calls.call(['join'], sized(package) + sized(other))
    if status in (5, 11, 12):
        return None
    if status != 0:
        return 'two packages of one world are joined with status %r' % status
    for number, wanted in (('1', outcome), ('2', other_outcome)):
        status, replayed, _ = calls.call(['replay', '--run', number], both)
        if status != 11 and (status != 0 or replayed != wanted):
            return 'the replay of run %s differs from the run (status %r)' % (number, status)
    return None
