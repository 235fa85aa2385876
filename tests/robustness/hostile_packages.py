"""Packages that are made to break the program: with other bytes, under the other version, with other runs.
The digest of most is right again."""
from __future__ import annotations

import hashlib
import random
from typing import Optional

from cases.encoder import MAGIC, Part, cut, encode
from cases.encoder import run as run_of
from cases.package_versions import event_of, in_version, parts_of
from ldvtools.errors import Malformed
from ldvtools.packages import Package, read_package

# What a call ended with, if it did in time, and what it wrote: output and message.
Answer = tuple[Optional[int], bytes, bytes]
DIGEST_LENGTH = 32
EDGES = [0, 1, 2, 255, 256, 65535, 65536, 2**31 - 1, 2**31, 2**32 - 1, 2**32, 2**63 - 1, 2**63, 2**64 - 1,
         2**64]
WORD = 2 ** 32
MAX_EVENTS = 20_000_001
# A package with more events isn't spelled in version 1, nor are its runs made others.
FEW_EVENTS = 20_000
# What spelling raises for a package that can be read and has no such spelling: steps that go down, or above
# 32 bits, or a process without a number.
NO_SPELLING = (ValueError, OverflowError)


# ---- bytes

def mutated_bytes(rng: random.Random, data: bytes) -> bytes:
    """The bytes with some places changed, cut, doubled or moved."""
    data = bytearray(data)
    for _ in range(rng.choice((1, 1, 1, 2, 3, 8))):
        if not data:
            data = bytearray(rng.randbytes(rng.randrange(64)))
        at = rng.randrange(len(data) + 1)
        span = rng.choice((1, 1, 2, 4, 8, 30))
        how = rng.randrange(8)
        if how == 0:
            data[at:at + 1] = bytes([rng.randrange(256)])
        elif how == 1:
            data[at:at + 1] = bytes([data[at] ^ 1 << rng.randrange(8)]) if at < len(data) else b'\xff'
        elif how == 2:
            del data[at:at + span]
        elif how == 3:
            data[at:at] = data[at:at + span]
        elif how == 4:
            width = rng.choice((1, 4, 8))
            data[at:at + width] = (rng.choice(EDGES) % 256**width).to_bytes(width, 'big')
        elif how == 5:
            data[at:at] = rng.randbytes(span)
        elif how == 6:
            other = rng.randrange(len(data) + 1)
            data[at:at] = data[other:other + span]
        else:
            del data[at:]
    return bytes(data)


def with_digest(data: bytes) -> bytes:
    """The package with the digest that its other bytes have."""
    body = data[:-DIGEST_LENGTH]
    return body + hashlib.sha256(body).digest()


# ---- versions and runs

def read(data: bytes) -> Optional[Package]:
    """The package that bytes spell, where it has few events, or None."""
    try:
        found = read_package(data)
    except Malformed:
        return None
    return found if found.event_count() <= FEW_EVENTS else None


def in_other_version(data: bytes) -> bytes:
    """The package that bytes spell in the other version; the bytes where they spell none, or one that has no
    spelling there."""
    found = read(data)
    try:
        return in_version(3 - found.version, data) if found else data
    except NO_SPELLING:
        return data


def with_other_magic(data: bytes) -> bytes:
    """The bytes under the magic of the other version."""
    return with_digest((MAGIC[1] if data.startswith(MAGIC[2]) else MAGIC[2]) + data[len(MAGIC[1]):])


def runs_of(found: Package) -> list[Part]:
    """The runs of a package of either version."""
    if found.version == 1:
        return cut(event_of(each) for each in found.events)
    return [run_of(event_of(each.first), each.times, each.stride) for each in found.runs]


def mutated_number(rng: random.Random, number: int) -> int:
    others = (number + 1, number - 1, 0, 1, 2, rng.choice(EDGES), WORD - 1 - number, rng.randrange(WORD))
    return rng.choice(others) % WORD


def mutate_run(rng: random.Random, runs: list[Part]) -> None:
    """Changes the runs of a package in one place."""
    at = rng.randrange(len(runs))
    here, how = runs[at], rng.randrange(8)
    if how <= 2:
        name = ('count', 'stride')[how % 2]
        runs[at] = {**here, name: mutated_number(rng, here[name])}
    elif how == 3:
        runs[at] = {**here, 'first': {**here['first'], 'step': mutated_number(rng, here['first']['step'])}}
    elif how == 4:
        # As many events as a trace may have, or one more.
        others = sum(each['count'] for each in runs) - here['count']
        runs[at] = {**here, 'count': max(0, MAX_EVENTS + rng.randrange(2) - others) % WORD}
    elif how == 5 and here['count'] > 1:
        # The same events, in a run that could be longer.
        count = rng.randrange(1, here['count'])
        later = {**here['first'], 'step': (here['first']['step'] + count * here['stride']) % WORD}
        runs[at:at + 1] = [{**here, 'count': count, 'stride': here['stride'] if count > 1 else 0},
                           run_of(later, here['count'] - count, here['stride'])]
    elif how == 6:
        runs.insert(at, here)
    else:
        runs.insert(rng.randrange(len(runs)), runs.pop(at))


def with_other_runs(rng: random.Random, data: bytes) -> Optional[bytes]:
    """The package that bytes spell in version 2, with other runs; None where they spell none, or one that has
    no spelling there."""
    found = read(data)
    runs = runs_of(found) if found else []
    if found is None or not runs:
        return None
    for _ in range(rng.choice((1, 1, 2))):
        mutate_run(rng, runs)
    try:
        return encode({**parts_of(found._replace(runs=[])), 'version': 2, 'magic': MAGIC[2], 'runs': runs})
    except NO_SPELLING:
        return None


def mutated_package(rng: random.Random, data: bytes) -> bytes:
    if rng.random() < 0.3:
        data = in_other_version(data)
    how = rng.random()
    if len(data) <= DIGEST_LENGTH or how < 0.05:
        return mutated_bytes(rng, data)
    if how < 0.1:
        return with_other_magic(data)
    other = with_other_runs(rng, data) if how < 0.4 else None
    return other or with_digest(mutated_bytes(rng, data[:-DIGEST_LENGTH]) + bytes(DIGEST_LENGTH))
