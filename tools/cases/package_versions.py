#!/usr/bin/env python3
"""Packages of one version as packages of the other.
encoder.py says what both are; nothing is taken from the program.

    python3 tools package_versions 2 <in >out         spells the package on standard input in this version
    python3 tools package_versions --cases FILE..     in files of cases, a line each, spells each output
                                                      that is a package in version 2

package_cases.py writes its `migrations`: valid packages of both versions, and the one that `migrate` makes of
each. No rule of a valid package is tested here: what is read is a package that a run has given, or one of
encoder.py.
"""
from __future__ import annotations

import json
import sys
from typing import Any, Callable, Iterator, Optional

from ldvtools.language import KEYED_REFUSALS
from ldvtools.packages import Event, Log, Package, PackedTable, read_package
from ldvtools.values import Reply

from .encoder import (
    ACTS,
    BASES,
    MAGIC,
    Part,
    act,
    asked,
    check_encoder,
    column,
    encode,
    ended,
    entry,
    file,
    foreign,
    group,
    log,
    made,
    package,
    read,
    row,
    started,
    table,
    waited,
)

# ---- what is read, as encoder.py describes it

def table_of(each: PackedTable) -> Part:
    names = each.names()
    return table(each.name, [column(*one) for one in each.columns], [names.index(name) for name in each.key],
                 each.next,
                 [row(one.number, *one.values, statement=one.statement, rule=one.rule) for one in each.rows],
                 [foreign([names.index(name) for name in one.columns], one.parent) for one in each.foreign])


def reply_of(each: Reply) -> Part:
    if each.kind == 'rows':
        return dict(rows=each.rows)
    if each.kind == 'changed':
        return dict(changed=each.changed)
    taken = dict(table=each.table, key=each.key) if each.code in KEYED_REFUSALS else {}
    return dict(refused=each.code, **taken)


def log_of(each: Log) -> Part:
    process = [int(part) for part in each.process.split('.')]
    return log(process, *[entry(one.text, one.params, reply_of(one.reply)) for one in each.entries])


def groups_of(groups: Any, member: Callable[..., Part]) -> list[Part]:
    return [group(name, *[member(*one) for one in members]) for name, members in groups]


def event_of(each: Event) -> Part:
    name, step, process = ACTS[each.act], each.step, each.process
    if name == 'started':
        return started(each.path, step, process)
    if name == 'waited':
        return waited(each.number, step, process)
    if name == 'ended':
        return ended(step, process, each.number)
    given = each.asked
    if given is not None:
        return asked(given.statement, step, process, given.tables, groups_of(given.reads, read),
                     groups_of(given.made, made))
    return act(name, each.path, step, process, 1 if each.found is None else int(each.found))


def parts_of(found: Package) -> Part:
    """A package that was read, with its events one by one."""
    return package(found.version, mode=1 if found.mode == 'included' else 2, start=found.start,
                   seed=found.seed, steps=found.steps, files=[file(*each) for each in found.files],
                   tables=[table_of(each) for each in found.tables],
                   logs=[log_of(each) for each in found.logs],
                   trace=[event_of(each) for each in found.events])


def spelled(version: int, found: Package) -> bytes:
    """A package that was read, spelled in a version."""
    return encode({**parts_of(found), 'version': version, 'magic': MAGIC[version]})


def in_version(version: int, all: bytes) -> bytes:
    """The package that bytes spell, spelled in a version."""
    found = read_package(all)
    if spelled(found.version, found) != all:
        raise ValueError('not a spelling of the package that it seems to be')
    return spelled(version, found)


# ---- cases

def bytes_of(member: Any) -> bytes:
    return member.encode() if isinstance(member, str) else bytes.fromhex(member['hex'])


def member_of(all: bytes) -> Part:
    return {'hex': all.hex()}


def converted(line: str) -> str:
    """A line of a file of cases, its output in version 2 where it is a package of version 1."""
    if not line.startswith('{'):
        return line
    case = json.loads(line.rstrip(','))
    output = bytes_of(case['output'])
    if not output.startswith(MAGIC[1]):
        return line
    case['output'] = member_of(in_version(2, output))
    return json.dumps(case, ensure_ascii=line.isascii()) + (',' if line.endswith(',') else '')


def migration(name: str, given: bytes, output: bytes) -> Part:
    return {'name': name, 'words': ['migrate'], 'input': member_of(given), 'status': 0,
            'output': member_of(output), 'error': ''}


def migrations() -> Iterator[Part]:
    """Each base in version 1, and what came of it migrated again."""
    for name, p in BASES.items():
        if p['version'] == 1:
            old, new = encode(p), in_version(2, encode(p))
            yield migration('migrate: %s' % name, old, new)
            yield migration('migrate: %s, migrated again' % name, new, new)
    yield migration('migrate: a file read three times', in_version(1, encode(BASES['loop'])),
                    encode(BASES['loop']))
    yield migration('migrate: a file read three times, in runs', encode(BASES['loop']), encode(BASES['loop']))


def main(words: list[str]) -> Optional[str]:
    check_encoder()
    if words in (['1'], ['2']):
        sys.stdout.buffer.write(in_version(int(words[0]), sys.stdin.buffer.read()))
    elif len(words) > 1 and words[0] == '--cases':
        for path in words[1:]:
            with open(path) as there:
                text = there.read()
            with open(path, 'w') as out:
                out.write('\n'.join(map(converted, text.split('\n'))))
    else:
        return __doc__
    return None


if __name__ == '__main__':
    sys.exit(main(sys.argv[1:]))
