"""Joined packages as Python structures, and their bytes: written from docs/FORMATS.md and from nothing else.

A joined package is a dict of its sections, whose `runs` are two: what each needs, and its trace. As in
encoder.py, raw bytes may stand in place of any field, and a list or a text may say another count than it
has.
"""
from __future__ import annotations

import hashlib
from typing import Any, Iterable

from ldvtools.packages import Package

from .encoder import (
    BASES,
    Part,
    spell_file,
    spell_list,
    spell_number,
    spell_rule,
    spell_table,
    spell_text,
    spell_trace,
    spell_u32,
    spell_value,
)
from .package_versions import parts_of

MAGIC = b'LDVJOIN1'


# ---- what two packages are joined to

def reason(table: str, row: int, statement: int = 0, rule: Any = 'L') -> Part:
    """Why a run needs a row: the statement that needed it first, and the rule."""
    return dict(table=table, row=row, statement=statement, rule=rule)


def picked(p: Part) -> Part:
    """What a run of a joined package says of its package."""
    return dict(start=p['start'], seed=p['seed'], steps=p['steps'],
                wholes=[f['path'] for f in p['files'] if f['content'] is not None],
                presents=[f['path'] for f in p['files'] if f['content'] is None],
                tables=[t['name'] for t in p['tables']],
                reasons=[reason(t['name'], r['number'], r['statement'], r['rule'])
                         for t in p['tables'] for r in t['rows']],
                trace=p['trace'], runs=p['runs'])


def common_files(packages: Iterable[Part]) -> list[Part]:
    files: dict[str, Part] = {}
    for f in (f for p in packages for f in p['files']):
        if files.get(f['path'], {}).get('content') is None:
            files[f['path']] = f
    return [files[path] for path in sorted(files, key=str.encode)]


def common_tables(packages: Iterable[Part]) -> list[Part]:
    tables: dict[str, Part] = {}
    rows: dict[str, dict[int, Part]] = {}
    for t in (t for p in packages for t in p['tables']):
        rows.setdefault(t['name'], {}).update({r['number']: r for r in t['rows']})
        tables[t['name']] = t
    return [{**tables[name], 'rows': [rows[name][number] for number in sorted(rows[name])]}
            for name in sorted(tables)]


def joined_parts(first: Part, second: Part) -> Part:
    """The joined package of two packages of encoder.py that don't clash."""
    both = first, second
    return dict(magic=MAGIC, files=common_files(both), tables=common_tables(both),
                runs=[picked(p) for p in both], body=lambda body: body,
                digest=lambda body: hashlib.sha256(body).digest(), whole=lambda all: all)


# ---- the encoder

def spell_bare_row(r: Part) -> bytes:
    """A row of the common tables, which don't say why it is there."""
    return spell_u32(r['number']) + b''.join(map(spell_value, r['values']))


def spell_reason(each: Part) -> bytes:
    return (spell_text(each['table']) + spell_u32(each['row']) + spell_u32(each['statement'])
            + spell_rule(each['rule']))


def spell_picked(r: Part) -> bytes:
    return (spell_list(2, r['start'], spell_text) + spell_number(8, r['seed']) + spell_u32(r['steps'])
            + spell_list(4, r['wholes'], spell_text) + spell_list(4, r['presents'], spell_text)
            + spell_list(2, r['tables'], spell_text) + spell_list(4, r['reasons'], spell_reason)
            + spell_trace({**r, 'version': 2}))


def encode_joined(j: Part) -> bytes:
    body = j['body'](j['magic'] + spell_list(4, j['files'], spell_file)
                     + spell_list(2, j['tables'], spell_table(2, spell_bare_row))
                     + b''.join(map(spell_picked, j['runs'])))
    whole: bytes = j['whole'](body + j['digest'](body))
    return whole


# The worked example of docs/FORMATS.md without its digest: the first base in runs, joined with itself.
WORKED = ('4c44564a4f494e31' '00000001' '000000046d61696e' '01' '00000006657869742030' '0000') + 2 * (
    '0001' '000000046d61696e' '0000000000000000' '00000001' '00000001' '000000046d61696e' '00000000' '0000'
    '00000000' '00000002' '0000000000000000' '00' '000000046d61696e' '00000001' '00000000' '0000000100000000'
    '0d' '00' '00000001' '00000000')


def check_joined() -> None:
    base = BASES['plain in runs']
    if encode_joined(joined_parts(base, base))[:-32].hex() != WORKED:
        raise SystemExit('the encoder differs from the worked example of a joined package')


def joined(first: Package, second: Package) -> bytes:
    """The bytes of the joined package of two packages that were read and don't clash."""
    return encode_joined(joined_parts(parts_of(first), parts_of(second)))
