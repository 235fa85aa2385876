"""Packages as Python structures, and their bytes: written from docs/FORMATS.md and from nothing else.

A package is a dict of its sections. A file without content (None) is present only. Raw bytes may stand in
place of any field, and a list or text may say another count than it has, so that what is no package can be
spelled too.

A package is spelled in version 1 or 2. In version 2 the trace stands in runs, which are the cut of its events
or, where `runs` is no None, those that it lists.
"""
from __future__ import annotations

import copy
import hashlib
import json
from typing import Any, Callable, Iterable, Iterator, NamedTuple, Optional, Union

# A part of a package: its fields by their names. And the new values of a package, by their paths in it.
Part = dict[str, Any]
Change = dict[str, Any]
# What a field is, or one of the two that stand in its place.
Field = Any


class Raw(NamedTuple):
    """These bytes in place of a field."""

    of: bytes


class Said(NamedTuple):
    """A list, a text or bytes, with another length before it."""

    length: int
    of: Any


# ---- parts of packages


def file(path: Field, content: Field = None) -> Part:
    return dict(path=path, content=content)


def column(name: Field, kind: Field = 'INT') -> Part:
    return dict(name=name, kind=kind)


def row(number: Field, *values: Field, statement: Field = 0, rule: Field = 'L') -> Part:
    return dict(number=number, statement=statement, rule=rule, values=list(values))


def table(name: Field, columns: Iterable[Part], key: Iterable[int] = (), next: Field = 9,
          rows: Iterable[Part] = (), foreign: Iterable[Part] = ()) -> Part:
    return dict(name=name, columns=columns, key=list(key), next=next, rows=list(rows), foreign=list(foreign))


def foreign(columns: Iterable[int], parent: Field) -> Part:
    """A foreign key: the places of its columns, and the table to whose key they refer."""
    return dict(columns=list(columns), parent=parent)


def log(process: Field, *entries: Part) -> Part:
    return dict(process=process, entries=list(entries) or [entry()])


def entry(text: Field = 'SELECT 1', params: Field = (), reply: Field = None) -> Part:
    return dict(text=text, params=params, reply=reply or dict(changed=0))


def started(path: Field = 'main', step: int = 0, process: int = 0) -> Part:
    return dict(step=step, process=process, act='started', path=path)


def act(name: str, path: Field = 'f', step: int = 1, process: int = 0, found: int = 1) -> Part:
    return dict(step=step, process=process, act=name, path=path, found=found)


def spawned(step: int = 1, process: int = 0, path: Field = 'f') -> Part:
    return act('spawned', path, step, process)


def waited(child: int, step: int = 1, process: int = 0) -> Part:
    return dict(step=step, process=process, act='waited', child=child)


def ended(step: int = 1, process: int = 0, status: int = 0) -> Part:
    return dict(step=step, process=process, act='ended', status=status)


def asked(statement: int = 0, step: int = 1, process: int = 0, tables: Iterable[Field] = (),
          reads: Iterable[Part] = (), made: Iterable[Part] = ()) -> Part:
    return dict(step=step, process=process, act='asked', statement=statement, tables=list(tables),
                reads=list(reads), made=list(made))


def read(row: int, version: int = 0, rule: Field = 'L') -> Part:
    return dict(row=row, version=version, rule=rule)


def made(row: int, version: int = 1) -> Part:
    return dict(row=row, version=version)


def group(table: Field, *rows: Part) -> Part:
    return dict(table=table, rows=list(rows))


def run(first: Part, count: Field = 1, stride: Field = 0) -> Part:
    """Events that differ in their steps alone: the first, how many there are, and from step to step."""
    return dict(first=first, count=count, stride=stride)


def alike(one: Part, other: Part) -> bool:
    return {**one, 'step': 0} == {**other, 'step': 0}


def cut(events: Iterable[Part]) -> list[Part]:
    """The runs of a list of events, from its front. Each goes on as far as the list allows."""
    events, at = list(events), 0
    runs: list[Part] = []
    while at < len(events):
        first, count, stride = events[at], 1, 0
        if at + 1 < len(events) and alike(first, events[at + 1]):
            stride = events[at + 1]['step'] - first['step']
            while (at + count < len(events) and alike(first, events[at + count])
                    and events[at + count]['step'] == first['step'] + count * stride):
                count += 1
        runs.append(run(first, count, stride))
        at += count
    return runs


# ---- bases

ACTS = ['started', 'spawned', 'unspawned', 'opened read', 'opened write', 'opened append', 'opened new',
        'unopened', 'read', 'wrote', 'removed', 'tested', 'waited', 'ended', 'asked']
FLAGGED = ['unspawned', 'opened append', 'unopened', 'tested']

# How the digest is made of the bytes before it, and what is done to these bytes and to all of them.
WAYS = ('digest', 'body', 'whole')

MAGIC = {1: b'LDVPACK1', 2: b'LDVPACK2'}


def package(version: int = 1, **parts: Any) -> Part:
    given = dict(version=version, magic=MAGIC[version], runs=None, mode=1, start=['main'], seed=0, steps=1,
                 files=[file('main', 'exit 0')], tables=[],
                 logs=[], trace=[started(), ended()], digest=lambda body: hashlib.sha256(body).digest(),
                 body=lambda body: body, whole=lambda all: all, output=None)
    given.update(parts)
    return given


def every_act() -> list[Part]:
    return [started()] + [act(name, 'f%d' % n, 1 + n // 4) for n, name in enumerate(ACTS[1:12])] + [
        waited(1, 4),
        asked(0, 5, 1, ['t', 'u'], [group('t', read(3), read(4, 1, 'H')), group('u', read(0, 0, 'K'))],
                            [group('t', made(3), made(5, 0)), group('v', made(7, 2))]),
        ended(6, 1, 242), ended(9)]


COLUMNS = [column('k', 'INT NOT NULL'), column('g', 'TEXT'), column('v', 'INT')]
SCRIPT = 'sql q "SELECT * FROM t"\n'

BASES = {
    # the worked example of docs/FORMATS.md
    'plain': package(),
    # the same as an excluded package
    'excluded': package(mode=2),
    # both in version 2
    'plain in runs': package(2),
    'excluded in runs': package(2, mode=2),
    # a file read three times, two steps apart, and the end
    'loop': package(2, steps=9, trace=[started(), *[act('read', step=step) for step in (1, 3, 5)], ended(9)]),
    # a table with two needed rows, and the statement that needed them
    'rows': package(
        seed=7, steps=2, files=[file('main', SCRIPT)],
        tables=[table('t', COLUMNS, [0], 5, [row(3, 4, 'b', None), row(4, 5, 'c', -10, rule='H')])],
        trace=[started(), asked(0, 1, tables=['t'], reads=[group('t', read(3), read(4, 0, 'H'))],
                                made=[group('t', made(3))]), ended(2)]),
    # a line printed, and a statement that picked the rows 1 and 2 of three
    'picked': package(
        steps=3, files=[file('main', 'print "hi"\nsql q "SELECT * FROM t WHERE v = 2"\n')],
        tables=[table('t', [column('v'), column('g', 'TEXT')], next=3,
                      rows=[row(1, 2, 'b'), row(2, 2, None)])],
        trace=[started(), asked(0, 2, tables=['t'], reads=[group('t', read(1), read(2))]), ended(3)],
        output='outcome 1 0\nprocess 0 0 3 1\nhi\n\nrows 2\nrow 2\nint 2\ntext 1\nb\nrow 2\nint 2\nnull\n'),
    # each act, in both versions
    'acts': package(steps=9, trace=every_act()),
    'acts in runs': package(2, steps=9, trace=every_act()),
    # logs of two processes, with each kind of reply
    'logs': package(
        mode=2, start=['main', 'arg'], seed=2 ** 64 - 1, steps=9,
        files=[file('a', b'\0'), file('b'), file('main', 'exit 0')],
        logs=[log([0], entry('SELECT 1', [-1, 'x', None], dict(rows=[[1, 'a'], [None]])),
                  entry('u', [], dict(changed=2)), entry('v', [], dict(refused=1))),
              log([0, 1], entry('w', [None], dict(refused=6, table='t', key=[7, 'k'])))],
        trace=[started(), spawned(), asked(0, 1), asked(1, 2, 1), ended(9)]),
}


for name in ('rows', 'picked', 'logs'):
    BASES[name + ' in runs'] = {**BASES[name], 'version': 2, 'magic': MAGIC[2]}


def changed(base: str, change: Change) -> Part:
    """A copy of the base of this name, changed."""
    return changed_parts(BASES[base], change)


def changed_parts(p: Part, change: Change) -> Part:
    """A copy where each path of the change (`tables.0.next`) has its new value, or what a function makes of
    the old one."""
    p = copy.deepcopy(p)
    for path, new in change.items():
        *way, last = (int(step) if step.isdigit() else step for step in path.split('.'))
        part: Any = p
        for step in way:
            part = part[step]
        part[last] = new(part[last]) if callable(new) and last not in WAYS else new
    return p


# ---- changes of a base


def plus(*items: Any) -> Callable[[list[Any]], list[Any]]:
    return lambda old: old + list(items)


def off(by: int) -> Callable[[Any], Said]:
    """The same list or text, with a count that is wrong by so much."""
    def change(old: Any) -> Said:
        length = len(old.encode() if isinstance(old, str) else old)
        return Said(length + by, old)
    return change


def swapped(old: Any) -> Any:
    return old[::-1]


def flipped(place: int, bits: int = 1) -> Callable[[bytes], bytes]:
    """A byte of the bytes changed."""
    def change(all: bytes) -> bytes:
        place_from_front = place % len(all)
        return all[:place_from_front] + bytes([all[place_from_front] ^ bits]) + all[place_from_front + 1:]
    return change


def events(*later: Part) -> Change:
    """Events between the start and the end, which is step 1."""
    return {'trace': [started(), *later, ended()]}


def stepped(steps: int, *later: Part) -> Change:
    return {'steps': steps, 'trace': [started(), *later]}


def whole_table(*tables: Part) -> Change:
    return {'tables': list(tables)}


def rows(*rows: Part) -> Change:
    return {'tables.0.rows': list(rows)}


def columns(*columns: Part, **others: Any) -> Change:
    """A table of these columns without rows, in place of the base's."""
    return {'tables.0': table('t', list(columns), **others)}


def one(kind: str, value: Field) -> Change:
    """A table of one column and one row."""
    return {'tables.0': table('t', [column('a', kind)], rows=[row(0, value)])}


def reads(*groups: Part) -> Change:
    return {'trace.1.reads': list(groups)}


def makes(*groups: Part) -> Change:
    return {'trace.1.made': list(groups)}


def on_start(path: Field, **others: Any) -> Change:
    """The script under this path, in all three places that name it."""
    return {'start': [path], 'files': [file(path, 'exit 0')], 'trace': [started(path), ended()], **others}


def logged(*logs: Part) -> Change:
    return {'logs': list(logs)}


def replied(reply: Field) -> Change:
    return logged(log([0], entry(reply=reply)))


def asks(kind: str, *groups: Part) -> Change:
    """A statement with these groups of rows, read or made."""
    return events({**asked(), kind: list(groups)})


# ---- changes that make a package long

GREATEST = 16777216


def files_in_all(count: int) -> Change:
    return {'files': lambda old: [file('%05x' % n) for n in range(count - 1)] + old}


def processes_in_all(count: int) -> Change:
    return {'trace': lambda old: old + [spawned()] * (count - 1) + [act('read', process=count - 1)]}


def bytes_in_all(count: int) -> Change:
    """The 123 bytes of the base and four files, each with a path of 2 bytes, a tag and two lengths."""
    sizes = [GREATEST] * 3 + [count - 3 * GREATEST - 123 - 4 * (4 + 2 + 1 + 4)]
    return {'files': lambda old: old + [file('x%d' % n, bytes(size)) for n, size in enumerate(sizes)]}


# ---- names, paths and texts that are good, and that just aren't

RESERVED = ('all and as asc by count delete desc distinct from group having inner insert into is join limit '
            'max min not null on or order select set sum union update values where').split()
NO_NAMES = [('is empty', ''), ('has 64 bytes', 'a' * 64), ('has an upper-case letter', 'tA'),
            ('is upper case', 'T'), ('begins with a digit', '1t'), ('has a space', 't '),
            ('has a minus', 'a-b'), ('has a dot', 'a.b'),
            ('has a letter outside ASCII', 'té'), ('has a quote', 't"'), ('has a zero byte', 't\0'),
            ('has the byte before a', 'a`'), ('has the byte after z', 'a{'), ('has the byte after 9', 'a:')]
NAMES = [('is one letter', 'a'), ('has 63 bytes', 'a' * 63), ('is an underscore', '_'),
         ('begins with one', '_1'), ('has a digit', 'a0'), ('ends with z and 9', 'az9'),
         ('is almost a reserved word', 'selects'),
         ('is reserved elsewhere', 'left'), ('is a kind', 'text')]
NO_PATHS = [('is empty', ''), ('has 256 bytes', 'f' * 256), ('has 256 bytes and 128 letters', 'é' * 128),
            ('has a zero byte', 'f\0'), ('has a line feed', 'f\n'), ('has byte 31', '\x1ff'),
            ('has byte 127', 'f\x7f')]
PATHS = [('is one byte', '~'), ('has 255 bytes', 'f' * 255), ('is a space', ' '), ('has byte 126', 'f~'),
         ('has a letter of two bytes, the second 128', '\x80'), ('has slashes and dots', '../a//b')]
NO_UTF8 = [('a lone second byte', b'a\x80'), ('a first byte without a second', b'a\xc3'),
           ('a second byte too low', b'\xc3\x7f'),
           ('a letter of two bytes that needs one', b'\xc1\xbf'),
           ('one of three that needs two', b'\xe0\x9f\xbf'),
           ('half a pair', b'\xed\xa0\x80'), ('one of four that needs three', b'\xf0\x8f\xbf\xbf'),
           ('a letter above the last', b'\xf4\x90\x80\x80'), ('byte 255', b'\xff'),
           ('three bytes of four', b'\xf0\x90\x80')]
UTF8 = [('the first letter of two bytes', b'\xc2\x80'), ('of three', b'\xe0\xa0\x80'),
        ('before the pairs', b'\xed\x9f\xbf'), ('after the pairs', b'\xee\x80\x80'),
        ('the first of four', b'\xf0\x90\x80\x80'),
        ('the last', b'\xf4\x8f\xbf\xbf')]
WITH_PATH = ACTS[1:12]
LONG = 65536


# ---- the encoder


def spell_number(width: int, n: Field) -> bytes:
    if isinstance(n, Raw):
        return n.of
    spelled: bytes = n.to_bytes(width, 'big')
    return spelled


def octets(text: Union[str, bytes]) -> bytes:
    return text.encode() if isinstance(text, str) else text


def spell_text(text: Field) -> bytes:
    """A u32 length and the bytes: a text, or the bytes of a file."""
    if isinstance(text, Raw):
        return text.of
    body = octets(text.of if isinstance(text, Said) else text)
    return spell_u32(text.length if isinstance(text, Said) else len(body)) + body


def spell_list(width: int, items: Any, encode: Callable[[Any], bytes]) -> bytes:
    if isinstance(items, Raw):
        return items.of
    count, items = items if isinstance(items, Said) else (len(items), items)
    return spell_number(width, count) + b''.join(map(encode, items))


def spell_byte(n: Field) -> bytes:
    return spell_number(1, n)


def spell_u32(n: Field) -> bytes:
    return spell_number(4, n)


def spell_value(v: Field) -> bytes:
    if isinstance(v, Raw):
        return v.of
    if v is None:
        return b'\0'
    return b'\1' + v.to_bytes(8, 'big', signed=True) if isinstance(v, int) else b'\2' + spell_text(v)


def spell_file(f: Part) -> bytes:
    content = f['content']
    if isinstance(content, Raw):
        return spell_text(f['path']) + content.of
    return spell_text(f['path']) + (b'\2' if content is None else b'\1' + spell_text(content))


KINDS = {'INT': 1, 'TEXT': 2, 'INT NOT NULL': 3, 'TEXT NOT NULL': 4}
REASONS = {'L': 1, 'H': 2, 'K': 3, 'P': 4, 'C': 5}


def spell_column(c: Part) -> bytes:
    return spell_text(c['name']) + spell_byte(KINDS.get(c['kind'], c['kind']))


def spell_rule(rule: Field) -> bytes:
    return spell_byte(REASONS.get(rule, rule))


def spell_row(r: Part) -> bytes:
    return (spell_u32(r['number']) + spell_u32(r['statement']) + spell_rule(r['rule'])
            + b''.join(map(spell_value, r['values'])))


def spell_foreign(f: Part) -> bytes:
    return spell_list(1, f['columns'], spell_byte) + spell_text(f['parent'])


def spell_table(version: int, spell_row: Callable[[Part], bytes] = spell_row) -> Callable[[Part], bytes]:
    """The spelling of a table. Version 2 has its foreign keys behind the key."""
    def spell(t: Part) -> bytes:
        referring = spell_list(1, t['foreign'], spell_foreign) if version == 2 else b''
        return (spell_text(t['name']) + spell_list(1, t['columns'], spell_column)
                + spell_list(1, t['key'], spell_byte) + referring + spell_u32(t['next'])
                + spell_list(4, t['rows'], spell_row))
    return spell


def spell_reply(r: Part) -> bytes:
    if isinstance(r, Raw):
        return r.of
    if 'rows' in r:
        return b'\1' + spell_list(4, r['rows'], lambda values: spell_list(2, values, spell_value))
    if 'changed' in r:
        return b'\2' + spell_number(8, r['changed'])
    taken = spell_text(r['table']) + spell_list(1, r['key'], spell_value) if 'table' in r else b''
    return b'\3' + spell_byte(r['refused']) + taken


def spell_entry(e: Part) -> bytes:
    return spell_text(e['text']) + spell_list(2, e['params'], spell_value) + spell_reply(e['reply'])


def spell_log(l: Part) -> bytes:
    return spell_list(2, l['process'], spell_u32) + spell_list(4, l['entries'], spell_entry)


def spell_member(m: Part) -> bytes:
    return spell_u32(m['row']) + spell_u32(m['version']) + (spell_rule(m['rule']) if 'rule' in m else b'')


def spell_group(g: Part) -> bytes:
    return spell_text(g['table']) + spell_list(4, g['rows'], spell_member)


def spell_fields(e: Part) -> bytes:
    act = e['act']
    if isinstance(act, int):
        return b''
    if act == 'waited':
        return spell_u32(e['child'])
    if act == 'ended':
        return spell_byte(e['status'])
    if act == 'asked':
        return (spell_u32(e['statement']) + spell_list(2, e['tables'], spell_text)
                + spell_list(2, e['reads'], spell_group) + spell_list(2, e['made'], spell_group))
    return spell_text(e['path']) + (spell_byte(e['found']) if act in FLAGGED else b'')


def spell_event(e: Part) -> bytes:
    act = e['act'] if isinstance(e['act'], int) else ACTS.index(e['act'])
    return spell_u32(e['step']) + spell_u32(e['process']) + spell_byte(act) + spell_fields(e)


def spell_run(r: Part) -> bytes:
    return spell_event(r['first']) + spell_u32(r['count']) + spell_u32(r['stride'])


def spell_trace(p: Part) -> bytes:
    if p['version'] == 1 or isinstance(p['trace'], Raw):
        return spell_list(4, p['trace'], spell_event)
    return spell_list(4, cut(p['trace']) if p['runs'] is None else p['runs'], spell_run)


def before_digest(p: Part) -> bytes:
    magic: bytes = p['magic']
    return (magic + spell_byte(p['mode']) + spell_list(2, p['start'], spell_text)
            + spell_number(8, p['seed']) + spell_u32(p['steps'])
            + spell_list(4, p['files'], spell_file) + spell_list(2, p['tables'], spell_table(p['version']))
            + spell_list(4, p['logs'], spell_log) + spell_trace(p))


def encode(p: Part) -> bytes:
    body = p['body'](before_digest(p))
    whole: bytes = p['whole'](body + p['digest'](body))
    return whole


# The worked examples of docs/FORMATS.md without their digests, which the encoder must give for the first
# base.
WORKED = ('4c44565041434b31' '01' '0001' '000000046d61696e' '0000000000000000' '00000001' '00000001'
          '000000046d61696e' '01' '00000006657869742030' '0000' '00000000' '00000002' '0000000000000000' '00'
          '000000046d61696e' '0000000100000000' '0d' '00')
WORKED_RUNS = ('4c44565041434b32' '01' '0001' '000000046d61696e' '0000000000000000' '00000001' '00000001'
               '000000046d61696e' '01' '00000006657869742030' '0000' '00000000' '00000002' '0000000000000000'
               '00' '000000046d61696e' '00000001' '00000000' '0000000100000000' '0d' '00' '00000001'
               '00000000')


def check_encoder() -> None:
    for base, worked in (('plain', WORKED), ('plain in runs', WORKED_RUNS)):
        if before_digest(BASES[base]).hex() != worked:
            raise SystemExit('the encoder differs from the worked example, ' + base)


# ---- the outcome, where the base has none: of a script that is empty, `exit`, or a SELECT of one whole table


def shown(v: Field) -> str:
    if v is None:
        return 'null\n'
    return 'int %d\n' % v if isinstance(v, int) else 'text %d\n%s\n' % (len(octets(v)), octets(v).decode())


def answer(p: Part, name: str) -> str:
    """The reply to SELECT * FROM the table of this name."""
    for t in p['tables']:
        if t['name'] == name:
            rows = ['row %d\n' % len(r['values']) + ''.join(map(shown, r['values'])) for r in t['rows']]
            return 'rows %d\n' % len(rows) + ''.join(rows)
    return 'refused 2\n'


def outcome(p: Part) -> str:
    output: Optional[str] = p['output']
    if output is not None:
        return output
    script = [octets(f['content']).decode() for f in p['files'] if f['path'] == p['start'][0]][0]
    if script.startswith('sql q "SELECT * FROM '):
        return 'outcome 1 0\nprocess 0 0 0 1\n\n' + answer(p, script.split('"')[1].split()[-1])
    words = script.split()
    status = words[1] if words[:1] == ['exit'] else '0'
    return 'outcome 1 0\nprocess 0 %s 0 0\n\n' % status


# ---- cases

# What is due where nothing is replayed: the status and the line.
REFUSED = {
    'magic': (8, 'ldv: damaged: magic\n'),
    'digest': (8, 'ldv: damaged: digest\n'),
    'form': (8, 'ldv: damaged: form\n'),
    'too long': (5, 'ldv: input longer than 67108864 bytes\n'),
}


def due(p: Part, expect: str) -> tuple[int, str, str]:
    """The status, the output and the line."""
    if expect == 'valid':
        return 0, outcome(p), ''
    status, line = REFUSED[expect]
    return status, '', line


class Rules(list[Part]):
    """Rules of a valid package, each with its cases."""

    def rule(self, sentence: str, base: Any, broken: Optional[list[Any]], fine: list[Any],
             expect: str = 'form') -> None:
        """What a valid package meets, with the cases that break it and those that don't."""
        self.append(dict(sentence=sentence, base=base, broken=broken, fine=fine, expect=expect))

    def allowed(self, sentence: str, base: str, fine: list[Any]) -> None:
        """What is valid though one might think otherwise."""
        self.rule(sentence, base, None, fine)


def described(rules: Iterable[Part]) -> Iterator[tuple[str, Part, str]]:
    """Name, package and expectation of each case."""
    for r in rules:
        if not r['fine'] or r['broken'] == []:
            raise SystemExit('no case or no near miss: ' + r['sentence'])
        for expect, cases in ((r['expect'], r['broken'] or []), ('valid', r['fine'])):
            for name, *base, change in cases:
                yield name, changed(base[0] if base else r['base'], change), expect


def case(name: str, given: Any, p: Part, expect: str) -> Part:
    status, output, error = due(p, expect)
    return {'name': name, 'words': ['replay'], 'input': given, 'status': status, 'output': output,
            'error': error}


def lines(cases: Iterable[Part]) -> str:
    return '[\n' + ',\n'.join(json.dumps(c) for c in cases) + '\n]\n'


def tell(rules: Iterable[Part]) -> None:
    """Prints each rule with its cases."""
    for r in rules:
        print('\n' + r['sentence'])
        for expect, cases in ((r['expect'], r['broken'] or []), ('valid', r['fine'])):
            for name, *_ in cases:
                print('    %-8s  %s' % (expect, name))
