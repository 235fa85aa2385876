"""The cases of joined packages: pairs of packages whose statements rest on foreign keys, pairs that differ in
them, joined packages that break one rule beside some that come as close and are valid, and what a run sees of
the other one. package_cases.py writes them.

What is replied and needed was worked out by hand. The tables are `p` with the keys 1, 2 and 3, and `c`, whose
column p refers to it: 10 to 1, 11 to 2, and 12 to none."""
from __future__ import annotations

from typing import Any, Callable, Iterable, Iterator

from .encoder import (
    MAGIC,
    REFUSED,
    Part,
    Raw,
    Rules,
    asked,
    changed_parts,
    column,
    encode,
    ended,
    file,
    flipped,
    foreign,
    group,
    made,
    off,
    package,
    plus,
    read,
    row,
    run,
    spell_value,
    started,
    table,
)
from .need_cases import reply_text
from .packages_joined import check_joined, encode_joined, joined_parts, reason

PARENTS = [(1,), (2,), (3,)]
CHILDREN = [(10, 1), (11, 2), (12, None)]
ONE, TWO = 'one', 'two'
# A statement: its text, its reply, its tables with the rows that it needs, and what it makes.
Statement = tuple[str, Any, list[Part], list[Part]]


def parent(*rows: Part, **others: Any) -> Part:
    return {**table('p', [column('id', 'INT NOT NULL')], [0], 3, rows), **others}


def child(*rows: Part, **others: Any) -> Part:
    columns = [column('id', 'INT NOT NULL'), column('p')]
    return {**table('c', columns, [0], 3, rows, [foreign([1], 'p')]), **others}


def p_row(number: int, statement: int = 0, rule: str = 'L') -> Part:
    return row(number, *PARENTS[number], statement=statement, rule=rule)


def c_row(number: int, statement: int = 0, rule: str = 'L') -> Part:
    return row(number, *CHILDREN[number], statement=statement, rule=rule)


def script(*statements: str) -> str:
    return ''.join('sql q "%s"\n' % text for text in statements)


def replied(*replies: Any, printed: str = '') -> str:
    """The outcome of one process with these replies. One may stand as the text that it has in an outcome."""
    texts = [each if isinstance(each, str) else reply_text(each) for each in replies]
    return 'outcome 1 0\nprocess 0 0 %d %d\n%s\n' % (len(printed), len(texts), printed) + ''.join(texts)


# ---- two runs over one database

def recorded(start: str, statement: Statement) -> Part:
    """The package of a run that asks one statement: its text, its reply, its tables with the rows that it
    needs, and the versions that it makes."""
    text, _, tables, made = statement
    members = [group(t['name'], *[read(r['number'], rule=r['rule']) for r in t['rows']])
               for t in tables if t['rows']]
    trace = [started(start), asked(0, 1, 0, [t['name'] for t in tables], members, list(made)), ended(2)]
    return package(2, start=[start], steps=2, files=[file(start, script(text))], tables=tables, trace=trace)


INSERTED: Statement = ('INSERT INTO c VALUES (13, 3)', 1, [child(), parent(p_row(2, rule='P'))],
            [group('c', made(3, 0))])
REFUSED_PARENT: Statement = ('INSERT INTO c VALUES (13, 9)', 'refused 8 p 1\nint 9\n',
                             [child(), parent()], [])
REFUSED_CHILD: Statement = ('DELETE FROM p WHERE id = 2', 'refused 9 c 1\nint 2\n',
                 [child(c_row(1, rule='C')), parent(p_row(1))], [])
DELETED: Statement = ('DELETE FROM p WHERE id = 3', 1, [parent(p_row(2))], [group('p', made(2))])
UPDATED: Statement = ('UPDATE c SET p = 1 WHERE id = 11', 1, [child(c_row(1)), parent(p_row(0, rule='P'))],
           [group('c', made(1))])
CHILDREN_ASKED: Statement = ('SELECT * FROM c', CHILDREN, [child(*map(c_row, range(3))), parent()], [])
PARENTS_ASKED: Statement = ('SELECT * FROM p', PARENTS, [parent(*map(p_row, range(3)))], [])

PAIRS = [
    ('a parent needed, and deleted', INSERTED, DELETED),
    ('a child that refuses, and one that is updated', REFUSED_CHILD, UPDATED),
    ('no row of either', REFUSED_PARENT, REFUSED_PARENT),
    ('rows by P and by L', UPDATED, PARENTS_ASKED),
    ('a deleted parent beside all children', DELETED, CHILDREN_ASKED),
    ('children in one and parents in the other', CHILDREN_ASKED, PARENTS_ASKED),
    ('a missing parent, and a parent deleted under a child', REFUSED_PARENT, REFUSED_CHILD),
]


def sized(all: bytes) -> bytes:
    return len(all).to_bytes(4, 'big') + all


def pair_of(first: Part, second: Part) -> bytes:
    return sized(encode(first)) + sized(encode(second))


def told(name: str, words: list[str], given: bytes, status: int = 0, output: Any = '',
         error: str = '') -> Part:
    return {'name': name, 'words': words, 'input': {'hex': given.hex()}, 'status': status, 'output': output,
            'error': error}


def joining(name: str, first: Part, second: Part) -> Part:
    """Two packages that are joined."""
    both = encode_joined(joined_parts(first, second))
    return told('join: ' + name, ['join'], pair_of(first, second), output={'hex': both.hex()})


def replaying(name: str, run: int, given: bytes, output: Any) -> Part:
    return told('run %d: %s' % (run, name), ['replay', '--run', str(run)], given, output=output)


def pair_cases() -> Iterator[Part]:
    """Each pair joined, and both of its runs."""
    for name, *statements in PAIRS:
        first, second = map(recorded, (ONE, TWO), statements)
        yield joining(name, first, second)
        both = encode_joined(joined_parts(first, second))
        for number, statement in enumerate(statements, 1):
            yield replaying(name, number, both, replied(statement[1]))


# ---- pairs that differ

def bare(*tables: Part) -> Part:
    """A package of tables, which asked once."""
    return package(2, tables=list(tables), trace=[started(), asked(0, 1), ended()])


THREE = [column('id', 'INT NOT NULL'), column('p'), column('r')]


def wide(*foreigns: Part, **others: Any) -> Part:
    """A child of two columns that may refer."""
    return {**table('c', THREE, [0], 3, foreign=foreigns), **others}


def pairs(key: Iterable[int] = (0, 1), **others: Any) -> Part:
    """A parent whose key has two columns."""
    return table('p', [column('id', 'INT NOT NULL'), column('to', 'INT NOT NULL')], key, **others)


other = table('q', [column('id', 'INT NOT NULL')], [0], 3)
TO_P, TO_Q, R_TO_P = foreign([1], 'p'), foreign([1], 'q'), foreign([2], 'p')
CLASHES = [
    ('a foreign key beside none', 'table c', bare(child(), parent()), bare(child(foreign=[]), parent())),
    ('another parent', 'table c', bare(wide(TO_P), parent(), other), bare(wide(TO_Q), parent(), other)),
    ('a parent that the other package has not', 'table c',
     bare(wide(TO_P), parent()), bare(wide(TO_Q), other)),
    ('another column', 'table c', bare(wide(TO_P), parent()), bare(wide(R_TO_P), parent())),
    ('columns in another order', 'table c',
     bare(wide(foreign([1, 2], 'p')), pairs()), bare(wide(foreign([2, 1], 'p')), pairs())),
    ('foreign keys in another order', 'table c',
     bare(wide(TO_P, R_TO_P), parent()), bare(wide(R_TO_P, TO_P), parent())),
    ('one foreign key more', 'table c', bare(wide(TO_P), parent()), bare(wide(TO_P, R_TO_P), parent())),
    ('a foreign key twice', 'table c', bare(wide(TO_P), parent()), bare(wide(TO_P, TO_P), parent())),
    ('a table that refers to itself', 'table c',
     bare(wide(foreign([1], 'c')), parent()), bare(wide(TO_P), parent())),
    ('a child alike and a parent of another next number', 'table p',
     bare(child(), parent()), bare(child(), parent(next=4))),
    ('a foreign key and a row', 'table c',
     bare(child(c_row(0)), parent()), bare(child(row(0, 10, 2), foreign=[]), parent())),
    ('a row that refers to another key', 'row c 1',
     bare(child(c_row(1)), parent()), bare(child(row(1, 11, 1)), parent())),
    ('a row of a parent before one of a later table', 'row p 0',
     bare(parent(p_row(0)), other), bare(parent(row(0, 5)), {**other, 'rows': [row(0, 1)]})),
    ('two parents of one key', 'key p 2', bare(parent(p_row(0))), bare(parent(row(2, 1)))),
    ('version 1 has no foreign key', 'table c',
     {**bare(child(foreign=[])), 'version': 1, 'magic': MAGIC[1]}, bare(child(), parent())),
]

ALIKE = [
    ('the same foreign keys', bare(wide(TO_P, R_TO_P), parent()), bare(wide(TO_P, R_TO_P), parent())),
    ('a foreign key in one alone', bare(child(c_row(1)), parent()), bare(parent(p_row(0)))),
    ('a table that both refer to itself', bare(wide(foreign([1], 'c'), rows=[row(0, 1, 1, None)])),
     bare(wide(foreign([1], 'c'), rows=[row(1, 2, 1, 1)]))),
    ('versions 1 and 2, where the second has foreign keys',
     {**bare(other), 'version': 1, 'magic': MAGIC[1]}, bare(child(c_row(0)), parent())),
    ('a key of two columns', bare(wide(foreign([2, 1], 'p'), rows=[row(0, 1, 2, 3)]), pairs()),
     bare(pairs(rows=[row(0, 3, 2)]))),
]


def clash_cases() -> Iterator[Part]:
    for name, clash, first, second in CLASHES:
        for turn, pair in (('', (first, second)), (', the other first', (second, first))):
            yield told('clash: %s%s' % (name, turn), ['join'], pair_of(*pair), 15,
                       error='ldv: clash: %s\n' % clash)
    for name, first, second in ALIKE:
        yield joining(name, first, second)


# ---- pairs that are none

WHOLE = encode(bare(child(c_row(0)), parent()))
GREATEST = b'\xff' * 4
NO_PAIRS = [
    ('the greatest length and no byte', GREATEST, 'form'),
    ('the greatest length second', sized(WHOLE) + GREATEST + WHOLE, 'form'),
    ('a first length that takes the second package in', sized(sized(WHOLE)[4:] + sized(WHOLE)), 'form'),
    ('a first length of one byte less', (len(WHOLE) - 1).to_bytes(4, 'big') + WHOLE + sized(WHOLE), 'form'),
    ('a first length of one byte more', (len(WHOLE) + 1).to_bytes(4, 'big') + WHOLE + sized(WHOLE), 'form'),
    ('a second length of one byte less', sized(WHOLE) + (len(WHOLE) - 1).to_bytes(4, 'big') + WHOLE, 'form'),
    ('a second length of one byte more', sized(WHOLE) + (len(WHOLE) + 1).to_bytes(4, 'big') + WHOLE, 'form'),
    ('three bytes of the second length', sized(WHOLE) + sized(WHOLE)[:3], 'form'),
    ('a third package', 3 * sized(WHOLE), 'form'),
    ('no bytes first', sized(b'') + sized(WHOLE), 'magic'),
    ('no bytes second', sized(WHOLE) + sized(b''), 'magic'),
    ('foreign keys under the magic of version 1', sized(WHOLE) + sized(encode(
        {**bare(child(), parent()), 'magic': MAGIC[1]})), 'form'),
    ('a second package without its parent', sized(WHOLE) + sized(encode(bare(child()))), 'form'),
    ('a first package whose parent has no key',
     pair_of(bare(child(), parent(key=[])), bare(parent())), 'form'),
    ('a joined package second', sized(WHOLE) + sized(encode_joined(joined_parts(bare(), bare()))), 'magic'),
    ('one that clashes with a cut one', sized(WHOLE) + sized(encode(bare(child(foreign=[])))[:-1]), 'digest'),
]


def no_pair_cases() -> Iterator[Part]:
    for name, given, kind in NO_PAIRS:
        yield told('no pair: ' + name, ['join'], given, 8, error='ldv: damaged: %s\n' % kind)


# ---- joined packages that break a rule

SCRIPTS = {ONE: script('UPDATE c SET p = 1 WHERE id = 11', 'SELECT * FROM c WHERE id = 10'),
           TWO: script('SELECT * FROM p WHERE id > 1')}
OUTCOMES = [replied(1, [(10, 1)]), replied([(2,), (3,)])]
FIRST = package(
    2, start=[ONE], steps=3, files=[file('a', 'x'), file(ONE, SCRIPTS[ONE]), file('seen'), file('then')],
    tables=[child(c_row(0, 1), c_row(1)), parent(p_row(0, rule='P'))],
    trace=[started(ONE),
           asked(0, 1, tables=['c', 'p'], reads=[group('c', read(1)), group('p', read(0, rule='P'))],
                 made=[group('c', made(1))]),
           asked(1, 2, tables=['c', 'p'], reads=[group('c', read(0))]), ended(3)])
SECOND = package(
    2, start=[TWO], steps=2, files=[file('a', 'x'), file('seen'), file(TWO, SCRIPTS[TWO])],
    tables=[parent(p_row(1), p_row(2))],
    trace=[started(TWO), asked(0, 1, tables=['p'], reads=[group('p', read(1), read(2))]), ended(2)])
BOTH = joined_parts(FIRST, SECOND)

JOINED = Rules()


def joined_rule(sentence: str, broken: list[Any], fine: list[Any], run: int = 1,
                expect: str = 'form') -> None:
    JOINED.rule(sentence, run, broken, fine, expect)


def twice(place: int = 0) -> Callable[[list[Any]], list[Any]]:
    """A list that has one of its items twice, one after the other."""
    return lambda old: old[:place + 1] + old[place:]


def without(place: int) -> Callable[[list[Any]], list[Any]]:
    return lambda old: old[:place] + old[place + 1:]


def exchanged(old: list[Any]) -> list[Any]:
    """A list whose first two items stand in the other order."""
    return [old[1], old[0], *old[2:]]


joined_rule('The magic is that of a joined package.', [
    ('joined: another digit', {'magic': b'LDVJOIN2'}), ('joined: lower case', {'magic': b'ldvjoin1'}),
    ('joined: the magic of a package', {'magic': MAGIC[2]}),
    ('joined: 7 bytes', {'whole': lambda all: all[:7]}),
    ('joined: a byte before it', {'magic': b'\0LDVJOIN1'}),
], [('joined: as it is', {})], expect='magic')
joined_rule('The digest is that of all bytes before it, and is judged before the form.', [
    ('joined: 39 bytes', {'whole': lambda all: all[:39]}),
    ('joined: the last byte changed', {'whole': flipped(-1)}),
    ('joined: cut by one', {'whole': lambda all: all[:-1]}),
    ('joined: a byte behind', {'whole': lambda all: all + b'\0'}),
    ('joined: the seed of the second run changed', {
        'whole': lambda all: all.replace(b'two' + bytes(8), b'two' + bytes(7) + b'\1')}),
], [('joined: another seed of the second run', {'runs.1.seed': 2 ** 64 - 1})], expect='digest')
joined_rule('Nothing is left out, and nothing stands behind the second run.', [
    ('joined: the magic and its digest', {'body': lambda body: body[:8]}),
    ('joined: no second run', {'runs': lambda old: old[:1]}),
    ('joined: no run', {'runs': []}), ('joined: a third run', {'runs': lambda old: old + old[1:]}),
    ('joined: the last byte left out', {'body': lambda body: body[:-1]}),
    ('joined: a byte before the digest', {'body': lambda body: body + b'\0'}),
    ('joined: a mode', {'magic': b'LDVJOIN1\1'}),
], [('joined: the same run twice', {'runs': lambda old: [old[0]] * 2, 'files': without(4),
                                    'tables.1.rows': lambda old: old[:1]})])
joined_rule('Each count is the number of items.', [
    ('joined: %s %s' % (how, name), {path: off(by)})
    for name, path in (('files', 'files'), ('tables', 'tables'), ('rows', 'tables.0.rows'),
                       ('foreign keys', 'tables.0.foreign'), ('start words', 'runs.0.start'),
                       ('whole paths', 'runs.0.wholes'), ('present paths', 'runs.0.presents'),
                       ('table names', 'runs.0.tables'), ('reasons', 'runs.0.reasons'))
    for how, by in (('fewer', -1), ('more', 1))
], [('joined: no present path of the second run', {'runs.1.presents': []})])
joined_rule('Files rise by path, and none is there twice.', [
    ('joined: files fall', {'files': exchanged}), ('joined: a file twice', {'files': twice()}),
    ('joined: a present file twice', {'files': twice(2)}),
], [('joined: other bytes of a file', {'files.0.content': 'y'})])
joined_rule('Tables rise by name, and none is there twice.', [
    ('joined: tables fall', {'tables': exchanged}), ('joined: a table twice', {'tables': twice()}),
], [('joined: another next number', {'tables.0.next': 4})])
joined_rule('Rows rise by number, which is below the next number, and none is there twice.', [
    ('joined: rows fall', {'tables.0.rows': exchanged}), ('joined: a row twice', {'tables.0.rows': twice()}),
    ('joined: a row of the next number', {'tables.1.next': 2}),
], [('joined: a next number above all rows', {'tables.1.next': 4_294_967_295})])
joined_rule('The lists of a run rise, and nothing is in one twice.', [
    ('joined: whole paths fall', {'runs.0.wholes': exchanged}),
    ('joined: a whole path twice', {'runs.0.wholes': twice()}),
    ('joined: present paths fall', {'runs.0.presents': exchanged}),
    ('joined: a present path twice', {'runs.0.presents': twice()}),
    ('joined: table names fall', {'runs.0.tables': exchanged}),
    ('joined: a table name twice', {'runs.0.tables': twice()}),
    ('joined: reasons fall by row', {'runs.0.reasons': exchanged}),
    ('joined: reasons fall by table', {'runs.0.reasons': lambda old: old[2:] + old[:2]}),
    ('joined: a reason twice', {'runs.0.reasons': twice()}),
    ('joined: two reasons of one row', {
        'runs.0.reasons': lambda old: [*old[:2], {**old[1], 'rule': 'H'}, old[2]]}),
    ('joined: whole paths of the second run fall', {'runs.1.wholes': exchanged}),
    ('joined: reasons of the second run fall', {'runs.1.reasons': exchanged}),
], [('joined: another rule of a row', {'runs.0.reasons.1.rule': 'H'}),
    ('joined: another statement of a row', {'runs.0.reasons.1.statement': 1})])
joined_rule('What a run names is there.', [
    ('joined: a whole path of no file', {'runs.0.wholes': plus('zz')}),
    ('joined: a present path of no file', {'runs.0.presents': plus('zz')}),
    ('joined: a whole path of a present file', {
        'runs.0.wholes': ['a', ONE, 'seen'], 'runs.0.presents': ['then']}),
    ('joined: a path whole and present', {'runs.0.presents': [ONE, 'seen', 'then']}),
    ('joined: a name of no table', {'runs.0.tables': plus('q')}),
    ('joined: a reason of no row', {'runs.0.reasons': lambda old: [*old[:2], reason('c', 2), old[2]]}),
    ('joined: a reason of no table', {'runs.0.reasons': plus(reason('q', 0))}),
    ('joined: a reason of a table that the run does not name', {
        'runs.1.reasons': lambda old: [reason('c', 0), *old]}),
    ('joined: a start that the other run alone has whole', {
        'runs.0.start': [TWO], 'runs.0.trace.0.path': TWO}),
    ('joined: a start that is no file', {'runs.0.start': ['zz'], 'runs.0.trace.0.path': 'zz'}),
    ('joined: no start word', {'runs.0.start': []}),
], [('joined: a row that both need', {'runs.1.reasons': lambda old: [reason('p', 0), *old]}),
    ('joined: a second start word', {'runs.0.start': [ONE, 'x']}),
    ('joined: a whole path of a file that the other run needs present', {
        'files.2.content': '', 'runs.1.wholes': ['a', 'seen', TWO], 'runs.1.presents': []})])
joined_rule('Whatever is there, a run needs.', [
    ('joined: a whole file that no run needs', {'files': plus(file('zz', ''))}),
    ('joined: a present file that no run needs', {'files': plus(file('zz'))}),
    ('joined: a table that no run needs', {'tables': plus(other)}),
    ('joined: a row that no run needs', {'tables.0.rows': plus(c_row(2))}),
    ('joined: a file whole that both need present', {'files.2.content': ''}),
    ('joined: a file present that one needs whole', {'files.0.content': None}),
], [('joined: a row that one run needs', {
    'tables.0.rows': plus(c_row(2)), 'runs.0.reasons': lambda old: [*old[:2], reason('c', 2), old[2]]}),
    ('joined: a table that one run needs', {'tables': plus(other), 'runs.0.tables': plus('q')})])
joined_rule('Each foreign key has a parent among the tables of a run, with a key that fits.', [
    ('joined: a parent that the other run alone names', {
        'runs.0.tables': ['c'], 'runs.0.reasons': lambda old: old[:2], 'tables.1.rows': without(0)}),
    ('joined: a child that the second run names without its parent', {
        'runs.1.tables': ['c'], 'runs.1.reasons': [], 'tables.1.rows': lambda old: old[:1]}),
    ('joined: a parent without a key', {'tables.1.key': []}),
    ('joined: no parent', {'tables': lambda old: old[:1], 'runs.0.tables': ['c'], 'runs.1.tables': [],
                           'runs.0.reasons': lambda old: old[:2], 'runs.1.reasons': []}),
    ('joined: a parent of another kind', {'tables.1.columns.0.kind': 'TEXT NOT NULL',
                                          'tables.1.rows': [], 'runs.1.reasons': [],
                                          'runs.0.reasons': lambda old: old[:2]}),
    ('joined: a column that is not there', {'tables.0.foreign.0.columns': [2]}),
    ('joined: a column twice', {'tables.0.foreign.0.columns': [1, 1]}),
    ('joined: a foreign key of no column', {'tables.0.foreign.0.columns': []}),
    ('joined: 17 foreign keys', {'tables.0.foreign': [foreign([1], 'p')] * 17}),
    ('joined: rows of version 2 without foreign keys', {'tables.0.foreign': Raw(b'')}),
], [('joined: 16 foreign keys', {'tables.0.foreign': [foreign([1], 'p')] * 16}),
    ('joined: no foreign key', {'tables.0.foreign': []}),
    ('joined: a child that the second run names with its parent', {'runs.1.tables': ['c', 'p']})])
joined_rule('No two rows of both runs have one key.', [
    ('joined: a key of two rows of a run', {'tables.0.rows.1.values.0': 10}),
    ('joined: a key of a row of each run', {'tables.1.rows.1.values.0': 1}),
], [('joined: another key', {'tables.1.rows.1.values.0': 7})])
joined_rule('Values are of the kind of their column.', [
    ('joined: a text for INT', {'tables.0.rows.1.values.1': 'x'}),
    ('joined: NULL for INT NOT NULL', {'tables.1.rows.0.values.0': None}),
    ('joined: a value of kind 3', {'tables.0.rows.1.values.1': Raw(b'\3')}),
    ('joined: a row with the reason of a package', {
        'tables.0.rows.0.values.0': Raw(b'\0\0\0\1\1' + spell_value(10))}),
], [('joined: NULL for INT', {'tables.0.rows.1.values.1': None})])
joined_rule('Each run is a valid one.', [
    ('joined: no step', {'runs.0.steps': 0}), ('joined: too many steps', {'runs.0.steps': 10_000_001}),
    ('joined: a statement that was not asked', {'runs.0.reasons.1.statement': 2}),
    ('joined: rule 0', {'runs.0.reasons.1.rule': 0}), ('joined: rule 6', {'runs.0.reasons.1.rule': 6}),
    ('joined: another start in the trace', {'runs.0.trace.0.path': TWO}),
    ('joined: statements that are not numbered in order', {'runs.0.trace.1.statement': 1}),
    ('joined: a trace in other runs', {
        'runs.0.runs': [run(FIRST['trace'][0]), *[run(each, 1, 1) for each in FIRST['trace'][1:]]]}),
    ('joined: an event after the last step', {'runs.0.steps': 2}),
    ('joined: no step of the second run', {'runs.1.steps': 0}),
    ('joined: a script of the second run that is none', {'files.4.content': 'sql\n'}),
], [('joined: the most steps', {'runs.0.steps': 10_000_000}),
    ('joined: rule 5', {'runs.0.reasons.1.rule': 'C'}), ('joined: rule 4', {'runs.0.reasons.1.rule': 'P'})])
joined_rule('The second run is judged and run as the first is.', [
    ('joined, second: whole paths fall', {'runs.0.wholes': exchanged}),
    ('joined, second: a child that the first run names without its parent', {
        'runs.0.tables': ['c'], 'runs.0.reasons': lambda old: old[:2], 'tables.1.rows': without(0)}),
    ('joined, second: an event after the last step', {'runs.1.steps': 1}),
], [
    ('joined, second: as it is', {}), ('joined, second: another seed of the first', {'runs.0.seed': 1}),
], run=2)


def rule_cases() -> Iterator[Part]:
    """Each rule: what breaks it, and what just doesn't. The outcome of a run is always the same."""
    for r in JOINED:
        run = r['base']
        for expect, changes in ((r['expect'], r['broken']), ('valid', r['fine'])):
            for name, change in changes:
                given = encode_joined(changed_parts(BOTH, change))
                if expect == 'valid':
                    yield told(name, ['replay', '--run', str(run)], given, output=OUTCOMES[run - 1])
                else:
                    status, line = REFUSED[expect]
                    yield told(name, ['replay', '--run', str(run)], given, status, error=line)


# ---- what a run sees of the other

LOOKING = 'exists x "one"\nexists y "then"\nprint x y\nsql q "SELECT * FROM p"\nsql q "SELECT * FROM c"\n'


def seeing_cases() -> Iterator[Part]:
    """A run that looks for what the other one needs: it has all tables with their rows and all whole files,
    and of present ones those that it needs itself."""
    looking: Part = {**SECOND, 'steps': 6,
                     'files': [SECOND['files'][0], SECOND['files'][1], file(TWO, LOOKING)]}
    both = encode_joined(joined_parts(FIRST, looking))
    yield replaying('what the other run needs', 2, both, replied(PARENTS, CHILDREN[:2], printed='10\n'))
    wanting: Part = {**looking, 'files': [*looking['files'][:2], file('then'), looking['files'][2]]}
    both = encode_joined(joined_parts(FIRST, wanting))
    yield replaying('a file that both need present', 2, both, replied(PARENTS, CHILDREN[:2], printed='11\n'))
    alone = encode_joined(joined_parts(looking, package(2, start=['z'], files=[file('z', '')],
                                                        trace=[started('z'), ended()])))
    yield replaying('what no run needs', 1, alone, replied(PARENTS[1:], 'refused 2\n', printed='00\n'))


def many_tables(first: int, count: int, start: str) -> Part:
    """A package with so many tables, whose names have the numbers from the first on."""
    tables = [table('t%03d' % n, [column('k')], next=0) for n in range(first, first + count)]
    return package(2, start=[start], files=[file(start, 'exit 0')], tables=tables,
                   trace=[started(start), ended()])


def many_cases() -> Iterator[Part]:
    """Each run has at most 256 tables; what is joined may have more."""
    first, second = many_tables(0, 130, ONE), many_tables(130, 130, TWO)
    yield joining('260 tables', first, second)
    yield replaying('260 tables', 2, encode_joined(joined_parts(first, second)), replied())
    yield told('257 tables of one run', ['replay', '--run', '2'],
               encode_joined(joined_parts(first, many_tables(3, 257, TWO))), 8, error='ldv: damaged: form\n')


def budget_cases() -> Iterator[Part]:
    both = encode_joined(BOTH)
    for number, steps in ((1, 3), (2, 2)):
        words = ['replay', '--run', str(number), '--steps']
        yield told('run %d within its steps' % number, [*words, str(steps)], both,
                   output=OUTCOMES[number - 1])
        yield told('run %d within one step fewer' % number, [*words, str(steps - 1)], both, 7,
                   error='ldv: not ended after %d steps\n' % (steps - 1))


# ---- those that are too long to be stored

LIMIT = 67_108_864


def many_files(start: str, letter: str, count: int) -> Part:
    """A package of so many files, all but its script only present."""
    files = [file('%s%05x' % (letter, n)) for n in range(count - 1)] + [file(start, 'exit 0')]
    return package(2, start=[start], files=files, trace=[started(start), ended()])


def long_parts(length: int, count: int = 420_000) -> Part:
    """A package that is joined with itself to this many bytes. Its rows have 10 bytes each, and what it is
    joined to has 157 for each, as the name of their table stands in each reason."""
    rows = [row(n, None) for n in range(count)]
    parts = package(2, files=[file('main', 'exit 0'), file('pad', '')],
                    tables=[table('a' * 63, [column('g')], next=count, rows=rows)],
                    trace=[started(), asked(0, 1), ended()])
    pad = length - len(encode_joined(joined_parts(parts, parts)))
    return {**parts, 'files': [parts['files'][0], file('pad', bytes(pad))]}


def large_join_cases() -> Iterator[Part]:
    """The cases whose inputs are files: each with its bytes."""
    first, second = many_files(ONE, 'a', 65_536), many_files(TWO, 'b', 65_536)
    both = encode_joined(joined_parts(first, second))
    yield replaying('65,536 files of each run', 2, both, replied())
    both = encode_joined(joined_parts(first, many_files(TWO, 'b', 65_537)))
    yield told('65,537 files of a run', ['replay', '--run', '1'], both, 8, error='ldv: damaged: form\n')
    within, beyond = long_parts(LIMIT), long_parts(LIMIT + 1)
    yield replaying('as long as it may be', 1, encode_joined(joined_parts(within, within)), replied())
    yield told('join: longer than it may be', ['join'], pair_of(beyond, beyond), 12,
               error='ldv: package longer than 67108864 bytes\n')


def join_cases() -> Iterator[Part]:
    check_joined()
    for some in (pair_cases, clash_cases, no_pair_cases, rule_cases, seeing_cases, many_cases, budget_cases):
        yield from some()
