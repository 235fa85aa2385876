"""The rules of the tables and the logs of a package.
package_cases.py writes the cases, and says what a rule is."""
from .encoder import (
    COLUMNS,
    LONG,
    NAMES,
    NO_NAMES,
    RESERVED,
    Raw,
    Rules,
    Said,
    asked,
    column,
    columns,
    ended,
    entry,
    events,
    log,
    logged,
    one,
    plus,
    replied,
    row,
    rows,
    spawned,
    started,
    table,
    whole_table,
)

TABLES = Rules()
rule, allowed = TABLES.rule, TABLES.allowed

# ---- tables
rule('There are at most 256 tables.', 'plain', [
    ('257 tables', whole_table(*[table('t%03d' % n, [column('a')], next=0) for n in range(257)])),
], [
    ('256 tables', whole_table(*[table('t%03d' % n, [column('a')], next=0) for n in range(256)])),
    ('one table without rows', whole_table(table('t', [column('a')], next=0))),
])
rule('Tables are sorted by name, and no name is there twice.', 'rows', [
    ('tables out of order', {'tables': plus(table('s', [column('a')]))}),
    ('a table twice', {'tables': plus(table('t', [column('a')]))}),
    ('a table after one that it begins', {'tables': [table('tt', [column('a')]), table('t', [column('a')])]}),
    ('the last two of three tables are out of order', {'tables': [table(name, [
        column('a')]) for name in ('a', 'c', 'b')]}),
    ('tables by their numbers', {'tables': [table(name, [column('a')]) for name in ('t2', 't10')]}),
    ('a letter before an underscore', {'tables': [table(name, [column('a')]) for name in ('a', '_')]}),
], [
    ('tables in order', {'tables': plus(table('u', [column('a')]))}),
    ('a table before one that it begins', {'tables': plus(table('tt', [column('a')]))}),
    ('tables by bytes', {'tables': [table(name, [column('a')]) for name in ('_', 'a', 't10', 't2')]}),
])
rule('The name of a table is a lower-case word of 1 to 63 bytes that is not reserved.', 'plain',
     [('a table whose name ' + what, whole_table(table(name, [column('a')]))) for what, name in NO_NAMES]
     + [('a table with the reserved name ' + word, whole_table(table(word, [column('a')])))
        for word in RESERVED]
     + [('a table whose name is not UTF-8', whole_table(table(b't\xff', [column('a')])))],
     [('a table whose name ' + what, whole_table(table(name, [column('a')]))) for what, name in NAMES])
rule('The name of a column is a lower-case word of 1 to 63 bytes that is not reserved.', 'plain',
     [('a column whose name ' + what, whole_table(table('t', [column(name)]))) for what, name in NO_NAMES]
     + [('a column with the reserved name ' + word, whole_table(table('t', [column('a'), column(word)])))
        for word in ('all', 'max', 'select', 'where')]
     + [('a column whose name is not UTF-8', whole_table(table('t', [column(b'\xc3\xa9')])))],
     [('a column whose name ' + what, whole_table(table('t', [column(name)]))) for what, name in NAMES]
     + [('a column with the name of its table', whole_table(table('t', [column('t')])))])
rule('No name of a column is there twice in a table.', 'rows', [
    ('two columns of one name', columns(column('a'), column('a'))),
    ('two columns of one name and two kinds', columns(column('a'), column('a', 'TEXT'))),
    ('the first name again at the end', columns(column('a'), column('b'), column('a'))),
], [
    ('columns that are not in order', columns(column('b'), column('a'))),
    ('two tables with columns of one name',
     {'tables': [table('t', [column('a')]), table('u', [column('a')])]}),
])
rule('A table has 1 to 64 columns.', 'plain', [
    ('a table without columns', whole_table(table('t', []))),
    ('65 columns', whole_table(table('t', [column('c%d' % n) for n in range(65)]))),
    ('255 columns', whole_table(table('t', [column('c%d' % n) for n in range(255)]))),
], [
    ('1 column', whole_table(table('t', [column('c')]))),
    ('64 columns', whole_table(table('t', [column('c%d' % n) for n in range(64)]))),
])
rule('The kind of a column is 1 to 4.', 'rows',
     [('a column of the kind %d' % n, columns(column('a', n))) for n in (0, 5, 255)],
     [('a column of each kind', columns(*[column('c%d' % n, n) for n in (1, 2, 3, 4)])),
      ('a row of each kind', {'tables.0': table('t', [column('c%d' % n, n) for n in (1, 2, 3, 4)], rows=[
          row(0, None, None, 0, ''), row(1, 1, 'a', 2, 'b')])})])
rule('A place of the key is that of a column.', 'rows', [
    ('a key of the place after the last', columns(column('a', 'INT NOT NULL'), key=[1])),
    ('a key of a column and the place after the last', {'tables.0.key': [0, 3]}),
    ('a key of place 255', {'tables.0.key': [255]}),
], [
    ('a key of the only column', columns(column('a', 'INT NOT NULL'), key=[0])),
    ('a key of the last column', columns(column('a'), column('b', 'TEXT NOT NULL'), key=[1])),
    ('no key', {'tables.0.key': []}),
])
rule('No place is twice in a key.', 'rows', [
    ('a key of one place twice', {'tables.0.key': [0, 0]}),
    ('a key of two places and the first again', columns(
        column('a', 'INT NOT NULL'), column('b', 'INT NOT NULL'), key=[0, 1, 0])),
], [
    ('a key of two places out of order',
     columns(column('a', 'INT NOT NULL'), column('b', 'INT NOT NULL'), key=[1, 0])),
    ('a key of 64 columns', columns(*[column('c%d' % n, 'INT NOT NULL') for n in range(64)],
                                    key=list(range(64)))),
])
rule('A column of the key is NOT NULL.', 'rows', [
    ('a key of a column of numbers that may be NULL', columns(column('a'), key=[0])),
    ('a key of a column of texts that may be NULL', columns(column('a', 'TEXT'), key=[0])),
    ('a key whose second column may be NULL', {'tables.0.key': [0, 1]}),
], [
    ('a key of numbers', columns(column('a', 'INT NOT NULL'), column('b', 'TEXT'), key=[0])),
    ('a key of texts', columns(column('a', 'TEXT NOT NULL'), key=[0])),
    ('a key before a column that may be NULL', columns(column('a', 'INT NOT NULL'), column('b'), key=[0])),
])

TWO = [column('a', 'TEXT NOT NULL'), column('b', 'TEXT NOT NULL'), column('c')]
rule('No two rows of a table have the same key.', 'rows', [
    ('two rows of one key', rows(row(3, 4, 'b', None), row(4, 4, 'c', 1))),
    ('the first and the last row of one key', rows(row(0, 1, 'a', 1), row(1, 2, 'a', 1), row(2, 1, 'b', 2))),
    ('two rows of one key of texts', columns(*TWO, key=[0], rows=[row(0, 'a', 'a', 1), row(1, 'a', 'b', 2)])),
    ('two rows of one key of two columns',
     columns(*TWO, key=[0, 1], rows=[row(0, 'a', 'b', 1), row(1, 'a', 'b', 2)])),
    ('two rows of one key in the second table', {'tables': plus(table('u', COLUMNS, [0], 9, [
        row(0, 1, 'a', 1), row(1, 1, 'b', 2)]))}),
    ('two rows of one empty text', columns(*TWO, key=[1], rows=[row(0, 'a', '', 1), row(1, 'b', '', 2)])),
], [
    ('two rows of neighbouring keys', rows(row(3, 4, 'b', None), row(4, 5, 'b', None))),
    ('two rows that are the same, without a key', {
        'tables.0.key': [], **rows(row(3, 4, 'b', None), row(4, 4, 'b', None))}),
    ('keys that are not in order', rows(row(3, 5, 'b', None), row(4, 4, 'c', None))),
    ('keys of texts in two cases', columns(*TWO, key=[0], rows=[
        row(0, 'a', 'a', 1), row(1, 'A', 'a', 1), row(2, 'a ', 'a', 1)])),
    ('keys of two columns that differ in one', columns(*TWO, key=[0, 1], rows=[
        row(0, 'a', 'b', 1), row(1, 'a', 'c', 1)])),
    ('keys of two columns that are the same when joined', columns(*TWO, key=[0, 1], rows=[
        row(0, 'a', 'bc', 1), row(1, 'ab', 'c', 1)])),
    ('keys of two columns in turn',
     columns(*TWO, key=[1, 0], rows=[row(0, 'a', 'b', 1), row(1, 'b', 'a', 1)])),
    ('one key in two tables', {'tables': plus(table('u', COLUMNS, [0], 9, [row(3, 4, 'b', None)]))}),
])
rule('Rows are sorted by number, and no number is there twice.', 'rows', [
    ('rows out of order', rows(row(4, 5, 'c', -10), row(3, 4, 'b', None))),
    ('a row number twice', rows(row(3, 4, 'b', None), row(3, 5, 'c', -10))),
    ('the last two of three rows are out of order',
     rows(row(0, 1, 'a', 1), row(4, 2, 'a', 1), row(3, 3, 'a', 1))),
    ('the last two of three rows have one number',
     rows(row(0, 1, 'a', 1), row(3, 2, 'a', 1), row(3, 3, 'a', 1))),
    ('rows out of order, their low bytes in order', {
        'tables.0.next': 999, **rows(row(256, 1, 'a', 1), row(255, 2, 'a', 1))}),
], [
    ('rows in order without a gap', rows(row(2, 3, 'a', 1), row(3, 4, 'b', None), row(4, 5, 'c', -10))),
    ('rows in order with a gap', rows(row(0, 4, 'b', None), row(4, 5, 'c', -10))),
    ('rows in order, their low bytes out of order', {
        'tables.0.next': 999, **rows(row(255, 1, 'a', 1), row(256, 2, 'a', 1))}),
    ('no row', rows()),
])
rule('Row numbers are below next, which is at most 4,294,967,295.', 'rows', [
    ('a row number that is next', {'tables.0.next': 4}),
    ('a row number above next', {'tables.0.next': 3, **rows(row(4, 5, 'c', 1))}),
    ('next 0 and a row', {'tables.0.next': 0, **rows(row(0, 5, 'c', 1))}),
    ('the row number 4,294,967,295', {'tables.0.next': 2 ** 32 - 1, 'tables.0.rows.1.number': 2 ** 32 - 1}),
], [
    ('a row number just below next', rows(row(4, 5, 'c', 1))),
    ('next far above', {'tables.0.next': 2 ** 32 - 1}),
    ('next 0 and no row', {'tables.0.next': 0, **rows()}),
    ('the row number 4,294,967,294', {'tables.0.next': 2 ** 32 - 1, 'tables.0.rows.1.number': 2 ** 32 - 2}),
    ('fewer rows than next', {'tables.0.next': 1000000}),
])
rule('The rule of a row is 1 to 3.', 'rows',
     [('a row of rule %d' % n, {'tables.0.rows.1.rule': n}) for n in (0, 4, 5, 255)],
     [('a row of rule %s' % name, {'tables.0.rows.1.rule': name}) for name in 'LK'])
rule('The statement of a row was asked.', 'rows', [
    ('a row for statement 1 of 1', {'tables.0.rows.1.statement': 1}),
    ('a row for the statement 4,294,967,295', {'tables.0.rows.0.statement': 2 ** 32 - 1}),
    ('a row and no statement', {'trace': [started(), ended(2)]}),
    ('a row for statement 2 of 2', {'tables.0.rows.0.statement': 2, 'trace': plus(asked(1, 2))}),
    ('a row of the second table for statement 1 of 1', {
        'tables': plus(table('u', [column('a')], rows=[row(0, 1, statement=1)]))}),
], [
    ('a row for statement 0 of 1', {'tables.0.rows.1.statement': 0, 'seed': 13}),
    ('a row for statement 1 of 2', {'tables.0.rows.1.statement': 1, 'trace': plus(asked(1, 2))}),
    ('no row and no statement', {'trace': [started(), ended(2)], **rows()}),
    ('a row for a statement that another process asked',
     {'trace': [started(), spawned(), asked(0, 1, 1), ended(2)]}),
])
rule('A row has a value for each column.', 'rows', [
    ('a value too few', {'tables.0.rows.1.values': [5, 'c']}),
    ('a value too many', {'tables.0.rows.1.values': [5, 'c', -10, None]}),
    ('no value', {'tables.0.rows.1.values': []}),
], [
    ('three values', {'tables.0.rows.1.values': [5, 'c', None]}),
])
rule('NULL is in no column that is NOT NULL.', 'rows', [
    ('NULL in a key', {'tables.0.rows.1.values.0': None}),
    ('NULL in a column of numbers', one('INT NOT NULL', None)),
    ('NULL in a column of texts', one('TEXT NOT NULL', None)),
], [
    ('NULL in a column of numbers that may be NULL', one('INT', None)),
    ('NULL in a column of texts that may be NULL', one('TEXT', None)),
    ('0 where NULL may not be', one('INT NOT NULL', 0)),
    ('the empty text where NULL may not be', one('TEXT NOT NULL', '')),
])
rule('A value has the kind of its column.', 'rows', [
    ('a text in a column of numbers', one('INT', 'b')),
    ('a text of digits in a column of numbers', one('INT', '1')),
    ('a number in a column of texts', one('TEXT', 1)),
    ('a text among numbers that are NOT NULL', one('INT NOT NULL', '1')),
    ('a number among texts that are NOT NULL', one('TEXT NOT NULL', 1)),
    ('a text in the last column of the last row', {'tables.0.rows.1.values.2': 'x'}),
], [
    ('a number in a column of numbers', one('INT', 1)), ('a text in a column of texts', one('TEXT', '1')),
    ('a number among numbers that are NOT NULL', one('INT NOT NULL', -1)),
    ('a text among texts that are NOT NULL', one('TEXT NOT NULL', '1')),
])
rule('A value begins with 0, 1 or 2.', 'rows', [
    ('a value with the tag 3', one('INT', Raw(b'\3'))),
    ('a value with the tag 3 and a number', one('INT', Raw(b'\3' + bytes(8)))),
    ('a value with the tag 255', one('TEXT', Raw(b'\xff'))),
    ('a parameter with the tag 3', 'logs', {'logs.0.entries.0.params.2': Raw(b'\3')}),
    ('a value of a reply with the tag 3', 'logs', {'logs.0.entries.0.reply.rows.1.0': Raw(b'\3')}),
    ('a value of a refused key with the tag 3', 'logs', {'logs.1.entries.0.reply.key.1': Raw(b'\3')}),
    ('a number of four bytes', one('INT', Raw(b'\1' + bytes(4)))),
], [
    ('values of each tag', rows(row(0, 1, None, 2), row(1, 2, 'x', None))),
    ('parameters of each tag', 'logs', {'logs.0.entries.0.params': [None, 0, '', 2 ** 63 - 1]}),
])
rule('A text of a row has at most 65,536 bytes.', 'rows', [
    ('a value of 65,537 bytes', {'files.0.content': 'exit 0', 'tables.0.rows.1.values.1': 'x' * (LONG + 1)}),
], [
    ('a value of 65,536 bytes', {'files.0.content': 'exit 0', 'tables.0.rows.1.values.1': 'x' * LONG}),
])

# ---- logs
rule('Logs are sorted by process name, part by part as numbers, and no name is there twice.', 'excluded', [
    ('logs out of order', logged(log([0, 1]), log([0, 0]))), ('a log twice', logged(log([0]), log([0]))),
    ('a child before its parent', logged(log([0, 0]), log([0]))),
    ('logs by their digits', logged(log([0, 10]), log([0, 2]))),
    ('the last two of three logs are out of order', logged(log([0]), log([0, 3]), log([0, 2, 9]))),
    ('logs out of order, their low bytes in order', logged(log([0, 256]), log([0, 1]))),
], [
    ('logs in order', logged(log([0, 0]), log([0, 1]))),
    ('a parent before its child', logged(log([0]), log([0, 0]))),
    ('logs by their parts', logged(log([0, 2]), log([0, 10]))),
    ('a grandchild before the next child', logged(log([0, 0, 9]), log([0, 1]))),
    ('logs in order, their low bytes out of order', logged(log([0, 1]), log([0, 256]))),
    ('logs of processes that are not in the trace', logged(log([0, 2 ** 32 - 1]))),
])
rule('The name of a log begins with part 0.', 'excluded', [
    ('a log of process 1', logged(log([1]))), ('a log of process 1.0', logged(log([1, 0]))),
    ('a log of process 4,294,967,295', logged(log([2 ** 32 - 1]))), ('a log without a name', logged(log([]))),
    ('a log of process 0 and one of process 1', logged(log([0]), log([1]))),
], [
    ('a log of process 0', logged(log([0], entry('x')))), ('a log of process 0.1', logged(log([0, 1]))),
    ('a log of process 0.0.0.0.0.0', logged(log([0] * 6))),
])
rule('No log is empty.', 'excluded', [
    ('a log without entries', logged(dict(process=[0], entries=[]))),
    ('the last of two logs without entries', logged(log([0]), dict(process=[0, 0], entries=[]))),
], [
    ('a log of one entry', logged(log([0], entry('y')))),
    ('a log of two entries', logged(log([0], entry(), entry()))),
])
rule('An entry has at most 255 parameters.', 'excluded', [
    ('256 parameters', logged(log([0], entry(params=[None] * 256)))),
    ('65,535 parameters said', logged(log([0], entry(params=Said(65535, [None]))))),
], [
    ('255 parameters', logged(log([0], entry(params=[None] * 255)))),
    ('a parameter of each kind', logged(log([0], entry(params=[None, -2 ** 63, 'é'])))),
])
rule('A statement, and a text among its parameters, has at most 65,536 bytes.', 'excluded', [
    ('a statement of 65,537 bytes', logged(log([0], entry('s' * (LONG + 1))))),
    ('a parameter of 65,537 bytes', logged(log([0], entry(params=['p' * (LONG + 1)])))),
], [
    ('a statement and a parameter of 300 bytes', logged(log([0], entry('s' * 300, ['p' * 300])))),
])
rule('A reply begins with 1, 2 or 3.', 'excluded', [
    ('a reply with the tag 0', replied(Raw(b'\0' + bytes(8)))),
    ('a reply with the tag 4', replied(Raw(b'\4' + bytes(8)))),
    ('a reply with the tag 255', replied(Raw(b'\xff' + bytes(8)))),
    ('a number of changed rows of four bytes', replied(Raw(b'\2' + bytes(4)))),
], [
    ('a reply of no rows', replied(dict(rows=[]))), ('a reply of one changed row', replied(dict(changed=1))),
    ('a reply that is a refusal', replied(dict(refused=1))),
])
rule('The code of a refusal is 1 to 7, and only code 6 has a table and a key.', 'excluded',
     [('a refusal of code %d' % n, replied(dict(refused=n))) for n in (0, 8, 9, 255)]
     + [('code 6 without a table', replied(dict(refused=6))),
        ('code 6 without a key', replied(Raw(b'\3\6' + b'\0\0\0\1t'))),
        ('code 5 with a table and a key', replied(dict(refused=5, table='t', key=[1]))),
        ('256 values of a key', replied(dict(refused=6, table='t', key=Raw(b'\0' + bytes(256)))))],
     [('a refusal of code %d' % n, replied(dict(refused=n))) for n in (2, 3, 4, 5, 7)]
     + [('code 6 with a key of two values', replied(dict(refused=6, table='t', key=[1, 'x']))),
        ('255 values of a key', replied(dict(refused=6, table='t', key=[None] * 255)))])
allowed('What the rules leave open in a log.', 'excluded', [
    ('rows of one reply with different widths', replied(dict(rows=[[], [1], ['a', None], []]))),
    ('a number of changed rows above those of 63 bits', replied(dict(changed=2 ** 63))),
    ('the greatest number of changed rows', replied(dict(changed=2 ** 64 - 1))),
    ('a refused table without a name', replied(dict(refused=6, table='', key=[1]))),
    ('a refused table whose name is no name', replied(dict(refused=6, table='Select\n', key=[1]))),
    ('a refused key without values', replied(dict(refused=6, table='t', key=[]))),
    ('a refused table whose name has 300 bytes', replied(dict(refused=6, table='t' * 300, key=[]))),
    ('an empty statement', logged(log([0], entry('')))),
    ('a statement that is none', logged(log([0], entry('exit 0\n\0', [1])))),
    ('a row of 300 values', replied(dict(rows=[[None] * 300]))),
    ('a log, and no statement in the trace', logged(log([0], entry('z'), entry('z')))),
    ('a statement in the trace, and no log', events(asked())),
])
