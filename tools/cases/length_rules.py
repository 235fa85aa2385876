"""The rules of the counts and lengths in a package. Those of LARGE have cases that are too long to be stored.
package_cases.py writes the cases, and says what a rule is."""
from .encoder import (
    GREATEST,
    LONG,
    Rules,
    Said,
    act,
    asked,
    bytes_in_all,
    column,
    entry,
    events,
    file,
    files_in_all,
    group,
    log,
    logged,
    made,
    off,
    plus,
    processes_in_all,
    read,
    replied,
    row,
    table,
    waited,
)

COUNTED, LARGE = Rules(), Rules()

# ---- counts and lengths

COUNTS = {
    'plain': ['start', 'start.0', 'files', 'files.0.path', 'files.0.content', 'trace', 'trace.0.path'],
    'rows': ['tables', 'tables.0.name', 'tables.0.columns', 'tables.0.columns.0.name', 'tables.0.key',
             'tables.0.rows', 'tables.0.rows.0.values.1'],
    'logs': ['start.1', 'logs', 'logs.1.process', 'logs.0.entries', 'logs.0.entries.0.text',
             'logs.0.entries.0.params', 'logs.0.entries.0.params.1', 'logs.0.entries.0.reply.rows',
             'logs.0.entries.0.reply.rows.0', 'logs.1.entries.0.reply.table', 'logs.1.entries.0.reply.key'],
    'acts': ['trace.13.tables', 'trace.13.tables.0', 'trace.13.reads', 'trace.13.reads.0.table',
             'trace.13.reads.0.rows', 'trace.13.made', 'trace.13.made.1.rows', 'trace'],
}
HUGE = ['files', 'files.0.path', 'files.0.content', 'logs', 'trace', 'trace.0.path']
COUNTED.rule('A count or a length is that of what follows.', 'plain',
     [('%s, %s: %s' % (base, path, what), base, {path: off(by)}) for base in COUNTS for path in COUNTS[base]
      for what, by in (('one too many', 1), ('one too few', -1))]
     + [('a table said where there is none', {'tables': Said(1, [])}),
        ('a log said where there is none', {'logs': Said(1, [])})]
     + [('%s: 4,294,967,295 said' % path, {path: lambda old: Said(2 ** 32 - 1, old)}) for path in HUGE]
     + [('rows: 4,294,967,295 said', 'rows', {'tables.0.rows': lambda old: Said(2 ** 32 - 1, old)}),
        ('rows of a reply: 4,294,967,295 said', 'logs', {
            'logs.0.entries.0.reply.rows': lambda old: Said(2 ** 32 - 1, old)}),
        ('rows of a group: 4,294,967,295 said', 'acts',
         {'trace.13.reads.0.rows': lambda old: Said(2 ** 32 - 1, old)})],
     [('%s with its counts' % base, base, {'seed': 15}) for base in ('rows', 'logs', 'acts')])

# ---- packages that are too long to be stored
WORDS = ['t%04x' % n for n in range(65535)]
LARGE.rule('A start word has at most 65,536 bytes.', 'plain', [
    ('long start word: 65,537 bytes', {'start': ['main', 'w' * (LONG + 1)]}),
    ('long start word: the last of 256 has 65,537 bytes',
     {'start': ['main'] + [''] * 254 + ['w' * (LONG + 1)]}),
    ('long start word: 65,537 bytes in 32,769 letters', {'start': ['main', 'é' * (LONG // 2) + 'w']}),
], [
    ('long start word: 65,536 bytes', {'start': ['main', 'w' * LONG]}),
    ('long start word: 65,536 bytes in 32,768 letters', {'start': ['main', 'é' * (LONG // 2)]}),
])
LARGE.rule('A statement, and a text among parameters and replies, has at most 65,536 bytes.', 'excluded', [
    ('a value of a reply of 65,537 bytes', replied(dict(rows=[[1, 'r' * (LONG + 1)]]))),
    ('a value of a refused key of 65,537 bytes', replied(dict(refused=6, table='t', key=['k' * (LONG + 1)]))),
    ('the last of 255 parameters has 65,537 bytes',
     logged(log([0], entry(params=[None] * 254 + ['p' * (LONG + 1)])))),
    ('the second statement of the second log has 65,537 bytes', logged(
        log([0]), log([0, 0], entry(), entry('s' * (LONG + 1))))),
], [
    ('a statement of 65,536 bytes', logged(log([0], entry('s' * LONG)))),
    ('a parameter of 65,536 bytes', logged(log([0], entry(params=['p' * LONG])))),
    ('a value of a reply of 65,536 bytes', replied(dict(rows=[[1, 'r' * LONG]]))),
    ('a value of a refused key of 65,536 bytes', replied(dict(refused=6, table='t', key=['k' * LONG]))),
    ('a refused table whose name has 65,537 bytes',
     replied(dict(refused=6, table='t' * (LONG + 1), key=[1]))),
])
LARGE.rule('There are at most 65,536 files.', 'plain',
      [('65,537 files', files_in_all(65537))], [('65,536 files', files_in_all(65536))])
LARGE.rule('A file has at most 16,777,216 bytes.', 'plain', [
    ('a file of 16,777,217 bytes', {'files': lambda old: old + [file('z', bytes(GREATEST + 1))]}),
    ('a start file of 16,777,217 bytes', {'files.0.content': lambda old: b'#' * (GREATEST + 1)}),
], [
    ('a file of 16,777,216 bytes', {'files': lambda old: old + [file('z', bytes(GREATEST))]}),
    ('a start file of 16,777,216 bytes', {'files.0.content': lambda old: b'#' * GREATEST}),
])
LARGE.rule('At most 65,535 processes are made.', 'plain', [
    ('65,536 processes', processes_in_all(65536)),
], [
    ('65,535 processes', processes_in_all(65535)),
    ('65,535 processes and a spawn that was refused', {'trace': lambda old: (
        processes_in_all(65535)['trace'](old) + [act('unspawned'), waited(65534)])}),
])
LARGE.rule('A package has at most 67,108,864 bytes, its digest counted.', 'plain',
      [('67,108,865 bytes', bytes_in_all(67108865))], [('67,108,864 bytes', bytes_in_all(67108864))],
      'too long')
LARGE.rule('A right magic is not enough.', 'plain',
      [('67,108,864 bytes of noise',
        {'whole': lambda all: b'LDVPACK1' + bytes(range(256)) * 262143 + bytes(248)})],
      [('no noise', {})], 'digest')
LARGE.allowed('The greatest counts that a field has room for, and rows without a limit of their own.',
              'plain', [
    ('1,000,001 rows', {'trace': plus(asked()), 'tables': lambda old: [
        table('t', [column('a')], next=1000001, rows=[row(n, None) for n in range(1000001)])]}),
    ('a process name of 65,535 parts', 'excluded', logged(log([0] * 65535))),
    ('a row of 65,535 values', 'excluded', replied(dict(rows=[[None] * 65535]))),
    ('65,536 rows of a reply', 'excluded', replied(dict(rows=[[]] * 65536))),
    ('65,535 asked tables', events(asked(tables=WORDS))),
    ('65,535 groups read', {'trace': lambda old: old
                            + [asked(reads=[group(name, read(0)) for name in WORDS])]}),
    ('65,535 groups made', {'trace': lambda old: old
                            + [asked(made=[group(name, made(0)) for name in WORDS])]}),
    ('65,536 statements', {'trace': lambda old: old + [asked(n) for n in range(65536)]}),
])
