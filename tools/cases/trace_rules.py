"""The rules of the trace of a package. package_cases.py writes the cases, and says what a rule is."""
from __future__ import annotations

from typing import Callable

from .encoder import (
    FLAGGED,
    NAMES,
    NO_NAMES,
    WITH_PATH,
    Part,
    Rules,
    act,
    asked,
    asks,
    column,
    ended,
    events,
    file,
    group,
    made,
    plus,
    read,
    row,
    spawned,
    started,
    stepped,
    table,
    waited,
)

TRACES = Rules()
rule, allowed = TRACES.rule, TRACES.allowed

rule('The trace begins with the start of process 0 at step 0, on the first start word.', 'plain', [
    ('a trace without events', {'trace': []}), ('a trace without a start', {'trace': [ended()]}),
    ('a trace that begins with a spawn at step 0', {'trace': [act('spawned', 'main', 0), ended()]}),
    ('a trace that begins with a read at step 0', {'trace': [act('read', 'main', 0), ended()]}),
] + [('a trace that begins with %s at step 0' % name, {'trace': [act(name, 'main', 0), ended()]})
     for name in WITH_PATH if name not in ('spawned', 'read')] + [
    ('a trace that begins with a wait for process 0 at step 0', {'trace': [waited(0, 0), ended()]}),
    ('a trace that begins with an end at step 0', {'trace': [ended(0), ended()]}),
    ('a trace that begins with a statement at step 0', {'trace': [asked(0, 0), ended()]}),
    ('a start after the end', {'trace': [ended(), started()]}),
    ('a start at step 1', {'trace': [started(step=1), ended()]}),
    ('a start of process 1', {'trace': [started(process=1), ended()]}),
    ('a start on another file',
     {'files': [file('a', 'exit 0'), file('main', 'exit 0')], 'trace.0.path': 'a'}),
    ('a start on the second start word', {'start': ['main', 'mail'], 'trace.0.path': 'mail'}),
    ('a start on a part of the first start word', {'trace.0.path': 'mai'}),
    ('a start without a path', {'trace.0.path': ''}),
], [
    ('a start, and no end', {'trace': [started()], 'seed': 14}),
    ('a start on a file among others', {'files': [file('a', 'exit 1'), file('main', 'exit 0')]}),
])
rule('No other event is a start.', 'plain', [
    ('a second start at step 0', {'trace': [started(), started(), ended()]}),
    ('a second start at step 1', events(started(step=1))),
    ('a second start at the end', {'trace': [started(), ended(), started(step=1)]}),
    ('a start of a child', events(spawned(), started('f', 1, 1))),
], [
    ('a spawn of the same path', events(spawned(path='main'))),
])
rule('Later steps are 1 to the number of steps.', 'plain', [
    ('an event at step 0 after the start', {'trace': [started(), act('read', 'f', 0), ended()]}),
    ('the end at step 0', {'trace': [started(), ended(0)]}),
    ('an event past the number of steps', {'trace': [started(), ended(2)]}),
    ('an event far past the number of steps', {'trace': [started(), ended(2 ** 32 - 1)]}),
    ('the last of three events past the number of steps', stepped(7, ended(7), ended(8))),
], [
    ('an event at step 1 after the start', events(act('read', 'f', 1))),
    ('an event at the last step', stepped(7, ended(7))),
    ('fewer steps with events than steps', stepped(9, ended(7))),
])
rule('Steps never fall.', 'plain', [
    ('steps that fall', stepped(3, act('read', step=2), ended(1))),
    ('steps that fall by one after many',
     stepped(9, *[act('read', step=n) for n in (1, 2, 3, 5, 4)], ended(9))),
    ('steps that fall from one process to another', stepped(
        3, spawned(1), act('read', step=3), act('read', 'f', 2, 1))),
    ('steps that fall, their low bytes in order', stepped(300, act('read', step=256), ended(255))),
], [
    ('steps that grow', stepped(3, act('read', step=1), ended(2))),
    ('events of one step', stepped(3, act('read', step=2), ended(2))),
    ('steps that grow, their low bytes out of order', stepped(300, act('read', step=255), ended(256))),
])
rule('The process of an event was made before.', 'plain', [
    ('process 1 without a spawn', {'trace.1.process': 1}),
    ('process 4,294,967,295', {'trace.1.process': 2 ** 32 - 1}),
    ('process 1 before its spawn', events(act('read', process=1), spawned())),
    ('process 1 spawns itself', events(spawned(process=1))),
    ('process 2 after one spawn', events(spawned(), act('read', process=2))),
    ('process 1 after a spawn that was refused', events(act('unspawned'), act('read', process=1))),
    ('process 256 after one spawn', events(spawned(), act('read', process=256))),
], [
    ('process 1 after its spawn', events(spawned(), act('read', process=1))),
    ('process 2 after two spawns', events(spawned(), spawned(), act('read', process=2))),
    ('process 2 after a spawn by process 1', events(spawned(), spawned(process=1), ended(1, 2))),
    ('process 0 after a spawn that was refused', events(act('unspawned'), act('read'))),
])
rule('A child that is waited for was made before.', 'plain', [
    ('a wait for child 1 without a spawn', events(waited(1))),
    ('a wait for child 4,294,967,295', events(waited(2 ** 32 - 1))),
    ('a wait for child 1 before its spawn', events(waited(1), spawned())),
    ('a wait for child 2 after one spawn', events(spawned(), waited(2))),
    ('a wait for child 1 after a spawn that was refused', events(act('unspawned'), waited(1))),
], [
    ('a wait for child 1 after its spawn', events(spawned(), waited(1))),
    ('a wait for child 2 after two spawns', events(spawned(), spawned(), waited(2))),
    ('a wait for another\'s child', events(spawned(), spawned(process=1), waited(2))),
])
rule('Statements are numbered 0, 1, 2 and so on over all processes.', 'plain', [
    ('a first statement of number 1', events(asked(1))),
    ('a first statement of the last number', events(asked(2 ** 32 - 1))),
    ('a statement number left out', events(asked(0), asked(2))),
    ('a statement number twice', events(asked(0), asked(0))),
    ('statements out of order', events(asked(1), asked(0))),
    ('a third statement of number 1', events(asked(0), asked(1), asked(1))),
    ('a first statement of each process', events(spawned(), asked(0), asked(0, 1, 1))),
], [
    ('a first statement of number 0', events(asked(0))),
    ('three statements', events(asked(0), asked(1), asked(2))),
    ('statements of two processes', events(spawned(), asked(0, 1, 1), asked(1), asked(2, 1, 1))),
])
rule('The tables of a statement are sorted, and none is there twice.', 'plain', [
    ('asked tables out of order', events(asked(tables=['u', 't']))),
    ('an asked table twice', events(asked(tables=['t', 't']))),
    ('an asked table after one that it begins', events(asked(tables=['tt', 't']))),
    ('the last two of three asked tables are out of order', events(asked(tables=['a', 'c', 'b']))),
], [
    ('asked tables in order', events(asked(tables=['t', 'u']))),
    ('an asked table before one that it begins', events(asked(tables=['_', 't', 'tt']))),
])

ROWS: list[tuple[str, str, Callable[..., Part]]] = [('reads', 'read', read), ('made', 'made', made)]
for kind, place, one_row in ROWS:
    rule('The groups of rows that a statement %s are sorted by table, and no table has two.' % place,
         'plain', [
        (kind + ': groups out of order', asks(kind, group('u', one_row(1)), group('t', one_row(2)))),
        (kind + ': two groups of one table', asks(kind, group('t', one_row(1)), group('t', one_row(2)))),
        (kind + ': a group twice', asks(kind, group('t', one_row(1)), group('t', one_row(1)))),
        (kind + ': the last two of three groups are out of order',
         asks(kind, *[group(n, one_row(1)) for n in 'acb'])),
        (kind + ': a table again after another', asks(
            kind, group('t', one_row(1)), group('u', one_row(1)), group('t', one_row(2)))),
    ], [
        (kind + ': groups in order', asks(kind, group('t', one_row(2)), group('u', one_row(1)))),
        (kind + ': a table before one that it begins',
         asks(kind, group('t', one_row(1)), group('tt', one_row(1)))),
        (kind + ': one group', asks(kind, group('t', one_row(1), one_row(2)))),
    ])
    rule('No group of rows that a statement %s is empty.' % place, 'plain', [
        (kind + ': an empty group', asks(kind, group('t'))),
        (kind + ': an empty group after another', asks(kind, group('t', one_row(1)), group('u'))),
    ], [
        (kind + ': no group', events(asked(tables=['a', kind]))),
        (kind + ': a group of one row', asks(kind, group('t', one_row(0)))),
    ])
    rule('The rows of a group that a statement %s are sorted, and none is there twice.' % place, 'plain', [
        (kind + ': rows out of order', asks(kind, group('t', one_row(2), one_row(1)))),
        (kind + ': a row twice', asks(kind, group('t', one_row(1), one_row(1)))),
        (kind + ': a row in two versions', asks(kind, group('t', one_row(1, 1), one_row(1, 2)))),
        (kind + ': the last two of three rows are out of order', asks(
            kind, group('t', one_row(0), one_row(5), one_row(4)))),
        (kind + ': rows out of order in the second group', asks(
            kind, group('t', one_row(1)), group('u', one_row(2), one_row(1)))),
        (kind + ': rows out of order, their low bytes in order',
         asks(kind, group('t', one_row(256), one_row(1)))),
    ], [
        (kind + ': rows in order', asks(kind, group('t', one_row(1), one_row(3)))),
        (kind + ': versions out of order', asks(kind, group('t', one_row(1, 2), one_row(2, 1)))),
        (kind + ': rows out of order from table to table',
         asks(kind, group('t', one_row(9)), group('u', one_row(1)))),
        (kind + ': rows in order, their low bytes out of order',
         asks(kind, group('t', one_row(1), one_row(256)))),
        (kind + ': the greatest row number and version',
         asks(kind, group('t', one_row(2 ** 32 - 1, 2 ** 32 - 1)))),
    ])
    rule('The table of rows that a statement %s has a name by the rule.' % place, 'plain',
         [('%s: a table whose name %s' % (kind, what), asks(kind, group(name, one_row(0))))
          for what, name in NO_NAMES]
         + [(kind + ': a table with a reserved name', asks(kind, group('order', one_row(0)))),
            (kind + ': a table whose name is not UTF-8', asks(kind, group(b't\xff', one_row(0))))],
         [('%s: a table whose name %s' % (kind, what), asks(kind, group(name, one_row(0))))
          for what, name in NAMES])
rule('A table of a statement has a name by the rule.', 'plain',
     [('an asked table whose name ' + what, events(asked(tables=[name]))) for what, name in NO_NAMES]
     + [('an asked table with a reserved name', events(asked(tables=['order']))),
        ('an asked table whose name is not UTF-8', events(asked(tables=[b't\xff'])))],
     [('an asked table whose name ' + what, events(asked(tables=[name]))) for what, name in NAMES])
rule('The rule of a row that a statement read is 1 to 3.', 'plain',
     [('a read by rule %d' % n, events(asked(reads=[group('t', read(0, 0, n))]))) for n in (0, 4, 5, 255)],
     [('a read by rule %d' % n, events(asked(reads=[group('t', read(1, 0, n))]))) for n in (1, 2, 3)])
rule('An act is 0 to 14.', 'plain', [
    ('act 15', events(dict(step=1, process=0, act=15))),
    ('act 255', events(dict(step=1, process=0, act=255))),
],
[('act %d' % n, events(e))
 for n, e in ((13, ended()), (14, asked(tables=['t'], made=[group('u', made(0, 0))])))])
rule('A flag is 0 or 1.', 'plain',
     [('%s with the flag %d' % (name, flag), events(act(name, found=flag)))
      for name in FLAGGED for flag in (2, 255)],
     [('%s with the flag %d' % (name, flag), events(act(name, found=flag)))
      for name in FLAGGED for flag in (0, 1)])
allowed('What the rules leave open in a trace.', 'plain', [
    ('a process that acts after its end', {'trace': plus(act('read'), ended(1, 0, 7), ended())}),
    ('a process that waits for itself', events(waited(0))),
    ('a child that waits for its parent', events(spawned(), waited(0, 1, 1), waited(1))),
    ('a wait for a child that does not end', events(spawned(), waited(1), spawned())),
    ('a statement that reads rows of tables that it does not name', events(
        asked(tables=['a'], reads=[group('t', read(7))]))),
    ('a row made without being read', events(asked(made=[group('t', made(7, 9))]))),
    ('versions that do not follow', events(
        asked(0, made=[group('t', made(1, 5))]), asked(1, reads=[group('t', read(1, 2))]))),
    ('a spawn of a file that is not there', events(spawned(path='nothing'))),
    ('an end with any status', events(ended(1, 0, 255), ended(1, 0, 128))),
    ('a trace of another run', {'files.0.content': 'exit 9', 'trace': [started()]}),
])
allowed('What the rules leave open in rows and files.', 'rows', [
    ('a row that no statement read', {'tables.0.rows.0.number': 2}),
    ('a table that no statement names', {'tables': plus(table('z', [column('a')], rows=[row(8, 1)]))}),
    ('a file that no event names', {'files': plus(file('z', 'z'))}),
    ('a row by another rule than its read', {'tables.0.rows.0.rule': 'K'}),
    ('a row that a later statement read first', {'tables.0.rows.0.statement': 1, 'trace': plus(asked(1, 2))}),
])
allowed('The rows of the package are what is replayed, whatever its trace says.', 'picked', [
    ('a statement with a condition', {}),
    ('a row more, which the statement does not pick', {'tables.0.rows': lambda old: [row(0, 1, 'a')] + old}),
    ('a row that is not picked any more', {'tables.0.rows.1.values.0': 3, 'output': (
        'outcome 1 0\nprocess 0 0 3 1\nhi\n\nrows 1\nrow 2\nint 2\ntext 1\nb\n')}),
])
