"""The cases of packages whose traces stand in runs: version 2.
package_cases.py writes them, and says what a rule is."""
from __future__ import annotations

import hashlib
from typing import Any

from .encoder import (
    BASES,
    MAGIC,
    Change,
    Part,
    Raw,
    Rules,
    Said,
    act,
    asked,
    before_digest,
    ended,
    file,
    flipped,
    foreign,
    log,
    logged,
    plus,
    run,
    spawned,
    started,
    waited,
)

RUNS = Rules()
EVENTS = 20000001                           # the most events of a trace
WORD = 2 ** 32                              # the first number that a u32 doesn't hold


def in_runs(*runs: Part, steps: int = 9, **others: Any) -> Change:
    """The base with these runs, whatever the cut of their events is. The start of the first process stands
    before them where they begin with another event."""
    first = [] if runs and runs[0]['first']['act'] == 'started' else [run(started())]
    return {'steps': steps, 'runs': first + list(runs), **others}


def in_steps(*steps: int, steps_in_all: int = 9) -> Change:
    """The base with a file read at these steps, in the cut of the format."""
    return {'steps': steps_in_all, 'trace': [started(), *[act('read', step=step) for step in steps]]}


def reading(step: int, count: Any = 1, stride: Any = 0, path: str = 'f', process: int = 0) -> Part:
    return run(act('read', path, step, process), count, stride)


def run_rule(sentence: str, broken: list[Any], fine: list[Any], base: str = 'plain in runs',
             expect: str = 'form') -> None:
    RUNS.rule(sentence, base, broken, fine, expect)


# ---- versions
run_rule('The magic is that of a version.', [
    ('runs under a magic with the digit 3', {'magic': b'LDVPACK3'}),
    ('runs under a magic with the digit 0', {'magic': b'LDVPACK0'}),
    ('runs under a magic in lower case', {'magic': b'ldvpack2'}),
    ('runs under a magic with the number 2', {'magic': b'LDVPACK\2'}),
    ('runs after a byte', {'magic': b'\0LDVPACK2'}),
    ('runs under a magic with the digit 3 and a wrong digest', {'magic': b'LDVPACK3', 'whole': flipped(-1)}),
    ('7 bytes of a magic and no digit', {'whole': lambda all: all[:7]}),
], [
    ('the same package in version 2', {}), ('the same package in version 1', 'plain', {'seed': 16}),
], expect='magic')
run_rule('Version 2 has the digest of version 1, which is judged before the form.', [
    ('version 2: the magic alone', {'whole': lambda all: all[:8]}),
    ('version 2: 39 bytes', {'whole': lambda all: all[:39]}),
    ('version 2: the last byte left out', {'whole': lambda all: all[:-1]}),
    ('version 2: a byte after the digest', {'whole': lambda all: all + b'\0'}),
    ('version 2: the last byte changed', {'whole': flipped(-1)}),
    ('version 2: the digest of the same package in version 1', {
        'digest': lambda body: hashlib.sha256(before_digest(BASES['plain'])).digest()}),
    ('version 2: the digest under a magic of version 1', {
        'digest': lambda body: hashlib.sha256(MAGIC[1] + body[8:]).digest()}),
    ('version 2: the count of a run changed after the digest was made', {'whole': flipped(-37)}),
], [
    ('version 2: another seed', {'seed': 1}), ('version 2: another script', {'files.0.content': 'exit 1'}),
], expect='digest')
run_rule('What stands behind the magic is the spelling of its version.', [
    ('version 1 over runs', {'magic': MAGIC[1]}), ('version 2 over events', 'plain', {'magic': MAGIC[2]}),
    ('version 1 over a table of version 2', 'rows in runs', {'magic': MAGIC[1]}),
    ('version 2 over a table of version 1', 'rows', {'magic': MAGIC[2]}),
    ('version 1 over logs and runs', 'logs in runs', {'magic': MAGIC[1]}),
    ('version 2 over logs and events', 'logs', {'magic': MAGIC[2]}),
    ('version 1 over every act in runs', 'acts in runs', {'magic': MAGIC[1]}),
    ('version 2 over every act as events', 'acts', {'magic': MAGIC[2]}),
    ('version 1 over runs, with the count and stride of the first left out', {
        'magic': MAGIC[1], 'body': lambda body: body[:-26] + body[-18:]}),
    ('version 2: a byte before the digest', {'body': lambda body: body + b'\0'}),
    ('version 2: the last stride left out', {'body': lambda body: body[:-4]}),
    ('version 2: the last byte of a stride left out', {'body': lambda body: body[:-1]}),
    ('version 2: the last count and stride left out', {'body': lambda body: body[:-8]}),
    ('version 2: the package twice, one digest', {'body': lambda body: body + body}),
], [
    ('version 2: rows', 'rows in runs', {}), ('version 2: logs', 'logs in runs', {}),
    ('version 2: every act', 'acts in runs', {}), ('version 2: an excluded package', 'excluded in runs', {}),
    ('version 2: a file read three times', 'loop', {}),
])

# ---- tables
run_rule('Behind the key of a table stand its foreign keys, each with a parent whose key fits.', [
    ('a foreign key said where there is none', {'tables.0.foreign': Raw(b'\1')}),
    ('255 foreign keys said', {'tables.0.foreign': Raw(b'\xff')}),
    ('no number of foreign keys', {'tables.0.foreign': Raw(b'')}),
    ('the number of foreign keys twice', {'tables.0.foreign': Raw(b'\0\0')}),
    ('a foreign key of no column', {'tables.0.foreign': Raw(b'\1\0\0\0\0\1t')}),
    ('a foreign key to a table that is not packed', {'tables.0.foreign': [foreign([0], 'u')]}),
    ('a foreign key of a place beside the columns', {'tables.0.foreign': [foreign([3], 't')]}),
    ('a foreign key of another kind than its key', {'tables.0.foreign': [foreign([1], 't')]}),
    ('a foreign key of two columns to a key of one', {'tables.0.foreign': [foreign([0, 2], 't')]}),
    ('17 foreign keys', {'tables.0.foreign': [foreign([2], 't')] * 17}),
    ('a foreign key to a table without a key', {'tables.0.foreign': [foreign([0], 't')], 'tables.0.key': []}),
], [
    ('no foreign key', {'seed': 17}), ('no key and no foreign key', {'tables.0.key': []}),
    ('a foreign key to its own key', {'tables.0.foreign': [foreign([0], 't')]}),
    ('a foreign key whose parents are not packed', {'tables.0.foreign': [foreign([2], 't')]}),
    ('16 foreign keys', {'tables.0.foreign': [foreign([2], 't')] * 16}),
], base='rows in runs')
run_rule('In version 2 the rule of a row is 1 to 5, and a code 1 to 9.', [
    ('version 2: a row by rule 0', {'tables.0.rows.0.rule': 0}),
    ('version 2: a row by rule 6', {'tables.0.rows.0.rule': 6}),
    ('version 2: a read by rule 6', {'trace.1.reads.0.rows.1.rule': 6}),
    ('version 2: a reply of code 0', 'logs in runs', {'logs.0.entries.2.reply': dict(refused=0)}),
    ('version 2: a reply of code 10', 'logs in runs',
     {'logs.0.entries.2.reply': dict(refused=10, table='t', key=[])}),
    ('version 2: a reply of code 8 without a table and key', 'logs in runs',
     {'logs.0.entries.2.reply': dict(refused=8)}),
    ('version 2: a reply of code 7 with a table and key', 'logs in runs',
     {'logs.0.entries.2.reply': dict(refused=7, table='t', key=[])}),
], [
    ('version 2: rows by rules 1 and 3', {'tables.0.rows.1.rule': 'K'}),
    ('version 2: a row by rule 4', {'tables.0.rows.0.rule': 4}),
    ('version 2: a row by rule 5', {'tables.0.rows.0.rule': 5}),
    ('version 2: a read by rule 4', {'trace.1.reads.0.rows.1.rule': 4}),
    ('version 2: a read by rule 5', {'trace.1.reads.0.rows.1.rule': 5}),
    ('version 2: a reply of code 8', 'logs in runs',
     {'logs.0.entries.2.reply': dict(refused=8, table='t', key=[])}),
    ('version 2: a reply of code 9', 'logs in runs',
     {'logs.0.entries.2.reply': dict(refused=9, table='t', key=[1, 'a'])}),
    ('version 2: a reply of code 7', 'logs in runs', {'logs.0.entries.2.reply': dict(refused=7)}),
], base='rows in runs')

# ---- runs
run_rule('A run begins at the first event that no earlier run has, and is the longest that the list has.', [
    ('three reads as three runs', in_runs(reading(1), reading(3), reading(5))),
    ('three reads as a run and a run of one', in_runs(reading(1, 2, 2), reading(5))),
    ('three reads as a run of one and a run', in_runs(reading(1), reading(3, 2, 2))),
    ('six reads as two runs', in_runs(reading(1, 3, 1), reading(4, 3, 1))),
    ('two reads of one step as two runs', in_runs(reading(1), reading(1))),
    ('three reads of one step as a run and a run of one', in_runs(reading(1, 2), reading(1))),
    ('a run of one before a read of another stride', in_runs(reading(1), reading(2, 3, 2))),
    ('a run of two before one that ends it', in_runs(reading(1, 2, 1), reading(3, 2, 2))),
    ('two ends as two runs', in_runs(run(ended(1)), run(ended(2)))),
    ('two spawns as two runs', in_runs(run(spawned(1)), run(spawned(2)))),
    ('two writes of a child as two runs', in_runs(
        run(spawned()), run(act('wrote', step=2, process=1)), run(act('wrote', step=3, process=1)))),
    ('two tests as two runs', in_runs(run(act('tested', step=1, found=0)),
                                      run(act('tested', step=2, found=0)))),
    ('two waits as two runs', in_runs(run(spawned()), run(waited(1, 2)), run(waited(1, 3)))),
    ('the longest run last of two', in_runs(reading(1), reading(2), reading(3, 5, 1))),
], [
    ('three reads in one run', in_steps(1, 3, 5)), ('two reads in one run', in_steps(1, 9)),
    ('reads whose stride grows', in_steps(1, 2, 4, 6)),
    ('reads whose stride falls', in_steps(1, 3, 4, 5)),
    ('a read that another stride leaves alone', in_steps(1, 3, 4)),
    ('a run, and a read of the same step', in_steps(1, 2, 2)),
    ('three reads of one step, and one later', in_steps(1, 1, 1, 2)),
    ('reads of two paths in turn', {'trace': [started(), *[act('read', path, 1) for path in 'fgfg']]}),
    ('tests that find a file and none in turn',
     {'trace': [started(), *[act('tested', found=n) for n in (0, 1, 0)]]}),
    ('reads of two processes in turn',
     {'trace': [started(), spawned(), *[act('read', process=n) for n in (0, 1, 0)]]}),
    ('a read after a write of the same path', {'trace': [started(), act('read'), act('wrote'), act('read')]}),
    ('ends with two statuses', {'trace': [started(), ended(1, 0, 1), ended(1, 0, 2), ended(1, 0, 2)]}),
    ('waits for two children', {'trace': [started(), spawned(), spawned(), waited(1), waited(2), waited(2)]}),
])
run_rule('The count of a run is at least 1.', [
    ('a run of no event at the end', in_runs(reading(1), reading(3, 0))),
    ('a run of no event with a stride', in_runs(reading(1), reading(3, 0, 2))),
    ('a run of no event in the middle', in_runs(reading(1, 0), run(ended(9)))),
    ('a start that has the count 0', in_runs(run(started(), 0), reading(1))),
    ('no start, and a start that has the count 0 behind it', in_runs(run(started()), run(started(), 0))),
    ('a run of another path and no event between two reads',
     in_runs(reading(1), reading(2, 0, 0, 'g'), reading(3))),
], [
    ('a run of one event', in_runs(reading(1))),
    ('a run of one event before the end', in_runs(reading(1), run(ended(9)))),
])
run_rule('The stride of a run of one event is 0.', [
    ('a last stride of 1', {'runs': [run(started()), run(ended(), 1, 1)]}),
    ('a first stride of 1', {'runs': [run(started(), 1, 1), run(ended())]}),
    ('a last stride of 4,294,967,295', {'runs': [run(started()), run(ended(), 1, WORD - 1)]}),
    ('a last stride of 256', {'runs': [run(started()), run(ended(), 1, 256)]}),
    ('the stride of the two before it', in_runs(reading(1, 2, 2), run(ended(9), 1, 2))),
    ('a stride with the lowest byte first', in_runs(reading(1, 2, Raw(b'\2\0\0\0')))),
    ('a count with the lowest byte first', in_runs(reading(1, Raw(b'\2\0\0\0'), 2))),
], [
    ('a stride of 0 for two reads of one step', in_runs(reading(1, 2))),
    ('a stride of 1 for two reads', in_runs(reading(1, 2, 1))),
    ('a stride of 256', in_runs(reading(1, 2, 256), steps=257)),
])
run_rule('The last step of a run is at most the number of steps.', [
    ('a run whose last step is one too many', in_runs(reading(1, 3, 4), steps=8)),
    ('a run whose second step is too many', in_runs(reading(9, 2, 1))),
    ('a run of the greatest stride', in_runs(reading(1, 2, WORD - 2), steps=10000000)),
    ('a run whose second step is 4,294,967,296', in_runs(reading(1, 2, WORD - 1))),
    ('a run whose second step would come round to the one before', in_runs(reading(5, 2, WORD - 1))),
    ('a run whose third step would come round to the first', in_runs(reading(1, 3, 2 ** 31))),
    ('a run whose last step would come round to the last',
     in_runs(reading(1, 2 ** 16 + 1, 2 ** 16), steps=10000000)),
    ('a run of 10,000,001 steps', in_runs(reading(1, 10000001, 1), steps=10000000)),
    ('a run with step 0 in it', in_runs(reading(0, 2, 1))),
    ('a run of the first start', in_runs(run(started(), 2, 1))),
], [
    ('a run whose last step is the last', in_runs(reading(1, 3, 4))),
    ('a run of the first and the last of 10,000,000 steps', in_runs(reading(1, 2, 9999999), steps=10000000)),
    ('a run of 65,537 events', in_runs(reading(1, 2 ** 16 + 1, 1), steps=2 ** 16 + 1)),
])
run_rule('The steps of a run never come before those of the run before it.', [
    ('a run within the one before it', in_runs(reading(1, 3, 2), reading(4, 1, 0, 'g'))),
    ('two runs whose steps are between one another', in_runs(reading(1, 2, 4), reading(3, 2, 4, 'g'))),
    ('a run before the one before it', in_runs(reading(5, 2, 1), reading(1, 2, 1, 'g'))),
], [
    ('a run that begins where the one before it ends', in_runs(reading(1, 3, 2), reading(5, 1, 0, 'g'))),
    ('two runs, one after the other', in_runs(reading(1, 2, 2), reading(3, 2, 2, 'g'))),
])
run_rule('All events of a run meet the rules of a trace.', [
    ('a run of two starts', in_runs(run(started(), 2))),
    ('a run of reads first', in_runs(run(started(path='main'), 0), reading(0, 2, 1, 'main'))),
    ('no run', {'runs': []}), ('a run first that is no start', {'runs': [run(act('read', 'main', 0))]}),
    ('a run of a process that was not made', in_runs(reading(1, 2, 1, process=1))),
    ('a run of a process that a later run makes',
     in_runs(reading(1, 2, 1, process=1), run(spawned(3), 2, 1))),
    ('a run of process 3 after a run of two spawns', in_runs(run(spawned(), 2), reading(2, 2, 1, process=3))),
    ('a run of waits for a child that was not made', in_runs(run(spawned(), 2), run(waited(3, 2), 2))),
    ('two statements in a run', in_runs(run(asked(), 2, 1))),
    ('two statements of one number', in_runs(run(asked(0, 1)), run(asked(0, 2)))),
    ('65,535 spawns in a run', in_runs(run(spawned(), 65535))),
    ('4,294,967,295 spawns in a run', in_runs(run(spawned(), WORD - 1))),
    ('a run of an act that is none', in_runs(run(dict(step=1, process=0, act=15), 2))),
    ('a run of tests with the flag 2', in_runs(run(act('tested', found=2), 2))),
    ('a run on an empty path', in_runs(reading(1, 2, 1, ''))),
], [
    ('a run of process 2 after a run of two spawns', in_runs(run(spawned(), 2), reading(2, 2, 1, process=2))),
    ('a run of waits for a child', in_runs(run(spawned(), 2), run(waited(2, 2), 2))),
    ('65,534 spawns in a run, and an event of the last child', in_runs(
        run(spawned(), 65534), run(ended(9, 65534)))),
    ('two statements, a run each', in_runs(run(asked(0, 1)), run(asked(1, 2)))),
    ('a run of ends', in_runs(run(ended(1, 0, 3), 3, 4))),
])
run_rule('A trace has at most 20,000,001 events.', [
    ('20,000,002 events', in_runs(reading(1, EVENTS))),
    ('20,000,002 events in two runs',
     in_runs(reading(1, EVENTS // 2), reading(1, EVENTS - EVENTS // 2, 0, 'g'))),
    ('20,000,002 events, two a step',
     in_runs(reading(1, 10000000, 1), reading(10000000, EVENTS - 10000000, 0, 'g'),
                                              steps=10000000)),
    ('4,294,967,296 events', in_runs(reading(1, WORD - 1))),
    ('4,294,967,297 events in two runs, the sum of the counts 1 in 32 bits', in_runs(
        reading(1, 2 ** 31), reading(1, 2 ** 31, 0, 'g'))),
    ('4,294,967,298 events', in_runs(reading(1, WORD - 1), reading(1, 2, 0, 'g'))),
    ('17 runs of 4,294,967,295 events', in_runs(*[reading(1, WORD - 1, 0, '%02d' % n) for n in range(17)])),
    ('a count of 4,294,967,295 runs said', {'runs': Said(WORD - 1, [run(started())])}),
    ('one run too many said', {'runs': Said(3, [run(started()), run(ended())])}),
    ('one run too few said', {'runs': Said(1, [run(started()), run(ended())])}),
], [
    ('20,000,001 events', in_runs(reading(1, EVENTS - 1))),
    ('20,000,001 events in two runs', in_runs(reading(1, 10000000, 1), reading(10000000, 10000000, 0, 'g'),
                                              steps=10000000)),
])
RUNS.allowed('Every rule of a package holds in version 2.', 'plain in runs', [
    ('version 2: present files', 'excluded in runs', {'files': plus(file('z'))}),
    ('version 2: an excluded package with a log', 'excluded in runs', logged(log([0]))),
    ('version 2: a statement that picked rows', 'picked in runs', {}),
])
run_rule('No rule of a package is left out in version 2.', [
    ('version 2: mode 3', {'mode': 3}), ('version 2: no start word', {'start': []}),
    ('version 2: steps 0', {'steps': 0}),
    ('version 2: a start file that is no script', {'files.0.content': 'foo'}),
    ('version 2: an excluded package with a table', 'rows in runs', {'mode': 2}),
    ('version 2: an included package with logs', 'logs in runs', {'mode': 1}),
    ('version 2: files out of order', {'files': [file('main', 'exit 0'), file('a', 'x')]}),
    ('version 2: a row at next', 'rows in runs', {'tables.0.next': 4}),
    ('version 2: a key twice', 'rows in runs', {'tables.0.rows.1.values.0': 4}),
    ('version 2: a row for a statement that was not asked', 'rows in runs', {'tables.0.rows.0.statement': 1}),
], [
    ('version 2: files in order', {'files': [file('a', 'x'), file('main', 'exit 0')]}),
])
