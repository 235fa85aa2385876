"""The cases of reports on traces that no run leaves, with what each depends on by the table of acts in
docs/FORMATS.md. package_cases.py writes them."""
from __future__ import annotations

from .encoder import Part, act, asked, encode, ended, group, made, package, read, spawned, started


def lines_of(words: str) -> str:
    """A report, a line for each of some words."""
    return ''.join(line.strip() + '\n' for line in words.split(','))


def traced(*events: Part) -> Part:
    return package(steps=9, trace=[started(), *events])


def twice_reached(write: Part, ask: Part) -> Part:
    """Of `f` at step 9. `a` goes there by a read at step 2, and by another process and `x` by one at step 5:
    what came to `a` until then counts, if the writer of `a` wrote before that read."""
    return traced(
        act('wrote', 'f', 1), spawned(1, 0, 'c'), spawned(1, 0, 'c'), act('read', 'a', 2),
        act('read', 'b', 3, 2), *([write, ask] if write['step'] < ask['step'] else [ask, write]),
        act('wrote', 'x', 6, 1), act('read', 'x', 7), act('wrote', 'f', 9))


# Statement 4 of the third child makes version 2 of a row of the version that statement 0 of the first child
# made, and statement 5 of their parent reads it. The numbers of these statements and processes are greater
# than their steps.
VERSIONS = traced(
    spawned(1, 0, 'c'), spawned(1, 0, 'c'), spawned(1, 0, 'c'),
    asked(0, 1, 1, ['t'], made=[group('t', made(7, 1))]), *[asked(n, 1, 1) for n in (1, 2, 3)],
    asked(4, 1, 3, ['t'], made=[group('t', made(7, 2))]),
    asked(5, 2, 0, ['t'], reads=[group('t', read(7, 2))]), act('wrote', 'g', 2, 3), act('wrote', 'f', 3))
LATER = act('wrote', 'a', 6, 2), act('read', 'a', 5, 1)
EARLIER = act('wrote', 'a', 4, 2), act('read', 'a', 5, 1)

# A path that is written before another one is read, one that is removed, and one that is copied to a new one.
READ_LATER = traced(act('opened write', 'g', 1), act('wrote', 'g', 2), act('opened read', 'f', 3),
                    act('read', 'f', 4), ended(5))
REMOVED = traced(act('removed', 'f', 1), ended(2))
COPIED = traced(act('opened read', 'f', 1), act('opened new', 'g', 2), act('read', 'f', 3),
                act('wrote', 'g', 3), ended(4))

CASES = [
    ('a path written before another is read', READ_LATER, 'g', lines_of('path main, process 0')),
    ('a path that nothing writes', READ_LATER, 'f', ''),
    ('a path found and changed in one step', REMOVED, 'f', lines_of('path f, path main, process 0')),
    ('a path that is a copy', COPIED, 'g', lines_of('path f, path g, path main, process 0')),
    ('a row at version 2 comes from version 1', VERSIONS, 'f', lines_of(
        'path c, path main, process 0, process 0.0, process 0.2, row t 7 0, row t 7 1, row t 7 2, ask 0,'
        'ask 1, ask 2, ask 3, ask 4, ask 5, reply 0, reply 1, reply 2, reply 3, reply 4, reply 5')),
    ('a reply comes from its statement at the same step', VERSIONS, 'g', lines_of(
        'path c, path main, process 0, process 0.2, ask 4, reply 4')),
    ('a path reached again by a later time', twice_reached(*EARLIER), 'f', lines_of(
        'path a, path b, path c, path main, path x, process 0, process 0.0, process 0.1')),
    ('a path reached again before it was written', twice_reached(*LATER), 'f', lines_of(
        'path a, path c, path main, path x, process 0, process 0.0')),
]


def trace_case(name: str, p: Part, path: str, output: str) -> Part:
    return {'name': name, 'words': ['inspect', 'depends', path], 'input': {'hex': encode(p).hex()},
            'status': 0, 'output': output, 'error': ''}
