"""The cases of what statements reply and need: of each script the outcome, and the package of its run.
Replies, needed rows and versions were worked out by hand. package_cases.py writes them.

A script is a name, its statements, and how many of the rows below its table has. Of a statement there are its
text, its reply, and the rows that it needs with their rules: by their lineage (L), hidden by HAVING or LIMIT
(H), or by a refused key (K). A row that was changed before has its version there, and a statement that
changes rows says which versions it makes."""
from __future__ import annotations

import json
from typing import Any, Iterable, Iterator, Mapping, Optional, Sequence

from .encoder import (
    COLUMNS,
    Part,
    asked,
    encode,
    ended,
    file,
    group,
    made,
    package,
    read,
    row,
    shown,
    started,
    table,
)

GREATEST_NUMBER, LEAST_NUMBER = 2 ** 63 - 1, -2 ** 63
T = [(1, 'a', 10), (2, 'a', 20), (3, 'b', 5), (4, 'b', None), (5, 'c', 10),
     (6, None, GREATEST_NUMBER), (7, None, GREATEST_NUMBER), (8, None, LEAST_NUMBER)]


def asks(text: str, reply: Any, L: Iterable[int] = (), H: Iterable[int] = (), K: Iterable[int] = (),
         made: Iterable[Part] = (), versions: Optional[Mapping[int, int]] = None) -> Part:
    """A reply is a list of rows, a number of changed rows, or the key that a refusal names."""
    rules = {**dict.fromkeys(K, 'K'), **dict.fromkeys(H, 'H'), **dict.fromkeys(L, 'L')}
    return dict(text=text, reply=reply,
                reads=[read(row, (versions or {}).get(row, 0), rules[row]) for row in sorted(rules)],
                made=list(made))


def query(text: str, rows: Iterable[Any], L: Iterable[int] = (), H: Iterable[int] = (),
          of: int = 5) -> tuple[str, list[Part], int]:
    """A script of one SELECT. A row of one value may stand as the value."""
    return (text, [asks(text, [row if isinstance(row, tuple) else (row,) for row in rows], L, H)], of)


ALL = range(5)
QUERIES = [
    # sorted and cut
    query('SELECT v, k FROM t', [(10, 1), (20, 2), (5, 3), (None, 4), (10, 5)], ALL),
    query('SELECT v, k FROM t ORDER BY v', [(None, 4), (5, 3), (10, 1), (10, 5), (20, 2)], ALL),
    query('SELECT v, k FROM t ORDER BY 1 DESC', [(20, 2), (10, 1), (10, 5), (5, 3), (None, 4)], ALL),
    query('SELECT v, k FROM t ORDER BY v DESC, k DESC', [(20, 2), (10, 5), (10, 1), (5, 3), (None, 4)], ALL),
    query('SELECT v, k FROM t ORDER BY v DESC LIMIT 2', [(20, 2), (10, 1)], [0, 1]),
    query('SELECT v, k FROM t LIMIT 0', []),
    query('SELECT v, k FROM t ORDER BY k DESC LIMIT 4', [(10, 5), (None, 4), (5, 3), (20, 2)], [1, 2, 3, 4]),
    query('SELECT k FROM t LIMIT 9223372036854775807', [1, 2, 3, 4, 5], ALL),
    query('SELECT DISTINCT v FROM t', [10, 20, 5, None], ALL),
    query('SELECT DISTINCT v FROM t ORDER BY v LIMIT 2', [None, 5], [2, 3], [0, 1, 4]),
    query('SELECT DISTINCT g, v FROM t WHERE k > 5', [(None, GREATEST_NUMBER), (None, LEAST_NUMBER)],
          [5, 6, 7], of=8),
    query('SELECT v FROM t UNION SELECT k FROM t LIMIT 1', [10], [0, 4], [1, 2, 3]),
    query("SELECT v FROM t WHERE g = 'a' UNION SELECT v FROM t WHERE k = 5", [10, 20], [0, 1, 4]),
    query('SELECT k, g FROM t WHERE v > 9 UNION ALL SELECT v, g FROM t ORDER BY g DESC, k LIMIT 3',
          [(5, 'c'), (10, 'c'), (None, 'b')], [3, 4]),
    # groups
    query('SELECT COUNT(*), SUM(v) FROM t WHERE k > 9', [(0, None)]),
    query('SELECT COUNT(*), COUNT(v), SUM(v), MIN(v), MAX(v) FROM t WHERE k = 4', [(1, 0, None, None, None)],
          [3]),
    query('SELECT MIN(g), MAX(g), MIN(v), MAX(k) FROM t', [('a', 'c', 5, 5)], ALL),
    query("SELECT SUM(v) + COUNT(*) * 2 FROM t WHERE g = 'a'", [34], [0, 1]),
    query('SELECT g, COUNT(v), SUM(v), MIN(v), MAX(v) FROM t GROUP BY g',
          [('a', 2, 30, 10, 20), ('b', 1, 5, 5, 5), ('c', 1, 10, 10, 10)], ALL),
    query('SELECT g, COUNT(*), COUNT(g) FROM t GROUP BY g',
          [('a', 2, 2), ('b', 2, 2), ('c', 1, 1), (None, 3, 0)],
          range(8), of=8),
    query('SELECT v, g FROM t GROUP BY g, v', [(10, 'a'), (20, 'a'), (5, 'b'), (None, 'b'), (10, 'c')], ALL),
    query('SELECT * FROM t GROUP BY k, g, v', T[:5], ALL),
    query('SELECT g FROM t WHERE k > 9 GROUP BY g', []),
    query("SELECT SUM(v + 9223372036854775787) FROM t WHERE g = 'a'", [None], [0, 1]),
    query('SELECT SUM(v), MIN(v), MAX(v) FROM t WHERE k > 5',
          [(GREATEST_NUMBER - 1, LEAST_NUMBER, GREATEST_NUMBER)],
          [5, 6, 7], of=8),
    query('SELECT SUM(v), MIN(v) FROM t WHERE k > 5 AND v > 0', [(None, GREATEST_NUMBER)], [5, 6], of=8),
    query('SELECT SUM(v) FROM t WHERE k = 8', [LEAST_NUMBER], [7], of=8),
    query('SELECT g FROM t GROUP BY g HAVING COUNT(*) < 2', ['c'], [4], [0, 1, 2, 3]),
    query('SELECT g FROM t GROUP BY g HAVING SUM(v) > 5', ['a', 'c'], [0, 1, 4], [2, 3]),
    query('SELECT g FROM t WHERE k > 3 GROUP BY g HAVING SUM(v) > 5', ['c'], [4], [3]),
    query("SELECT MAX(k) FROM t WHERE g = 'a' HAVING MIN(v) < 0", [], (), [0, 1]),
    query('SELECT COUNT(*) FROM t WHERE k > 9 HAVING COUNT(*) > 0', []),
    query('SELECT COUNT(*) FROM t WHERE k > 9 HAVING COUNT(*) = 0', [0]),
    query('SELECT x.g, SUM(y.v) FROM t x JOIN t y ON x.v = y.v GROUP BY x.g HAVING MIN(y.k) > 0',
          [('a', 40), ('b', 5), ('c', 20)], [0, 1, 2, 4]),
    query('SELECT k, g FROM t WHERE k = 1 UNION SELECT COUNT(v), MAX(g) FROM t HAVING COUNT(*) > 9',
          [(1, 'a')], [0], [1, 2, 3, 4]),
    query('SELECT g, COUNT(*) FROM t GROUP BY g ORDER BY 2, g LIMIT 1', [('c', 1)], [4], [0, 1, 2, 3]),
    # conditions
    query('SELECT k FROM t WHERE v > 100', []),
    query('SELECT k FROM t WHERE v > -5', [1, 2, 3, 5], [0, 1, 2, 4]),
    query('SELECT k FROM t WHERE -10 = -v', [1, 5], [0, 4]),
    query('SELECT * FROM t WHERE NOT (v > 5 OR g IS NULL)', [T[2]], [2]),
    query('SELECT k FROM t WHERE v IS NULL', [4], [3]),
    query('SELECT k FROM t WHERE v IS NOT NULL AND k > 3', [5], [4]),
    query('SELECT k FROM t WHERE g IS NULL AND v < 0', [8], [7], of=8),
    query('SELECT * FROM t WHERE v * 922337203685477581 = 0', []),
    query('SELECT v * 2 + k, g FROM t WHERE k >= 3', [(13, 'b'), (None, 'b'), (25, 'c')], [2, 3, 4]),
    query('SELECT k FROM t WHERE v <> 10', [2, 3], [1, 2]),
    query('SELECT k FROM t WHERE 10 <= v AND v <> 20', [1, 5], [0, 4]),
    query('SELECT g FROM t WHERE 5 >= v', ['b'], [2]),
    query("SELECT k FROM t WHERE v = 10 AND g = 'c'", [5], [4]), query('SELECT k FROM t WHERE v = NULL', []),
    query('SELECT g, v FROM t WHERE k = 4', [('b', None)], [3]), query('SELECT g FROM t WHERE 6 = k', []),
    query('SELECT g FROM t WHERE k = -5', []), query('SELECT g FROM t WHERE k = 2 AND v > 20', []),
    query('SELECT v FROM t WHERE k = 2 AND k = 3', []), query('SELECT v FROM t WHERE k = NULL', []),
    # joins
    query('SELECT x.k, y.k FROM t x JOIN t y ON y.k = 3 AND x.v = 10', [(1, 3), (5, 3)], [0, 2, 4]),
    query('SELECT x.g, y.k FROM t x JOIN t y ON x.v = y.v',
          [('a', 1), ('a', 5), ('a', 2), ('b', 3), ('c', 1), ('c', 5)], [0, 1, 2, 4]),
    query('SELECT x.k, y.k FROM t x, t y WHERE x.k < 3 AND y.k = x.k + 1', [(1, 2), (2, 3)], [0, 1, 2]),
    query('SELECT x.k FROM t x JOIN t y ON y.v = x.v AND y.g <> x.g', [1, 5], [0, 4]),
    query('SELECT x.k, y.k, z.k FROM t x JOIN t y ON x.v = y.v JOIN t z ON y.g = z.g AND z.k <> y.k',
          [(1, 1, 2), (2, 2, 1), (3, 3, 4), (5, 1, 2)], ALL),
]

CHANGES = [
    ('a row before its update', [
        asks('UPDATE t SET v = v + 1 WHERE k = 1', 1, [0], made=[made(0)]),
        asks('SELECT v FROM t WHERE k = 1', [(11,)], [0], versions={0: 1})], 5),
    ('rows by the first statement', [
        asks('SELECT v FROM t WHERE k = 1', [(10,)], [0]),
        asks('SELECT g FROM t GROUP BY g HAVING COUNT(*) < 2', [('c',)], [4], [0, 1, 2, 3])], 5),
    ('the row that refuses', [asks("INSERT INTO t VALUES (3, 'z', 1)", ('t', 3), K=[2])], 5),
    ('two new rows of one key', [asks("INSERT INTO t VALUES (9, 'z', 1), (9, 'y', 2)", ('t', 9))], 5),
    ('no row that was made', [
        asks("INSERT INTO t VALUES (9, 'n', 1)", 1, made=[made(5, 0)]),
        asks('DELETE FROM t WHERE k = 9', 1, [5], made=[made(5, 1)]),
        asks("INSERT INTO t VALUES (9, 'n', 1)", 1, made=[made(6, 0)])], 5),
    ('no deleted row', [
        asks('DELETE FROM t WHERE k = 2', 1, [1], made=[made(1)]),
        asks('SELECT k FROM t', [(1,), (3,), (4,), (5,)], [0, 2, 3, 4]),
        asks('SELECT v FROM t WHERE k = 2', []),
        asks('SELECT k FROM t WHERE v >= 10', [(1,), (5,)], [0, 4]),
        asks("SELECT x.k, y.k FROM t x JOIN t y ON x.g = y.g AND x.g = 'a'", [(1, 1)], [0])], 5),
    ('all keys moved by one', [
        asks('UPDATE t SET k = k + 1', 5, ALL, made=[made(n) for n in ALL]),
        asks('SELECT v FROM t WHERE k = 6', [(10,)], [4], versions={4: 1}),
        asks('SELECT v FROM t WHERE k = 1', [])], 5),
    ('a key moved to one that stands', [asks('UPDATE t SET k = 3 WHERE k = 1', ('t', 3), [0], K=[0, 2])], 5),
    ('all keys made one', [asks('UPDATE t SET k = 3', ('t', 3), ALL)], 5),
    ('changes, a refusal and a key that is free again', [
        asks('UPDATE t SET v = v + 1 WHERE k = 2', 1, [1], made=[made(1)]),
        asks("INSERT INTO t VALUES (3, 'z', 1)", ('t', 3), K=[2]),
        asks('DELETE FROM t WHERE k = 3', 1, [2], made=[made(2)]),
        asks("INSERT INTO t VALUES (3, 'n', 1)", 1, made=[made(5, 0)]),
        asks('UPDATE t SET k = k + 1', 5, [0, 1, 3, 4, 5],
             made=[made(0), made(1, 2), made(3), made(4), made(5)],
             versions={1: 1}),
        asks('DELETE FROM t WHERE v IS NULL', 1, [3], made=[made(3, 2)], versions={3: 1})], 5),
    ('conditions of changes by masks and keys', [
        asks('DELETE FROM t WHERE v < -5', 0),
        asks("UPDATE t SET g = 'n' WHERE v IS NULL", 1, [3], made=[made(3)]),
        asks('UPDATE t SET v = -1 WHERE 20 <= v', 1, [1], made=[made(1)]),
        asks('DELETE FROM t WHERE k = -2', 0), asks('DELETE FROM t WHERE v = -1', 1, [1], made=[made(1, 2)],
                                                    versions={1: 1})], 5),
]


def document(statements: Sequence[Part], of: int) -> str:
    rows = [list(row) for row in T[:of]]
    tables = {'t': dict(columns=[['k', 'INT NOT NULL'], ['g', 'TEXT'], ['v', 'INT']], key=['k'], next=of,
                        rows=rows)}
    return json.dumps(dict(start=['main'], files={'main': script(statements)}, tables=tables))


def script(statements: Sequence[Part]) -> str:
    return ''.join('sql q "%s"\n' % asked['text'] for asked in statements)


def reply_text(reply: Any) -> str:
    if isinstance(reply, int):
        return 'changed %d\n' % reply
    if isinstance(reply, tuple):
        return 'refused 6 %s %d\n' % (reply[0], len(reply) - 1) + ''.join(map(shown, reply[1:]))
    return 'rows %d\n' % len(reply) + ''.join('row %d\n' % len(row) + ''.join(map(shown, row))
                                              for row in reply)


def outcome_of(statements: Sequence[Part]) -> str:
    return 'outcome 1 0\nprocess 0 0 0 %d\n\n' % len(statements) + ''.join(reply_text(s['reply'])
                                                                           for s in statements)


def needed(statements: Sequence[Part], of: int) -> list[Part]:
    """The first rows that statements read, each by the first that did."""
    rows: dict[int, Part] = {}
    for number, statement in enumerate(statements):
        for one in statement['reads']:
            if one['version'] == 0 and one['row'] < of:
                rows.setdefault(one['row'],
                                row(one['row'], *T[one['row']], statement=number, rule=one['rule']))
    return [rows[number] for number in sorted(rows)]


def recorded(version: int, statements: Sequence[Part], of: int) -> bytes:
    def groups(members: list[Part]) -> list[Part]:
        return [group('t', *members)] if members else []
    trace = [asked(n, n + 1, 0, ['t'], groups(s['reads']), groups(s['made']))
             for n, s in enumerate(statements)]
    end = len(statements) + 1
    return encode(package(
        version, steps=end, files=[file('main', script(statements))],
        tables=[table('t', COLUMNS, [0], of, needed(statements, of))], trace=[started(), *trace, ended(end)]))


def need_cases(version: int) -> Iterator[Part]:
    """For each script its outcome, and its package in a version."""
    for name, statements, of in QUERIES + CHANGES:
        outputs = {'run': outcome_of(statements), 'record': {'hex': recorded(version, statements, of).hex()}}
        for word, output in outputs.items():
            yield {'name': '%s: %s' % (word, name), 'words': [word], 'input': document(statements, of),
                   'status': 0, 'output': output, 'error': ''}
