"""Worlds that are dear by their statements: each form of one, and the rows over which it is asked."""
from __future__ import annotations

from typing import Any, Callable, Optional, Sequence

from hard_parts import (
    INT,
    Foreign,
    Pair,
    Tables,
    Texts,
    asked,
    balanced,
    loop,
    main_only,
    numbers,
    table,
)

# As many blanks behind a text make it longer than those that are kept once they are read.
BLANKS = ' ' * 1024


def over(tables: Tables, hard: str, usual: str, turns: int = 1) -> Texts:
    """Two statements over the same tables."""
    return tuple(main_only(asked(text, turns), tables) for text in (hard, usual))


def rows_of(size: int, value: Callable[[int], int]) -> Tables:
    """Rows of a key, a value and the key once more."""
    columns = [['k', INT], ['v', 'INT'], ['w', 'INT']]
    return {'t': table(columns, ['k'], [[i, value(i), i] for i in range(size)])}


def one_column(rows: Sequence[Any] = ()) -> Tables:
    return {'t': table([['a', 'INT']], [], [[value] for value in rows])}


# ---- texts

def deep(size: int) -> Texts:
    def text(front: str, behind: str) -> str:
        return f'SELECT k FROM t WHERE {front}k{behind} = 1{BLANKS}'
    return over(numbers(1), text('(' * 60, ')' * 60), text('0 + ' * 60, ''), size)


def no_statement(size: int) -> Texts:
    """A text that is no statement at its end, and at its front."""
    body = 'SELECT k FROM t WHERE ' + balanced(['k = 1'] * 4000, 'OR')
    return over(numbers(1), body + ' )', ') ' + body, size)


def in_turn(count: int) -> Texts:
    """Texts that are asked in turn: more than are kept, and fewer."""
    def script(texts: int) -> str:
        lines = (f'sql q "SELECT k FROM t WHERE k = ? AND v <> {i}" i\n' for i in range(texts))
        return main_only(loop(max(2, count // texts), ''.join(lines)), rows_of(1000, lambda i: i))
    return script(256), script(32)


def long_question(size: int) -> Texts:
    """A text with a byte more than one that is kept, and one that is kept."""
    def script(length: int) -> str:
        text = 'SELECT k FROM t WHERE k = ?'.ljust(length)
        return main_only(loop(size, f'sql q "{text}" i\n'), numbers(1000))
    return script(1025), script(1024)


def two_kinds(size: int) -> Texts:
    """A text that is asked with a number and with NULL in turn, and with two numbers."""
    def script(other: str) -> str:
        lines = (f'sql q "SELECT k FROM t WHERE k = ?" {value}\n' for value in ('i', other))
        return main_only(loop(size, ''.join(lines)), numbers(1000))
    return script('null'), script('7')


# ---- sources, conditions and joins

def conditions(size: int) -> Texts:
    """Conditions that AND ties, and that OR does."""
    parts = [f'v <> {i % 10}' for i in range(size)]
    hard, usual = (f'SELECT k FROM t WHERE {balanced(parts, by)}' for by in ('AND', 'OR'))
    return over(rows_of(1000, lambda i: 11), hard, usual, 10)


def fixed_keys(size: int) -> Texts:
    """A key that is fixed again and again, and a column that is tested as often."""
    hard, usual = (f'SELECT k FROM t WHERE {balanced([f"{name} = 5"] * size, "AND")}' for name in 'kw')
    return over(rows_of(1000, lambda i: i), hard, usual, 10)


def ties(size: int) -> Texts:
    """An equality of two sources again and again, and one with conditions of one source."""
    hard, usual = (['a.k = b.k'] + [more] * size for more in ('a.k = b.k', 'a.w = a.w'))
    text = 'SELECT a.k FROM t a JOIN t b ON '
    return over(rows_of(1000, lambda i: i), text + balanced(hard, 'AND'), text + balanced(usual, 'AND'), 10)


def second(size: int) -> Texts:
    rows = {'t': table([['k', INT], ['g', 'INT']], ['k'], [[i, 7] for i in range(size)])}
    text = 'SELECT SUM(a.k) FROM t a JOIN t b ON {} AND {}'
    both = 'a.g = b.g', 'a.k = b.k'
    return over(rows, text.format(*both), text.format(*both[::-1]))


def no_equality(size: int) -> Texts:
    """A join by a comparison, and one by an equality."""
    hard, usual = (f'SELECT SUM(a.k) FROM t a JOIN t b ON a.k {by} b.k' for by in '<=')
    return over(numbers(size), hard, usual)


def wide(size: int) -> Texts:
    text = 'SELECT SUM(a.k) FROM t a, t b, t c WHERE a.k + b.k + c.k < 0'
    columns = [['k', INT]] + [[f'c{i:02d}', 'TEXT'] for i in range(60)]
    many = table(columns, ['k'], [[row] + ['y' * 65_000] * 60 for row in range(size)])
    narrow = numbers(size)['t']
    return main_only(asked(text), {'t': many}), main_only(asked(text), {'t': narrow, 'u': many})


def product(size: int) -> Texts:
    hard = asked('SELECT SUM(a.k) FROM t a, t b, t c')
    usual = asked('SELECT SUM(a.k) FROM t a, t b')
    return main_only(hard, numbers(size)), main_only(usual, numbers(int(size ** 1.5)))


def eight_sources(size: int) -> Texts:
    """All columns of eight sources, and one of them as often."""
    made = {'t': table([[f'c{i:02d}', 'INT'] for i in range(64)], [], [[1] * 64])}
    sources = ', '.join(f't {name}' for name in 'abcdefgh')
    items = ','.join(f'a.c00 AS n{i:03d}' for i in range(512))
    return over(made, f'SELECT * FROM {sources}', f'SELECT {items} FROM {sources}', size)


def far_columns(size: int) -> Texts:
    made = {'t': table([[f'c{i:02d}', 'INT'] for i in range(64)], [], [])}
    sources = ', '.join(f't {name}' for name in 'abcdefgh')
    hard, usual = (f'SELECT {",".join([column] * size)} FROM {sources}' for column in ('h.c63', 'a.c00'))
    return over(made, hard, usual, 10)


def compared_texts(size: int) -> Texts:
    """Rows that are tested by long equal texts, and by numbers."""
    text = 'y' * 65_000
    columns = [['a', 'TEXT'], ['b', 'TEXT'], ['v', 'INT'], ['w', 'INT']]
    made = {'t': table(columns, [], [[text, text, 1, 1]] * 100)}
    return over(made, 'SELECT v FROM t WHERE a = b', 'SELECT v FROM t WHERE v = w', size)


# ---- groups, order, LIMIT and UNION

def aggregates(size: int) -> Texts:
    """Aggregates of two columns in turn, and of one after the other."""
    turned = ['SUM(v)', 'SUM(w)'] * (size // 2)
    hard, usual = (f'SELECT {",".join(items)} FROM t' for items in (turned, sorted(turned)))
    return over(rows_of(1000, lambda i: i), hard, usual)


def havings(size: int) -> Texts:
    """A condition of groups, and the same of rows."""
    test = balanced([f'v <> {i % 10}' for i in range(size)], 'AND')
    return over(rows_of(1000, lambda i: 11 + i), f'SELECT v FROM t GROUP BY v HAVING {test}',
                f'SELECT v FROM t WHERE {test} GROUP BY v')


def own_groups(size: int) -> Texts:
    """A group for each row, and one for all."""
    hard, usual = (f'SELECT MIN({name}), MAX(w), COUNT(*) FROM t GROUP BY {name} HAVING COUNT(*) > {size}'
                   for name in 'wv')
    return over(rows_of(size, lambda i: 7), hard, usual)


def group_names(size: int) -> Texts:
    made = {'t': table([['a', 'INT'], ['b', 'INT'], ['k', 'INT']], [], [])}
    items, others = ','.join(['k'] * size), ','.join(['a'] * max(1, size - 50))
    hard, usual = (f'SELECT {items} FROM t GROUP BY {by}' for by in (f'{others},k', f'k,{others}'))
    return over(made, hard, usual, 10)


def order_names(size: int) -> Texts:
    items = ','.join(f'1 AS a{i:04d}' for i in range(size))
    def ordered(columns: list[str]) -> str:
        return f'SELECT {items} FROM t ORDER BY {",".join(columns)}'
    each = [f'a{i:04d}' for i in reversed(range(size))]
    return over(one_column(), ordered(each), ordered(['a0000'] * size), 10)


def order_again(size: int) -> Texts:
    """Equal values, and values that differ, ordered by a column again and again."""
    text = f'SELECT v, k FROM t ORDER BY {",".join(["1"] * size)}'
    return tuple(main_only(asked(text), rows_of(5000, value))
                 for value in (lambda i: 7, lambda i: i * 7919 % 5003))


def limited(size: int) -> Texts:
    """A row that LIMIT leaves of many, and a row that a condition leaves."""
    tails = 'LIMIT 1', 'WHERE a.k = 0 AND b.k = 0'
    hard, usual = (f'SELECT a.k FROM t a, t b {tail}' for tail in tails)
    return over(numbers(size), hard, usual)


def union(size: int) -> Texts:
    cores = [f'SELECT k + {1000 * i} FROM t' for i in range(size)]
    usual = ' UNION ALL '.join(cores[:-1]) + ' UNION ' + cores[-1]
    return over(numbers(1000), ' UNION '.join(cores), usual)


def many_cores(size: int) -> Texts:
    """Many SELECTs over nothing, and one whose text is as long."""
    usual = f'SELECT {",".join(["a"] * (size * 12))} FROM t'
    return over(one_column(), ' UNION ALL '.join(['SELECT a FROM t'] * size), usual, 10)


# ---- changes

def insert_names(size: int) -> Texts:
    """Names of an INSERT, the first of which is there again, and as many values."""
    return over(one_column(), f'INSERT INTO t ({",".join(["a"] * size)}) VALUES (1)',
                f'INSERT INTO t (a) VALUES ({",".join(["1"] * size)})', 10)


def update_names(size: int) -> Texts:
    """A column that is set again and again, and an expression whose text is about as long."""
    return over(one_column(), f'UPDATE t SET {",".join(["a=1"] * size)}',
                f'UPDATE t SET a={balanced(["1"] * (size // 2), "+")}', 10)


def refused_keys(size: int) -> Texts:
    """Keys of refused rows, each another one."""
    made = {'t': table([['k', INT]], ['k'], [[1]])}
    def script(last: str) -> str:
        rows = [','.join(f'({100_000 + 6000 * turn + row})' for row in range(6000)) for turn in range(size)]
        return ''.join(asked(f'INSERT INTO t VALUES {values},({last})') for values in rows)
    return main_only(script('1'), made), main_only(script('NULL'), made)


def refused_text(size: int) -> Texts:
    """A key of 60,000 bytes that is refused again and again, and one that is asked for."""
    key = 'x' * 60_000
    made = {'t': table([['k', 'TEXT NOT NULL']], ['k'], [[key]])}
    def script(text: str) -> str:
        return main_only(f'let k = "{key}"\n' + loop(size, f'sql q "{text}" k\n'), made)
    return script('INSERT INTO t VALUES (?)'), script('SELECT COUNT(*) FROM t WHERE k = ?')


def long_keys(size: int) -> Texts:
    """Keys of 60,000 bytes that differ at their ends, and at their fronts."""
    text = 'x' * 60_000
    def script(key: str) -> str:
        made = {'t': table([['k', 'TEXT NOT NULL']], ['k'], [[key.format(f'{i:06d}')] for i in range(300)])}
        return main_only(asked('UPDATE t SET k = k', size), made)
    return script(text + '{}'), script('{}' + text)


def clash_last(size: int) -> Texts:
    """A change of all keys that is refused as the last takes that of the first, and one that isn't."""
    hard, usual = rows_of(size, lambda i: i % (size - 1) + size), rows_of(size, lambda i: i + size)
    return tuple(main_only(asked('UPDATE t SET k = v', 10), made) for made in (hard, usual))


def moved_keys(size: int) -> Texts:
    """All keys changed, and all values."""
    return over(rows_of(size, lambda i: i), 'UPDATE t SET k = k + 1', 'UPDATE t SET v = v + 1', 5)


def hot_row(size: int) -> Texts:
    made = {'t': table([['k', INT], ['v', 'INT']], ['k'], [[i, 0] for i in range(size)])}
    def script(key: str) -> str:
        return loop(size, f'sql q "UPDATE t SET v = v + 1 WHERE k = ?" {key}\n', 'let one = 1\n')
    return main_only(script('one'), made), main_only(script('i'), made)


def dead_rows(size: int) -> Texts:
    """A table in which each row was deleted again."""
    made = {'t': table([['k', INT]], ['k'], [])}
    def script(where: str) -> str:
        key = ' i' if where else ''
        return loop(size, f'sql a "INSERT INTO t VALUES (?)" i\nsql b "SELECT COUNT(*) FROM t{where}"{key}\n'
                          f'sql c "DELETE FROM t{where}"{key}\n')
    return main_only(script(''), made), main_only(script(' WHERE k = ?'), made)


# ---- foreign keys

def parents(size: int, foreign: bool, rows: int = 0, children: int = 255) -> Tables:
    """A parent of so many rows, and children that refer to it 16 times each, or never."""
    made = {'p': table([['k', INT]], ['k'], [[i] for i in range(size)])}
    for child in range(children):
        made[f'c{child:03d}'] = table([['f', 'INT']], [], [[i % size] for i in range(rows)],
                                      [(['f'], 'p')] * 16 if foreign else ())
    return made


def with_parents(script: str) -> Callable[[int], Texts]:
    """A script over children that refer to their parents, and over children that don't."""
    def pair(size: int) -> Texts:
        return tuple(main_only(script.format(size), parents(size, foreign)) for foreign in (True, False))
    return pair


def child_rows(size: int) -> Texts:
    hard, usual = (parents(1000, foreign, size, 15) for foreign in (True, False))
    return main_only('exit 0\n', hard), main_only('exit 0\n', usual)


def in_a_row(text: str, turns: int = 1) -> Callable[[int], Texts]:
    """A statement over rows that each refer to the one before, and over rows that refer to none."""
    def pair(size: int) -> Texts:
        columns, rows = [['k', INT], ['p', 'INT']], [[i, i - 1 if i else None] for i in range(size)]
        before: Foreign = [(['p'], 't')]
        return tuple(main_only(asked(text, turns), {'t': table(columns, ['k'], rows, foreign)})
                     for foreign in (before, ()))
    return pair


def kept_by_last(size: int) -> Texts:
    """Parents of which the last has a child, so that none goes, and parents without children."""
    def script(child: Optional[int]) -> str:
        made = {'p': numbers(size)['t'], 'c': table([['f', 'INT']], [], [[child]], [(['f'], 'p')])}
        return main_only(asked('DELETE FROM p'), made)
    return script(size - 1), script(None)


def sixteen_parents(size: int) -> Texts:
    """Rows with 16 parents, and rows with none."""
    columns = [f'f{i:02d}' for i in range(16)]
    row = '(' + ','.join(['7'] * 16) + ')'
    def script(foreign: Foreign) -> str:
        made = {'p': numbers(1000)['t'], 'c': table([[name, 'INT'] for name in columns], [], [], foreign)}
        return main_only(asked(f'INSERT INTO c VALUES {",".join([row] * 1000)}', size), made)
    return script([([name], 'p') for name in columns]), script([])


def orphan_last(size: int) -> Texts:
    """Rows of which the last has no parent, and rows with parents."""
    def script(last: int) -> str:
        rows = ','.join(f'({i % 1000})' for i in range(7000))
        made = {'p': numbers(1000)['t'], 'c': table([['f', 'INT']], [], [], [(['f'], 'p')])}
        return main_only(asked(f'INSERT INTO c VALUES {rows},({last})', size), made)
    return script(1000), script(1)


PAIRS = {
    'deep': Pair(deep, 1000, 'parentheses in place of sums'),
    'no_statement': Pair(no_statement, 100, 'a text that is wrong at its end'),
    'in_turn': Pair(in_turn, 100_000, 'more texts than are kept'),
    'long_question': Pair(long_question, 100_000, 'a text that is too long to be kept'),
    'two_kinds': Pair(two_kinds, 100_000, 'parameters of two kinds in turn'),
    'conditions': Pair(conditions, 4000, 'conditions that AND ties'),
    'fixed_keys': Pair(fixed_keys, 4000, 'a key that is fixed again and again'),
    'ties': Pair(ties, 3000, 'an equality of two sources again and again'),
    'second': Pair(second, 6000, 'the first of two equalities is true of all rows'),
    'no_equality': Pair(no_equality, 3000, 'a join by a comparison'),
    'wide': Pair(wide, 12, 'columns of long texts that no condition names'),
    'product': Pair(product, 200, 'three sources in place of two, of as many combinations'),
    'eight_sources': Pair(eight_sources, 100, 'all columns of eight sources'),
    'far_columns': Pair(far_columns, 10_000, 'the last column of the last source'),
    'compared_texts': Pair(compared_texts, 20, 'conditions over long equal texts'),
    'aggregates': Pair(aggregates, 6000, 'aggregates of two columns in turn'),
    'havings': Pair(havings, 4000, 'a condition of groups in place of rows'),
    'own_groups': Pair(own_groups, 100_000, 'a group for each row'),
    'group_names': Pair(group_names, 16_000, 'the name that is grouped by stands last'),
    'order_names': Pair(order_names, 3800, 'each answer column ordered by, from the last'),
    'order_again': Pair(order_again, 30_000, 'equal values ordered by a column again and again'),
    'limited': Pair(limited, 1000, 'an answer of which LIMIT leaves a row'),
    'union': Pair(union, 400, 'UNION in place of UNION ALL'),
    'many_cores': Pair(many_cores, 2500, 'many SELECTs'),
    'insert_names': Pair(insert_names, 30_000, 'names of an INSERT'),
    'update_names': Pair(update_names, 16_000, 'names of an UPDATE'),
    'refused_keys': Pair(refused_keys, 80, 'keys of refused rows'),
    'refused_text': Pair(refused_text, 1000, 'a key of 60,000 bytes that is refused'),
    'long_keys': Pair(long_keys, 10, 'long keys that differ at their ends'),
    'clash_last': Pair(clash_last, 100_000, 'a change of all keys whose last clashes'),
    'moved_keys': Pair(moved_keys, 100_000, 'keys that are changed'),
    'hot_row': Pair(hot_row, 100_000, 'one row updated in place of all'),
    'dead_rows': Pair(dead_rows, 8000, 'a scan over rows that are gone'),
    'empty_children': Pair(with_parents('exit 0\n'), 100_000,
                           '4,080 foreign keys to one parent, of children without rows'),
    'child_rows': Pair(child_rows, 200_000, '16 foreign keys of 15 children with rows'),
    'delete_one': Pair(with_parents(loop('{}', 'sql q "DELETE FROM p WHERE k = ?" i\n')), 1000,
                       'parents deleted one by one that no child names'),
    'delete_parents': Pair(with_parents(asked('DELETE FROM p')), 4000, 'the same at once'),
    'own_parents': Pair(in_a_row('DELETE FROM t'), 100_000,
                        'rows that refer to one another, deleted at once'),
    'moved_parents': Pair(in_a_row('UPDATE t SET k = k + 1, p = p + 1', 3), 100_000,
                          'keys of such rows, changed with what refers to them'),
    'kept_by_last': Pair(kept_by_last, 100_000, 'parents of which the last has a child'),
    'sixteen_parents': Pair(sixteen_parents, 30, 'rows with 16 parents'),
    'orphan_last': Pair(orphan_last, 30, 'rows of which the last has no parent'),
}
