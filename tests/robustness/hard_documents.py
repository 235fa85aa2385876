"""Documents of worlds that are dear to read: each part of one."""
from __future__ import annotations

from typing import Any, Callable

from hard_parts import INT, Pair, Texts, main_only, table, world

HEAD = '{"start":["main"],"files":{"main":""},"x":'
COLUMNS = [f'c{i:02d}' for i in range(64)]
NO_WORLD = (6, 6)


def unknown(item: str) -> Callable[[int], Texts]:
    """Items in a member that isn't known, and a text of as many bytes."""
    def pair(size: int) -> Texts:
        items = ','.join([item] * size)
        return f'{HEAD}[{items}]}}', f'{HEAD}"{"0" * len(items)}"}}'
    return pair


def unknown_members(size: int) -> Texts:
    items = ','.join(f'"{i:07d}":0' for i in range(size))
    return f'{HEAD}{{{items}}}}}', f'{HEAD}"{"0" * len(items)}"}}'


def same_member(size: int) -> Texts:
    """A member that is there again and again, the last of which counts."""
    again = '"x":"",' * size
    def text(member: str) -> str:
        return '{"start":["main"],"files":{"main":"",' + member + '"y":""}}'
    return text(again), text('"x":"' + '0' * len(again) + '",')


def long_number(size: int) -> Texts:
    """A number of very many digits, and a text of as many."""
    return f'{HEAD}0.{"7" * size}}}', f'{HEAD}"{"7" * size}"}}'


def escapes(size: int) -> Texts:
    """A file of which each letter is an escape, and one of as many bytes."""
    head = '{"start":["main"],"files":{"main":"","a":"'
    return head + '\\u0061' * size + '"}}', head + 'aaaaaa' * size + '"}}'


def in_hex(size: int) -> Texts:
    """A file in hex, and two files of letters."""
    return (world({'main': '', 'a': {'hex': '61' * size}}),
            world({'main': '', 'a': 'a' * size, 'b': 'b' * size}))


def small_files(size: int) -> Texts:
    return (world({'main': '', **{f'f{i:05d}': '' for i in range(size)}}),
            world({'main': '', 'f': 'x' * (12 * size)}))


def small_tables(size: int) -> Texts:
    """Tables of 64 columns without rows, and a table of as many bytes in its rows."""
    columns = [[name, 'INT'] for name in COLUMNS]
    return (main_only('', {f't{i:03d}': table(columns, [], []) for i in range(size)}),
            main_only('', {'t': table(columns, [], [[10 ** 11] * 64] * size)}))


def nulls(size: int) -> Texts:
    """Rows of 64 NULLs, and rows of a text."""
    return (main_only('', {'t': table([[name, 'INT'] for name in COLUMNS], [], [[None] * 64] * size)}),
            main_only('', {'t': table([['c', 'TEXT']], [], [['x' * 317]] * size)}))


def narrow_rows(size: int) -> Texts:
    """Rows of a digit, and rows of 64."""
    wide = [[1] * 64] * (size * 4 // 130 + 1)
    return (main_only('', {'t': table([['c', 'INT']], [], [[1]] * size)}),
            main_only('', {'t': table([[name, 'INT'] for name in COLUMNS], [], wide)}))


def wide_keys(size: int) -> Texts:
    """Keys of 64 columns that differ in the last, and in the first."""
    columns = [[name, INT] for name in COLUMNS]
    return tuple(main_only('', {'t': table(columns, COLUMNS, rows)})
                 for rows in ([[1] * 63 + [i] for i in range(size)], [[i] + [1] * 63 for i in range(size)]))


def with_last(size: int, last: Any) -> Texts:
    """Rows of a key with this last one, and with one that goes on as the others."""
    rows = [[i] for i in range(size)]
    return tuple(main_only('', {'t': table([['k', INT]], ['k'], rows + [[key]])}) for key in (last, size))


def key_twice(size: int) -> Texts:
    """Rows of which the last has the key of the one before, and rows of which none has."""
    return with_last(size, size - 1)


def bad_cell(size: int) -> Texts:
    """Rows of which the last has a text in a column of numbers, and rows of which none has."""
    return with_last(size, 'a')


PAIRS = {
    'unknown_numbers': Pair(unknown('0'), 33_000_000, 'numbers in a member that isn\'t known',
                            statuses=NO_WORLD),
    'unknown_lists': Pair(unknown('[]'), 22_000_000, 'lists in such a member', statuses=NO_WORLD),
    'unknown_depths': Pair(unknown('[' * 120 + ']' * 120), 250_000, 'lists of 120 levels', statuses=NO_WORLD),
    'unknown_members': Pair(unknown_members, 5_000_000, 'members of such a member', statuses=NO_WORLD),
    'same_member': Pair(same_member, 2_300_000, 'one file again and again'),
    'long_number': Pair(long_number, 60_000_000, 'a number of very many digits', statuses=NO_WORLD),
    'escapes': Pair(escapes, 2_700_000, 'a file of escapes'),
    'in_hex': Pair(in_hex, 16_000_000, 'a file in hex'),
    'small_files': Pair(small_files, 65_000, 'files'),
    'small_tables': Pair(small_tables, 255, 'tables'),
    'nulls': Pair(nulls, 200_000, 'NULLs'),
    'narrow_rows': Pair(narrow_rows, 1_000_000, 'rows of a digit'),
    'wide_keys': Pair(wide_keys, 100_000, 'keys of 64 columns that differ in the last'),
    'key_twice': Pair(key_twice, 900_000, 'two rows of one key at the end', statuses=(6, 0)),
    'bad_cell': Pair(bad_cell, 900_000, 'a text in a column of numbers at the end', statuses=(6, 0)),
}
