"""Worlds that are dear by their scripts: each instruction, and what it is given."""
from __future__ import annotations

import math
from typing import Callable

from hard_parts import FILE, TEXT, Pair, Texts, loop, main_only, numbers, table, world

LONG = 'z' * 65_000
# As many values as a list may have.
MANY = ' '.join(['x'] * 255)
PIECE = 60_000


def with_texts(body: str) -> Callable[[int], Texts]:
    """Turns over a text of 65,000 bytes, and over one of a byte."""
    def pair(size: int) -> Texts:
        def script(text: str) -> str:
            return main_only(f'let x = "{text}"\nlet y = "{text}"\n' + loop(size, body) + 'end:\n')
        return script(LONG), script('z')
    return pair


def with_file(body: str, content: str, child: str = '') -> Callable[[int], Texts]:
    """Turns over the file `big`; in the other world its bytes are in a file that nobody opens."""
    def pair(size: int) -> Texts:
        main = loop(size, body) + 'end:\n'
        return (world({'main': main, 'big': content, 'child': child}),
                world({'main': main, 'big': 'x\n', 'other': content, 'child': child}))
    return pair


def with_children(child: str, text: str = LONG) -> Callable[[int], Texts]:
    """Children that use a long text, and children that use a short one."""
    def pair(size: int) -> Texts:
        main = loop(size, 'spawn c "child" else end\n') + 'end:\n'
        return tuple(world({'main': main, 'child': f'let x = "{each}"\n{child}'}) for each in (text, 'z'))
    return pair


# ---- values

def grown(size: int) -> Texts:
    """A text that grows by a byte in each turn, and one that doesn't."""
    def script(name: str) -> str:
        return main_only('let t = "a"\n' + loop(size, f'let {name} = t ++ "a"\n'))
    return script('t'), script('u')


def read_number(size: int) -> Texts:
    def script(text: str) -> str:
        return main_only(f'let x = "{text}"\n' + loop(size, 'let y = int x\n'))
    return script('0' * 65_000), script('0')


def cut(size: int) -> Texts:
    def script(start: str, turns: int) -> str:
        body = f'let x = "{"a" * PIECE}"\ncut p x "{start}"\n'
        return main_only(loop(turns, body))
    half = PIECE // 2
    return script('a' * half + 'b', size), script('b' + 'a' * half, size)


def cut_fronts(size: int) -> Texts:
    """Fields that are cut off a long text, and off a short one."""
    def script(fields: str) -> str:
        return main_only(loop(size, f'let l = "{fields}"\n' + 'cut x l ","\n' * 100))
    return script('a,' * 32_000), script('a,' * 100)


# ---- lines

def labels(size: int) -> Texts:
    hard = 'exit 0\n' + ''.join(f'l{i:06d}:\n' for i in range(size))
    return main_only(hard), main_only('exit 0\n' + '#------\n' * size)


def jumps(size: int) -> Texts:
    """Lines of which each jumps far, and lines that jump to the next one."""
    def script(step: int) -> str:
        places = [(i + step) % size for i in range(size)]
        lines = (f'l{i:06d}:\ngoto {f"l{to:06d}" if to else "end"}\n' for i, to in enumerate(places))
        return main_only(''.join(lines) + 'end:\n')
    far = next(step for step in range(size // 2 + 1, 2 * size) if math.gcd(step, size) == 1)
    return script(far), script(1)


def names(size: int) -> Texts:
    def files(lines: str) -> str:
        return world({'main': loop(1000, 'spawn c "child" else no\nno:\n'), 'child': 'exit 0\n' + lines})
    return (files(''.join(f'let v{i:05d} = 1\n' for i in range(size))), files('let v00001 = 1\n' * size))


# ---- processes

def bad_spawn(size: int) -> Texts:
    lines = 'let x = 1\n' * size
    def files(big: str) -> str:
        return world({'main': loop(10, 'spawn c "big" else no\nno:\n'), 'big': big})
    return files(lines + 'no instruction\n'), files('exit 0\n#' + lines.replace('\n', ' ') + '\n')


def no_script(size: int) -> Texts:
    """A path at which there is no script, and one at which there is no file."""
    def files(path: str) -> str:
        return world({'main': loop(size, f'spawn c "{path}" else no\nno:\n'), 'data': 'x' * PIECE + '\n'})
    return files('data'), files('none')


def same_script(size: int) -> Texts:
    """A script of 15 MB that is started again and again, and a short one."""
    main = loop(size, 'spawn c "child" else end\n') + 'end:\n'
    rest = ('#' + 'x' * 999 + '\n') * 15_000
    return (world({'main': main, 'child': 'exit 0\n' + rest}),
            world({'main': main, 'child': 'exit 0\n', 'other': rest}))


def changed_script(size: int) -> Texts:
    """A script that is changed before each start: of 5,000 lines, and of one."""
    def script(line: str) -> str:
        return main_only('open f w "child" else end\nwrite f "exit 0"\n' + loop(5000, line)
                         + 'let i = 0\nagain:\nwrite f "let y = 1"\nspawn c "child" else end\n'
                         + f'let i = i + 1\nif i < {size} goto again\nend:\n')
    return script('write f "let x = 1"\n'), script('let x = 1\n')


def chain(size: int) -> Texts:
    hard = f'let n = int arg1\nlet n = n + 1\nif n > {size} goto end\nspawn c "main" n else end\nend:\n'
    child = 'let n = 1\nlet n = n + 1\nif n > 3 goto end\nend:\n'
    usual = loop(size, 'spawn c "child" else no\nno:\n')
    return world({'main': hard}, start=['main', '1']), world({'main': usual, 'child': child})


def waiting(size: int) -> Texts:
    """Processes that wait, the youngest for none."""
    hard = (f'let n = int arg1\nlet n = n + 1\nif n > {size} goto end\nspawn c "main" n else end\n'
            'wait s c\nend:\n')
    usual = loop(size, 'spawn c "child" else no\nwait s c\nno:\n')
    child = 'let n = 1\nlet n = 2\n'
    return world({'main': hard}, start=['main', '1']), world({'main': usual, 'child': child})


def long_arguments(size: int) -> Texts:
    def script(text: str) -> str:
        return world({'main': f'let x = "{text}"\n' + loop(size, f'spawn c "child" {MANY} else end\n')
                      + 'end:\n', 'child': 'exit 0\n'})
    return script(LONG), script('z')


def kept_arguments(size: int) -> Texts:
    """Arguments of processes that wait for one another. Those that no line names aren't kept."""
    def script(text: str) -> str:
        turn = (f'spawn c "main" n {" ".join(["x"] * 200)} else end\nwait s c\nend:\nexit 0\n'
                f'print {" ".join(f"arg{i}" for i in range(2, 202))}\n')
        return world({'main': f'let n = int arg1\nlet n = n + 1\nif n > {size} goto end\n'
                              f'let x = "{text}"\n{turn}'}, start=['main', '1'])
    return script(LONG), script('z')


# ---- files

def pieces(size: int) -> Texts:
    """A file that is written in small pieces, and one that is opened anew for each."""
    hard = loop(size, 'open f a "out" else end\nwrite f i\nclose f\n') + 'end:\n'
    usual = 'open f w "out" else end\n' + loop(size, 'write f i\nlet x = i\nlet x = i\n') + 'end:\n'
    return main_only(hard), main_only(usual)


def of_paths(body: str) -> Callable[[int], Texts]:
    """Turns over a path of their own, and over one for all."""
    def pair(size: int) -> Texts:
        def script(number: str) -> str:
            return main_only(loop(size, f'let p = "f" ++ {number}\n{body}') + 'end:\n')
        return script('i'), script('1')
    return pair


def long_paths(size: int) -> Texts:
    """Paths of 255 bytes that differ at their ends, and at their fronts."""
    stem = 'p' * 248
    def script(path: str, front: str, behind: str) -> str:
        main = loop(1_000_000 + size, f'let p = {front} ++ {behind}\nexists x p\n', 'let i = 1000000\n')
        return world({'main': main, **{path.format(1_000_000 + i): '' for i in range(size)}})
    return script(stem + '{}', f'"{stem}"', 'i'), script('{}' + stem, 'i', f'"{stem}"')


# ---- replies

def fetched(size: int) -> Texts:
    """Rows of 60 long texts, and of short ones."""
    columns = [f'c{i:02d}' for i in range(60)]
    def script(text: str) -> str:
        made = {'t': table([[name, 'TEXT'] for name in columns], [], [[text] * 60] * 5)}
        turn = 'sql q "SELECT * FROM t"\n' + f'fetch q {" ".join(columns)} else end\n' * 5
        return main_only(loop(size, turn) + 'end:\n', made)
    return script('y' * PIECE), script('y')


def counted(size: int) -> Texts:
    """What is asked of a long reply, and of a short one."""
    def script(first: str, then: str) -> str:
        questions = f'sql q "SELECT k FROM t{first}"\nsql r "SELECT k FROM t{then}"\n'
        return main_only(questions + loop(size, 'count n r\nstatus s r\n'), numbers(200_000))
    return script(' WHERE k = 1', ''), script('', ' WHERE k = 1')


COPY = 'open g w "out" else end\nopen f r "big" else end\ncopy f g\n'

PAIRS = {
    'copied_text': Pair(with_texts('let z = x\n'), 100_000, 'a text of 65,000 bytes that is copied'),
    'joined_text': Pair(with_texts('let z = x ++ "a"\n'), 100_000, 'a byte behind such a text'),
    'long_texts': Pair(with_texts('if x <> y goto end\n'), 100_000,
                       'comparisons of equal texts of 65,000 bytes'),
    'grown': Pair(grown, 65_000, 'a text that grows by a byte in each turn'),
    'read_number': Pair(read_number, 10_000, 'zeros before a number'),
    'cut': Pair(cut, 10, 'a separator that nearly is there at each place'),
    'cut_fronts': Pair(cut_fronts, 100, 'the text behind what is cut off'),
    'labels': Pair(labels, 1_500_000, 'labels'),
    'jumps': Pair(jumps, 100_000, 'jumps to far lines'),
    'names': Pair(names, 70_000, 'variables that nobody sets'),
    'printed': Pair(with_children(f'print {MANY}\n'), 20, 'texts that are printed'),
    'printed_too_much': Pair(with_children(f'print x {MANY}\n', 'z' * TEXT), 1000,
                             'prints that are too long by a byte'),
    'bad_spawn': Pair(bad_spawn, 1_500_000, 'a long script whose last line is none, started ten times'),
    'no_script': Pair(no_script, 10_000, 'a file that is no script'),
    'same_script': Pair(same_script, 1000, 'a long script that is started again and again'),
    'changed_script': Pair(changed_script, 200, 'a script of 5,000 lines that is changed before each start'),
    'chain': Pair(chain, 10_000, 'each process starts the next'),
    'waiting': Pair(waiting, 2_000, 'each process starts the next and waits for it'),
    'long_arguments': Pair(long_arguments, 1000, 'arguments of processes that end'),
    'kept_arguments': Pair(kept_arguments, 50, 'arguments of processes that wait'),
    'pieces': Pair(pieces, 100_000, 'a file opened for each piece that is appended'),
    'many_files': Pair(of_paths('open f w p else end\nclose f\n'), 100_000, 'as many files'),
    'removed': Pair(of_paths('open f w p else end\nremove p else end\n'), 100_000,
                    'files that are removed, each another one'),
    'absent': Pair(of_paths('exists x p\nopen f r p else no\nno:\n'), 100_000,
                   'paths at which there is nothing'),
    'long_paths': Pair(long_paths, 50_000, 'long paths that differ at their ends'),
    'open_large': Pair(with_file('open f r "big" else end\n', 'x' * FILE), 100_000, 'a file of 16 MiB'),
    'copies': Pair(with_file(COPY, 'x' * FILE), 100, 'a file of 16 MiB that is copied'),
    'own_copies': Pair(with_file(COPY + 'open f r "out" else end\ncopy f g\n', 'x' * (FILE // 2)), 100,
                       'a file of 8 MiB that is copied behind itself'),
    'long_lines': Pair(with_file('open f r "big" else end\nreadline x f else end\n',
                                 ('x' * 65_535 + '\n') * 200), 100_000, 'lines of 65,535 bytes'),
    'no_line_end': Pair(with_file('spawn c "child" else end\n', 'x' * FILE,
                                  'open f r "big" else end\nreadline x f else end\nend:\n'), 1000,
                        'a line of 16 MiB'),
    'written': Pair(with_texts(f'open f w "out" else end\nwrite f {MANY}\n'), 100, 'texts that are written'),
    'fetched': Pair(fetched, 20, 'wide rows'),
    'counted': Pair(counted, 200_000, 'a long reply'),
}
