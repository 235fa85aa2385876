"""Packages, joined packages and provenance documents that are dear to read or to run, with the command that
reads them."""
from __future__ import annotations

from typing import Any, Callable, Iterable, Iterator, Optional

from cases.encoder import (
    Part,
    act,
    asked,
    column,
    ended,
    encode,
    entry,
    file,
    group,
    log,
    package,
    read,
    row,
    run,
    spawned,
    started,
    table,
)
from cases.packages_joined import encode_joined, joined, joined_parts
from hard_parts import FILE, Packed, Pair, Texts, loop, main_only
from ldvtools.packages import read_package
from ldvtools.provenance import Edge, Node, Provenance, document_text

# The most events of a trace, and the most steps.
EVENTS, STEPS = 20_000_001, 10_000_000
# The trace of a run that asked once.
ASKED = [started(), asked(), ended()]


def packed(**parts: Any) -> bytes:
    return encode(package(2, **parts))


def both(first: bytes, second: bytes) -> bytes:
    """What `join` reads: each package with its length before it."""
    return b''.join(len(each).to_bytes(4, 'big') + each for each in (first, second))


def twice(pair: Callable[[int], Packed]) -> Callable[[int], Packed]:
    """Each input of a pair joined with itself."""
    return lambda size: tuple(both(each, each) for each in pair(size))


def joined_twice(pair: Callable[[int], Packed]) -> Callable[[int], Packed]:
    """The joined package of each input of a pair and itself."""
    def joins(size: int) -> Packed:
        return tuple(joined(read_package(each), read_package(each)) for each in pair(size))
    return joins


def run_joined_twice(size: int) -> Packed:
    """The joined packages of `one_run`, from their parts: one that is read has its events one by one."""
    return tuple(encode_joined(joined_parts(each, each)) for each in parts_of_one_run(size))


# ---- traces

def parts_of_one_run(size: int, mode: int = 1) -> Iterator[Part]:
    """A run of very many events, and one of two."""
    for count in size, 2:
        yield package(2, mode=mode, steps=STEPS, runs=[run(started()), run(act('read'), count)])


def one_run(size: int, mode: int = 1) -> Packed:
    return tuple(encode(each) for each in parts_of_one_run(size, mode))


def one_run_of_replies(size: int) -> Packed:
    return one_run(size, 2)


def short_runs(size: int) -> Packed:
    """Runs of an event, and files of as many bytes."""
    trace = [started()] + [act('read', 'fg'[i % 2]) for i in range(size)]
    whole, rest = divmod(22 * size, FILE)
    files = [file(f'a{i:03d}', b'x' * length) for i, length in enumerate([FILE] * whole + [rest])]
    return packed(trace=trace), packed(files=files + [file('main', 'exit 0')])


def bad_end(size: int) -> Packed:
    """A package whose last event is none, and one whose last is."""
    trace = [started()] + [act('read', 'fg'[i % 2]) for i in range(size)]
    return tuple(packed(trace=trace + [act('tested', found=found)]) for found in (7, 1))


def generations(size: int) -> Packed:
    """Processes of which each was started by the one before, and processes of one parent."""
    return tuple(packed(steps=STEPS, trace=[started()] + [
        spawned(1 + i, i if deep else 0, 'main' if deep else f'{i % 2}') for i in range(size)])
        for deep in (True, False))


# The numbers of the kit's hash of a text, which takes 16 bytes at a time.
FIRST, FACTOR, BITS = 0x243f_6a88_85a3_08d3, 0x9e37_79b9_7f4a_7c15, 64


def stem() -> str:
    """A text after which 8 bytes may be any: 16 bytes and the 8 of what the hash has of them, which make the
    next product 0. The bytes have to be those of a path in a script."""
    for number in range(10 ** 6):
        begin = f'{number:016d}'.encode()
        low, high = (int.from_bytes(begin[at:at + 8], 'little') for at in (0, 8))
        product = (low ^ FIRST + 48) * (high ^ FACTOR)
        state = (product ^ product >> BITS) % (1 << BITS)
        end = state.to_bytes(8, 'little')
        if all(0x20 < byte < 0x7f and byte not in b'"\\' for byte in end):
            return (begin + end).decode()
    return ''


def same_hash(size: int) -> Texts:
    """Paths of 48 bytes that have one hash, and paths that have not."""
    def script(front: str) -> str:
        body = f'let p = "{front}" ++ i\nlet p = p ++ "{"p" * 16}"\nexists x p\n'
        return main_only(loop(10_000_000 + size, body, 'let i = 10000000\n'))
    return script(stem()), script('p' * 24)


def many_paths(size: int) -> Packed:
    """Reads of as many paths, and of two."""
    return tuple(packed(steps=STEPS, trace=[started()] + [
        act('read', f'f{i % count:06d}', 1 + i) for i in range(size)]) for count in (size, 2))


# ---- rows and replies

def rows_of(columns: list[Part], rows: list[Part]) -> bytes:
    return packed(tables=[table('t', columns, next=2 ** 32 - 1, rows=rows)],
                  trace=[started(), asked(tables=['t']), ended()])


def nulls(columns: int) -> Callable[[int], Packed]:
    """Rows of NULLs, a byte each, and rows of a text."""
    def pair(size: int) -> Packed:
        rows = [row(i, *[None] * columns) for i in range(size)]
        long = (9 + columns) * size // 73
        return (rows_of([column(f'c{i:02d}') for i in range(columns)], rows),
                rows_of([column('c', 'TEXT')], [row(i, 'x' * 59) for i in range(long)]))
    return pair


def far_rows(size: int) -> Packed:
    """Rows whose numbers are far from each other, and rows that follow one another."""
    def needed(step: int) -> bytes:
        rows = [i * step for i in range(size)]
        return packed(
            steps=2, files=[file('main', 'sql q "SELECT k FROM t"\n')],
            tables=[table('t', [column('k')], next=size * step, rows=[row(number, 1) for number in rows])],
            trace=[started(), asked(tables=['t'], reads=[group('t', *map(read, rows))]), ended(2)])
    return needed(4096), needed(1)


def replied(*entries: Part) -> bytes:
    return packed(mode=2, logs=[log([0], *entries)], trace=ASKED)


def null_replies(size: int) -> Packed:
    """Replies of NULLs, and of texts."""
    return tuple(replied(entry(reply=dict(rows=[values] * size))) for values in ([None] * 60, ['x' * 55]))


def short_questions(size: int) -> Packed:
    """Questions of a byte, and questions of 60,000."""
    return replied(*[entry('x')] * size), replied(*[entry('x' * 60_000)] * (size * 16 // 60_000 + 1))


def deep_logs(size: int) -> Packed:
    """Logs of processes that stand one below another, and of processes of one parent."""
    def logs(names: list[list[int]], parents: Iterable[int]) -> bytes:
        return packed(mode=2, logs=[log(name) for name in names],
                      trace=[started()] + [spawned(1, parent, 'main') for parent in parents])
    return (logs([[0] * (i + 1) for i in range(size)], range(size - 1)),
            logs([[0]] + [[0, i] for i in range(size - 1)], [0] * (size - 1)))


def start_labels(size: int) -> Packed:
    """A script of labels, and one of comments."""
    return tuple(packed(files=[file('main', 'exit 0\n' + ''.join(line.format(i) for i in range(size)))])
                 for line in ('l{:06d}:\n', '#{:07d}\n'))


# ---- joins

def keys_of(size: int, first: int, key: Optional[int] = None) -> bytes:
    """A table of every second row, perhaps with another key in its last."""
    rows = [row(i, i) for i in range(first, 2 * size, 2)]
    if key is not None:
        rows[-1] = row(rows[-1]['number'], key)
    return packed(tables=[table('t', [column('k', 'INT NOT NULL')], [0], 2 * size, rows)],
                  trace=[started(), asked(tables=['t']), ended()])


def other_rows(size: int) -> Packed:
    """Packages whose rows stand in turn, and packages of the same rows."""
    one, other = keys_of(size, 0), keys_of(size, 1)
    return both(one, other), both(one, one)


def last_clash(size: int) -> Packed:
    """Packages whose last rows have one key, and packages that have none in common."""
    one = keys_of(size, 0)
    return both(one, keys_of(size, 1, 2 * size - 2)), both(one, keys_of(size, 1))


# ---- provenance documents

def document(edges: list[Edge], count: int) -> bytes:
    nodes = [Node('path', f'p{i:06d}') if i % 2 == 0 else Node('process', str(i // 2)) for i in range(count)]
    return document_text(Provenance(nodes, edges)).encode()


def dense_edges(size: int) -> Packed:
    """Edges between few nodes, and edges of a chain."""
    side = max(2, int(size ** 0.5))
    dense = [Edge(2 * i + 1, 2 * j, 1, 5) for i in range(side) for j in range(side)]
    return document(dense, 2 * side), document([Edge(i + 1, i, 1, 5) for i in range(size)], size + 1)


def later_edges(size: int) -> Packed:
    """A node that may be left ever later, found by ever later edges, and edges of one time."""
    def timed(time: Callable[[int], int]) -> bytes:
        # Process 0 wrote the path; each other process reads later of the path before, all wrote to process 0.
        edges = [Edge(2 * i, 1, 0, time(i)) for i in range(1, size)]
        return document(edges + [Edge(1, 0, 0, size)], 2 * size)
    return timed(lambda i: i), timed(lambda i: size)


def other_blank(size: int) -> Packed:
    """A document with a blank before its end, and one without."""
    text = dense_edges(size)[1]
    return text[:-1] + b' }', text


def unknown_numbers(size: int) -> Packed:
    items = b','.join([b'0'] * size)
    return b'{"x":[' + items + b']}', b'{"x":"' + items + b'"}'


DEPENDS = ('inspect', 'depends', 'main')
OF_PATH = ('prov', 'depends', 'p000000')
NO_DOCUMENT = (16, 16)

PAIRS = {
    'run_depends': Pair(one_run, 2_000_000, 'a run of so many events', DEPENDS),
    'run_listed': Pair(one_run, 2_000_000, 'the same, listed', ('inspect', 'trace')),
    'run_document': Pair(one_run, 2_000_000, 'the same, as a document', ('prov',)),
    'run_seed': Pair(one_run_of_replies, 2_000_000, 'the same, under another seed',
                     ('replay', '--seed', '7')),
    'run_joined': Pair(twice(one_run), 2_000_000, 'the same, joined with itself', ('join',)),
    'run_replayed': Pair(one_run, EVENTS - 1, 'as many events as there may be, replayed', ('replay',)),
    'run_migrated': Pair(one_run, EVENTS - 1, 'the same, migrated', ('migrate',)),
    'run_audited': Pair(one_run, EVENTS - 1, 'the same, audited', ('audit',)),
    'run_of_joined': Pair(run_joined_twice, EVENTS - 1, 'the same, one of two',
                          ('replay', '--run', '1')),
    'short_runs': Pair(short_runs, 500_000, 'runs of an event', ('replay',)),
    'short_depends': Pair(short_runs, 500_000, 'the same, and what they depend on', DEPENDS),
    'bad_end': Pair(bad_end, 500_000, 'a package that is none at its end', ('replay',), (8, 0)),
    'generations': Pair(generations, 10_000, 'each process started by the one before', DEPENDS),
    'generations_listed': Pair(generations, 10_000, 'the same, listed', ('inspect', 'trace')),
    'generations_document': Pair(generations, 10_000, 'the same, as a document', ('prov',)),
    'same_hash': Pair(same_hash, 20_000, 'paths of one hash', ('record',)),
    'many_paths': Pair(many_paths, 500_000, 'as many paths', DEPENDS),
    'null_cells': Pair(nulls(64), 200_000, 'cells of a byte', ('replay',)),
    'null_rows': Pair(nulls(1), 1_000_000, 'rows of a byte', ('replay',)),
    'null_audit': Pair(nulls(64), 200_000, 'cells of a byte, audited', ('audit',)),
    'far_rows': Pair(far_rows, 200_000, 'rows whose numbers are far from each other', ('audit',)),
    'far_rows_replayed': Pair(far_rows, 200_000, 'the same, replayed', ('replay',)),
    'null_replies': Pair(null_replies, 200_000, 'replies of NULLs', ('replay',)),
    'short_questions': Pair(short_questions, 1_000_000, 'questions of a byte', ('replay',)),
    'deep_logs': Pair(deep_logs, 1500, 'logs of processes that stand one below another', ('replay',)),
    'start_labels': Pair(start_labels, 1_500_000, 'labels of the first script', ('replay',)),
    'other_rows': Pair(other_rows, 500_000, 'rows that the other package hasn\'t', ('join',)),
    'last_clash': Pair(last_clash, 500_000, 'a key that the last rows share', ('join',), (15, 0)),
    'null_joined': Pair(twice(nulls(64)), 200_000, 'cells of a byte, joined', ('join',)),
    'null_of_joined': Pair(joined_twice(nulls(64)), 20_000, 'the same, one of two', ('replay', '--run', '1')),
    'dense_edges': Pair(dense_edges, 100_000, 'edges between few nodes', OF_PATH),
    'later_edges': Pair(later_edges, 100_000, 'edges that end ever later', OF_PATH),
    'other_blank': Pair(other_blank, 100_000, 'a document with a blank', OF_PATH, (16, 0)),
    'unknown_json': Pair(unknown_numbers, 33_000_000, 'numbers in a member that isn\'t known', OF_PATH,
                         NO_DOCUMENT),
}
