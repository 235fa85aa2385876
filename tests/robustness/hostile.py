#!/usr/bin/env python3
"""Gives the program inputs that are made to break it, and looks at each answer.

    hostile.py PROGRAM [--count N] [--seed S] [--jobs J] [--memory MIB] [--seconds T] [--keep FOLDER]
               [--commands NAME,..] [--modes included,excluded]

The inputs are made by mutation of those of the cases in crates/conformance/data and of the documents in
examples/: bytes of documents, their JSON values, lines of their scripts, bytes of packages with a digest that
is right again, in their version and in the other one, runs of their traces, nodes, edges and spellings of
provenance documents, pairs of packages, sections of joined ones, and words. Each call has 8 MiB of stack, MIB
MiB of memory (default 512) and T seconds (default 20). An answer is as it has to be where

- the status is one that docs/COMMANDS.md gives for the command, or 2 where the words are none, and no signal
  ended the program;
- with status 0 there is an output, which only `inspect rows` and `inspect depends` may leave empty, and no
  message, else no output and one line of a message;
- a world that `run` runs is recorded and replayed to the very bytes that `run` wrote, or the package is too
  long;
- a provenance document is one, and depends on what it says, exactly as tools/prov.py reads it;
- what `migrate` writes is of version 2, is written again as it is, and is replayed as its input is;
- what `join` writes is what tools/cases/packages_joined.py joins, and its clash is the one that tools/join.py
  finds;
- the packages of a world that is run under two seeds are joined, and each run is replayed to the very bytes
  that `run` wrote.

It prints the number of answers by command and status, and ends with status 1 where one isn't as it has to be;
that input lies in FOLDER then (default: hostile_inputs). The inputs depend on these words and on the packages
that the program records of worlds that aren't mutated, and not on its other answers.
"""
from __future__ import annotations

import argparse
import collections
import contextlib
import glob
import json
import multiprocessing
import os
import random
import re
import resource
import subprocess
import sys
import tempfile
import time
from typing import Any, Optional, Sequence

from hostile_documents import mutated_provenance, reads
from hostile_joins import is_joined, joins, judges, mutated_joined, mutated_pair, pair_in
from hostile_packages import EDGES, Answer, in_other_version, mutated_bytes, mutated_package

HERE = os.path.dirname(os.path.abspath(__file__))
ROOT = os.path.dirname(os.path.dirname(HERE))
LONGEST = 200_000
# How many calls there were, by what was called and the status.
Counts = collections.Counter[tuple[str, Optional[int]]]

STATUSES = {
    'run': {0, 6, 7},
    'record': {0, 6, 7, 12},
    'replay': {0, 7, 8, 9},
    'audit': {0, 7, 8, 10, 12},
    'table': {0, 7, 8, 10},
    'inspect': {0, 8, 10},
    'migrate': {0, 8, 12},
    'prov': {0, 8},
    'join': {0, 8, 10, 12, 15},
}
DEPENDS = ['prov', 'depends']
OF_DEPENDS = {0, 10, 16}
REPLAY_RUN = ['replay', '--run']
OF_RUN = {0, 7, 8}
USAGE, NO_MEMORY = 2, 11
# The words whose output may be empty.
MAY_BE_EMPTY = (['inspect', 'rows'], ['inspect', 'depends'], DEPENDS)
TEXTS = ['', 'a', 'main', "'", '"', '\\', '\n', '\0', '?', '*', '--', 'é', '\U0001f600', ' ' * 70,
         'x' * 65537]
SQL = ['SELECT', 'FROM', 'WHERE', 'GROUP BY', 'HAVING', 'ORDER BY', 'LIMIT', 'UNION', 'UNION ALL', 'JOIN',
       'ON', 'DISTINCT', 'AS', 'AND', 'OR', 'NOT', 'IS NULL', 'NULL', 'COUNT(*)', 'SUM(a)', 'MIN(b)', '(',
       ')', ',', '*', '=', '<>', '<=', '?', "''", "'x'", '0', '-1', '9223372036854775808', 'INSERT INTO',
       'VALUES', 'UPDATE', 'SET', 'DELETE', 't', 'a', 'b', 't.a']

STATEMENT = re.compile(r'sql [a-z]+ "([^"\\]+)"')
# A line that asks a statement, without the values of its parameters.
ASKING = re.compile(r'^[ ]*sql [a-z]+ "[^"\\]+"', re.MULTILINE)
PARAMETERS = ['null', '0', '1', '-1', '-2', '9223372036854775807', '""', '"a"', 'x']


# ---- what the inputs are made of

def bytes_of(text: Any) -> bytes:
    if isinstance(text, dict):
        return bytes.fromhex(text['hex'])
    return str(text).encode('utf-8', 'surrogatepass')


def corpus() -> tuple[list[bytes], list[bytes], list[bytes], list[bytes], list[bytes], list[bytes]]:
    """Documents and packages of the cases and the examples: of each those that are run, and all. And
    provenance documents and joined packages."""
    good: list[bytes] = []
    documents: list[bytes] = []
    sound: list[bytes] = []
    packages: list[bytes] = []
    provenance: list[bytes] = []
    joined: list[bytes] = []
    for path in sorted(glob.glob(os.path.join(ROOT, 'crates/conformance/data/*/*.json'))):
        with open(path, encoding='utf-8') as file:
            cases = json.load(file)
        for case in cases:
            data = bytes_of(case['input'])
            if len(data) > LONGEST or case['words'][:1] in ([], ['gen']):
                continue
            if case['words'] == ['prov'] and case['status'] == 0:
                provenance.append(bytes_of(case['output']))
            if case['words'][:2] == DEPENDS:
                provenance.append(data)
                continue
            if case['words'] == ['join'] or case['words'][:2] == REPLAY_RUN:
                packages += pair_in(data) or []
                joined += filter(is_joined, (data, bytes_of(case['output'])))
                continue
            reads_world = case['words'][0] in ('run', 'record')
            (documents if reads_world else packages).append(data)
            if case['status'] == 0:
                (good if reads_world else sound).append(data)
    for path in sorted(glob.glob(os.path.join(ROOT, 'examples/*.json'))):
        with open(path, 'rb') as there:
            data = there.read()
        if len(data) <= LONGEST:
            good.append(data)
    return good, documents, sound, packages, provenance, joined


# ---- documents

def places(value: Any, found: list[tuple[Any, Any]], depth: int = 0) -> None:
    """Each place of a JSON value: what holds it, and its name or index there."""
    items = value.items() if isinstance(value, dict) else enumerate(value) if isinstance(value, list) else ()
    for name, inner in items:
        found.append((value, name))
        if depth < 40:
            places(inner, found, depth + 1)


def inner_places(value: Any) -> list[tuple[Any, Any]]:
    """The scripts and cells of a document: what may change and leave a world."""
    found = []
    if isinstance(value, dict) and isinstance(value.get('files'), dict):
        found += [(value['files'], name) for name in value['files']]
    tables = value.get('tables') if isinstance(value, dict) else None
    for table in tables.values() if isinstance(tables, dict) else ():
        rows = table.get('rows') if isinstance(table, dict) else None
        for row in rows if isinstance(rows, list) else ():
            found += [(row, place) for place in range(len(row))] if isinstance(row, list) else []
    return found


def mutated_inner(rng: random.Random, inner: Any) -> Any:
    """A script with a line or a statement changed, or another cell of the same kind."""
    if isinstance(inner, str) and ('\n' in inner or ' ' in inner):
        return mutated_text(rng, inner)
    if isinstance(inner, int):
        return rng.choice((None, inner + 1, 0, 1, -1, 2**63 - 1, -2**63))
    return rng.choice((None, '', 'a', "'", 'x' * 300)) if isinstance(inner, str) else inner


def edge_value(rng: random.Random) -> Any:
    how = rng.randrange(9)
    if how == 0:
        return rng.choice(EDGES) * rng.choice((1, -1))
    if how == 1:
        return rng.choice(TEXTS)
    if how == 2:
        return rng.choice((None, True, False, 1.5, -0.0, 1e300))
    if how == 3:
        return rng.choice(([], {}, [[]], [None], {'hex': '00ff'}, {'hex': 'f'}, {'rows': [], 'next': 5}))
    if how == 4:
        value: list[Any] = []
        for _ in range(rng.choice((3, 100, 126, 127, 128, 1000))):
            value = [value]
        return value
    if how == 5:
        return [rng.choice(EDGES)] * rng.choice((1, 64, 65, 256, 257))
    if how == 6:
        return {'n%d' % n: rng.choice(('', 'exit 0\n')) for n in range(rng.choice((1, 3, 300)))}
    if how == 7:
        return ' '.join(rng.choice(SQL) for _ in range(rng.randrange(1, 40)))
    return '\n'.join(script_line(rng) for _ in range(rng.randrange(1, 12))) + '\n'


def script_line(rng: random.Random) -> str:
    return rng.choice((
        'let x = 1', 'let x = x + 1', 'let x = x ++ "a"', 'let x = int arg1', 'cut x y x ","', 'print "hi"',
        'print x', 'exit 3', 'a:', 'goto a', 'if x < 3 goto a', 'spawn p "main" else a', 'wait x p',
        'open f r "q" else a', 'open f %s "q" else a' % rng.choice('wan'), 'readline x f else a', 'write f x',
        'copy f f', 'close f', 'remove "q" else a', 'exists x "q"',
        'sql r "%s"' % ' '.join(rng.choice(SQL) for _ in range(rng.randrange(1, 12))),
        'fetch r x y else a', 'count x r', 'status x r', rng.choice(TEXTS)))


def mutated_statement(rng: random.Random, text: str) -> str:
    """A script with a word of a statement changed, so that it stays a script."""
    at, end = rng.choice([match.span(1) for match in STATEMENT.finditer(text)])
    words = text[at:end].split(' ')
    place = rng.randrange(len(words))
    how = rng.randrange(4)
    if how == 0:
        words[place] = rng.choice(SQL)
    elif how == 1:
        words.insert(place, rng.choice(SQL))
    elif how == 2:
        del words[place]
    else:
        words.insert(place, rng.choice(words))
    return text[:at] + ' '.join(words) + text[end:]


def with_repeated_statement(rng: random.Random, text: str) -> str:
    """A script that asks one of its statements up to six times more, with values of any kind, mostly as many
    as it has parameters."""
    found = rng.choice(list(ASKING.finditer(text)))
    lines = []
    for _ in range(rng.randrange(1, 7)):
        count = found.group().count('?') + rng.choice((0, 0, 0, 0, 1))
        lines.append(' '.join([found.group(), *(rng.choice(PARAMETERS) for _ in range(count))]))
    return text[:found.start()] + '\n'.join(lines) + '\n' + text[found.start():]


def mutated_text(rng: random.Random, text: str) -> str:
    """A text with a line or a word changed, or a statement asked again."""
    if ASKING.search(text) and rng.random() < 0.2:
        return with_repeated_statement(rng, text)
    if STATEMENT.search(text) and rng.random() < 0.7:
        return mutated_statement(rng, text)
    parts = text.split('\n') if rng.random() < 0.5 else text.split(' ')
    joint = '\n' if '\n' in text and len(parts) == text.count('\n') + 1 else ' '
    at = rng.randrange(len(parts))
    how = rng.randrange(5)
    if how == 0:
        parts[at] = script_line(rng) if joint == '\n' else rng.choice(SQL)
    elif how == 1:
        del parts[at]
    elif how == 2:
        parts.insert(at, rng.choice(parts))
    elif how == 3:
        parts.insert(at, script_line(rng) if joint == '\n' else rng.choice(SQL + TEXTS))
    else:
        parts[at] = mutated_bytes(rng, parts[at].encode('utf-8', 'replace')).decode('utf-8', 'replace')
    return joint.join(parts)


def mutated_document(rng: random.Random, data: bytes) -> bytes:
    if rng.random() < 0.2:
        return mutated_bytes(rng, data)
    try:
        value = json.loads(data)
    except (ValueError, RecursionError):
        return mutated_bytes(rng, data)
    inner_only = rng.random() < 0.7
    for _ in range(rng.choice((1, 1, 2, 4))):
        found: list[tuple[Any, Any]] = []
        places(value, found)
        if not found:
            break
        inners = inner_places(value) if inner_only else []
        if inners:
            holder, name = rng.choice(inners)
            holder[name] = mutated_inner(rng, holder[name])
            continue
        holder, name = rng.choice(found)
        inner, how = holder[name], rng.randrange(6)
        if how <= 2 and isinstance(inner, str):
            holder[name] = mutated_text(rng, inner)
        elif how == 3:
            del holder[name]
        elif how == 4:
            other, key = rng.choice(found)
            with contextlib.suppress(KeyError, IndexError, RecursionError, TypeError):
                holder[name] = json.loads(json.dumps(other[key]))
        else:
            holder[name] = edge_value(rng)
    try:
        return json.dumps(value, ensure_ascii=rng.random() < 0.5).encode('utf-8', 'surrogatepass')
    except RecursionError:
        return data


# ---- words

def words_of(rng: random.Random, name: str) -> tuple[list[str], bool]:
    """Words for a command, and whether they are a command."""
    words = [name]
    if name == 'record' and rng.random() < 0.5:
        words.append('--excluded')
    if name == 'table':
        words += [rng.choice(('t', 'a', 'p', 'orders', 'order', 'missing')),
                  str(rng.choice((0, 1, 2, 3, 10, 10_000_000)))]
    if name == 'inspect':
        words += rng.choice((['rows'], ['files'], ['trace'], ['why', 't', '0'], ['why', 't', '4294967294'],
                             ['depends', 'main'], ['depends', 'q'], ['depends', 'f']))
    elif name == 'prov' and rng.random() < 0.7:
        words += ['depends', rng.choice(('main', 'f', 'g', 'out', 'q'))]
    elif name == 'replay' and rng.random() < 0.3:
        words += ['--run', rng.choice('12')]
    if name not in ('inspect', 'join', 'migrate', 'prov') and rng.random() < 0.7:
        words += ['--steps', str(rng.choice((1, 2, 10, 1000, 50_000)))]
    # The name of a table is no reserved word.
    right = name in STATUSES and words[:2] != ['table', 'order']
    if rng.random() < 0.02:
        # None of these makes another command of a command.
        words.insert(rng.randrange(len(words) + 1),
                     rng.choice(('', '--', '--steps', '01', '-1', 'run', 'x' * 5000)))
        right = False
    return words, right


def package_input(rng: random.Random, data: bytes) -> bytes:
    """A package that is made another one; now and then one as it is, in its version or in the other one."""
    if rng.random() < 0.05:
        return data if rng.random() < 0.5 else in_other_version(data)
    return mutated_package(rng, data)


# ---- one call

class Calls:
    """Calls of the program by one worker, with its own files for input and output."""

    def __init__(self, program: str, limits: Any, folder: str) -> None:
        self.program = program
        self.seconds = limits['seconds']
        self.input = os.path.join(folder, 'input')
        stack = 8 << 20
        resource.setrlimit(resource.RLIMIT_STACK, (stack, stack))
        memory = limits['memory'] << 20
        resource.setrlimit(resource.RLIMIT_AS, (memory, memory))
        resource.setrlimit(resource.RLIMIT_CORE, (0, 0))

    def call(self, words: list[str], data: bytes) -> Answer:
        with open(self.input, 'wb') as to:
            to.write(data)
        with open(self.input, 'rb') as given:
            try:
                done = subprocess.run([self.program, *words], stdin=given, capture_output=True,
                                      timeout=self.seconds, close_fds=False)
            except subprocess.TimeoutExpired:
                return None, b'', b''
        return done.returncode, done.stdout, done.stderr


def complaint(words: list[str], right: bool, answer: Answer) -> Optional[str]:
    """What isn't as it has to be in an answer, or None. `right`: whether the words are a command."""
    status, output, error = answer
    if status is None:
        return 'no answer in time'
    own = (OF_DEPENDS if words[:2] == DEPENDS else OF_RUN if words[:2] == REPLAY_RUN
           else STATUSES[words[0]] if right else set())
    if status not in (own | {NO_MEMORY} if right else {USAGE}):
        return 'status %r' % status
    if status == 0 and not output and words[:2] not in MAY_BE_EMPTY:
        return 'no output with status 0'
    if status == 0 and error or status != 0 and output:
        return 'output of %d bytes and message %.80r with status %d' % (len(output), error, status)
    if status != 0 and not (error.startswith(b'ldv: ') and error.endswith(b'\n') and error.count(b'\n') == 1):
        return 'message %.80r' % error
    return None


def replays(calls: Calls, data: bytes, outcome: bytes, mode: list[str]) -> Optional[str]:
    """Whether the package of a world that runs is replayed to that outcome."""
    status, package, _ = calls.call(['record', *mode], data)
    if status in (12, NO_MEMORY):
        return None
    if status != 0:
        return 'record has status %r where run has 0' % status
    status, replayed, _ = calls.call(['replay'], package)
    if status == NO_MEMORY:
        return None
    if status != 0 or replayed != outcome:
        return 'the replay differs from the run (status %r)' % status
    return None


def migrates(calls: Calls, data: bytes, package: bytes) -> Optional[str]:
    """What isn't as it has to be in what `migrate` wrote, or None."""
    if not package.startswith(b'LDVPACK2'):
        return 'what migrate wrote is no package of version 2'
    answers = [calls.call(['migrate'], package), calls.call(['replay'], data),
               calls.call(['replay'], package)]
    if any(status in (None, NO_MEMORY) for status, _, _ in answers):
        return None
    again, before, after = answers
    if again != (0, package, b''):
        return 'what migrate wrote is migrated to something else (status %r)' % again[0]
    return None if before == after else 'the replay of what migrate wrote differs (status %r)' % after[0]


def is_joined_with(rng: random.Random, calls: Calls, data: bytes, outcome: bytes) -> Optional[str]:
    """What isn't as it has to be where two runs of a world are joined, the second under another seed, or
    None."""
    try:
        world = json.loads(data)
    except (ValueError, RecursionError):
        return None
    other = json.dumps({**world, 'seed': rng.choice((0, 1, 2 ** 64 - 1, rng.randrange(2 ** 64)))}).encode()
    answers = [calls.call(['record'], data), calls.call(['run'], other), calls.call(['record'], other)]
    if any(status != 0 for status, _, _ in answers):
        return None
    (_, package, _), (_, other_outcome, _), (_, other_package, _) = answers
    return joins(calls, package, outcome, other_package, other_outcome)


# ---- many

def work(job: Any) -> tuple[Counts, list[str]]:
    program, limits, seed, count, keep, names, place = job
    rng = random.Random(seed)
    good, documents, sound, packages, provenance, joined = corpus()
    counts: Counts = collections.Counter()
    wrong: list[str] = []
    with tempfile.TemporaryDirectory(dir=place) as folder:
        calls = Calls(program, limits, folder)
        for document in rng.sample(good, min(len(good), 40)):
            status, package, _ = calls.call(words_of(rng, 'record')[0], document)
            if status == 0:
                sound.append(package)
        for number in range(count):
            name = rng.choice(names)
            words, right = words_of(rng, name)
            whole = rng.random() < 0.8
            if name in ('run', 'record'):
                data = mutated_document(rng, rng.choice(good if whole else documents))
            elif words[:2] == DEPENDS:
                data = mutated_provenance(rng, rng.choice(provenance))
            elif words[:2] == REPLAY_RUN:
                data = mutated_joined(rng, joined)
            elif name == 'join':
                data = mutated_pair(rng, sound if whole else packages, packages)
            else:
                data = package_input(rng, rng.choice(sound if whole else packages))
            if rng.random() < 0.02:
                name = rng.choice(names)
                words, right = words_of(rng, name)
            # Drawn before the answer is known, so that the next inputs don't depend on it.
            is_replayed, mode = rng.random() < 0.5, rng.choice(limits['modes'])
            is_joined_too, other_seed = rng.random() < 0.2, random.Random(rng.random())
            answer = calls.call(words, data)
            said = complaint(words, right, answer)
            if not said and answer[0] == 0 and words == ['run'] and is_replayed:
                said = replays(calls, data, answer[1], mode)
                counts['run, record, replay', 0] += 1
            if not said and answer[0] == 0 and words == ['run'] and is_joined_too:
                said = is_joined_with(other_seed, calls, data, answer[1])
                counts['run, join, replay', 0] += 1
            if not said and words == ['join']:
                said = judges(data, answer)
            if not said and answer[0] == 0 and words == ['migrate'] and is_replayed:
                said = migrates(calls, data, answer[1])
                counts['migrate, replay', 0] += 1
            if not said and right and words[:2] == DEPENDS and answer[0] != NO_MEMORY:
                said = reads(data, words[2], answer)
            told = ' '.join(words[:2]) if words[:2] in (DEPENDS, REPLAY_RUN) else words[0] if words else ''
            counts[told if words and words[0] in STATUSES else 'other', answer[0]] += 1
            if said:
                os.makedirs(keep, exist_ok=True)
                path = os.path.join(keep, '%d_%d' % (seed, number))
                with open(path, 'wb') as to:
                    to.write(data)
                wrong.append('%s: %s: %s' % (path, ' '.join(words), said))
    return counts, wrong


def main(words: Optional[Sequence[str]] = None) -> int:
    parser = argparse.ArgumentParser(description=__doc__,
                                     formatter_class=argparse.RawDescriptionHelpFormatter)
    parser.add_argument('program')
    parser.add_argument('--count', type=int, default=10_000)
    parser.add_argument('--seed', type=int, default=1)
    parser.add_argument('--jobs', type=int, default=os.cpu_count())
    parser.add_argument('--memory', type=int, default=512)
    parser.add_argument('--seconds', type=float, default=20)
    parser.add_argument('--keep', default='hostile_inputs')
    parser.add_argument('--commands', default=','.join(STATUSES))
    parser.add_argument('--modes', default='included,excluded')
    given = parser.parse_args(words)
    if not os.access(given.program, os.X_OK):
        parser.error('%s is no program' % given.program)
    modes = [[] if mode == 'included' else ['--excluded'] for mode in given.modes.split(',')]
    limits = dict(memory=given.memory, seconds=given.seconds, modes=modes)
    names = given.commands.split(',')
    # Parts of a thousand or so, so that the jobs end together.
    parts = max(given.jobs, given.count // 1000)
    shares = [given.count * (n + 1) // parts - given.count * n // parts for n in range(parts)]
    begun = time.monotonic()
    counts: Counts = collections.Counter()
    wrong: list[str] = []
    # One folder for those of the jobs: it goes away also where they are ended from outside.
    with tempfile.TemporaryDirectory(dir='/dev/shm' if os.path.isdir('/dev/shm') else None) as folder, \
            multiprocessing.Pool(given.jobs, maxtasksperchild=1) as pool:
        jobs = [(os.path.abspath(given.program), limits, given.seed * 1_000_003 + n, share, given.keep, names,
                 folder)
                for n, share in enumerate(shares)]
        for more, complaints in pool.imap_unordered(work, jobs):
            counts.update(more)
            wrong += complaints
            for line in complaints:
                print(line, flush=True)
    for (name, status), count in sorted(counts.items(), key=lambda item: (item[0][0], str(item[0][1]))):
        print('%-20s status %-4s %9d' % (name, status, count))
    print('%d inputs, %d answers wrong, %.0f seconds' % (given.count, len(wrong), time.monotonic() - begun))
    return 1 if wrong else 0


if __name__ == '__main__':
    sys.exit(main())
