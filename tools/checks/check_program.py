#!/usr/bin/env python3
"""Runs the built program through its real streams, and compares status, output and error bytes.

    python3 tools check_program PROGRAM [EXAMPLES]

It prints a line for each call that differs and ends with status 1 where one does. What the program does over
streams in memory is the matter of `crates/conformance`; here are the few calls that only a real process
shows: its words, its streams, a stream that is closed or full, inputs and runs at the limits, and the
examples of the folder EXAMPLES (default: examples/ of this checkout), each against the outcome that lies
beside it.
"""
from __future__ import annotations

import hashlib
import json
import os
import subprocess
import sys
from typing import Any, Optional, Sequence, Union

from . import ROOT

INPUT_LIMIT = 67_108_864
FILE_LIMIT = 16_777_216
PROCESS_LIMIT = 65_535

HELLO = b'{"start":["main"],"files":{"main":"print \\"hi\\"\\n"}}'
HELLO_OUTCOME = b'outcome 1 0\nprocess 0 0 3 0\nhi\n\n'
SECONDS = 60

# The words of the two kinds of packages.
KINDS = (['record'], ['record', '--excluded'])
# A word of a call may be bytes that are no text.
Word = Union[str, bytes]
# Status, output and error of a call.
Answer = tuple[int, bytes, bytes]


def call(program: str, words: Sequence[Word], data: Optional[bytes] = b'', **streams: Any) -> Answer:
    """Status, output and error of one call. Streams that the caller gives aren't captured."""
    how: dict[str, Any] = dict(input=data, stdout=subprocess.PIPE, stderr=subprocess.PIPE, timeout=SECONDS)
    how.update(streams)
    if data is None:
        del how['input']
    done = subprocess.run([program, *words], **how)
    return done.returncode, done.stdout or b'', done.stderr or b''


class Check:
    """Counts the calls and those that differ."""

    def __init__(self, program: str) -> None:
        self.program = program
        self.calls = 0
        self.differ = 0

    def same(self, name: str, got: Answer, wanted: Answer) -> None:
        self.calls += 1
        for part, has, wants in zip(('status', 'output', 'error'), got, wanted):
            if has != wants:
                self.differ += 1
                print('%s: the %s is %.200r and not %.200r' % (name, part, has, wants))
                return

    def expect(self, name: str, words: Sequence[Word], data: bytes, status: int, output: bytes = b'',
               error: bytes = b'') -> None:
        self.same(name, call(self.program, words, data), (status, output, error))


def words_and_worlds(check: Check) -> None:
    check.expect('a world', ['run'], HELLO, 0, HELLO_OUTCOME)
    check.expect('no words', [], HELLO, 2, error=b'ldv: usage\n')
    check.expect('an unknown word', ['walk'], HELLO, 2, error=b'ldv: usage\n')
    check.expect('a word too many', ['run', 'run'], HELLO, 2, error=b'ldv: usage\n')
    # The system's words are bytes, and the program's are texts: words that are none aren't given to it.
    check.expect('words that are no text', [b'\xff'], HELLO, 17, error=b'ldv: no words\n')
    check.expect('no input', ['run'], b'', 6, error=b'ldv: not a world: not json\n')
    check.expect('a bad line', ['run'], b'{"start":["m"],"files":{"m":"exit 0\\nfoo"}}', 6,
                 error=b'ldv: not a world: bad script line 2\n')


def packages(check: Check) -> None:
    for words in KINDS:
        status, package, error = call(check.program, words, HELLO)
        check.same(' '.join(words), (status, b'', error), (0, b'', b''))
        check.expect('replay of what was recorded', ['replay'], package, 0, HELLO_OUTCOME)
        check.expect('a package cut by its last byte', ['replay'], package[:-1], 8,
                     error=b'ldv: damaged: digest\n')
        check.expect('another first byte', ['replay'], b'l' + package[1:], 8, error=b'ldv: damaged: magic\n')
        check.expect('a report', ['inspect', 'trace'], package, 0, b'0 0 started main\n2 0 ended 0\n')
        check.expect('a table that is not there', ['table', 't', '0'], package, 10,
                     error=b'ldv: no such item\n')


def generated(check: Check) -> None:
    summary = (b'gen 100 rows 110 kept 70 steps 38\n'
               b'package 4405 774ea099e8107dbe6a27b6a3162ad249861bae15d6e771ba419d9b34308ef3a6\n'
               b'replay 404\n')
    check.expect('a generated world', ['gen', '100'], b'', 0, summary)


def at_the_limits(check: Check) -> None:
    too_long = b'ldv: input longer than 67108864 bytes\n'
    check.expect('an input at the limit', ['run'], b' ' * INPUT_LIMIT, 6,
                 error=b'ldv: not a world: not json\n')
    check.expect('an input past the limit', ['run'], b' ' * (INPUT_LIMIT + 1), 5, error=too_long)
    run: list[str] = []
    for magic, words in ((b'LDVPACK1', run), (b'LDVPACK2', run), (b'LDVJOIN1', ['--run', '1'])):
        noise = (magic + bytes(range(256)) * (INPUT_LIMIT // 256))[:INPUT_LIMIT]
        check.expect('noise after a right magic', ['replay', *words], noise, 8,
                     error=b'ldv: damaged: digest\n')
    check.expect('the greatest lengths of two packages', ['join'], b'\xff' * INPUT_LIMIT, 8,
                 error=b'ldv: damaged: form\n')
    check.expect('two packages past the limit', ['join'], b'\0' * (INPUT_LIMIT + 1), 5, error=too_long)
    check.expect('arrays nested 100,000 deep', ['run'], b'[' * 100_000 + b']' * 100_000, 6,
                 error=b'ldv: not a world: not json\n')
    no_document = b'ldv: not a provenance document\n'
    check.expect('a document nested 100,000 deep', ['prov', 'depends', 'main'], b'{"a":' * 100_000, 16,
                 error=no_document)
    check.expect('a document of one text of 64 MiB', ['prov', 'depends', 'main'],
                 b'"' + b'x' * (INPUT_LIMIT - 2) + b'"', 16, error=no_document)
    long_path = b'{"activity":{},"entity":{"ldv:path/' + b'x' * (60 << 20) + b'":{"ldv:place":0}},'
    check.expect('a document with a path of 60 MiB', ['prov', 'depends', 'main'],
                 long_path + b'"used":{},"wasDerivedFrom":{},"wasGeneratedBy":{},"wasInformedBy":{}}', 16,
                 error=no_document)
    check.expect('a document past the limit', ['prov', 'depends', 'main'], b' ' * (INPUT_LIMIT + 1), 5,
                 error=too_long)
    long_text = b'{"start":["main","' + b'x' * (60 << 20) + b'"],"files":{"main":""}}'
    check.expect('a start word of 60 MiB', ['run'], long_text, 6, error=b'ldv: not a world: limit\n')


def world(files: dict[str, str]) -> bytes:
    return json.dumps({'start': ['main'], 'files': files}).encode()


def process(name: bytes, status: int = 0, printed: bytes = b'') -> bytes:
    return b'process %s %d %d 0\n' % (name, status, len(printed)) + printed + b'\n'


def one_file(status: int, path: bytes, content: bytes) -> bytes:
    return (b'outcome 1 1\n' + process(b'0', status)
            + b'file %d %d\n' % (len(path), len(content)) + path + b'\n' + content + b'\n')


def runs_at_the_limits(check: Check) -> None:
    """Runs whose world, outcome or number of steps is too large for a stored case."""
    big = 'b' * (FILE_LIMIT - 1)
    append = 'open f a "big" else x\nwrite f "%s"\nx:\n'
    check.expect('a file that reaches its limit', ['run'], world({'main': append % '', 'big': big}), 0,
                 one_file(0, b'big', big.encode() + b'\n'))
    check.expect('a file that would pass it', ['run'], world({'main': append % 'a', 'big': big}), 0,
                 one_file(242, b'big', big.encode()))
    copy = 'open f r "big" else x\nopen g a "big" else x\ncopy f g\nx:\n'
    check.expect('a copy onto itself that would pass it', ['run'], world({'main': copy, 'big': big}), 0,
                 one_file(242, b'big', big.encode()))
    line = 'a' * 65_535
    show = 'let x = "%s"\nlet n = 0\nl:\nprint x\nlet n = n + 1\nif n < 256 goto l\n' % line
    printed = (line.encode() + b'\n') * 256
    check.expect('a process that prints as much as it may', ['run'], world({'main': show}), 0,
                 b'outcome 1 0\n' + process(b'0', 0, printed))
    check.expect('a process that would print more', ['run'], world({'main': show + 'print ""\n'}), 0,
                 b'outcome 1 0\n' + process(b'0', 242, printed))
    children = 'let n = 0\nl:\nspawn c "w" else x\nlet n = n + 1\nif n < %d goto l\nexit 1\nx:\nexit 2\n'
    names = b''.join(process(b'0.%d' % n) for n in range(PROCESS_LIMIT - 1))
    whole = b'outcome %d 0\n' % PROCESS_LIMIT
    check.expect('as many processes as there may be', ['run'],
                 world({'main': children % (PROCESS_LIMIT - 1), 'w': ''}), 0,
                 whole + process(b'0', 1) + names)
    check.expect('one more is refused', ['run'],
                 world({'main': children % PROCESS_LIMIT, 'w': ''}), 0, whole + process(b'0', 2) + names)
    comments = ('#' + 'c' * 1_022 + '\n') * (FILE_LIMIT // 1_024 - 1)
    script = comments + '#' + 'c' * 1_015 + '\nexit 5\n'
    check.expect('a script of 16 MiB', ['run'], world({'main': script}), 0,
                 b'outcome 1 0\n' + process(b'0', 5))
    count = world({'main': 'let n = 0\nl:\nlet n = n + 1\nif n < 4999999 goto l\n'})
    check.expect('10,000,000 steps', ['run', '--steps', '10000000'], count, 0,
                 b'outcome 1 0\n' + process(b'0'))
    check.expect('a step too many', ['run', '--steps', '9999999'], count, 7,
                 error=b'ldv: not ended after 9999999 steps\n')


def streams(check: Check) -> None:
    """A stream that fails is found out only by a real process."""
    read, write = os.pipe()
    os.close(read)
    check.same('an output that nobody reads', call(check.program, ['run'], HELLO, stdout=write),
               (4, b'', b'ldv: write fault\n'))
    os.close(write)
    closed = call(check.program, ['run'], HELLO, stdout=None, preexec_fn=lambda: os.close(1))
    check.same('a closed output', closed, (4, b'', b'ldv: write fault\n'))
    closed = call(check.program, ['run'], None, stdin=None, preexec_fn=lambda: os.close(0))
    check.same('a closed input', closed, (3, b'', b'ldv: read fault\n'))
    if os.path.exists('/dev/full'):
        with open('/dev/full', 'wb') as full:
            check.same('a full output', call(check.program, ['run'], HELLO, stdout=full),
                       (4, b'', b'ldv: write fault\n'))
            check.same('a full error stream', call(check.program, [], HELLO, stderr=full), (2, b'', b''))


def joined(check: Check, name: str, world: bytes, package: bytes, text: bytes) -> None:
    """The package of a run and that of the same world under another seed, joined, and both runs replayed."""
    other = json.dumps({**json.loads(world), 'seed': 1}).encode()
    pair = b''.join(len(each).to_bytes(4, 'big') + each
                    for each in (package, call(check.program, ['record'], other)[1]))
    status, both, error = call(check.program, ['join'], pair)
    check.same('join of two packages of ' + name, (status, b'', error), (0, b'', b''))
    for run, wanted in (('1', text), ('2', call(check.program, ['run'], other)[1])):
        check.expect('replay of run %s of %s' % (run, name), ['replay', '--run', run], both, 0, wanted)


def examples(check: Check, folder: str) -> None:
    """Each NAME.json of the folder that has a NAME.outcome beside it."""
    for name in sorted(os.listdir(folder)):
        stem, ending = os.path.splitext(name)
        outcome = os.path.join(folder, stem + '.outcome')
        if ending != '.json' or not os.path.exists(outcome):
            continue
        with open(os.path.join(folder, name), 'rb') as document, open(outcome, 'rb') as wanted:
            world, text = document.read(), wanted.read()
        check.expect('run of ' + name, ['run'], world, 0, text)
        for words in KINDS:
            status, package, error = call(check.program, words, world)
            check.same('%s of %s' % (' '.join(words), name), (status, b'', error), (0, b'', b''))
            check.expect('replay of %s of %s' % (' '.join(words), name), ['replay'], package, 0, text)
            if words == ['record']:
                joined(check, name, world, package, text)


def changed(package: bytes, old: bytes, new: bytes) -> bytes:
    """The package with some of its bytes changed, and the digest of the changed ones."""
    body = package[:-32].replace(old, new)
    return body + hashlib.sha256(body).digest()


def recorded_replies(check: Check, folder: str) -> None:
    """The example pay.json as a package of recorded replies: it has no name in it,
    and it answers what was asked alone."""
    with open(os.path.join(folder, 'pay.json'), 'rb') as document:
        world = document.read()
    for words, name in zip(KINDS, (b'Ada', b'')):
        status, package, error = call(check.program, words, world)
        check.same(' '.join(words), (status, b'', error), (0, b'', b''))
        found = b'Ada' if b'Ada' in package else b''
        check.same('the name in what %s wrote' % ' '.join(words), (0, found, b''), (0, name, b''))
    for old, new, statement in ((b'> 2 ORDER BY team"', b'> 1 ORDER BY team"', 0),
                                (b'?" 3000', b'?" 3001', 1)):
        check.expect('a script that asks something else', ['replay'], changed(package, old, new), 9,
                     error=b'ldv: diverged: process 0 statement %d\n' % statement)
    check.expect('a script that asks nothing', ['replay'], changed(package, b'\nsql ', b'\n### '), 0,
                 b'outcome 1 0\n' + process(b'0'))


def main() -> None:
    if len(sys.argv) not in (2, 3):
        sys.exit(__doc__)
    program = os.path.abspath(sys.argv[1])
    if not os.access(program, os.X_OK):
        sys.exit('check_program.py: %s is no program' % program)
    check = Check(program)
    words_and_worlds(check)
    packages(check)
    generated(check)
    at_the_limits(check)
    runs_at_the_limits(check)
    streams(check)
    folder = sys.argv[2] if len(sys.argv) == 3 else os.path.join(ROOT, 'examples')
    examples(check, folder)
    recorded_replies(check, folder)
    print('the real program: %d calls, %d differ' % (check.calls, check.differ))
    sys.exit(1 if check.differ or not check.calls else 0)


if __name__ == '__main__':
    main()
