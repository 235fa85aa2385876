#!/usr/bin/env python3
"""Plants a wrong body for each exit of the program, and says of each whether its contract refuses it.

    python3 tools wrong_exits [CHECK ..]

The exit of a command that has its input is chosen in one function, `write_response` of crates/ldv_top. A
copy of the crate has it again for each exit but NoMemory: where bytes are to be written, such a copy of
the function writes none and ends with its exit, whatever was asked. One more copy changes nothing, and
has to be proved. A single check of these functions judges them, and no other function of the crate is
proved again.

Memory may run out in any call, so no contract refuses NoMemory. The cases show that it doesn't come.

CHECK is a program that is called in the folder of the copied crate with `--only FUNCTION` for each function
(default: `rt check`). The libraries below have to be built, as they are after `rt ci`; where one isn't, it
says so and ends.

It prints a line for each exit, and ends with status 1 where a wrong body is not refused.
"""
from __future__ import annotations

import os
import re
import shutil
import subprocess
import sys
import tempfile
from typing import Mapping

from . import ROOT

CRATE = 'ldv_top'
# The most seconds that the check may take; two minutes are usual.
LIMIT = 1800
FUNCTION = 'write_response'
WRITTEN = 'Response::Written(bytes) => write_output(sink, bytes.as_slice()),'
UNCHANGED = 'unchanged'
# What a check says of a function that it can't judge, whatever its contract is.
UNCOVERED = 'the borrow checker does not cover this function'

# What stands in place of the bytes that are to be written.
WRONG = {
    'Done': 'Exit::Done',
    'Usage': 'Exit::Usage',
    'ReadFault': 'Exit::ReadFault',
    'WriteFault': 'Exit::WriteFault',
    'TooLong': 'Exit::TooLong',
    'NotWorld': 'Exit::NotWorld(world_json::WorldFault::NotJson)',
    'NotEnded': 'Exit::NotEnded { steps: 1 }',
    'Damaged': 'Exit::Damaged(package_layout::DamageKind::Form)',
    'Diverged': 'Exit::Diverged { process: run_model::ProcName { '
                'parts: ldv_value::Parts::new(bytes.allocator()) }, index: 0 }',
    'NoSuch': 'Exit::NoSuch',
    'Clash': 'match ldv_value::Utf8::of(bytes.allocator(), "t") { '
             'Ok(name) => Exit::Clash('
             'joined_data::Clash { kind: joined_data::ClashKind::Table, name, row: 0 }), '
             'Err(_) => Exit::NoMemory }',
    'PackageTooLong': 'Exit::PackageTooLong',
    'NotPrivate': 'Exit::NotPrivate',
    'NotProv': 'Exit::NotProv',
}


def read(*path: str) -> str:
    with open(os.path.join(ROOT, 'crates', CRATE, *path), encoding='utf-8') as file:
        return file.read()


def exits() -> list[str]:
    """The exits that the program has, as its type lists them."""
    body = re.search(r'pub enum Exit \{\n(.*?)\n\}', read('src', 'exit.rt'), re.S)
    if body is None:
        sys.exit('wrong_exits: there is no enum Exit')
    return re.findall(r'^    (\w+)', body[1], re.M)


def name_of(exit: str) -> str:
    """The name of the function that always ends with this exit."""
    return FUNCTION + re.sub('([A-Z])', r'_\1', exit).lower()


def planted(source: str) -> str:
    """The source with the function once more for each exit, and once as it is."""
    found = re.search(r'^fn %s<.*?^\}\n' % FUNCTION, source, re.S | re.M)
    if not found or found[0].count(WRITTEN) != 1:
        sys.exit('wrong_exits: %s of %s has another form: mend WRITTEN' % (FUNCTION, CRATE))
    copies = [found[0].replace(FUNCTION, FUNCTION + '_' + UNCHANGED, 1)]
    for exit, wrong in WRONG.items():
        body = found[0].replace(WRITTEN, 'Response::Written(bytes) => { let _ = &bytes; %s }' % wrong)
        copies.append(body.replace(FUNCTION, name_of(exit), 1))
    return '\n'.join([source, *copies])


def link(source: str, target: str) -> None:
    """The same file at another place, or a copy of it on another file system."""
    try:
        os.link(source, target)
    except OSError:
        shutil.copy2(source, target)


def copy_into(top: str) -> str:
    """A copy of the crate with the planted functions, over the libraries of this checkout. rt wants all
    crates below one folder, and follows no link out of it."""
    shutil.copy(os.path.join(ROOT, 'crates.txt'), top)
    crates = os.path.join(top, 'crates')
    os.mkdir(crates)
    for name in os.listdir(os.path.join(ROOT, 'crates')):
        if name != CRATE:
            shutil.copytree(os.path.join(ROOT, 'crates', name), os.path.join(crates, name),
                            copy_function=link, ignore=shutil.ignore_patterns('incremental', 'data'))
    copy = os.path.join(crates, CRATE)
    for part in ('src', 'specs', 'proofs'):
        shutil.copytree(os.path.join(ROOT, 'crates', CRATE, part), os.path.join(copy, part))
    with open(os.path.join(copy, 'src', 'top.rt'), 'w', encoding='utf-8') as file:
        file.write(planted(read('src', 'top.rt')))
    return copy


# A program with the top of a checkout and a crate as its words. `rt ci` leaves each library without the sum
# of what it was built of, and `rt check` would build such a library once more, with all its proofs. The
# program writes that sum, and prints the libraries below the crate that aren't built.
MARKING = """
import os, sys
import rtlib
for crate in rtlib.crates_below(sys.argv[1]):
    mark = os.path.join(crate.folder, 'out', 'rlib', 'stamp')
    if os.path.isdir(crate.rlib) and not os.path.exists(mark):
        with open(mark, 'w', encoding='utf-8') as file:
            file.write(crate.stamp())
    if crate.name == sys.argv[2]:
        print(*(below.name for below in crate.below() if not below.is_built()))
"""


def mark_built(top: str) -> None:
    """Has `rt check` take the libraries of this checkout in the copy below `top`."""
    rt = shutil.which('rt')
    if rt is None:
        sys.exit('wrong_exits: there is no rt')
    # rt's own module lies beside it.
    beside = {**os.environ, 'PYTHONPATH': os.path.dirname(os.path.realpath(rt))}
    words = [sys.executable, '-c', MARKING, top, CRATE]
    ran = subprocess.run(words, env=beside, stdout=subprocess.PIPE, check=True, encoding='utf-8')
    lacking = ran.stdout.strip()
    if lacking:
        sys.exit('wrong_exits: these libraries are not built, as they are after `rt ci`: ' + lacking)


def checked(words: list[str]) -> str:
    """What the check of the planted functions printed."""
    with tempfile.TemporaryDirectory(prefix='wrong-exits-') as top:
        folder = copy_into(top)
        mark_built(top)
        names = [FUNCTION + '_' + UNCHANGED, *map(name_of, WRONG)]
        only = [word for name in names for word in ('--only', 'top::' + name)]
        try:
            ran = subprocess.run([*(words or ['rt', 'check']), *only], cwd=folder, stdout=subprocess.PIPE,
                                 stderr=subprocess.STDOUT, encoding='utf-8', errors='replace', timeout=LIMIT)
        except subprocess.TimeoutExpired:
            sys.exit('wrong_exits: the check took more than %d seconds' % LIMIT)
    return ran.stdout


def verdicts(said: str) -> dict[str, str]:
    """The verdict on each function that a check names."""
    return dict(re.findall(r'^fn (?:\w+::)*(%s\w*): (.*)$' % FUNCTION, said, re.M))


# That a goal of the function's own clause stays open is a refusal; that a callee isn't proved is none.
REFUSED = re.compile(r'not proved$|no proof: expected answers in .*; `search` did not prove `returns')


def judge(verdict: Mapping[str, str]) -> bool:
    """Prints a line for each exit. Whether each wrong body was refused, and the unchanged one proved."""
    well = verdict.get(FUNCTION + '_' + UNCHANGED) == 'proved'
    if not well:
        print('wrong_exits: %s isn\'t proved where nothing is changed' % FUNCTION)
    for exit in exits():
        if exit not in WRONG:
            continue
        got = verdict.get(name_of(exit), 'not judged')
        refused = REFUSED.match(got) is not None
        print('  %s always: %s' % (exit, 'refused' if refused else got.upper()))
        well = well and refused
    return well


def main(words: list[str]) -> int:
    if words[:1] in (['-h'], ['--help']):
        print((__doc__ or '').strip())
        return 0
    lacking = [exit for exit in exits() if exit not in WRONG and exit != 'NoMemory']
    if lacking:
        sys.exit('wrong_exits: no wrong body for %s' % ', '.join(lacking))
    said = checked(words)
    verdict = verdicts(said)
    if not verdict or UNCOVERED in said:
        print(said[-3000:])
        sys.exit('wrong_exits: the check of %s judged no contract' % CRATE)
    well = judge(verdict)
    print('wrong exits: %d, %s' % (len(WRONG), 'each refused' if well else 'NOT each refused'))
    return 0 if well else 1


if __name__ == '__main__':
    sys.exit(main(sys.argv[1:]))
