"""The map of crates in docs/internals/ARCHITECTURE.md, made from crates.txt and the heads of the crates.

The head of a crate is the `//!` comment of its lib.rt or main.rt. Its first sentence says what the crate
is, and its last paragraph where to begin: "Entry: `f` in `src/m.rt`. Read first: `specs/D.antt` of `other`.",
either part of which may be missing. The map is the boxes and the table between two marks; check_docs.py
compares it, and writes it with --fill.
"""
from __future__ import annotations

import os
import re
from typing import Dict, Iterator, List, NamedTuple, Tuple

BEGIN = '<!-- made by tools/checks/check_docs.py --fill -->'
END = '<!-- end of what is made -->'
WIDTH = 69
# Nothing stands on the crates of this part.
LAST = 'Cases and tests'

# A heading of crates.txt, with each crate below it and what it stands on.
Parts = Dict[str, List[Tuple[str, List[str]]]]


class Head(NamedTuple):
    """What the head of a crate says: what it is, and its entry and first definition where it names them."""

    what: str
    entry: str
    first: str


def root_file(root: str, crate: str) -> str:
    """The root of a crate: that of a library or of a program."""
    library = f'crates/{crate}/src/lib.rt'
    return library if os.path.exists(os.path.join(root, library)) else f'crates/{crate}/src/main.rt'


def paragraphs(text: str) -> List[str]:
    """The paragraphs of the comment at the head of a source, each in one line."""
    found: List[List[str]] = [[]]
    for line in text.splitlines():
        if not line.startswith('//!'):
            break
        words = line[3:].strip()
        if words:
            found[-1].append(words)
        elif found[-1]:
            found.append([])
    return [' '.join(lines) for lines in found if lines]


def head_of(text: str) -> Head:
    said = paragraphs(text) or ['']
    what = re.split(r'(?<=[.]) (?=[A-Z])', said[0])[0].rstrip('.')
    entry = re.search(r'Entry: (.*?)\.(?= Read first|$)', said[-1])
    first = re.search(r'Read first: (.*?)\.$', said[-1])
    return Head(what[:1].lower() + what[1:] if not re.match(r'[A-Z]{2}', what) else what,
                entry[1] if entry else '', first[1] if first else '')


def boxes(parts: Parts) -> Iterator[str]:
    """The boxes of crates, the highest first, and beside them the one on which nothing stands."""
    names = [name for name in reversed(parts) if name != LAST]
    for number, name in enumerate(names):
        left, right = ('├', '┤') if number else ('┌', '┐')
        yield f'    {left}' + f'─ {name} '.ljust(WIDTH, '─') + right
        yield from rows([crate for crate, _ in parts[name]])
    yield '    └' + '─' * WIDTH + '┘'
    if LAST in parts:
        yield '    ┌' + f'─ {LAST} '.ljust(WIDTH, '─') + '┐'
        yield from rows([crate for crate, _ in parts[LAST]])
        yield '    └' + '─' * WIDTH + '┘'


def rows(crates: List[str]) -> Iterator[str]:
    line = ''
    for crate in crates:
        word = crate.ljust(16)
        if len(line) + len(word) > WIDTH - 1:
            yield '    │ ' + line.ljust(WIDTH - 1) + '│'
            line = ''
        line += word
    yield '    │ ' + line.ljust(WIDTH - 1) + '│'


def table(root: str, parts: Parts) -> Iterator[str]:
    own = {crate for lines in parts.values() for crate, _ in lines}
    yield '| Crate | What it is | Entry | Read first | Stands on |'
    yield '|---|---|---|---|---|'
    for lines in parts.values():
        for crate, uses in lines:
            with open(os.path.join(root, root_file(root, crate)), encoding='utf-8') as file:
                head = head_of(file.read())
            on = ' '.join(use for use in uses if use in own)
            yield f'| `{crate}` | {head.what} | {head.entry} | {head.first} | {on} |'


def map_of(root: str, parts: Parts) -> str:
    return '\n'.join([BEGIN, '', *boxes(parts), '', *table(root, parts), '', END])


def split(text: str) -> Tuple[str, str, str]:
    """A document before, within and behind the marks."""
    before, begin, rest = text.partition(BEGIN)
    within, end, after = rest.partition(END)
    if not begin or not end:
        raise ValueError(f'there is no {END if begin else BEGIN}')
    return before, begin + within + end, after
