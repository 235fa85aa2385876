#!/usr/bin/env python3
"""Compares the documents with the tree that they speak of, and looks at its layout.

    python3 tools check_docs [--fill] [ROOT]

ROOT is the top of a checkout, by default that of this script. --fill first writes the map of crates in
docs/internals/ARCHITECTURE.md anew. Checked are

- crates.txt: that a crate comes after those that it stands on, that its sources, specs or proofs use each of
  these by a path, that no chain of crates is longer than eight, and that the folders of crates/ are the
  crates that it lists;
- the lines of sources and specs: that they have at most 110 columns, but for imports and attributes, which
  rt fmt lays out, and a few that have yet to be broken;
- the names of functions and definitions: that none is a bare participle or adjective, but for those that
  tools/bare_names.txt lists (check_names.py says which names are bare);
- the map of crates in docs/internals/ARCHITECTURE.md, which is made from crates.txt and the heads of the
  crates (crate_map.py), and that the entry function and the first definition are where a head says;
- its table of the kit's libraries against crates.txt, and that docs/internals/GUARANTEES.md names each of
  these among what is trusted, and in the table of each crate that uses it;
- the rooms of specs: that the sources and the specs of a crate cite no file of another one's specs/inner,
  that what is meaning stands in specs, and all else in specs/inner (spec_rooms.py says which is which);
- each relative link of each document, with its heading where it names one;
- the pages of docs/ that a program names, in a message, its help or a comment;
- the lengths of README.md, docs/internals/ARCHITECTURE.md and docs/internals/notes/gate.md, and that the
  index of a folder of docs/ has each of its pages;
- each path in a document that begins with a folder of this repository or with a crate, such as
  `crates/ldv_top/specs/Due.antt` or `ldv_top/specs/Due.antt`;
- the tables of docs/internals/DEFINITIONS.md: that each name is defined in the file of its row;
- the tables of docs/internals/GUARANTEES.md: that each crate is there, that the functions and types of the
  last cells are those of the crate, and that what stands in brackets behind a function is in its contract,
  as the name of a clause or as a definition that it cites, or is a field of such a definition;
- the manual page docs/ldv.1: that it has the commands of docs/COMMANDS.md, and its statuses with their
  messages;
- that CHANGELOG.md, README.md, CITATION.cff, the manual page and tools/pyproject.toml have one version;
- the figures that bench/figures.txt lists: that the documents have their words, and that each is the value of
  the results from which bench/README.md is made, and that these are of this version.

It prints a line for each difference, and ends with status 1 where there is one.
"""
from __future__ import annotations

import os
import re
import subprocess
import sys
from typing import Dict, Iterator, List, Optional, Set, Tuple, Union

from . import ROOT, check_names, crate_map, spec_rooms

CRATES = 'crates.txt'
ARCHITECTURE = 'docs/internals/ARCHITECTURE.md'
README = 'README.md'
DEFINITIONS = 'docs/internals/DEFINITIONS.md'
GUARANTEES = 'docs/internals/GUARANTEES.md'
COMMANDS = 'docs/COMMANDS.md'
MANUAL = 'docs/ldv.1'
CHANGELOG = 'CHANGELOG.md'
PROJECT = 'tools/pyproject.toml'
CITATION = 'CITATION.cff'
GATE = 'docs/internals/notes/gate.md'
# The lines that these documents have at most.
MOST_LINES = {README: 130, ARCHITECTURE: 350, GATE: 100}
INDEXES = ('docs', 'docs/internals')
FOLDERS = ('crates', 'docs', 'tools', 'tests', 'examples', 'bench', '.ci')
LINK = re.compile(r'\[[^\]\n]*\]\(([^)\s]+)\)')
CODE = re.compile(r'`([^`\n]+)`')
PATH = re.compile(r'(?<![\w./-])(?:%s)/[\w./+*-]*' % '|'.join(re.escape(f) for f in FOLDERS))
CRATE_PATH = re.compile(r'(?<![\w./-])\w+/(?:src|specs|proofs|must-fail)/[\w./+*-]*')
PAGE = re.compile(r'(?<![\w./-])docs/[\w/]+\.(?:md|1)(?:#[\w-]+)?')
PROGRAMS = ('.py', '.js', '.sh')
# A path with such a mark stands for several, or for one that a build makes.
PLACEHOLDER = re.compile(r'\*|\bNAME\b|/out\b|[A-Z]{3,}\b(?!\.md)')

# How many crates may stand on one another.
LONGEST = 8
# The libraries of which no clause depends, so that nothing is assumed of them.
UNASSUMED = ('thiserror',)

COMMENT = re.compile(r'^\s*(?://|--).*$', re.M)
# The first name of a path in antt, and in Rust.
USED = re.compile(r'\bRattle\.(\w+)|\b(\w+)::')

COLUMNS = 110
LAID_OUT = re.compile(r'\s*(?:(?:pub |ghost )?use |#!?\[)')

# The number of a line, its cells, and those of the head of its table.
Row = Tuple[int, List[str], List[str]]
# What COMMANDS or the manual page has, with its line: the words of a command, or a status and its message.
Listed = Dict[Union[str, Tuple[str, str]], int]


class Differences:
    """Prints each difference, and counts them."""

    def __init__(self) -> None:
        self.count = 0

    def add(self, document: str, line: int, text: str) -> None:
        self.count += 1
        print(f'{document}:{line}: {text}')


def read(root: str, name: str) -> str:
    with open(os.path.join(root, name), encoding='utf-8') as file:
        return file.read()


def exists(root: str, name: str) -> bool:
    return os.path.exists(os.path.join(root, name))


def documents(root: str) -> List[str]:
    """All documents of the checkout, but for what a build makes."""
    found = []
    for folder, folders, files in os.walk(root):
        folders[:] = sorted(f for f in folders if f not in ('.git', 'out'))
        found += [os.path.relpath(os.path.join(folder, f), root) for f in files if f.endswith('.md')]
    return sorted(found)


def parts_in(root: str) -> Dict[str, List[Tuple[int, str, List[str]]]]:
    """The parts of crates.txt by their headings: of each line its number, the crate and what it stands on."""
    parts: Dict[str, List[Tuple[int, str, List[str]]]] = {}
    for number, line in enumerate(read(root, CRATES).splitlines(), 1):
        if line.startswith('# '):
            heading = line[2:].strip()
        elif line.strip():
            name, _, uses = line.partition(':')
            parts.setdefault(heading, []).append((number, name.strip(), uses.split()))
    return parts


def crates_in(root: str) -> Dict[str, List[str]]:
    """Each crate of crates.txt with what it stands on, in their order."""
    return {name: uses for lines in parts_in(root).values() for _, name, uses in lines}


def tables(text: str) -> Iterator[Row]:
    """The tables of a document: each row as its line number, its cells and the cells of the table's head."""
    head: Optional[List[str]] = None
    for number, line in enumerate(text.splitlines(), 1):
        if not line.startswith('|'):
            head = None
            continue
        cells = [cell.strip() for cell in line.strip().strip('|').split('|')]
        if head is None:
            head = cells
        elif not set(''.join(cells)) <= set('-: '):
            yield number, cells, head


def codes(cell: str) -> List[str]:
    return CODE.findall(cell)


# ---- crates.txt

def files_of(root: str, crate: str, parts: Tuple[str, ...]) -> List[str]:
    """The files in Rust and in antt below some folders of a crate, as src and specs."""
    found = []
    for part in parts:
        for folder, folders, files in os.walk(os.path.join(root, 'crates', crate, part)):
            folders.sort()
            found += [os.path.relpath(os.path.join(folder, f), root) for f in sorted(files)
                      if f.endswith(('.rt', '.antt'))]
    return found


def used_by(root: str, crate: str) -> Set[str]:
    """The libraries that a crate names in the paths of its sources, specs and proofs."""
    text = '\n'.join(read(root, file) for file in files_of(root, crate, ('src', 'specs', 'proofs')))
    text = COMMENT.sub('', text)
    return {name for names in USED.findall(text) for name in names}


def check_list(root: str, differ: Differences) -> None:
    crates = crates_in(root)
    # Of each crate that came before, how long the longest chain is that ends with it.
    chains: Dict[str, int] = {}
    for number, name, uses in [line for lines in parts_in(root).values() for line in lines]:
        for use in uses:
            if use in crates and use not in chains:
                differ.add(CRATES, number, f'{name} comes before {use}')
        chains[name] = 1 + max((chains.get(use, 0) for use in uses), default=0)
        if chains[name] > LONGEST:
            differ.add(CRATES, number, f'{name} ends a chain of {chains[name]} crates')
        for use in sorted(set(uses) - used_by(root, name)):
            differ.add(CRATES, number, f'{name} uses no {use}')
    folders = {f for f in os.listdir(os.path.join(root, 'crates')) if exists(root, f'crates/{f}/src')}
    for name in sorted(folders ^ set(crates)):
        differ.add(CRATES, 1, f'{name} is '
                   + ('no crate of the list' if name in folders else 'no folder of crates/'))


# ---- lines

def longer_lines(text: str) -> Iterator[Tuple[int, int]]:
    """The lines that are too long, each by its number, with their lengths."""
    for number, line in enumerate(text.split('\n'), 1):
        if len(line) > COLUMNS and not LAID_OUT.match(line):
            yield number, len(line)


def check_lines(root: str, differ: Differences) -> None:
    for crate in crates_in(root):
        for file in files_of(root, crate, ('src', 'specs')):
            for number, length in longer_lines(read(root, file)):
                differ.add(file, number, f'a line of {length} columns')


# ---- the map of crates

def place(crate: str, path: str) -> str:
    """A file of the crate itself, or of another one whose name stands before it."""
    own = path.split('/')[0] in ('src', 'specs', 'proofs')
    return f'crates/{crate}/{path}' if own else f'crates/{path}'


def check_entry(root: str, crate: str, entry: str, differ: Differences) -> None:
    """The last code of an entry is a file, and those before it are functions that it defines."""
    words = codes(entry)
    if not words:
        return
    head, file = crate_map.root_file(root, crate), place(crate, words[-1])
    if not exists(root, file):
        differ.add(head, 1, f'there is no {file}')
        return
    text = read(root, file)
    for word in words[:-1]:
        if not re.search(r'\bfn %s\b' % re.escape(word.split('::')[-1]), text):
            differ.add(head, 1, f'{file} has no function {word}')


def check_first(root: str, crate: str, first: str, differ: Differences) -> None:
    """A definition is a file of the crate, or of the one whose name stands behind it."""
    words = codes(first)
    if words:
        file = place(words[1] if len(words) > 1 else crate, words[0])
        if not exists(root, file):
            differ.add(crate_map.root_file(root, crate), 1, f'there is no {file}')


def parts_of_map(root: str) -> crate_map.Parts:
    return {part: [(name, uses) for _, name, uses in lines] for part, lines in parts_in(root).items()}


def check_map(root: str, differ: Differences) -> None:
    """The map is what crates.txt and the heads of the crates make, and what these name is there."""
    for crate in crates_in(root):
        file = crate_map.root_file(root, crate)
        if not exists(root, file):
            differ.add(CRATES, 1, f'there is no {file}')
            return
        head = crate_map.head_of(read(root, file))
        if not head.what:
            differ.add(file, 1, 'no comment at its head says what the crate is')
        check_entry(root, crate, head.entry, differ)
        check_first(root, crate, head.first, differ)
    try:
        _, made, _ = crate_map.split(read(root, ARCHITECTURE))
    except ValueError as error:
        differ.add(ARCHITECTURE, 1, str(error))
        return
    if made != crate_map.map_of(root, parts_of_map(root)):
        differ.add(ARCHITECTURE, 1, 'the map of crates is stale: python3 tools check_docs --fill')


def fill(root: str) -> None:
    """Writes the map of crates anew."""
    before, _, after = crate_map.split(read(root, ARCHITECTURE))
    with open(os.path.join(root, ARCHITECTURE), 'w', encoding='utf-8') as file:
        file.write(before + crate_map.map_of(root, parts_of_map(root)) + after)


# ---- what crates cite

# A crate whose inner files a path of antt leads to.
INNER = re.compile(r'\bRattle\.(\w+)\.specs\.inner\b')

def check_inner(root: str, crates: Dict[str, List[str]], differ: Differences) -> None:
    """Only a crate itself cites its inner files, and proofs of others."""
    for crate in crates:
        for file in files_of(root, crate, ('src', 'specs')):
            for name in sorted(set(INNER.findall(COMMENT.sub('', read(root, file))))):
                if name != crate:
                    differ.add(file, 1, f'cites an inner file of {name}')


def check_rooms(root: str, crates: Dict[str, List[str]], differ: Differences) -> None:
    """Files of specs with a definition that is meaning stand in specs, all others in specs/inner."""
    for room in spec_rooms.rooms(root, list(crates)):
        if not room.is_right():
            belongs = ('specs: a definition of it is meaning' if room.meaning
                       else 'specs/inner: none of it is meaning')
            differ.add(room.file(), 1, f'belongs to {belongs}')


def check_crates(root: str, differ: Differences) -> None:
    check_list(root, differ)
    check_map(root, differ)
    check_inner(root, crates_in(root), differ)
    check_rooms(root, crates_in(root), differ)
    check_kit(crates_in(root), differ, root)


def check_kit(crates: Dict[str, List[str]], differ: Differences, root: str) -> None:
    """The table of the kit's libraries, and those that are named among what is trusted."""
    used: Dict[str, List[str]] = {}
    for crate, uses in crates.items():
        for use in uses:
            if use not in crates:
                used.setdefault(use, []).append(crate)
    listed = set()
    for number, cells, head in tables(read(root, ARCHITECTURE)):
        if head[0] != 'Library':
            continue
        library = codes(cells[0])[0]
        listed.add(library)
        if sorted(cells[-1].split()) != sorted(used.get(library, [])):
            differ.add(ARCHITECTURE, number, f'{library} is used by: {" ".join(used.get(library, []))}')
    for library in sorted(set(used) - listed):
        differ.add(ARCHITECTURE, 1, f'the library {library} is missing')
    trusted = read(root, GUARANTEES).partition('## Trusted')[2].partition('\n## ')[0]
    for library in sorted(set(used) - set(codes(trusted.replace('\n', ' ')))):
        differ.add(GUARANTEES, 1, f'the library {library} is missing among what is trusted')
    assumed = assumed_in(read(root, GUARANTEES))
    for library, users in sorted(used.items()):
        for crate in users:
            if library not in assumed.get(crate, set()) and library not in UNASSUMED:
                differ.add(GUARANTEES, 1, f'the table of {crate} assumes nothing of {library}')


def assumed_in(text: str) -> Dict[str, Set[str]]:
    """The names in the rows of each crate that say what is assumed."""
    found: Dict[str, Set[str]] = {}
    sections, kind = sections_in(text), ''
    for number, cells, _ in tables(text):
        kind = cells[0] or kind
        if kind == 'Assumed':
            found.setdefault(sections[number], set()).update(codes(cells[1]))
    return found


# ---- links and paths

def headings(text: str) -> Set[str]:
    """The anchors of a document's headings."""
    titles = re.findall(r'^#+ (.*)$', text, re.M)
    return {re.sub(r'[^\w\- ]', '', title.lower()).replace(' ', '-') for title in titles}


def check_link(root: str, document: str, number: int, target: str, differ: Differences) -> None:
    if re.match(r'[a-z]+:', target):
        return
    path, _, anchor = target.partition('#')
    file = os.path.normpath(os.path.join(os.path.dirname(document), path)) if path else document
    if not exists(root, file):
        differ.add(document, number, f'the link {target} leads nowhere')
    elif anchor and file.endswith('.md') and anchor not in headings(read(root, file)):
        differ.add(document, number, f'{file} has no heading {anchor}')


def check_paths(root: str, document: str, differ: Differences) -> None:
    for number, line in enumerate(read(root, document).splitlines(), 1):
        for target in LINK.findall(line):
            check_link(root, document, number, target, differ)
        rest = LINK.sub('', line)
        paths = PATH.findall(rest) + ['crates/' + path for path in CRATE_PATH.findall(rest)]
        for path in paths:
            path = path.rstrip('.')
            if not PLACEHOLDER.search(path) and '..' not in path and not exists(root, path):
                differ.add(document, number, f'there is no {path}')


def programs(root: str) -> List[str]:
    """The files whose texts may name a page, but for the tests of the tools and what a build makes."""
    found = [name for name in ('ldv', 'Makefile', '.ci/run') if exists(root, name)]
    for top in ('tools', 'bench', 'tests'):
        for folder, folders, files in os.walk(os.path.join(root, top)):
            inside = os.path.relpath(folder, root)
            folders[:] = sorted(f for f in folders if f != 'out' and (inside, f) != ('tools', 'tests'))
            found += [os.path.join(inside, file) for file in files if file.endswith(PROGRAMS)]
    return sorted(found)


def check_pages(root: str, differ: Differences) -> None:
    """The pages that programs name are there, each with the heading that is named."""
    for file in programs(root):
        for number, line in enumerate(read(root, file).splitlines(), 1):
            for page in PAGE.findall(line):
                check_link(root, file, number, os.path.relpath(page, os.path.dirname(file) or '.'), differ)


def check_lengths(root: str, differ: Differences) -> None:
    for name, most in MOST_LINES.items():
        count = len(read(root, name).splitlines())
        if count > most:
            differ.add(name, most + 1, f'{count} lines, and {most} are the most')


def check_indexes(root: str, differ: Differences) -> None:
    """The README of a folder leads to each page beside it."""
    for folder in INDEXES:
        index = folder + '/README.md'
        linked = {target.partition('#')[0] for target in LINK.findall(read(root, index))}
        for name in sorted(os.listdir(os.path.join(root, folder))):
            if name.endswith(('.md', '.1')) and name != 'README.md' and name not in linked:
                differ.add(index, 1, f'{name} is missing')


# ---- definitions

def check_definitions(root: str, differ: Differences) -> None:
    """A row's names are defined in the file of its last cell,
    in the folder that its section's heading names."""
    text = read(root, DEFINITIONS)
    folders = {}
    folder = ''
    for number, line in enumerate(text.splitlines(), 1):
        if line.startswith('#'):
            found = re.search(r'`crates/([\w/]+)`', line)
            folder = found.group(1) if found else ''
        folders[number] = folder
    for number, cells, head in tables(text):
        if head[0] != 'Definition':
            continue
        files = [f if '/' in f else f'{folders[number]}/{f}' for f in codes(cells[-1])]
        missing = [f for f in files if not exists(root, 'crates/' + f)]
        for file in missing:
            differ.add(DEFINITIONS, number, f'there is no crates/{file}')
        defined = '\n'.join(read(root, 'crates/' + f) for f in files if f not in missing)
        for name in codes(cells[0]):
            if not re.search(r'(?:^|\s)%s (?::|\(|\{)' % re.escape(name), defined, re.M):
                differ.add(DEFINITIONS, number, f'{name} is not defined in {" ".join(files)}')


# ---- guarantees

SECTION = re.compile(r'#+ \[`(\w+)`\]')
# A function or a type, with the clauses of its contract or the definitions that this cites.
PROMISE = re.compile(r'`(?:(\w+)::)?(\w+)`(?: \(((?:`\w+`(?:, )?)+)\))?')
SIGNATURE = re.compile(r'( *)(?:pub(?:\([^)]*\))? )?(?:const )?fn (\w+)')
TYPE = re.compile(r'^(?:pub )?(?:struct|enum|trait|type) (\w+)', re.M)
RECORD = re.compile(r'^pub record (\w+).*?(?=^\S|\Z)', re.M | re.S)
FIELD = re.compile(r'^  pub (\w+) :', re.M)


def contracts_in(text: str) -> Iterator[Tuple[str, str]]:
    """The functions of a source, each with the text from its signature to its body."""
    lines = text.splitlines()
    for number, line in enumerate(lines):
        found = SIGNATURE.match(line)
        if not found:
            continue
        end = number + 1
        ends = re.compile(found[1] + r'[{}]|.*\bfn ')
        while end < len(lines) and not lines[end - 1].endswith((') {', '> {')) and not ends.match(lines[end]):
            end += 1
        yield found[2], '\n'.join(lines[number:end])


def promises_of(root: str, crate: str) -> Tuple[Dict[str, str], Set[str], Dict[str, Set[str]]]:
    """The contracts of a crate's functions by name, its types, and the fields of its records of specs."""
    contracts: Dict[str, str] = {}
    types: Set[str] = set()
    for file in files_of(root, crate, ('src',)):
        text = read(root, file)
        types |= set(TYPE.findall(text))
        for name, contract in contracts_in(text):
            contracts[name] = contracts.get(name, '') + '\n' + contract
    fields: Dict[str, Set[str]] = {}
    for file in files_of(root, crate, ('specs',)):
        for record in RECORD.finditer(read(root, file)):
            fields[record[1]] = set(FIELD.findall(record[0]))
    return contracts, types, fields


def check_promise(contract: str, fields: Dict[str, Set[str]], names: List[str]) -> List[str]:
    """The names that are no clause of a contract, nothing that it cites, and no field of that."""
    words = set(re.findall(r'\w+', contract))
    known = words.union(*(fields[word] for word in words if word in fields))
    return [name for name in names if name not in known]


def sections_in(text: str) -> Dict[int, str]:
    """The lines of GUARANTEES by their numbers, each with the crate that it is about, if any."""
    crate, sections = '', {}
    for number, line in enumerate(text.splitlines(), 1):
        if line.startswith('#'):
            found = SECTION.match(line)
            crate = found[1] if found else ''
        sections[number] = crate
    return sections


def check_guarantees(root: str, differ: Differences) -> None:
    text = read(root, GUARANTEES)
    sections = sections_in(text)
    for name in sorted(set(crates_in(root)) - set(codes(text.replace('\n', ' ')))):
        differ.add(GUARANTEES, 1, f'{name} is missing')
    known = {name: promises_of(root, name) for name in set(sections.values()) & set(crates_in(root))}
    for number, cells, _ in tables(text):
        if sections[number] not in known or len(cells) != 3:
            continue
        contracts, types, fields = known[sections[number]]
        for type_name, name, names in PROMISE.findall(cells[2]):
            for missing in [n for n in (type_name, name) if n and n not in types and n not in contracts]:
                differ.add(GUARANTEES, number, f'{sections[number]} has no {missing}')
            for missing in check_promise(contracts.get(name, ''), fields, codes(names)):
                differ.add(GUARANTEES, number, f'the contract of {name} has no {missing}')


# ---- the manual page

def listed_commands(text: str) -> Tuple[Listed, Listed]:
    """The words of each command in the tables of words,
    and each status with its message in those of statuses; both with their line."""
    commands: Listed = {}
    statuses: Listed = {}
    for number, cells, head in tables(text):
        if head[0] == 'Words':
            commands.update((words, number) for words in codes(cells[0]))
        elif head[0] == 'Status' and head[1].startswith('Message'):
            messages = [message for message in codes(cells[1]) if message.startswith('ldv:')]
            statuses[cells[0], ''.join(messages)] = number
    return commands, statuses


def manual_commands(text: str) -> Tuple[Listed, Listed]:
    """The same of a manual page: the items of its lists that begin with a command or with a number."""
    commands: Listed = {}
    statuses: Listed = {}
    for number, line in enumerate(text.splitlines(), 1):
        if line.startswith('.It Cm '):
            words = re.sub(r'\b(?:Cm|Ar) ', '', line[len('.It '):])
            commands[re.sub(r'\bFl (?=-)', '-', words)] = number
        found = re.fullmatch(r'\.It (\d+(?:, \d+)*)(?: Li (.*))?', line)
        if found:
            statuses[found[1], found[2] or ''] = number
    return commands, statuses


def check_manual(root: str, differ: Differences) -> None:
    listed, manual = listed_commands(read(root, COMMANDS)), manual_commands(read(root, MANUAL))
    for what, here, there in zip(('command', 'status'), listed, manual):
        for name in sorted(set(here) ^ set(there)):
            shown = name if isinstance(name, str) else ' '.join(name).strip()
            if name in here:
                differ.add(COMMANDS, here[name], f'{MANUAL} has no {what} {shown}')
            else:
                differ.add(MANUAL, there[name], f'{COMMANDS} has no {what} {shown}')


# ---- the version

# Where each file has it.
VERSION = {
    CHANGELOG: re.compile(r'^## (\d+\.\d+\.\d+)$', re.M),
    README: re.compile(r'\bversion (\d+\.\d+\.\d+)\b'),
    MANUAL: re.compile(r'^Version (\d+\.\d+\.\d+)\.$', re.M),
    PROJECT: re.compile(r'^version = "(\d+\.\d+\.\d+)"$', re.M),
    CITATION: re.compile(r'^version: (\d+\.\d+\.\d+)$', re.M),
}


def check_version(root: str, differ: Differences) -> None:
    """The first version that each file names is the one at the head of the changelog."""
    found = {name: form.search(read(root, name)) for name, form in VERSION.items()}
    due = found[CHANGELOG]
    for name, version in found.items():
        if due is None or version is None:
            differ.add(name, 1, 'there is no version')
        elif version[1] != due[1]:
            differ.add(name, read(root, name)[:version.start()].count('\n') + 1,
                       f'version {version[1]}, and {due[1]} in {CHANGELOG}')


def check_figures(root: str, differ: Differences) -> None:
    """The figures of documents beside the results of this version."""
    version = VERSION[CITATION].search(read(root, CITATION))
    words = [sys.executable, os.path.join(ROOT, 'bench', 'figures.py'), root, version[1] if version else '']
    told = subprocess.run(words, stdout=subprocess.PIPE, check=True, encoding='utf-8').stdout
    for document, line, text in (each.split(':', 2) for each in told.splitlines()):
        differ.add(document, int(line), text.strip())


def main(words: List[str]) -> int:
    rest = [word for word in words if word != '--fill']
    root = rest[0] if rest else ROOT
    if '--fill' in words:
        fill(root)
    differ = Differences()
    check_crates(root, differ)
    check_lines(root, differ)
    check_names.check_names(root, differ.add)
    for document in documents(root):
        check_paths(root, document, differ)
    check_pages(root, differ)
    check_lengths(root, differ)
    check_indexes(root, differ)
    check_definitions(root, differ)
    check_guarantees(root, differ)
    check_manual(root, differ)
    check_version(root, differ)
    check_figures(root, differ)
    return 1 if differ.count else 0


if __name__ == '__main__':
    sys.exit(main(sys.argv[1:]))
