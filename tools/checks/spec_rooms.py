"""Which files of specs/ are what a crate means, and which mirror its code.

A definition is meaning if another crate's sources or specs cite it, if the contract of a public call does,
or if another such definition of the crate is made of it. Everything else says how the code keeps its data or
goes on its way. A file with a definition that is meaning stands in specs/, all others in specs/inner. Public
are the functions, traits and types that the root of a library brings out by `pub use`, with the methods of
these types. Of the implementation of `Model` for a public type its `Value` is what callers see; the view and
the invariant are not, unless the type has public fields or no `Value` of its own. A program has no public
calls; there what its head says to read first is meaning.
"""
from __future__ import annotations

import os
import re
from typing import Dict, Iterator, List, NamedTuple, Set, Tuple

from . import crate_map

# A file of specs by its path below specs/, with dots and without its ending: `Sets`, or `inner.Marks`.
Module = str

# The lists of modules, and the names of types that come from the sources: neither is a definition.
LISTS = ('Lib', 'inner', 'Types')

COMMENT = re.compile(r'^\s*(?://|--).*$', re.M)
USE = re.compile(r'\buse Rattle\.(\w+)\.specs\.((?:[a-z]\w*\.)*[A-Z]\w*)'
                 r'(?:\.\{([^}]*)\}|\.([^\s.{;]+))?(?: as (\w+))?')
PATH = re.compile(r'\bRattle\.(\w+)\.specs\.((?:[a-z]\w*\.)*[A-Z]\w*)')
BROUGHT_OUT = re.compile(r'^pub use ([\w:]+)(?:::\{([^}]*)\})?;', re.M)
CLAUSE = re.compile(r'\s*(?:requires|ensures|decreases|invariant)\b')
WORD = re.compile(r'[^\s(){}\[\],.;]+')
WHOLE = re.compile(r'\bRattle\.(\w+)\.specs\.((?:[a-z]\w*\.)*[A-Z]\w*)\.([^\s.{(),;]+)')
# The first line of a definition, and that of a constructor.
DEFINED = re.compile(r' *(?:pub )?(?:(?:abbrev|unfoldable|opaque|record|data|ruleset|calculation) )+(?:pub )?'
                     r'(?:(?:record|data|ruleset|op) )*([^\s({]+)|pub ([^\s({]+) :')
CONSTRUCTOR = re.compile(r'  (?:pub )?([^\s({]+) :')
# In place of a name: all names of a module.
ALL = '*'
ITEM = re.compile(r'(?P<blanks> *)(?P<public>pub )?(?:pub\([^)]*\) )?(?:const )?(?:unsafe )?'
                  r'(?P<kind>fn|trait|struct|enum|impl)\b(?P<rest>.*)')


class Item(NamedTuple):
    """A function, trait, type or implementation, with its text from its head to its end."""

    kind: str
    public: bool
    name: str
    of_trait: str
    text: str


def read(path: str) -> str:
    with open(path, encoding='utf-8') as file:
        return file.read()


def specs_of(root: str, crate: str) -> Dict[Module, str]:
    """The files of a crate's specs by their modules, each without its comments."""
    top = os.path.join(root, 'crates', crate, 'specs')
    found = {}
    for folder, folders, files in os.walk(top):
        folders.sort()
        for file in sorted(files):
            if file.endswith('.antt'):
                path = os.path.join(folder, file)
                module = os.path.relpath(path, top)[:-len('.antt')].replace(os.sep, '.')
                found[module] = COMMENT.sub('', read(path))
    return found


def sources_of(root: str, crate: str) -> Dict[str, str]:
    """The sources of a crate by their modules, each without its comments; the root is the empty name."""
    top = os.path.join(root, 'crates', crate, 'src')
    found = {}
    for folder, folders, files in os.walk(top):
        folders.sort()
        for file in sorted(files):
            if file.endswith('.rt'):
                path = os.path.join(folder, file)
                module = os.path.relpath(path, top)[:-len('.rt')].replace(os.sep, '::')
                found['' if module in ('lib', 'main') else module] = COMMENT.sub('', read(path))
    return found


def brought_out(source: str) -> Set[Tuple[str, str]]:
    """What the root of a library brings out, as a module and a name in it."""
    found = set()
    for path, names in BROUGHT_OUT.findall(source):
        if names:
            for name in names.split(','):
                if name.strip():
                    found.add((path, name.split(' as ')[0].strip()))
        else:
            module, _, name = path.rpartition('::')
            found.add((module, name))
    return found


def without_generics(text: str) -> str:
    """A text without what stands in angle brackets."""
    out, depth = [], 0
    for at, sign in enumerate(text):
        if sign == '<':
            depth += 1
        elif sign == '>' and text[at - 1:at] != '-':
            depth -= 1
        elif depth == 0:
            out.append(sign)
    return ''.join(out)


def named_item(kind: str, rest: str) -> Tuple[str, str]:
    """The name of an item, and the trait that it implements, if it does."""
    plain = without_generics(rest)
    if kind != 'impl':
        found = re.match(r'\s*(\w+)', plain)
        return (found[1] if found else ''), ''
    head = plain.split('{')[0].split(' where ')[0]
    trait, joined, name = head.rpartition(' for ')
    return name.strip().split('::')[-1].lstrip('&').strip(), trait.strip().split('::')[-1] if joined else ''


def items_in(text: str, indent: int = 0) -> Iterator[Item]:
    """The items of a source at one indentation, as rt fmt lays them out."""
    lines = text.split('\n')
    at = 0
    while at < len(lines):
        found = ITEM.match(lines[at])
        if not found or len(found['blanks']) != indent:
            at += 1
            continue
        end = at
        close = ' ' * indent + '}'
        while end + 1 < len(lines) and not lines[end].startswith(close) and not (
                lines[end].rstrip().endswith((';', '}')) and not lines[end].startswith(' ' * (indent + 1))):
            end += 1
        name, trait = named_item(found['kind'], found['rest'])
        yield Item(found['kind'], bool(found['public']), name, trait, '\n'.join(lines[at:end + 1]))
        at = end + 1


def contract_of(function: str) -> str:
    """The clauses of a function."""
    lines = function.split('\n')
    blanks = len(lines[0]) - len(lines[0].lstrip())
    clauses: List[str] = []
    for line in lines[1:]:
        if line.startswith(' ' * blanks + '{') or line.startswith(' ' * blanks + '}'):
            break
        if clauses or CLAUSE.match(line):
            clauses.append(line)
    return '\n'.join(clauses)


def told_of_impl(item: Item, has_fields: bool) -> Iterator[str]:
    """What an implementation for a public type tells callers."""
    if item.of_trait == 'Model':
        value = re.search(r'ghost Value = \{(.*?)\};', item.text, re.S)
        yield value[1] if value and not has_fields else item.text.partition('ghost Value')[2] or item.text
        return
    for part in items_in(item.text, 4):
        if part.kind == 'fn' and (part.public or item.of_trait):
            yield contract_of(part.text)
    if item.of_trait:
        yield '\n'.join(re.findall(r'^    ghost (?!use\b)[^;]*;', item.text, re.M))


def told_by(root: str, crate: str) -> Iterator[Tuple[str, str]]:
    """What a crate tells callers, piece by piece, each with the source that it stands in."""
    sources = sources_of(root, crate)
    out = brought_out(sources[''])
    items = {module: list(items_in(source)) for module, source in sources.items()}
    types = {item.name for module, found in items.items() for item in found
             if item.kind in ('struct', 'enum', 'trait') and (module, item.name) in out}
    own_traits = {item.name for found in items.values() for item in found if item.kind == 'trait'}
    fields = {item.name for found in items.values() for item in found
              if item.kind == 'struct' and re.search(r'^    pub \w+:', item.text, re.M)}
    for module, found in items.items():
        for item in found:
            if item.kind == 'fn' and (module, item.name) in out:
                yield sources[module], contract_of(item.text)
            elif item.kind == 'trait' and item.name in types:
                yield sources[module], item.text
            elif item.kind == 'impl' and item.name in types and (
                    item.of_trait in types or item.of_trait not in own_traits):
                for told in told_of_impl(item, item.name in fields):
                    yield sources[module], told


class Import(NamedTuple):
    """What a text uses of a module of specs: the names in it, and the words by which the text calls them."""

    crate: str
    module: Module
    names: Dict[str, str]


def imports_in(text: str) -> Iterator[Import]:
    """The modules of specs that a text uses. A module under a name of its own stands for all its names."""
    for crate, module, names, name, alias in USE.findall(text):
        if names:
            called = [part.split(' as ') for part in names.split(',') if part.strip()]
            yield Import(crate, module, {words[-1].strip(): words[0].strip() for words in called})
        elif name:
            yield Import(crate, module, {alias or name: name})
        else:
            yield Import(crate, module, {alias or module.split('.')[-1]: ALL})


def words_of(text: str) -> Set[str]:
    """The words of a text."""
    return set(WORD.findall(text))


def is_used(name: str, words: Set[str]) -> bool:
    """A name with places for its arguments is used where the words between these are."""
    return name in words or '◌' in name and all(part in words for part in name.split('◌') if part)


def definitions_in(text: str) -> Dict[str, str]:
    """The definitions of a file of specs by their names, constructors too, each with its text."""
    texts: Dict[str, List[str]] = {}
    names: Dict[str, str] = {}
    current = ''
    for line in text.split('\n'):
        found = DEFINED.match(line)
        if found:
            current = found[1] or found[2]
        elif re.match(r'\S', line):
            word = WORD.match(line)
            current = names.get(word[0] if word else '', current)
        if not current or re.match(r'(?:pub )?use ', line):
            continue
        names.setdefault(current, current)
        texts.setdefault(current, []).append(line)
        constructor = CONSTRUCTOR.match(line)
        if constructor and re.match(r'(?:pub )?data ', texts[current][0]):
            names[constructor[1]] = current
    return {name: '\n'.join(texts[own]) for name, own in names.items()}


Definition = Tuple[Module, str]


class Specs:
    """The specs of a crate: its definitions, and of each what it is made of in the crate."""

    def __init__(self, root: str, crate: str) -> None:
        self.files = specs_of(root, crate)
        self.definitions = {module: definitions_in(text) for module, text in self.files.items()}
        self.imports = {module: [each for each in imports_in(text) if each.crate == crate]
                        for module, text in self.files.items()}

    def named(self, module: Module, name: str) -> Iterator[Definition]:
        """A name of a module, or all of them."""
        if name == ALL:
            yield from ((module, each) for each in self.definitions.get(module, {}))
        else:
            yield module, name

    def cited(self, text: str, imports: List[Import]) -> Iterator[Definition]:
        """The definitions of the crate that a text cites by some imports, or by a whole path."""
        words = words_of(text)
        for each in imports:
            for called, name in each.names.items():
                if is_used(called, words):
                    yield from self.named(each.module, name)

    def made_of(self, definition: Definition) -> Iterator[Definition]:
        module, name = definition
        text = self.definitions.get(module, {}).get(name, '')
        words = words_of(text)
        yield from ((module, other) for other in self.definitions.get(module, {}) if is_used(other, words))
        yield from self.cited(text, self.imports.get(module, []))

    def closed(self, found: Set[Definition]) -> Set[Definition]:
        """Definitions, and all that they are made of."""
        new = sorted(found)
        while new:
            for other in self.made_of(new.pop()):
                if other not in found:
                    found.add(other)
                    new.append(other)
        return found


def whole_paths(text: str, crate: str) -> Iterator[Import]:
    """The definitions that a text names by a whole path where it uses them."""
    for name, module, last in WHOLE.findall(text):
        if name == crate:
            yield Import(name, module, {last: last})


def meaning_of(root: str, crates: List[str]) -> Dict[str, Set[Definition]]:
    """Of each crate the definitions that are what it means."""
    specs = {crate: Specs(root, crate) for crate in crates}
    meaning: Dict[str, Set[Definition]] = {crate: set() for crate in crates}
    for crate in crates:
        for text in [*sources_of(root, crate).values(), *specs[crate].files.values()]:
            for each in imports_in(text):
                if each.crate != crate and each.crate in specs:
                    for name in each.names.values():
                        meaning[each.crate].update(specs[each.crate].named(each.module, name))
        for source, told in told_by(root, crate):
            own = [each for each in [*imports_in(source), *whole_paths(told, crate)] if each.crate == crate]
            meaning[crate].update(specs[crate].cited(told, own))
        for module in first_of_program(root, crate):
            meaning[crate].update(specs[crate].named(module, ALL))
    return {crate: specs[crate].closed(found) for crate, found in meaning.items()}


def first_of_program(root: str, crate: str) -> List[Module]:
    """What the head of a program says to read first, if that is a file of its own."""
    file = os.path.join(root, crate_map.root_file(root, crate))
    found = re.fullmatch(r'`specs/([\w/]+)\.antt`', crate_map.head_of(read(file)).first)
    return [found[1].replace('/', '.')] if found and file.endswith('main.rt') else []


class Room(NamedTuple):
    """A file of specs, with how many of its definitions are meaning, of how many."""

    crate: str
    module: Module
    meaning: int
    definitions: int

    def file(self) -> str:
        return f'crates/{self.crate}/specs/{self.module.replace(".", "/")}.antt'

    def is_right(self) -> bool:
        """Whether the file stands where it belongs."""
        return (self.meaning == 0) == self.module.startswith('inner.')


def rooms(root: str, crates: List[str]) -> Iterator[Room]:
    """The files of specs of all crates, but for lists."""
    meaning = meaning_of(root, crates)
    for crate in crates:
        for module, text in specs_of(root, crate).items():
            if module.split('.')[-1] not in LISTS:
                names = set(definitions_in(text))
                if not names:
                    continue
                means = {name for each, name in meaning[crate] if each == module}
                yield Room(crate, module, len(names & means), len(names))
