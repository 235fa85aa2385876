#!/usr/bin/env python3
"""Looks for names that are a bare participle or adjective, which break the naming rule of the Rattle kit.

    python3 tools check_names [--drop] [--add] [ROOT]

A function says what it gives or does (`count_of`, not `held`), and a fact that an adjective or a participle
names has a verb before it (`IsSorted`, not `Sorted`). A name is bare where each of its words is a participle,
an adjective or an adverb such as `all`, `up` or `not`. Looked at are the functions of src, but for tests, and
the public definitions of specs.

tools/bare_names.txt has those that stand today, a line for each crate, folder and name, and as comments why
some of them stay. It may only get shorter: a bare name that it doesn't have is a difference, and so is one
that it has and that is gone. --drop takes off what is gone. --add puts on what is new, for a name that moves
from one crate to another, or for a branch that began before the list did.

check_docs.py calls it. It prints a line for each difference that is left, and ends with status 1 where
there is one.
"""
from __future__ import annotations

import os
import re
import sys
from typing import Callable, Dict, Iterator, List, Set, Tuple

from . import ROOT

LIST = 'tools/bare_names.txt'

FUNCTION = re.compile(r'(\#\[test\]\s*)?^[ ]*(?:pub(?:\([^)]*\))? )?(?:const )?fn (\w+)', re.M)
DEFINITION = re.compile(r"^(?:(?:abbrev|unfoldable) pub|pub (?:record|data)) ([\w']+)", re.M)
WORD = re.compile(r'[A-Z]?[a-z0-9]+|[A-Z]+(?![a-z])')

# Participles that don't end in -ed.
IRREGULAR = frozenset("""
    begun bent bitten borne bought bound broken brought built caught chosen dealt done drawn driven eaten
    fallen fed felt forgotten fought found given gone grown heard held hidden kept known laid led left
    lent lost made meant met overwritten paid proven rewritten risen said seen sent shown sold sought
    spent spoken stood stuck sunk swept taken taught thought thrown told torn unbound understood undone
    unmade unset withdrawn withheld won worn woven written
""".split())

# Words in -ed and -ing that are no participle, or are nouns of their own.
NOUNS = frozenset("""
    bed creed deed embed exceed feed heed need proceed red reed seed shed speed succeed weed
    being ceiling encoding ending everything heading king listing meaning nothing opening reading ring setting
    sibling something spelling spring string substring thing wing
""".split())

# But for those that are verbs or nouns as well, such as `open`, `close` and `blank`.
ADJECTIVES = frozenset("""
    able absent alive bad bare big bold broad busy comparable current dead deep different distinct due
    earlier early easy empty entire equal even exact extra false few final fine first flat fresh full good
    great greater greatest hard heavy high higher hot idle initial inner invalid large larger last late
    later latest lazy least lesser little live local lone long longer longest loose low lower many mutable
    natural near negative new next odd old opposite optional outer partial plain positive present previous
    proper quick quiet rare raw ready real recent remote right runnable safe same shallow sharp short
    shorter silent similar simple single small smaller smallest sole sooner soonest sparse stable stale
    steady strict strong sure tall thin tight tiny true unable unique upper usable useful usual valid
    visible void weak whole wide young
""".split())

# Words beside which a participle or an adjective is still bare.
ADVERBS = frozenset("""
    all already always any away back both down each else ever every more most much never no not off once
    only out so still then too twice up very well yet
""".split())

# Methods of std keep their names, and a trait's are its own.
STD = frozenset('first last max min new next'.split())

# A crate, the folder `src` or `specs`, and a name.
Name = Tuple[str, str, str]


def is_participle(word: str) -> bool:
    if word in NOUNS:
        return False
    return word in IRREGULAR or re.fullmatch(r'[a-z]{2,}(?:ed|ing)', word) is not None


def is_bare(name: str) -> bool:
    """Whether a name has a participle or an adjective, and no word that names something."""
    if name in STD:
        return False
    words = [word.lower() for word in WORD.findall(name)]
    said = [word for word in words if is_participle(word) or word in ADJECTIVES]
    return bool(said) and all(word in said or word in ADVERBS for word in words)


def functions_in(text: str) -> Iterator[Tuple[int, str]]:
    """The functions of a source, but for tests, each with its line."""
    for found in FUNCTION.finditer(text):
        if not found[1]:
            yield text.count('\n', 0, found.start(2)) + 1, found[2]


def definitions_in(text: str) -> Iterator[Tuple[int, str]]:
    """The public definitions of a file of specs, each with its line."""
    for found in DEFINITION.finditer(text):
        yield text.count('\n', 0, found.start(1)) + 1, found[1]


def files_below(root: str, folder: str, ending: str) -> List[str]:
    found = []
    for place, folders, files in os.walk(os.path.join(root, folder)):
        folders.sort()
        found += [os.path.relpath(os.path.join(place, f), root) for f in sorted(files) if f.endswith(ending)]
    return found


def bare_names(root: str) -> Dict[Name, Tuple[str, int]]:
    """The bare names of a checkout, each with the file and the line where it stands first."""
    names: Dict[Name, Tuple[str, int]] = {}
    for crate in sorted(os.listdir(os.path.join(root, 'crates'))):
        for part, ending, in_text in (('src', '.rt', functions_in), ('specs', '.antt', definitions_in)):
            for file in files_below(root, f'crates/{crate}/{part}', ending):
                with open(os.path.join(root, file), encoding='utf-8') as source:
                    text = source.read()
                for line, name in in_text(text):
                    if is_bare(name):
                        names.setdefault((crate, part, name), (file, line))
    return names


def listed_names(root: str) -> Dict[Name, int]:
    """The names of the list, each with its line."""
    names: Dict[Name, int] = {}
    with open(os.path.join(root, LIST), encoding='utf-8') as file:
        for number, line in enumerate(file, 1):
            words = line.partition('#')[0].split()
            if words:
                crate, part, name = words
                names[crate, part, name] = number
    return names


def rewrite_list(root: str, drop: bool, add: bool) -> None:
    """Takes the names off that are gone, puts those on that are new, and keeps all remarks."""
    found, listed = bare_names(root), listed_names(root)
    with open(os.path.join(root, LIST), encoding='utf-8') as file:
        lines = file.read().splitlines()
    kept = {name: lines[number - 1] for name, number in listed.items() if not drop or name in found}
    if add:
        kept.update((name, ' '.join(name)) for name in found if name not in listed)
    head = [line for line in lines if line.startswith('#')]
    with open(os.path.join(root, LIST), 'w', encoding='utf-8') as file:
        file.write(''.join(line + '\n' for line in head + [kept[name] for name in sorted(kept)]))


def check_names(root: str, add: Callable[[str, int, str], None]) -> None:
    """Calls `add` with the file, the line and the text of each difference."""
    found, listed = bare_names(root), listed_names(root)
    for name in sorted(set(found) - set(listed), key=lambda name: found[name]):
        file, line = found[name]
        add(file, line, f'{name[2]} is a bare participle or adjective: say what it gives or does')
    for name in sorted(set(listed) - set(found)):
        add(LIST, listed[name], f'{" ".join(name)} is gone: take it off the list')


def main(words: List[str]) -> int:
    options: Set[str] = {word for word in words if word.startswith('--')}
    roots = [word for word in words if word not in options]
    root = roots[0] if roots else ROOT
    if options - {'--drop', '--add'} or len(roots) > 1:
        print(__doc__, file=sys.stderr)
        return 2
    if options:
        rewrite_list(root, '--drop' in options, '--add' in options)
    differences: List[str] = []
    check_names(root, lambda file, line, text: differences.append(f'{file}:{line}: {text}'))
    print('\n'.join(differences), end='\n' if differences else '')
    return 1 if differences else 0


if __name__ == '__main__':
    sys.exit(main(sys.argv[1:]))
