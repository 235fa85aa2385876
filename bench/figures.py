"""Figures that documents quote from the results, in bench/figures.txt, and the page that report.py fills in.

A line of figures.txt has a document, the key of a value (results.py says what that is), and the words of the
document around the figure, which stands as `{}` in them, with ` | ` between. A figure is right if it is the
value, rounded to the decimals that it has. bench/README.md names the file of results between its two marks.

`figures.py ROOT VERSION` prints what isn't as the results of a version have it, a line for each difference:
check_docs.py calls it.
"""
from __future__ import annotations

import os
import re
import sys
from typing import Iterator, List, NamedTuple, Optional, Sequence, Tuple

import results
from results import Results

LIST = 'bench/figures.txt'
PAGE = 'bench/README.md'
BEGIN = '<!-- begin: report.py --fill made this of {} -->'
END = '<!-- end: report.py --fill -->'
NONE = 'no results yet'
BETWEEN = re.compile(re.escape(BEGIN).replace(re.escape('{}'), '(.*?)') + r'\n(.*?)' + re.escape(END), re.S)
NUMBER = r'(\d[\d,]*(?:\.\d+)?)'

# A document, a line of it, and what isn't right there.
Difference = Tuple[str, int, str]


class Figure(NamedTuple):
    """A figure of a document."""

    document: str
    key: str
    words: str
    line: int
    """Its line in the list."""

    def pattern(self) -> re.Pattern[str]:
        """The words with the figure, whatever stands between lines."""
        parts = [r'\s+'.join(map(re.escape, part.split())) for part in self.words.split('{}')]
        before, after = (self.words.split('{}') + [''])[:2]
        gap = (r'\s+' if before.endswith(' ') else '', r'\s+' if after.startswith(' ') else '')
        return re.compile(parts[0] + gap[0] + NUMBER + gap[1] + parts[1])


def read(root: str, name: str) -> str:
    with open(os.path.join(root, name), encoding='utf-8') as file:
        return file.read()


def figures_in(root: str) -> List[Figure]:
    found = []
    for number, line in enumerate(read(root, LIST).splitlines(), 1):
        if line.strip() and not line.startswith('#'):
            document, key, words = (part.strip() for part in line.split(' | ', 2))
            found.append(Figure(document, key, words, number))
    return found


def shown_like(figure: str, value: float) -> str:
    """A value with the decimals of a figure, and with commas if it has some or is long."""
    decimals = len(figure.partition('.')[2])
    return f'{value:,.{decimals}f}'


# ---- the page

def page_parts(root: str) -> Optional[re.Match[str]]:
    return BETWEEN.search(read(root, PAGE))


def file_of(root: str) -> Optional[str]:
    """The file that the page is made of, from the top of the checkout, or None where there are no results."""
    found = page_parts(root)
    return None if found is None or found[1] == NONE else f'bench/{found[1]}'


def fill_page(root: str, path: str, lines: Sequence[str]) -> None:
    """Writes what is between the marks of the page anew."""
    name = os.path.relpath(path, os.path.join(root, 'bench')).replace(os.sep, '/')
    text = BETWEEN.sub(lambda _: BEGIN.replace('{}', name) + '\n' + '\n'.join(lines) + '\n' + END,
                       read(root, PAGE))
    with open(os.path.join(root, PAGE), 'w', encoding='utf-8') as file:
        file.write(text)


# ---- the documents

def fill_documents(root: str, found: Results) -> None:
    """Writes each figure of the list into its document anew."""
    for figure in figures_in(root):
        value = found.value(figure.key)
        if value is None:
            continue
        known = value
        text = figure.pattern().sub(lambda match: filled(match, known), read(root, figure.document))
        with open(os.path.join(root, figure.document), 'w', encoding='utf-8') as file:
            file.write(text)


def filled(match: re.Match[str], value: float) -> str:
    start, end = match.start(1) - match.start(), match.end(1) - match.start()
    return match[0][:start] + shown_like(match[1], value) + match[0][end:]


def differences_of(root: str, figure: Figure, found: Results) -> Iterator[Difference]:
    value = found.value(figure.key)
    if value is None:
        yield LIST, figure.line, f'{figure.key} is no value of the results'
        return
    text = read(root, figure.document)
    match = figure.pattern().search(text)
    if match is None:
        yield LIST, figure.line, f'{figure.document} has no such words: {figure.words}'
    elif match[1].replace(',', '') != shown_like(match[1], value).replace(',', ''):
        yield (figure.document, text.count('\n', 0, match.start(1)) + 1,
               f'{match[1]} should be {shown_like(match[1], value)} ({figure.key})')


def differences(root: str, version: str) -> Iterator[Difference]:
    """What isn't as the results of this version have it. Without results nothing is compared but the list."""
    if page_parts(root) is None:
        yield PAGE, 1, 'has no marks of report.py'
        return
    path = file_of(root)
    if path is None:
        for figure in figures_in(root):
            if figure.pattern().search(read(root, figure.document)) is None:
                yield LIST, figure.line, f'{figure.document} has no such words: {figure.words}'
        return
    if not os.path.exists(os.path.join(root, path)):
        yield PAGE, 1, f'{path} is missing'
        return
    found = results.read(os.path.join(root, path))
    if found.facts['version'] != version or found.facts['as_it_comes']:
        yield path, 1, f'are no results of version {version}, measured on a quiet host'
    for figure in figures_in(root):
        yield from differences_of(root, figure, found)


def main(words: Sequence[str]) -> int:
    root, version = words
    for document, line, text in differences(root, version):
        print(f'{document}:{line}: {text}')
    return 0


if __name__ == '__main__':
    sys.exit(main(sys.argv[1:]))
