"""Tables of CSV files."""
from __future__ import annotations

import codecs
import contextlib
import csv
import hashlib
import io
import itertools
import os
import re
import shlex
from typing import Any, Dict, Iterator, List, Match, NoReturn, Optional, Sequence, Tuple

from .errors import Misused, Refused
from .language import MAX_DOCUMENT
from .progress import Progress
from .values import plain_count
from .world_cells import DATE
from .world_columns import NO_VALUE, Column, Table
from .world_settings import Settings, tidy_name, tidy_names
from .world_tables import keep_columns

MARKS = ((b"\xef\xbb\xbf", "utf-8-sig"), (b"\xff\xfe\x00\x00", "utf-32"), (b"\x00\x00\xfe\xff", "utf-32"),
         (b"\xff\xfe", "utf-16"), (b"\xfe\xff", "utf-16"))
OTHERS = ((b"PK\x03\x04", "a workbook, as Excel writes it: save it as CSV"),
          (b"\xd0\xcf\x11\xe0", "a workbook of an old Excel: save it as CSV"),
          (b"SQLite format 3\0", "an SQLite database: give --sqlite"),
          (b"PAR1", "a Parquet file: docs/DUMPS.md says how it becomes CSV"),
          (b"\x1f\x8b", "compressed: unpack it first"))
# No file that is longer is read.
MAX_READ = 4 * MAX_DOCUMENT
MANY = 100_000
# So many cells of a column are looked at for blanks before them.
MANY_BLANKS = 1000


def named_file(word: str) -> Tuple[Optional[str], str]:
    """The NAME, where there is one, and the FILE of the word [NAME=]FILE."""
    name, equals, path = word.partition("=")
    return (name, path) if equals and not os.path.exists(word) else (None, word)


# The files that were read, where each is to be read once.
KEPT: List[Dict[str, bytes]] = []


@contextlib.contextmanager
def reading_once() -> Iterator[None]:
    """Within it a file is read once, and kept."""
    KEPT.append({})
    try:
        yield
    finally:
        KEPT.pop()


def read_file(path: str, size: int = -1) -> bytes:
    """The bytes of a file, or so many at its beginning. One without end is refused at a limit."""
    if size >= 0 or not KEPT:
        return read_anew(path, size)
    if path not in KEPT[-1]:
        KEPT[-1][path] = read_anew(path, size)
    return KEPT[-1][path]


def read_anew(path: str, size: int) -> bytes:
    try:
        with open(path, "rb") as file:
            data = file.read(size if size >= 0 else MAX_READ + 1)
            if len(data) > MAX_READ:
                raise Refused(f"{path} has more than {MAX_READ} bytes, four times what a world may have")
            return data
    except OSError as fault:
        raise Refused(f"{path}: {fault.strerror}") from None


def read_csv(word: str, settings: Settings, hints: List[str], progress: Progress) -> Table:
    """The table of a CSV file, not settled yet."""
    given, path = named_file(word)
    name = given or os.path.splitext(os.path.basename(path))[0]
    name = settings.new_name(name, tidy_name(name) if settings.tidy and not given else name)
    lines = lines_of(name, path, settings, hints)
    header, cells = columns_of(lines, progress)
    hints += hints_of_header(lines, header, cells)
    hints += hints_of_quotes(lines, header, cells)
    hints += hints_of_blanks(lines, header, cells)
    if looks_like_title(header):
        hints.append(f"{path}: the first line has one name, {header[0]!r}{title_words(path)}")
    count = len(cells[0]) if cells else 0
    kept: Sequence[int] = range(count)
    blank = blank_places(cells)
    if blank and settings.skips_blank:
        kept = sorted(set(kept) - set(blank))
        cells = [[column[place] for place in kept] for column in cells]
    elif blank:
        hints.append(hint_of_blank(lines, blank))
    plain = tidy_names(header) if settings.tidy else header
    columns = [Column(settings.new_name(f"{name}.{cell}", own, f"{name}.#{place}"), cell, place)
               for place, (cell, own) in enumerate(zip(header, plain), 1)]
    for column, found in zip(columns, cells):
        column.cells = found
    table = Table(name, keep_columns(name, columns, settings), len(kept), from_text=True,
                  row_name=lambda row: f"{path} line {lines.of(kept[row] + lines.first)} (row {row} of "
                                       f"{name})")
    table.path, table.digest = path, lines.digest
    return table


def lines_of(name: str, path: str, settings: Settings, hints: List[str]) -> Lines:
    """The lines of the file of a table. Excel may say before the header what stands between cells."""
    delimiter = settings.of_table("--delimiter", name, ",")
    delimiter = "\t" if delimiter == "tab" or settings.is_tsv else delimiter
    has_quotes = settings.of_table("--quotes", name, "double") == "double" and not settings.is_tsv
    data = csv_bytes(path)
    text = text_of(path, data, settings.of_table("--encoding", name, "utf-8"), hints)
    said = re.match(r"sep=(.)\r?\n", text)
    if said:
        # An empty line in its place leaves the numbers of the others.
        delimiter, text = said[1], "\n" + text[said.end():]
    lines = Lines(path, text, delimiter, settings.is_tsv, has_quotes, settings.trims)
    lines.digest = hashlib.sha256(data).hexdigest()
    lines.first = 0 if settings.of_table("--header", name, "first") == "none" else 1
    lines.table = name if settings.has_many else ""
    return lines


def check_header(lines: Lines, header: Sequence[str], cells: Sequence[str]) -> None:
    """Refuses a file that would be one column because it has another delimiter, which rows have too."""
    for other in ",;\t|":
        if other == lines.delimiter or other not in header[0]:
            continue
        if not cells or any(other in cell for cell in cells):
            sign = "tab" if other == "\t" else other
            word = shlex.quote(f"{lines.table}={sign}" if lines.table else sign)
            word = f"'{word}'" if word == sign != "tab" else word
            word += ", not --tsv" if lines.is_tsv else ""
            raise Refused(f"{lines.path}: the first line has one name, {header[0]!r}; "
                          f"give --delimiter {word}")


def hints_of_header(lines: Lines, header: Sequence[str], columns: Sequence[List[str]]) -> Iterator[str]:
    """That a first line looks like a row: in each column of numbers or dates its cell is one too."""
    if not lines.first or not columns or not columns[0]:
        return
    figures = [name for name, cells in zip(header, columns)
               if 2 * sum(map(is_figure, cells[:MANY_BLANKS])) > len(cells[:MANY_BLANKS])]
    if figures and all(map(is_figure, figures)):
        how = "--header " + shlex.quote(f"{lines.table}=none" if lines.table else "none")
        yield (f"{lines.path} line {lines.of(0)}: the header looks like a row, with {figures[0]!r} above a "
               f"column of such cells; where it is one, {how} reads it so")


def is_figure(cell: str) -> bool:
    """Whether a cell is a number or a date."""
    return any(char.isdigit() for char in cell) and (
        DATE.match(cell) is not None or re.fullmatch(r"[+-]?[0-9][0-9.,' ]*\s?[%€$£]?", cell) is not None)


def looks_like_title(header: Sequence[str]) -> bool:
    """Whether a first line has a text alone, as a title above the header has it."""
    return len(header) > 2 and bool(header[0]) and not any(header[1:])


def title_words(path: str) -> str:
    return f"; where the first line is a title, take it off first, as tail -n +2 {shlex.quote(path)} does"


def hints_of_blanks(lines: Lines, header: Sequence[str], columns: Sequence[List[str]]) -> Iterator[str]:
    """That cells have blanks before them, as where `, ` stands between cells."""
    is_looked_at = not lines.is_tsv and not lines.trims and " " in lines.text
    for row, cell in itertools.islice(blanks_before(header, columns), 1) if is_looked_at else ():
        yield (f"{lines.path} line {lines.of(row)}: {cell[:40]!r} begins with a blank; --trim reads cells "
               "without the blanks at their ends")


def blanks_before(header: Sequence[str], columns: Sequence[List[str]]) -> Iterator[Tuple[int, str]]:
    """The records and the texts of cells that show that blanks stand before cells."""
    yield from ((0, cell) for cell in header if cell.startswith(" "))
    for column in columns:
        sample = column[:MANY_BLANKS]
        found = [(row, cell) for row, cell in enumerate(sample, 1) if cell.startswith(" ")]
        yield from found if 2 * len(found) > len(sample) else (
            each for each in found if each[1].startswith(' "'))


def blank_places(columns: Sequence[List[str]]) -> List[int]:
    """The rows that have delimiters alone."""
    if len(columns) < 2 or not all("" in column for column in columns):
        return []
    return [place for place, row in enumerate(zip(*columns)) if not any(row)]


def hint_of_blank(lines: Lines, blank: Sequence[int]) -> str:
    shown = ", ".join(str(lines.of(place + 1)) for place in blank[:3])
    rest = f" and {len(blank) - 3} more" if len(blank) > 3 else ""
    return (f"{lines.path}: line {shown}{rest} has delimiters alone, and is a row of NULL; --skip-blank "
            "leaves it out")


def hints_of_quotes(lines: Lines, header: Sequence[str], columns: Sequence[List[str]]) -> Iterator[str]:
    """That quotes or escapes may have joined what are several cells, or are signs as any other."""
    what = ("where \\ is a sign as any other" if lines.is_tsv
            else "where \" is a sign as any other")
    how = f"{what}, --delimiter tab --quotes none reads the file" if lines.delimiter == "\t" else (
        f"{what}, --quotes none reads the file")
    if lines.is_tsv and lines.odd is not None:
        line, odd = lines.odd
        yield f"{lines.path} line {line}: it has {odd}, which no database writes as an escape; {how}"
    joined = joined_cells(lines, columns) if lines.has_joined else []
    if joined:
        place, column = joined[0]
        rest = f" and {len(joined) - 1} more" if len(joined) > 1 else ""
        sign = "tab" if lines.delimiter == "\t" else f"'{lines.delimiter}'"
        yield (f"{lines.path} line {lines.of(place + 1)}{rest}: the cell of {header[column]} has a line feed "
               f"and a {sign} in it; {how}")
    elif lines.delimiter == "\t" and lines.has_quotes and (found := QUOTED.search(lines.text)):
        yield (f"{lines.path} line {lines.text.count(chr(10), 0, found.start(1)) + 1}: the quotes around "
               f"a cell are taken off; {how}")


# A cell of tabs that begins with a quote.
QUOTED = re.compile('(?:^|\t)(")', re.MULTILINE)


def joined_cells(lines: Lines, columns: Sequence[List[str]]) -> List[Tuple[int, int]]:
    """The places of cells that have a line feed and a delimiter in them, row by row."""
    return sorted((row, place) for place, column in enumerate(columns) for row, cell in enumerate(column)
                  if "\n" in cell and lines.delimiter in cell)


def csv_bytes(path: str) -> bytes:
    """The bytes of a file that isn't known to be something else than CSV."""
    data = read_file(path)
    for start, what in OTHERS:
        if data.startswith(start):
            raise Refused(f"{path} is no CSV file, but {what}")
    return data


def text_of(path: str, data: bytes, encoding: str, hints: List[str]) -> str:
    """The text of a CSV file, whose byte order mark says more than the encoding that is given."""
    encoding = next((name for mark, name in MARKS if data.startswith(mark)), encoding)
    check_wide(path, data, encoding)
    if encoding == "mixed":
        return mixed_text(path, data)
    try:
        text = data.decode(encoding)
        if codecs.lookup(encoding).name != "utf-8":
            # Some encodings have half surrogate pairs, which UTF-8 hasn't.
            text.encode()
    except UnicodeDecodeError as fault:
        refuse_encoding(path, data, encoding, fault.start)
    except UnicodeError as fault:
        raise Refused(f"{path} isn't {encoding}: {fault}") from None
    except LookupError:
        raise Misused(f"--encoding {encoding}: there is no such encoding") from None
    hints += hints_of_controls(path, text, encoding)
    return text.lstrip("\ufeff") if text[:1] == "\ufeff" else text


def refuse_encoding(path: str, data: bytes, encoding: str, place: int) -> NoReturn:
    """Refuses a file that isn't in its encoding. One of lines in several encodings has no single one."""
    line = data.count(b"\n", 0, place) + 1
    begin = f"{path} line {line}: byte {place} isn't {encoding}"
    if is_binary(data):
        raise Refused(f"{path} is no CSV file: byte {place} isn't {encoding}, and it has bytes that no "
                      "text has")
    ours, others = lines_by_encoding(data)
    if ours and others and codecs.lookup(encoding).name == "utf-8":
        raise Refused(f"{begin}: the lines {some(ours)} are UTF-8, and the lines {some(others)} aren't; "
                      "--encoding mixed reads each so, and the others by cp1252 (of Windows)")
    raise Refused(f"{begin}; give --encoding, such as {likely_encoding(data)}")


def is_binary(data: bytes) -> bool:
    """Whether a file has bytes that no text has."""
    return any(byte < 9 or 13 < byte < 27 for byte in data[:4096])


def lines_by_encoding(data: bytes) -> Tuple[List[int], List[int]]:
    """The numbers of the lines that have letters beyond ASCII and are UTF-8, and of those that aren't."""
    ours, others = [], []
    for number, line in enumerate(data.split(b"\n"), 1):
        try:
            if not line.isascii():
                line.decode()
                ours.append(number)
        except UnicodeDecodeError:
            others.append(number)
    return ours, others


def some(numbers: Sequence[int]) -> str:
    shown = ", ".join(map(str, numbers[:5]))
    return f"{shown} and {len(numbers) - 5} more" if len(numbers) > 5 else shown


def mixed_text(path: str, data: bytes) -> str:
    """The text of a file whose lines are UTF-8 or of Windows."""
    found = []
    for number, line in enumerate(data.split(b"\n"), 1):
        try:
            found.append(line.decode())
        except UnicodeDecodeError:
            try:
                found.append(line.decode("cp1252"))
            except UnicodeDecodeError:
                raise Refused(f"{path} line {number} is neither UTF-8 nor cp1252") from None
    return "\n".join(found)


def check_wide(path: str, data: bytes, encoding: str) -> None:
    """Refuses UTF-16 without its mark: each second byte of plain letters is 0."""
    start = data[:1000]
    zeros = [start[place::2].count(0) * 2 for place in (0, 1)]
    if len(start) > 3 and max(zeros) > 0.6 * len(start) > 4 * min(zeros) and "16" not in encoding:
        name = "utf-16-be" if zeros[0] > zeros[1] else "utf-16-le"
        raise Refused(f"{path} looks like UTF-16 without a byte order mark; give --encoding {name}")


def likely_encoding(data: bytes) -> str:
    """What may be the encoding of a file that isn't UTF-8. The one of Windows has signs in place of control
    characters, and five bytes have no meaning there."""
    try:
        data.decode("cp1252")
    except UnicodeDecodeError:
        return "latin-1"
    return "cp1252 (of Windows)"


# Control characters that Latin-1 has where Windows has signs such as €.
CONTROL = re.compile("[\x80-\x9f]")


def hints_of_controls(path: str, text: str, encoding: str) -> Iterator[str]:
    """That a file has control characters that nobody types: another encoding has signs in their place."""
    is_latin = not text.isascii() and codecs.lookup(encoding).name == "iso8859-1"
    found = CONTROL.search(text) if is_latin else None
    if found is None:
        return
    try:
        sign = found[0].encode("latin-1").decode("cp1252")
    except UnicodeDecodeError:
        return
    yield (f"{path} line {text.count(chr(10), 0, found.start()) + 1}: in {encoding} it has a control "
           f"character, which is {sign} by --encoding cp1252 (of Windows)")


class Lines:
    """The line on which each record begins, counted only where a message wants it."""

    def __init__(self, path: str, text: str, delimiter: str, is_tsv: bool, has_quotes: bool,
                 trims: bool) -> None:
        self.path, self.text, self.delimiter, self.is_tsv = path, text, delimiter, is_tsv
        self.has_quotes, self.trims, self.digest = has_quotes, trims, ""
        # The record of the first row; the table where an option has to name it, since there are others.
        self.first, self.table = 1, ""
        # Whether a cell may have a line feed in it: known when the records were read.
        self.has_joined = False
        self.found: List[int] = []
        # The line of the first escape that COPY of PostgreSQL and --batch of MySQL never write, and that.
        self.odd: Optional[Tuple[int, str]] = odd_escape(text) if is_tsv else None

    def reader(self) -> Any:
        csv.field_size_limit(2**31 - 1)
        quoting = csv.QUOTE_MINIMAL if self.has_quotes else csv.QUOTE_NONE
        return csv.reader(io.StringIO(self.text, newline=""), delimiter=self.delimiter, quoting=quoting,
                          strict=True, skipinitialspace=self.trims)

    def of(self, place: int) -> int:
        if not self.found:
            self.count()
        return self.found[place]

    def count(self) -> None:
        reader, line = self.reader(), 1
        try:
            for record in reader:
                if record:
                    self.found.append(line)
                line = reader.line_num + 1
        except csv.Error as fault:
            how = "; where \" is a sign as any other, --quotes none reads the file" if self.has_quotes else ""
            raise Refused(f"{self.path} line {line}: {fault}{how}") from None


def columns_of(lines: Lines, progress: Progress) -> Tuple[List[str], List[List[str]]]:
    """The header and the columns. A blank line is no row."""
    reader = lines.reader()
    header: List[str] = []
    columns: List[List[str]] = []
    read = 0
    try:
        header = next((record for record in reader if record), [])
        if header and not lines.first:
            header, reader = [f"c{place}" for place in range(1, len(header) + 1)], lines.reader()
        columns = [[] for _ in header]
        before = reader.line_num
        while chunk := list(itertools.islice(reader, MANY)):
            read += len(chunk)
            if set(map(len, chunk)) - {len(header)}:
                chunk = [record for record in chunk if record]
                if set(map(len, chunk)) - {len(header)}:
                    refuse_width(lines, header)
            for column, cells in zip(columns, zip(*chunk)):
                column += cells
            progress.tell(f"{lines.path}: {len(columns[0]):,} rows are read")
    except csv.Error:
        lines.count()
    if not header:
        raise Refused(f"{lines.path} is empty; its first line has to name the columns")
    if len(header) == 1 and lines.first:
        check_header(lines, header, columns[0])
    lines.has_joined = reader.line_num - before > read or lines.is_tsv and "\\n" in lines.text
    if lines.is_tsv and "\\" in lines.text:
        return ([unescaped(cell) for cell in header],
                [[unescaped(cell) for cell in column] for column in columns])
    if lines.trims:
        return list(map(str.strip, header)), [list(map(str.strip, column)) for column in columns]
    return header, columns


def refuse_width(lines: Lines, header: Sequence[str]) -> None:
    """Refuses the first row that has more or fewer cells than the header."""
    records = [record for record in lines.reader() if record]
    if len(header) == 1 and lines.first:
        check_header(lines, header, [cell for record in records[1:] for cell in record])
    for place, row in enumerate(records):
        if len(row) != len(header):
            is_title = len(header) == 1 or looks_like_title(header)
            raise Refused(f"{lines.path} line {lines.of(place)}: {plain_count(len(row), 'cell')}, but the "
                          f"header has {len(header)}{title_words(lines.path) if is_title else ''}")


ESCAPES = {"t": "\t", "n": "\n", "r": "\r", "b": "\b", "f": "\f", "v": "\v", "0": "\0", "\\": "\\"}


def odd_escape(text: str) -> Optional[Tuple[int, str]]:
    """The line of the first backslash that no escape of a database begins with, and how it stands there."""
    for found in re.finditer(r"(?s)\\(.?)", text):
        if found[1] not in ESCAPES and not is_whole_cell(text, found):
            return text.count("\n", 0, found.start()) + 1, found[0].rstrip("\t\r\n")
    return None


def is_whole_cell(text: str, found: Match[str]) -> bool:
    """Whether what was found is \\N with nothing else in its cell, which stands for NULL."""
    around = text[max(found.start() - 1, 0):found.start()], text[found.end():found.end() + 1]
    return found[0] == NO_VALUE and around[0] in ("", "\t", "\n") and around[1] in ("", "\t", "\r", "\n")


def unescaped(cell: str) -> str:
    """A cell of a file without quotes. What stands for NULL stays as it is."""
    if "\\" not in cell or cell == NO_VALUE:
        return cell
    return re.sub(r"(?s)\\(.)", lambda found: ESCAPES.get(found[1], found[1]), cell)
