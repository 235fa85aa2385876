"""Shows what a package holds, or gives its parts to ordinary tools.

    ./ldv record < world.json | tools/package.py
    tools/package.py world.package                        what is in it
    tools/package.py --statement 2 world.package          the rows that a statement needed
    tools/package.py --files FOLDER world.package         its files, in a new folder
    tools/package.py --world world.package > new.json     a world of its files and rows, to be run again
    tools/package.py --world --ask "SELECT .." ..         the same, whose script asks this and nothing else;
                                                          it is looked at as tools/check.py does, and put into
                                                          the dialect as tools/world.py does
    tools/package.py --csv FOLDER world.package           a file for each table: FOLDER/orders.csv
    tools/package.py --sqlite FILE world.package          a new SQLite database of the tables
    tools/package.py --reasons ..                         with --csv or --sqlite: three columns before the
                                                          others of each row, its number, the statement that
                                                          needed it first, and the rule why
    tools/package.py --sizes world.package                how many bytes each section has
    tools/package.py --byte 812 world.package             what stands at this byte, from 0: where `audit` says
                                                          `unsound 812`, what isn't as its own run has it
    tools/package.py --rows world.package                 its rows, each with the statement that needed it
                                                          first and the rule; of a joined package, by run
    tools/package.py --run 2 ..                           of a joined package, the second of its runs
    tools/package.py --run 2 --package both.joined > second.package
                                                          its package, for `audit`, `inspect` and `table`

docs/FORMATS.md has the format. Both versions, both kinds and joined packages are read. The digest is
compared, and the rest is read as far as it is needed here: that a package is valid is what `ldv replay` says.
In CSV, NULL is an empty field and the empty text is "".

A package that says what its columns are where they were read (docs/FORMATS.md) gives its cells back so by
itself: decimals and dates as they were, REAL in SQLite with the types and names of the source, words for
NULL in CSV, units in the heads. --raw gives them as they are carried, whole numbers and texts. In the world
of --world the rows of a table are numbered anew, from 0.

Statuses: 0 shown; 1 the input is no package, it hasn't what was asked for,
or a file can't be read or written; 2 wrong words.
"""
from __future__ import annotations

import argparse
import os
import sys
from typing import Dict, Iterator, List, Optional, Sequence, Tuple, Union

from .columns import FOLDER, UNKNOWN, Columns, path_of, script_lines
from .documents import as_json, document, row_lines, table_json, write_file
from .errors import Refused, command, program_name, words_of
from .language import RULE_TEXTS
from .outcome import read_input, write_out
from .package_bytes import package_bytes
from .package_places import byte_lines
from .package_tables import check_rows, columns_of, tables_as_read, write_csv, write_sqlite
from .packages import Asked, Joined, Package, PackedRow, PackedTable, read_any, read_package
from .packed_questions import asked_of_rows
from .values import Row, cell, counted, escaped, reply_title, table_lines
from .world_hints import quoted_word
from .worlds import have_numbers

# ---- what is shown

def summary(package: Package) -> Iterator[str]:
    """The lines that say what is in a package."""
    yield (f"{package.mode}, start {escaped(' '.join(package.start))}, seed {package.seed}, "
           f"{counted(package.steps, 'step')}, {counted(package.event_count(), 'event')}")
    for path, content in package.files:
        yield f"file {escaped(path)}: " + ("present" if content is None else counted(len(content), "byte"))
    for table in package.tables:
        columns = ", ".join(f"{name} {kind}" for name, kind in table.columns)
        key = f", key {', '.join(table.key)}" if table.key else ""
        foreign = "".join(f", ({', '.join(each.columns)}) refers to {each.parent}" for each in table.foreign)
        yield (f"table {table.name} ({columns}{key}{foreign}): {counted(len(table.rows), 'row')}, next row "
               f"{table.next}")
    for log in package.logs:
        yield f"log of process {log.process}: {counted(len(log.entries), 'statement')}"


def joined_summary(joined: Joined) -> Iterator[str]:
    yield (f"joined, {counted(len(joined.files), 'file')}, {counted(len(joined.tables), 'table')}, "
           f"{counted(sum(len(table.rows) for table in joined.tables), 'row')}")
    for number in (1, 2):
        for line in summary(joined.run(number)):
            yield f"run {number}: {line}"


def size_lines(package: Union[Package, Joined]) -> Iterator[str]:
    for name, size in package.sizes.items():
        yield f"{name:<12} {size:>12}"
    yield f"{'all':<12} {sum(package.sizes.values()):>12}"
    if isinstance(package, Package):
        needed = package.row_bytes + package.sizes["trace"] + package.sizes["logs"]
        yield f"{'rows, trace, logs':<12} {needed:>7}"


def reason_of(row: PackedRow) -> str:
    return f"{row.statement} {row.rule}"


def row_table(table: PackedTable, runs: Sequence[str], reasons: Sequence[Dict[int, str]]) -> Iterator[str]:
    """The rows of a table, each with why each of the runs needs it."""
    rows: List[Row] = [[row.number, *(why.get(row.number, "-") for why in reasons), *row.values]
                       for row in table.rows]
    yield from table_lines(rows, ["row", *runs, *table.names()])


def row_lines_of(package: Package) -> Iterator[str]:
    check_rows(package, "table")
    for table in package.tables:
        yield f"{table.name}: {counted(len(table.rows), 'row')}"
        yield from row_table(table, ["why"], [{row.number: reason_of(row) for row in table.rows}])


def joined_row_lines(joined: Joined) -> Iterator[str]:
    """Each row of a joined package with the runs that need it. Each is needed by one or by both."""
    packages = joined.run(1), joined.run(2)
    for table in joined.tables:
        reasons = [{row.number: reason_of(row) for row in own.rows} if own else {}
                   for own in (package.table(table.name) for package in packages)]
        both = len(reasons[0].keys() & reasons[1].keys())
        yield f"{table.name}: {counted(len(table.rows), 'row')}, {both} of them needed by both runs"
        yield from row_table(table, ["run 1", "run 2"], reasons)


def asked_events(package: Package) -> Iterator[Tuple[int, int, Asked]]:
    """The step, the process and the statement of each statement of the trace."""
    for run in package.runs:
        if run.first.asked is not None:
            yield run.first.step, run.first.process, run.first.asked


def statement_lines(package: Package, number: int) -> Iterator[str]:
    """What the package says of a statement, from 0: who asked it, and the rows that it needed."""
    places: Dict[int, int] = {}
    names = package.process_names()
    for step, process, asked in asked_events(package):
        place = places.get(process, 0)
        places[process] = place + 1
        if asked.statement == number:
            tables = ", ".join(asked.tables) or "none"
            yield f"statement {number}: process {names[process]} at step {step}, tables {tables}"
            yield from logged_lines(package, names[process], place)
            yield from need_lines(package, asked)
            for table, made in asked.made:
                yield f"it made {counted(len(made), 'version')} of rows of {table}"
            return
    raise Refused(f"there is no statement {number}; the run asked {sum(places.values())}, counted from 0")


def logged_lines(package: Package, process: str, place: int) -> Iterator[str]:
    for log in package.logs:
        if log.process == process and place < len(log.entries):
            entry = log.entries[place]
            yield f"> {escaped(entry.text)}"
            if entry.params:
                yield "> with " + ", ".join(cell(value) for value in entry.params)
            yield f"reply: {reply_title(entry.reply)}"


def need_lines(package: Package, asked: Asked) -> Iterator[str]:
    """The rows that a statement needed, as far as they are packed,
    with their values at the start of the run."""
    if not asked.reads:
        yield "it needed no row"
    for name, needs in asked.reads:
        yield f"it needed {counted(len(needs), 'row')} of {name}:"
        table = package.table(name)
        packed = {row.number: row.values for row in table.rows} if table else {}
        rows: List[Row] = []
        for need in needs:
            rows.append([need.row, need.version, need.rule, *packed.get(need.row, [])])
        yield from table_lines(rows, ["row", "version", "rule", *(table.names() if table and packed else [])])
    for rule in sorted({need.rule for _, needs in asked.reads for need in needs}, key="LHKPC".index):
        yield f"rule {rule}: the row {RULE_TEXTS[rule]}"


# ---- files

def place_in(folder: str, path: str) -> str:
    """Where a file of the package goes, which is within the folder."""
    parts = path.split("/")
    if any(part in ("", ".", "..") for part in parts):
        raise Refused(f"the file {escaped(path)} can't be written: its path leads out of a folder; "
                      f"--file {quoted_word(path)} writes it")
    return os.path.join(folder, *parts)


def write_files(package: Package, folder: str) -> None:
    """The files with content, into a folder that is new or empty."""
    if os.path.exists(folder) and (not os.path.isdir(folder) or os.listdir(folder)):
        raise Refused(f"{folder} is there already, and isn't an empty folder")
    wholes = [(place_in(folder, path), content) for path, content in package.files if content is not None]
    for place, content in wholes:
        try:
            os.makedirs(os.path.dirname(place), exist_ok=True)
        except (FileExistsError, NotADirectoryError):
            raise Refused(f"{place} can't be written: a file is where it needs a folder") from None
        with open(place, "wb") as file:
            file.write(content)
        print(f"{place}: {counted(len(content), 'byte')}")
    for path, found in package.files:
        if found is None:
            print(f"{escaped(path)} was only present, and isn't written")


def file_of(package: Package, path: str) -> bytes:
    content = dict(package.files).get(path)
    if content is None:
        raise Refused(f"there is no content of a file {path}; there are "
                      + (", ".join(escaped(name)
                                   for name, content in package.files if content is not None) or "none"))
    return content


# ---- a world

def has_parents(table: PackedTable, package: Package) -> bool:
    """Whether each row's references have a parent among the packed rows, as a world document asks."""
    for foreign in table.foreign:
        parent = package.table(foreign.parent)
        places = [table.names().index(name) for name in foreign.columns]
        keys = set()
        if parent is not None:
            own = [parent.names().index(name) for name in parent.key]
            keys = {tuple(row.values[place] for place in own) for row in parent.rows}
        for row in table.rows:
            reference = tuple(row.values[place] for place in places)
            if None not in reference and reference not in keys:
                return False
    return True


def world_of(package: Package, given: argparse.Namespace) -> Tuple[bytes, List[str]]:
    """A world document of the package's files and rows, and what is otherwise in it."""
    check_rows(package, "world")
    notes, tables = [], []
    for table in package.tables:
        foreign = [(each.columns, each.parent) for each in table.foreign]
        if foreign and not has_parents(table, package):
            notes.append(f"{table.name}: its foreign keys are left out, since parents of its rows aren't "
                         "packed")
            foreign = []
        if [row.number for row in table.rows] != list(range(len(table.rows))):
            notes.append(f"{table.name}: its rows get the numbers 0 to {len(table.rows) - 1}")
        rows = row_lines((as_json(row.values)[1:-1] for row in table.rows), len(table.rows))
        tables.append((table.name, table_json(table.columns, table.key, rows, table.next, foreign)))
    if given.ask:
        asked = asked_of_rows(package, columns_of(package), given.ask, given.as_read, given.as_written)
        known = {path: content for path, content in package.files
                 if path.startswith(FOLDER) and content is not None}
        lines = script_lines(name for name, _ in tables if path_of(name) in known)
        lines += ["known:"] if lines else []
        files = {"main": asked.script + "".join(line + "\n" for line in lines).encode(), **known}
        notes.append("counts and sums are over these packed rows alone")
        return document(["main"], 0, files, tables), notes + asked.notes
    return document(package.start, package.seed, {path: content or b"" for path, content in package.files},
                    tables), notes


# ---- the command

def given_words(words: Optional[Sequence[str]]) -> argparse.Namespace:
    parser = words_of(__doc__, "package", "the package")
    what = parser.add_mutually_exclusive_group()
    what.add_argument("--csv", metavar="FOLDER", help="a CSV file for each table")
    what.add_argument("--sqlite", metavar="FILE", help="a new SQLite database of the tables")
    what.add_argument("--files", metavar="FOLDER", help="the files, in a new folder")
    what.add_argument("--file", metavar="PATH", help="the bytes of one file, to standard output")
    what.add_argument("--statement", metavar="N", type=int,
                      help="the rows that the statement N needed, from 0")
    what.add_argument("--world", action="store_true", help="a world document of its files and rows")
    what.add_argument("--package", action="store_true", dest="package_out",
                      help="the package of a run of a joined one, in version 2, which ldv takes by itself")
    what.add_argument("--sizes", action="store_true", help="how many bytes each section has")
    what.add_argument("--byte", metavar="N", type=int, help="what stands at the byte N, from 0")
    what.add_argument("--rows", action="store_true",
                      help="the rows, each with the statement that needed it first and the rule why")
    parser.add_argument("--ask", metavar="STATEMENT", action="append", default=[],
                        help="with --world: a statement for its script, which asks these only")
    parser.add_argument("--as-read", action="store_true",
                        help="with --ask: constants are as the source has them")
    parser.add_argument("--as-written", action="store_true",
                        help="with --ask: put no statement otherwise")
    parser.add_argument("-o", "--output", metavar="FILE",
                        help="with --world or --package: what is made (default: standard output)")
    parser.add_argument("--reasons", action="store_true",
                        help="with --csv or --sqlite: why each row is there")
    parser.add_argument("--raw", action="store_true", help="numbers and dates as the package carries them")
    parser.add_argument("--run", type=int, choices=(1, 2), help="of a joined package: which of its runs")
    given = parser.parse_args(words)
    if given.reasons and not (given.csv or given.sqlite):
        parser.error("--reasons goes with --csv or --sqlite")
    if given.ask and not given.world:
        parser.error("--ask goes with --world")
    if (given.as_read or given.as_written) and not given.ask:
        parser.error("--as-read and --as-written go with --ask")
    if given.output and not (given.world or given.package_out):
        parser.error("-o goes with --world or --package")
    return given


def say(notes: Sequence[str]) -> None:
    for note in notes:
        begin = "" if note.startswith("warning: ") else "note: "
        print(f"{program_name()}: {begin}{note}", file=sys.stderr)


def columns_shown(found: Union[Package, Joined], given: argparse.Namespace) -> Columns:
    """What is known of the columns whose cells are shown. Says where that is nothing."""
    if given.raw:
        return UNKNOWN
    columns = columns_of(found)
    say(columns.notes(have_numbers(table.columns for table in found.tables)))
    return columns


def show(data: bytes, given: argparse.Namespace) -> None:
    """Writes what the words ask for, of a package of one run."""
    package = read_package(data, given.run)
    if given.csv or given.sqlite or given.statement is not None or given.rows:
        show_tables(package, columns_shown(package, given), given)
    elif given.files:
        write_files(package, given.files)
    elif given.file:
        sys.stdout.buffer.write(file_of(package, given.file))
        sys.stdout.buffer.flush()
    elif given.package_out:
        write_file(package_bytes(package), given.output)
    elif given.world:
        world, notes = world_of(package, given)
        say(notes)
        write_file(world, given.output)
    else:
        write_out("".join(line + "\n" for line in summary(package)))


def show_tables(package: Package, columns: Columns, given: argparse.Namespace) -> None:
    """Writes what has cells of tables, as these were read."""
    shown = package._replace(tables=tables_as_read(package.tables, columns))
    if given.csv:
        write_csv(package, given.csv, given.reasons, columns)
    elif given.sqlite:
        say(write_sqlite(package, given.sqlite, given.reasons, columns))
    elif given.statement is not None:
        write_out("".join(line + "\n" for line in statement_lines(shown, given.statement)))
    else:
        write_out("".join(line + "\n" for line in row_lines_of(shown)))


def work(words: Optional[Sequence[str]]) -> int:
    given = given_words(words)
    data = read_input(given.package)
    if given.sizes:
        write_out("".join(line + "\n" for line in size_lines(read_any(data))))
        return 0
    if given.byte is not None:
        write_out("".join(line + "\n" for line in byte_lines(data, given.byte)))
        return 0
    asks_part = (given.csv or given.sqlite or given.files or given.file or given.statement is not None
                 or given.world or given.package_out)
    found = read_any(data) if not asks_part and given.run is None else None
    if isinstance(found, Joined):
        columns = columns_shown(found, given) if given.rows else UNKNOWN
        shown = found._replace(tables=tables_as_read(found.tables, columns))
        lines = joined_row_lines(shown) if given.rows else joined_summary(found)
        write_out("".join(line + "\n" for line in lines))
    else:
        show(data, given)
    return 0


def main(words: Optional[Sequence[str]] = None) -> int:
    return command(work, words, "package")


if __name__ == "__main__":
    sys.exit(main())
