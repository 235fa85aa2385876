"""Makes a world document from CSV files, SQLite databases and a script.

    tools/world.py --csv visits.csv --key visits=id --sql questions.sql > world.json
    tools/world.py --sqlite shop.db --script main.ldv -o world.json
    tools/world.py --csv visits.csv --ask "SELECT * FROM visits WHERE dose = 40" | ./ldv run

docs/TUTORIAL.md goes the whole way from data of your own to a package, docs/FORMATS.md has the format of a
world document and its limits. What doesn't fit is refused with its table, row and column, and then nothing
is written. What SQLite has and a world hasn't is noted by name.

A CSV file has a header; a blank line is no row. A column is INT where each cell that isn't empty is a whole
number of 64 bits without a plus sign or needless zeros; else it is TEXT. An empty cell is NULL. --kind,
--empty and --null say otherwise. A world has no decimals and no dates: --scale carries a decimal as a whole
number of tenths, cents and so on, and a date is best a text such as 2019-01-31, which compares as the date
does; --date makes such texts. A column that looks like numbers, dates or times in one of the forms of
docs/TUTORIAL.md and is TEXT is said, with the options that carry it or what to write in the file first; in
another form it is a text. A byte order mark says the encoding of a file.

--delimiter, --encoding, --quotes, --decimal, --thousands and --null hold for all CSV files, or for the one
whose table is named: --delimiter 'plots=;'. The last three may name a column too: --null plots.height=NA.
--tsv, --skip-blank, --trim, --round, --lower and --tidy hold for all files.

A plain table of tabs, as cut and awk mean it, has neither quotes nor escapes: --delimiter tab --quotes none.
--tsv is for what databases write, with \\n and \\t as escapes. A cell that has a line feed and a delimiter in
it, by quotes or by escapes, is said: several cells may have become one. So is a \\ that no database writes.

--tidy makes a name of each header and of each file's name: letters become small ASCII letters without their
marks (ä a, ß ss, æ ae, ø o), what stands between letters and digits one _, and none stands at an end. A text
without any of these becomes column; _ stands before a first digit, and after a reserved word (count becomes
count_). A name that is there already in its table has _ and its place from 1 behind it: a second Count, in
column 5, becomes count__5.

A statement of --sql and --ask is put into the dialect where that is exactly the same, and is shown then:
BETWEEN, IN with constants, ==, names in double quotes, an item's other name without AS, AVG as a sum and a
count, COUNT in a join, LIKE 'ab%' where the case of letters is no matter, and a decimal beside a carried
column. With --as-read each constant there is as the source has it; with --as-written nothing is put
otherwise. With --script too, the script of the statements runs that one as its child, when it asked them.

Scripts and statements are looked at as `tools/check.py` does. What they have wrong is a warning, and the
world is made; a join of another dialect, such as LEFT JOIN, is refused. A statement asks for values as they
are carried: 2024-02-01 and 09:05, and 1250 for 12.50 at --scale 2. A date, a clock time, a word for NULL or a
number with its unit that stands there as in the file is a warning, with what to write instead. Beside a
column of --scale it is said what a number means, unless it is written as a product with what the column is
carried times: 20 * 10. A script writes values as they are carried into its own files too.

A world has a file for each table, ldv-columns/TABLE.json, that says what its columns are where they were
read: the other tools show values by it as they were there. The script of --sql reads them at its end, so that
each package has them, and makes an empty file whose name is the digest of the world, by which an outcome
says of which world it is; docs/FORMATS.md has what a script of your own does. --no-columns leaves both out.
The script is called as the file of -o without its ending, else main, or as --name says: two packages over the
same data can be joined where their scripts have two names.

--strict refuses where there is a note or a warning, or something is said of a file or a column, but for those
that have a text of --accept in them; what a number means it lets pass.

TABLE and COLUMN in an option are names in the world; OLD is a name in the file or database.

Statuses: 0 made; 1 refused, or a file can't be read or written; 2 the words of the command line are wrong.
"""
from __future__ import annotations

import argparse
import codecs
import gc
import os
import random
import sys
from typing import Dict, Iterator, List, NamedTuple, Optional, Sequence, Tuple

from .columns import FOLDER, path_of, script_lines
from .documents import document, table_json, write_file
from .errors import Misused, Refused, command, program_name, words_of
from .findings import check_joins, findings_of, warning_lines
from .language import MAX_FILE, MAX_FILES, MAX_PATH, MAX_START_WORDS, MAX_TABLES, MAX_TEXT
from .progress import Progress
from .proposal import accepted, proposal
from .scripts_of_statements import Made, escaped, script_of
from .sql_check import Schemas
from .sql_rewrite import columns_by_table, renamed_columns, rewritten_text
from .world_carried import carried_findings
from .world_columns import Remark, Table
from .world_csv import named_file, read_csv, read_file, reading_once
from .world_digest import NO_DIGEST, digest_line, digest_of
from .world_foreign import settle_foreign
from .world_frames import NOTHING, Given, read_frame
from .world_known import known_column, known_files
from .world_settings import Settings
from .world_sqlite import note_types, read_database
from .world_tables import rows_json, settle

# The path of the script that asks the statements of --sql and --ask.
MAIN = "main"


# ---- what a world has

def world_tables(words: argparse.Namespace, notes: List[str], hints: List[str], progress: Progress,
                 given: Given = NOTHING) -> List[Table]:
    settings = Settings(words)

    def read_all() -> Iterator[List[Table]]:
        for word in words.csv:
            yield [read_csv(word, settings, hints, progress)]
        for path in words.sqlite:
            yield read_database(path, words.table, settings, notes)
        for name, frame in given.frames.items():
            yield [read_frame(name, frame, settings, hints)]

    tables: List[Table] = []
    left = read_all()
    for found in left:
        tables += found
        try:
            settle(found, settings, hints)
        except Refused:
            check_names(tables, left, settings)
            raise
        for table in found:
            if table.is_of_database:
                note_types(table, notes)
            progress.tell(f"{table.name}: {table.count:,} rows are settled")
    settle_foreign(tables, settings, notes)
    settings.check_used(names_of(tables))
    if words.shuffle is not None:
        shuffle(tables, words.shuffle)
    names = [table.name for table in tables]
    for place, name in enumerate(names):
        if name in names[:place]:
            raise Refused(f"two tables have the name {name}; give --rename, or --csv NAME=FILE")
    if len(tables) > MAX_TABLES:
        raise Refused(f"{len(tables)} tables; the limit is {MAX_TABLES}")
    return tables


def check_names(tables: Sequence[Table], left: Iterator[List[Table]], settings: Settings) -> None:
    """Where a table was refused: says first that an option names nothing, which may be why."""
    there = list(tables)
    try:
        for found in left if settings.unused else ():
            there += found
    except Refused:
        return
    for table in there:
        settings.take_all(table.name)
        settings.take("--foreign", table.name)
        settings.foreign_of(table.name)
        for column in table.columns:
            settings.take_all(table.full_name(column))
    settings.check_used(names_of(there))


def names_of(tables: Sequence[Table]) -> Dict[str, List[Tuple[str, str]]]:
    """The columns of each table, with their names where they were read and in the world."""
    return {table.name: [(column.old, column.name) for column in table.columns] for table in tables}


def shuffle(tables: Sequence[Table], seed: int) -> None:
    """The rows of each table in an order that says nothing of where they stood."""
    chance = random.Random(seed)
    for table in tables:
        order = list(range(table.count))
        chance.shuffle(order)
        for column in table.columns:
            column.cells = [column.cells[place] for place in order]
            if column.spelled is not None:
                column.spelled = [column.spelled[place] for place in order]


def statement_texts(words: argparse.Namespace) -> List[Tuple[str, str]]:
    """The statements of --sql and --ask, with what a message calls them."""
    texts: List[Tuple[str, str]] = []
    for path in words.sql:
        try:
            texts.append((read_file(path).decode("utf-8-sig"), path))
        except UnicodeDecodeError as fault:
            raise Refused(f"{path}: byte {fault.start} isn't UTF-8") from None
    for place, text in enumerate(words.ask, 1):
        utf8_length(text, f"--ask {place}")
        texts.append((text, f"--ask {place}"))
    return texts


def put_otherwise(text: str, name: str, tables: Sequence[Table], renamed: Dict[str, str],
                  words: argparse.Namespace, hints: List[str]) -> str:
    """A text of statements in the dialect, where it can be put so exactly. Each that is put otherwise is
    shown."""
    found, said = rewritten_text(text, columns_by_table(tables), renamed, words.as_read)
    for line, statement, notes in said:
        where = name if name.startswith("--ask") else f"{name} line {line}"
        hints.append(Remark(f"{where} is asked as: {statement}"))
        hints += [Remark(f"{where}: {note}") for note in notes]
    return found


def made_script(words: argparse.Namespace, tables: Sequence[Table], hints: List[str]) -> Made:
    """The script of --sql and --ask; one of no lines where there is only another start script. At its end it
    reads the files that say what columns are, so that each package of its run has them, and runs that script
    where there is one."""
    texts = statement_texts(words)
    if words.script and not texts:
        return Made(b"", [])
    renamed = renamed_columns(tables)
    if not words.as_written:
        texts = [(put_otherwise(text, name, tables, renamed, words, hints), name) for text, name in texts]
    made = script_of(texts, renamed)
    lines = [] if words.no_columns else [*script_lines(table.name for table in tables),
                                         digest_line(NO_DIGEST)]
    if words.script:
        name, path = named_file(words.script)
        arguments = "".join(f" arg{place}" for place in range(1, len(words.arg) + 1))
        lines += [f'spawn child "{escaped(name or os.path.basename(path))}"{arguments} else known',
                  "wait ended child", "exit ended"]
    lines += ["known:"] if lines else []
    return Made(made.data + "".join(line + "\n" for line in lines).encode(),
                made.places + ["the end of the script"] * len(lines))


def script_name(words: argparse.Namespace) -> str:
    """The path of the script that --sql and --ask make: that of the world's file without its ending, so that
    two such worlds over the same data can be joined."""
    if words.name is not None:
        return str(words.name)
    name = os.path.splitext(os.path.basename(words.output or ""))[0]
    return name if name and not name.startswith(".") else MAIN


def world_files(words: argparse.Namespace, made: Made, tables: Sequence[Table],
                given: Given = NOTHING) -> Dict[str, bytes]:
    """The files of the world by path, the start script first."""
    files = {script_name(words): made.data} if words.sql or words.ask else {}
    for word in ([words.script] if words.script else []) + words.file:
        name, path = named_file(word)
        name = name or os.path.basename(path)
        if name in files:
            raise Refused(f"two files have the path {name}; give NAME=FILE")
        files[name] = without_mark(read_file(path)) if word == words.script else read_file(path)
    for name, content in given.files.items():
        if name in files:
            raise Refused(f"two files have the path {name}")
        files[name] = content
    for name, content in ({} if words.no_columns else known_files(tables)).items():
        if name in files:
            raise Refused(f"two files have the path {name}, which says what columns are; give NAME=FILE, or "
                          "--no-columns")
        files[name] = content
    for name, content in files.items():
        check_file(name, content)
    if len(files) > MAX_FILES:
        raise Refused(f"{len(files)} files; the limit is {MAX_FILES}")
    return files


def without_mark(script: bytes) -> bytes:
    """The start script as Windows writes it, without the mark of its encoding."""
    return script[len(codecs.BOM_UTF8):] if script.startswith(codecs.BOM_UTF8) else script


def check_file(name: str, content: bytes) -> None:
    length = utf8_length(name, "a path")
    if not 1 <= length <= MAX_PATH or any(ord(c) < 32 or ord(c) == 127 for c in name):
        raise Refused(f"{name!r} is no path: it has 1 to {MAX_PATH} bytes and no control characters")
    if len(content) > MAX_FILE:
        raise Refused(f"the file {name} has {len(content)} bytes; the limit is {MAX_FILE}")


def start_words(files: Dict[str, bytes], words: argparse.Namespace) -> List[str]:
    start: List[str] = [next(iter(files))] + words.arg
    if len(start) > MAX_START_WORDS:
        raise Refused(f"{len(start)} start words; the limit is {MAX_START_WORDS}")
    for place, word in enumerate(words.arg, 1):
        length = utf8_length(word, f"--arg {place}")
        if length > MAX_TEXT:
            raise Refused(f"--arg {place} has {length} bytes; the limit is {MAX_TEXT}")
    return start


def utf8_length(text: str, what: str) -> int:
    try:
        return len(text.encode())
    except UnicodeEncodeError:
        raise Refused(f"{what}, {text!r}, isn't UTF-8") from None


# ---- the document

def table_of(table: Table) -> Tuple[str, str]:
    columns = [(column.name, column.full_kind()) for column in table.columns]
    return table.name, table_json(columns, table.key, rows_json(table.columns), foreign=table.foreign)


def summary(table: Table) -> str:
    """What became of a table, in one line."""
    columns = ", ".join(
        f"{column.name} {column.full_kind()}" + (f" (times {10 ** column.scale})" if column.scale else "")
        for column in table.columns)
    foreign = "".join(f"; ({', '.join(each.columns)}) refers to {each.parent}" for each in table.foreign)
    return f"{table.name}: {table.count} rows; {columns}; key {', '.join(table.key) or 'none'}{foreign}"


# ---- the command line

def read_words(given: Optional[Sequence[str]]) -> argparse.Namespace:
    parser = words_of(__doc__)

    def many(option: str, metavar: str, text: str) -> None:
        parser.add_argument(option, metavar=metavar, action="append", default=[], help=text)

    many("--csv", "[TABLE=]FILE", "a table from a CSV file; its name is that of the file")
    many("--sqlite", "FILE", "the tables of an SQLite database, which is only read")
    many("--table", "OLD", "of the database, only this table; may be repeated")
    many("--script", "[PATH=]FILE", "the start script (docs/SCRIPTS.md)")
    many("--sql", "FILE", "statements, each ended by a semicolon: the start script asks them one by one")
    many("--ask", "STATEMENT", "one more statement for the start script")
    parser.add_argument("--name", metavar="PATH", help="the path of the script that --sql and --ask make "
                        "(default: the name of the file of -o without its ending, else main)")
    many("--file", "[PATH=]FILE", "one more file of the world")
    many("--arg", "WORD", "one more argument of the start script")
    parser.add_argument("--seed", type=int, default=0, help="the seed of the scheduler")
    many("--key", "TABLE=COLUMN,..", "the key: NOT NULL, and no two rows have the same; or TABLE=none")
    many("--foreign", "TABLE.COLUMN,..=PARENT",
         "a foreign key: each row refers to the key of a row of PARENT; or TABLE=none, which takes none from "
         "the database")
    many("--kind", "TABLE.COLUMN=KIND", "INT, TEXT, 'INT NOT NULL' or 'TEXT NOT NULL'")
    many("--scale", "TABLE.COLUMN=N", "a column of decimals: with N = 1, 3.4 is carried as 34")
    many("--empty", "TABLE.COLUMN=text", "in this column of a CSV file an empty cell is the empty text")
    many("--unit", "TABLE.COLUMN=TEXT", "its numbers have this before or after them, such as %% or €")
    many("--date", "TABLE.COLUMN=FORM", "its dates are made texts that compare as dates: dmy (31.1.2019), "
         "mdy (1/31/2019) or ymd become 2019-01-31; time makes 09:05 of 9:05 and 21:05 of 9:05 PM")
    many("--null", "[NAME=]WORD", "in CSV files WORD is NULL too, such as NA; NAME is TABLE or TABLE.COLUMN")
    many("--rename", "OLD=NEW",
         "another name for the table OLD, for the column TABLE.OLD, or for the third column TABLE.#3")
    many("--leave-out", "NAME", "not the table OLD, or not the column TABLE.COLUMN, or the third TABLE.#3")
    many("--decimal", "[NAME=]CHARACTER", "in columns of --scale (default .); NAME as for --null")
    many("--thousands", "[NAME=]CHARACTER", "stands between thousands in columns of --scale or --kind INT; "
         "NAME as for --null. With . the default of --decimal is ,")
    parser.add_argument("--round", action="store_true",
                        help="round what has more decimals than --scale, half to even")
    parser.add_argument("--skip-blank", action="store_true",
                        help="no row for a line that has delimiters alone")
    parser.add_argument("--trim", action="store_true",
                        help="in CSV files, no blanks at the ends of cells, nor before a quote")
    parser.add_argument("--shuffle", type=int, metavar="SEED",
                        help="the rows of each table in another order, which says nothing of the order that "
                             "they had")
    parser.add_argument("--lower", action="store_true", help="names in lower case")
    parser.add_argument("--tidy", action="store_true",
                        help="what isn't a name is made one, as said above: 'Birth year' birth_year")
    many("--delimiter", "[TABLE=]CHARACTER", "of CSV files: one character, or tab (default ,)")
    many("--quotes", "[TABLE=]none", "in CSV files \" is a sign as any other, and a cell ends with its line, "
         "as cut and awk have it (default double, as in CSV)")
    many("--header", "[TABLE=]none", "a CSV file has no header: its first line is a row, and its columns are "
         "c1, c2 and so on")
    parser.add_argument("--plain", action="store_true",
                        help="texts in Unicode's form NFC, with one blank for blanks, line feeds and what "
                             "looks like them, and without characters that don't show")
    parser.add_argument("--tsv", action="store_true",
                        help="the CSV files are as COPY of PostgreSQL and --batch of MySQL write "
                        "them: tabs between cells, no quotes, \\t, \\n and \\\\ as escapes, \\N for NULL")
    many("--encoding", "[TABLE=]NAME", "of CSV files without a byte order mark (default utf-8); mixed reads "
         "each line by UTF-8 where it is that, and else by cp1252")
    parser.add_argument("-o", "--output", metavar="FILE", help="the document (default: standard output)")
    parser.add_argument("-q", "--quiet", action="store_true", help="say nothing but why it is refused")
    parser.add_argument("--strict", action="store_true", help="refuse where there is a note or a warning")
    many("--accept", "TEXT", "with --strict: not where the note or the warning has this text in it; without "
         "--strict: run the proposal in this file")
    parser.add_argument("--propose", action="store_true",
                        help="write the whole command line for the files that are given, with a comment for "
                             "each choice; --accept FILE runs it")
    parser.add_argument("--look", action="store_true",
                        help="make no document: only say what becomes of the tables, without a start script")
    parser.add_argument("--as-read", action="store_true",
                        help="in --sql and --ask constants beside a column that is carried in another form "
                             "are "
                             "as the source has them: 20 is 20.00, and '1.2.2024' is 2024-02-01")
    parser.add_argument("--as-written", action="store_true",
                        help="put no statement of --sql and --ask otherwise")
    parser.add_argument("--no-columns", action="store_true",
                        help="no files that say what columns are where they were read")
    parser.add_argument("--no-check", action="store_true", help="don't look into scripts and statements")
    words = parser.parse_args(given)
    if len(words.script) > 1:
        raise Misused("--script is given twice; a child's script goes into the world by --file NAME=PATH")
    words.script = words.script[0] if words.script else None
    check_words(words)
    return words


def check_words(words: argparse.Namespace) -> None:
    has_script = bool(words.script), bool(words.sql or words.ask)
    if words.look and (any(has_script) or words.output):
        raise Misused("--look makes no document: it goes without --script, --sql, --ask and -o")
    if not words.look and not any(has_script):
        raise Misused("give a start script: --script, or --sql and --ask, or both; --look says what becomes "
                      "of the tables without one")
    if words.accept and not words.strict:
        raise Misused("--accept goes with --strict")
    if not 0 <= words.seed < 2**64:
        raise Misused("--seed is from 0 to 18446744073709551615")
    if words.table and not words.sqlite:
        raise Misused("--table names a table of a database; give --sqlite")


def unread_columns(files: Dict[str, bytes], tables: Sequence[Table]) -> Iterator[str]:
    """That no script names the file which says of a table that its values are carried in another form."""
    scripts = [content for path, content in files.items() if not path.startswith(FOLDER)]
    for table in tables:
        known = [known_column(column) for column in table.columns]
        path = path_of(table.name)
        if any(column.is_carried or column.unit for column in known) and not any(
                path.encode() in content for content in scripts):
            lines = "; ".join([*script_lines([table.name]), "known:"])
            yield Remark(f"no script reads {path}, so that a package of the run won't say what the columns "
                         f"of {table.name} are; at the end of the script: {lines}")


def schemas_of(tables: Sequence[Table]) -> Schemas:
    return {table.name: [(column.name, column.full_kind()) for column in table.columns] for table in tables}


def check_scripts(files: Dict[str, bytes], tables: Sequence[Table], places: Sequence[str],
                  hints: List[str]) -> List[str]:
    """What would go wrong in the scripts. What looks like something else to a reader is refused. What numbers
    mean beside columns of decimals is a hint."""
    start = next(iter(files))
    found = [finding.placed(start, places) for finding in findings_of(files, start, schemas_of(tables))]
    check_joins(found)
    for finding, is_meaning in carried_findings(files, start, tables):
        finding = finding.placed(start, places)
        if is_meaning:
            hints.append(Remark(finding.text))
        else:
            found.append(finding)
    return warning_lines(found)


class World(NamedTuple):
    """A world document, and what is said of it: notes on what it lacks, warnings, hints,
    and a line for each table."""

    data: bytes
    notes: List[str]
    warnings: List[str]
    hints: List[str]
    summaries: List[str]


def made_world(words: argparse.Namespace, given: Given = NOTHING) -> World:
    progress = Progress(program_name(), words.quiet)
    notes: List[str] = []
    hints: List[str] = []
    tables = world_tables(words, notes, hints, progress, given)
    made = made_script(words, tables, hints)
    if words.look:
        return World(b"", notes, [], hints, [summary(table) for table in tables])
    files = world_files(words, made, tables, given)
    start = start_words(files, words)
    warnings = [] if words.no_check else check_scripts(files, tables, made.places, hints)
    hints += [] if words.no_columns or words.no_check else unread_columns(files, tables)
    written = list(map(table_of, tables))
    digest = digest_of(start, words.seed, files, written)
    files[start[0]] = files[start[0]].replace(digest_line(NO_DIGEST).encode(), digest_line(digest).encode())
    data = document(start, words.seed, files, written)
    return World(data, notes, warnings, hints, [summary(table) for table in tables])


def document_of(given: Sequence[str]) -> bytes:
    """The world document that the command makes of these words."""
    return made_world(read_words(given)).data


def check_strict(words: argparse.Namespace, made: World) -> None:
    said = made.notes + made.warnings + [hint for hint in made.hints if not isinstance(hint, Remark)]
    left = [each for each in said if not any(text in each for text in words.accept)]
    if left and words.strict:
        raise Refused("a world hasn't all that the database has, a column isn't what it looks like, or a "
                      f"script has a line that fails (--strict; --accept TEXT lets one pass): {left[0]}")


def propose(given: Sequence[str], path: Optional[str]) -> int:
    """Writes the command line that carries the files that are given."""
    progress = Progress(program_name(), True)

    def make(each: Sequence[str], notes: List[str], hints: List[str]) -> List[Table]:
        return world_tables(read_words(["--look", *plain_words(each)]), notes, hints, progress)

    with reading_once():
        write_file(proposal(given, make).encode(), path)
    return 0


# Options of a call that say nothing of tables, with their values.
OF_CALLS = ("--sql", "--ask", "--script", "--file", "--arg", "--name", "--seed", "-o", "--output")


def plain_words(words: Sequence[str]) -> List[str]:
    """The words that say how tables are read."""
    found: List[str] = []
    place = 0
    while place < len(words):
        if words[place] in OF_CALLS:
            place += 2
            continue
        found += [words[place]] if not words[place].startswith(tuple(f"{each}=" for each in OF_CALLS)) else []
        place += 1
    return found


def work(given: Optional[Sequence[str]]) -> int:
    given = list(sys.argv[1:] if given is None else given)
    if "--propose" in given:
        # The words are looked at as they will be; where the proposal goes is no matter of it.
        return propose(given, None)
    if "--accept" in given and "--strict" not in given:
        at = given.index("--accept")
        path = given[at + 1] if at + 1 < len(given) else ""
        return work(accepted(read_file(path).decode(errors="replace"), path) + given[:at] + given[at + 2:])
    words = read_words(given)
    made = made_world(words)
    if not words.quiet:
        for note in made.notes:
            print(f"{program_name()}: note: {note}", file=sys.stderr)
    check_strict(words, made)
    if not words.look:
        write_file(made.data, words.output)
    if not words.quiet:
        for line in made.warnings + made.hints + made.summaries:
            print(f"{program_name()}: {line}", file=sys.stderr)
    return 0


def main(given: Optional[Sequence[str]] = None) -> int:
    # Rows are millions of lists and no cycles: to look for these takes half of the time.
    was_on = gc.isenabled()
    gc.disable()
    try:
        return command(work, given, "world")
    finally:
        if was_on:
            gc.enable()


if __name__ == "__main__":
    sys.exit(main())
