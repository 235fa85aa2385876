"""Runs a Python program, and makes a world of what it asks its database.

    tools/capture.py --sqlite study.db -o study.json -- python3 analysis.py --year 2019
    ldv record < study.json > study.package
    tools/playback.py study.package -- python3 analysis.py --year 2019

The program runs as ever: with its arguments, its standard streams and its exit status. A recorder in it
notes each statement that it asks by sqlite3 or by psycopg2, and the result. The world has the tables that the
statements name, as they were before the first one, and a script that asks the statements in the order in
which they took effect. `ldv run` runs the world, and each reply is compared with what the program saw.

A statement of another dialect is translated into that of docs/SQL.md if the translation is exact. Each other
one is named with its line in the program, the reason and a way around, and no world is made. With
--skip-unreadable these are left out, and played back as they were seen. docs/PROGRAMS.md says what is exact,
and what each message means.

The options from --scale to --unit are those of tools/world.py. Decimals are carried as whole numbers, and the
program gets them back as decimals. A file of the world says so of each column, by which the other tools show
decimals with their units. Names become names of a world as --tidy makes them.

Statuses: that of the program if it isn't 0; else 0 if each statement has the answers that the database gave;
1 if one has others, if one can't be asked here, or if nothing was captured; 2 if the words of the command
line are wrong. """
from __future__ import annotations

import argparse
import os
import sys
import tempfile
from typing import Dict, List, NamedTuple, Optional, Sequence

from .captured import Event, Log, read_logs
from .captured_judge import Judged, judge
from .captured_order import in_order
from .captured_plan import Fates, Planner, fates_of, named_tables
from .captured_postgres import Before, server_tables
from .captured_report import different_lines, report, seen_lines, unreadable_lines, verdict
from .captured_run import check_program, has_foreign_keys, program_of, replies_of, run_program
from .captured_tables import Taken, copy_database, names_there, related, tables_taken
from .captured_world import REPORT_FILE, SEEN_FILE, counts_of, script_of, seen_file
from .columns import FOLDER
from .dialects import POSTGRES, SQLITE
from .documents import document, write_file
from .errors import Misused, Refused, command, program_name, words_of
from .language import MAX_FILE
from .values import plain_count
from .world import MAIN, check_file, summary, table_of
from .world_csv import named_file, read_file
from .world_hints import quoted_word
from .world_known import known_files

# The options that are those of world.py, each with what its word looks like and what it says.
FORWARDED = {
    "scale": ("TABLE.COLUMN=N", "a column of decimals: with N = 1, 3.4 is carried as 34, and the program "
              "gets 3.4"),
    "kind": ("TABLE.COLUMN=KIND", "INT, TEXT, 'INT NOT NULL' or 'TEXT NOT NULL'"),
    "rename": ("OLD=NEW", "another name in the world for the table OLD, or for the column TABLE.OLD"),
    "leave_out": ("NAME", "not the table OLD, or not the column TABLE.COLUMN"),
    "key": ("TABLE=COLUMN,..", "the key: NOT NULL, and no two rows have the same; or TABLE=none"),
    "foreign": ("TABLE.COLUMN,..=PARENT", "a foreign key: each row refers to the key of a row of PARENT; or "
                "TABLE=none, which takes none from the database"),
    "date": ("TABLE.COLUMN=FORM", "its dates are made texts that compare as dates: dmy (31.1.2019), mdy "
             "(1/31/2019) or ymd become 2019-01-31"),
    "unit": ("TABLE.COLUMN=TEXT", "its numbers have this unit, such as %% or €")}


class Capture(NamedTuple):
    """What was captured: the log, the tables, what became of each statement, and the files of the world but
    its script and what was seen."""

    log: Log
    driver: str
    taken: Taken
    fates: Fates
    files: Dict[str, bytes]


# ---- the world

def options_of(words: argparse.Namespace) -> List[str]:
    """The options that are those of world.py."""
    found: List[str] = []
    for name in FORWARDED:
        for value in getattr(words, name):
            found += ["--" + name.replace("_", "-"), value]
    return found


def files_of(words: argparse.Namespace, log: Log) -> Dict[str, bytes]:
    """The source of the program, where it is one file, and the files of --file."""
    sources = [path for path in log.files if os.path.isfile(path)]
    paths = {os.path.basename(path): path for path in sources[:1]} if len(sources) == 1 else {}
    for word in words.file:
        name, path = named_file(word)
        paths[name or os.path.basename(path)] = path
    found: Dict[str, bytes] = {}
    for name, path in paths.items():
        if name in (MAIN, SEEN_FILE, REPORT_FILE) or name.startswith(FOLDER):
            raise Refused(f"the world has a file {name} of its own; give "
                          f"--file NAME={quoted_word(path)}")
        found[name] = read_file(path)
        check_file(name, found[name])
    return found


def captured(words: argparse.Namespace, log: Log, base: str, before: Optional[Before]) -> Capture:
    """What becomes of a log, with the database as it was before."""
    driver = SQLITE if before is None else POSTGRES
    if before is None:
        name_others(log, words.sqlite)
    else:
        name_other_databases(log, before.name)
    log.events = [event for event in log.events if event.connection.driver == driver]
    ordered = in_order(log.events)
    names = {name.lower() for name in named_tables(ordered.events)}
    if before is None:
        there, views = names_there(base)
        taken = file_tables(words, ordered.events, base, [name for name in there if name.lower() in names])
    else:
        known = before.copy(sorted(names))
        there, views = known["there"], known["views"]
        taken = server_tables(base, known, options_of(words))
    fates = fates_of(ordered.events, ordered.undone, Planner(taken.shapes, there, views))
    return Capture(log, driver, taken, fates, {**files_of(words, log), **columns_of(words, taken)})


def name_others(log: Log, path: str) -> None:
    """Names the other database files of connections, and those in memory."""
    for connection in log.connections:
        if connection.driver == SQLITE and os.path.realpath(connection.where or "") != os.path.realpath(path):
            connection.away = os.path.basename(connection.where) or "one in memory"


def name_other_databases(log: Log, name: str) -> None:
    """Names the other databases of servers. One server may have several addresses, so the name of a database
    alone counts."""
    for connection in log.connections:
        if connection.driver == POSTGRES and connection.where.rpartition(" at ")[0] != name:
            connection.away = connection.where


def columns_of(words: argparse.Namespace, taken: Taken) -> Dict[str, bytes]:
    """The files that say what the columns are in the database. The program changes that, so they don't have
    its digest."""
    for table in taken.tables:
        table.path, table.digest = words.sqlite or "", ""
    return known_files(taken.tables)


def file_tables(words: argparse.Namespace, events: Sequence[Event], base: str, named: List[str]) -> Taken:
    """The tables of a database file, with their foreign keys where these are looked at."""
    options = options_of(words)
    if has_foreign_keys(events):
        named = related(base, named)
    else:
        options += [word for name in named for word in ("--foreign", f"{name}=none")
                    if not any(given.startswith(name + "=") for given in words.foreign)]
    return tables_taken(base, named, options)


def world_of(capture: Capture, judged: Dict[int, Judged], told: bytes) -> bytes:
    """The world document."""
    marks = {event.number: fate for event, fate in capture.fates}
    seen = seen_file(capture.log, marks, judged)
    if len(seen) > MAX_FILE:
        raise Refused(f"what the program saw takes {len(seen)} bytes in the world; the limit is {MAX_FILE}")
    files = {**capture.files, SEEN_FILE: seen, REPORT_FILE: told}
    script = script_of(capture.fates, list(files))
    if len(script) > MAX_FILE:
        raise Refused(f"the script that asks the statements has {len(script)} bytes; the limit is {MAX_FILE}")
    return document([MAIN], 0, {MAIN: script, **files}, [table_of(table) for table in capture.taken.tables])


# ---- what is said

def say(text: str) -> None:
    print(f"{program_name()}: {text}", file=sys.stderr)


def check_log(log: Log, driver: str) -> None:
    """Refuses what has no statement in it, with what may be why."""
    if any(event.connection.driver == driver for event in log.events):
        return
    others = f"; it imports {', '.join(log.drivers)}, which isn't watched: sqlite3 and psycopg2 are" \
        if log.drivers else ""
    if not log.processes:
        raise Refused("no statement was asked; is it a Python program, started without -I, -E or -S? The "
                      "recorder "
                      f"comes in by PYTHONPATH{others}")
    raise Refused(f"no statement was asked by {driver}{others}")


def check_others(log: Log, base: str, driver: str) -> None:
    """Names what was asked another database."""
    for connection in log.connections:
        if connection.driver != driver:
            say(f"connection {connection.number} of process {connection.process} is to {connection.where} by "
                f"{connection.driver}, and isn't captured")


def conclude(words: argparse.Namespace, capture: Capture) -> int:
    """Judges what was captured, writes the world and says what is to be said."""
    counts = counts_of(capture.fates)
    for line in seen_lines(capture.fates):
        say(line)
    for line in unreadable_lines(capture.fates):
        say(line)
    if counts.unreadable and not words.skip_unreadable:
        raise Refused(f"{counts.unreadable} of {counts.asked + counts.unreadable} statements can't be asked "
                      f"here, and "
                      "no world is made; --skip-unreadable leaves them out, and plays them back from what "
                      "was seen")
    replies = replies_of(program_of(words.ldv), world_of(capture, {}, b""), counts.asked)
    judged = judge(capture.fates, replies)
    said = [*capture.taken.notes, *map(summary, capture.taken.tables)]
    told = report(capture.log, capture.fates, judged, capture.driver, said)
    write_file(world_of(capture, judged, told.encode(errors="replace")), words.output)
    if words.report:
        write_file(told.encode(errors="replace"), words.report)
    return say_verdict(words, capture, judged)


def say_verdict(words: argparse.Namespace, capture: Capture, judged: Dict[int, Judged]) -> int:
    if not words.quiet:
        for note in capture.taken.notes:
            say(f"note: {note}")
        for table in capture.taken.tables:
            say(summary(table))
    different = list(different_lines(capture.fates, judged, capture.driver))
    for line in different:
        say(line)
    say(verdict(capture.fates, judged, capture.driver))
    unreadable = counts_of(capture.fates).unreadable
    if unreadable:
        say(f"{plain_count(unreadable, 'statement')} not packed, and played back as seen")
    return 1 if different else 0


# ---- the command line

def read_words(given: Optional[Sequence[str]]) -> argparse.Namespace:
    parser = words_of(__doc__)
    parser.add_argument("--sqlite", metavar="FILE", help="the SQLite file that the program asks")
    parser.add_argument("--postgres", metavar="DSN", help="the PostgreSQL database that the program asks, as "
                        "psycopg2.connect takes it: 'host=db.example.org dbname=study user=ada'")
    parser.add_argument("-o", "--output", metavar="FILE", required=True,
                        help="the world document that is made")
    parser.add_argument("--report", metavar="FILE", help="write what became of each statement; the world has "
                        "the same in capture.txt")
    parser.add_argument("--ldv", metavar="PROGRAM", help="the program ldv (default: that of this checkout, "
                        "or the one on PATH)")
    parser.add_argument("--skip-unreadable", action="store_true",
                        help="leave out the statements that can't be asked here; the playback gives them the "
                        "answers that were seen")
    parser.add_argument("--file", metavar="[PATH=]FILE", action="append", default=[],
                        help="one more file for the package")
    for name, (metavar, told) in FORWARDED.items():
        parser.add_argument("--" + name.replace("_", "-"), metavar=metavar, action="append", default=[],
                            help=told)
    parser.add_argument("-q", "--quiet", action="store_true", help="say nothing of the tables")
    parser.add_argument("program", nargs=argparse.REMAINDER, metavar="-- PROGRAM ..",
                        help="the Python program and its arguments")
    words = parser.parse_args(given)
    if words.program[:1] == ["--"]:
        del words.program[0]
    if not words.program:
        raise Misused("give the program after --")
    if (words.sqlite is None) == (words.postgres is None):
        raise Misused("give the database that it asks: --sqlite FILE or --postgres DSN")
    return words


def work(given: Optional[Sequence[str]]) -> int:
    words = read_words(given)
    check_program(words.program[0])
    program_of(words.ldv)
    driver = SQLITE if words.sqlite is not None else POSTGRES
    with tempfile.TemporaryDirectory() as folder:
        base = os.path.join(folder, "before.db")
        before: Optional[Before] = None
        if words.sqlite is not None:
            copy_database(words.sqlite, base)
        else:
            before = Before(words.postgres, base, words.program)
        status = run_program(words.program, "record", folder)
        log = read_logs(folder)
        try:
            check_log(log, driver)
            check_others(log, base, driver)
            verdict_status = conclude(words, captured(words, log, base, before))
        except Refused as fault:
            say(str(fault))
            verdict_status = 1
        finally:
            if before is not None:
                before.end()
    return status or verdict_status


def main(given: Optional[Sequence[str]] = None) -> int:
    return command(work, given, "program")


if __name__ == "__main__":
    sys.exit(main())
