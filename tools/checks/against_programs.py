#!/usr/bin/env python3
"""Runs random programs over random databases, captured, recorded and played back, and compares all.

    python3 tools against_programs                            20 programs of 40 statements each
    python3 tools against_programs --programs 1000            1,000 programs
    python3 tools against_programs --seed 7 --programs 1      the same program again
    python3 tools against_programs --ldv PROGRAM              another program ldv

Each program asks an SQLite database by Python's `sqlite3`: the tables and most of the statements are those of
against_sqlite.py, spelled in other ways at random (quoted names, `==`, named parameters, aliases without AS),
with statements of SQLite beside them that the dialect hasn't (BETWEEN, IN, LIKE, AVG, COUNT in a join,
OFFSET, an order by what isn't asked for), executemany and transactions that are rolled back. It prints each
answer. The program runs by itself, under tools/capture.py, and by tools/playback.py over the package with its
rows or with its replies, when the database isn't there any more. All three have to print the same, and
capture.py has to find that each statement has the answer that SQLite gave.

What is left out is what against_sqlite.py leaves out, and statements in which a number leaves 64 bits.

Statuses: 0 no difference; 1 a difference, or a program that failed; 2 wrong words.
"""
from __future__ import annotations

import argparse
import contextlib
import io
import json
import os
import random
import sqlite3
import subprocess
import sys
import tempfile
from typing import Any, Callable, Optional, Sequence
from unittest import mock

from ldvtools import capture, captured_run, playback
from ldvtools.dialects import tokens_of
from ldvtools.errors import words_of

from . import against_sqlite
from .against_sqlite import Asked, Maker, Source, Table, Value

PROGRAM = """import json, sqlite3, sys
base = sqlite3.connect("random.db", isolation_level=None if sys.argv[1] == "none" else "")
if sys.argv[2] == "rows":
    base.row_factory = sqlite3.Row
base.execute("PRAGMA foreign_keys = ON")
for way, text, params in json.load(open("statements.json")):
    try:
        if way in ("commit", "rollback"):
            print(way, getattr(base, way)())
            continue
        cursor = base.executemany(text, params) if way == "many" else base.execute(text, params)
        rows = [tuple(row) for row in cursor] if way == "one" else cursor.fetchmany(2)
        print(way, rows, cursor.rowcount, cursor.description and [each[0] for each in cursor.description])
    except sqlite3.Error as fault:
        print(type(fault).__name__, fault)
base.commit()
"""
WORDS = ("SELECT", "FROM", "WHERE", "t", "u", "v", "c0", "c1", "c2", "c3")


class Programs(Maker):
    """Makes statements that the dialect hasn't, beside those of Maker."""

    def other(self, tables: Sequence[Table]) -> Asked:
        """A statement of SQLite that has to be put into the dialect."""
        self.params = []
        makers = [self.between, self.among, self.like, self.average, self.joined, self.unasked]
        return self.chance.choice(makers)(tables)

    def one_table(self, tables: Sequence[Table]) -> tuple[list[Source], Table]:
        table = self.chance.choice(tables)
        return [Source(table.name, table)], table

    def columns(self, scope: Sequence[Source], text: Optional[bool] = None) -> list[str]:
        return [column.name for column in scope[0].table.columns if text is None or column.text == text]

    def between(self, tables: Sequence[Table]) -> Asked:
        scope, table = self.one_table(tables)
        name = self.chance.choice(self.columns(scope))
        text = next(column.text for column in table.columns if column.name == name)
        values = [self.constant(self.chance.choice(against_sqlite.TEXTS) if text else self.number())
                  for _ in range(2)]
        no = self.chance.choice(["", "NOT "])
        return Asked(f"SELECT * FROM {table.name} WHERE {name} {no}BETWEEN {values[0]} AND {values[1]}",
                     self.params, [])

    def among(self, tables: Sequence[Table]) -> Asked:
        scope, table = self.one_table(tables)
        name = self.chance.choice(self.columns(scope))
        text = next(column.text for column in table.columns if column.name == name)
        values = [self.constant(self.chance.choice(against_sqlite.TEXTS) if text else self.number())
                  for _ in self.some(30, 1)]
        no = self.chance.choice(["", "NOT "])
        return Asked(f"SELECT * FROM {table.name} WHERE {name} {no}IN ({', '.join(values)})", self.params, [])

    def like(self, tables: Sequence[Table]) -> Asked:
        scope, table = self.one_table(tables)
        names = self.columns(scope, True)
        if not names:
            return self.between(tables)
        prefix = self.chance.choice(["a", "A", "ab", "z ", "9", "1", "nu", "a''b"])
        end = self.chance.choice(["%", "%", ""])
        return Asked(f"SELECT * FROM {table.name} WHERE {self.chance.choice(names)} LIKE '{prefix}{end}'",
                     [], [])

    def average(self, tables: Sequence[Table]) -> Asked:
        scope, table = self.one_table(tables)
        names = self.columns(scope, False)
        if not names:
            return self.between(tables)
        name = self.chance.choice(names)
        by = self.chance.choice(self.columns(scope))
        group = f" GROUP BY {by}" if self.perhaps(0.5) else ""
        return Asked(f"SELECT COUNT(*) n, AVG({name}), SUM({name}) FROM {table.name}{group}", [], [])

    def joined(self, tables: Sequence[Table]) -> Asked:
        number = [table for table in tables
                  if any(not column.text and column.not_null for column in table.columns)]
        if not number:
            return self.average(tables)
        first, second = self.chance.choice(number), self.chance.choice(tables)
        name = self.chance.choice(first.columns).name
        text = next(column.text for column in first.columns if column.name == name)
        others = [column.name for column in second.columns if column.text == text]
        on = f" ON x.{name} = y.{self.chance.choice(others)}" if others else ""
        group = f" GROUP BY x.{name} ORDER BY COUNT(*)" if self.perhaps(0.6) else ""
        return Asked(f"SELECT COUNT(*) FROM {first.name} x JOIN {second.name} AS y{on}{group}", [], [])

    def unasked(self, tables: Sequence[Table]) -> Asked:
        """Ordered by all columns, of which one is asked for, with LIMIT and OFFSET."""
        scope, table = self.one_table(tables)
        names = self.columns(scope)
        order = ", ".join(f"{name}{self.chance.choice(['', ' DESC'])}" for name in names)
        limit = f" LIMIT {self.limit()} OFFSET {self.limit()}" if self.perhaps(0.6) else ""
        return Asked(f"SELECT {self.chance.choice(names)} one FROM {table.name} ORDER BY {order}{limit}",
                     self.params, [])

    # ---- spelling

    def spelled(self, text: str, params: Sequence[Value]) -> tuple[str, Any]:
        """The same statement in another spelling, with its parameters perhaps by name."""
        named = self.perhaps(0.3) and bool(params)
        parts, count = [], 0
        for token in tokens_of(text)[:-1]:
            shown = text[token.at:token.at + len(token.text)]
            if token.kind == "text":
                shown = "'" + token.text.replace("'", "''") + "'"
            elif token.kind == "word" and shown in WORDS and shown.islower():
                shown = self.chance.choice([shown, shown.upper(), f'"{shown}"', f"[{shown}]", f"`{shown}`"])
            elif token.kind == "parameter":
                shown = f":p{count}" if named else shown
                count += 1
            elif token.text in ("=", "<>"):
                shown = self.chance.choice({"=": ["=", "=="], "<>": ["<>", "!="]}[token.text])
            parts.append(shown)
        blank = self.chance.choice([" ", "\n  ", " /* a comment */ "])
        return blank.join(parts), {f"p{place}": value for place,
                                   value in enumerate(params)} if named else params


def statements_of(seed: int, count: int) -> tuple[list[Table], list[list[Any]]]:
    """The tables of a seed, and its statements: how each is asked, its text and its parameters."""
    maker = Programs(random.Random(seed))
    tables, asked = against_sqlite.made(seed, count)
    base = against_sqlite.opened(tables)
    found = []
    for each in asked:
        if maker.perhaps(0.3):
            each = maker.other(tables)
        if against_sqlite.reply_of(base, each) is None:
            continue
        found.append(["one", *maker.spelled(each.text, each.params)])
        if maker.perhaps(0.1):
            found.append([maker.chance.choice(["commit", "commit", "rollback"]), "", []])
        if maker.perhaps(0.1):
            table = maker.chance.choice(tables)
            marks = ", ".join("?" * len(table.columns))
            rows = [[maker.value(column) for column in table.columns] for _ in maker.some(4)]
            found.append(["many", f"INSERT INTO {table.name} VALUES ({marks})", rows])
    base.close()
    return tables, found


def make_database(tables: Sequence[Table], path: str) -> None:
    base = against_sqlite.opened(tables)
    with contextlib.closing(sqlite3.connect(path)) as other:
        base.backup(other)
    base.close()


def output_of(work: Callable[[], int], path: str) -> tuple[int, str]:
    """What a command ends with and says, while the program that it runs prints into a file."""
    plain_run, said = captured_run.run_program, io.StringIO()
    with open(path, "wb") as file:
        def run(words: Sequence[str], mode: str, folder: str, output: Optional[Any] = None) -> int:
            return plain_run(words, mode, folder, output or file)
        with mock.patch.object(capture, "run_program", run), \
                mock.patch.object(playback, "run_program", run), contextlib.redirect_stderr(said):
            status = work()
    return status, said.getvalue()


def read(path: str) -> bytes:
    with open(path, "rb") as file:
        return file.read()


def difference(program: str, seed: int, count: int) -> Optional[str]:
    """What differs of the program of a seed, in the current folder; or None."""
    tables, statements = statements_of(seed, count)
    with open("statements.json", "w", encoding="utf-8") as file:
        json.dump(statements, file)
    with open("program.py", "w", encoding="utf-8") as file:
        file.write(PROGRAM)
    words = [sys.executable, "program.py", ["none", "begin"][seed % 2], ["tuples", "rows"][seed // 2 % 2]]
    make_database(tables, "random.db")
    plain = subprocess.run(words, stdout=subprocess.PIPE, check=False).stdout
    os.remove("random.db")
    make_database(tables, "random.db")
    status, said = output_of(lambda: capture.main(
        ["-q", "--ldv", program, "--sqlite", "random.db", "-o", "world.json", "--", *words]), "captured.out")
    if status:
        return f"capture.py ends with {status}: {said}"
    if read("captured.out") != plain:
        return "under capture.py the program prints other lines"
    os.remove("random.db")
    kind = [["record"], ["record", "--excluded"]][seed // 4 % 2]
    package = subprocess.run([program, *kind], input=read("world.json"), stdout=subprocess.PIPE, check=False)
    with open("package", "wb") as file:
        file.write(package.stdout)
    status, said = output_of(lambda: playback.main(["--ldv", program, "package", "--", *words]), "played.out")
    if status:
        return f"playback.py ends with {status}: {said}"
    if os.path.exists("random.db"):
        return "played back, the program makes a file of a database"
    return None if read("played.out") == plain else "played back, the program prints other lines"


def compare(program: str, seed: int, count: int) -> Optional[str]:
    """What differs of the program of a seed, in a folder of its own."""
    before = os.getcwd()
    with tempfile.TemporaryDirectory() as folder:
        os.chdir(folder)
        try:
            return difference(program, seed, count)
        finally:
            os.chdir(before)


def read_words(given: Optional[Sequence[str]]) -> argparse.Namespace:
    words = words_of(__doc__)
    words.add_argument("--programs", type=int, default=20, metavar="N")
    words.add_argument("--statements", type=int, default=40, metavar="N", help="of each program (default 40)")
    words.add_argument("--seed", type=int, default=1, metavar="N", help="of the first program (default 1)")
    words.add_argument("--ldv", metavar="PROGRAM", help="the program ldv (default: that of this checkout)")
    return words.parse_args(given)


def main(given: Optional[Sequence[str]] = None) -> int:
    words = read_words(given)
    program = os.path.abspath(captured_run.program_of(words.ldv))
    for seed in range(words.seed, words.seed + words.programs):
        found = compare(program, seed, words.statements)
        if found is not None:
            print(f"seed {seed}: {found}")
            return 1
    print(f"{words.programs} programs, SQLite {sqlite3.sqlite_version}: no difference")
    return 0


if __name__ == "__main__":
    sys.exit(main())
