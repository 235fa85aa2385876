"""capture.py and playback.py over sqlite3: a program captured, recorded and played back."""
from __future__ import annotations

import contextlib
import json
import os
import re
import signal
import sqlite3
import subprocess
import sys
import textwrap
import unittest
from typing import Any, Optional
from unittest import mock

from ldvtools import capture, playback
from ldvtools.captured import read_logs
from ldvtools.captured_run import run_program

from . import support
from .support import TOOLS, InFolder, command, each_of, make_database, read

TABLES = """
CREATE TABLE people (id INTEGER PRIMARY KEY, name TEXT NOT NULL, born INT, height REAL, site TEXT);
CREATE TABLE visits (id INTEGER PRIMARY KEY, person INT REFERENCES people (id), day DATE, dose INT);
CREATE TABLE other (x INT);
INSERT INTO people VALUES (1, 'Ada', 1985, 1.7, 'north'), (2, 'Bo', 1990, 1.82, 'south'), (3, 'Cy', NULL,
1.65, 'north'); INSERT INTO visits VALUES (1, 1, '2019-01-02', 10), (2, 2, '2019-01-03', 20), (3, 1,
'2019-02-01', NULL); """
SCALES = ("--scale", "people.height=2")
BEGIN = "import sqlite3, sys\ncon = sqlite3.connect('study.db')\n"


class Programs(InFolder):
    """Tests that run programs over a database of their folder."""

    tables = TABLES
    begin = BEGIN

    def setUp(self) -> None:
        super().setUp()
        before = os.getcwd()
        os.chdir(self.folder)
        self.addCleanup(os.chdir, before)
        self.make()

    def make(self) -> None:
        for name in os.listdir("."):
            if name.startswith("study.db"):
                os.remove(name)
        make_database("study.db", self.tables)

    def program(self, text: str, begin: Optional[str] = None) -> list[str]:
        self.put("program.py", (self.begin if begin is None else begin) + textwrap.dedent(text))
        return [sys.executable, "program.py"]

    def plain(self, words: list[str]) -> tuple[int, bytes, bytes]:
        """What a program writes without a recorder, and its status."""
        self.make()
        return command(words)

    def capture(self, words: list[str], *options: str, status: int = 0) -> tuple[bytes, str]:
        """Captures a program over the database as it was: what it writes, and what capture.py says."""
        self.make()
        got, out, err = command([sys.executable, os.path.join(TOOLS, "capture.py"), "-q", "--ldv",
                                 support.PROGRAM,
                                 "--sqlite", "study.db", "-o", "world.json", *options, "--", *words])
        self.assertEqual(got, status, err.decode())
        return out, err.decode()

    def world(self) -> Any:
        return json.loads(read("world.json"))

    def statements(self) -> list[str]:
        """The statements of the script."""
        return [line for line in self.world()["files"]["main"].split("\n") if line.startswith("sql ")]

    def record(self, *kind: str) -> None:
        done = subprocess.run([support.PROGRAM, "record", *kind], input=read("world.json"),
                              stdout=subprocess.PIPE, check=True)
        self.put("package", done.stdout)

    def play(self, words: list[str], *options: str, status: int = 0) -> tuple[bytes, str]:
        """Plays a program without the database: what it writes, and what playback.py says."""
        with contextlib.suppress(FileNotFoundError):
            os.rename("study.db", "study.gone")
        got, out, err = command([sys.executable, os.path.join(TOOLS, "playback.py"), "--ldv", support.PROGRAM,
                                 *options, "package", "--", *words])
        self.assertEqual(got, status, err.decode())
        self.assertFalse(os.path.exists("study.db"))
        return out, err.decode()

    def whole(self, text: str, *options: str, begin: Optional[str] = None) -> tuple[str, str]:
        """A program whose output is the same by itself, captured, and played back of either package."""
        words = self.program(text, begin)
        expected = self.plain(words)
        self.assertEqual(expected[0], 0, expected[2].decode())
        out, said = self.capture(words, *options)
        self.assertEqual(out, expected[1])
        for kind in ((), ("--excluded",)):
            self.record(*kind)
            self.assertEqual(self.play(words)[0], expected[1])
        return expected[1].decode(), said

    needs_ldv = True

    def run(self, result: Optional[unittest.TestResult] = None) -> Optional[unittest.TestResult]:
        if result is not None and self.needs_ldv and not os.access(support.PROGRAM, os.X_OK):
            reason = f"{support.PROGRAM} isn't there; compile it with ./ldv"
            result.startTest(self)
            result.addSkip(self, reason)
            result.stopTest(self)
            return result
        return super().run(result)


class Whole(Programs):
    def test_queries(self) -> None:
        """Rows, heads and kinds come back: decimals as floats, averages, counts of joins, LIKE, named
        parameters."""
        out, said = self.whole("""
            con.row_factory = sqlite3.Row
            young = con.execute("SELECT name, height FROM people WHERE born > :b ORDER BY name", {"b": 1980})
            for row in young:
                print(row.keys(), tuple(row), row["name"])
            con.row_factory = None
            join = "FROM people p JOIN visits v ON v.person = p.id"
            print(con.execute(f"SELECT p.site, COUNT(*) n {join} GROUP BY p.site ORDER BY n DESC").fetchall())
            print(con.execute(f"SELECT COUNT(*) {join} WHERE dose > 99").fetchone())
            text = "SELECT AVG(dose), SUM(dose) FROM visits WHERE day LIKE '2019-01-%'"
            print(con.execute(text).fetchone())
            cursor = con.execute("SELECT * FROM visits LIMIT 2 OFFSET 1")
            print([each[0] for each in cursor.description])
            print(cursor.fetchmany(1), cursor.fetchmany(5), cursor.fetchone())
            """, *SCALES)
        self.assertIn("(15.0, 30)", out)
        self.assertIn("5 of 5 statements have the answers that SQLite gave", said)
        self.assertEqual(sorted(self.world()["tables"]), ["people", "visits"])

    def test_changes(self) -> None:
        """Keys that the database gives, executemany, commits, refusals, and what is rolled back."""
        out, said = self.whole("""
            cursor = con.cursor()
            cursor.execute("INSERT INTO visits (person, day, dose) VALUES (?, ?, ?)", (3, "2019-03-03", 5))
            print(cursor.lastrowid, con.in_transaction)
            print(cursor.executemany("INSERT INTO visits (person, dose) VALUES (:p, :d)",
                                     ({"p": p, "d": p * 2} for p in (1, 2))).rowcount)
            con.commit()
            print(con.in_transaction, con.execute("SELECT * FROM visits ORDER BY id").fetchall())
            with con:
                print(con.execute("UPDATE people SET height = 1.9 WHERE id = 1").rowcount)
            try:
                con.execute("INSERT INTO people VALUES (1, 'X', 1, 1.0, 's')")
            except sqlite3.IntegrityError as fault:
                print(fault)
            try:
                con.execute("INSERT INTO people (id) VALUES (9)")
            except sqlite3.IntegrityError as fault:
                print(fault)
            con.rollback()
            con.execute("DELETE FROM people WHERE id = 2")
            print(con.execute("SELECT COUNT(*) FROM people").fetchone())
            con.rollback()
            print(con.execute("SELECT id, height FROM people ORDER BY 1").fetchall(), con.total_changes)
            try:
                with con:
                    con.execute("DELETE FROM visits")
                    raise KeyError("stop")
            except KeyError:
                print(con.execute("SELECT COUNT(*) FROM visits").fetchone())
            """, *SCALES)
        self.assertIn("UNIQUE constraint failed: people.id", out)
        self.assertIn("asked after a change that was rolled back, and so it isn't packed", said)
        self.assertIn('sql q "INSERT INTO visits VALUES (4, ?, ?, ?)" 3 "2019-03-03" 5', self.statements())
        self.assertFalse([line for line in self.statements() if "DELETE" in line])

    def test_refusal(self) -> None:
        """A refusal of a statement that is asked by itself is one here too."""
        _, said = self.whole("""
            con.isolation_level = None
            con.execute("PRAGMA foreign_keys = ON")
            for text in ("INSERT INTO people VALUES (1, 'X', 1, 1.0, 's')",
                         "INSERT INTO people (id) VALUES (9)",
                         "INSERT INTO visits VALUES (9, 77, NULL, NULL)", "DELETE FROM people WHERE id = 1",
                         "SELECT * FROM nowhere", "SELEC"):
                try:
                    con.execute(text)
                except sqlite3.Error as fault:
                    print(type(fault).__name__, fault)
            try:
                con.executemany("INSERT INTO other VALUES (?)", [(1,), (2, 3)])
            except sqlite3.Error as fault:
                print(type(fault).__name__)
            print(con.execute("SELECT * FROM other").fetchall())
            """, *SCALES)
        self.assertIn("6 of 6 statements have the answers", said)
        self.assertIn("foreign", self.world()["tables"]["visits"])

    def test_orders(self) -> None:
        """Rows that no order settles come back as they were seen, also where ldv has them in another
        order."""
        self.tables = TABLES + "CREATE INDEX by_site ON people (site DESC, name DESC);"
        self.whole("""
            print(con.execute("SELECT site, name FROM people WHERE site > ''").fetchall())
            print(con.execute("SELECT DISTINCT site FROM people").fetchall())
            print(con.execute("SELECT name FROM people ORDER BY site").fetchall())
            """, *SCALES)
        self.assertIn('"order"', self.world()["files"]["capture.json"])

    def test_own_classes(self) -> None:
        """Factories and subclasses of the program, converters, and text_factory."""
        self.whole("""
            import datetime
            class Own(sqlite3.Connection):
                def names(self):
                    return [row[0] for row in self.execute("SELECT name FROM people ORDER BY 1")]
            class Cursor(sqlite3.Cursor):
                def first(self):
                    return self.fetchone()
            con = sqlite3.connect("study.db", factory=Own, detect_types=sqlite3.PARSE_DECLTYPES)
            print(con.names(), isinstance(con, sqlite3.Connection), type(con).__name__)
            day = (datetime.date(2019, 1, 3),)
            print(con.cursor(Cursor).execute("SELECT day FROM visits WHERE day = ?", day).first())
            def named(cursor, row):
                return dict(zip([each[0] for each in cursor.description], row))
            cursor = con.cursor()
            cursor.row_factory = named
            print(cursor.execute("SELECT id, day FROM visits ORDER BY id").fetchall())
            con.text_factory = bytes
            print(con.execute("SELECT name FROM people ORDER BY id").fetchall())
            """, *SCALES, begin="import sqlite3\n")

    def test_connections(self) -> None:
        """Two connections: what one has committed only later the other one doesn't see yet, and it isn't
        asked so."""
        self.whole("""
            other = sqlite3.connect("study.db")
            text = "SELECT x FROM other"
            con.execute("INSERT INTO other VALUES (1)")
            print(other.execute(text).fetchall(), con.execute(text).fetchall())
            con.commit()
            print(other.execute(text).fetchall())
            other.execute("UPDATE other SET x = x + 1")
            other.commit()
            print(con.execute(text).fetchone())
            con.execute("DELETE FROM other")
            con.close()
            print(other.execute(text).fetchone())
            """)
        self.assertEqual(self.statements()[0], 'sql q "SELECT x FROM other"')

    def test_threads(self) -> None:
        """Each thread has its connection, and gets its answers, whichever comes first."""
        out, said = self.whole("""
            import threading
            found = {}
            def ask(number):
                own = sqlite3.connect("study.db")
                found[number] = [own.execute("SELECT name FROM people WHERE id = ?", (number,)).fetchone()
                                 for _ in range(20)]
                found[number].append(own.execute("SELECT COUNT(*) FROM visits").fetchone())
            threads = [threading.Thread(target=ask, args=(number,)) for number in (1, 2, 3)]
            [thread.start() for thread in threads]
            [thread.join() for thread in threads]
            print(sorted(found.items()))
            """, *SCALES)
        self.assertIn("63 of 63 statements", said)
        self.assertEqual(len([line for line in self.world()["files"]["capture.txt"].split("\n")
                              if line.startswith("process 0, connection")]), 3)

    def test_processes(self) -> None:
        """A shell that starts two programs, and a program that forks: each process has its own log."""
        self.program("print(con.execute('SELECT name FROM people ORDER BY id').fetchall())\n")
        self.put("fork.py", BEGIN + textwrap.dedent("""
            import os
            con.close()
            child = os.fork()
            if child:
                os.waitpid(child, 0)
            own = sqlite3.connect("study.db")
            found = own.execute("SELECT name FROM people WHERE id = ?", (2 if child else 1,)).fetchone()
            os.write(1, str(found).encode() + bytes([10]))
            """))
        words = ["sh", "-c", f"{sys.executable} program.py; {sys.executable} fork.py"]
        expected = self.plain(words)[1]
        out, said = self.capture(words, *SCALES)
        self.assertEqual(out, expected)
        self.assertIn("3 of 3 statements", said)
        self.record()
        self.assertEqual(self.play(words)[0], expected)

    def test_streams(self) -> None:
        """A program has its words, its standard input, its error stream and its status."""
        words = self.program("""
            print(sys.argv[1:], sys.stdin.readline())
            print("told", file=sys.stderr)
            print(con.execute("SELECT COUNT(*) FROM people").fetchone(), sys.path[0], __name__)
            sys.exit(7)
            """) + ["--year", "2019"]
        self.make()
        tool = [sys.executable, os.path.join(TOOLS, "capture.py"), "--ldv", support.PROGRAM, "--sqlite",
                "study.db",
                *SCALES, "-o", "world.json", "--", *words]
        plain = command(words, b"a line\n")
        status, out, err = command(tool, b"a line\n")
        self.assertEqual((status, out), (7, plain[1]))
        self.assertIn(b"told\n", err)
        self.record()
        self.put("expected", plain[1])
        status, out, err = command([sys.executable, os.path.join(TOOLS, "playback.py"), "--ldv",
                                    support.PROGRAM,
                                    "--expect", "expected", "package", "--", *words], b"a line\n")
        self.assertEqual((status, out), (7, plain[1]), err)
        self.put("expected", plain[1] + b"more\n")
        _, said = self.play_with(words, b"a line\n")
        self.assertIn("differ at byte", said)

    def play_with(self, words: list[str], given: bytes) -> tuple[int, str]:
        status, out, err = command([sys.executable, os.path.join(TOOLS, "playback.py"), "--ldv",
                                    support.PROGRAM,
                                    "--expect", "expected", "package", "--", *words], given)
        return status, err.decode()

    def test_files(self) -> None:
        """The package has the program, what was seen, the report, and what --file names."""
        words = self.program("print(con.execute('SELECT COUNT(*) FROM people').fetchone())\n")
        self.put("notes.txt", "a note")
        self.capture(words, *SCALES, "--file", "extra=notes.txt", "--report", "report.txt")
        self.record()
        said = command([sys.executable, os.path.join(TOOLS, "package.py"), "package"])[1].decode()
        for name in ("program.py", "capture.json", "capture.txt", "extra"):
            self.assertIn(f"file {name}: ", said)
        self.assertEqual(command([sys.executable, os.path.join(TOOLS, "package.py"), "--file", "program.py",
                                  "package"])[1],
                         read("program.py"))
        self.assertEqual(read("report.txt").decode(), self.world()["files"]["capture.txt"])

    def test_many_rows(self) -> None:
        """An answer of many rows, of which the program reads some or all."""
        self.tables = TABLES + "".join(f"INSERT INTO other VALUES ({number});" for number in range(300))
        self.whole("""
            print(sum(row[0] for row in con.execute("SELECT a.x * b.x FROM other a, other b")))
            cursor = con.execute("SELECT x FROM other ORDER BY x")
            print(cursor.fetchone(), next(cursor), len(cursor.fetchmany(20)))
            """)


class Named(Programs):
    def test_unreadable(self) -> None:
        """What can't be asked is named with its line, why and a way around; --skip-unreadable leaves it
        out."""
        words = self.program("""
            print(con.execute("SELECT p.name FROM people p LEFT JOIN visits v ON v.person = p.id").fetchall())
            print(con.execute("SELECT upper(name), 1.5, x'00ff' FROM people").fetchall())
            con.execute("CREATE TABLE new (x INT)")
            con.execute("INSERT INTO new VALUES (1)")
            con.execute("CREATE TEMP TABLE short (x INT)")
            con.execute("ATTACH ':memory:' AS more")
            con.executescript("INSERT INTO other VALUES (1); DELETE FROM other;")
            con.execute("CREATE TABLE IF NOT EXISTS people (x INT)")
            print(con.execute("SELECT name FROM people WHERE id = 1").fetchone())
            con.commit()
            """)
        expected = self.plain(words)[1]
        out, said = self.capture(words, *SCALES, status=1)
        self.assertEqual(out, expected)
        for line in ("program.py line 4: an outer join: SELECT p.name", "instead: ask both tables",
                     "program.py line 5: the function upper", "program.py line 6: it defines a table",
                     "program.py line 7: new is no table that was there before",
                     "program.py line 8: a temporary table",
                     "program.py line 9: it attaches another database",
                     "program.py line 10: a script of several",
                     "people is there already", "7 of 8 statements can't be asked here, and no world is "
                     "made"):
            self.assertIn(line, said)
        self.assertFalse(os.path.exists("world.json"))
        out, said = self.capture(words, *SCALES, "--skip-unreadable")
        self.assertTrue(said.endswith("capture.py: 1 of 1 statement has the answer that SQLite gave\n"
                                      "capture.py: 7 statements not packed, and played back as seen\n"), said)
        self.record("--excluded")
        self.assertEqual(self.play(words)[0], expected)
        world = self.world()
        self.assertIn("7 more can't be asked here", world["files"]["main"])
        self.assertIn("played back from what was seen alone", world["files"]["capture.txt"])

    def test_other_answers(self) -> None:
        """Where a reply isn't what SQLite gave, both are shown, the world is written, and the status is
        1."""
        self.tables = TABLES + """CREATE TRIGGER more AFTER INSERT ON other BEGIN
            INSERT INTO other VALUES (new.x + 1); END;"""
        words = self.program("""
            con.execute("INSERT INTO other VALUES (1)")
            print(con.execute("SELECT * FROM other ORDER BY x").fetchall())
            print(con.execute("SELECT MAX(x) FROM other").fetchall())
            con.commit()
            """)
        _, said = self.capture(words, status=1)
        for line in ("program.py line 5: SELECT * FROM other ORDER BY x", "SQLite gave: 2 rows",
                     "ldv gives: 1 row",
                     "SQLite gave: row 1: (2)", "ldv gives: (1)", "1 of 3 statements have the answers"):
            self.assertIn(line, said)
        self.assertTrue(os.path.exists("world.json"))

    def test_limit(self) -> None:
        """LIMIT after an order that doesn't settle which rows it keeps."""
        self.tables = TABLES + "CREATE INDEX by_site ON people (site, name DESC);"
        words = self.program("""
            print(con.execute("SELECT name FROM people WHERE site >= '' ORDER BY site LIMIT 1").fetchall())
            """)
        _, said = self.capture(words, *SCALES, status=1)
        self.assertIn("order by a key too", said)

    def test_databases(self) -> None:
        """A file that is none, one that isn't there, and one that is locked."""
        words = self.program("pass\n")
        for prepare, message in each_of((lambda: self.put("study.db", b"no database at all" * 100),
                                         "not a database"),
                                        (lambda: os.remove("study.db"), "there is no such file")):
            self.make()
            prepare()
            with mock.patch.object(self, "make"):
                _, said = self.capture(words, status=1)
            self.assertIn(message, said)
        self.put("study.db", b"")
        self.make()
        with contextlib.closing(sqlite3.connect("study.db", isolation_level=None)) as base:
            base.execute("BEGIN EXCLUSIVE")
            with mock.patch.object(self, "make"):
                said = self.capture_soon(words)
        self.assertIn("locked", said)

    def capture_soon(self, words: list[str]) -> str:
        """What capture.py says where it waits for no other."""
        from ldvtools import captured_tables
        before, captured_tables.SECONDS = captured_tables.SECONDS, 0
        self.addCleanup(setattr, captured_tables, "SECONDS", before)
        return support.tool(capture, "--ldv", support.PROGRAM, "--sqlite", "study.db", "-o", "world.json",
                            "--", *words)[2]

    def test_nothing(self) -> None:
        """Nothing was asked: why that may be."""
        self.put("program.py", "print(1)\n")
        for words, message in (([sys.executable, "program.py"], "no statement was asked"),
                               ([sys.executable, "-I", "program.py"], "started without -I"), (["true"],
                                                                                              "a Python "
                                                                                              "program")):
            self.assertIn(message, self.capture(words, status=1)[1])
        self.put("duckdb.py", "")
        self.put("program.py", "import duckdb\n")
        self.assertIn("duckdb, which isn't watched", self.capture([sys.executable, "program.py"],
                                                                  status=1)[1])
        self.assertIn("No such file", self.capture(["./nothing"], status=1)[1])

    def test_no_program(self) -> None:
        """A program or an ldv that isn't there is said before a database is looked at."""
        self.put("plain", b"")
        ldv = ["--ldv", support.PROGRAM]
        for words, message in ((["./nothing"], "./nothing: No such file"),
                               (["nothing-of-this-name"], "nothing-of-this-name: No such file"),
                               (["./plain"], "./plain: Permission denied")):
            for base in (["--sqlite", "nowhere.db"], ["--postgres", "host=/nowhere"]):
                status, _, err = support.tool(capture, *ldv, *base, "-o", "world.json", "--", *words)
                self.assertEqual((status, err.count("\n")), (1, 1), err)
                self.assertIn(message, err)
        status, _, err = support.tool(capture, "--ldv", "./nothing", "--sqlite", "nowhere.db", "-o",
                                      "world.json", "--", "true")
        self.assertEqual((status, err), (1, "capture.py: ./nothing: No such file or directory\n"))

    def test_words(self) -> None:
        for words in (["--sqlite", "study.db", "-o", "w"], ["-o", "w", "--", "true"],
                      ["--sqlite", "a", "--postgres", "b", "-o", "w", "--", "true"]):
            self.assertEqual(support.tool(capture, *words)[0], 2)
        self.assertEqual(support.tool(playback, "package")[0], 2)
        self.put("package", b"nothing")
        status, _, err = support.tool(playback, "package", "--", "true")
        self.assertEqual(status, 1)
        self.assertIn("no package of a captured program", err)

    def test_decimals(self) -> None:
        """Decimals need --scale, and the message has it."""
        words = self.program("print(con.execute('SELECT height FROM people').fetchall())\n")
        self.assertIn("--scale people.height=2", self.capture(words, status=1)[1])


class Killed(Programs):
    def test_killed(self) -> None:
        """A program that is killed: what was asked until then is in the world, and what wasn't committed
        isn't."""
        words = self.program("""
            import os, signal
            con.execute("INSERT INTO other VALUES (1)")
            con.commit()
            print(con.execute("SELECT * FROM other").fetchall(), flush=True)
            con.execute("INSERT INTO other VALUES (2)")
            os.kill(os.getpid(), signal.SIGKILL)
            """)
        out, said = self.capture(words, status=128 + signal.SIGKILL)
        self.assertEqual(out, b"[(1,)]\n")
        self.assertEqual(len(self.statements()), 2)
        self.assertIn("2 of 2 statements", said)
        self.record()
        self.assertEqual(self.play(words, status=128 + signal.SIGKILL)[0], out)

    def test_raised(self) -> None:
        """A program that ends with an exception does so played back too."""
        words = self.program("""
            print(con.execute("SELECT COUNT(*) FROM people").fetchone())
            raise ValueError("stop")
            """)
        out, said = self.capture(words, *SCALES, status=1)
        self.assertIn("ValueError: stop", said)
        self.record()
        self.assertEqual(self.play(words, status=1)[0], out)


class Diverged(Programs):
    def setUp(self) -> None:
        super().setUp()
        self.words = self.program("""
            number = int(sys.argv[1])
            text = "SELECT name FROM people WHERE id = ?"
            try:
                for place in range(number):
                    print(con.execute(text, (place + int(sys.argv[2]),)).fetchone())
            except sqlite3.OperationalError as fault:
                print(str(fault)[:9])
            """)
        self.capture([*self.words, "2", "1"], *SCALES)
        self.record()

    def test_same(self) -> None:
        self.assertEqual(self.play([*self.words, "2", "1"])[0], b"('Ada',)\n('Bo',)\n")

    def test_parameter(self) -> None:
        out, said = self.play([*self.words, "2", "2"], status=9)
        self.assertEqual(out, b"diverged:\n")
        self.assertIn("playback.py: diverged: program.py line 8: the program asks 'SELECT name FROM people "
                      "WHERE id = ?' with (2,), and it was captured with (1,)\n", said)
        self.assertEqual(said.count("SELECT"), 1)

    def test_again(self) -> None:
        """A program that asks it again and again: each line of the report stands once."""
        self.put("program.py", read("program.py") + textwrap.dedent("""
            for _ in range(50):
                try:
                    con.execute(text, (9,))
                except sqlite3.OperationalError as fault:
                    print(str(fault)[:8])
            """).encode())
        out, said = self.play([*self.words, "2", "1"], status=9)
        self.assertEqual((out, said.count("diverged: ")),
                         (b"('Ada',)\n('Bo',)\n" + b"diverged\n" * 50, 1))

    def test_call(self) -> None:
        """The same statement by another call."""
        text = read("program.py").replace(b"con.execute(", b"con.executemany(")
        self.put("program.py", text)
        self.assertIn("by executemany, and it was captured by execute\n",
                      self.play([*self.words, "2", "1"], status=9)[1])

    def test_statement(self) -> None:
        text = read("program.py").replace(b"SELECT name", b"SELECT born")
        self.put("program.py", text)
        self.assertIn("SELECT born", self.play([*self.words, "2", "1"], status=9)[1])

    def test_more(self) -> None:
        out, said = self.play([*self.words, "3", "1"], status=9)
        self.assertEqual(out, b"('Ada',)\n('Bo',)\ndiverged:\n")
        self.assertIn("no more was captured of this connection", said)

    def test_less(self) -> None:
        """Less is no divergence, and said."""
        self.assertIn("asked 1 of the 2 statements", self.play([*self.words, "1", "1"])[1])

    def test_kind(self) -> None:
        """1.0 isn't 1."""
        text = read("program.py").replace(b"(place + int(sys.argv[2]),)",
                                          b"(float(place + int(sys.argv[2])),)")
        self.put("program.py", text)
        self.play([*self.words, "2", "1"], status=9)

    def test_other_package(self) -> None:
        """A package of another world isn't one of a program."""
        self.put("package", subprocess.run([support.PROGRAM, "record"],
                                           input=b'{"start":["a"],"files":{"a":""}}',
                                           stdout=subprocess.PIPE, check=True).stdout)
        self.assertIn("it has no capture.json", self.play(self.words, status=1)[1])


class Log(Programs):
    """The recorder by itself."""

    needs_ldv = False

    def log(self, words: list[str]) -> tuple[int, bytes, Any]:
        os.makedirs("log", exist_ok=True)
        self.make()
        with open("out", "wb") as file:
            status = run_program(words, "record", "log", file)
        return status, read("out"), read_logs("log")

    def test_same(self) -> None:
        """A program behaves as without a recorder, to the names of classes and the messages of
        exceptions."""
        words = self.program("""
            print(con, type(con), sqlite3.Connection, sqlite3.Cursor, sqlite3.connect.__name__)
            cursor = con.cursor()
            print(cursor.description, cursor.rowcount, cursor.arraysize, cursor.connection is con)
            print(cursor.row_factory)
            for wrong in (lambda: con.execute(3), lambda: con.execute("SELECT ?"),
                          lambda: con.execute("SELECT 1", 5),
                          lambda: con.executemany("INSERT INTO other VALUES (?)", 5),
                          lambda: cursor.fetchmany("x"), lambda: con.execute("SELECT :a", {}),
                          lambda: con.execute("SELECT 1; SELECT 2"), lambda: con.cursor(3),
                          lambda: con.execute("SELECT ?", (object(),)), lambda: sqlite3.connect()):
                try:
                    print(wrong())
                except Exception as fault:
                    print(type(fault).__name__, str(fault).split(" at 0x")[0])
            print(list(con.execute("SELECT 1 UNION SELECT 2")), list(con.iterdump())[:1])
            cursor.close()
            try:
                cursor.fetchone()
            except sqlite3.ProgrammingError as fault:
                print(fault)
            con.close()
            try:
                con.execute("SELECT 1")
            except sqlite3.ProgrammingError as fault:
                print(fault)
            """)
        plain = self.plain(words)
        status, out, log = self.log(words)

        self.assertEqual(status, plain[0])
        lines = [re.sub(rb" at 0x[0-9a-f]+", b"", text).decode().split("\n") for text in (out, plain[1])]
        self.assertEqual(*lines)
        self.assertGreater(len(log.events), 8)

    def test_again(self) -> None:
        """The same text from several lines, connections and threads, in and out of a transaction, and with
        other columns: each event has its own."""
        words = self.program("""
            from concurrent.futures import ThreadPoolExecutor
            pools = [ThreadPoolExecutor(1), ThreadPoolExecutor(1)]
            shared = sqlite3.connect("study.db", check_same_thread=False)
            shared.row_factory = sqlite3.Row
            text = "SELECT * FROM other"
            for turn in range(3):
                con.execute(text)
                con.execute(text); con.execute("INSERT INTO other (x) VALUES (1)")
                con.execute(text).fetchone()
                con.rollback()
                def ask():
                    shared.execute(text)
                for pool in pools:
                    pool.submit(ask).result()
                if turn == 1:
                    con.execute("ALTER TABLE other ADD COLUMN y INT")
            """)
        status, _, log = self.log(words)
        self.assertEqual(status, 0)
        found = [(event.line, event.connection.number, event.in_transaction, event.thread, event.head,
                  len(event.rows)) for event in log.events if event.text == "SELECT * FROM other"]
        one, two = ("x",), ("x", "y")
        expected = []
        for head in (one, one, two):
            expected += [(10, 1, False, 1, head, 0), (11, 1, False, 1, head, 0), (12, 1, True, 1, head, 1),
                         (15, 2, False, 2, head, 0), (15, 2, False, 3, head, 0)]
        self.assertEqual(found, expected)

    def test_kinds(self) -> None:
        """Rows are noted as the database gave them, whatever converters and factories make of them, also
        where these change between two questions."""
        words = self.program("""
            text = "SELECT name FROM people WHERE id = 1"
            print(con.execute(text).fetchone(), con.text_factory, con.row_factory)
            con.text_factory = bytearray
            print(con.execute(text).fetchone(), con.execute(text).fetchall())
            con.text_factory = lambda data: [data]
            print(con.execute(text).fetchmany(5))
            con.text_factory = str
            con.row_factory = lambda cursor, row: row
            print(con.execute(text).fetchone(), list(con.execute(text)))
            con.row_factory = sqlite3.Row
            print(tuple(con.execute(text).fetchone()), con.row_factory)
            dated = sqlite3.connect("study.db", 5, sqlite3.PARSE_DECLTYPES)
            print(dated.execute("SELECT day FROM visits WHERE id = 1").fetchone())
            """)
        self.make()
        expected = command(words)[1]
        status, out, log = self.log(words)
        self.assertEqual((status, out), (0, expected))
        text = ("Ada",)
        self.assertEqual([event.rows for event in log.events], [
            [text], [(b"Ada",)], [(b"Ada",)], [(("list", [b"Ada"]),)], [text], [text], [text],
            [(("date", "2019-01-02"),)]])

    def test_memory(self) -> None:
        """The recorder keeps nothing of a statement that is over."""
        words = self.program("""
            import gc
            def ask():
                for number in range(3_000):
                    con.execute("SELECT id FROM people WHERE id = ?", (number,)).fetchone()
                    con.execute("UPDATE other SET x = ?", (number,))
                gc.collect()
                return len(gc.get_objects())
            ask()
            print(ask() - ask())
            """)
        status, out, log = self.log(words)
        self.assertEqual((status, len(log.events)), (0, 18_000))
        self.assertLess(abs(int(out)), 100)

    def test_places(self) -> None:
        """Each statement has the line of the program that asks it, also through a library."""
        words = self.program("""
            def asked(text):
                return con.execute(text)
            asked("SELECT 1")
            con.executemany("INSERT INTO other VALUES (?)", [(1,)])
            con.commit()
            """)
        log = self.log(words)[2]
        self.assertEqual([(event.text, event.place()) for event in log.events],
                         [("SELECT 1", "program.py line 5"), ("INSERT INTO other VALUES (?)", "program.py "
                                                              "line 7"),
                          ("commit", "program.py line 8")])

    def test_own_sitecustomize(self) -> None:
        """A sitecustomize of the user's own runs too."""
        self.put("sitecustomize.py", "print('own')\n")
        words = self.program("pass\n")
        before = os.environ.get("PYTHONPATH")
        os.environ["PYTHONPATH"] = self.folder
        try:
            self.assertEqual(self.log(words)[1], b"own\n")
        finally:
            os.environ.pop("PYTHONPATH")
            if before is not None:
                os.environ["PYTHONPATH"] = before
