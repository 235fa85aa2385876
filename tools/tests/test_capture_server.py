"""capture.py and playback.py over psycopg2: a server that the test starts; played back there is none."""
from __future__ import annotations

import os
import subprocess
import sys
import unittest
from typing import Optional

from . import support
from .server import Server, program
from .support import TOOLS, command, python_with, read
from .test_capture import Programs

PYTHON = python_with("psycopg2")
SQLALCHEMY = python_with("psycopg2", "sqlalchemy")
SERVER = None

TABLES = """import psycopg2, sys
con = psycopg2.connect(sys.argv[1])
con.autocommit = True
cursor = con.cursor()
cursor.execute("DROP SCHEMA public CASCADE; CREATE SCHEMA public; DROP SCHEMA IF EXISTS away CASCADE; "
               "CREATE SCHEMA away; CREATE TABLE away.people (id int)")
cursor.execute('''
CREATE TABLE people (id serial PRIMARY KEY, name text NOT NULL, born int, height numeric(4,2),
                     site varchar(10),
    joined date, active boolean DEFAULT true, UNIQUE (name));
CREATE TABLE visits (id serial PRIMARY KEY, person integer REFERENCES people (id), day date, dose int,
                     at timestamp,
    weight double precision, note jsonb);
CREATE TABLE other (x int);
CREATE TABLE calls (id int PRIMARY KEY, at timestamptz);
INSERT INTO calls VALUES (1, '2019-01-02 10:00+00'), (2, '2019-07-01 10:00+00');
CREATE TABLE kinds (id int PRIMARY KEY);
CREATE TABLE later (id int PRIMARY KEY, kind int REFERENCES kinds (id) DEFERRABLE INITIALLY DEFERRED);
CREATE VIEW seen AS SELECT name FROM people;
INSERT INTO people (name, born, height, site, joined) VALUES ('Ada', 1985, 1.7, 'north', '2019-01-02'),
    ('Bo', 1990, 1.82, 'south', '2020-05-06'), ('Cy', NULL, 1.65, 'north', NULL);
INSERT INTO visits (person, day, dose, at) VALUES (1, '2019-01-02', 10, '2019-01-02 10:00'),
    (2, '2019-01-03', 20, NULL), (1, '2019-02-01', NULL, '2019-02-01 09:30:05');
''')
"""
BEGIN = "import psycopg2, psycopg2.extras, datetime, decimal, sys\ncon = psycopg2.connect(sys.argv[1])\n"


def setUpModule() -> None:
    global SERVER
    if PYTHON is None:
        raise unittest.SkipTest("python3-psycopg2 isn't installed")
    if program("initdb") is None or program("pg_ctl") is None:
        raise unittest.SkipTest("postgresql isn't installed")
    SERVER = Server()


def tearDownModule() -> None:
    if SERVER is not None:
        SERVER.stop()


def server() -> Server:
    """The server of these tests."""
    assert SERVER is not None
    return SERVER


class OverServer(Programs):
    """Programs over a server: it is at the address that is their last word, and none is played back."""

    python = PYTHON
    begin = BEGIN

    def make(self) -> None:
        with open("tables.py", "w", encoding="utf-8") as file:
            file.write(TABLES)
        status, _, err = command([PYTHON or "", "tables.py", server().dsn])
        self.assertEqual(status, 0, err.decode())

    def program(self, text: str, begin: Optional[str] = None) -> list[str]:
        return [self.python or "", *super().program(text, begin)[1:], self.address()]

    def address(self) -> str:
        return server().dsn

    def capture(self, words: list[str], *options: str, status: int = 0) -> tuple[bytes, str]:
        self.make()
        got, out, err = command([sys.executable, os.path.join(TOOLS, "capture.py"), "-q", "--ldv",
                                 support.PROGRAM,
                                 "--postgres", server().dsn, "-o", "world.json", *options, "--", *words])
        self.assertEqual(got, status, err.decode())
        return out, err.decode()

    def play(self, words: list[str], *options: str, status: int = 0) -> tuple[bytes, str]:
        words = [word.replace(server().folder, "/nowhere") for word in words]
        return super().play(words, *options, status=status)


class Whole(OverServer):
    def test_queries(self) -> None:
        """Decimals, dates, times and truths come back as they were, averages with their digits."""
        out, said = self.whole("""
            cursor = con.cursor()
            cursor.execute("SELECT p.name, v.at, v.day FROM people p JOIN visits v ON v.person = p.id WHERE "
                           "p.height > %s "
                           "AND v.day >= %(day)s ORDER BY v.id".replace("%s", "%(high)s"),
                           {"high": decimal.Decimal("1.5"), "day": datetime.date(2019, 1, 1)})
            print(cursor.fetchone(), cursor.fetchall(), cursor.rowcount,
                  [each.name for each in cursor.description])
            cursor.execute("SELECT name, joined, active FROM people WHERE active AND id IN %s ORDER BY id",
                           ((1, 3),))
            print(cursor.fetchmany(1), list(cursor))
            cursor.execute("SELECT AVG(height), SUM(height), AVG(born), COUNT(*), MAX(joined) FROM people")
            print(cursor.fetchone())
            cursor.execute("SELECT COUNT(*) FROM people p JOIN visits v ON v.person = p.id WHERE dose > 99")
            print(cursor.fetchall())
            cursor.execute("SELECT name FROM people WHERE name LIKE 'A%%' AND born BETWEEN %s AND %s",
                           (1900, 2000))
            print(cursor.fetchall())
            """)
        self.assertIn("Decimal('1.7233333333333333')", out)
        self.assertIn("5 of 5 statements have the answers that PostgreSQL gave", said)
        self.assertIn('"ORDER BY', read("world.json").decode().replace("ORDER BY", '"ORDER BY'))

    def test_factories(self) -> None:
        """Cursors of psycopg2.extras, one of the server, and statements of psycopg2.sql."""
        self.whole("""
            from psycopg2 import sql
            for factory in (psycopg2.extras.DictCursor, psycopg2.extras.RealDictCursor,
                            psycopg2.extras.NamedTupleCursor):
                with con.cursor(cursor_factory=factory) as cursor:
                    cursor.execute("SELECT id, name FROM people ORDER BY id")
                    print(cursor.fetchone(), [row for row in cursor], cursor.fetchone())
            con.cursor_factory = psycopg2.extras.DictCursor
            cursor = con.cursor()
            cursor.execute(sql.SQL("SELECT {} FROM {} ORDER BY 1").format(sql.Identifier("name"),
                                                                          sql.Identifier("people")))
            print([row["name"] for row in cursor])
            cursor = con.cursor("named")
            cursor.execute("SELECT id FROM visits ORDER BY id")
            print(cursor.fetchmany(2), cursor.fetchall())
            con = psycopg2.connect(sys.argv[1], cursor_factory=psycopg2.extras.RealDictCursor)
            cursor = con.cursor()
            cursor.execute("SELECT site FROM people WHERE id = 2")
            print(dict(cursor.fetchone()))
            """)

    def test_changes(self) -> None:
        """Keys of sequences, RETURNING, execute_values, refusals and rollbacks."""
        out, said = self.whole("""
            cursor = con.cursor()
            cursor.execute("INSERT INTO people (name) VALUES (%s) RETURNING id, active", ("Di",))
            new = cursor.fetchone()
            print(new)
            cursor.execute("INSERT INTO visits (person, dose) VALUES (%s, 1)", (new[0],))
            cursor.executemany("INSERT INTO visits (person, dose) VALUES (%s, %s)", [(1, 2), (1, 3)])
            psycopg2.extras.execute_values(cursor, "INSERT INTO visits (person, day, at) VALUES %s", [
                (1, datetime.date(2020, 1, 1), datetime.datetime(2020, 1, 1, 9, 0)), (2, None, None)])
            con.commit()
            for wrong in ("INSERT INTO people (id, name) VALUES (1, 'Again')",
                          "INSERT INTO people (name) VALUES (NULL)",
                          "INSERT INTO visits (id, person) VALUES (90, 77)",
                          "DELETE FROM people WHERE id = 1",
                          "INSERT INTO people (id, name) VALUES (50, 'Ada')", "SELECT * FROM nowhere"):
                try:
                    cursor.execute(wrong)
                except psycopg2.Error as fault:
                    print(type(fault).__name__, fault.pgcode)
                con.rollback()
            with con:
                cursor.execute("UPDATE people SET height = height + 0.1 WHERE id = %s", (1,))
                print(cursor.rowcount)
            cursor.execute("SAVEPOINT a")
            cursor.execute("DELETE FROM visits WHERE id = 1")
            cursor.execute("ROLLBACK TO SAVEPOINT a")
            cursor.execute("DELETE FROM visits WHERE id = 2")
            con.commit()
            cursor.execute("SELECT id, person, day, dose, at FROM visits ORDER BY id")
            print(cursor.fetchall())
            cursor.execute("SELECT height FROM people WHERE name = 'Ada'")
            print(cursor.fetchone())
            """)
        self.assertIn("(Decimal('1.80'),)", out)
        self.assertIn("UniqueViolation 23505", out)
        self.assertIn("statements have the answers", said)
        self.assertNotIn("DELETE FROM visits WHERE id = 1", "".join(self.statements()))

    def test_zones(self) -> None:
        """Times come back in the zone of the session, in summer and in winter, and one that the program gives
        in a third zone is the same instant."""
        out, _ = self.whole("""
            cursor = con.cursor()
            cursor.execute("SET TIME ZONE 'Europe/Berlin'")
            tokyo = datetime.timezone(datetime.timedelta(hours=9))
            eve = datetime.datetime(2019, 12, 24, 18, tzinfo=tokyo)
            cursor.execute("INSERT INTO calls VALUES (3, %s)", (eve,))
            con.commit()
            since = datetime.datetime(2019, 1, 2, 10, tzinfo=datetime.timezone.utc)
            cursor.execute("SELECT id, at FROM calls WHERE at >= %s ORDER BY at", (since,))
            for number, at in cursor:
                print(number, at.isoformat())
            """)
        self.assertEqual(out, "1 2019-01-02T11:00:00+01:00\n2 2019-07-01T12:00:00+02:00\n"
                         "3 2019-12-24T10:00:00+01:00\n")

    def test_deferred(self) -> None:
        """A commit that a deferred foreign key refuses undoes the transaction."""
        out, _ = self.whole("""
            cursor = con.cursor()
            cursor.execute("INSERT INTO later VALUES (1, 77)")
            try:
                con.commit()
            except psycopg2.IntegrityError as fault:
                print(type(fault).__name__, fault.pgcode, con.get_transaction_status())
            cursor.execute("SELECT COUNT(*) FROM later")
            print(cursor.fetchone())
            """)
        self.assertEqual(out, "ForeignKeyViolation 23503 0\n(0,)\n")
        self.assertFalse([line for line in self.statements() if "INSERT" in line])

    def test_named(self) -> None:
        """A view, a column that isn't carried, and what the dialect hasn't."""
        words = self.program("""
            cursor = con.cursor()
            cursor.execute("SELECT name FROM seen ORDER BY 1")
            cursor.execute("SELECT note FROM visits")
            cursor.execute("SELECT id FROM people WHERE name ILIKE 'a%'")
            cursor.execute("SHOW server_version")
            print(cursor.fetchone()[0] > "1")
            """)
        expected = self.plain(words)[1]
        _, said = self.capture(words, status=1)
        for line in ("seen is a view", "visits.note isn't carried", "ILIKE", "SHOW asks for no rows",
                     "3 of 3 statements can't be asked here"):
            self.assertIn(line, said)
        out, _ = self.capture(words, "--skip-unreadable")
        self.assertEqual(out, expected)
        self.record()
        self.assertEqual(self.play(words)[0], expected)

    def test_elsewhere(self) -> None:
        """A table of another schema, and another database of the server."""
        words = self.program("""
            cursor = con.cursor()
            cursor.execute("SELECT people.name FROM public.people WHERE public.people.id = 1")
            print(cursor.fetchall())
            cursor.execute("SELECT id FROM away.people")
            cursor.execute("SELECT id FROM postgres.away.people")
            other = psycopg2.connect(sys.argv[1].replace("dbname=postgres", "dbname=template1")).cursor()
            other.execute("SELECT * FROM generate_series(1, 3)")
            print(other.fetchall())
            """)
        expected = self.plain(words)[1]
        _, said = self.capture(words, status=1)
        for line in ("program.py line 7: a table of away: SELECT id FROM away.people",
                     "program.py line 8: a table of postgres.away: SELECT id FROM postgres.away.people",
                     "program.py line 10: it asks another database, template1 at ",
                     "3 of 4 statements can't be asked here"):
            self.assertIn(line, said)
        _, said = self.capture(words, "--skip-unreadable")
        self.assertIn("3 statements not packed, and played back as seen\n", said)
        self.record()
        self.assertEqual(self.play(words)[0], expected)

    def test_diverged(self) -> None:
        words = self.program("""
            cursor = con.cursor()
            cursor.execute("SELECT name FROM people WHERE id = %s", (len(sys.argv),))
            print(cursor.fetchall())
            """)
        self.capture(words)
        self.record()
        self.play(words)
        _, said = self.play([*words, "more"], status=9)
        self.assertIn("psycopg2.OperationalError: diverged: the program asks", said)

    def test_no_server(self) -> None:
        words = self.program("pass\n")
        done = subprocess.run([sys.executable, os.path.join(TOOLS, "capture.py"), "--ldv", support.PROGRAM,
                               "--postgres", "host=/nowhere", "-o", "world.json", "--", *words],
                              stderr=subprocess.PIPE, check=False)
        self.assertEqual(done.returncode, 1)
        self.assertIn(b"/nowhere", done.stderr)


@unittest.skipUnless(SQLALCHEMY, "python3-sqlalchemy isn't installed")
class Mapped(OverServer):
    python = SQLALCHEMY

    def address(self) -> str:
        return server().url

    def test_orm(self) -> None:
        from .test_capture_libraries import ORM
        out, said = self.whole(ORM, begin="import sys, warnings\nwarnings.simplefilter('ignore')\n")
        self.assertIn("IntegrityError", out)
        self.assertIn("statements have the answers that PostgreSQL gave", said)
