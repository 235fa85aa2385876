"""What connections do beside asking, captured and played back: commits that fail, backups, other
databases; and what the columns of a package are."""
from __future__ import annotations

import os
import sys
import unittest

from ldvtools.captured_values import kind_of, made_value
from ldvtools.dialect_queries import Part
from ldvtools.dialects import POSTGRES

from .support import TOOLS, command, read
from .test_capture import SCALES, TABLES, Programs


class Acts(Programs):
    def test_forked(self) -> None:
        """A process that asks over a connection from before its fork is named."""
        words = self.program("""
            import os
            child = os.fork()
            if child:
                os.waitpid(child, 0)
            else:
                con.execute("SELECT name FROM people WHERE id = 1").fetchone()
                os._exit(0)
            """)
        said = self.capture(words, *SCALES, status=1)[1]
        self.assertIn("a process asks over a connection that the process before its fork made", said)

    def test_deferred(self) -> None:
        """A commit that a deferred foreign key refuses leaves the transaction open, here and played back."""
        self.tables = """CREATE TABLE a (id INTEGER PRIMARY KEY);
            CREATE TABLE b (id INTEGER PRIMARY KEY, a INT REFERENCES a (id) DEFERRABLE INITIALLY DEFERRED);"""
        out, _ = self.whole("""
            con.execute("PRAGMA foreign_keys = ON")
            con.execute("INSERT INTO b VALUES (1, 7)")
            try:
                con.commit()
            except sqlite3.IntegrityError as fault:
                print(fault, con.in_transaction)
            con.rollback()
            print(con.execute("SELECT COUNT(*) FROM b").fetchone())
            try:
                with con:
                    con.execute("INSERT INTO b VALUES (2, 8)")
            except sqlite3.IntegrityError as fault:
                print(fault)
            con.rollback()
            con.execute("INSERT INTO b VALUES (3, NULL)")
            con.commit()
            print(con.execute("SELECT id FROM b").fetchall(), con.in_transaction)
            """)
        self.assertEqual(out, "FOREIGN KEY constraint failed True\n(0,)\nFOREIGN KEY constraint failed\n"
                         "[(3,)] False\n")
        self.assertEqual([line for line in self.statements() if "INSERT" in line],
                         ['sql q "INSERT INTO b VALUES (3, NULL)"'])

    def test_locked(self) -> None:
        """A commit that another connection's reading keeps from its lock, and the same one later."""
        self.tables = TABLES + "INSERT INTO other VALUES (1), (2);"
        out, _ = self.whole("""
            reader = sqlite3.connect("study.db")
            rows = reader.execute("SELECT x FROM other ORDER BY x")
            print(rows.fetchone())
            con = sqlite3.connect("study.db", timeout=0)
            con.execute("INSERT INTO other VALUES (3)")
            try:
                con.commit()
            except sqlite3.OperationalError as fault:
                print(fault)
            rows.close()
            con.commit()
            print(con.execute("SELECT x FROM other ORDER BY x").fetchall())
            """, begin="import sqlite3\n")
        self.assertEqual(out, "(1,)\ndatabase is locked\n[(1,), (2,), (3,)]\n")

    def test_other_database(self) -> None:
        """Another file and a copy in memory: what is asked there is named, also where a table of the same
        name is here, and played back as seen without the file."""
        words = self.program("""
            side = sqlite3.connect("side.db")
            side.execute("DROP TABLE IF EXISTS people")
            side.execute("CREATE TABLE people (x INT)")
            side.execute("INSERT INTO people VALUES (5)")
            print(side.execute("SELECT x FROM people").fetchall())
            side.commit()
            copy = sqlite3.connect(":memory:")
            con.backup(copy)
            print(copy.execute("SELECT name FROM people WHERE id = 2").fetchall())
            print(con.execute("SELECT name FROM people WHERE id = 1").fetchone())
            """)
        expected = self.plain(words)[1]
        self.assertEqual(expected, b"[(5,)]\n[('Bo',)]\n('Ada',)\n")
        _, said = self.capture(words, *SCALES, status=1)
        self.assertIn("program.py line 8: it asks another database, side.db: SELECT x FROM people", said)
        self.assertIn("line 12: it asks another database, one in memory: SELECT name", said)
        self.assertIn("5 of 6 statements can't be asked here", said)
        _, said = self.capture(words, *SCALES, "--skip-unreadable")
        self.assertIn("1 of 1 statement has the answer", said)
        self.record()
        os.remove("side.db")
        self.assertEqual(self.play(words)[0], expected)
        self.assertFalse(os.path.exists("side.db"))

    def test_columns(self) -> None:
        """A package of a program shows decimals and names as the database has them."""
        words = self.program("""
            print(con.execute("SELECT * FROM people WHERE id = 2").fetchone())
            """)
        self.capture(words, *SCALES, "--rename", "people.site=place")
        self.record()
        tool = os.path.join(TOOLS, "package.py")
        status, _, err = command([sys.executable, tool, "--csv", "out", "package"])
        self.assertEqual(status, 0, err.decode())
        self.assertIn("2,Bo,1990,1.82,south", read("out/people.csv").decode())
        known = self.world()["files"]["ldv-columns/people.json"]
        self.assertIn('"file": "study.db", "table": "people"', known)
        self.assertIn('"name": "place", "source": "site"', known)
        self.assertNotIn("sha256", known)


class Zones(unittest.TestCase):
    def test_zones(self) -> None:
        """Times of a session in Berlin: an hour from UTC in winter, two in summer, as the zone database has
        it."""
        part = Part("take", 0, 0)
        seen = [("datetime", "2019-01-02 11:00:00+01:00"), ("datetime", "2019-07-01 12:30:00.500000+02:00"),
                None, ("datetime", "2019-12-01 01:00:00+01:00")]
        kind = kind_of(seen, part, POSTGRES)
        for text, expected in (("2019-01-02 10:00:00+00:00", seen[0]),
                               ("2019-07-01 10:30:00.500000+00:00", seen[1]),
                               ("2019-12-01 00:00:00+00:00", seen[3]),
                               ("2018-12-01 00:00:00+00:00", ("datetime", "2018-12-01 01:00:00+01:00")),
                               ("2019-08-01 00:00:00+00:00", ("datetime", "2019-08-01 02:00:00+02:00"))):
            self.assertEqual(made_value(kind, 0, text), expected)

    def test_utc(self) -> None:
        """Those of UTC and those without a zone are as they stand."""
        for text in ("2019-01-02 10:00:00+00:00", "2019-01-02 10:00:00"):
            kind = kind_of([("datetime", text)], Part("take", 0, 0), POSTGRES)
            self.assertEqual((kind, made_value(kind, 0, text)), ("datetime", ("datetime", text)))
