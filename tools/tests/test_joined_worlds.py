"""Two worlds that world.py made of one file and two sets of statements: their packages joined, and each run
of what is joined replayed, audited, inspected and shown."""
from __future__ import annotations

import csv
import hashlib
import io
import json
import os
import re
import sqlite3
import unittest
from typing import Any, Sequence

from ldvtools import join, outcome, package, page, world

from . import support
from .support import InFolder, ldv, match_in, read, tool

SAMPLES = "id,site,cost\n1,a,2.50\n2,b,12.25\n3,a,0.75\n4,c,3.00\n"
# In the units of the file; the dialect has no decimals in SET.
STATEMENTS = {
    "first": ["SELECT site, SUM(cost) AS total FROM samples GROUP BY site ORDER BY site"],
    "second": ["UPDATE samples SET cost = cost * 2 WHERE id = 3", "DELETE FROM samples WHERE id = 2",
               "SELECT id, cost FROM samples WHERE site = 'a' ORDER BY id"]}


@unittest.skipUnless(os.access(support.PROGRAM, os.X_OK), "the program isn't built")
class TwoWorlds(InFolder):
    def setUp(self) -> None:
        super().setUp()
        self.put("samples.csv", SAMPLES)
        for name, statements in STATEMENTS.items():
            self.make(name, statements)
        self.joined = self.joined_of("first", "second")

    def path(self, name: str) -> str:
        return os.path.join(self.folder, name)

    def make(self, name: str, statements: Sequence[str], *words: str) -> None:
        """A world of a script that has the name that it gets by itself, and its package."""
        query = self.put(f"{name}.sql", ";\n".join(statements) + ";\n")
        given = ["--csv", self.path("samples.csv"), "--scale", "samples.cost=2", "--key", "samples=id",
                 "--sql", query, *words, "-o", self.path(f"{name}.json")]
        status, _, err = tool(world, *given)
        self.assertEqual(status, 0, err)
        self.put(f"{name}.package", ldv(["record"], read(self.path(f"{name}.json")))[1])

    def pair_of(self, *names: str) -> tuple[Any, bytes, str]:
        """What join.py makes of two packages, or says."""
        return tool(join, *(self.path(f"{name}.package") for name in names))

    def joined_of(self, *names: str) -> str:
        status, pair, err = self.pair_of(*names)
        self.assertEqual((status, err), (0, ""))
        ended, both, told = ldv(["join"], pair)
        self.assertEqual((ended, told), (0, b""))
        return self.put("both.joined", both)

    def in_sqlite(self, name: str) -> tuple[list[Any], list[Any]]:
        """The rows of the last statement, and the table at the end, of SQLite over the same file."""
        base = sqlite3.connect(":memory:")
        self.addCleanup(base.close)
        base.execute("CREATE TABLE samples (id INTEGER PRIMARY KEY, site TEXT, cost REAL)")
        base.executemany("INSERT INTO samples VALUES (?, ?, ?)", list(csv.reader(io.StringIO(SAMPLES)))[1:])
        rows = [base.execute(text).fetchall() for text in STATEMENTS[name]][-1]
        return rows, base.execute("SELECT id, site, CAST(cost * 100 AS INT) FROM samples").fetchall()

    def taken(self, number: int) -> str:
        """The package of a run, by package.py."""
        path = self.path(f"taken {number}")
        words = ["--run", str(number), "--package", self.joined, "-o", path]
        self.assertEqual(tool(package, *words), (0, b"", ""))
        return path

    def test_replays(self) -> None:
        """With the names that they get by themselves they are joined, and each run replays to the outcome
        of its own world, whose numbers are those of SQLite."""
        for number, name in enumerate(STATEMENTS, 1):
            status, found, _ = ldv(["replay", "--run", str(number)], read(self.joined))
            self.assertEqual((status, found), (0, ldv(["run"], read(self.path(f"{name}.json")))[1]))
            words = ["--package", self.joined, "--run", str(number), "--csv", "--reply",
                     str(len(STATEMENTS[name])), self.put("o", found)]
            status, out, err = tool(outcome, *words)
            self.assertEqual((status, err), (0, ""))
            shown = [(row[0], float(row[1])) for row in list(csv.reader(io.StringIO(out.decode())))[1:]]
            self.assertEqual(shown, [(str(one), other) for one, other in self.in_sqlite(name)[0]])

    def test_names(self) -> None:
        """Of one name they clash, and with the advice of join.py they don't."""
        self.make("twin", STATEMENTS["second"], "--name", "first")
        status, out, err = self.pair_of("first", "twin")
        self.assertEqual((status, out), (1, b""))
        self.assertIn("clash: file first\n", err)
        advice = match_in(r"where world\.py made it of statements, (--name) gives it another name", err)
        self.make("twin", STATEMENTS["second"], advice[1], "other")
        self.assertEqual(self.pair_of("first", "twin")[0], 0)

    def test_reports(self) -> None:
        """Each run that was taken apart is sound, and inspect and table answer of it: every row of the table,
        and of the other one those that its condition reads, before and after."""
        needed = {1: [b"samples 0 0 L", b"samples 1 0 L", b"samples 2 0 L", b"samples 3 0 L"],
                  2: [b"samples 0 2 L", b"samples 1 1 L", b"samples 2 0 L"]}
        for number, name in enumerate(STATEMENTS, 1):
            data = read(self.taken(number))
            self.assertEqual(data, read(self.path(f"{name}.package")))
            self.assertEqual(ldv(["audit"], data), (0, b"sound\n", b""))
            status, rows, _ = ldv(["inspect", "rows"], data)
            self.assertEqual((status, rows.splitlines()), (0, needed[number]))
            status, why, _ = ldv(["inspect", "why", "samples", "2"], data)
            self.assertEqual((status, why.split(b"\n")[0]), (0, b"statement 0 process 0 step 1 rule L"))
            status, trace, _ = ldv(["inspect", "trace"], data)
            self.assertEqual((status, f"started {name}".encode() in trace), (0, True), trace)
            packed = {int(line.split()[1]) + 1 for line in needed[number]}
            due = [row for row in self.in_sqlite(name)[1] if row[0] in packed]
            status, table, err = ldv(["table", "samples", str(len(STATEMENTS[name]))], data)
            self.assertEqual((status, self.cells(table)), (0, due), err)

    @staticmethod
    def cells(table: bytes) -> list[tuple[int, str, int]]:
        """The rows of a table as `table` writes it."""
        found = [each.split("\n") for each in re.split(r"(?m)^row .*\n", table.decode())[1:]]
        return [(int(lines[0][4:]), lines[2], int(lines[3][4:])) for lines in found]

    def test_pages(self) -> None:
        """The page of each run says that it was audited, and which run it is; the joined package's digest
        and that of its file are named."""
        for number, name in enumerate(STATEMENTS, 1):
            html = self.path("page.html")
            words = ["--run", str(number), "--ldv", support.PROGRAM, self.joined, "-o", html]
            self.assertEqual(tool(page, *words), (0, b"", ""))
            found = match_in(r'(?s)<script type="application/json" id="data">(.*?)</script>',
                              read(html).decode())
            shown = json.loads(found[1])
            self.assertEqual((shown["verdict"], shown["replayed"], shown["start"]), ("sound", True, [name]))
            self.assertEqual([each["text"] for each in shown["statements"]], STATEMENTS[name])
            self.assertEqual(shown["fileDigest"], hashlib.sha256(read(self.joined)).hexdigest())
