"""What the columns of a captured database were, as the other tools show it."""
from __future__ import annotations

import csv
import io
import json
import sqlite3
import subprocess

from ldvtools import outcome, package, page

from . import support
from .support import match_in, read
from .test_capture import SCALES, Programs


class Columns(Programs):
    """The world says what columns were in the database, and by that the other tools show decimals and units
    as they were there."""

    def setUp(self) -> None:
        super().setUp()
        words = self.program("""
            print(con.execute("SELECT id, height, name FROM people WHERE born > 1980").fetchall())
            print(con.execute("SELECT MAX(height), COUNT(*) FROM people").fetchall())
            """)
        self.capture(words, *SCALES, "--unit", "people.height=m")
        self.record()
        base = sqlite3.connect("study.db")
        self.addCleanup(base.close)
        self.rows = base.execute("SELECT id, height, name FROM people WHERE born > 1980").fetchall()
        self.all_rows = base.execute("SELECT id, name, born, height, site, typeof(height) FROM people "
                                     "ORDER BY id").fetchall()
        self.most = base.execute("SELECT MAX(height), COUNT(*) FROM people").fetchall()

    def rows_of(self, data: bytes) -> tuple[list[str], list[tuple[str, ...]]]:
        found = list(csv.reader(io.StringIO(data.decode())))
        return found[0], [tuple(row) for row in found[1:]]

    def test_file(self) -> None:
        known = json.loads(self.world()["files"]["ldv-columns/people.json"])
        self.assertEqual([each for each in known["columns"] if each["name"] == "height"], [
            {"name": "height", "source": "height", "kind": "decimal", "scale": 2, "unit": "m",
             "declared": "REAL"}])
        self.assertEqual(known["source"], {"file": "study.db", "table": "people"})

    def test_outcome(self) -> None:
        self.put("o", subprocess.run([support.PROGRAM, "run"], input=read("world.json"),
                                     stdout=subprocess.PIPE, check=True).stdout)
        for of in (["--world", "world.json"], ["--package", "package"]):
            status, out, err = support.tool(outcome, *of, "--csv", "--reply", "1", "o")
            self.assertEqual((status, err), (0, ""))
            self.assertEqual(self.rows_of(out), (["id", "height (m)", "name"], [
                (str(one), f"{height:.2f}", name) for one, height, name in self.rows]))
            out = support.tool(outcome, *of, "--csv", "--reply", "2", "o")[1]
            self.assertEqual(self.rows_of(out)[1], [(f"{self.most[0][0]:.2f}", str(self.most[0][1]))])

    def test_package(self) -> None:
        self.assertEqual(support.tool(package, "--csv", "tables", "package"), (0, b"", ""))
        head, rows = self.rows_of(read("tables/people.csv"))
        self.assertEqual(head, ["id", "name", "born", "height (m)", "site"])
        self.assertEqual([float(row[3]) for row in rows], [row[3] for row in self.all_rows])
        self.assertEqual([row[3] for row in rows], ["1.70", "1.82", "1.65"])
        self.assertEqual(support.tool(package, "--sqlite", "again.db", "package"), (0, b"", ""))
        base = sqlite3.connect("again.db")
        self.addCleanup(base.close)
        text = 'SELECT id, name, born, "height (m)", site, typeof("height (m)") FROM people ORDER BY id'
        self.assertEqual(base.execute(text).fetchall(), self.all_rows)

    def test_page(self) -> None:
        words = ["--ldv", support.PROGRAM, "package", "-o", "page.html"]
        self.assertEqual(support.tool(page, *words), (0, b"", ""))
        found = match_in(r'(?s)<script type="application/json" id="data">(.*?)</script>',
                          read("page.html").decode())
        shown = json.loads(found[1])
        table = next(each for each in shown["tables"] if each["name"] == "people")
        self.assertIn(["height (m)", "INT"], table["columns"])
        self.assertEqual([row[6] for row in table["rows"]], [{"i": "1.70"}, {"i": "1.82"}, {"i": "1.65"}])
        first, second = shown["statements"]
        self.assertEqual(first["columns"], ["id", "height (m)", "name"])
        self.assertEqual([row[1] for row in first["reply"]["rows"]], [{"i": "1.70"}, {"i": "1.82"}])
        self.assertEqual(second["reply"]["rows"], [[{"i": "1.82"}, 3]])
