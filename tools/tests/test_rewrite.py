"""Statements as they are written for other databases: put into the dialect, with the replies of SQLite."""
from __future__ import annotations

import json
import os
import re
import sqlite3

from ldvtools import world

from .support import InFolder, tool

ROWS = [(1, 1, "plot A", 12.5, "2024-01-05", 3), (2, 1, "plot B", 7.25, "2024-02-01", None),
        (3, 2, "Plot C", 20.0, "2024-02-29", 5), (4, 2, None, 0.05, "2024-03-01", 7),
        (5, 3, "plaza", None, "2025-01-01", 11), (6, 3, "plot A", 12.55, None, 0)]
SITES = [(1, "Oslo", 1.5), (2, "Bergen", 2.25), (3, "Voss", 0.5)]
WRITTEN = [
    "SELECT id FROM plots WHERE mass BETWEEN 7.25 AND 12.5",
    "SELECT id FROM plots WHERE NOT (mass NOT BETWEEN 7.25 AND 12.5) AND id > 1",
    "SELECT id FROM plots WHERE n + 1 BETWEEN 4 AND 6 OR id = 1 ORDER BY id",
    "SELECT id FROM plots WHERE name IN ('plot A', 'plaza') ORDER BY id",
    "SELECT id FROM plots WHERE n NOT IN (3, 5) ORDER BY id",
    "SELECT id FROM plots WHERE mass IN (12.5, 20.0, 0.05)",
    "SELECT id FROM plots WHERE n == 3",
    'SELECT "id", "name" FROM "plots" WHERE "n" > 3',
    "SELECT id number, n FROM plots",
    "SELECT id FROM plots WHERE mass > 12.5", "SELECT id FROM plots WHERE mass >= 12.555",
    "SELECT id FROM plots WHERE 12.549 < mass", "SELECT id FROM plots WHERE mass < 7.251",
    "SELECT id FROM plots WHERE mass <= 12.549 AND mass > -0.5", "SELECT id FROM plots WHERE n > 3.5",
    "SELECT id FROM plots WHERE name LIKE 'plaz%'", "SELECT id FROM plots WHERE d LIKE '2024-02%'",
    "SELECT id FROM plots WHERE d NOT LIKE '2024-%'",
    "SELECT s.town, COUNT(*) FROM plots p JOIN sites s ON p.site = s.id GROUP BY s.town ORDER BY 1",
    "SELECT s.town, COUNT(p.id) AS many FROM plots p, sites s WHERE p.site = s.id GROUP BY s.town ORDER BY "
    "town",
    "SELECT COUNT(*) FROM plots p JOIN sites s ON p.site = s.id WHERE s.area > 1.25",
    "SELECT id FROM plots WHERE (mass BETWEEN 1.0 AND 30.0 OR name IN ('x')) AND d BETWEEN '2024-02-01' AND "
    "'2024-02-29'",
]


def filled(scaled: bool) -> sqlite3.Connection:
    base = sqlite3.connect(":memory:")
    base.execute("CREATE TABLE plots (id INTEGER NOT NULL PRIMARY KEY, site INT NOT NULL, name TEXT, mass "
                 "NUMERIC, "
                 "d TEXT, n INT)")
    base.execute("CREATE TABLE sites (id INTEGER NOT NULL PRIMARY KEY, town TEXT, area NUMERIC)")
    times = 100 if scaled else 1
    base.executemany("INSERT INTO plots VALUES (?, ?, ?, ?, ?, ?)", [
        (*row[:3], None if row[3] is None else round(row[3] * times) if scaled else row[3], *row[4:])
        for row in ROWS])
    base.executemany("INSERT INTO sites VALUES (?, ?, ?)", [
        (*row[:2], round(row[2] * times) if scaled else row[2]) for row in SITES])
    base.commit()
    return base


class Rewritten(InFolder):
    def setUp(self) -> None:
        super().setUp()
        path = os.path.join(self.folder, "f.db")
        base = sqlite3.connect(path)
        filled(False).backup(base)
        base.close()
        self.words = ["--sqlite", path, "--scale", "plots.mass=2", "--scale", "sites.area=2", "--no-columns"]

    def asked(self, *words: str) -> tuple[list[str], str]:
        """The statements that the world asks, and what is said."""
        status, out, err = tool(world, *self.words, *words)
        self.assertEqual(status, 0, err)
        script = json.loads(out)["files"]["main"]
        return [json.loads(f'"{text}"') for text in re.findall(r'(?m)^sql q "(.*)"$', script)], err

    def test_sqlite(self) -> None:
        """Over the carried table each gives what SQLite gives for what was written, over the table as it is;
        what is asked is shown."""
        plain, carried = filled(False), filled(True)
        for text in WRITTEN:
            (asked,), err = self.asked("--ask", text)
            self.assertNotEqual(asked, text)
            self.assertIn(f"world.py: --ask 1 is asked as: {' '.join(asked.split())}\n", err)
            self.assertNotIn("will be refused", err)
            self.assertEqual(carried.execute(asked).fetchall(), plain.execute(text).fetchall(), (text, asked))

    def test_average(self) -> None:
        (asked,), err = self.asked("--ask", "SELECT site, AVG(n) AS mean FROM plots GROUP BY site")
        self.assertEqual(asked, "SELECT site, SUM(n) AS mean_sum, COUNT(n) AS mean_count FROM plots GROUP BY "
                                "site")
        self.assertIn("AVG(n) is two columns, SUM(n) and COUNT(n): their quotient is the average\n", err)
        base = filled(True)
        for (site, total, count), (other, mean) in zip(base.execute(asked), base.execute(
                "SELECT site, AVG(n) FROM plots GROUP BY site")):
            self.assertEqual((site, total / count), (other, mean))

    def test_not_exact(self) -> None:
        """What isn't the same is left as it is, and refused or told with its way around; all in one run."""
        for text, said in (
                ("SELECT id FROM plots WHERE name LIKE 'plot%'", "texts are compared whole"),
                ("SELECT id FROM plots WHERE name LIKE '%a'", "texts are compared whole"),
                ("SELECT id FROM plots WHERE mass = 12.345", "there are no decimals"),
                ("SELECT id FROM plots WHERE n IN (SELECT n FROM plots)", "write x = 1 OR x = 2")):
            (asked,), err = self.asked("--ask", text)
            self.assertEqual(asked, text)
            self.assertIn(said, err)
        (asked,), _ = self.asked("--as-written", "--ask", "SELECT id FROM plots WHERE n BETWEEN 1 AND 2")
        self.assertIn("BETWEEN", asked)
        path = self.put("q.sql", "SELECT id / 2 FROM plots;\nSELECT id FROM plots WHERE name = \"no\";\n"
                                 "SELECT id FROM plots;\nSELECT id % 2 FROM plots;\n")
        status, _, err = tool(world, *self.words, "--sql", path)
        self.assertEqual(status, 1)
        for line in (1, 2, 4):
            self.assertIn(f"{path} line {line}: ", err)

    def test_lines(self) -> None:
        """What is said of a statement names its line, also behind one that was put otherwise."""
        path = self.put("q.sql", "-- one\nSELECT id FROM plots\nWHERE n IN (1,\n2);\nSELECT id FROM plot;\n")
        asked, err = self.asked("--sql", path)
        self.assertEqual(len(asked), 2)
        self.assertIn(f"{path} line 2 is asked as: SELECT id FROM plots WHERE (n = 1 OR n = 2)\n", err)
        self.assertIn(f"{path} line 5: the statement will be refused with code 2", err)

    def test_as_read(self) -> None:
        """With --as-read a constant is as the source has it."""
        path = self.put("t.csv", "id;d;at;cost\n1;1.2.2024;9:05;12,5\n2;3.11.2024;10:30;20\n")
        self.words = ["--csv", path, "--delimiter", ";", "--decimal", ",", "--date", "t.d=dmy", "--date",
                      "t.at=time",
                      "--scale", "t.cost=2", "--no-columns"]
        for condition, carried in (("cost >= 20", "cost >= 2000"), ("d < '2.2.2024'", "d < '2024-02-02'"),
                                   ("at = '9:05'", "at = '09:05'"), ("id > 1", None)):
            text = f"SELECT id FROM t WHERE {condition}"
            (asked,), err = self.asked("--as-read", "--ask", text)
            self.assertEqual(asked, f"SELECT id FROM t WHERE {carried or condition}")
            self.assertEqual("is asked as" in err, carried is not None)
        (asked,), err = self.asked("--ask", "SELECT id FROM t WHERE cost >= 20")
        self.assertEqual(asked, "SELECT id FROM t WHERE cost >= 20")
        self.assertIn("so 20 means 0.20", err)

    def test_with_script(self) -> None:
        """Statements and a script together: the script runs as a child, with the words of the start."""
        script = self.put("never.ldv", 'print "hello " arg1\nexit 7\n')
        status, out, err = tool(world, *self.words, "--ask", "SELECT id FROM plots", "--script", script,
                                "--arg", "Ada",
                                "--name", "asks")
        self.assertEqual(status, 0, err)
        made = json.loads(out)
        self.assertEqual(made["start"], ["asks", "Ada"])
        self.assertEqual(made["files"]["asks"], 'sql q "SELECT id FROM plots"\nspawn child "never.ldv" arg1 '
                                                'else known\n'
                                                "wait ended child\nexit ended\nknown:\n")
        self.assertEqual(made["files"]["never.ldv"], 'print "hello " arg1\nexit 7\n')
