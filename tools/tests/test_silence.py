"""Nothing goes by in silence: what is said of data and statements that mean something else than they seem to,
that --strict refuses it, and that what is said helps, followed word for word through a shell."""
from __future__ import annotations

import json
import os
import re
import sqlite3
import subprocess
import sys
from typing import Any, Union

from ldvtools import check, world

from .support import ASK, TOOLS, InFolder, each_of, make_database, match_in, tool


class Silence(InFolder):
    def said(self, *words: str) -> str:
        """What is said; --strict refuses it."""
        status, _, err = tool(world, *words)
        self.assertEqual(status, 0, err)
        strict = tool(world, "--strict", *words)
        self.assertEqual((strict[0], strict[1]), (1, b""), err)
        return err

    def of(self, content: Union[str, bytes], *words: str) -> str:
        """What is said of the table t of a CSV file."""
        path = self.put("t.csv", content)
        return self.said("--csv", path, *(words if "--ask" in words else [*words, *ASK]))

    def through_shell(self, words: str) -> tuple[Any, str]:
        """The world that world.py makes of words as they are typed."""
        done = subprocess.run(["sh", "-c", f"{sys.executable} {TOOLS}/world.py {words}"], cwd=self.folder,
                              capture_output=True, check=False)
        self.assertEqual(done.returncode, 0, done.stderr.decode())
        return json.loads(done.stdout), done.stderr.decode()

    def followed(self, err: str, given: Any) -> Any:
        """The table t where the options that were said are typed after those that were given."""
        words = " ".join(re.findall(r"--[a-z]+ (?:'(?:[^']|'\"'\"')*'|[^ ;]+)", err.split(" carries")[0]))
        made, _ = self.through_shell(f"--csv t.csv {given} {words} --ask 'SELECT * FROM t'")
        return made["tables"]["t"]


class Columns(Silence):
    def test_odd_cells(self) -> None:
        """One odd cell among decimals, with points and with commas."""
        for odd in ("<0{}5", ">100", "12{}4*", "~5", "5-10", "ca. 12{}4", "12{}4?"):
            for sign in ".,":
                cell, row = odd.format(sign), f"12{sign}40"
                err = self.of(f"id;a\n1;{row}\n2;{cell}\n3;3{sign}5\n4;7{sign}25\n", "--delimiter", ";")
                self.assertIn("t.a is TEXT, and compares as texts do, though most cells are numbers", err)
                self.assertIn(f"t.csv line 3 (row 1 of t) has {cell!r}; ", err)
                table = self.followed(err.replace(f"{cell!r};", ""), "--delimiter ';'")
                self.assertEqual([row[1] for row in table["rows"]], [1240, None, 350, 725], cell)

    def test_many_odd_cells(self) -> None:
        cells = "".join(f"{number};{number},5\n" for number in range(60)) + "".join(
            f"{number};<{number},5\n" for number in range(60, 80))
        err = self.of("id;a\n" + cells, "--delimiter", ";")
        self.assertIn("(row 60 of t) has '<60,5', ", err)
        self.assertIn("and 17 more; write them as numbers, or in a column of their own, in the file first",
                      err)

    def test_others(self) -> None:
        for cells, said in (
                (["5 mg", "0.2 g", "7 mg"], "t.a is TEXT, and has numbers of several units (g, mg): "),
                (["٣", "٤", "٥"], "has digits of another script: "),
                (["1-2", "5-10", "3-4"], "though its cells look like numbers: "),
                (["<5", "<1", ">7"], "though its cells look like numbers: "),
                (["Q1 2024", "Q2 2024", "Q3 2023"], "looks like quarters such as 'Q1 2024': "),
                (["31/2024", "32/2024"], "looks like months or weeks such as '31/2024': "),
                (["March 2024", "May 2023"], "looks like months such as 'March 2024': ")):
            self.assertIn(said,
                          self.of("a;b\n" + "".join(f"{cell};x\n" for cell in cells),
                                                              "--delimiter", ";"))
        for cells in (["Ann 1", "Bob", "Cy"], ["A-1", "B-2"], ["10.0.0.1", "10.0.0.2"], ["0150", "0170"],
                      ["2024-01-01", "2024-02-01"], ["2024-01", "2024-02"]):
            path = self.put("t.csv", "a;b\n" + "".join(f"{cell};x\n" for cell in cells))
            status, _, err = tool(world, "--csv", path, "--delimiter", ";", "--strict", *ASK)
            self.assertEqual(status, 0, err)

    def test_dates(self) -> None:
        err = self.of("a,b\n2024/03/11,1\n2023/12/01,2\n")
        self.assertIn("t.a is TEXT, and looks like dates such as '2024/03/11': these don't compare as dates; "
                      "--date t.a=ymd carries it as 2024-03-11\n", err)
        self.assertEqual(self.followed(err, "")["rows"], [["2024-03-11", 1], ["2023-12-01", 2]])
        # Dates of two forms are taken by one that reads both.
        err = self.of("a,b\n2024-01-05,1\n5.1.2024,2\n2023-12-24,3\n")
        self.assertEqual([row[0] for row in self.followed(err, "")["rows"]],
                         ["2024-01-05", "2024-01-05", "2023-12-24"])
        err = self.of("a,b\n2024-01-05,1\n31.12.2024,2\n12/31/2024,3\n2023-12-24,3\n2023-12-25,3\n")
        self.assertIn("write them in one way, from the year down, in the file first", err)

    def test_database(self) -> None:
        path = os.path.join(self.folder, "f.db")
        make_database(path, "CREATE TABLE t (id INTEGER PRIMARY KEY, a TEXT, d TEXT); INSERT INTO t VALUES "
                            "(1, '9,50', '2024/03/11'), (2, '<0,5', '2024/04/11'), (3, '7,5', '2024/05/11');")
        err = self.said("--sqlite", path, *ASK)
        self.assertIn("t.a is TEXT, and compares as texts do, though most cells are numbers: row 1 of t has "
                      "'<0,5'; --decimal t.a=, --scale t.a=2 --null 't.a=<0,5' carries the numbers, and "
                      "these as "
                      "NULL\n", err)
        self.assertIn("t.d is TEXT, and looks like dates such as '2024/03/11'", err)
        made, _ = self.through_shell("--sqlite f.db --decimal t.a=, --scale t.a=2 --null 't.a=<0,5' --date "
                                     "t.d=ymd --ask 'SELECT * FROM t'")
        self.assertEqual(made["tables"]["t"]["rows"],
                         [[1, 950, "2024-03-11"], [2, None, "2024-04-11"], [3, 750, "2024-05-11"]])


class Files(Silence):
    def test_header(self) -> None:
        """A first line that looks like a row, also with --tidy; a table of years has a header."""
        for words in each_of([], ["--tidy"]):
            path = self.put("t.csv", "1,2.5,x\n2,3.5,y\n3,4.5,z\n")
            if words:
                err = self.said("--csv", path, *words, "--ask", "SELECT COUNT(*) FROM t")
                self.assertIn("t.csv line 1: the header looks like a row, with '1' above a column of such "
                              "cells; "
                              "where it is one, --header none reads it so", err)
            made, _ = self.through_shell("--csv t.csv --header none --ask 'SELECT * FROM t'")
            table = made["tables"]["t"]
            self.assertEqual([name for name, _ in table["columns"]], ["c1", "c2", "c3"])
            self.assertEqual(len(table["rows"]), 3)
        err = tool(world, "--csv", self.put("t.csv", "id,2019,2020\n1,2,3\n2,3,4\n"), "--tidy", *ASK)[2]
        self.assertNotIn("looks like a row", err)
        self.csv_refused("t.csv line 2 (row 1 of t), column c1: 'x' is no", "1,2\nx,3\n", "--header", "none",
                         "--kind", "t.c1=INT")

    def test_encodings(self) -> None:
        """A file of two encodings names the lines of each, and is read by both; a text that was decoded
        twice."""
        data = "id,name\n1,Müller\n".encode() + "2,Müller\n".encode("cp1252")
        path = self.put("t.csv", data)
        self.refused("t.csv line 3: byte 21 isn't utf-8: the lines 2 are UTF-8, and the lines 3 aren't; "
                     "--encoding mixed reads each so, and the others by cp1252 (of Windows)\n", "--csv", path,
                     *ASK)
        made, _ = self.through_shell("--csv t.csv --encoding mixed --ask 'SELECT * FROM t'")
        self.assertEqual([row[1] for row in made["tables"]["t"]["rows"]], ["Müller", "Müller"])
        err = self.said("--csv", path, "--encoding", "cp1252", *ASK)
        self.assertIn("t.csv line 2 (row 0 of t): 'MÃ¼ller' of t.name looks as if it had been decoded twice, "
                      "being "
                      "'Müller'; --encoding mixed reads it so where the file has it once\n", err)
        self.assertNotIn("decoded twice", tool(world, "--csv", self.put("t.csv", "a\nÄÖÜ é\n"), *ASK)[2])

    def test_nul(self) -> None:
        self.assertIn("t.csv line 2 (row 0 of t): 'x\\x00y' of t.a has a NUL in it", self.of("a,b\nx\0y,1\n"))

    def test_wide(self) -> None:
        path = self.put("t.csv", "id,a\n1,x\n2,y\n".encode("utf-16-le"))
        self.refused("t.csv looks like UTF-16 without a byte order mark; give --encoding utf-16-le\n",
                     "--csv",
                     path, *ASK)
        made, _ = self.through_shell("--csv t.csv --encoding utf-16-le --ask 'SELECT * FROM t'")
        self.assertEqual(made["tables"]["t"]["rows"], [[1, "x"], [2, "y"]])
        self.refused("is no CSV file: byte ", "--csv", self.put("t.csv", bytes(range(256))), *ASK)

    def test_delimiters(self) -> None:
        """Of several files the one is named that has another delimiter."""
        self.put("a.csv", "x,y\n1,2\n")
        self.put("done.csv", "p;q\n3;4\n")
        words = ["--csv", os.path.join(self.folder, "a.csv"), "--csv", os.path.join(self.folder, "done.csv")]
        self.refused("done.csv: the first line has one name, 'p;q'; give --delimiter 'done=;'\n", *words,
                     "--ask",
                     "SELECT * FROM a")
        made, _ = self.through_shell("--csv a.csv --csv done.csv --delimiter 'done=;' --ask 'SELECT * FROM "
                                     "done'")
        self.assertEqual(made["tables"]["done"]["rows"], [[3, 4]])

    def test_rename(self) -> None:
        """A name with quotes in it is one word of a shell."""
        path = os.path.join(self.folder, "f.db")
        make_database(path, 'CREATE TABLE "my table ""q""" (a INT)')
        err = tool(world, "--sqlite", path, "--ask", "SELECT * FROM q")[2]
        word = match_in(r"give (--rename .*)$", err.strip())[1]
        made, _ = self.through_shell(f"--sqlite f.db {word.replace('NAME', 'q')} --ask 'SELECT * FROM q'")
        self.assertEqual(list(made["tables"]), ["q"])


class Statements(Silence):
    def test_joins(self) -> None:
        """A word before JOIN that is no JOIN of ours."""
        one, other = self.put("s.csv", "id\n1\n2\n"), self.put("p.csv", "s\n1\n")
        words = ["--csv", one, "--csv", other]
        for word in ("ANTI", "SEMI", "ASOF", "ANY", "HASH", "LEFT", "Positional"):
            text = f"SELECT id FROM s {word} JOIN p ON id = s"
            self.refused(f"{word.upper()} before JOIN is read as another name of s: this is an inner join; ",
                         *words, "--ask", text)
        err = self.said(*words, "--ask", "SELECT id FROM s lefty JOIN p ON id = s")
        self.assertIn("LEFTY before JOIN is read as another name of s, by which no column is named", err)
        for text in ("SELECT a.id FROM s a JOIN p ON a.id = p.s", "SELECT id FROM s AS lefty JOIN p ON id = "
                                                                  "s"):
            self.assertNotIn("before JOIN", tool(world, *words, "--ask", text)[2])

    def test_comments(self) -> None:
        """Two minuses in a script's statement are no comment, there and in check.py."""
        path = self.put("t.csv", "id\n1\n2\n")
        script = self.put("m.ldv", 'sql q "SELECT COUNT(*) FROM t WHERE id > 2 -- id"\n')
        err = self.said("--csv", path, "--script", script)
        self.assertIn("m.ldv line 1: -- is two minuses here, and begins no comment", err)
        made = self.put("w.json", tool(world, "--csv", path, "--script", script)[1])
        for words in ([made], ["--statement", "SELECT 1 -- 2 FROM t", made]):
            status, out, _ = tool(check, *words)
            self.assertEqual(status, 1)
            self.assertIn(b"-- is two minuses here", out)
        script = self.put("m.ldv", 'sql q "SELECT id /* x */ FROM t"\n')
        self.assertIn("comments are -- ..", tool(world, "--csv", path, "--script", script)[2])

    def test_constants(self) -> None:
        """Other separators, a day beside times, look-alikes beside an equal constant."""
        content = "id,d,at,name\n1,2024/03/11,2024-06-01 10:00,siehe\n"
        path = self.put("t.csv", 'id,d,at,name\n1,2024/03/11,2024-06-01 10:00,"siehe\nProtokoll"\n'
                                 '2,2024/04/11,2024-06-02 10:00,Mu\u0308ller\n3,2024/05/11,2024-06-03 '
                                 '09:30,Müller\n')
        self.assertTrue(content)
        for condition, said in (
                ("d < '2024-06-01'",
                 "d has texts such as '2024/03/11': '2024-06-01' is written '2024/06/01'"),
                ("at <= '2024-06-01'", "at has times behind its days, such as 2024-06-01 10:00, and each "
                                       "comes after "
                                       "'2024-06-01': <= leaves that day out; write < '2024-06-02'"),
                ("'2024-06-01' >= at", "<= leaves that day out; write < '2024-06-02'"),
                ("at > '2024-06-01'", "> takes that day in; write >= '2024-06-02'"),
                ("name = 'siehe Protokoll'", "1 cell of name look like 'siehe Protokoll' and are other "
                                             "texts, such "
                                             "as 'siehe\\nProtokoll'; --plain makes them one"),
                ("name = 'Müller'", "1 cell of name look like 'Müller' and are other texts")):
            err = self.said("--csv", path, "--ask", f"SELECT id FROM t WHERE {condition}")
            self.assertIn(said, err)
        for condition in ("at < '2024-06-02'", "at >= '2024-06-02'"):
            self.assertNotIn("warning", tool(world, "--csv", path, "--ask", "SELECT id FROM t WHERE "
                                                                            f"{condition}")[2])
        made, _ = self.through_shell("--csv t.csv --plain --ask 'SELECT * FROM t'")
        self.assertEqual([row[3] for row in made["tables"]["t"]["rows"]],
                         ["siehe Protokoll", "Müller", "Müller"])

    def test_groups(self) -> None:
        path = self.put("t.csv", "id,name\n1,Mu\u0308ller\n2,Müller\n3,a b\n4,a\u00a0b\n")
        for text, what in (("SELECT name, COUNT(*) FROM t GROUP BY name", "GROUP BY"),
                           ("SELECT DISTINCT name FROM t", "DISTINCT")):
            err = self.said("--csv", path, "--ask", text)
            self.assertIn(f"'Mu\\u0308ller' and 'M\\xfcller' of name look alike and are two in {what}, and 1 "
                          "more "
                          "such; --plain makes them one", err)
            status, _, err = tool(world, "--csv", path, "--plain", "--strict", "--ask", text)
            self.assertEqual(status, 0, err)

    def test_collation(self) -> None:
        """COLLATE NOCASE is said at the statement that compares such a column."""
        path = os.path.join(self.folder, "f.db")
        make_database(path, "CREATE TABLE t (id INTEGER PRIMARY KEY, red_list TEXT COLLATE NOCASE, b TEXT); "
                            "INSERT "
                            "INTO t VALUES (1, 'LC', 'x'), (2, 'lc', 'x'), (3, 'Lc', 'X'), (4, 'VU', 'x');")
        base = sqlite3.connect(path)
        self.assertEqual(base.execute("SELECT COUNT(*) FROM t WHERE red_list = 'LC'").fetchall(), [(3,)])
        base.close()
        err = self.said("--sqlite", path, "--ask", "SELECT COUNT(*) FROM t WHERE red_list = 'LC'")
        self.assertIn("--ask 1: red_list is COLLATE NOCASE in its database, and compares by its bytes here: "
                      "2 cells such as 'lc' would be equal to 'LC' there; write red_list = 'LC' OR "
                      "red_list = 'lc' OR red_list = 'Lc'\n", err)
        err = self.said("--sqlite", path, "--ask", "SELECT red_list, COUNT(*) FROM t GROUP BY red_list")
        self.assertIn("here 'LC' and 'lc' are two in GROUP BY", err)
        for text in ("SELECT id FROM t WHERE b = 'x'", "SELECT id FROM t WHERE red_list = 'VU'"):
            self.assertNotIn("--ask 1", tool(world, "--sqlite", path, "--ask", text)[2])

    def test_spelled(self) -> None:
        """All spellings of a text, as they are advised, give what the database gives, and nothing is said."""
        path = os.path.join(self.folder, "f.db")
        make_database(path, "CREATE TABLE t (id INTEGER PRIMARY KEY, a TEXT COLLATE NOCASE); INSERT INTO t "
                            "VALUES (1, 'LC'), (2, 'lc'), (3, 'it''s'), (4, 'IT''S'), (5, 'VU'), (6, NULL);")
        base = sqlite3.connect(path)
        self.addCleanup(base.close)
        plain = sqlite3.connect(":memory:")
        self.addCleanup(plain.close)
        plain.execute("CREATE TABLE t (id INTEGER PRIMARY KEY, a TEXT)")
        plain.executemany("INSERT INTO t VALUES (?, ?)", base.execute("SELECT * FROM t").fetchall())
        for condition in ("a = 'LC'", "a <> 'lc'", "a = 'It''s'", "'lc' = a AND id > 1",
                          "a <> 'LC' OR id = 1"):
            text = f"SELECT id FROM t WHERE {condition} ORDER BY id"
            err = self.said("--sqlite", path, "--ask", text)
            mended = match_in(r"there; write (.*)\n", err)[1]
            asked = re.sub(r"a (=|<>) '(?:[^']|'')*'|'lc' = a", lambda _: f"({mended})", text, count=1)
            self.assertEqual(plain.execute(asked).fetchall(), base.execute(text).fetchall(), asked)
            made, err = self.through_shell(f'--sqlite f.db --ask "{asked}"')
            self.assertNotIn("warning", err, asked)
        # A spelling that is left out, or that stands in another chain, is said.
        for condition in ("a = 'LC' AND a = 'lc'", "a <> 'LC' OR a <> 'lc'", "a = 'LC' OR id = 2",
                          "a < 'LC'"):
            err = self.said("--sqlite", path, "--ask", f"SELECT id FROM t WHERE {condition}")
            self.assertIn("a is COLLATE NOCASE", err)
        self.assertIn("write them in one way in a copy of the database first", err)
