"""What is said of forms that can't be read, what is refused with a way out, and what can't be told apart."""
from __future__ import annotations

import json
import os
import re
import shlex
import sqlite3
from typing import Any, Sequence

from ldvtools import check, outcome, page, world

from .support import ASK, ROOT, InFolder, each_of, make_database, read, tool
from .test_forms import Forms

IN_FILE = " in the file first"


class Numbers(Forms):
    def hinted(self, cells: Sequence[str], *words: str) -> list[str]:
        """The hints of the column a of these cells."""
        err = self.said(self.column(cells), "--delimiter", ";", *words)
        return re.findall(r"(?m)^world.py: (t\.a .*)$", err)

    def test_leading_zero(self) -> None:
        """0.500 is no number with a sign between thousands."""
        for sign, words in ((".", ["--kind", "t.a=INT"]), (".", ["--scale", "t.a=1"]), (",", ["--scale",
                                                                                              "t.a=1"]),
                            (",", ["--kind", "t.a=INT"])):
            for cell in ("0.500", "-0.125", "007.500", "00.500", "0.500.000"):
                given = cell.replace(".", sign)
                message = f"column a: '{given}' is no "
                self.csv_refused(message, f"a;b\n{given};x\n1{sign}500;x\n", "--delimiter", ";",
                                 "--thousands", sign, *words)
            table = self.table(f"a;b\n1{sign}500;x\n12{sign}345{sign}678;x\n0;x\n", "--delimiter", ";",
                               "--thousands", sign, *words)
            times = 10 if words[0] == "--scale" else 1
            self.assertEqual([row[0] for row in table["rows"]], [1500 * times, 12345678 * times, 0])
        self.csv_refused("'0.500' is no whole number, and the column is INT; . doesn't stand between "
                         "thousands here: where it stands before decimals, give --decimal . in place of "
                         "--thousands\n", "a\n0.500\n", "--thousands", "t.a=.")

    def test_no_cell_with_both(self) -> None:
        """A point between thousands in one cell, and a comma before decimals in another."""
        content = "Nr;Wert\n1;1.000\n2;1,5\n"
        err = self.said(content, "--delimiter", ";", "--tidy")
        self.assertIn("t.wert is TEXT, and looks like numbers with signs between thousands, such as '1.000'; "
                      "--thousands t.wert=. --scale t.wert=1 carries it as whole numbers\n", err)
        table = self.table(content, "--delimiter", ";", "--tidy", "--thousands", "t.wert=.", "--scale",
                           "t.wert=1")
        self.assertEqual([row[1] for row in table["rows"]], [10000, 15])
        # Each pair of forms is said or not, and none is an error.
        cells = ["1", "1.5", "1,5", "1.000", "1,000", "1.000,5", "1,000.5", "1 000", "1'000", "-1", "\u22121",
                 "+1", " 1", "1 ", "5%", "5 kg", "-", "x", "(1)", "1-", "1e3", "1,--", "9:05", "1.2.2024",
                 "0150"]
        for one in cells:
            for other in cells:
                self.said(self.column([one, other]), "--delimiter", ";")

    def test_forms_in_file(self) -> None:
        """Forms that no option reads are said and refused, with what to write in their place."""
        minus, bracket = "write -0.50 in place of 0.50-", "write -0.50 in place of (0.50)"
        for cells, odd, what, how in (
                (["9,50-", "3,20"], "9,50-", "numbers with their minus behind", minus),
                (["3.20", "9.50 - \u20ac"], "9.50 - \u20ac", "numbers with their minus behind", minus),
                (["(0,50)", "1,20"], "(0,50)", "numbers below 0 in brackets", bracket),
                (["1,5E+03", "2"], "1,5E+03", "numbers with an exponent", "write 0.001 in place of 1e-3"),
                (["1.234,--", "5,00"], "1.234,--", "amounts without their cents",
                 "write 1234 in place of 1.234,--"),
                (["12,-", "5,00"], "12,-", "amounts without their cents", "write 1234 in place of 1.234,--"),
                (["9:05 Uhr", "10:30 Uhr"], "9:05 Uhr", "clock times with a word behind them",
                 "write 09:05 in place of 9:05 Uhr"),
                (["3:45,2", "4:01,0"], "3:45,2", "times with a comma before their decimals",
                 "write 03:45.2 in place of 3:45,2, or the whole in tenths of a second,")):
            self.assertEqual(self.hinted(cells), [f"t.a is TEXT, and looks like {what}, such as {odd!r}; "
                                                  f"{how}{IN_FILE}"])
            self.csv_refused(f"{odd!r} is no decimal number such as -1,25; {how}{IN_FILE}\n",
                             self.column([odd]), "--delimiter", ";", "--decimal", ",", "--scale", "t.a=1")
        self.assertEqual(self.hinted(["9,5", "10.5", "100,25"]),
                         ["t.a is TEXT, and looks like numbers of which some have a comma before decimals "
                          f"and some a point, such as '9,5' and '10.5'; write them in one way{IN_FILE}"])
        for cells in (["555-", "Bob", "Ann"], ["1.2.3", "1,2"], ["10.0.0.1", "10,5"], ["0150", "0170"],
                      ["A-", "B-"]):
            self.assertNotIn("looks like", "".join(self.hinted(cells)), cells)

    def test_blanks(self) -> None:
        self.assertEqual(self.words_said([" 6", "7 ", "8"], "--kind t.a=INT"), [6, 7, 8])
        self.assertEqual(self.hinted([" 6", "7 ", "8"])[0].partition(";")[0],
                         "t.a is TEXT, and looks like numbers with blanks around them, such as ' 6'")
        self.assertEqual([row[0] for row in self.table("a\n6 \n 7.5\n", "--scale", "t.a=1")["rows"]], [60,
                                                                                                       75])

    def test_zero(self) -> None:
        """A unit without a number, as Excel shows an amount of 0, may be 0."""
        for blank in " \u00a0":
            cell = f"-{blank}{blank}\u20ac"
            hint, = self.hinted(["1.234,50 \u20ac", cell, "2,00 \u20ac"])
            self.assertTrue(hint.endswith(f" carries it as whole numbers; where {cell!r} is 0, write 0 in "
                                          "its place in the file first"), hint)
            self.assertEqual("\u00a0" in hint, False)
        self.assertIn("--null $'t.a=-\\u00a0\\u00a0\u20ac' carries", hint)
        self.assertNotIn("where", self.hinted(["1,5 %", "-", "2 %"])[0])

    def test_ways_out(self) -> None:
        """A refusal says what to do."""
        for cell, said in (("#NV", "where it stands for NULL: --null '#NV', or --null 't.a=#NV' for this "
                                   "column alone"),
                           ("31.12.24", f"years have four digits: write it so{IN_FILE}"),
                           ("1 Feb 2020", f"write it from the year down, as 2019-01-31,{IN_FILE}")):
            self.csv_refused(f"{cell!r} is no date such as 31.1.2019 (--date dmy); {said}\n",
                             self.column(["1.1.2020", cell]), "--delimiter", ";", "--date", "t.a=dmy")
        table = self.table(self.column(["1.1.2020", "#NV"]), "--delimiter", ";", "--date", "t.a=dmy",
                           "--null", "#NV")
        self.assertEqual([row[0] for row in table["rows"]], ["2020-01-01", None])
        self.csv_refused("column b: NULL, but it is in the key; --key t=none makes a table without one\n",
                         "a,b\n1,\n", "--key", "t=b")
        path = os.path.join(self.folder, "nokey.db")
        make_database(path, "CREATE TABLE nokey (a INT, b TEXT PRIMARY KEY); INSERT INTO nokey VALUES (1, "
                            "NULL);")
        ask = ["--sqlite", path, "--ask", "SELECT * FROM nokey"]
        self.refused("row 0 of nokey, column b: NULL, but it is in the key; --key nokey=none makes", *ask)
        self.assertEqual(tool(world, *ask, "--key", "nokey=none")[0], 0)

    def test_scripts_with_mark(self) -> None:
        """The mark that Windows puts before a script is taken off, and named in a child's script."""
        data = self.put("t.csv", "a\n1\n")
        script = self.put("m.ldv", "\ufefflet x = 1\n")
        status, out, err = tool(world, "--csv", data, "--script", script, "--no-columns")
        self.assertEqual((status, json.loads(out)["files"]), (0, {"m.ldv": "let x = 1\n"}), err)
        start = self.put("s.ldv", 'spawn c "m.ldv" else e\ne:\n')
        err = tool(world, "--csv", data, "--script", start, "--file", script)[2]
        self.assertIn("m.ldv line 1: bad: it begins with a byte order mark: save it without one\n", err)
        self.assertEqual(tool(outcome, self.put("o", "")),
                         (1, b"", "outcome.py: no outcome: it is empty; did the run fail? It says why on "
                                  "standard error\n"))
        given = self.put("s.json", "{}")
        self.assertEqual(tool(page, given),
                         (1, b"", "page.py: no package: it doesn't begin with LDVPACK1 or LDVPACK2, as `ldv "
                                  "record` writes a package\n"))


class Times(Forms):
    def asked(self, cells: Sequence[str], condition: str, *words: str) -> list[str]:
        """What is said of a condition on the column a of these cells, which is text."""
        path = self.put("t.csv", "id,a\n" + "".join(f"{row},{cell}\n" for row, cell in enumerate(cells)))
        status, _, err = tool(world, "--csv", path, *words, "--ask", f"SELECT id FROM t WHERE {condition}")
        self.assertEqual(status, 0, err)
        return re.findall(r"(?m)^world.py: warning: --ask 1: (.*)$", err)

    def found(self, cells: Sequence[str], condition: str) -> list[Any]:
        """The rows that SQLite finds, which compares texts as the program does."""
        base = sqlite3.connect(":memory:")
        base.execute("CREATE TABLE t (id INT, a TEXT)")
        base.executemany("INSERT INTO t VALUES (?, ?)", enumerate(cells))
        return [row[0] for row in base.execute(f"SELECT id FROM t WHERE {condition} ORDER BY id")]

    def written(self, cells: Sequence[str], condition: str, said: str, advised: Any, rows: Any) -> None:
        """A condition in another form is said, and as it is advised it finds these rows."""
        self.assertEqual(self.asked(cells, condition), [f"a has texts such as {said}"], condition)
        self.assertEqual(self.asked(cells, advised), [], advised)
        self.assertEqual(self.found(cells, advised), rows, advised)

    def test_timestamps(self) -> None:
        """Times with a T, a blank or a zone."""
        zulu = ["2024-03-05T02:00:00Z", "2024-03-05T14:00:00Z", "2024-03-06T00:00:00Z"]
        self.written(zulu, "a < '5.3.2024'", "2019-01-31: '5.3.2024' is written '2024-03-05'",
                     "a < '2024-03-05'",
                     [])
        self.written(zulu, "a < '2024-03-05 12:00'",
                     f"{zulu[0]}: '2024-03-05 12:00' is written '2024-03-05T12:00'",
                     "a < '2024-03-05T12:00'", [0])
        tee = [cell[:-1] for cell in zulu]
        self.written(tee, "a >= '2024-03-05 12:00'",
                     f"{tee[0]}: '2024-03-05 12:00' is written '2024-03-05T12:00:00'",
                     "a >= '2024-03-05T12:00:00'",
                     [1, 2])
        blank = [cell.replace("T", " ") for cell in tee]
        self.written(blank, "a < '2024-03-05T12:00'",
                     f"{blank[0]}: '2024-03-05T12:00' is written '2024-03-05 12:00:00'",
                     "a < '2024-03-05 12:00:00'",
                     [0])
        self.written(blank, "a = '2024-03-05T14:00'",
                     f"{blank[0]}: '2024-03-05T14:00' is written '2024-03-05 14:00:00'",
                     "a = '2024-03-05 14:00:00'", [1])
        for zone in ("+01", "+01:00", "+0100", "-05:00"):
            cells = [cell + zone for cell in tee]
            self.written(cells, "a < '5.3.2024'", "2019-01-31: '5.3.2024' is written '2024-03-05'",
                         "a < '2024-03-05'", [])
            self.assertEqual(self.asked(cells, "a < '2024-03-05T12:00:00Z'"),
                             [f"a has texts such as {cells[0]}: '2024-03-05T12:00:00Z' isn't, and compares "
                              "as a text"])
        # As these are written, each row is after noon, and none of it: what is warned of is wrong.
        self.assertEqual(self.found(tee, "a >= '2024-03-05 12:00'"), [0, 1, 2])

    def test_beginnings(self) -> None:
        """What is equal to none, more than the column has, or in no calendar."""
        times, days = ["09:05", "12:09"], ["2024-12-31", "2024-02-01"]
        self.written(times, "a = '12:09:00'", "09:05: '12:09:00' is written '12:09'", "a = '12:09'", [1])
        self.written(times, "a < '12:09:00'", "09:05: '12:09:00' is written '12:09'", "a < '12:09'", [0])
        self.written(days, "a >= '2024-12-31 00:00'", "2024-12-31: '2024-12-31 00:00' is written "
                                                      "'2024-12-31'",
                     "a >= '2024-12-31'", [0])
        self.assertEqual(self.asked(days, "a = '2024-12'"),
                         ["a has texts such as 2024-12-31, and '2024-12' is only the beginning of one and "
                          "equal to none; write >= and <"])
        self.assertEqual(self.found(days, "a = '2024-12'"), [])
        self.assertEqual(self.found(days, "a >= '2024-12' AND a < '2025-01'"), [0])
        self.assertEqual(len(self.asked(times, "a = '23'")), 1)
        for cells, text, what in ((days, "2024-06-31", "day of the calendar"),
                                  (days, "2024-13-01", "day of the calendar"), (days, "2024-13",
                                                                                "day of the calendar"),
                                  (times, "25:00", "clock time"), (times, "24", "clock time")):
            self.assertEqual(self.asked(cells, f"a < '{text}'"), [f"'{text}' is no {what}"])
        for cells, condition in ((days, "a >= '2024-12'"), (days, "a < '2024'"), (times, "a >= '12'"),
                                 (times, "a < '12:09:30'"), (days, "a <> '2024-02-01'")):
            self.assertEqual(self.asked(cells, condition), [], condition)

    def test_side_by_side(self) -> None:
        """Times of two forms, or of two zones, don't compare as times do."""
        self.assertEqual(self.found(["09:05", "09:05:00"], "a = '09:05'"), [0])
        for cells, words in each_of(
                (["9:05", "09:05:00"], ["--date", "t.a=time"]), (["09:05", "09:05:00"], []),
                             (["2024-03-05T02:00:00+01:00", "2024-03-05T02:00:00+02:00"], []),
                             (["2024-03-05T02:00:00", "2024-03-05 02:00:00"], [])):
            err = self.said(self.column(cells), "--delimiter", ";", *words)
            one = "09:05" if words else cells[0]
            self.assertIn(f"t.a has '{one}' and '{cells[1]}' side by side, and texts of two forms don't "
                          "compare as times do; write them in one form in the file first\n", err)
        # Parts of a second have their place in the order, but not before a Z.
        parts = ["2024-03-05 02:00:00", "2024-03-05 02:00:00.123", "2024-03-05 02:00:00.5"]
        self.assertEqual(self.found(parts, "a < '2024-03-05 02:00:00.2'"), [0, 1])
        self.assertEqual(self.found([part + "Z" for part in parts], "a < '2024-03-05 02:00:00.2Z'"), [1])
        self.assertIn("side by side", self.said(self.column([part + "Z" for part in parts]), "--delimiter",
                                                ";"))
        for cells in (parts, [part + "+01" for part in parts], ["09:05", "10:30"], ["2024-03-05",
                                                                                    "2024-12-31"],
                      ["2024-03-05T02:00:00+01:00", "2024-03-06T02:00:00+01:00"], ["a", "bc"]):
            self.assertNotIn("side by side", self.said(self.column(cells), "--delimiter", ";"))


class Texts(Forms):
    def test_escapes(self) -> None:
        """A plain table that --tsv reads is said at the first backslash that no database writes."""
        for cell, odd, row in (("C:\\temp\\docs", "\\d", ["C:\tempdocs", 1]), ("\\\\srv\\share", "\\s",
                                                                               ["\\srvshare", 1]),
                               ("a\\qb", "\\q", ["aqb", 1]), ("a\\Nb", "\\N", ["aNb", 1]), ("C:\\", "\\",
                                                                                            ["C:\\", 1])):
            content = f"p\tq\n{cell}\t1\n"
            self.assertIn(f"t.csv line 2: it has {odd}, which no database writes as an escape; where \\ is a "
                          "sign as any other, --delimiter tab --quotes none reads the "
                          "file\n", self.said(content,
                                                                                                 "--tsv"))
            self.assertEqual(self.table(content, "--tsv")["rows"], [row])
            self.assertEqual(self.table(content, "--delimiter", "tab", "--quotes", "none")["rows"], [[cell,
                                                                                                      1]])
        # What these databases write.
        for cell in ("C:\\\\temp", "a\\tb", "\\N", "a\\nb\\r\\b\\f\\v\\0"):
            self.assertNotIn("no database writes", self.said(f"p\tq\r\n{cell}\t1\r\n1\t{cell}\r\n",
                                                             "--tsv"), cell)

    def test_scripts(self) -> None:
        """A text of a script with one backslash where two are meant."""
        data = self.put("t.csv", "id\tp\n1\tC:\\temp\\new\n")
        plain = ["--csv", data, "--delimiter", "tab", "--quotes", "none"]
        for text, said in (("C:\\temp\\new", "a tab and a line feed"), ("C:\\temp", "a tab"), ("\\new",
                                                                                               "a line feed"),
                           ("C:\\\\temp\\\\new", None)):
            for script in (f'sql a "SELECT id FROM t WHERE p = \'{text}\'"\n',
                           f'let x = "{text}"\nsql a "SELECT id FROM t WHERE p = ?" x\n'):
                status, out, err = tool(world, *plain, "--script", self.put("m.ldv", script))
                self.assertEqual(status, 0, err)
                self.assertEqual(re.findall(r"warning: m.ldv line \d: (.*)", err),
                                 [f"the text has {said}, and no text of p has; in a script \\ is written "
                                  "\\\\"]
                                 if said else [])
        self.assertNotIn("warning", tool(world, *plain, "--ask",
                                         "SELECT id FROM t WHERE p = 'C:\\temp\\new'")[2])
        quoted = self.put("q.csv", 'id,p\n1,"a\tb"\n')
        err = tool(world, "--csv", quoted, "--ask", "SELECT id FROM q WHERE p = 'a\tb'")[2]
        self.assertNotIn("warning", err)

    def test_trim(self) -> None:
        content = 'id, name\n1, Bob\n2, "Ann, B"\n 3 , Cy \n'
        for words in each_of([], ["--tidy"]):
            plain = content.replace(', B"', '"')
            words = words or ["--rename", "t. name=name"]
            self.assertIn("t.csv line 1: ' name' begins with a blank; --trim reads cells without the blanks "
                          "at their ends\n", self.said(plain, *words))
        table = self.table(content, "--trim")
        self.assertEqual((table["columns"], table["rows"]),
                         ([["id", "INT"], ["name", "TEXT"]], [[1, "Bob"], [2, "Ann, B"], [3, "Cy"]]))
        self.assertIn("t.csv line 3: ' \"Ann\"' begins with a blank; --trim",
                      self.said('id,name\n1,Bob\n2, "Ann"\n3,Cy\n'))
        self.assertIn("t.csv line 2: ' Bob' begins with a blank; --trim",
                      self.said("id,name\n1, Bob\n2, Cy\n"))
        for content in ("id,name\n1,Bob B\n2,Cy \n", "id,name\n1, Bob\n2,Cy\n3,Di\n"):
            self.assertNotIn("--trim", self.said(content))
        self.assertEqual(self.table("a,b\n , x\n", "--trim")["rows"], [[None, "x"]])

    def test_titles(self) -> None:
        """A title above the header."""
        path = os.path.join(self.folder, "t.csv")
        words = (f"; where the first line is a title, take it off first, as tail -n +2 {shlex.quote(path)} "
                 "does\n")
        self.csv_refused("t.csv line 2: 3 cells, but the header has 1" + words, "Report\nid,n,x\n1,5,6\n")
        self.csv_refused("t: 3 columns need another name", "Report,,\nid,n,x\n1,5,6\n")
        self.csv_refused("; where the first line is a title, take it off first\n",
                         "Report,,\nid,n,x\n1,5,6\n")
        self.assertIn("t.csv: the first line has one name, 'Report'" + words,
                      self.said("Report,,\nid,n,x\n1,5,6\n",
                                                                                     "--tidy"))
        self.assertNotIn("title", self.said(",a\n1,5\n", "--tidy"))
        self.csv_refused("t.csv line 2: 3 cells, but the header has 2\n", "id,n\n1,5,6\n")

    def test_all_names(self) -> None:
        """All columns that need another name are named."""
        headers = [f"Col {place}" for place in range(1, 13)]
        content = ",".join(headers) + "\n" + ",".join("1" * 12) + "\n"
        status, _, err = tool(world, "--csv", self.put("t.csv", content), *ASK)
        words = shlex.split(err.partition("give --tidy, or ")[2])
        self.assertEqual((status, len(words)), (1, 24))
        table = self.table(content, *words)
        self.assertEqual([name for name, _ in table["columns"]], [f"col_{place}" for place in range(1, 13)])

    def test_look(self) -> None:
        """What becomes of the tables, without a start script and without a document."""
        path = self.put("t.csv", "id,day\n1,1.2.2024\n")
        status, out, err = tool(world, "--csv", path, "--look")
        self.assertEqual((status, out), (0, b""))
        self.assertIn("--date t.day=dmy reads the day first and carries it as 2024-02-01\n", err)
        self.assertIn("world.py: t: 1 rows; id INT, day TEXT; key none\n", err)
        self.refused("--look says what becomes of the tables without one", "--csv", path, status=2)
        for words in (ASK, ["-o", os.path.join(self.folder, "w")], ["--script", path]):
            self.refused("--look makes no document", "--csv", path, "--look", *words, status=2)

    def test_accept(self) -> None:
        """With --strict what is accepted by its text passes."""
        path = os.path.join(self.folder, "t.db")
        make_database(path, "CREATE TABLE t (a INTEGER PRIMARY KEY, b TEXT UNIQUE, c TEXT UNIQUE);")
        words = ["--sqlite", path, *ASK, "--strict"]
        self.refused("(--strict; --accept TEXT lets one pass): t: UNIQUE (", *words)
        self.refused("t: UNIQUE (c) isn't carried", *words, "--accept", "UNIQUE (b)")
        for accepted in (["--accept", "UNIQUE"], ["--accept", "UNIQUE (b)", "--accept", "UNIQUE (c)"]):
            self.assertEqual(tool(world, *words, *accepted)[0], 0)
        # Without --strict it names a proposal.
        self.refused("UNIQUE: No such file or directory", *words[:-1], "--accept", "UNIQUE")


class Scales(InFolder):
    """Columns that are carried times 100, times 10, and as they are."""

    def asked(self, text: str) -> tuple[list[str], Any]:
        path = self.put("t.csv", "id,price,temp,n\n1,1.50,2.5,3\n2,30.00,4.0,5\n")
        status, out, err = tool(world, "--csv", path, "--scale", "t.price=2", "--scale", "t.temp=1",
                                "--ask", text)
        self.assertEqual(status, 0, err)
        return re.findall(r"(?m)^world.py: ((?:warning: )?--ask 1: .*)$", err), json.loads(out)

    def rows(self, text: str) -> list[Any]:
        """What SQLite answers over the world."""
        made = self.asked(text)[1]
        base = sqlite3.connect(":memory:")
        base.execute("CREATE TABLE t (id INT, price INT, temp INT, n INT)")
        base.executemany("INSERT INTO t VALUES (?, ?, ?, ?)", made["tables"]["t"]["rows"])
        return sorted(row[0] for row in base.execute(text))

    def test_unions(self) -> None:
        """Columns of one UNION that are carried times other numbers."""
        for text, said in (
                ("SELECT price FROM t UNION SELECT temp FROM t",
                 "warning: --ask 1: price is carried times 100, and temp carried times 10: write temp * 10"),
                ("SELECT id, temp FROM t UNION ALL SELECT id, n FROM t",
                 "warning: --ask 1: temp is carried times 10, and n carried as it is: write n * 10"),
                ("SELECT price FROM t UNION SELECT 5 AS x FROM t",
                 "--ask 1: price is carried times 100, so 5 means 0.05; 5 itself is written 500"),
                ("SELECT 5 AS x FROM t UNION SELECT price FROM t",
                 "--ask 1: price is carried times 100, so 5 means 0.05; 5 itself is written 500"),
                ("SELECT * FROM t UNION SELECT id, temp, temp, n FROM t",
                 "warning: --ask 1: price is carried times 100, and temp carried times 10: write temp * 10")):
            self.assertEqual(self.asked(text)[0], [said], text)
        for text in ("SELECT price FROM t UNION SELECT temp * 10 FROM t",
                     "SELECT price FROM t UNION SELECT 0 FROM t",
                     "SELECT price FROM t UNION SELECT price FROM t",
                     "SELECT id FROM t UNION SELECT n FROM t"):
            self.assertEqual(self.asked(text)[0], [], text)
        # As it is advised, the four amounts are hundredths.
        self.assertEqual(self.rows("SELECT price FROM t UNION SELECT temp * 10 FROM t"), [150, 250, 400,
                                                                                          3000])

    def test_products(self) -> None:
        """A number times what another column is carried times."""
        self.assertEqual(self.asked("SELECT id FROM t WHERE temp > 3 * 100")[0],
                         ["--ask 1: temp is carried times 10, so 3 * 100 means 30.0; 3 itself is written 3 * "
                          "10"])
        self.assertEqual(self.asked("SELECT id FROM t WHERE 100 * -3 < price * 10")[0],
                         ["--ask 1: price * 10 is carried times 1000, so -3 * 100 means -0.300; -3 itself is "
                          "written -3 * 1000"])
        for text in ("SELECT id FROM t WHERE temp > 3 * 10", "SELECT id FROM t WHERE temp > 10 * 100",
                     "SELECT id FROM t WHERE n > 3 * 100", "SELECT id FROM t WHERE temp > 3 * 7"):
            self.assertEqual(self.asked(text)[0], [], text)
        self.assertEqual(self.rows("SELECT id FROM t WHERE temp > 3 * 10"), [2])
        for item, head in (("price * temp AS y", "y"), ("price * temp", "1"), ("SUM(price * temp) AS y",
                                                                               "y")):
            self.assertEqual(self.asked(f"SELECT {item} FROM t")[0],
                             ["--ask 1: price * temp is carried times 1000 in the answer; outcome.py "
                              f"--scale {head}=3 shows it"])
        # 1.50 * 2.5 is 3.750, and 30 * 4 is 120.
        self.assertEqual(self.rows("SELECT price * temp AS y FROM t"), [3750, 120000])
        self.assertEqual(self.asked("SELECT price * n AS y FROM t")[0], [])

    def outcome_of(self, text: str, tables: Any, given: bytes, *words: str) -> tuple[Any, bytes, str]:
        """How outcome.py shows a reply to a statement."""
        script = "".join(f'sql q "{each}"\n' for each in [text])
        path = self.put("w", json.dumps({"start": ["m"], "files": {"m": script}, "tables": {
            name: {"columns": columns} for name, columns in tables.items()}}))
        return tool(outcome, "--world", path, *words, given=b"outcome 1 0\nprocess 0 0 0 1\n\n" + given)

    def test_heads(self) -> None:
        """A head of --scale that several tables have, or that a COUNT has."""
        both = {"t": [["value", "INT"]], "u": [["value", "INT"]]}
        given = b"rows 1\nrow 1\nint 2\n"
        status, out, err = self.outcome_of("SELECT COUNT(value) AS value FROM t", both, given, "--scale",
                                           "value=2", "--csv", "--reply", "1")
        shown = "is shown with 2 decimals wherever it is a head; AS gives another head\n"
        self.assertEqual((status, out, err), (0, b"value\n0.02\n", (
            f"outcome.py: --scale value: t, u have a column value, which {shown}outcome.py: --scale value: "
            f"in process 0 reply 1 value is a COUNT, and {shown}")))
        for text, tables in (("SELECT value FROM t", {"t": both["t"]}), ("SELECT COUNT(value) AS n FROM t", {
                "t": both["t"] + [["n", "INT"]]})):
            scale = "n=2" if " AS n" in text else "value=2"
            err = self.outcome_of(text, tables, given, "--scale", scale)[2]
            self.assertEqual("is a COUNT" in err, " AS n" in text, err)
            self.assertNotIn("have a column", err)

    def test_lonely_null(self) -> None:
        """A NULL that would be an empty line of CSV."""
        said = ("outcome.py: process 0 reply 1: NULL of its only column is an empty line, which many readers "
                "of CSV leave out; --null WORD writes a word\n")
        one, given = {"t": [["a", "TEXT"]]}, b"rows 2\nrow 1\nnull\nrow 1\ntext 1\nx\n"
        text = "SELECT a FROM t"
        self.assertEqual(self.outcome_of(text, one, given, "--csv", "--reply", "1"), (0, b"a\n\nx\n", said))
        self.assertEqual(self.outcome_of(text, one, given, "--csv")[2], said)
        self.assertEqual(self.outcome_of(text, one, given, "--folder", self.folder)[2], said)
        self.assertEqual(self.outcome_of(text, one, given, "--csv", "--reply", "1", "--null", "NULL"),
                         (0, b"a\nNULL\nx\n", ""))
        self.assertEqual(self.outcome_of(text, one, given)[2], "")
        two = {"t": [["a", "TEXT"], ["b", "TEXT"]]}
        given = b"rows 1\nrow 2\nnull\nnull\n"
        self.assertEqual(self.outcome_of("SELECT * FROM t", two, given, "--csv"),
                         (0, b"# process 0 reply 1: 1 row\n# SELECT * FROM t\na,b\n,\n", ""))


class OtherWorlds(InFolder):
    """An outcome of another world, as far as it can be told."""

    def both(self, text: str, given: bytes) -> tuple[Any, Any]:
        """What outcome.py and check.py say of a reply to a statement, and how they end."""
        columns = [["a", "INT"], ["b", "TEXT"]]
        path = self.put("w", json.dumps({"start": ["m"], "files": {"m": f'sql q "{text}"\n'},
                                         "tables": {"t": {"columns": columns}}}))
        replies = self.put("o", b"outcome 1 0\nprocess 0 0 0 1\n\n" + given)
        shown = tool(outcome, "--raw", "--world", path, replies)
        checked = tool(check, "--outcome", replies, path)
        self.assertEqual(shown[2].replace("outcome.py: no outcome", "check.py: no world"), checked[2])
        return shown[0], shown[2]

    def test_told(self) -> None:
        row = b"rows 1\nrow 1\nint 2\n"
        for text, given, said in (
                ("SELECT a, b FROM t", row, "the statement has 2 columns, and the reply 1"),
                ("SELECT * FROM t", row, "the statement has 2 columns, and the reply 1"),
                ("SELECT b FROM t", row, "column 1 of the statement is TEXT, and of the reply it isn't"),
                ("SELECT a FROM t", b"rows 1\nrow 1\ntext 1\nx\n",
                 "column 1 of the statement is INT, and of the reply it isn't"),
                ("DELETE FROM t", row, "the statement changes rows, and the reply is 1 row"),
                ("SELECT a FROM t", b"changed 2\n", "the statement asks for rows, and the reply is 2 rows "
                                                    "changed"),
                ("SELECT c FROM t", row, "the statement is refused with code 3, and the reply is 1 row"),
                ("SELECT FROM", b"changed 0\n", "the statement is refused with code 1, and the reply is 0 "
                                                "rows changed"),
                ("SELECT a FROM t", b"refused 2\n", "the statement is not refused, and the reply is refused "
                                                    "with code 2: "),
                ("SELECT a FROM u", b"refused 1\n", "the statement is refused with code 2, and the reply is "
                                                    "refused with code 1: ")):
            status, err = self.both(text, given)
            self.assertEqual(status, 1, text)
            self.assertIn(f": process 0 reply 1: {said}", err)
            self.assertTrue(err.endswith(": the outcome isn't of this world\n"), err)

    def test_not_told(self) -> None:
        """Replies that may be those to a statement are shown; another limit can't be told."""
        for text, given in (("SELECT a FROM t WHERE a > 7", b"rows 1\nrow 1\nint 2\n"),
                            ("SELECT b FROM t", b"rows 1\nrow 1\nnull\n"), ("SELECT a, b FROM t",
                                                                            b"rows 0\n"),
                            ("DELETE FROM t", b"changed 2\n"), ("SELECT c FROM t", b"refused 3\n"),
                            ("INSERT INTO t VALUES (1, 'x')", b"refused 6 t 1\nint 1\n"),
                            ("SELECT SUM(a) FROM t", b"refused 7\n")):
            self.assertNotIn("isn't of this world", self.both(text, given)[1], text)


class Documents(InFolder):
    def test_promises(self) -> None:
        """The documents promise no more than the tools do."""
        pages = {name: " ".join(read(os.path.join(ROOT, name)).decode().split())
                 for name in ("README.md", "docs/TUTORIAL.md", "docs/PACKAGES.md", "docs/DUMPS.md",
                              "docs/ldv.1")}
        pages["page --help"] = " ".join(tool(page, "--help")[1].decode().split())
        for name in ("README.md", "docs/TUTORIAL.md", "docs/PACKAGES.md", "docs/ldv.1", "page --help"):
            self.assertRegex(pages[name], "browser with JavaScript", name)
        for words in ("in the other forms that it knows", "A form that isn't there is a text, and nothing is "
                                                          "said",
                      "can't be told from the one before", "only replies and tables are shown as decimals",
                      "in a script write `\\\\`"):
            self.assertIn(words, pages["docs/TUTORIAL.md"])
        self.assertIn("Nothing is said of `C:\\temp` alone.", pages["docs/DUMPS.md"])
        self.assertIn("how many columns it has, and of which kinds", " ".join(
            tool(outcome, "--help")[1].decode().split()))
        text = " ".join(tool(world, "--help")[1].decode().split())
        for words in ("A script writes values as they are carried into its own files too.",
                      "what a number means it lets pass"):
            self.assertIn(words, text)
