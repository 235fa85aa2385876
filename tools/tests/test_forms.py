"""world.py: numbers, dates and headers as people write them, what is said of them, and options by file
and by column."""
from __future__ import annotations

import json
import os
import re
import shlex
from typing import Any, Sequence, Union

from ldvtools import world
from ldvtools.world_settings import tidy_names

from .support import ASK, ROOT, InFolder, each_of, make_database, read, tool


class Forms(InFolder):
    def said(self, content: Union[str, bytes], *words: str) -> str:
        """What is said of the table t."""
        status, _, err = tool(world, "--csv", self.put("t.csv", content), *ASK, *words)
        self.assertEqual(status, 0, err)
        return err

    def column(self, cells: Sequence[str]) -> str:
        return "a;b\n" + "".join(f"{cell};x\n" for cell in cells)

    def words_said(self, cells: Sequence[str], advice: str) -> list[Any]:
        """What is advised for a column of these cells, and what comes of it."""
        err = self.said(self.column(cells), "--delimiter", ";")
        self.assertIn(f"; {advice} carries it as whole numbers", err)
        table = self.table(self.column(cells), "--delimiter", ";", *shlex.split(advice))
        self.assertEqual(table["columns"][0], ["a", "INT"])
        return [row[0] for row in table["rows"]]


class Numbers(Forms):
    def test_units(self) -> None:
        """Numbers with a unit are said, and carried by what is advised."""
        self.assertEqual(self.words_said(["5%", "12.5%", "0%"], "--unit t.a=% --scale t.a=1"), [50, 125, 0])
        self.assertEqual(self.words_said(["5 %", "-7 %"], "--unit t.a=%"), [5, -7])
        self.assertEqual(self.words_said(["1.234,50 €", "-0,05 €"],
                                         "--unit 't.a=€' --thousands t.a=. --scale t.a=2"),
                         [123450, -5])
        self.assertEqual(self.words_said(["$5.25", "-$1.10", "$-2"], "--unit 't.a=$' --scale t.a=2"),
                         [525, -110, -200])
        self.assertEqual(self.words_said(["80 kg", "7 kg"], "--unit t.a=kg"), [80, 7])
        err = self.said(self.column(["5%", "7", ""]), "--delimiter", ";", "--unit", "t.a=%")
        self.assertIn("t.a: 1 of 2 cells have no %, and are read as if they had it", err)
        path = os.path.join(self.folder, "f.db")
        make_database(path, "CREATE TABLE t (a REAL, b TEXT); INSERT INTO t VALUES (1.5, '2 m'), (2.5, '3');")
        words = ["--sqlite", path, "--scale", "t.a=1", "--unit", "t.a=kg", "--unit", "t.b=m", *ASK]
        status, out, err = tool(world, *words)
        self.assertEqual((status, json.loads(out)["tables"]["t"]["rows"]), (0, [[15, 2], [25, 3]]), err)
        self.assertNotIn("have no kg", err)
        self.assertIn("t.b: 1 of 2 cells have no m, and are read as if they had it", err)
        self.csv_refused("column a: '5x' is no whole number", "a\n5%\n5x\n", "--unit", "t.a=%")
        for cells in (["5%", "7 kg"], ["A12", "B7"], ["12a", "13b"], ["1.2.3", "1.2.4"], ["Bergen 1", "Oslo"],
                      ["0150", "0170", "NA"]):
            self.assertNotIn("looks like", self.said(self.column(cells), "--delimiter", ";"), cells)

    def test_minus(self) -> None:
        """A sign for minus that isn't that of ASCII is said, and read where a number is asked for."""
        for minus in "\u2212\u2013":
            self.assertEqual(self.words_said([f"{minus}5", "7"], "--kind t.a=INT"), [-5, 7])
            self.assertEqual(self.words_said([f"{minus}0.5", "7"], "--scale t.a=1"), [-5, 70])
        self.assertIn("looks like numbers with another sign than -, such as '\u22125'",
                      self.said("a\n7\n\u22125\n8\n"))

    def test_thousands(self) -> None:
        for cells, advice, numbers in (
                (["1.234.567", "12.345"], "--thousands t.a=. --kind t.a=INT", [1234567, 12345]),
                (["1'234,5", "7"], "--decimal t.a=, --thousands 't.a='\"'\"'' --scale t.a=1", [12345, 70]),
                (["1,234.5", "7"], "--thousands t.a=, --scale t.a=1", [12345, 70]),
                (["1.234,5", "7"], "--thousands t.a=. --scale t.a=1", [12345, 70])):
            self.assertEqual(self.words_said(cells, advice), numbers)
        for blank in " \u00a0\u202f":
            err = self.said(self.column([f"1{blank}234,5", "7"]), "--delimiter", ";")
            words = ["--decimal", "t.a=,", "--thousands", "t.a= ", "--scale", "t.a=1"]
            self.assertIn("--decimal t.a=, --thousands 't.a= ' --scale t.a=1 carries", err)
            table = self.table(self.column([f"1{blank}234,5", "7"]), "--delimiter", ";", *words)
            self.assertEqual([row[0] for row in table["rows"]], [12345, 70])
        for cells in (["1.234", "12.500"], ["1.278", "234"]):
            self.assertIn("; where these are thousands, --thousands t.a=. --kind t.a=INT carries it as whole "
                          "numbers, where decimals, --scale t.a=3\n", self.said(self.column(cells),
                                                                                "--delimiter", ";"))
        self.assertNotIn("thousands", self.said("a\n0.125\n12.500\n"))
        self.csv_refused("column a: '12.5' is no whole number", "a\n1.234\n12.5\n", "--thousands", "t.a=.")
        self.csv_refused("t.a: --decimal and --thousands are both ,", "a\n1\n", "--thousands", ",",
                         "--decimal", ",", status=2)
        # A text column is left alone by what holds for a whole table.
        words = ["--delimiter", ";", "--thousands", "t=.", "--kind", "t.a=INT"]
        table = self.table("a;b\n1.234;x.123\n", *words)
        self.assertEqual(table["rows"], [[1234, "x.123"]])

    def test_words_for_null(self) -> None:
        """A word where a number is due is said with the option that takes it for NULL."""
        for cell, word in (("-", "-"), ("n/a", "n/a"), ("k. A.", "'k. A.'")):
            self.csv_refused(f"column a: {cell!r} is no decimal number such as -1.25; where it stands "
                             f"for NULL: "
                             f"--null {word}, or --null ", f"a\n1.5\n{cell}\n", "--scale", "t.a=1")
            self.csv_refused(f"column a: {cell!r} is no whole number, and the column is INT; where it "
                             f"stands for "
                             f"NULL: --null {word}, or --null ", f"a\n1\n{cell}\n", "--kind", "t.a=INT")
            for words in (["--null", cell], ["--null", f"t.a={cell}"], ["--null", f"t={cell}"]):
                table = self.table(f"a\n1.5\n{cell}\n", "--scale", "t.a=1", *words)
                self.assertEqual(table["rows"], [[15], [None]])
        self.csv_refused("'1x' is no whole number, and the column is INT\n", "a\n1x\n", "--kind", "t.a=INT")
        self.csv_refused("'5%' is no decimal number such as -1.25; --unit t.a=% takes it",
                         "a\n5%\n", "--scale", "t.a=1")
        self.csv_refused("'1,5' is no decimal number such as -1.25; --decimal t.a=, takes it", "a\n\"1,5\"\n",
                         "--scale", "t.a=1")
        self.csv_refused("'1.5' is no whole number, and the column is INT; --scale t.a=1 takes it",
                         "a\n1.5\n", "--kind", "t.a=INT")
        # What the options say already isn't advised again.
        words = ["--delimiter", ";", "--decimal", "t.a=,", "--scale", "t.a=1"]
        self.csv_refused("'0,75' has more than the 1 decimal of --scale; --round rounds; --scale t.a=2 "
                         "takes it\n",
                         self.column(["1,5", "0,75"]), *words)
        self.csv_refused("'1,5 kg' is no decimal number such as -1,25; --unit t.a=kg takes it\n",
                         self.column(["1,5", "1,5 kg"]), *words)
        self.csv_refused("'1.5' is no decimal number such as -1,25\n", self.column(["1,5", "1.5"]), *words)
        self.assertEqual(self.words_said(["1", "-", "3"], "--kind t.a=INT --null t.a=-"), [1, None, 3])
        self.assertEqual(self.words_said(["1,5", "NA", "3"], "--decimal t.a=, --scale t.a=1 --null t.a=NA"),
                         [15, None, 30])


class Dates(Forms):
    def dated(self, cells: Sequence[str], form: str) -> list[Any]:
        return [row[0] for row in self.table(self.column(cells), "--delimiter", ";", "--date",
                                             f"t.a={form}")["rows"]]

    def test_times(self) -> None:
        """Clock times with one digit for the hour sort wrongly as texts: this is said, and mended."""
        looks = "t.a is TEXT, and looks like clock times such as '9:05': these don't compare as times do; "
        err = self.said(self.column(["10:30", "9:05", ""]), "--delimiter", ";")
        self.assertIn(looks + "--date t.a=time carries it as 09:05\n", err)
        self.assertEqual(self.dated(["10:30", "9:05", ""], "time"), ["10:30", "09:05", None])
        err = self.said(self.column(["10:30 AM", "9:05 p.m.", "12:00 am"]), "--delimiter", ";")
        self.assertIn("--date t.a=time carries it as 10:30", err)
        self.assertEqual(self.dated(["10:30 AM", "9:05 p.m.", "12:00 am", "12:01PM", "1:02:03.5 pm"], "time"),
                         ["10:30", "21:05", "00:00", "12:01", "13:02:03.5"])
        err = self.said(self.column(["36:10", "9:05"]), "--delimiter", ";")
        self.assertIn("where they say how long something took, make them whole numbers of minutes first", err)
        for cells in (["10:30", "09:05"], ["10:30:00", "09:05:00"], ["3:1 win", "x"]):
            self.assertNotIn("looks like", self.said(self.column(cells), "--delimiter", ";"), cells)
        # One that is far down is seen too.
        self.assertIn(looks, self.said("a\n" + "10:30\n" * 5000 + "9:05\n"))
        for cell in ("24:00", "9:60", "13:00 pm", "0:30 am", "9h05"):
            self.csv_refused(f"column a: {cell!r} is no clock time such as 9:05 (--date time)",
                             f"a\n{cell}\n", "--date", "t.a=time")

    def test_dates(self) -> None:
        """Dates that don't compare as dates are said, with the options that make them so."""
        looks = "t.a is TEXT, and looks like dates such as {!r}: these don't compare as dates; "
        both = ("--date t.a=dmy reads the day first and carries it as 2020-02-01, and --date t.a=mdy "
                "reads the "
                "month first and carries it as 2020-01-02\n")
        for cells, said in (
                (["1/2/2020", "3/4/2020"], both),
                (["1/2/2020", "13/4/2020"], "--date t.a=dmy reads the day first and carries it as "
                                            "2020-02-01\n"),
                (["1/2/2020", "3/14/2020"], "--date t.a=mdy reads the month first and carries it as "
                                            "2020-01-02\n"),
                (["1/2/2020", "3/14/2020", "14/3/2020"], "some have the day first and some the month: "
                                                         "write "),
                (["1.2.2020", "2.3.2020"], "--date t.a=dmy reads the day first and carries it as "
                                           "2020-02-01\n"),
                (["1.2.2020 9:05", "2.3.2020 10:00"], "--date t.a=dmy reads the day first and carries it as "
                                                      "2020-02-01 09:05\n"),
                (["1.2.20", "2.3.20"], "write their years with four digits first\n"),
                (["1 Feb 2020", "2 March 2020"], "write them from the year down first, as 2019-01-31\n"),
                (["Feb 1, 2020", "March 2, 2020"], "write them from the year down first, as 2019-01-31\n"),
                (["2020-2-1", "2020-03-14"], "--date t.a=ymd carries it as 2020-02-01\n"),
                (["2020-02-01 9:05", "2020-03-14 10:00"], "--date t.a=ymd carries it as 2020-02-01 09:05\n")):
            self.assertIn(looks.format(cells[0]) + said, self.said(self.column(cells), "--delimiter", ";"))
        for cells in (["2020-02-01", "2020-03-14"], ["2020-02-01", "2020-04-14"],
                      ["2020-02-01 09:05", "2020-02-01 10:00:00"],
                      ["2020-02-01T09:05:00Z", "2020-02-01T10:05:00Z"],
                      ["10.0.0.1", "10.0.0.2"], ["1/2", "3/4"]):
            self.assertNotIn("looks like", self.said(self.column(cells), "--delimiter", ";"), cells)
        self.assertIn("'2020-2-1'", self.said("a\n" + "2020-02-01\n" * 5000 + "2020-2-1\n"))

    def test_carried(self) -> None:
        self.assertEqual(self.dated(["1.2.2020", "31.12.1999 9:05", "", "2020-03-04"], "dmy"),
                         ["2020-02-01", "1999-12-31 09:05", None, "2020-03-04"])
        self.assertEqual(self.dated(["1/2/2020", "12/31/1999 9:05 PM"], "mdy"),
                         ["2020-01-02", "1999-12-31 21:05"])
        self.assertEqual(self.dated(["2020/2/1", "2020-2-1T9:05"], "ymd"), ["2020-02-01", "2020-02-01 09:05"])
        for cell in ("31.2.2020", "1.2.20", "1.13.2020", "x", "1.2/2020", "1.2.2020 25:00", "29.2.2019"):
            self.csv_refused(f"column a: {cell!r} is no date such as 31.1.2019 (--date dmy)", f"a\n{cell}\n",
                             "--date", "t.a=dmy")
        table = self.table("a,b\n-,1.2.2020\n", "--date", "t.b=dmy", "--key", "t=b")
        self.assertEqual(table["columns"], [["a", "TEXT"], ["b", "TEXT NOT NULL"]])
        for words in (["--date", "t.a=iso"], ["--date", "t.a=dmy", "--scale", "t.a=1"],
                      ["--date", "t.a=dmy", "--kind", "t.a=INT"], ["--date", "t.b=dmy"]):
            self.csv_refused("world.py: --", "a\n1\n", *words, status=2)

    def test_databases(self) -> None:
        """Of texts of a database the same is said."""
        path = os.path.join(self.folder, "t.db")
        make_database(path, "CREATE TABLE t (day DATE, note TEXT); INSERT INTO t VALUES ('3.1.2020', 'a'), "
                            "('13.1.2020', 'b'), (NULL, NULL);")
        status, _, err = tool(world, "--sqlite", path, *ASK)
        self.assertIn("t.day is TEXT, and looks like dates such as '3.1.2020': these don't compare as dates; "
                      "--date t.day=dmy reads the day first and carries it as 2020-01-03\n", err)
        status, out, err = tool(world, "--sqlite", path, *ASK, "--date", "t.day=dmy")
        self.assertEqual([row[0] for row in json.loads(out)["tables"]["t"]["rows"]],
                         ["2020-01-03", "2020-01-13", None])
        self.assertNotIn("looks like", err)


class OneOfMany(Forms):
    """Options that hold for all CSV files, for one, or for a column."""

    def tables(self, *words: str) -> dict[str, Any]:
        first = self.put("plots.csv", "id;size;rest\n1;2,5;NA\n2;-;-\n")
        second = self.put("trees.csv", "id,size,rest\n1,2.5,NA\n2,,-\n".encode("utf-8"))
        third = self.put("sites.csv", "id\tname\n1\tBod\xf8\n".encode("latin-1"))
        status, out, err = tool(world, "--csv", first, "--csv", second, "--csv", third, "--ask",
                                "SELECT * FROM plots", *words)
        self.assertEqual(status, 0, err)
        return {name: table["rows"] for name, table in json.loads(out)["tables"].items()}

    def test_by_file(self) -> None:
        words = ["--delimiter", "plots=;", "--delimiter", "sites=tab", "--encoding", "sites=latin-1",
                 "--scale", "plots.size=1", "--scale", "trees.size=1"]
        found = self.tables(*words, "--decimal", "plots=,", "--null", "plots=-")
        self.assertEqual(found, {"plots": [[1, 25, "NA"], [2, None, None]],
                                 "trees": [[1, 25, "NA"], [2, None, "-"]], "sites": [[1, "Bodø"]]})
        found = self.tables(*words, "--decimal", "plots.size=,", "--null", "plots.size=-", "--null",
                            "plots.rest=NA", "--null", "plots.rest=-", "--null", "trees=-", "--null", "NA")
        self.assertEqual(found, {"plots": [[1, 25, None], [2, None, None]],
                                 "trees": [[1, 25, None], [2, None, None]], "sites": [[1, "Bodø"]]})

    def test_general_and_own(self) -> None:
        """What is said of a file or a column stands above what is said of all."""
        found = self.tables("--delimiter", ";", "--delimiter", "trees=,", "--delimiter", "sites=tab",
                            "--encoding", "latin-1", "--encoding", "trees=utf-8", "--decimal", ",",
                            "--decimal", "trees.size=.", "--scale", "plots.size=1", "--scale", "trees.size=1",
                            "--null", "-")
        self.assertEqual(found["trees"], [[1, 25, "NA"], [2, None, None]])
        self.assertEqual(found["plots"], [[1, 25, "NA"], [2, None, None]])

    def test_signs(self) -> None:
        """An = may be what stands between cells, and a word may have one."""
        self.assertEqual(self.table("a=b\n1=2\n", "--delimiter", "=")["rows"], [[1, 2]])
        self.assertEqual(self.table("a=b\n1=2\n", "--delimiter", "t==")["rows"], [[1, 2]])
        self.assertEqual(self.table("a,b\n1,x=y\n", "--null", "t.b=x=y")["rows"], [[1, None]])

    def test_wrong_names(self) -> None:
        nothing = "nothing that was read has this name; "
        for words, message in ((["--delimiter", "u=;"], f"--delimiter u: {nothing}the tables are t"),
                               (["--null", "t.b=NA"], f"--null t.b: {nothing}t has a"),
                               (["--decimal", "u=,"], "--decimal u: nothing that was read"),
                               (["--delimiter", "t.a=;"], "it is of a whole file; give t=;"),
                               (["--delimiter", "t=ab"], "--delimiter is one character, or tab"),
                               (["--unit", "t.b=%"], "--unit t.b: nothing that was read"),
                               (["--thousands", "x"], "--thousands is one character"),
                               (["--unit", "t.a=%", "--kind", "t.a=TEXT"], "by --kind the column is TEXT")):
            self.csv_refused(message, "a\n1\n", *words, status=2)

    def test_unknown_key(self) -> None:
        """A key of a table that isn't there is said with the tables that there are."""
        first, second = self.put("t.csv", "Id,A\n1,x\n"), self.put("u.csv", "b\nx\n")
        for words in each_of([], ["--lower"], ["--lower", "--kind", "t.a=INT"]):
            for key in ("obs=id", "obs=none", "T=id"):
                self.refused(f"--key {key.partition('=')[0]}: nothing that was read has this name; the "
                             f"tables are "
                             "t, u", "--csv", first, "--csv", second, *ASK, "--key", key, *words, status=2)
        self.refused("--key id: give TABLE=COLUMN,..", "--csv", first, *ASK, "--key", "id", status=2)

    def test_first_line_of_excel(self) -> None:
        """The line by which Excel is told what stands between cells."""
        table = self.table("\ufeffsep=;\r\na;b\r\n1;x\r\n")
        self.assertEqual((table["columns"], table["rows"]), ([["a", "INT"], ["b", "TEXT"]], [[1, "x"]]))
        self.csv_refused("t.csv line 3 (row 0 of t), column b: 'x'", "sep=;\na;b\n1;x\n", "--kind", "t.b=INT")


class Headers(Forms):
    def test_leave_out_by_place(self) -> None:
        """A column is left out by its place, whatever its header is."""
        table = self.table("a,,b,\n1,2,3,4\n", "--leave-out", "t.#2", "--leave-out", "t.#4")
        self.assertEqual((table["columns"], table["rows"]), ([["a", "INT"], ["b", "INT"]], [[1, 3]]))
        self.csv_refused('column 4 \'\' isn\'t a name: a letter a to z or _, then such letters, digits and '
                         '_; give --rename "t.#4=NAME"', "a,,b,\n1,2,3,4\n", "--leave-out", "t.#2")
        self.csv_refused("--leave-out t.#5: nothing that was read has this name", "a\n1\n",
                         "--leave-out", "t.#5", status=2)
        path = os.path.join(self.folder, "t.db")
        make_database(path, 'CREATE TABLE t (a INT, "a b" BLOB); INSERT INTO t VALUES (1, x\'00\');')
        status, out, err = tool(world, "--sqlite", path, *ASK, "--leave-out", "t.#2")
        self.assertEqual((status, json.loads(out)["tables"]["t"]["rows"]), (0, [[1]]), err)

    def test_tidy_table(self) -> None:
        """What the tutorial and --help say of --tidy is what it does."""
        page = read(os.path.join(ROOT, "docs", "TUTORIAL.md")).decode()
        rows = re.findall(r"(?m)^\| (`[^|]*`|an empty cell) \| (\d+) \| `(\w+)` \|", page)
        self.assertGreaterEqual(len(rows), 8)
        headers = ["" if text.startswith("an empty") else text.strip("`") for text, _, _ in rows]
        self.assertEqual([int(place) for _, place, _ in rows], list(range(1, len(rows) + 1)))
        self.assertEqual(tidy_names(headers), [name for _, _, name in rows])
        table = self.table(";".join(headers) + "\n" + ";".join("1" * len(headers)) + "\n", "--delimiter", ";",
                           "--tidy")
        self.assertEqual([name for name, _ in table["columns"]], [name for _, _, name in rows])
        text = tool(world, "--help")[1].decode()
        self.assertIn("(count becomes\ncount_)", text)
        self.assertIn("a second Count, in\ncolumn 5, becomes count__5.", text)
        self.assertEqual(tidy_names(["Count", "b", "c", "d", "Count"]), ["count_", "b", "c", "d", "count__5"])
        self.assertEqual(tidy_names(["", "b", ""]), ["column", "b", "column_3"])

    def test_name_of_file(self) -> None:
        """A file whose name is no name of a table."""
        path = self.put("My data 2023.csv", "a\n1\n")
        self.refused("the table 'My data 2023' isn't a name: a letter a to z or _, then such letters, digits "
                     "and _; give --csv NAME=FILE, or --tidy\n", "--csv", path, *ASK)
        for words in (["--csv", f"t={path}"], ["--csv", path, "--tidy"]):
            self.assertEqual(tool(world, *words, *ASK)[0], 0)

    def test_tidy_names(self) -> None:
        """No name is made twice, and none is too long."""
        self.assertEqual(tidy_names(["a", "a_3", "a"]), ["a", "a_3", "a_3_3"])
        self.assertEqual(tidy_names(["Ærø", "Øl", "Maße (cm)", "2nd", "__x__", "!"]),
                         ["aero", "ol", "masse_cm", "_2nd", "x", "column"])
        self.assertEqual(list(map(len, tidy_names(["x" * 80, "x" * 80]))), [58, 60])
