"""world.py: CSV files, databases, scripts and files."""
from __future__ import annotations

import json
import os
import re
import sqlite3
from unittest import mock

from ldvtools import world

from .support import ASK, InFolder, each_of, make_database, read, tool


class CsvFiles(InFolder):
    def test_document(self) -> None:
        path = self.put("t.csv", 'id,name,born\n1,"Ada, the first",1815\n2,"says ""hi""",\n\n3,,-7\n')
        status, out, err = tool(world, "--csv", path, "--key", "t=id", "--ask", "SELECT * FROM t",
                                "--no-columns")
        self.assertEqual(status, 0, err)
        self.assertEqual(out.decode(), """{
  "start": ["main"],
  "files": {
    "main": "sql q \\"SELECT * FROM t\\"\\n"
  },
  "tables": {
    "t": {
      "columns": [["id","INT NOT NULL"],["name","TEXT"],["born","INT"]],
      "key": ["id"],
      "rows": [
        [1,"Ada, the first",1815],
        [2,"says \\"hi\\"",null],
        [3,null,-7]
      ]
    }
  }
}
""")
        self.assertEqual(err, "world.py: t: 3 rows; id INT NOT NULL, name TEXT, born INT; key id\n")

    def test_kinds(self) -> None:
        """A column is INT where a number loses nothing of what was written."""
        cases = [("0 -1 9223372036854775807 -9223372036854775808", "INT")]
        cases += [(cells, "TEXT") for cells in ("1 01", "1 +1", "-0", "1 1.0", "1 1e3", "1_000", "٣",
                                                "9223372036854775808", "-9223372036854775809")]
        for cells, kind in cases:
            table = self.table("a\n" + cells.replace(" ", "\n") + "\n")
            self.assertEqual(table["columns"], [["a", kind]], cells)
            read_as = int if kind == "INT" else str
            self.assertEqual(table["rows"], [[read_as(cell)] for cell in cells.split()])
        self.assertEqual(self.table("a,b\n,1\n,2\n")["columns"], [["a", "TEXT"], ["b", "INT"]])

    def test_options(self) -> None:
        words = ["--lower", "--kind", "t.id=INT", "--null", "NA"]
        table = self.table("Id,Zip,Note\n007,0150,NA\n8,,\n", *words)
        self.assertEqual(table["rows"], [[7, "0150", None], [8, None, None]])
        table = self.table("a,b\n1,\n", "--kind", "t.a=text not null", "--empty", "t.b=text")
        self.assertEqual(table["columns"], [["a", "TEXT NOT NULL"], ["b", "TEXT"]])
        self.assertEqual(table["rows"], [["1", ""]])
        words = ["--delimiter", ";", "--rename", "t.Count=n", "--leave-out", "t.a"]
        table = self.table("a;Count\n1;x\n", *words)
        self.assertEqual((table["columns"], table["rows"]), ([["n", "TEXT"]], [["x"]]))
        table = self.table("a\tb\n1\tx\n".encode(), "--delimiter", "tab")
        self.assertEqual(table["rows"], [[1, "x"]])
        table = self.table("a\nBod\xf8\n".encode("latin-1"), "--encoding", "latin-1")
        self.assertEqual(table["rows"], [["Bodø"]])
        self.assertEqual(self.table("\ufeffa\r\n1\r\n")["rows"], [[1]])
        self.assertEqual(self.table('a,b\n"x\ny",1\n')["rows"], [["x\ny", 1]])

    def test_excel(self) -> None:
        """What Excel writes: a mark, a decimal comma, lines of delimiters alone, headers twice,
        and workbooks."""
        table = self.table("\ufeffa;b\r\n1;2,5\r\n;\r\n3;-0,25\r\n", "--delimiter", ";", "--decimal", ",",
                           "--scale", "t.b=2")
        self.assertEqual(table["rows"], [[1, 250], [None, None], [3, -25]])
        path = self.put("t.csv", "a;b\n1;2\n;\n;\n;\n;\n")
        status, out, err = tool(world, "--csv", path, "--delimiter", ";", *ASK)
        self.assertIn("t.csv: line 3, 4, 5 and 1 more has delimiters alone, and is a row of NULL; "
                      "--skip-blank", err)
        table = self.table("a;b\n1;2\n;\n3;x\n", "--delimiter", ";", "--skip-blank")
        self.assertEqual(table["rows"], [[1, "2"], [3, "x"]])
        self.csv_refused("t.csv line 4 (row 1 of t), column b: 'x'", "a;b\n1;2\n;\n3;x\n", "--delimiter", ";",
                         "--skip-blank", "--kind", "t.b=INT")
        table = self.table("a,a,\n1,2,3\n", "--rename", "t.#2=b", "--rename", "t.#3=c")
        self.assertEqual(table["columns"], [["a", "INT"], ["b", "INT"], ["c", "INT"]])
        self.csv_refused("two columns have the name a; --rename \"t.#2=NAME\" renames the column 2",
                         "a,a\n1,2\n")
        self.csv_refused('isn\'t a name: a letter a to z or _, then such letters, digits and _; '
                         'give --rename "t.#2=NAME"', "a,\n1,2\n")
        for encoding in ("utf-16", "utf-32"):
            self.assertEqual(self.table("a\nø\n".encode(encoding))["rows"], [["ø"]])
        self.csv_refused("give --encoding, such as cp1252 (of Windows)\n", b"a\n\x80\n")
        # This byte has no meaning in cp1252.
        self.csv_refused("give --encoding, such as latin-1\n", b"a\n\x81\n")
        self.assertEqual(self.table(b"a\n\x80\n", "--encoding", "cp1252")["rows"], [["€"]])
        self.csv_refused("is no CSV file, but a workbook", b"PK\x03\x04...")
        self.csv_refused("is no CSV file, but an SQLite database: give --sqlite", b"SQLite format 3\0...")

    def test_other_delimiter(self) -> None:
        """A file that would be one column because it has another delimiter is refused, with --tidy too."""
        for given, there, word in ((";", ",", "','"), (",", ";", "';'"), ("tab", ",", "','"),
                                   (";", "\t", "tab"), (",", "|", "'|'"), ("|", ";", "';'")):
            for words in each_of([], ["--tidy"]):
                message = f"one name, {'a' + there + 'b'!r}; give --delimiter {word}\n"
                self.csv_refused(message, f"a{there}b\n1{there}2\n", "--delimiter", given, *words)
                self.csv_refused(message, f"a{there}b\n", "--delimiter", given, *words)
        self.csv_refused("give --delimiter ',', not --tsv", "a,b\n1,2\n", "--tsv", "--tidy")
        table = self.table("Size, cm\n1\n", "--delimiter", ";", "--tidy")
        self.assertEqual((table["columns"], table["rows"]), ([["size_cm", "INT"]], [[1]]))
        self.assertEqual(self.table('"a, b"\n"1, 2"\n', "--tidy")["rows"], [["1, 2"]])

    def test_plain_tabs(self) -> None:
        """Tables of tabs without quotes and escapes, as cut and awk have them, and what is said where quotes
        or escapes join cells."""
        text = 'k\tx\n1\tx\n2\t"y\n3\tz\n4\tw"\n5\tv\n'
        plain = ["--delimiter", "tab", "--quotes", "none"]
        self.assertEqual(self.table(text, *plain)["rows"],
                         [[1, "x"], [2, '"y'], [3, "z"], [4, 'w"'], [5, "v"]])
        self.assertEqual(self.table('k\tx\n1\t"odd"\n2\tC:\\temp\\new\n3\t\n', *plain)["rows"],
                         [[1, '"odd"'], [2, "C:\\temp\\new"], [3, None]])
        path = self.put("t.csv", text)
        quotes = 'where " is a sign as any other, --delimiter tab --quotes none reads the file\n'
        status, out, err = tool(world, "--csv", path, "--delimiter", "tab", *ASK)
        self.assertEqual(json.loads(out)["tables"]["t"]["rows"], [[1, "x"], [2, "y\n3\tz\n4\tw"], [5, "v"]])
        self.assertIn(f"world.py: {path} line 3: the cell of x has a line feed and a tab in it; "
                      f"{quotes}", err)
        err = tool(world, "--csv", self.put("t.csv", 'k\tx\n1\ty\n2\t"odd"\n'), "--delimiter", "tab", *ASK)[2]
        self.assertIn(f"t.csv line 3: the quotes around a cell are taken off; {quotes}", err)
        err = tool(world, "--csv", self.put("t.csv", "k\tx\n1\ty\n2\tC:\\temp\\new\n"), "--tsv", *ASK)[2]
        self.assertIn("t.csv line 3: the cell of x has a line feed and a tab in it; where \\ is a sign as "
                      "any "
                      "other, --delimiter tab --quotes none reads the file\n", err)
        err = tool(world, "--csv", self.put("t.csv", 'k,x\n1,"a\nb, c"\n2,"d\n,"\n3,"e\nf"\n'), *ASK)[2]
        self.assertIn("t.csv line 2 and 1 more: the cell of x has a line feed and a ',' in it; where \" is a "
                      "sign as any other, --quotes none reads the file\n", err)
        for content in ('k,x\n1,"a\nb"\n', 'k,x\n1,"a, b"\n', "k,x\n\n1,a\n\n"):
            self.assertNotIn("line feed", tool(world, "--csv", self.put("t.csv", content), *ASK)[2])
        self.csv_refused('t.csv line 3: unexpected end of data; where " is a sign as any other, --quotes '
                         'none',
                         'k,x\n1,a\n2,"b\n')
        self.csv_refused("--quotes no: give none, or double", "k\n1\n", "--quotes", "no", status=2)
        self.csv_refused("--quotes t.k=none: it is of a whole file; give t=none", "k\n1\n", "--quotes",
                         "t.k=none", status=2)
        words = ["--csv", self.put("u.csv", 'a\n"b"\n'), "--csv", self.put("v.csv", 'a\n"b"\n'), *ASK,
                 "--quotes", "v=none", "--no-check"]
        tables = json.loads(tool(world, *words)[1])["tables"]
        self.assertEqual([tables[name]["rows"] for name in "uv"], [[["b"]], [['"b"']]])

    def test_latin(self) -> None:
        """By Latin-1 a file of Windows gets control characters in place of its signs, which is said."""
        data = "k;price\n1;5\n2;7 €\n".encode("cp1252")
        words = ["--delimiter", ";", *ASK]
        err = tool(world, "--csv", self.put("t.csv", data), "--encoding", "latin-1", *words)[2]
        self.assertIn("t.csv line 3: in latin-1 it has a control character, which is € by --encoding cp1252 "
                      "(of "
                      "Windows)\n", err)
        for encoding, text in (("cp1252", "7 €"), ("latin-1", "7 £"), ("utf-8", "7 €"), ("cp1252", "7 ä")):
            path = self.put("t.csv", f"k;price\n1;5\n2;{text}\n".encode(encoding))
            self.assertNotIn("control", tool(world, "--csv", path, "--encoding", encoding, *words)[2])

    def test_dumps(self) -> None:
        """Tables as COPY of PostgreSQL and --batch of MySQL write them."""
        text = 'a\tb\tc\n1\tsays "hi"\t\\N\n2\t\tx\\ty\\nz\\\\n\n3\t"open\tNULL\n'
        table = self.table(text, "--tsv", "--null", "NULL")
        self.assertEqual(table["columns"], [["a", "INT"], ["b", "TEXT"], ["c", "TEXT"]])
        self.assertEqual(table["rows"], [[1, 'says "hi"', None], [2, "", "x\ty\nz\\n"], [3, '"open', None]])

    def test_duckdb(self) -> None:
        """A table as DuckDB's documentation says that COPY .. (HEADER, NULLSTR 'NULL') writes it."""
        text = ('id,ok,dose,day,note\n1,true,2.50,2024-01-15,"says ""hi"", twice"\n2,false,NULL,NULL,\n'
                '3,NULL,10.00,2024-02-01,NULL\n4,true,-0.05,2024-02-29,"a\nb"\n')
        table = self.table(text, "--null", "NULL", "--empty", "t.note=text", "--key", "t=id",
                           "--scale", "t.dose=2")
        self.assertEqual(table["columns"], [["id", "INT NOT NULL"], ["ok", "TEXT"], ["dose", "INT"],
                                            ["day", "TEXT"], ["note", "TEXT"]])
        self.assertEqual(table["rows"], [[1, "true", 250, "2024-01-15", 'says "hi", twice'],
                                         [2, "false", None, None, ""], [3, None, 1000, "2024-02-01", None],
                                         [4, "true", -5, "2024-02-29", "a\nb"]])

    def test_tidy(self) -> None:
        """Headers that aren't names are named at once, and made names on demand."""
        text = "Pat.Nr;Größe (cm);Dose;Dose;order;;2nd\n1;2;3;4;5;6;7\n"
        self.csv_refused("t: 6 columns need another name, column 1 'pat.nr', 2 'größe (cm)', 4 'dose', 5 "
                         "'order', 6 '', "
                         "7 '2nd': ", text, "--delimiter", ";", "--lower")
        self.csv_refused('give --tidy, or --rename "t.#1=pat_nr" --rename "t.#2=grosse_cm" --rename '
                         '"t.#4=dose_4" --rename '
                         '"t.#5=order_" --rename "t.#6=column" --rename "t.#7=_2nd"', text, "--delimiter",
                         ";", "--lower")
        table = self.table(text, "--delimiter", ";", "--tidy", "--rename", "t.#6=note")
        self.assertEqual([name for name, _ in table["columns"]],
                         ["pat_nr", "grosse_cm", "dose", "dose_4", "order_", "note", "_2nd"])
        path = self.put("My data.csv", "a\n1\n")
        self.assertEqual(list(json.loads(tool(world, "--csv", path, "--tidy", *ASK)[1])["tables"]),
                         ["my_data"])

    def test_hints(self) -> None:
        """What looks like decimals with a comma, or like dates that don't compare, is said."""
        err = tool(world, "--csv", self.put("t.csv", 'a;b;c\n1,75;01.02.2024;x\n2;3.2.2024;y\n'),
                   "--delimiter", ";", *ASK)[2]
        self.assertIn("t.a is TEXT, and looks like decimals with a comma, such as '1,75'; --decimal t.a=, "
                      "--scale t.a=2 carries it", err)
        self.assertIn("t.b is TEXT, and looks like dates such as '01.02.2024'", err)
        self.assertEqual(err.count("looks like"), 2)
        self.assertNotIn("thousands", err)
        for cells, are_thousands in (("1,234 12,500", True), ("999 1,234", True), ("1,234 12,50", False)):
            err = tool(world, "--csv", self.put("t.csv", "a;b\n" + cells.replace(" ", ";x\n") + ";x\n"),
                       "--delimiter", ";", *ASK)[2]
            self.assertIn("--decimal t.a=, --scale t.a=3", err)
            rest = ("; where these are thousands, --thousands t.a=, --kind t.a=INT carries it as whole "
                    "numbers, where decimals, --decimal t.a=, --scale t.a=3\n")
            self.assertEqual(rest in err, are_thousands, cells)

    def test_rounding(self) -> None:
        table = self.table("a\n0.125\n0.375\n-0.125\n2.5\n1\n", "--scale", "t.a=2", "--round")
        self.assertEqual(table["rows"], [[12], [38], [-12], [250], [100]])
        table = self.table("a\n0.0000000000000000005\n-0.00000000000000000251\n9.2233720368547758074\n",
                           "--scale", "t.a=18", "--round")
        self.assertEqual(table["rows"], [[0], [-3], [9223372036854775807]])
        table = self.table("a\n-0.04\n-0.5\n0.5\n1.5\n9.96\n", "--scale", "t.a=0", "--round")
        self.assertEqual(table["rows"], [[0], [0], [0], [2], [10]])
        for number in ("12345678901.1234567890123456789", "9" * 40 + ".0000000000000000001",
                       "9.2233720368547758075"):
            self.csv_refused("is outside 64 bits at --scale 18", f"a\n{number}\n", "--scale", "t.a=18",
                             "--round")
        path = self.put("t.csv", "a\n90000000000000000.5\n90000000000000000\n")
        err = tool(world, "--csv", path, *ASK, "--scale", "t.a=1")[2]
        self.assertNotIn("may leave 64 bits", err)
        path = self.put("t.csv", "a\n900000000000000000.5\n900000000000000000\n")
        err = tool(world, "--csv", path, *ASK, "--scale", "t.a=1")[2]
        self.assertIn("t.a: the sum of its rows may leave 64 bits at --scale 1, and SUM is NULL there", err)
        err = tool(world, "--csv", self.put("t.csv", "a,b\n1.5,x\n2.25,y\n"), *ASK)[2]
        self.assertIn("t.a is TEXT, since", err)
        self.assertIn("--scale t.a=2 carries it as whole numbers", err)

    def test_shuffle(self) -> None:
        """The same rows in an order that says nothing, and the same order for a seed."""
        text = "a\n" + "".join(f"{n}\n" for n in range(50))
        first = self.table(text, "--shuffle", "7")["rows"]
        self.assertEqual(first, self.table(text, "--shuffle", "7")["rows"])
        self.assertNotEqual(first, self.table(text, "--shuffle", "8")["rows"])
        self.assertEqual(sorted(first), self.table(text)["rows"])

    def test_output(self) -> None:
        """A failure leaves the old file, and a quiet call says nothing but that."""
        path, old = self.put("t.csv", "a\n1\n"), self.put("w.json", "old")
        self.refused("the key names b", "--csv", path, *ASK, "--key", "t=b", "-o", old)
        self.assertEqual(read(old), b"old")
        self.assertEqual(tool(world, "--csv", path, "--ask", "SELECT x FROM t", "-q", "-o", old),
                         (0, b"", ""))
        self.assertEqual(json.loads(read(old))["tables"]["t"]["rows"], [[1]])
        self.assertEqual(sorted(os.listdir(self.folder)), ["t.csv", "w.json"])
        self.refused("No such file", "--csv", path, *ASK, "-o", os.path.join(self.folder, "none", "w.json"))
        self.assertEqual(tool(world, "--csv", path, *ASK, "-q", "-o", "/dev/null")[0], 0)

    def test_progress(self) -> None:
        """What takes long says so on a terminal, and there alone."""
        path, line = self.put("t.csv", "a\n1\n"), "world.py: t: 1 rows are settled\n"
        with mock.patch("ldvtools.progress.SECONDS", 0.0):
            self.assertNotIn(line, tool(world, "--csv", path, *ASK)[2])
            with mock.patch("ldvtools.progress.is_terminal", return_value=True):
                self.assertIn(line, tool(world, "--csv", path, *ASK)[2])
                self.assertEqual(tool(world, "--csv", path, *ASK, "-q")[2], "")

    def test_decimals(self) -> None:
        table = self.table("a\n3.4\n-0.05\n7\n.5\n+1.250\n\n-.5\n", "--scale", "t.a=2")
        self.assertEqual(table["columns"], [["a", "INT"]])
        self.assertEqual(table["rows"], [[340], [-5], [700], [50], [125], [-50]])
        self.csv_refused("t.csv line 3 (row 1 of t), column a: '0.125' has more than the 2 decimals",
                         "a\n1\n0.125\n", "--scale", "t.a=2")
        self.csv_refused("line 2 (row 0 of t), column a: '1e3' is no decimal", "a\n1e3\n", "--scale", "t.a=2")
        self.csv_refused("is outside 64 bits", "a\n92233720368547758.08\n", "--scale", "t.a=2")

    def test_refused_cells(self) -> None:
        refused = self.csv_refused
        refused("t.csv line 4: 1 cell, but the header has 2", "a,b\n1,2\n\n3\n")
        refused("t.csv line 4 (row 1 of t), column b: 'x' is no whole number", 'a,b\n"1\n",2\n3,x\n',
                "--kind", "t.b=INT")
        refused("column a: '9223372036854775808' is outside 64 bits", "a\n9223372036854775808\n",
                "--kind", "t.a=INT")
        refused("column a: NULL, but it is in the key", "a\n1\n\"\"\n", "--key", "t=a")
        refused("column a: NULL, but it is NOT NULL", "a,b\n,2\n", "--kind", "t.a=TEXT NOT NULL")
        refused("t.csv line 4 (row 2 of t): the key (a, b) is (1, 'x'), as in", "a,b\n1,x\n2,x\n1,x\n",
                "--key", "t=a,b")
        refused("t.csv line 2 (row 0 of t), column a: a text of 65537 bytes", "a\n" + "é" * 32768 + "x\n")
        self.assertEqual(len(self.table("a\n" + "é" * 32768 + "\n")["rows"][0][0]), 32768)
        refused("t.csv line 2: byte 3 isn't utf-8", b"a\nx\xff\n")
        refused("t.csv isn't utf-7: 'utf-8' codec can't encode", "a\n+2AA-\n", "--encoding", "utf-7")
        refused("t.csv line 3", 'a\n1\n"x" y\n')
        refused("is empty", "")

    def test_refused_names(self) -> None:
        refused = self.csv_refused
        refused("t: column 2 'Age': names have no upper-case letters; give --lower", "id,Age\n1,2\n")
        refused("t: column 1 'order' is a reserved word", "order\n1\n")
        refused("t: column 1 'a b' isn't a name", "a b\n1\n")
        refused("t: column 1 '' isn't a name", ",b\n1,2\n")
        refused("t: two columns have the name a", "a,A\n1,2\n", "--lower")
        refused("more than 63 bytes", "a" * 64 + "\n1\n")
        self.assertEqual(self.table("a" * 63 + "\n1\n")["rows"], [[1]])
        refused("t has 65 columns", ",".join(f"c{n}" for n in range(65)) + "\n" + "1," * 64 + "1\n")
        refused("the key names b, which is no column; there are a", "a\n1\n", "--key", "t=b")
        refused("t has 1000001 rows; the limit is 1000000", "a\n" + "1\n" * 1000001)
        path = self.put("my data.csv", "a\n1\n")
        self.refused("the table 'my data' isn't a name", "--csv", path, *ASK)
        self.refused("two tables have the name t", "--csv", f"t={path}", "--csv", f"t={path}", *ASK)
        self.refused("the table '\\udcff' isn't a name", "--csv", f"\udcff={path}", *ASK)
        self.refused("257 tables; the limit is 256",
                     *(word for n in range(257) for word in ("--csv", f"t{n}={path}")), *ASK)


class ScriptsAndFiles(InFolder):
    def script(self, text: str) -> str:
        status, out, err = tool(world, "--no-columns", "--sql", self.put("q.sql", text))
        self.assertEqual(status, 0, err)
        return str(json.loads(out)["files"]["main"])

    def test_statements(self) -> None:
        self.assertEqual(self.script("SELECT * FROM t;"), 'sql q "SELECT * FROM t"\n')
        self.assertEqual(self.script("-- one\n--two; 2\nselect *\r\n\tfrom t ; ;\n\n-- end\n"),
                         '# one\n# two; 2\nsql q "select * from t"\n# end\n')
        self.assertEqual(self.script("SELECT * FROM t WHERE a = 'x;\n\ty''-- \"z\\' AND b<>-1"),
                         'sql q "SELECT * FROM t WHERE a = \'x;\\n\\ty\'\'-- \\"z\\\\\' AND b<>-1"\n')

    def test_refused_statements(self) -> None:
        for text, message in each_of(
                ("SELECT * FROM t;\nSELECT * FROM t -- all\n", "line 2: -- within a statement"),
                ("SELECT * FROM t WHERE a = ?", "line 1: ? takes a parameter"),
                ("SELECT 'a FROM t", "line 1: the text that begins with ' doesn't end"),
                ("SELECT\n\"a\" FROM t", "line 2: '\"' has no meaning"),
                ("SELECT a / 2 FROM t", "'/' has no meaning in this dialect (docs/SQL.md); there is no"),
                ("SELECT a || a FROM t", "'||' has no meaning in this dialect (docs/SQL.md); ++ in a script"),
                ("/* all */ SELECT a FROM t", "'/*' has no meaning in this dialect (docs/SQL.md); comments"),
                ("-- none\n;", "there is no statement"),
                ("\nSELECT '" + "a" * 65536 + "'", "line 2: a statement of 65545 bytes"),
                (b"\xff", "byte 0 isn't UTF-8")):
            self.refused(message, "--sql", self.put("q.sql", text))
        for text in ("SELECT '\udcff' FROM t", "-- \udcff\nSELECT a FROM t"):
            self.refused("--ask 2, ", "--ask", "SELECT a FROM t", "--ask", text)

    def test_where(self) -> None:
        """What is wrong is said where it stands in the file of statements, and not in the script that is
        made, with the statement."""
        table = self.put("t.csv", "k;Größe (cm);Öffnet\n1;2;9\n")
        text = "-- all\nSELECT k FROM t;\n\n-- the mean\nSELECT AVG(k)\nFROM t;\nSELECT h FROM t;\n"
        words = ["--csv", table, "--delimiter", ";", "--tidy", "--as-written"]
        status, _, err = tool(world, *words, "--sql", self.put("m.sql", text), "--ask", "SELECT g FROM t",
                              "--ask", "SELECT k\nFROM u")
        self.assertEqual(status, 0, err)
        path = os.path.join(self.folder, "m.sql")
        self.assertIn(f"world.py: warning: {path} line 5: the statement will be refused with code 1: '(' "
                      "can't",
                      err)
        self.assertIn("\n    SELECT AVG(k) FROM t\n              ^\n", err)
        for where in (f"{path} line 7", "--ask 1", "--ask 2 line 1"):
            self.assertIn(f"world.py: warning: {where}: the statement will be refused with code", err)
        self.assertNotIn("main", err)
        self.refused(f"{path} line 1: LEFT before JOIN", *words, "--sql",
                     self.put("m.sql", "SELECT t.k FROM t LEFT JOIN t u ON t.k = u.k"))
        script = self.put("s.ldv", 'print 1\nsql q "SELECT h FROM t"\n')
        self.assertIn("warning: s.ldv line 2: the statement", tool(world, *words, "--script", script)[2])

    def test_renamed(self) -> None:
        """A name of the file that can't stand in a statement is said with the one of the world."""
        table = self.put("t.csv", "k;Größe (cm);Öffnet\n1;2;9\n")
        words = ["--csv", table, "--delimiter", ";", "--tidy"]
        no_meaning = "has no meaning in this dialect (docs/SQL.md); "
        for text, said in (("SELECT k, Öffnet FROM t", "'Ö' {}in this world 'Öffnet' is called offnet"),
                           ("SELECT k,größe FROM t", "'ö' {}in this world 'Größe (cm)' is called grosse_cm"),
                           ("SELECT k, nähe FROM t", "'ä' has no meaning in this dialect (docs/SQL.md)\n")):
            self.refused(said.format(no_meaning), *words, "--ask", text)
        self.refused("in this world 'Öffnet' is called open", "--csv", table, "--delimiter", ";", "--lower",
                     "--rename", "t.#2=size", "--rename", "t.#3=open", "--ask", "SELECT Öffnet FROM t")

    def test_many_statements(self) -> None:
        """Lines are counted for a message only: many statements take no time that grows with their square."""
        with mock.patch("ldvtools.scripts_of_statements.line_at", side_effect=AssertionError):
            self.assertEqual(self.script("--a\nSELECT a FROM t;\n" * 3), '# a\nsql q "SELECT a FROM t"\n' * 3)

    def test_help(self) -> None:
        """What holds for all CSV files is said, and what holds for one."""
        text = tool(world, "--help")[1].decode()
        self.assertIn("--delimiter, --encoding, --quotes, --decimal, --thousands and --null hold for all CSV "
                      "files, or for the one\nwhose table is named", text)
        self.assertIn("--tsv, --skip-blank, --trim, --round, --lower and --tidy hold for all files.", text)

    def test_files(self) -> None:
        script, logo = self.put("go.ldv", "print 1\n"), self.put("logo", b"\x89PNG")
        words = ["--script", script, "--file", f"pic={logo}", "--arg", "a", "--seed", "7"]
        status, out, _ = tool(world, *words)
        self.assertEqual((status, json.loads(out)), (0, {"start": ["go.ldv", "a"], "seed": 7, "files": {
            "go.ldv": "print 1\n", "pic": {"hex": "89504e47"}}}))
        self.refused("two files have the path logo", "--script", script, "--file", logo, "--file", logo)
        self.refused("no path", "--script", f"a\x7f={script}")
        self.refused("no path", "--script", "a" * 256 + f"={script}")
        self.refused("257 start words", "--script", script, *["--arg", "x"] * 256)
        self.refused("No such file", "--script", script + "x")
        big = self.put("big", b"a" * 16777217)
        self.refused("the file big has 16777217 bytes", "--script", script, "--file", big)
        full = self.put("full", b"a" * 16777216)
        files = [word for n in range(4) for word in ("--file", f"{n}={full}")]
        self.refused("the document has", "--script", script, *files)

    def test_script_twice(self) -> None:
        script, child = self.put("main.ldv", ""), self.put("child.ldv", "")
        self.refused("--script is given twice; a child's script goes into the world by --file NAME=PATH",
                     "--script", script, "--script", child, status=2)
        status, out, err = tool(world, "--script", script, "--file", f"child={child}")
        self.assertEqual((status, json.loads(out)["start"]), (0, ["main.ldv"]), err)
        self.assertEqual(list(json.loads(out)["files"]), ["main.ldv", "child"])

    def test_misuse(self) -> None:
        script, path = self.put("s", ""), self.put("t.csv", "a\n1\n")
        for words in each_of([], ["--csv", path], ["--script", script, "--seed", "-1"],
                      ["--script", script, "--table", "t"], ["--csv", path, *ASK, "--kind", "t.a=REAL"],
                      ["--csv", path, *ASK, "--kind", "t.b=INT"], ["--csv", path, *ASK, "--key", "u=a"],
                      ["--csv", path, *ASK, "--scale", "t.a=x"], ["--csv", path, *ASK, "--delimiter", "ab"],
                      ["--csv", path, *ASK, "--encoding", "none"], ["--csv", path, *ASK, "--empty", "t.a=0"]):
            self.refused("world.py", *words, status=2)


SHOP = """
CREATE TABLE Customers (id INTEGER PRIMARY KEY AUTOINCREMENT, name VARCHAR(9) NOT NULL COLLATE NOCASE UNIQUE,
    born DATE, vip BOOLEAN);
CREATE TABLE lines (n INT, shop, customer INTEGER DEFAULT 1 REFERENCES Customers (id) CHECK (customer > 0),
    twice INT GENERATED ALWAYS AS (customer * 2), PRIMARY KEY (shop, n)) WITHOUT ROWID;
CREATE VIEW all_lines AS SELECT * FROM lines;
CREATE TRIGGER added AFTER INSERT ON lines BEGIN SELECT 1; END;
INSERT INTO Customers VALUES (9, 'Ada', '1815-12-10', 1), (2, 'Bo', NULL, NULL);
INSERT INTO lines (n, shop, customer) VALUES (1, 'b', 2), (2, 'a', 9), (1, 'a', NULL);
"""


class Databases(InFolder):
    def database(self, statements: str) -> list[str]:
        path = os.path.join(self.folder, "shop.db")
        if os.path.exists(path):
            os.remove(path)
        make_database(path, statements)
        return ["--sqlite", path, *ASK]

    def test_tables(self) -> None:
        status, out, err = tool(world, *self.database(SHOP), "--lower")
        self.assertEqual(status, 0, err)
        self.assertEqual(json.loads(out)["tables"], {
            "customers": {
                "columns": [["id", "INT NOT NULL"], ["name", "TEXT NOT NULL"], ["born", "TEXT"],
                            ["vip", "INT"]],
                "key": ["id"], "rows": [[2, "Bo", None, None], [9, "Ada", "1815-12-10", 1]]},
            "lines": {
                "columns": [["n", "INT NOT NULL"], ["shop", "TEXT NOT NULL"], ["customer", "INT"],
                            ["twice", "INT"]],
                "key": ["shop", "n"], "rows": [[1, "a", None, None], [2, "a", 9, 18], [1, "b", 2, 4]],
                "foreign": [[["customer"], "customers"]]}})
        for note in ("customers: UNIQUE (name)", "customers: AUTOINCREMENT", "customers: COLLATE NOCASE",
                     "customers.born: declared DATE, carried as TEXT",
                     "customers.vip: declared BOOLEAN, carried as INT", "lines: CHECK",
                     "lines.customer: DEFAULT 1",
                     "lines.twice is GENERATED", "lines.shop: declared no type", "the view all_lines",
                     "the trigger added of lines"):
            self.assertIn(f"world.py: note: {note}", err)
        self.assertEqual(err.count("note:"), 11, err)

    def test_texts_of_digits(self) -> None:
        """Texts of a database that are all spelled as whole numbers are texts."""
        words = self.database("CREATE TABLE t (a TEXT, b); INSERT INTO t VALUES ('2', '3'), ('10', NULL);")
        status, out, err = tool(world, *words)
        self.assertEqual((status, err.count("warning:")), (0, 0), err)
        self.assertEqual(json.loads(out)["tables"], {"t": {
            "columns": [["a", "TEXT"], ["b", "TEXT"]], "rows": [["2", "3"], ["10", None]]}})

    def test_options(self) -> None:
        words = self.database(SHOP)
        status, out, err = tool(world, *words, "--table", "lines", "--leave-out", "lines.twice",
                                "--key", "lines=none", "--kind", "lines.customer=TEXT")
        self.assertEqual(status, 0, err)
        self.assertEqual(json.loads(out)["tables"], {"lines": {
            "columns": [["n", "INT NOT NULL"], ["shop", "TEXT NOT NULL"], ["customer", "TEXT"]],
            "rows": [[1, "a", None], [2, "a", "9"], [1, "b", "2"]]}})
        self.refused("a world hasn't all that the database has", *words, "--lower", "--strict")
        self.refused("names have no upper-case letters", *words)
        self.refused("there is no table t; there are Customers", *words, "--table", "t")
        self.refused("--leave-out u: nothing", *words, "--lower", "--leave-out", "u", status=2)

    def test_foreign(self) -> None:
        """Foreign keys are carried where the parent's key fits, in its order, and each row has its parent."""
        parents = ("CREATE TABLE P (b TEXT, a INT, u INT UNIQUE, PRIMARY KEY (b, a));"
                   "INSERT INTO P VALUES ('x', 1, 7), ('y', 2, NULL);")

        def child(declared: str, rows: str) -> list[str]:
            return self.database(f"{parents} CREATE TABLE c (n INT PRIMARY KEY, a INT, b TEXT, {declared});"
                                 + (f"INSERT INTO c VALUES {rows};" if rows else "")) + ["--lower"]

        for declared in ("FOREIGN KEY (a, b) REFERENCES p (A, B)", "FOREIGN KEY (b, a) REFERENCES P"):
            words = child(declared, "(0, 1, 'x'), (1, NULL, 'z'), (2, 2, 'y')")
            status, out, err = tool(world, *words)
            self.assertEqual(status, 0, err)
            self.assertEqual(json.loads(out)["tables"]["c"]["foreign"], [[["b", "a"], "p"]])
            self.assertIn("world.py: c: 3 rows; n INT NOT NULL, a INT, b TEXT; key n; (b, a) refers to p\n",
                          err)
        words = child("FOREIGN KEY (a, b) REFERENCES p (a, b)", "(0, 1, 'x'), (1, 1, 'y')")
        self.refused("row 1 of c: (b, a) is ('y', 1), and no row of p has this key; --foreign c=none", *words)
        status, out, err = tool(world, *words, "--foreign", "c=none")
        self.assertEqual((status, json.loads(out)["tables"]["c"].get("foreign")), (0, None), err)
        for declared, why in (
                ("FOREIGN KEY (a) REFERENCES p (u)", "it refers to (u), and the key of p is (b, a)"),
                ("FOREIGN KEY (n) REFERENCES p", "it refers to (b), and the key of p is (b, a)"),
                ("FOREIGN KEY (n) REFERENCES q", "q is no table of this world"),
                ("FOREIGN KEY (a, a) REFERENCES p (a, b)", "it has a column twice"),
                ("FOREIGN KEY (a, n) REFERENCES p (a, b)", "c.n is INT, and p.b is TEXT")):
            err = tool(world, *child(declared, ""))[2]
            self.assertRegex(err, rf"note: c: the foreign key \(.*\) to [pq] isn't carried: {re.escape(why)}")
        err = tool(world, *child("FOREIGN KEY (a, b) REFERENCES p (a, b) ON DELETE CASCADE", ""))[2]
        self.assertIn("to p: ON DELETE CASCADE isn't carried", err)

    def test_given_foreign(self) -> None:
        words = ["--csv", self.put("p.csv", "id\n1\n2\n"), "--key", "p=id", *ASK,
                 "--csv", self.put("c.csv", "n,of\n1,2\n2,\n3,1\n")]
        status, out, err = tool(world, *words, "--foreign", "c.of=p", "--foreign", "p.id=p")
        self.assertEqual([json.loads(out)["tables"][name]["foreign"] for name in "cp"],
                         [[[["of"], "p"]], [[["id"], "p"]]], err)
        self.refused("c.csv line 4 (row 2 of c): (n) is (3), and no row of p has this key", *words,
                     "--foreign", "c.n=p")
        self.refused("--foreign c.of=q: there is no table q; there are p, c", *words, "--foreign", "c.of=q")
        self.refused("--foreign c.on=p: c has no column on; there are n, of", *words, "--foreign", "c.on=p")
        self.refused("--foreign c.n,of=p: the key of p is (id)", *words, "--foreign", "c.n,of=p")
        self.refused("--foreign u.n: nothing", *words, "--foreign", "u.n=p", status=2)
        self.refused("--foreign c=p: give", *words, "--foreign", "c=p", status=2)
        self.refused("c.of is INT, and p.id is TEXT", *words, "--kind", "p.id=TEXT", "--foreign", "c.of=p")
        self.refused("--scale c.of=1 gives both the same", *words, "--scale", "p.id=1", "--foreign", "c.of=p")

    def test_values(self) -> None:
        words = self.database("CREATE TABLE t (a REAL);"
                              "INSERT INTO t VALUES (2.5), (3), (NULL), (-0.1), (1e2);")
        self.refused("row 0 of t, column a: the REAL value 2.5 has no equal here; --scale t.a=1 carries all",
                     *words)
        status, out, err = tool(world, *words, "--scale", "t.a=1")
        self.assertEqual(json.loads(out)["tables"]["t"]["rows"], [[25], [30], [None], [-1], [1000]], err)
        for statements, message in (
                ("a INT); INSERT INTO t VALUES (1), ('x');", "row 1 of t, column a: 'x' is no whole"),
                ("a INT); INSERT INTO t VALUES (1), (1.5);", "row 1 of t, column a: the REAL value 1.5"),
                ("a, b); INSERT INTO t VALUES (1, 1), ('x', 1);", "rows before have the kind INT"),
                ("a BLOB); INSERT INTO t VALUES (x'00ff');", "column a: a BLOB of 2 bytes"),
                ("a TEXT); INSERT INTO t VALUES (CAST(x'ff' AS TEXT));", "a text that isn't UTF-8"),
                ("a TEXT PRIMARY KEY); INSERT INTO t VALUES (NULL);", "NULL, but it is in the key"),
                ("\"a b\" INT);", "column 1 'a b' isn't a name")):
            self.refused(message, *self.database("CREATE TABLE t (" + statements))
        self.refused("there are t\n", *self.database("CREATE TABLE t (a INTEGER PRIMARY KEY AUTOINCREMENT);"),
                     "--table", "sqlite_sequence")
        path = self.put("x.db", "no database, but long enough" * 40)
        self.refused("file is not a database", "--sqlite", path, *ASK)
        self.refused("No such file", "--sqlite", self.folder + "/none.db", *ASK)

    def test_real_columns(self) -> None:
        """All columns that need --scale are named at once, each with the decimals that it needs."""
        words = self.database("CREATE TABLE t (a REAL, b INT, c REAL, d REAL);"
                              "INSERT INTO t VALUES (1.5, 1, 0.125, 1e-30), (2, 2, 1.5, 1);"
                              "CREATE TABLE u (e REAL); INSERT INTO u VALUES (0.25);")
        self.refused("--scale t.a=1 --scale t.c=3 --scale t.d=18 --scale u.e=2 --round carries all of them",
                     *words)
        words += ["--scale", "u.e=2"]
        scales = ["--scale", "t.a=1", "--scale", "t.c=3", "--scale", "t.d=2"]
        status, out, err = tool(world, *words, *scales, "--round")
        self.assertEqual(json.loads(out)["tables"]["t"]["rows"], [[15, 1, 125, 0], [20, 2, 1500, 100]], err)

    def test_defaults(self) -> None:
        """A default isn't carried: a column that may have no NULL then refuses the INSERT."""
        words = self.database("CREATE TABLE t (a INT DEFAULT 1, b INT NOT NULL DEFAULT 2, c INT DEFAULT 3);")
        err = tool(world, *words, "--key", "t=c")[2]
        for name, what in (("a: DEFAULT 1", "gives NULL"), ("b: DEFAULT 2", "is refused with code 5"),
                           ("c: DEFAULT 3", "is refused with code 5")):
            self.assertIn(f"world.py: note: t.{name} isn't carried: an INSERT that doesn't name the column "
                          f"{what} here\n", err)

    def test_views(self) -> None:
        words = self.database(SHOP)
        self.refused("all_lines is a view; CREATE TABLE t AS SELECT * FROM all_lines in a copy of the "
                     "database makes it a table", *words, "--table", "all_lines")

    def test_long_decimals(self) -> None:
        """Digits that arithmetic left are rounded away, and what is advised fits into 64 bits."""
        def advice(values: str) -> list[str]:
            return self.database("CREATE TABLE r (a REAL); INSERT INTO r VALUES " + values)
        for values, words in (("(0.1 + 0.2)", "--scale r.a=1 --round carries all of them as whole numbers, "
                               "rounded, --leave-out"),
                              ("(0.1 + 0.2), (1.25)", "--scale r.a=2 --round carries"),
                              ("(1.0 / 3)", "--scale r.a=1 --round carries"),
                              ("(1e15), (1e-5)", "--scale r.a=3 --round carries"),
                              ("(1e300), (0.5)", "r.a: numbers outside 64 bits, which no --scale carries: "
                               "--leave-out r.a\n"),
                              ("(12.5), (NULL)", "--scale r.a=1 carries all of them as whole numbers, --l")):
            self.refused(words, *advice(values))
        given = self.database("CREATE TABLE m (r REAL, i REAL, k INT); INSERT INTO m VALUES (1e20, 0.5, 1), "
                              "(0.25, 1.5, 2);")
        self.refused("row 0 of m, column r: the REAL value 1e+20 has no equal here; m.r: numbers outside 64 "
                     "bits, "
                     "which no --scale carries: --leave-out m.r; --scale m.i=1 carries the others as whole "
                     "numbers\n", *given)
        status, out, err = tool(world, *given, "--leave-out", "m.r", "--scale", "m.i=1")
        self.assertEqual(json.loads(out)["tables"]["m"]["rows"], [[5, 1], [15, 2]], err)
        self.refused("the REAL value 1e+300 is outside 64 bits at --scale 0", *advice("(1e300), (0.5)"),
                     "--scale", "r.a=0", "--round")
        status, out, err = tool(world, *advice("(0.1 + 0.2), (7)"), "--scale", "r.a=1", "--round")
        self.assertEqual(json.loads(out)["tables"]["r"]["rows"], [[3], [70]], err)
        self.csv_refused("'92233720368547758.08' is outside 64 bits at --scale 2 (-9223372036854775808 to "
                         "9223372036854775807 by 100)", "a\n92233720368547758.08\n", "--scale", "t.a=2")

    def test_names_of_nothing(self) -> None:
        """An option that names nothing is said first, with the names that there are."""
        first, second = self.put("t.csv", "Id,A\n1,2\n"), self.put("u.csv", "b\nx\n")
        words = ["--csv", first, "--csv", second, *ASK]
        for option, name, what in (("--rename=t.ID=id", "t.ID", "t has Id, A"),
                                   ("--scale=t.c=1", "t.c", "t has Id, A"),
                                   ("--key=v=b", "v", "the tables are t, u"),
                                   ("--leave-out=w", "w", "the tables are t, u")):
            self.refused(f"{option.partition('=')[0]} {name}: nothing that was read has this name; {what} (",
                         *words, option, status=2)
        self.refused("--scale t.c: nothing that was read has this name; t has id, a (", *words, "--lower",
                     "--scale", "t.c=1", status=2)
        self.refused("column 1 'Id': names have no upper-case", *words, "--key", "u=b", "--kind", "u.b=TEXT")
        self.refused("column 1 'Id': names have no upper-case", *words, "--csv", second + "x", "--key", "v=b")
        words = self.database("CREATE TABLE r (a REAL); INSERT INTO r VALUES (0.5); CREATE TABLE s (b INT);")
        self.refused("--scale r.b: nothing that was read has this name; r has a (", *words, "--scale",
                     "r.b=1", status=2)
        self.refused("--scale r.a=1 carries", *words, "--key", "s=b")

    def test_paths_and_names(self) -> None:
        """A path of two slashes, and a table and columns in other quotes whose names are words of a note."""
        words = self.database("CREATE TABLE t (a INT, [check] INT, `autoincrement` INT);")
        words = words[:1] + ["/" + words[1]] + words[2:]
        status, out, err = tool(world, *words, "-q")
        self.assertEqual((status, err), (0, ""))
        self.assertEqual(json.loads(out)["tables"]["t"]["columns"],
                         [["a", "INT"], ["check", "INT"], ["autoincrement", "INT"]])

    def test_write_ahead_log(self) -> None:
        """Reading leaves the database as it was, with no file beside it,
        and takes away no log that was there."""
        words = self.database("PRAGMA journal_mode = WAL; CREATE TABLE t (a INT); INSERT INTO t VALUES (1);")
        before = read(words[1])
        self.assertEqual(tool(world, *words, "-q")[0], 0)
        self.assertEqual((os.listdir(self.folder), read(words[1])), (["shop.db"], before))
        base = sqlite3.connect(words[1], isolation_level=None)
        base.execute("INSERT INTO t VALUES (2)")
        status, out, err = tool(world, *words, "-q")
        self.assertEqual(json.loads(out)["tables"]["t"]["rows"], [[1], [2]], err)
        self.assertEqual(len(os.listdir(self.folder)), 3)
        base.close()
