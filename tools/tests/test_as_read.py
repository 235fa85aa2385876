"""Cells and replies are shown as they were read, by what a world or a package says of its columns."""
from __future__ import annotations

import csv
import io
import json
import os
import re
import sqlite3
from typing import Any

from cases import encoder
from ldvtools import check, diff, join, outcome, package, world
from ldvtools.columns import Known, KnownTable, Source, columns_file, columns_in, path_of
from ldvtools.packages import read_package
from ldvtools.reply_columns import CONSTANT, PLAIN, RAW, Answer, answers_of

from .support import InFolder, each_of, read, tool

KINDS = {"t": [("id", "INT NOT NULL"), ("day", "TEXT"), ("cost", "INT"), ("kilo", "INT"), ("n", "INT")],
         "u": [("id", "INT"), ("price", "INT")]}
ID, DAY = Known("id", "Id", "integer"), Known("day", "Day", "date", order="dmy", form="D.M.YYYY")
COST = Known("cost", "Cost", "decimal", 2, ",", "€", nulls=("n/a",))
KILO = Known("kilo", "Kilo", "decimal", 3, declared="REAL")
PRICE = Known("price", "Price", "decimal", 2)
KNOWN = KnownTable("t", Source("t.csv"), (ID, DAY, COST, KILO, Known("n", "N", "integer")))
OTHER = KnownTable("u", Source("u.csv"), (Known("id", "Id", "integer"), PRICE))
FILES = {path_of("t"): columns_file(KNOWN), path_of("u"): columns_file(OTHER)}
COLUMNS = columns_in(FILES, KINDS)
ROWS = [[1, "2024-07-27", 189075, 500, 3], [2, "2024-12-03", 1250, None, 4], [3, None, None, 1500, 5]]


def packed(rows: Any, known: Any = KNOWN, script: str = "", **fields: Any) -> bytes:
    """A package of the table t, which says what its columns are."""
    columns = [encoder.column(name, kind) for name, kind in KINDS["t"]]
    packed_rows = [encoder.row(number, *row) for number, row in enumerate(rows)]
    files = [encoder.file(path_of("t"), columns_file(known).decode()), encoder.file("main", script)]
    needs = [encoder.group("t", *(encoder.read(number) for number in range(len(rows))))]
    trace = [encoder.started(), encoder.asked(0, tables=["t"], reads=needs), encoder.ended(2)]
    tables = [encoder.table("t", columns, [0], len(rows), packed_rows)]
    return encoder.encode(encoder.package(steps=2, files=files, tables=tables, trace=trace, **fields))


class Answers(InFolder):
    def answers(self, text: str) -> list[Any]:
        return [each.known if each.known is not None else each for each in answers_of(text, COLUMNS, KINDS)]

    def test_columns(self) -> None:
        """A column is shown as it is, SUM, MIN and MAX of it too, a COUNT as a number."""
        self.assertEqual(self.answers("SELECT * FROM t"), list(KNOWN.columns))
        self.assertEqual(self.answers("SELECT b.price, a.cost, cost FROM t a, u b"), [PRICE, COST, COST])
        self.assertEqual(self.answers("SELECT SUM(cost), MIN(day) AS d, MAX(t.kilo), COUNT(cost), COUNT(*) "
                                      "FROM t"), [COST, DAY, KILO, PLAIN, PLAIN])
        self.assertEqual(self.answers("SELECT id FROM t, u"), [PLAIN])
        self.assertEqual(self.answers("DELETE FROM t"), [])
        self.assertEqual(self.answers("SELEC"), [])
        self.assertEqual(self.answers("SELECT * FROM x"), [])

    def test_products(self) -> None:
        """A product has the sum of the scales; of a number and a column it has the column's."""
        product, of_number, both = self.answers("SELECT cost * kilo, 3 * cost, SUM(cost * n) FROM t")
        self.assertEqual((product.scale, product.unit, product.decimal), (5, "€", "."))
        self.assertEqual((of_number.scale, of_number.unit), (2, "€"))
        self.assertEqual((both.scale, both.unit), (2, "€"))
        self.assertEqual(self.answers("SELECT n * n, 2 * 3, n * 2, SUM(cost * 0) FROM t"),
                         [PLAIN, CONSTANT, PLAIN, PLAIN])
        deep = "cost * cost * cost * cost * cost * cost * cost * cost * cost * cost"
        self.assertEqual(self.answers(f"SELECT {deep} FROM t"), [RAW])

    def test_raw(self) -> None:
        """What else is computed of a column that is carried in another form is raw."""
        self.assertEqual(self.answers("SELECT cost + 1, -kilo, SUM(cost - kilo), n + 1, -n, (cost + 1) * 2, "
                                      "cost * (n + 1) FROM t")[:6],
                         [RAW, RAW, RAW, PLAIN, PLAIN, RAW])
        self.assertEqual(self.answers("SELECT cost * (n + 1) FROM t")[0].scale, 2)

    def test_unions(self) -> None:
        """A column of a UNION has a form where it has it in all its parts; a constant fits any."""
        for text, expected in (
                ("SELECT cost FROM t UNION SELECT price FROM u", RAW),
                ("SELECT price FROM u UNION ALL SELECT price FROM u", PRICE),
                ("SELECT 0 FROM u UNION ALL SELECT price FROM u", PRICE),
                ("SELECT day FROM t UNION ALL SELECT 'all' FROM t", DAY),
                ("SELECT kilo FROM t UNION ALL SELECT n FROM t", RAW),
                ("SELECT n FROM t UNION ALL SELECT id FROM u", Known("n", "N", "integer"))):
            self.assertEqual(self.answers(text), [expected], text)

    def test_without_kinds(self) -> None:
        """Of recorded replies the files alone say which columns there are."""
        found = answers_of("SELECT * FROM t", COLUMNS, None)
        self.assertEqual([each.known for each in found], list(KNOWN.columns))
        self.assertEqual(Answer(COST).head("x"), "x (€)")
        self.assertEqual((RAW.head("x"), PLAIN.head("x")), ("x (raw)", "x"))


# Two replies with one head: a sum of a cost, and one of a weight; a COUNT; and what has no form.
SCRIPT = ('sql q "SELECT SUM(cost) AS s, COUNT(*) AS n FROM t"\nsql q "SELECT SUM(kilo) AS s FROM t"\n'
          'sql q "SELECT id, day, cost, cost + 1 AS more FROM t"\n')
OUTCOME = ("outcome 1 0\nprocess 0 0 0 3\n\nrows 1\nrow 2\nint 190325\nint 3\nrows 1\nrow 1\nint 2000\n"
           "rows 2\nrow 4\nint 1\ntext 10\n2024-07-27\nint 189075\nint 189076\n"
           "row 4\nint 3\nnull\nnull\nnull\n")


class Shown(InFolder):
    def setUp(self) -> None:
        super().setUp()
        tables = {"t": {"columns": [list(column) for column in KINDS["t"]], "key": ["id"], "rows": ROWS}}
        files = {"main": SCRIPT, path_of("t"): FILES[path_of("t")].decode()}
        self.world = self.put("w.json", json.dumps({"start": ["main"], "files": files, "tables": tables}))
        self.outcome = self.put("w.outcome", OUTCOME)
        self.package = self.put("w.package", packed(ROWS, script=SCRIPT))

    def test_outcome(self) -> None:
        """Each reply by its own columns, heads of the same name too; over a world, and over its package."""
        for words in (["--world", self.world], ["--package", self.package]):
            status, out, err = tool(outcome, *words, self.outcome)
            self.assertEqual((status, err), (0, ""))
            self.assertIn("    s (€)   | n\n    --------+--\n    1903,25 | 3\n", out.decode())
            self.assertIn("    s\n    -----\n    2.000\n", out.decode())
            self.assertIn("    id | day       | cost (€) | more (raw)\n", out.decode())
            self.assertIn("     1 | 27.7.2024 |  1890,75 |     189076\n", out.decode())
        csv = tool(outcome, "--csv", "--reply", "3", "--world", self.world, self.outcome)[1].decode()
        self.assertEqual(csv, 'id,day,cost (€),more (raw)\n1,27.7.2024,"1890,75",189076\n3,,,\n')
        folder = os.path.join(self.folder, "r")
        self.assertEqual(tool(outcome, "--folder", folder, "--world", self.world, self.outcome)[0], 0)
        self.assertEqual(read(f"{folder}/0-1.csv").decode(), 's (€),n\n"1903,25",3\n')

    def test_given_scale(self) -> None:
        """--scale goes before what the world says, and --raw shows what is carried."""
        words = ["--csv", "--reply", "3", "--world", self.world, self.outcome]
        out = tool(outcome, "--scale", "cost=1", "--scale", "more=2", *words)[1].decode()
        self.assertEqual(out.split("\n")[:2], ["id,day,cost,more", "1,27.7.2024,18907.5,1890.76"])
        out = tool(outcome, "--raw", *words)[1].decode()
        self.assertEqual(out.split("\n")[:2], ["id,day,cost,more", "1,2024-07-27,189075,189076"])

    def test_faults(self) -> None:
        """A file that doesn't say what columns are is named, and cells are shown as they are carried."""
        made = json.loads(read(self.world))
        made["files"][path_of("t")] = "{"
        path = self.put("x.json", json.dumps(made))
        status, out, err = tool(outcome, "--csv", "--reply", "1", "--world", path, self.outcome)
        self.assertEqual((status, out), (0, b"s,n\n190325,3\n"))
        self.assertEqual(err, "outcome.py: ldv-columns/t.json doesn't say what columns are (it isn't JSON), "
                              "and isn't used\n")
        del made["files"][path_of("t")]
        err = tool(outcome, "--csv", "--reply", "1", "--world", self.put("x.json", json.dumps(made)),
                   self.outcome)[2]
        self.assertEqual(err, "outcome.py: nothing says what the columns are where they were read: numbers "
                              "are shown as they are carried\n")

    def test_recorded_replies(self) -> None:
        entry = encoder.entry("SELECT cost FROM t", (), dict(rows=[[1250], [None]]))
        files = [encoder.file(path_of("t"), FILES[path_of("t")].decode()),
                 encoder.file("main", 'sql q "SELECT cost FROM t"\n')]
        trace = [encoder.started(), encoder.asked(0), encoder.ended(2)]
        logs = [encoder.log([0], entry)]
        data = encoder.encode(encoder.package(mode=2, steps=2, files=files, logs=logs, trace=trace))
        self.assertEqual(read_package(data).logs[0].entries[0].reply.rows, [[1250], [None]])
        replies = self.put("o", "outcome 1 0\nprocess 0 0 0 1\n\nrows 2\nrow 1\nint 1250\nrow 1\nnull\n")
        out = tool(outcome, "--csv", "--reply", "1", "--null", "-", "--package", self.put("x", data), replies)
        self.assertEqual(out, (0, 'cost (€)\n"12,50"\n-\n'.encode(), ""))

    def test_tables(self) -> None:
        """Of a package: CSV with marks, units and words for NULL; SQLite with REAL; rows; a statement."""
        folder, path = os.path.join(self.folder, "c"), os.path.join(self.folder, "t.db")
        self.assertEqual(tool(package, "--csv", folder, self.package), (0, b"", ""))
        self.assertEqual(read(f"{folder}/t.csv").decode(), "id,day,cost (€),kilo,n\r\n"
                         '1,27.7.2024,"1890,75",0.500,3\r\n2,3.12.2024,"12,50",,4\r\n3,,n/a,1.500,5\r\n')
        self.assertEqual(tool(package, "--sqlite", path, self.package), (0, b"", ""))
        base = sqlite3.connect(path)
        self.assertEqual(base.execute('SELECT *, typeof("Cost (€)") FROM t').fetchall(), [
            (1, "27.7.2024", 1890.75, 0.5, 3, "real"), (2, "3.12.2024", 12.5, None, 4, "real"),
            (3, None, None, 1.5, 5, "null")])
        self.assertEqual([row[1:3] for row in base.execute("PRAGMA table_info(t)")],
                         [("Id", "INTEGER"), ("Day", "TEXT"), ("Cost (€)", "REAL"), ("Kilo", "REAL"),
                          ("N", "INTEGER")])
        base.close()
        shown = tool(package, "--rows", self.package)[1].decode()
        self.assertIn("  row | why | id | day       | cost (€) | kilo  | n\n", shown)
        self.assertIn("    1 | 0 L |  2 | 3.12.2024 |    12,50 | NULL  | 4\n", shown)
        shown = tool(package, "--statement", "0", self.package)[1].decode()
        self.assertIn(" |  1890,75 | 0.500 | 3\n", shown)
        for words, line in ((["--rows"], b" | 2024-07-27 | 189075 |  500 | 3\n"),
                            (["--statement", "0"], b" | 2024-07-27 | 189075 |  500 | 3\n")):
            self.assertIn(line, tool(package, "--raw", *words, self.package)[1])

    def test_digits(self) -> None:
        """A decimal that isn't a REAL is said; a declared type that is more than a type isn't taken."""
        known = KNOWN._replace(columns=(ID, DAY, COST._replace(declared="REAL DEFAULT (1); DROP"), KILO,
                                        ID._replace(name="n", declared="NUMERIC(10, 2)")))
        path = os.path.join(self.folder, "d.db")
        data = packed([[1, "x", 9007199254740993, 1, 1]], known)
        status, out, err = tool(package, "--sqlite", path, given=data)
        self.assertEqual((status, err), (0, "package.py: note: t.cost: 90071992547409,93 has more digits "
                                            "than a REAL, and is rounded there\n"))
        base = sqlite3.connect(path)
        self.assertEqual([row[2] for row in base.execute("PRAGMA table_info(t)")],
                         ["INTEGER", "TEXT", "REAL", "REAL", "NUMERIC(10, 2)"])
        base.close()

    def test_new_world(self) -> None:
        """The world of a package's rows keeps what is known of them, with --ask too."""
        status, out, err = tool(package, "--world", "--ask", "SELECT cost FROM t", self.package)
        made = json.loads(out)
        self.assertEqual(set(made["files"]), {"main", path_of("t")})
        self.assertTrue(made["files"]["main"].endswith('open columns r "ldv-columns/t.json" else known\n'
                                                       "readline line columns else known\nknown:\n"))

    def test_source_names(self) -> None:
        """A database has the names of the source, of tables, of columns, in keys and in references; where
        these would be one name twice, those of the package. --raw has the package's."""
        number = encoder.column("k", "INT NOT NULL")
        tables = [encoder.table("c", [number, encoder.column("p")], [0], 1, [encoder.row(0, 1, 7)],
                                 [encoder.foreign([1], "p")]),
                  encoder.table("p", [number, encoder.column("g")], [0], 1, [encoder.row(0, 7, 3)])]
        child = KnownTable("c", Source("f.db", table="Line Items"), (
            Known("k", 'the "Key"', "integer"), Known("p", "Order", "integer")))
        for name, names in (("Sum", ["Nr", "Sum (kg)"]), ("NR", ["k", "g"]), ("a\0b", ["k", "g"])):
            unit = "kg" if name == "Sum" else ""
            parent = KnownTable("p", Source("f.db", table="Orders"), (
                Known("k", "Nr", "integer"), Known("g", name, "integer", unit=unit)))
            files = [encoder.file(path_of(each.table), columns_file(each).decode())
                     for each in (child, parent)]
            data = encoder.encode(encoder.package(2, files=[*files, encoder.file("main", "exit 0")],
                                                    tables=tables))
            path = os.path.join(self.folder, f"{names[0]}{len(name)}.db")
            self.assertEqual(tool(package, "--sqlite", path, given=data), (0, b"", ""))
            base = sqlite3.connect(path)
            self.addCleanup(base.close)
            self.assertEqual([row[1] for row in base.execute("PRAGMA table_info(Orders)")], names)
            self.assertEqual(base.execute('SELECT "the ""Key""", "Order" FROM "Line Items"').fetchall(),
                             [(1, 7)])
            self.assertEqual([row[2:5] for row in base.execute('PRAGMA foreign_key_list("Line Items")')],
                             [("Orders", "Order", None)])
            self.assertEqual(base.execute("PRAGMA foreign_key_check").fetchall(), [])
        path = os.path.join(self.folder, "raw.db")
        self.assertEqual(tool(package, "--raw", "--sqlite", path, given=data), (0, b"", ""))
        base = sqlite3.connect(path)
        self.addCleanup(base.close)
        self.assertEqual(base.execute("SELECT c.k, p.g FROM c JOIN p ON c.p = p.k").fetchall(), [(1, 3)])

    def asked(self, *words: str) -> tuple[list[str], str]:
        """The statements of the world that asks something else of the packed rows, and what is said."""
        status, out, err = tool(package, "--world", *words, self.package)
        self.assertEqual(status, 0, err)
        script = json.loads(out)["files"]["main"]
        return [json.loads(f'"{text}"') for text in re.findall(r'(?m)^sql q "(.*)"$', script)], err

    def test_asked(self) -> None:
        """What people write is put into the dialect: over the carried rows it gives what SQLite gives for it
        over the rows as they were read."""
        bases = []
        for words, name in each_of(([], "read.db"), (["--raw"], "carried.db")):
            path = os.path.join(self.folder, name)
            self.assertEqual(tool(package, "--sqlite", path, *words, self.package)[0], 0)
            bases.append(sqlite3.connect(path))
            self.addCleanup(bases[-1].close)
        bases[0].execute('ALTER TABLE t RENAME COLUMN "Cost (€)" TO cost')
        for text in ("SELECT id FROM t WHERE cost BETWEEN 12.5 AND 2000.75 ORDER BY id",
                     "SELECT id FROM t WHERE kilo IN (0.5, 1.5) ORDER BY id",
                     'SELECT "id" number FROM t WHERE "n" == 4', "SELECT id FROM t WHERE kilo > 0.4999",
                     "SELECT id FROM t WHERE cost NOT BETWEEN 12.51 AND 1890.745"):
            (asked,), err = self.asked("--ask", text)
            self.assertNotEqual(asked, text)
            self.assertIn(f"package.py: note: --ask 1 is asked as: {asked}\n", err)
            self.assertNotIn("warning", err)
            self.assertEqual(bases[1].execute(asked).fetchall(), bases[0].execute(text).fetchall(), text)
        both, err = self.asked("--ask", "SELECT id FROM t", "--ask", "SELECT AVG(n) AS mean FROM t")
        self.assertEqual(both, ["SELECT id FROM t",
                                 "SELECT SUM(n) AS mean_sum, COUNT(n) AS mean_count FROM t"])
        self.assertIn("note: --ask 2: AVG(n) is two columns, SUM(n) and COUNT(n)", err)
        # What a number and a date mean is said, and with --as-read both are as they were read.
        text = "SELECT id FROM t WHERE cost > 20 AND day > '1.8.2024'"
        (asked,), err = self.asked("--ask", text)
        self.assertEqual(asked, text)
        self.assertIn("so 20 means 0.20", err)
        self.assertIn("warning: --ask 1: ", err)
        (asked,), err = self.asked("--as-read", "--ask", text)
        self.assertEqual(asked, "SELECT id FROM t WHERE cost > 2000 AND day > '2024-08-01'")
        (asked,), err = self.asked("--as-written", "--ask", "SELECT id FROM t WHERE n BETWEEN 1 AND 2")
        self.assertIn("will be refused with code 1", err)
        self.assertEqual(tool(package, "--world", "--as-read", self.package)[0], 2)

    def test_diff(self) -> None:
        changed = [[1, "2024-07-27", 320, 500, 3], *ROWS[1:]]
        other = self.put("v.package", packed(changed, script=SCRIPT))
        status, out, err = tool(diff, self.package, other)
        self.assertEqual((status, err), (1, ""))
        self.assertEqual(out.decode(), "table t: 3 packed rows, and 3\n"
                         "  - row 0: 1 | 27.7.2024 | 1890,75 | 0.500 | 3\n"
                         "  + row 0: 1 | 27.7.2024 | 3,20 | 0.500 | 3\n")
        self.assertIn(b"- row 0: 1 | 2024-07-27 | 189075 | 500 | 3\n", tool(diff, "--raw", self.package,
                                                                            other)[1])
        later = self.put("later", OUTCOME.replace("190325", "1570"))
        words = ["--world", self.world, self.outcome, later]
        self.assertEqual(tool(diff, *words)[1].decode(), "process 0 reply 1 (SELECT SUM(cost) AS s, COUNT(*) "
                         "AS n FROM t): 1 row, and 1 row\n  - 1903,25 | 3\n  + 15,70 | 3\n")
        self.assertIn(b"- 190325 | 3\n", tool(diff, "--raw", *words)[1])

    def test_diff_scales(self) -> None:
        """A number that is carried alike and means another one isn't the same."""
        known = KNOWN._replace(columns=(ID, DAY, COST._replace(scale=1), KILO, ID._replace(name="n")))
        out = tool(diff, self.package, self.put("v", packed(ROWS, known, SCRIPT)))[1].decode()
        self.assertIn("- row 1: 2 | 3.12.2024 | 12,50 | NULL | 4\n", out)
        self.assertIn("+ row 1: 2 | 3.12.2024 | 125,0 | NULL | 4\n", out)

    def test_join(self) -> None:
        changed = self.put("v.package", packed([[1, "2024-07-27", 320, 500, 3], *ROWS[1:]], script=SCRIPT))
        err = tool(join, self.package, changed)[2]
        self.assertIn(f"column cost: 1890,75 in {self.package}, 3,20 in {changed}\n", err)
        self.assertIn("column cost: 189075 in ", tool(join, "--raw", self.package, changed)[2])
        known = KNOWN._replace(source=Source("x.csv", "cd" * 32), columns=(
            ID, DAY, COST._replace(scale=1), KILO, ID._replace(name="n", source="N")))
        err = tool(join, self.package, self.put("v", packed(ROWS, known, SCRIPT)))[2]
        self.assertIn("clash: file ldv-columns/t.json\n", err)
        self.assertIn("the table t was read from t.csv in ", err)
        self.assertIn("from x.csv (SHA-256 cdcdcdcdcdcdcdcd..) in ", err)
        self.assertIn("column cost: scale 2 in ", err)

    def test_check(self) -> None:
        """Of a world document it is said what constants mean, as world.py says it."""
        made = json.loads(read(self.world))
        made["files"]["main"] = ('sql q "SELECT id FROM t WHERE cost > 20"\n'
                                 'sql q "SELECT id FROM t WHERE day < \'1.12.2024\'"\n')
        path = self.put("c.json", json.dumps(made))
        status, out, err = tool(check, path)
        self.assertEqual(status, 1)
        self.assertIn("main line 1: cost is carried times 100, so 20 means 0.20; 20 itself is written 2000",
                      err)
        self.assertIn(b"main line 2: day has texts such as 2019-01-31: '1.12.2024' is written '2024-12-01'",
                      out)
        self.assertEqual(tool(check, "--raw", path)[:2], (0, b""))


class Worlds(InFolder):
    def test_there_and_back(self) -> None:
        """What world.py makes of a file is given back as it was read, by a package of all of its rows."""
        content = ("id;day;at;cost;seen\n1;1.2.2024;9:05;1890,75;yes\n2;27.11.2024;14:30;-0,05;\n"
                   "3;;23:59;;no\n")
        path = self.put("t.csv", content)
        status, out, err = tool(world, "--csv", path, "--delimiter", ";", "--key", "t=id", "--date",
                                "t.day=dmy", "--date", "t.at=time", "--decimal", ",", "--scale", "t.cost=2",
                                "--ask", "SELECT * FROM t")
        self.assertEqual(status, 0, err)
        made = json.loads(out)
        table = made["tables"]["t"]
        columns = [encoder.column(name, kind) for name, kind in table["columns"]]
        tables = [encoder.table("t", columns, [0], 3, [encoder.row(place, *row) for place, row in
                                                        enumerate(table["rows"])])]
        files = [encoder.file(name, text) for name, text in sorted(made["files"].items())]
        trace = [encoder.started(), encoder.asked(0), encoder.ended(2)]
        data = encoder.encode(encoder.package(steps=2, files=files, tables=tables, trace=trace))
        folder = os.path.join(self.folder, "c")
        self.assertEqual(tool(package, "--csv", folder, given=data), (0, b"", ""))
        back = list(csv.reader(io.StringIO(read(f"{folder}/t.csv").decode())))
        self.assertEqual(back, list(csv.reader(io.StringIO(content), delimiter=";")))
