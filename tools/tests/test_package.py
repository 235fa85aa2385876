"""package.py, over packages that encoder.py spells and over those of the cases."""
from __future__ import annotations

import hashlib
import json
import os
import sqlite3
from typing import Any

from cases import encoder, join_cases, package_cases, packages_joined
from ldvtools import package, page_data
from ldvtools.errors import Malformed
from ldvtools.packages import Joined, read_any, read_package
from ldvtools.trace import graph_of

from . import version2
from .support import ROOT, InFolder, each_of, read, tool
from .test_check import cases

NOTE = ("package.py: note: nothing says what the columns are where they were read: numbers are shown as they "
        "are carried\n")


class Packages(InFolder):
    """tools/package.py, over packages that encoder.py spells."""

    def setUp(self) -> None:
        super().setUp()
        columns = [encoder.column("k", "INT NOT NULL"), encoder.column("g", "TEXT"), encoder.column("v")]
        rows = [encoder.row(0, 1, 'a "x", y', None), encoder.row(2, 3, "", -5, statement=1, rule="K")]
        tables = [encoder.table("t", columns, key=[0], next=5, rows=rows)]
        files = [encoder.file("main", ""), encoder.file("seen")]
        trace = [encoder.started(), encoder.asked(0), encoder.asked(1), encoder.ended()]
        self.path = self.put("t.package",
                             encoder.encode(encoder.package(tables=tables, files=files, trace=trace)))

    def test_summary(self) -> None:
        self.assertEqual(tool(package, given=read(self.path)),
                         (0, b"""included, start main, seed 0, 1 step, 4 events
file main: 0 bytes
file seen: present
table t (k INT NOT NULL, g TEXT, v INT, key k): 2 rows, next row 5
""", ""))

    def test_csv(self) -> None:
        folder = os.path.join(self.folder, "tables")
        self.assertEqual(tool(package, "--csv", folder, self.path), (0, b"", NOTE))
        self.assertEqual(read(f"{folder}/t.csv"), b'k,g,v\r\n1,"a ""x"", y",\r\n3,"",-5\r\n')
        self.assertEqual(tool(package, "--csv", folder, "--reasons", "--raw", self.path), (0, b"", ""))
        self.assertEqual(read(f"{folder}/t.csv"),
                         b'ldv_row,ldv_statement,ldv_rule,k,g,v\r\n0,0,L,1,"a ""x"", y",\r\n'
                                                  b'2,1,K,3,"",-5\r\n')

    def test_sqlite(self) -> None:
        path = os.path.join(self.folder, "t.db")
        self.assertEqual(tool(package, "--sqlite", path, self.path), (0, b"", NOTE))
        base = sqlite3.connect(path)
        self.assertEqual(base.execute("SELECT * FROM t ORDER BY k").fetchall(),
                         [(1, 'a "x", y', None), (3, "", -5)])
        with self.assertRaises(sqlite3.IntegrityError):
            base.execute("INSERT INTO t VALUES (3, 'b', 1)")
        base.close()
        self.assertEqual(tool(package, "--sqlite", path, self.path),
                         (1, b"", NOTE + f"package.py: {path} is there already\n"))

    def test_no_rows(self) -> None:
        """Recorded replies make no tables, and nothing is written."""
        data = encoder.encode(encoder.package(mode=2))
        for word in ("--csv", "--sqlite"):
            path = os.path.join(self.folder, "new")
            self.assertEqual(tool(package, word, path, given=data),
                             (1, b"", "package.py: it has recorded replies and no rows, so that it makes no "
                                      "table\n"))
            self.assertFalse(os.path.exists(path))

    def test_sizes(self) -> None:
        """Of the row 0: number, statement and rule have 9 bytes, the values 9, 5 + 8 and 1;
        of row 2: 9, 9, 5 and 9.

        An event has 9 bytes and its fields: a path of 8, twice 10 of a statement without lists, a status.
        """
        shown = tool(package, "--sizes", self.path)
        self.assertIn(b"trace                  69\n", shown[1])
        self.assertIn(b"rows, trace, logs     137\n", shown[1])

    def test_names(self) -> None:
        """A table whose name leads out of the folder, or out of a statement, is refused."""
        for table, name in (("../t", "k"), ("t", 'k" INT); --'), ("", "k"), ("T", "k"), ("t", "k" * 64)):
            trace = [encoder.started(), encoder.ended()]
            bytes_of = encoder.encode(encoder.package(
                tables=[encoder.table(table, [encoder.column(name)], next=0)], trace=trace))
            for words in (["--csv", os.path.join(self.folder, "tables")],
                          ["--sqlite", os.path.join(self.folder, "t.db")]):
                status, out, err = tool(package, *words, given=bytes_of)
                self.assertEqual(status, 1)
                self.assertIn("is no name", err)
                self.assertEqual(os.listdir(self.folder), ["t.package"])

    def test_reserved_names(self) -> None:
        """A name that SQLite keeps for itself is refused, and no file is left."""
        trace = [encoder.started(), encoder.ended()]
        for names in (["sqlite_t"], ["a", "sqlite_t"]):
            tables = [encoder.table(name, [encoder.column("k")], next=0) for name in names]
            status, _, err = tool(package, "--raw", "--sqlite", os.path.join(self.folder, "t.db"),
                                  given=encoder.encode(encoder.package(tables=tables, trace=trace)))
            self.assertEqual((status, err),
                             (1, "package.py: object name reserved for internal use: sqlite_t\n"))
            self.assertEqual(os.listdir(self.folder), ["t.package"])

    def test_stored_cases(self) -> None:
        """The stored cases are what package_cases.py writes."""
        self.assertIsNone(package_cases.main(["--check"]))

    def test_damaged(self) -> None:
        bytes_of = read(self.path)
        for given, said in ((bytes_of[:-1], "its digest"), (b"x" + bytes_of, "LDVPACK1"), (b"", "LDVPACK1")):
            status, out, err = tool(package, given=given)
            self.assertEqual((status, out), (1, b""))
            self.assertIn(said, err)

    def test_cases(self) -> None:
        """Each package that the program reads is read, of whatever version, and spelled again to the same
        bytes, where its trace isn't too long to be listed."""
        versions = set()
        for words, data, status, output, _ in cases():
            for each in ([data] if words[:1] in (["replay"], ["inspect"],
                                                 ["table"]) and status in (0, 7, 9, 10) else []) + (
                    [output] if words[:1] == ["record"] and status == 0 else []):
                if each[:8] == b"LDVJOIN1":
                    continue
                found = read_package(each)
                versions.add(found.version)
                if found.event_count() > 100_000:
                    continue
                found.process_names()
                again = read_package(version2.spelled(found))
                self.assertEqual(list(again.events), list(found.events))
                self.assertEqual((again.files, again.tables, again.logs),
                                 (found.files, found.tables, found.logs))
                if found.version == 2:
                    self.assertEqual(version2.spelled(found), each)
        self.assertTrue(versions)

    def test_rows_report(self) -> None:
        """The rows of each package are those that `inspect rows` of the cases names."""
        count = 0
        for words, data, status, output, _ in cases():
            if words == ["inspect", "rows"] and status == 0:
                lines = "".join(f"{table.name} {row.number} {row.statement} {row.rule}\n"
                                for table in read_package(data).tables for row in table.rows)
                self.assertEqual(lines.encode(), output)
                count += 1
        self.assertGreater(count, 10)

    def test_depends(self) -> None:
        """What a path came from is what `inspect depends` of the cases says."""
        count = 0
        for words, data, status, output, _ in cases():
            if words[:2] == ["inspect", "depends"] and len(words) == 3 and status in (0, 10):
                lines = graph_of(read_package(data)).depends(words[2])
                self.assertEqual(lines is None, status == 10, words)
                self.assertEqual("".join(line + "\n" for line in lines or []).encode(), output, words)
                count += 1
        self.assertGreater(count, 20)

    def test_runs(self) -> None:
        """A run of equal events stands for all of them; what can't be one is refused."""
        event = "00000001 00000000 08 00000001 66"
        body = ("4c44565041434b32 01 0001 000000046d61696e 0000000000000000 00000063 00000001 "
                "000000046d61696e 01 00000000"
                "0000 00000000 00000002 00000000 00000000 00 000000046d61696e 00000001 00000000" + event)
        for count, stride, said in (("00000003", "00000002", None), ("00000000", "00000000", "a run of 0"),
                                    ("00000001", "00000001", "a run of 1"),
                                    ("01312d01", "00000001", "20000002 events")):
            data = bytes.fromhex(body + count + stride)
            data += hashlib.sha256(data).digest()
            if said:
                with self.assertRaisesRegex(Malformed, said):
                    read_package(data)
            else:
                self.assertEqual([each.step for each in read_package(data).events], [0, 1, 3, 5])
                self.assertIn(b"99 steps, 4 events", tool(package, given=data)[1])

    def test_many_events(self) -> None:
        """A few bytes that stand for twenty million events, or for too many processes, take no time."""
        head = ("4c44565041434b32 01 0001 000000046d61696e 0000000000000000 00989680 00000001 "
                "000000046d61696e 01 00000000"
                "0000 00000000 00000002 00000000 00000000 00 000000046d61696e 00000001 00000000")
        for act, said in (("08", None), ("01", "20000001 processes; the limit is 65535")):
            data = bytes.fromhex(head + "00000001 00000000" + act + "00000001 66" + "01312d00" + "00000000")
            found = read_package(data + hashlib.sha256(data).digest())
            self.assertEqual(found.event_count(), 20_000_001)
            if said:
                with self.assertRaisesRegex(Malformed, said):
                    found.process_names()
            else:
                self.assertEqual(found.process_names(), ["0"])
                self.assertLess(len(json.dumps(page_data.page_json(found, "p", len(data), None, None))),
                                20_000)

    def test_joined(self) -> None:
        """A joined package is shown with both of its runs, and each of them as a package."""
        first = read_package(read(self.path))
        second = first._replace(start=["main", "x"],
                                tables=[first.tables[0]._replace(rows=first.tables[0].rows[:1])])
        path = self.put("j", version2.joined(first, second))
        status, out, err = tool(package, path)
        self.assertEqual((status, err), (0, ""))
        self.assertIn(b"joined, 2 files, 1 table, 2 rows\nrun 1: included, start main, seed 0", out)
        self.assertEqual(tool(package, "--run", "1", path)[1], tool(package, self.path)[1])
        self.assertIn(b"1 row, next row 5", tool(package, "--run", "2", path)[1])
        self.assertIn("--run 1 or --run 2", tool(package, "--csv", self.folder, path)[2])
        self.assertIn("isn't a joined package", tool(package, "--run", "1", self.path)[2])
        self.assertIn(b"run 2", tool(package, "--sizes", path)[1])
        joined = read_any(read(path))
        assert isinstance(joined, Joined)
        self.assertEqual(joined.run(2).tables, second.tables)
        both = packages_joined.encode_joined(join_cases.BOTH)
        self.assertIn(b"run 1: table c (id INT NOT NULL, p INT, key id, (p) refers to p): 2 rows, next row 3",
                      tool(package, given=both)[1])
        self.assertIn(b"""p: 3 rows, 0 of them needed by both runs
  row | run 1 | run 2 | id
  ----+-------+-------+---
    0 | 0 P   | -     |  1
    1 | -     | 0 L   |  2
""", tool(package, "--rows", given=both)[1])

    def test_rows(self) -> None:
        """Each row with why it is there; of a joined package, for which of its runs."""
        self.assertEqual(tool(package, "--rows", "--raw", self.path), (0, b"""t: 2 rows
  row | why | k | g        | v
  ----+-----+---+----------+-----
    0 | 0 L | 1 | a "x", y | NULL
    2 | 1 K | 3 | ""       |   -5
""", ""))
        first = read_package(read(self.path))
        rows = [first.tables[0].rows[0]._replace(statement=1, rule="H")]
        path = self.put("j", version2.joined(first._replace(steps=9), first._replace(
            tables=[first.tables[0]._replace(rows=rows)])))
        said = tool(package, "--rows", "--raw", path)
        self.assertEqual(said, (0, b"""t: 2 rows, 1 of them needed by both runs
  row | run 1 | run 2 | k | g        | v
  ----+-------+-------+---+----------+-----
    0 | 0 L   | 1 H   | 1 | a "x", y | NULL
    2 | 1 K   | -     | 3 | ""       |   -5
""", ""))
        self.assertEqual(tool(package, "--rows", "--run", "2", path)[1].count(b"1 H"), 1)
        alone = first._replace(tables=[])
        self.assertIn(b"t: 2 rows, 0 of them needed by both runs",
                      tool(package, "--rows", self.put("a", version2.joined(alone, first)))[1])
        replies = encoder.encode(encoder.package(mode=2))
        self.assertIn("no table", tool(package, "--rows", given=replies)[2])

    def test_statement(self) -> None:
        """The rows that a statement needed, with the rule in words."""
        tables = [encoder.table("t", [encoder.column("k"), encoder.column("g", "TEXT")], next=5,
                                 rows=[encoder.row(0, 1, "a"), encoder.row(2, 3, "b", rule="H")])]
        trace = [encoder.started(), encoder.asked(0), encoder.asked(
            1, 3, tables=["t"],
            reads=[encoder.group("t", encoder.read(0), encoder.read(2, 1, "H"), encoder.read(9))],
            made=[encoder.group("t", encoder.made(2))]), encoder.ended(4)]
        data = encoder.encode(encoder.package(steps=4, tables=tables, trace=trace))
        self.assertEqual(tool(package, "--raw", "--statement", "1", given=data), (0, b"""\
statement 1: process 0 at step 3, tables t
it needed 3 rows of t:
  row | version | rule | k | g
  ----+---------+------+---+--
    0 |       0 | L    | 1 | a
    2 |       1 | H    | 3 | b
    9 |       0 | L
rule L: the row is in the lineage of a row of the reply, or was matched by an UPDATE or DELETE
rule H: the row is in the lineage of a group that HAVING rejected, or of a row that LIMIT cut \
where rows stand for several
it made 1 version of rows of t
""", ""))
        self.assertIn(b"it needed no row", tool(package, "--statement", "0", given=data)[1])
        self.assertEqual(tool(package, "--raw", "--statement", "2", given=data),
                         (1, b"", "package.py: there is no statement 2; the run asked 2, counted from 0\n"))

    def test_given_away(self) -> None:
        """A package of recorded replies has no row, and names each row that a statement needed, in 9 bytes.
        The documents say so where they say what it has, with a way around."""
        def spelled(*rows: Any) -> bytes:
            asked = encoder.asked(0, tables=["t"], reads=[encoder.group("t", *rows)])
            trace = [encoder.started(), asked, encoder.ended()]
            log = encoder.log([0], encoder.entry())
            return encoder.encode(encoder.package(mode=2, logs=[log], trace=trace))
        one, two = spelled(encoder.read(7)), spelled(encoder.read(7), encoder.read(12, 1, "H"))
        self.assertEqual(len(two) - len(one), 9)
        self.assertEqual(read_package(two).tables, [])
        out = tool(package, "--statement", "0", given=two)[1].decode()
        self.assertIn("    7 |       0 | L\n   12 |       1 | H\n", out)
        for name, said in (("README.md", "9 bytes for each row that a statement needed"),
                           ("examples/README.md", "its trace names the numbers of the rows that each"),
                           ("SECURITY.md", "**and the numbers of the rows that each statement needed**"),
                           ("docs/TUTORIAL.md", "Its trace names the numbers of the rows that each"),
                           ("docs/ldv.1", "names the numbers of the rows that each statement needed")):
            text = " ".join(read(os.path.join(ROOT, name)).decode().split())
            self.assertIn(said, text, name)
            if not name.endswith(".1"):
                self.assertIn("--shuffle", text, name)

    def test_byte(self) -> None:
        """What stands at a byte that another package has otherwise, section by section."""
        def spelled(rule: str = "L", value: str = "b", read: int = 0, made: int = 2, version: int = 2,
                    **parts: Any) -> bytes:
            tables = [encoder.table("t", [encoder.column("k"), encoder.column("g", "TEXT")], next=5,
                                     rows=[encoder.row(0, 1, "a"), encoder.row(2, 3, value, rule=rule)])]
            trace = [encoder.started(), encoder.asked(0), encoder.asked(
                1, 3, tables=["t"], reads=[encoder.group("t", encoder.read(2, 0), encoder.read(3, read))],
                made=[encoder.group("t", encoder.made(made))]), encoder.ended(4)]
            given: dict[str, Any] = dict(
                version=version, steps=4, tables=tables, trace=trace,
                files=[encoder.file("main", "x"), encoder.file("seen")])
            return encoder.encode(encoder.package(**{**given, **parts}))

        def lines(data: bytes, at: Any) -> Any:
            status, out, err = tool(package, "--byte", str(at), given=data)
            self.assertEqual((status, err), (0, ""))
            first, *rest = out.decode().split("\n")[:-1]
            self.assertEqual(first, f"byte {at} of {len(data)}: {data[at]:02x}")
            return rest

        event = "event 2, counted from 0: 3 0 asked 1 tables 1 reads 2 made 1"
        for version in (1, 2):
            data = spelled(version=version)
            for change, said in each_of(
                    (dict(rule="H"), ["section tables", "table t", "row 2, statement 0, rule L: 3 | b"]),
                    (dict(value="c"), ["section tables", "table t", "row 2, statement 0, rule L: 3 | b"]),
                    (dict(read=1), ["section trace", event, "rows of t that it needed",
                                    "row 3, version 0, rule L"]),
                    (dict(made=3), ["section trace", event, "versions of rows of t that it made",
                                    "row 2, version 1"]),
                    (dict(seed=5), ["section seed, steps"]),
                    (dict(files=[encoder.file("main", "y"), encoder.file("seen")]),
                     ["section files", "file main"])):
                other = spelled(version=version, **change)
                at = next(place for place, pair in enumerate(zip(data, other)) if pair[0] != pair[1])
                self.assertEqual(lines(data, at), said)
            self.assertEqual(lines(data, 0), ["section magic, mode"])
            self.assertEqual(lines(data, len(data) - 33)[:1], ["section trace"])
            self.assertEqual(lines(data, len(data) - 32), ["the digest of all bytes before"])
        joined = version2.joined(read_package(spelled()), read_package(spelled(seed=7)))
        self.assertEqual(lines(joined, joined.index(b"seen")), ["section files", "file seen"])
        self.assertEqual(lines(joined, joined.index(b"main", len(joined) // 2))[0], "section run 2")
        # The name of the table among those of the run; behind it stand the number of reasons and the first.
        name = joined.index(b"\0\0\0\1t", joined.index(b"main", len(joined) // 2))
        self.assertEqual(lines(joined, name + 9), ["section run 2", "row 0 of t, statement 0, rule L"])
        self.assertEqual(lines(joined, name + 8), ["section run 2"])
        self.assertEqual(lines(joined, len(joined) - 33)[:2],
                         ["section run 2", "event 3, counted from 0: 4 0 ended 0"])
        for at in (-1, len(data)):
            self.assertEqual(tool(package, f"--byte={at}", given=data),
                             (1, b"", f"package.py: there is no byte {at}; the package has {len(data)}, "
                                      "counted "
                                      "from 0\n"))
        log = encoder.log([0], encoder.entry("SELECT 1", [1]))
        trace = [encoder.started(), encoder.asked(0), encoder.ended()]
        logged = encoder.encode(encoder.package(mode=2, logs=[log], trace=trace))
        self.assertEqual(lines(logged, logged.index(b"SELECT")),
                         ["section logs", "log of process 0", "statement SELECT 1"])

    def test_files(self) -> None:
        """Files go into a new folder, and none leads out of it."""
        files = [encoder.file("a/b", b"\xff"), encoder.file("main", "x"), encoder.file("seen")]
        data = encoder.encode(encoder.package(files=files))
        folder = os.path.join(self.folder, "new")
        status, out, err = tool(package, "--files", folder, given=data)
        self.assertEqual((status, err), (0, ""))
        self.assertIn(b"seen was only present", out)
        self.assertEqual((read(f"{folder}/a/b"), read(f"{folder}/main")), (b"\xff", b"x"))
        self.assertIn("isn't an empty folder", tool(package, "--files", folder, given=data)[2])
        self.assertEqual(tool(package, "--file", "a/b", given=data), (0, b"\xff", ""))
        self.assertIn("there are a/b, main", tool(package, "--file", "seen", given=data)[2])
        for path in ("../x", "/x", "a/../../x", "a//x", ".", "a/"):
            data = encoder.encode(encoder.package(files=[encoder.file(path, "x")], start=[path]))
            status, _, err = tool(package, "--files", os.path.join(self.folder, "other"), given=data)
            self.assertEqual(status, 1)
            self.assertIn("leads out of a folder", err)
        self.assertFalse(os.path.exists(os.path.join(self.folder, "other")))
        data = encoder.encode(encoder.package(files=[encoder.file("a", "x"), encoder.file("a/b", "x")],
                                                start=["a"]))
        self.assertIn("needs a folder",
                      tool(package, "--files", os.path.join(self.folder, "third"), given=data)[2])

    def test_world(self) -> None:
        """A world of the packed rows, as it was or with another question."""
        status, out, err = tool(package, "--world", self.path)
        self.assertEqual((status, err), (0, "package.py: note: t: its rows get the numbers 0 to 1\n"))
        made = json.loads(out)
        self.assertEqual(made["start"], ["main"])
        self.assertEqual(made["files"], {"main": "", "seen": ""})
        self.assertEqual(made["tables"],
                         {"t": {"columns": [["k", "INT NOT NULL"], ["g", "TEXT"], ["v", "INT"]], "key": ["k"],
                                                "rows": [[1, 'a "x", y', None], [3, "", -5]], "next": 5}})
        status, out, err = tool(package, "--world", "--ask", "SELECT k FROM t", self.path)
        self.assertEqual(json.loads(out)["files"], {"main": 'sql q "SELECT k FROM t"\n'})
        self.assertEqual((status, err), (0, "package.py: note: t: its rows get the numbers 0 to 1\n"
                                            "package.py: note: counts and sums are over these packed rows "
                                            "alone\n"))
        data = encoder.encode(encoder.package(mode=2))
        self.assertIn("so that it makes no world", tool(package, "--world", given=data)[2])
        self.assertEqual(tool(package, "--ask", "x")[0], 2)

    def test_asked(self) -> None:
        """What is asked of the packed rows is looked at as in a world of one's own."""
        for text, said in (("SELECT AVG(k) FROM t",
                            "will be refused with code 1: '(' can't be read, where FROM is due; ask "
                            "SUM(x) and COUNT(x)"),
                           ("SELECT k FROM u", "will be refused with code 2: there is no table u"),
                           ("SELECT h FROM t", "will be refused with code 3: there is no column h"),
                           ("SELECT k FROM t WHERE g = 1", "will be refused with code 4")):
            status, out, err = tool(package, "--world", "--as-written", "--ask", text, self.path)
            self.assertEqual((status, json.loads(out)["start"]), (0, ["main"]))
            self.assertIn("package.py: warning: --ask 1: the statement " + said, err)
            self.assertIn(f"\n    {text}\n    ", err)
        status, out, err = tool(package, "--world", "--ask", "SELECT 1 FROM t LEFT JOIN t AS u ON 1 = 1",
                                self.path)
        self.assertEqual((status, out), (1, b""))
        self.assertIn("this is an inner join", err)
