"""What the tools advise, followed: the words that a message says are typed in a shell, after those that were
given, and what comes of them is what was meant."""
from __future__ import annotations

import json
import os
import re
import shlex
import sqlite3
import subprocess
import sys
from typing import Any, NamedTuple

from cases import encoder
from ldvtools import world
from ldvtools.packages import read_package

from . import version2
from .support import TOOLS, InFolder, match_in, tool
from .test_page import orders

FILES = {
    "t.csv": b"a,b\n1,2\n", "x/t.csv": b"a,b\n3,4\n", "blanks.csv": b"a,b\n1, x\n2, y\n",
    "empty.csv": b"a;b\n1;x\n;\n2;y\n", "gap.csv": b"a,b\n1,\n2,x\n",
    "quoted.csv": b'a,b\n1,"x" y\n2,z\n', "open.csv": b'a,b\n1,"x\n2,z\n',
    "old.csv": "a,b\n1,Müller\n".encode("cp1252"), "euro.csv": "a,b\n1,5 €\n2,6 €\n".encode("cp1252"),
    "upper.csv": b"Name,b\n1,2\n", "blank name.csv": b"my name,b\n1,2\n", "twice.csv": b"a,a\n1,2\n",
    "nameless.csv": b"a,\n1,2\n", "no key.csv": b"a,b\n1,2\n,3\n", "times.csv": b"a,b\n8:00,1\n10:30,2\n",
    "word.csv": b"a,b\n5,1\nn/a,2\n7,3\n", "dash.csv": b"a,b\n5,1\n-,2\n7,3\n",
    "comma.csv": b"a;b\n1,5;x\n2,25;y\n", "long.csv": b"a,b\n1.255,1\n5.5,2\n", "half.csv": b"a,b\n1.5,1\n",
    "zeros.csv": b"a,b\n0150,1\n0200,3\n", "parents.csv": b"k,n\n1,x\n", "tabs.csv": b'a\tb\n1\t"x\n2\ty\n'}
BASES = {
    "real.db": "CREATE TABLE t (a INT, b REAL); INSERT INTO t VALUES (1, 1.5), (2, 0.25);",
    "wide.db": "CREATE TABLE t (a INT, b REAL); INSERT INTO t VALUES (1, 1e300);",
    "child.db": "CREATE TABLE p (k INTEGER PRIMARY KEY); CREATE TABLE t (a INT REFERENCES p (k), b INT); "
                "INSERT INTO t VALUES (7, 1);",
    "blob.db": "CREATE TABLE t (a INT, b BLOB); INSERT INTO t VALUES (1, x'00ff');",
    "mixed.db": "CREATE TABLE t (a, b INT); INSERT INTO t VALUES (1, 2), ('x', 3);",
    "null.db": "CREATE TABLE t (a TEXT PRIMARY KEY, b INT); INSERT INTO t VALUES (NULL, 2), ('x', 3);"}


class Case(NamedTuple):
    """Words that were given; a pattern whose groups are the words that are said; the rows that come of both.
    `meant` stands for NAME in what is said, or after it. Words of `without` are left out then."""

    given: str
    said: str
    rows: list[list[Any]]
    meant: str = ""
    without: str = ""


CASES = [
    Case("--csv t.csv --csv x/t.csv", r"give --rename, or (--csv NAME=FILE)$", [[1, 2]], "u=x/t.csv",
         "--csv x/t.csv"),
    Case("--csv t=blanks.csv", r"; (--trim) reads cells without the blanks", [[1, "x"], [2, "y"]]),
    Case("--csv t=empty.csv --delimiter ';'", r"; (--skip-blank) leaves it out", [[1, "x"], [2, "y"]]),
    Case("--csv t=quoted.csv", r"(--quotes none) reads the file", [[1, '"x" y'], [2, "z"]]),
    Case("--csv t=open.csv", r"(--quotes none) reads the file", [[1, '"x'], [2, "z"]]),
    Case("--csv t=tabs.csv --delimiter tab", r"(--quotes none) reads the file", [[1, '"x'], [2, "y"]]),
    Case("--csv t=old.csv", r"give (--encoding), such as (cp1252) \(", [[1, "Müller"]]),
    Case("--csv t=euro.csv --encoding latin-1", r"which is € by (--encoding cp1252) \(",
         [[1, "5 €"], [2, "6 €"]], without="--encoding latin-1"),
    Case("--csv t=upper.csv", r"give (--lower) or", [[1, 2]]),
    Case("--csv t=upper.csv", r'or (--rename "t\.#1=NAME")$', [[1, 2]], "name"),
    Case("--csv 't=blank name.csv'", r'give (--rename "t\.#1=NAME")$', [[1, 2]], "my_name"),
    Case("--csv t=twice.csv", r'; (--rename "t\.#2=NAME") renames', [[1, 2]], "c"),
    Case("--csv t=nameless.csv", r'give (--rename "t\.#2=NAME")$', [[1, 2]], "c"),
    Case("--csv 't=no key.csv' --key t=a", r"; (--key t=none) makes a table without one", [[1, 2], [None, 3]],
         without="--key t=a"),
    Case("--csv t=times.csv", r"; (--date t\.a=time) carries", [["08:00", 1], ["10:30", 2]]),
    Case("--csv t=word.csv", r"; (--kind t\.a=INT --null \S+) carries", [[5, 1], [None, 2], [7, 3]]),
    Case("--csv t=dash.csv", r"; (--kind t\.a=INT --null \S+) carries", [[5, 1], [None, 2], [7, 3]]),
    Case("--csv t=word.csv --kind t.a=INT", r"stands for NULL: (--null \S+), or",
         [[5, 1], [None, 2], [7, 3]]),
    Case("--csv t=word.csv --kind t.a=INT", r"or (--null t\.a=\S+) for this column alone$",
         [[5, 1], [None, 2], [7, 3]]),
    Case("--csv t=comma.csv --delimiter ';' --thousands , --scale t.a=2",
         r"give (--decimal ,) in place of --thousands", [[150, "x"], [225, "y"]], without="--thousands ,"),
    Case("--csv t=comma.csv --delimiter ';'", r"; (--decimal t\.a=, --scale t\.a=2) carries",
         [[150, "x"], [225, "y"]]),
    Case("--csv t=comma.csv --delimiter ';' --scale t.a=2", r"; (--decimal t\.a=,) takes it",
         [[150, "x"], [225, "y"]]),
    Case("--csv t=long.csv --scale t.a=2", r"; (--round) rounds; ", [[126, 1], [550, 2]]),
    Case("--csv t=long.csv --scale t.a=2", r"; (--scale t\.a=3) takes it", [[1255, 1], [5500, 2]],
         without="--scale t.a=2"),
    Case("--csv t=half.csv --kind t.a=INT", r"; (--scale t\.a=1) takes it", [[15, 1]]),
    Case("--csv real.db", r"an SQLite database: give (--sqlite)$", [[1, 150], [2, 25]],
         " real.db --scale t.b=2", "--csv real.db"),
    Case("--sqlite real.db", r"; (--scale t\.b=2) carries all of them", [[1, 150], [2, 25]]),
    Case("--sqlite real.db", r"(--leave-out t\.b) leaves the column out", [[1], [2]]),
    Case("--sqlite wide.db", r"which no --scale carries: (--leave-out t\.b)$", [[1]]),
    Case("--sqlite child.db", r"; (--foreign t=none) takes no foreign key", [[7, 1]]),
    Case("--sqlite blob.db", r"; (--leave-out t\.b) leaves the column out", [[1]]),
    Case("--sqlite mixed.db", r"; (--kind t\.a=TEXT) carries the column as texts", [["1", 2], ["x", 3]]),
    Case("--sqlite null.db", r"; (--key t=none) makes a table without one", [[None, 2], ["x", 3]])]


class Followed(InFolder):
    def setUp(self) -> None:
        super().setUp()
        os.mkdir(os.path.join(self.folder, "x"))
        for name, content in FILES.items():
            self.put(name, content)
        for name, text in BASES.items():
            base = sqlite3.connect(os.path.join(self.folder, name))
            base.executescript(text)
            base.close()

    def shell(self, words: str) -> tuple[int, str, str]:
        """What a shell makes of words as they are typed."""
        done = subprocess.run(["sh", "-c", f"{sys.executable} {TOOLS}/world.py {words}"], cwd=self.folder,
                              capture_output=True, check=False)
        return done.returncode, done.stdout.decode(), done.stderr.decode()

    def said(self, given: Any) -> str:
        """What world.py says of words that were given."""
        return self.called(given, "SELECT * FROM t")[1]

    def called(self, given: Any, statement: str) -> tuple[int, str]:
        """The status of world.py and what it says."""
        before = os.getcwd()
        os.chdir(self.folder)
        try:
            status, _, err = tool(world, *shlex.split(given), "--ask", statement)
        finally:
            os.chdir(before)
        return status, err

    def test_words(self) -> None:
        """The words of each message."""
        for case in CASES:
            with self.subTest(case.given, said=case.said):
                err = self.said(case.given)
                found = match_in(f"(?m){case.said}", err)
                words = " ".join(found.groups())
                if case.meant:
                    words = re.sub("NAME=FILE|NAME|$", case.meant, words, count=1)
                given = case.given.replace(case.without, "").strip() if case.without else case.given
                status, out, err = self.shell(f"{given} {words} --ask 'SELECT * FROM t'")
                self.assertEqual(status, 0, err)
                self.assertEqual(json.loads(out)["tables"]["t"]["rows"], case.rows, words)

    def test_accept(self) -> None:
        """--strict says which text lets a note pass, and with it a world is made."""
        given = "--csv t=comma.csv --delimiter ';' --strict"
        err = self.said(given)
        option, note = match_in(r"(--accept) TEXT lets one pass\): (.*)\n", err).groups()
        status, out, err = self.shell(f"{given} {option} {shlex.quote(note)} --ask 'SELECT * FROM t'")
        self.assertEqual(status, 0, err)
        self.assertEqual(json.loads(out)["tables"]["t"]["rows"], [["1,5", "x"], ["2,25", "y"]])

    def test_kinds(self) -> None:
        """Of a column that is TEXT since a number in it is written in no plain way."""
        err = self.said("--csv t=zeros.csv")
        self.assertIn("--null, --kind or --scale say otherwise", err)
        status, out, err = self.shell("--csv t=zeros.csv --kind t.a=INT --ask 'SELECT * FROM t'")
        self.assertEqual((status, json.loads(out)["tables"]["t"]["rows"]), (0, [[150, 1], [200, 3]]), err)

    def test_parents(self) -> None:
        """Of a column that refers to one of another kind, or with other decimals."""
        begin, end = "--csv parents.csv --csv t.csv", "--key parents=k --foreign t.a=parents"
        for words, said, rows in (
                ("--kind t.a=TEXT", r"; (--kind parents\.k=TEXT) gives both one kind", [["1", 2]]),
                ("--kind parents.k=TEXT", r"; (--kind t\.a=TEXT) gives both one kind", [["1", 2]]),
                ("--scale t.a=2", r"; (--scale parents\.k=2) gives both the same", [[100, 2]]),
                ("--scale parents.k=1", r"; (--scale t\.a=1) gives both the same", [[10, 2]])):
            given = f"{begin} {words} {end}"
            found = match_in(said, self.said(given))
            status, out, err = self.shell(f"{given} {found[1]} --ask 'SELECT * FROM t'")
            self.assertEqual(status, 0, err)
            self.assertEqual(json.loads(out)["tables"]["t"]["rows"], rows)

    def test_statements(self) -> None:
        """What is to be written in a statement, in place of what stands there."""
        for given, text, said, mended in (
                ("--csv t=gap.csv", "SELECT a FROM t WHERE b = ''",
                 r"; write (b IS NULL)", "SELECT a FROM t WHERE b IS NULL"),
                ("--csv t=times.csv --date t.a=time", "SELECT b FROM t WHERE a < '9:00'",
                 r"'9:00' is written ('09:00')", "SELECT b FROM t WHERE a < '09:00'"),
                ("--csv t=half.csv --scale t.a=1", "SELECT b FROM t WHERE a > 1",
                 r"1 itself is written (10)", "SELECT b FROM t WHERE a > 10")):
            with self.subTest(text):
                status, err = self.called(given, text)
                self.assertEqual(status, 0, err)
                found = match_in(said, err)
                self.assertIsNotNone(found, err)
                self.assertIn(found[1], mended)
                status, err = self.called(given + " --strict", mended)
                self.assertEqual(status, 0, err)
                self.assertNotIn("warning", err)


class Others(InFolder):
    """What outcome.py, package.py and page.py advise."""

    def shell(self, line: str) -> tuple[int, bytes, str]:
        done = subprocess.run(["sh", "-c", f"{sys.executable} {TOOLS}/{line}"], cwd=self.folder,
                              capture_output=True, check=False)
        return done.returncode, done.stdout, done.stderr.decode()

    def followed(self, line: str, said: str, *places: str) -> bytes:
        """What is written where the words that are said of a line stand behind it."""
        err = self.shell(line)[2]
        found = match_in(said, err)
        words = found[1].replace(places[0], places[1]) if places else found[1]
        status, out, err = self.shell(f"{line} {words}")
        self.assertEqual(status, 0, err)
        return out

    def test_null(self) -> None:
        """A NULL that would be an empty line of CSV."""
        self.put("o", "outcome 1 0\nprocess 0 0 0 1\n\nrows 2\nrow 1\nnull\nrow 1\nint 5\n")
        out = self.followed("outcome.py --csv --reply 1 o", r"; (--null WORD) writes a word")
        self.assertEqual(out, b"1\nWORD\n5\n")

    def test_heads(self) -> None:
        """A head that is known only by the statement."""
        self.put("o", "outcome 1 0\nprocess 0 0 0 1\n\nrows 1\nrow 1\nint 1250\n")
        tables = {"t": {"columns": [["cost", "INT"]], "rows": [[1250]]}}
        files = {"m": 'sql q "SELECT cost FROM t"\n'}
        self.put("w.json", json.dumps({"start": ["m"], "files": files, "tables": tables}))
        out = self.followed("outcome.py --scale cost=2 --csv --reply 1 o",
                            r"; (--world) or --package gives names", "--world", "--world w.json")
        self.assertEqual(out, b"cost\n12.50\n")

    def test_runs(self) -> None:
        """A joined package, of which each run is named by what is said."""
        first = read_package(orders())
        self.put("both", version2.joined(first, first._replace(seed=7)))
        for number, seed in (("1", b"seed 0"), ("2", b"seed 7")):
            out = self.followed("package.py both --package", rf"(?:; |or )(--run {number}) ")
            self.assertIn(seed, self.shell_of(out))
            self.followed(f"page.py both -o page{number}.html", rf"(?:; |or )(--run {number}) ")

    def shell_of(self, data: bytes) -> bytes:
        """What package.py says of a package."""
        self.put("p", data)
        return self.shell("package.py p")[1]

    def test_path(self) -> None:
        """A file whose path leads out of a folder, and would be several words of a shell."""
        path = "../it's \"mine\" $HOME"
        self.put("p", encoder.encode(encoder.package(files=[encoder.file(path, "content")], start=[path])))
        err = self.shell("package.py --files new p")[2]
        words = match_in(r"; (--file .*) writes it", err)[1]
        self.assertEqual(self.shell(f"package.py {words} p"), (0, b"content", ""))
