"""What the tools say of an input that is wrong: what it is and what is due, in no word of Python."""
from __future__ import annotations

import gzip
import json
import os
import re
import sqlite3
from typing import Any

from cases import encoder
from ldvtools import (
    bundle,
    capture,
    check,
    diff,
    join,
    orders,
    outcome,
    package,
    page,
    picture,
    playback,
    prov,
    world,
)

from .support import EXAMPLES, InFolder, each_of, read, tool
from .test_page import orders as orders_package

PYTHON = re.compile(r"Traceback|\w+Error\b|\bcodec\b|NoneType|object has no|not subscriptable|to unpack|"
                    r"\bb['\"]|<class|\bindices\b|argument of type|unhashable|positional argument|"
                    r"\bExpecting\b|__\w+__|\bint\(\)|literal for")
COMMANDS: dict[Any, list[str]] = {
    bundle: ["-o", "x"], check: [], diff: ["a", "b"], join: ["a", "b"], orders: ["a"], outcome: [],
    package: [], page: [], picture: [], prov: [], world: []}


class Messages(InFolder):
    def setUp(self) -> None:
        super().setUp()
        self.world, self.outcome = f"{EXAMPLES}/hello.json", f"{EXAMPLES}/hello.outcome"
        self.package = self.put("x.package", orders_package())

    def said(self, due: str, module: Any, *words: str, given: bytes = b"", status: int = 1) -> str:
        """A call that is refused with a line that says this, and nothing of Python."""
        got, out, err = tool(module, *words, given=given)
        self.assertEqual((got, out), (status, b""), (words, err))
        self.assertIn(due, err)
        self.assertIsNone(PYTHON.search(err), err)
        return err

    def test_shapes(self) -> None:
        """A document of JSON that is no world: where, and what is due there."""
        begin = '{"start":["m"],"files":{"m":""},"tables":{"t":{"columns":[["a","INT"]],'
        for text, due in (
                ("null", "the document is null, and an object is due"),
                ('{"start":["m"],"files":[]}', "files is an array, and an object is due"),
                ('{"start":null,"files":{}}', "start is null, and an array is due"),
                ('{"start":["m"],"files":{"m":""},"tables":[]}', "tables is an array, and an object is due"),
                ('{"start":["m"],"files":{"m":5}}', 'the file "m" is the number 5, and a text or {"hex": ..} '
                                                    "is due"),
                ('{"start":["m"],"files":{"m":""},"tables":{"t":{"columns":[["a"]]}}}',
                 'column 0 of the table "t", counted from 0, has 1 part, and a name and a kind are due'),
                (begin + '"rows":[[1.5]]}}}', "column a, is the number 1.5, which is not whole"),
                (begin + '"rows":[[1,2]]}}}', 'row 0 of the table "t" has 2 cells, and the table has 1 '
                                              "column"),
                (begin + '"key":["z"]}}}', 'the key of t names "z", which is no column'),
                ("[" * 5000, "line 1 column 128: more than 127 arrays and objects in one another"),
                ("9" * 5000, "is beyond the largest float"),
                ("NaN", "line 1 column 1: NaN is no number of JSON"),
                ('{"start":["NaN","\\""],\n"seed":-Infinity}',
                 "line 2 column 8: -Infinity is no number of JSON"),
                ('{"start":["m"],"files":{"m":"\\ud800"}}', "files.m has half a surrogate pair"),
                ("\ufeff{}", "it begins with a byte order mark: save it without one"),
                ('{"start":["m"', "line 1 column 14: a comma or a bracket is due")):
            self.said(due, check, given=text.encode())
        self.said("w.json: no world document: shape: the document is null, and an object is due", outcome,
                  "--world", self.put("w.json", "null"), self.outcome)

    def test_other_kinds(self) -> None:
        """A file of another kind is called what it is, by the name of that file."""
        joined = self.put("both.joined", b"LDVJOIN1" + bytes(40))
        packed = self.put("world.gz", gzip.compress(read(self.world)))
        for module, words, due in (
                (check, [self.package], "no world: not json: it is a package"),
                (check, [packed], "it is compressed by gzip: unpack it first"),
                (outcome, ["--world", self.package, self.outcome],
                 "x.package: no world document: not json: it is a package"),
                (outcome, ["--package", self.world, self.outcome], "hello.json: no package: "),
                (outcome, ["--package", self.world, self.outcome], "it is a world document"),
                (package, [self.world], "it is a world document"),
                (package, [self.outcome], "it is an outcome"),
                (package, [packed], "it is compressed by gzip: unpack it first"),
                (page, [self.world], "it is a world document"),
                (page, [joined], "no package: "), (prov, [self.package], "it is a package")):
            self.said(due, module, *words)
        changed = self.put("crlf", read(self.outcome).replace(b"\n", b"\r\n"))
        self.said("its lines end with CR and LF", outcome, changed)
        bad = bytearray(read(self.package))
        bad[60] ^= 1
        self.said("its digest is another one: bytes were lost or changed on the way", package,
                  self.put("bad", bytes(bad)))

    def test_programs(self) -> None:
        """A program that isn't ldv, and a script that is a program in another language."""
        self.said("/bin/true replay wrote no outcome: it isn't the program ldv", page, "--ldv", "/bin/true",
                  self.package)
        self.said("/bin/false replay ends with 1 and says nothing", page, "--ldv", "/bin/false", self.package)
        self.said("/no/such/ldv: No such file or directory", page, "--ldv", "/no/such/ldv", self.package)
        table = self.put("t.csv", "a,b\n1,2\n")
        for name, text, due in (
                ("analysis.py", 'import sqlite3\nprint("a" + "b")\n',
                 "it looks like a program in Python, and a script is in a language of its own "
                 "(docs/SCRIPTS.md): tools/capture.py makes a world of what a Python program asks"),
                ("old", "#!/usr/bin/env python3\nx = 1\n", "a program in Python"),
                ("a.R", "library(DBI)\n", "a program in R, and a script is in a language of its own "
                                          "(docs/SCRIPTS.md)\n"),
                ("q.sql", "SELECT a FROM t;\n", "tools/world.py --sql takes statements")):
            words = ["--csv", table, "--script", self.put(name, text)]
            status, _, err = tool(world, *words)
            self.assertEqual(status, 0)
            self.assertIn(due, err)
            self.assertIsNone(PYTHON.search(err), err)
            self.said(due.strip(), world, "--strict", *words)
        made = tool(world, "--csv", table, "--script", self.put("m.ldv", "prin 1\n"))[2]
        self.assertNotIn("looks like", made)

    def test_tables(self) -> None:
        """Files that world.py can't read."""
        wide = self.put("wide.csv", "a,b\n1,2\n".encode("utf-16-le"))
        self.said("looks like UTF-16 without a byte order mark; give --encoding utf-16-le", world, "--csv",
                  wide, "--ask", "SELECT a FROM wide")
        empty, dropped = self.put("empty.db", b""), os.path.join(self.folder, "dropped.db")
        base = sqlite3.connect(dropped)
        base.executescript("CREATE TABLE t (a); DROP TABLE t; VACUUM;")
        base.close()
        for path in (empty, dropped):
            for words in each_of(["--ask", "SELECT 1 FROM t"], ["--look"], []):
                status = 1 if words else 2
                due = "has no table: it is an empty database" if words else "give a start script"
                self.said(due, world, "--sqlite", path, *words, status=status)

    def test_traces(self) -> None:
        """Of two traces that differ only in what a statement needed it is said in what."""
        def made(row: Any) -> bytes:
            needs = [encoder.group("t", encoder.read(row))]
            trace = [encoder.started(), encoder.asked(0, tables=["t"], reads=needs), encoder.ended(2)]
            rows = [encoder.row(number, number) for number in range(2)]
            tables = [encoder.table("t", [encoder.column("k")], rows=rows)]
            return encoder.encode(encoder.package(steps=2, tables=tables, trace=trace))

        status, out, err = tool(diff, self.put("1", made(0)), self.put("2", made(1)))
        self.assertEqual((status, err.count("nothing says")), (1, err.count("\n")))
        lines = out.decode().split("\n")
        place = lines.index("the traces differ: 3 events, and 3; first at event 1, counted from 0")
        self.assertEqual(lines[place + 1:place + 4], [
            "  - 1 0 asked 0 tables 1 reads 1 made 0", "  + 1 0 asked 0 tables 1 reads 1 made 0",
            "    first in: t 0 version 0 rule L, and t 1 version 0 rule L"])

    def test_words(self) -> None:
        """Wrong words are one line, which names the word, and where there is more."""
        for module, words in COMMANDS.items():
            err = self.said("--nonsense", module, *words, "--nonsense", status=2)
            self.assertRegex(err, r"^\w+\.py: .*\(\w+\.py --help says more\)\n$")
        for module, words, due in (
                (check, ["--outcome"], "argument --outcome: expected one argument"),
                (capture, ["--sqlite"], "argument --sqlite: expected one argument"),
                (playback, ["--ldv"], "argument --ldv: expected one argument"),
                (package, ["--run", "3", "x"], "--run"),
                (orders, ["--ldv", "x", "--seeds", "0", "x"], "'0' is no number of seeds")):
            err = self.said(due, module, *words, status=2)
            self.assertEqual(err.count("\n"), 1)

    def test_columns(self) -> None:
        """A file of columns that is none, in each tool that reads it."""
        made = {"start": ["m"], "files": {"m": "", "ldv-columns/t.json": '{"table":"t","columns":5}'},
                "tables": {"t": {"columns": [["a", "INT"]]}}}
        path = self.put("w.json", json.dumps(made))
        text = "outcome 1 0\nprocess 0 0 0 0\n\n"
        for module, words in ((check, [path]), (outcome, ["--world", path, self.put("o", text)])):
            err = tool(module, *words)[2]
            self.assertIn("doesn't say what columns are (columns isn't an array), and isn't used", err)
            self.assertIsNone(PYTHON.search(err), err)
