"""The classes for notebooks, and the program through them. What is expected was worked out by hand, or comes
from sqlite3."""
from __future__ import annotations

import html.parser
import importlib
import json
import os
import pickle
import re
import sqlite3
import stat
import subprocess
import sys
import unittest
from collections.abc import Callable
from decimal import Decimal
from typing import Any, Optional, Union
from unittest import mock

import ldvtools
from cases import encoder
from checks import check_docs
from ldvtools import world
from ldvtools.notebook import exceptions, options
from ldvtools.package_bytes import package_bytes
from ldvtools.packages import read_package

from . import support
from .support import (
    EXAMPLES,
    LIBRARY,
    ROOT,
    TOOLS,
    TUTORIAL,
    WEATHER,
    InFolder,
    each_of,
    make_database,
    match_in,
    read,
    tool,
)
from .test_frames import ALL, Frame, framed, table_in

SCRIPT_TAG = "<script>alert('\"1\"')</script>"


class Interface(unittest.TestCase):
    def test_names(self) -> None:
        """The package has the names of its notebook, and no others; each has a text for help."""
        notebook = importlib.import_module("ldvtools.notebook")
        self.assertEqual(ldvtools.__all__, notebook.__all__)
        self.assertLessEqual(set(notebook.__all__), set(dir(ldvtools)))
        for name in notebook.__all__:
            self.assertIs(getattr(ldvtools, name), getattr(notebook, name))
            self.assertTrue(getattr(ldvtools, name).__doc__, name)
        for kind in (ldvtools.World, ldvtools.Outcome, ldvtools.Package, ldvtools.Table):
            for name, each in vars(kind).items():
                if not name.startswith("_"):
                    self.assertTrue(each.__doc__, f"{kind.__name__}.{name}")
        with self.assertRaisesRegex(AttributeError, "has no attribute 'Worlds'"):
            ldvtools.Worlds

    def test_import(self) -> None:
        """To import the package reads nothing else; a name of it reads no pandas."""
        told = ("import sys, ldvtools; first = sorted(m for m in sys.modules if m.startswith('ldvtools')); "
                "ldvtools.World; print(first, 'argparse' in first, 'pandas' in sys.modules)")
        done = subprocess.run([sys.executable, "-c", told], stdout=subprocess.PIPE, check=True,
                              env={**os.environ, "PYTHONPATH": TOOLS})
        self.assertEqual(done.stdout, b"['ldvtools'] False False\n")

    def test_packages(self) -> None:
        """What is installed has each folder of modules, and each file beside them."""
        text = read(os.path.join(TOOLS, "pyproject.toml")).decode()
        listed = json.loads(match_in(r"(?m)^packages = (\[.*\])$", text)[1])
        folders = [os.path.relpath(at, TOOLS).replace(os.sep, ".")
                   for at, _, names in os.walk(os.path.join(TOOLS, "ldvtools")) if "__init__.py" in names]
        self.assertEqual(sorted(listed), sorted(folders))
        data = json.loads(match_in(r"(?m)^ldvtools = (\[.*\])$", text)[1])
        self.assertEqual(sorted(data), sorted(name for name in os.listdir(os.path.join(TOOLS, "ldvtools"))
                                              if not name.endswith(".py") and "." in name))

    def test_options(self) -> None:
        """Each option of world.py is an argument, but for those that have one of their own, and those of a
        command line."""
        status, out, _ = tool(world, "--help")
        there = set(re.findall(r"(?m)^  (?:-\w(?: \w+)?, )?--([a-z-]+)", out.decode()))
        own = {"csv", "sqlite", "script", "sql", "ask", "file", "arg", "seed"}
        shell = {"help", "output", "quiet", "propose", "look"}
        self.assertEqual(status, 0)
        self.assertEqual({name.replace("_", "-") for name in options.ALL} | own | shell, there | {"help"})

    def test_words(self) -> None:
        self.assertEqual(options.words_of({
            "key": {"t": ["a", "b"], "u": "c", "v": None}, "scale": {"t.d": 2}, "null": ["NA", "-9"],
            "decimal": {"t": ","}, "leave_out": "t.#3", "tidy": True, "trim": False, "lower": None,
            "shuffle": 7, "name": "-n", "foreign": {"t.a": "u", "w": None}}), [
                "--key=t=a,b", "--key=u=c", "--key=v=none", "--scale=t.d=2", "--null=NA", "--null=-9",
                "--decimal=t=,", "--leave-out=t.#3", "--tidy", "--shuffle=7", "--name=-n",
                "--foreign=t.a=u", "--foreign=w=none"])
        for wrong in each_of({"keys": {"t": "a"}}, {"key": "a"}, {"tidy": "yes"}, {"tidy": 1},
                             {"shuffle": "7"}, {"scale": {"t.d": True}}, {"shuffle": {"t": 1}},
                             {"look": True}):
            with self.subTest(wrong), self.assertRaises(TypeError):
                options.words_of(wrong)


class Sources(InFolder):
    def test_csv(self) -> None:
        """The world of CSV files is the one that world.py makes."""
        text = read(f"{TUTORIAL}/weather.sql").decode()
        made = ldvtools.World.from_csv(f"{TUTORIAL}/weather.csv", ask=text, name="weather", lower=True,
                                       key={"weather": "id"}, rename={"weather.Celsius": "tenths"},
                                       scale={"weather.tenths": 1})
        status, out, err = tool(world, *WEATHER, "--name", "weather")
        self.assertEqual((status, made.document), (0, out), err)
        self.assertEqual(len(made.tables()["weather"]), 240)
        self.assertEqual(made.tables()["weather"].rows[0], (1, "Bergen", "2019-01-01", Decimal("-0.6")))
        path = self.put("t.csv", "a\n1\n")
        for paths in each_of(path, [path], {"t": path}):
            self.assertEqual(table_in(ldvtools.World.from_csv(paths, ask=ALL))["rows"], [[1]])
        with self.assertRaisesRegex(ldvtools.RefusedError, "there/x.csv: No such file"):
            ldvtools.World.from_csv("there/x.csv", ask=ALL)

    def test_sqlite(self) -> None:
        """The world of a database has the rows that sqlite3 gives."""
        path = os.path.join(self.folder, "library.db")
        make_database(path, read(f"{TUTORIAL}/library.sql").decode())
        made = ldvtools.World.from_sqlite(path, ask="SELECT * FROM members", scale={"members.fee": 2})
        base = sqlite3.connect(path)
        self.addCleanup(base.close)
        for name, found in made.tables().items():
            due = base.execute(f"SELECT * FROM {name} ORDER BY rowid").fetchall()
            self.assertEqual([tuple(float(cell) if isinstance(cell, Decimal) else cell for cell in row)
                              for row in found.rows], due)
        self.assertEqual(sorted(made.tables()), ["loans", "members"])
        status, out, err = tool(world, "--sqlite", path, *LIBRARY[:-2], "--ask", "SELECT * FROM members")
        renamed = ldvtools.World.from_sqlite(path, ask="SELECT * FROM members",
                                             rename={"members.fee": "cents"}, scale={"members.cents": 2})
        self.assertEqual((status, renamed.document), (0, out), err)
        only = ldvtools.World.from_sqlite(path, ask="SELECT * FROM members", table="members",
                                          scale={"members.fee": 2})
        self.assertEqual(list(only.tables()), ["members"])

    def test_document(self) -> None:
        """A document is taken as it is; one that is none is so when it is asked or run."""
        path = os.path.join(self.folder, "w.json")
        made = ldvtools.World.from_document(f"{EXAMPLES}/orders.json")
        made.save(path)
        self.assertEqual(read(path), read(f"{EXAMPLES}/orders.json"))
        document = json.loads(read(path))
        for name, found in made.tables().items():
            self.assertEqual([list(row) for row in found], document["tables"][name]["rows"])
            self.assertEqual([list(pair) for pair in zip(found.columns, found.kinds)],
                             document["tables"][name]["columns"])
        for data in (b"", b"{}", b'{"start":["a"],"files":{"a":""},"tables":{"t":{"columns":1}}}',
                     b'{"start":["a"],"files":{"a":""},"tables":{"t":{"columns":[["a","INT"]],"rows":3}}}'):
            other = ldvtools.World(data)
            with self.subTest(data), self.assertRaises(ldvtools.MalformedError):
                other.tables()
            self.assertTrue(other._repr_html_().startswith("<div><p><b>no world: "))
        for opens in each_of(ldvtools.World.from_document, ldvtools.Package.open):
            with self.assertRaisesRegex(ldvtools.RefusedError, "none.json: No such file"):
                opens(os.path.join(self.folder, "none.json"))
        with self.assertRaisesRegex(ldvtools.RefusedError, "No such file"):
            made.save(os.path.join(self.folder, "none/w.json"))


class Shown(html.parser.HTMLParser):
    """The elements of some HTML, and the texts of its cells and items."""

    def __init__(self, text: str) -> None:
        super().__init__()
        self.tags: list[str] = []
        self.texts: list[str] = []
        self.open: list[str] = []
        self.feed(text)
        self.close()

    def handle_starttag(self, tag: str, attrs: list[tuple[str, Optional[str]]]) -> None:
        self.tags.append(tag)
        self.open.append(tag)
        if tag in ("td", "th", "li", "pre"):
            self.texts.append("")

    def handle_endtag(self, tag: str) -> None:
        assert self.open.pop() == tag, tag

    def handle_data(self, data: str) -> None:
        if {"td", "th", "li", "pre"} & set(self.open):
            self.texts[-1] += data


class Html(unittest.TestCase):
    def shown(self, thing: Any) -> Shown:
        text = thing._repr_html_()
        found = Shown(text)
        self.assertEqual(found.open, [])
        self.assertLessEqual(set(found.tags), {"div", "p", "b", "i", "pre", "ul", "li", "table", "thead",
                                               "tr", "th", "tbody", "td"})
        return found

    def test_world(self) -> None:
        """Texts of cells and files are texts, whatever they have."""
        made = ldvtools.World.from_dataframes({"t": framed(SCRIPT_TAG, None, "&amp;", " x", "5")}, ask=ALL,
                                              files={SCRIPT_TAG: ""})
        texts = self.shown(made).texts
        for text in (SCRIPT_TAG, "NULL", "&amp;", '" x"', '"5"', f"{SCRIPT_TAG}: 0 bytes"):
            self.assertIn(text, texts)

    def test_package(self) -> None:
        """Of the package of another program: its table, its files, its start."""
        columns = [encoder.column("k"), encoder.column("g", "TEXT")]
        rows = [encoder.row(0, 2**63 - 1, SCRIPT_TAG), encoder.row(1, None, "")]
        data = encoder.encode(encoder.package(
            start=[SCRIPT_TAG], steps=3, files=[encoder.file(SCRIPT_TAG, "exit 0")],
            tables=[encoder.table("t", columns, next=2, rows=rows)],
            trace=[encoder.started(SCRIPT_TAG), encoder.asked(0, 2, tables=["t"], reads=[
                encoder.group("t", encoder.read(0))]), encoder.ended(3)]))
        found = self.shown(ldvtools.Package(data))
        self.assertIn("table", found.tags)
        for text in ("k", "g", "9223372036854775807", SCRIPT_TAG, "NULL", '""'):
            self.assertIn(text, found.texts)
        self.assertIn("no package: it doesn&#x27;t begin", ldvtools.Package(b"<script>")._repr_html_())

    def test_outcome(self) -> None:
        printed, path = SCRIPT_TAG + "\n", SCRIPT_TAG
        data = (f"outcome 1 2\nprocess 0 240 {len(printed)} 3\n{printed}\nrows 1\nrow 2\ntext {len(path)}\n"
                f"{path}\nint 5\nchanged 3\nrefused 2\nfile {len(path)} 2\n{path}\nab\n"
                "removed 4\ngone\n")
        made = ldvtools.Outcome(data.encode())
        texts = self.shown(made).texts
        for text in (SCRIPT_TAG, printed, "5", f"{SCRIPT_TAG}: 2 bytes", "gone was removed",
                     "1 of 3 statements was refused", "1 process ended by misuse"):
            self.assertIn(text, texts)
        self.assertEqual((made.printed, made.files), ({"0": printed}, {path: b"ab", "gone": None}))
        self.assertEqual([(each.columns, each.rows) for each in made.tables()],
                         [(["1", "2"], [(SCRIPT_TAG, 5)])])
        with self.assertRaisesRegex(ldvtools.MalformedError, "byte 0"):
            ldvtools.Outcome(b"outcome")

    def test_long(self) -> None:
        """Of many rows the first 20 are shown, of a long text the beginning; what is left out is counted."""
        found = self.shown(ldvtools.Table("t", ["n"], [[number] for number in range(1, 1236)]))
        self.assertEqual(found.texts, ["n", *map(str, range(1, 21))])
        text = ldvtools.Table("t", ["n"], [[number] for number in range(1235)])._repr_html_()
        self.assertIn("1,235 rows", text)
        self.assertIn("… and 1,215 more rows", text)
        signs = ldvtools.Table("t", ["x"], [["<" * 201]])
        self.assertEqual(self.shown(signs).texts, ["x", "<" * 200 + "…"])


class Errors(InFolder):
    def statuses(self) -> dict[int, str]:
        """The statuses of docs/COMMANDS.md but 0, each with its message."""
        listed: Any
        _, listed = check_docs.listed_commands(read(f"{ROOT}/docs/COMMANDS.md").decode())
        return {int(number): message for numbers, message in listed for number in numbers.split(", ")
                if number != "0"}

    def stub(self, text: str) -> str:
        path = self.put("stub", f"#!/bin/sh\n{text}\n")
        os.chmod(path, os.stat(path).st_mode | stat.S_IXUSR)
        return path

    def test_statuses(self) -> None:
        """Each status has a class of its own, which has it and the line of standard error."""
        self.assertEqual(set(exceptions.BY_STATUS), set(self.statuses()))
        for status, message in self.statuses().items():
            program = self.stub(f"cat > /dev/null\necho '{message}' >&2\nexit {status}")
            with self.assertRaises(ldvtools.ProgramError) as caught:
                ldvtools.World(b"{}", program=program).run()
            fault = caught.exception
            self.assertIs(type(fault), exceptions.BY_STATUS[status])
            self.assertEqual((fault.status, fault.message, str(fault)), (status, message, message))
            self.assertIsInstance(fault, ldvtools.LdvError)
            again = pickle.loads(pickle.dumps(fault))
            self.assertEqual((type(again), again.message), (type(fault), message))

    def test_other_statuses(self) -> None:
        for text, status, message in (("exit 99", 99, "ldv ended with status 99"),
                                      ("kill -9 $$", -9, "ldv was ended by signal 9"),
                                      ("echo odd >&2; exit 1", 1, "odd")):
            with self.assertRaises(ldvtools.ProgramError) as caught:
                ldvtools.call(["run"], b"", self.stub(text))
            self.assertIs(type(caught.exception), ldvtools.ProgramError)
            self.assertEqual((caught.exception.status, str(caught.exception)), (status, message))

    def test_page(self) -> None:
        """The page's table has each status with its class, and the others without one."""
        text = read(f"{ROOT}/docs/NOTEBOOKS.md").decode()
        pairs: dict[int, str] = {}
        others: set[str] = set()
        for _, cells, head in check_docs.tables(text):
            if head[0] == "Status" and cells[0][0].isdigit():
                pairs.update(zip(map(int, cells[0].split(", ")), check_docs.codes(cells[1])))
            elif head[0] == "Without a status":
                others.update(check_docs.codes(cells[0]))
        self.assertEqual(pairs, {number: kind.__name__ for number, kind in exceptions.BY_STATUS.items()})
        self.assertEqual(others, {kind.__name__ for kind in ldvtools.LdvError.__subclasses__()}
                         - {"ProgramError"})

    def test_find_program(self) -> None:
        """The argument comes before the environment, and that before the path."""
        first, second, third = (os.path.join(self.folder, name) for name in ("a", "b", "path/ldv"))
        os.mkdir(os.path.join(self.folder, "path"))
        for path in (first, second, third):
            with open(path, "w", encoding="utf-8") as file:
                file.write("#!/bin/sh\nexit 0\n")
            os.chmod(path, 0o755)
        on_path = {"PATH": os.path.dirname(third)}
        with mock.patch.dict(os.environ, {**on_path, "LDV": second}, clear=True):
            self.assertEqual(ldvtools.find_program(first), first)
            self.assertEqual(ldvtools.find_program(), second)
            os.chmod(second, 0o644)
            missing = ldvtools.ProgramNotFoundError
            with self.assertRaisesRegex(missing, "^the environment variable LDV is .*/b'"):
                ldvtools.find_program()
            with self.assertRaisesRegex(missing, "^the argument program is '/none/ldv'"):
                ldvtools.call(["run"], program="/none/ldv")
        with mock.patch.dict(os.environ, on_path, clear=True):
            self.assertEqual(ldvtools.find_program(), third)
        with mock.patch.dict(os.environ, {"PATH": self.folder}, clear=True):
            with self.assertRaisesRegex(missing, "^the program ldv isn't on the PATH: "):
                ldvtools.find_program()
        odd = self.put("odd", b"\x7fELF odd")
        os.chmod(odd, 0o755)
        with self.assertRaisesRegex(ldvtools.RefusedError, "odd: Exec format error"):
            ldvtools.call(["run"], program=odd)


def has_program() -> bool:
    return os.access(support.PROGRAM, os.X_OK)


class WithProgram(InFolder):
    """The program itself, asked through the classes."""

    def setUp(self) -> None:
        super().setUp()
        if not has_program():
            self.skipTest(f"{support.PROGRAM} isn't there; compile it with ./ldv")

    def world(self, frames: dict[str, Any], ask: Union[str, list[str]], **given: Any) -> ldvtools.World:
        return ldvtools.World.from_dataframes(frames, ask=ask, program=support.PROGRAM, **given)

    def people(self, **given: Any) -> ldvtools.World:
        rows = [(1, "O'Neil", 1.75), (2, 'Zoë "Z"', None), (3, None, 1.8), (4, "", 2.0), (5, "漢字", 1.75)]
        return self.world({"people": Frame(["id", "name", "height"], rows)},
                          ["SELECT * FROM people WHERE height = 175", "SELECT name FROM people WHERE id > 3"],
                          key={"people": "id"}, scale={"people.height": 2}, **given)


class Runs(WithProgram):
    def test_beside_sqlite(self) -> None:
        """Answers are those that SQLite gives over the same rows."""
        rows = [(1, "O'Neil", 7), (2, 'Zoë "Z"', None), (3, None, -8), (4, "", 2**63 - 1), (5, "漢字", 7)]
        asks = ["SELECT id, name, n FROM people", "SELECT id FROM people WHERE name = 'O''Neil'",
                "SELECT id, name FROM people WHERE n < 8 ORDER BY id DESC",
                "SELECT id FROM people WHERE id > 9",
                "SELECT COUNT(*), COUNT(n), MIN(name), MAX(n) FROM people WHERE id <> 4",
                "SELECT n, COUNT(*) FROM people GROUP BY n ORDER BY n",
                "SELECT a.id, b.id FROM people AS a JOIN people AS b ON a.n = b.n WHERE a.id < b.id"]
        base = sqlite3.connect(":memory:")
        self.addCleanup(base.close)
        base.execute("CREATE TABLE people (id INTEGER PRIMARY KEY, name TEXT, n INTEGER)")
        base.executemany("INSERT INTO people VALUES (?, ?, ?)", rows)
        made = self.world({"people": Frame(["id", "name", "n"], rows)}, asks, key={"people": "id"})
        found = made.run().tables()
        self.assertEqual([each.rows for each in found], [base.execute(ask).fetchall() for ask in asks])
        self.assertEqual(found[0].columns, ["id", "name", "n"])
        self.assertEqual(found[0].column("name"), ["O'Neil", 'Zoë "Z"', None, "", "漢字"])
        self.assertEqual([each.name for each in found][:2], ["process 0 reply 1", "process 0 reply 2"])
        with self.assertRaisesRegex(KeyError, "has no column x; there are id, name, n"):
            found[0].column("x")

    def test_decimals(self) -> None:
        """Decimals come back as they were, or as they are carried; what is computed of them says so."""
        ask = "SELECT x, x + 1, MAX(x) AS top FROM t GROUP BY x ORDER BY x"
        made = self.world({"t": framed(1.5, None, 2.25)}, ask, scale={"t.x": 2})
        found, raw = made.run().tables()[0], made.run().tables(raw=True)[0]
        self.assertEqual(found.columns, ["x", "2 (raw)", "top"])
        self.assertEqual(raw.columns, ["x", "2", "top"])
        self.assertEqual(raw.rows, [(None, None, None), (150, 151, 150), (225, 226, 225)])
        self.assertEqual(found.rows, [(None, None, None), (Decimal("1.5"), 151, Decimal("1.5")),
                                      (Decimal("2.25"), 226, Decimal("2.25"))])

    def test_tutorial(self) -> None:
        """The replies that docs/TUTORIAL.md shows."""
        made = ldvtools.World.from_csv(
            f"{TUTORIAL}/weather.csv", ask=read(f"{TUTORIAL}/weather.sql").decode(), lower=True,
            key={"weather": "id"}, scale={"weather.tenths": 1}, rename={"weather.Celsius": "tenths"},
            program=support.PROGRAM)
        first, second = made.run().tables()
        self.assertEqual(first.rows, [(each, "Røros", f"2019-01-{day}", Decimal("0.3"))
                                      for each, day in ((21, "02"), (105, "09"), (189, "16"))])
        self.assertEqual(second.column("tenths"),
                         list(map(Decimal, ("-7.0", "-6.6", "-6.2", "-6.1", "-6.1"))))
        self.assertIn("WHERE day > '2019-01-15' AND tenths < -60", second.statement)
        package = made.record()
        self.assertEqual(len(package.rows()), 8)
        self.assertNotIn("Bergen".encode(), package.data)

    def test_examples(self) -> None:
        """Each example comes to its outcome, and so does its package, of either kind."""
        for name in sorted(os.listdir(EXAMPLES)):
            if not name.endswith(".json") or name == "bad_line.json":
                continue
            made = ldvtools.World.from_document(f"{EXAMPLES}/{name}", program=support.PROGRAM)
            due = read(f"{EXAMPLES}/{name}".replace(".json", ".outcome"))
            for found in (made.run(), made.record().replay(), made.record(excluded=True).replay()):
                self.assertEqual(found.data, due, name)
            self.assertEqual(made.run(), made.record().replay())
            self.assertNotEqual(made.run(), due)

    def test_processes(self) -> None:
        """What examples/README.md says of the night: names, statuses, what is printed, the shared file."""
        made = ldvtools.World.from_document(f"{EXAMPLES}/nightly.json", program=support.PROGRAM)
        found = made.run()
        self.assertEqual([(each.name, each.status) for each in found.processes],
                         [("0", 1), ("0.0", 0), ("0.1", 240)])
        self.assertIn("north.csv ended with 0, south.csv with 240\n", found.printed["0"])
        self.assertEqual(found.messages, ["1 of 10 statements was refused", "1 process ended by misuse"])
        log = (found.files["import.log"] or b"").decode()
        self.assertIn("south: sale 102, 4 of ink\n", log)
        other = (made.run(seed=0).files["import.log"] or b"").decode()
        self.assertIn("north: sale 102, 1 of ink\n", other)
        self.assertIn("south: sale 102 was refused with code 6\n", other)
        self.assertEqual(made.run(seed=3), found)
        self.assertNotEqual(made.run(seed=0), found)

    def test_seed(self) -> None:
        """Another seed gives the world that is made with it: the same outcome and the same package."""
        zero, five = self.people(), self.people(seed=5)
        self.assertEqual(zero.run(seed=5), five.run())
        self.assertEqual(zero.record(seed=5), five.record())
        self.assertNotEqual(zero.record(), five.record())
        self.assertEqual(zero.run(seed=0), zero.run())
        self.assertEqual([each.rows for each in zero.run(seed=5).tables()],
                         [each.rows for each in zero.run().tables()])
        for wrong in each_of(-1, 2**64, "0"):
            with self.assertRaises(ValueError):
                zero.run(seed=wrong)
        document = json.loads(zero.document)
        document["files"]["main"] = {"hex": document["files"]["main"].encode().hex()}
        self.assertEqual(ldvtools.World(json.dumps(document).encode(), program=support.PROGRAM).run(seed=5),
                         five.run())

    def test_edited(self) -> None:
        """A document that was edited names another world than it is; its outcome is shown all the same."""
        document = json.loads(self.people().document)
        document["tables"]["people"]["rows"][0][1] = "Bo"
        edited = ldvtools.World(json.dumps(document).encode(), program=support.PROGRAM)
        for found in (edited.run(), edited.run(seed=0), edited.record().replay()):
            self.assertEqual(found.tables()[0].rows[0], (1, "Bo", Decimal("1.75")))

    def test_wide_and_empty(self) -> None:
        """A table of 64 columns and one without rows run, and are packed."""
        wide = [f"c{place}" for place in range(64)]
        frames = {"wide": Frame(wide, [tuple(range(64)), tuple([None] * 64)]),
                  "empty": Frame(["a", "b"], [], ["int64", "object"])}
        made = self.world(frames, ["SELECT * FROM wide", "SELECT * FROM empty"])
        first, second = made.run().tables()
        self.assertEqual((first.columns, first.rows), (wide, [tuple(range(64)), tuple([None] * 64)]))
        self.assertEqual((second.columns, second.rows, len(second)), (["a", "b"], [], 0))
        package = made.record()
        self.assertEqual({name: len(each) for name, each in package.tables().items()},
                         {"wide": 2, "empty": 0})
        self.assertIn("0 rows", package._repr_html_())


class Packed(WithProgram):
    def inspected(self, package: ldvtools.Package, *words: str) -> str:
        status, out, err = support.ldv(["inspect", *words], package.data)
        self.assertEqual((status, err), (0, b""))
        return out.decode()

    def test_round(self) -> None:
        """A package that was saved and opened replays to the outcome of the run, and is audited."""
        made = self.people()
        path = os.path.join(self.folder, "people.package")
        made.record().save(path)
        package = ldvtools.Package.open(path, program=support.PROGRAM)
        self.assertEqual(package, made.record())
        self.assertEqual(package.replay(), made.run())
        self.assertEqual([each.rows for each in package.replay().tables()], [
            [(1, "O'Neil", Decimal("1.75")), (5, "漢字", Decimal("1.75"))], [("",), ("漢字",)]])
        self.assertEqual((package.audit(), package.is_excluded), ("sound", False))
        self.assertEqual(package.tables()["people"].rows, [
            (1, "O'Neil", Decimal("1.75")), (4, "", Decimal("2.00")), (5, "漢字", Decimal("1.75"))])
        self.assertEqual(sorted(package.files), ["ldv-columns/people.json", "main"])
        self.assertTrue((package.files["main"] or b"").startswith(
            b'sql q "SELECT * FROM people WHERE height = 175"\n'))
        package.replay().save(path)
        self.assertEqual(read(path), made.run().data)

    def test_why(self) -> None:
        """Why each row is there is what `inspect` says, and what was worked out by hand."""
        package = self.people().record()
        rows = package.rows()
        self.assertEqual([(row.table, row.number, row.statement, row.rule) for row in rows],
                         [("people", 0, 0, "L"), ("people", 3, 1, "L"), ("people", 4, 0, "L")])
        self.assertEqual("".join(f"{row.table} {row.number} {row.statement} {row.rule}\n" for row in rows),
                         self.inspected(package, "rows"))
        for row in rows:
            why = package.why(row)
            self.assertEqual(why, package.why((row.table, row.number)))
            said = f"statement {why.statement} process {why.process} step {why.step} rule {why.rule}\n"
            self.assertEqual(said, self.inspected(package, "why", row.table, str(row.number)))
        self.assertEqual(package.why(("people", 3))[:], ("people", 3, 1, "0", 2, "L"))
        self.assertEqual(str(package.why(rows[0])), (
            "statement 0 of process 0 needed row 0 of people at step 1: the row is in the lineage of a row "
            "of the reply, or was matched by an UPDATE or DELETE (rule L)"))
        self.assertEqual(rows[1].cells, {"id": 4, "name": "", "height": Decimal("2.00")})
        self.assertEqual(package.rows(raw=True)[1].cells["height"], 200)

    def test_orders(self) -> None:
        """Of orders.json, as docs/PACKAGES.md has it: a process below another, other rules, a file's
        origin."""
        made = ldvtools.World.from_document(f"{EXAMPLES}/orders.json", program=support.PROGRAM)
        package = made.record()
        rules = {(row.table, row.number): (row.statement, row.rule) for row in package.rows()}
        self.assertEqual((rules["orders", 0], rules["customers", 1], len(rules)), ((1, "K"), (2, "H"), 9))
        self.assertEqual((package.why(("customers", 1)).process, package.why(("orders", 0)).process),
                         ("0.0", "0"))
        self.assertEqual("".join(f"{line}\n" for line in package.depends("report.txt")),
                         self.inspected(package, "depends", "report.txt"))

    def test_excluded(self) -> None:
        """A package of replies has no rows, and replays under any seed to the same outcome."""
        made = self.people()
        package = made.record(excluded=True)
        self.assertTrue(package.is_excluded)
        self.assertEqual((package.tables(), package.rows()), ({}, []))
        self.assertEqual((package.replay(), package.replay(seed=2**64 - 1)), (made.run(), made.run()))
        self.assertEqual(package.replay().tables()[0].rows[0], (1, "O'Neil", Decimal("1.75")))
        self.assertIn("log of process 0: 2 statements", package._repr_html_())

    def test_steps(self) -> None:
        """A package of more steps than the program takes by itself is replayed with those that it took."""
        script = 'let n = 0\nagain:\nlet n = n + 1\nif n < 600000 goto again\nprint n\nexit 0\n'
        made = ldvtools.World.from_dataframes({}, script=script, program=support.PROGRAM)
        with self.assertRaises(ldvtools.NotEndedError) as caught:
            made.run()
        self.assertEqual(str(caught.exception), "ldv: not ended after 1000000 steps")
        package = made.record(steps=2_000_000)
        self.assertEqual(package.replay().printed, {"0": "600000\n"})
        self.assertEqual(package.audit(), "sound")
        with self.assertRaises(ldvtools.NotEndedError):
            package.replay(steps=1_000_000)

    def test_joined(self) -> None:
        """Of a joined package each run is opened by its number."""
        first, second = self.people(name="first").record(), self.people(name="second", seed=9).record()
        data = ldvtools.call(["join"], b"".join(len(each.data).to_bytes(4, "big") + each.data
                                                for each in (first, second)), support.PROGRAM)
        path = self.put("both.joined", data)
        for run, package in ((1, first), (2, second)):
            found = ldvtools.Package.open(path, run=run, program=support.PROGRAM)
            self.assertEqual(found.replay(), package.replay())
            self.assertEqual(found.rows(), package.rows())
        with self.assertRaises(ldvtools.MalformedError):
            ldvtools.Package.open(path).rows()


class Statuses(WithProgram):
    """Each status that the program can be brought to through its streams."""

    def ends(self, kind: type[ldvtools.ProgramError], message: str, work: Callable[[], object]) -> None:
        with self.assertRaises(ldvtools.ProgramError) as caught:
            work()
        self.assertIs(type(caught.exception), kind)
        self.assertEqual((caught.exception.status, caught.exception.message), (kind.status, message))

    def test_worlds(self) -> None:
        def run(data: bytes, **given: Any) -> Callable[[], object]:
            return lambda: ldvtools.World(data, program=support.PROGRAM).run(**given)

        self.ends(ldvtools.NotAWorldError, "ldv: not a world: not json", run(b""))
        self.ends(ldvtools.NotAWorldError, "ldv: not a world: not json", run(b"", seed=4))
        self.ends(ldvtools.NotAWorldError, "ldv: not a world: shape", run(b'{"start":["a"]}', seed=4))
        odd = b'{"start":["a"],"files":{"a":"exit 0\\n"},"bogus":1}'
        self.ends(ldvtools.NotAWorldError, "ldv: not a world: shape", run(odd, seed=4))
        bad = ldvtools.World.from_document(f"{EXAMPLES}/bad_line.json", program=support.PROGRAM)
        self.ends(ldvtools.NotAWorldError, read(f"{EXAMPLES}/bad_line.error").decode().strip(), bad.run)
        self.ends(ldvtools.NotAWorldError, "ldv: not a world: bad script line 2", lambda: bad.record(seed=1))
        for work in each_of(self.people().run, self.people().record):
            self.ends(ldvtools.NotEndedError, "ldv: not ended after 2 steps", lambda: work(steps=2))
        self.ends(ldvtools.InputTooLongError, "ldv: input longer than 67108864 bytes",
                  run(b" " * (2**26 + 1)))
        self.ends(ldvtools.UsageError, "ldv: usage", run(b"", steps=0))

    def test_packages(self) -> None:
        included, excluded = self.people().record(), self.people().record(excluded=True)
        for data, kind in ((b"", "magic"), (included.data[:-1], "digest"), (b"{}", "magic")):
            damaged = ldvtools.Package(data, support.PROGRAM)
            for work in each_of(damaged.replay, damaged.audit, lambda: damaged.why(("people", 0))):
                self.ends(ldvtools.DamagedError, f"ldv: damaged: {kind}", work)
            with self.assertRaises(ldvtools.MalformedError):
                damaged.rows()
        self.ends(ldvtools.NotPrivateError, "ldv: package is not private", lambda: included.replay(seed=1))
        for work in each_of(excluded.audit, lambda: included.why(("people", 1)),
                            lambda: included.depends("nowhere")):
            self.ends(ldvtools.NoSuchItemError, "ldv: no such item", work)
        self.ends(ldvtools.UsageError, "ldv: usage", lambda: included.why(("People", 1)))

    def test_diverged(self) -> None:
        """A script that was changed by hand asks another statement than the recorded one."""
        found = read_package(self.people().record(excluded=True).data)
        files = [(path, content.replace(b"id > 3", b"id > 4") if content and path == "main" else content)
                 for path, content in found.files]
        other = ldvtools.Package(package_bytes(found._replace(files=files)), support.PROGRAM)
        self.ends(ldvtools.DivergedError, "ldv: diverged: process 0 statement 1", other.replay)

    def test_others(self) -> None:
        """Commands that have no method of their own."""
        def call(words: list[str], data: bytes) -> Callable[[], object]:
            return lambda: ldvtools.call(words, data, support.PROGRAM)

        rows = [framed(value, 2) for value in (1, 3)]
        pair = [self.world({"t": each}, ALL, name=name).record().data for each, name in zip(rows, "ab")]
        data = b"".join(len(each).to_bytes(4, "big") + each for each in pair)
        self.ends(ldvtools.ClashError, "ldv: clash: row t 0", call(["join"], data))
        self.ends(ldvtools.NotProvenanceError, "ldv: not a provenance document",
                  call(["prov", "depends", "x"], b"{}"))
        self.ends(ldvtools.UsageError, "ldv: usage", call(["help"], b""))
        graph = json.loads(ldvtools.call(["prov"], pair[0], support.PROGRAM))
        self.assertIn("ldv:path/a", graph["entity"])


if __name__ == "__main__":
    unittest.main()
