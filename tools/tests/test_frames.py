"""What becomes of data frames: of anything with columns and rows here, of those of pandas where that is
installed. What is expected was worked out by hand."""
from __future__ import annotations

import json
import os
import subprocess
import sys
import unittest
from datetime import date, time, timedelta
from decimal import Decimal
from typing import Any, Sequence
from unittest import mock

import ldvtools

from . import support
from .support import ROOT, TOOLS, InFolder, each_of, python_with

ALL = "SELECT * FROM t"
PANDAS = python_with("pandas")


class Frame:
    """Anything with columns and rows."""

    def __init__(self, columns: Sequence[Any], rows: Sequence[Any], types: Sequence[str] = ()) -> None:
        self.columns, self.rows, self.dtypes = columns, rows, types


def framed(*cells: Any, types: Sequence[str] = ()) -> Frame:
    """A frame of one column x."""
    return Frame(["x"], [(cell,) for cell in cells], types)


def table_in(made: ldvtools.World, name: str = "t") -> Any:
    return json.loads(made.document)["tables"][name]


class NAType:
    """As pandas has it: a comparison with it is no truth."""

    def __eq__(self, other: object) -> Any:
        return self

    def __ne__(self, other: object) -> Any:
        return self

    def __bool__(self) -> bool:
        raise TypeError("boolean value of NA is ambiguous")


class NaTType:
    def __ne__(self, other: object) -> Any:
        return True


class Frames(unittest.TestCase):
    def made(self, frame: Any, **given: Any) -> ldvtools.World:
        return ldvtools.World.from_dataframes({"t": frame}, ask=ALL, **given)

    def column(self, frame: Any, **given: Any) -> tuple[str, list[Any]]:
        found = table_in(self.made(frame, **given))
        return found["columns"][0][1], [row[0] for row in found["rows"]]

    def refused(self, message: str, frame: Any, **given: Any) -> None:
        with self.assertRaises(ldvtools.RefusedError) as caught:
            self.made(frame, **given)
        self.assertIn(message, str(caught.exception))
        self.assertNotIn("\n", str(caught.exception))
        self.assertIsInstance(caught.exception, ldvtools.LdvError)

    def test_numbers(self) -> None:
        """Whole numbers are numbers, whatever type they have, up to the ends of 64 bits."""
        self.assertEqual(self.column(framed(1, None, -5)), ("INT", [1, None, -5]))
        self.assertEqual(self.column(framed(2.0, float("nan"), -0.0)), ("INT", [2, None, 0]))
        self.assertEqual(self.column(framed(Decimal("3.00"), Decimal("NaN"))), ("INT", [3, None]))
        self.assertEqual(self.column(framed(2**63 - 1, -2**63)), ("INT", [2**63 - 1, -2**63]))
        for beyond in (2**63, -2**63 - 1, 1e19):
            self.refused(f"row 1 of t, column x: {int(beyond)} is outside 64 bits", framed(0, beyond))

    def test_truths(self) -> None:
        """Truths are 1 and 0 in the document, and never the words of Python."""
        self.assertEqual(self.column(framed(True, None, False)), ("INT", [1, None, 0]))
        self.assertIn(b"[1],", self.made(framed(True, False)).document)
        known = json.loads(self.made(framed(True, False)).files["ldv-columns/t.json"])
        self.assertEqual(known["columns"][0]["kind"], "boolean")

    def test_texts(self) -> None:
        """Texts stay as they are: quotes, backslashes, other letters, line feeds, and the empty one."""
        texts = ["O'Neil", 'say "hi"', "back\\slash", "Zoë 漢字 \U0001f600", "two\nlines\tand", "", " x ",
                 "NULL"]
        self.assertEqual(self.column(framed(*texts, None)), ("TEXT", [*texts, None]))
        self.assertEqual(self.column(framed("NA", "x"), null="NA"), ("TEXT", [None, "x"]))
        self.refused("row 0 of t, column x: a text that isn't UTF-8 has no equal", framed("\ud800"))

    def test_missing(self) -> None:
        """What stands for a missing value is NULL in each column, and no text."""
        missing = [None, float("nan"), NAType(), NaTType(), Decimal("NaN"), Decimal("sNaN")]
        self.assertEqual(self.column(framed(*missing, "a")), ("TEXT", [None] * 6 + ["a"]))
        self.assertEqual(self.column(framed(*missing, 4)), ("INT", [None] * 6 + [4]))
        self.assertEqual(self.column(framed(*missing)), ("TEXT", [None] * 6))
        self.refused("NULL, but it is in the key", framed(1, None), key={"t": "x"})

    def test_types(self) -> None:
        """The type of a column gives the kind of one without values."""
        for declared, kind in (("int64", "INT"), ("UInt8", "INT"), ("Float64", "INT"), ("boolean", "INT"),
                               ("object", "TEXT"), ("string", "TEXT"), ("category", "TEXT")):
            self.assertEqual(self.column(framed(types=[declared])), (kind, []), declared)
            self.assertEqual(self.column(framed(None, types=[declared])), (kind, [None]), declared)

    def test_decimals(self) -> None:
        """A number with a part is refused, with the option that carries it, and carried exactly by that."""
        part = "row 1 of t, column x: the REAL value 2.5 has no equal here; --scale t.x=1 carries all of them"
        self.refused(part, framed(1.0, 2.5))
        self.refused("the decimal 0.125 has no equal here; --scale t.x=3 ", framed(Decimal("0.125")))
        self.assertEqual(self.column(framed(1.0, 2.5, None), scale={"t.x": 1}), ("INT", [10, 25, None]))
        self.assertEqual(self.column(framed(0.1, 0.29, -1.15), scale={"t.x": 2}), ("INT", [10, 29, -115]))
        whole = Decimal("92233720368547758.07")
        self.assertEqual(self.column(framed(whole, -whole), scale={"t.x": 2}),
                         ("INT", [2**63 - 1, -2**63 + 1]))
        self.refused("has more than the 1 decimal of --scale", framed(0.25), scale={"t.x": 1})
        self.assertEqual(self.column(framed(0.25, 0.35), scale={"t.x": 1}, round=True), ("INT", [2, 4]))
        self.refused("numbers outside 64 bits, which no --scale carries", framed(float("inf"), 0.5))
        self.refused("numbers outside 64 bits, which no --scale carries", framed(Decimal("-Infinity"), 0.5))

    def test_others(self) -> None:
        """Dates and other objects are refused, with how a column of them becomes one of texts."""
        for value, message in (
                (date(2024, 2, 1), "the date 2024-02-01 has no equal here; frame['x'].map(str, na_action="
                                   "'ignore') makes texts such as 2024-02-01"),
                (time(9, 5), "the time 09:05:00 has no equal here; frame['x'].map("),
                (timedelta(1), "a timedelta has no equal here; --leave-out t.x"),
                (b"ab", "a BLOB of 2 bytes"), ([1], "a list has no equal"), (1j, "a complex has no equal")):
            self.refused(f"row 1 of t, column x: {message}", framed(None, value))
        self.refused("'a', but rows before have the kind INT; --kind t.x=TEXT", framed(1, "a"))
        self.assertEqual(self.column(framed(1, "a"), kind={"t.x": "TEXT"}), ("TEXT", ["1", "a"]))
        kept = self.made(Frame(["x", "y"], [(1, b"a")]), leave_out="t.y")
        self.assertEqual(table_in(kept)["columns"], [["x", "INT"]])

    def test_shapes(self) -> None:
        """An empty frame, one as wide as a table may be, one that is wider, and what is no frame."""
        self.assertEqual(table_in(self.made(Frame(["a", "b"], []))),
                         {"columns": [["a", "TEXT"], ["b", "TEXT"]], "rows": []})
        wide = [f"c{place}" for place in range(64)]
        found = table_in(self.made(Frame(wide, [tuple(range(64))])))
        self.assertEqual(found, {"columns": [[name, "INT"] for name in wide], "rows": [list(range(64))]})
        self.refused("t has 65 columns; a table has 1 to 64", Frame([*wide, "d"], []))
        self.refused("t has 0 columns", Frame([], []))
        self.refused("row 1 of t: 1 cell, and the frame has 2 columns", Frame(["a", "b"], [(1, 2), (3,)]))
        self.refused("t: a list is no data frame: it has no columns and rows", [1, 2])
        self.refused("t: a dict is no data frame", {"x": [1]})

    def test_names(self) -> None:
        self.refused("column 1 'Birth year' isn't a name", Frame(["Birth year"], [(1,)]))
        self.refused("column 1 'order' is a reserved word", Frame(["order"], [(1,)]))
        self.refused("two columns have the name a", Frame(["a", "a"], [(1, 2)]))
        self.refused("'0'", Frame([0], [(1,)]))
        for given, name in each_of(
                ({"tidy": True}, "birth_year"), ({"rename": {"t.Birth year": "born"}}, "born"),
                ({"rename": {"t.#1": "year"}}, "year")):
            made = self.made(Frame(["Birth year"], [(1990,)]), **given)
            self.assertEqual(table_in(made)["columns"], [[name, "INT"]])
            known = json.loads(made.files["ldv-columns/t.json"])
            self.assertEqual((known["columns"][0]["source"], known["source"]), ("Birth year", {}))

    def test_messages(self) -> None:
        """What isn't carried, and floats beyond which not each number is one, are said; `strict` refuses."""
        class Indexed(Frame):
            index = type("Index", (), {"names": ["day", None]})

        frame = Indexed(["x"], [(1,)])
        message = "t: the index day isn't carried; frame.reset_index() makes columns of it"
        self.assertEqual(self.made(frame).messages, [message, "t: 1 rows; x INT; key none"])
        self.refused(message, frame, strict=True)
        self.made(frame, strict=True, accept="the index day")
        large = framed(2.0**53, None)
        self.assertIn("t.x: 9007199254740992.0 is a float, and from 2 ** 53 on floats leave whole numbers "
                      "out", self.made(large).messages[0])
        self.refused("is a float", large, strict=True)
        self.assertEqual(self.made(framed(2.0**53 - 1)).messages, ["t: 1 rows; x INT; key none"])

    def test_keys(self) -> None:
        two = {"t": Frame(["a", "b"], [(1, "x"), (1, "y")]), "u": Frame(["b"], [("x",), ("y",)])}
        made = ldvtools.World.from_dataframes(two, ask=ALL, key={"t": ["a", "b"], "u": "b"},
                                              foreign={"t.b": "u"})
        self.assertEqual((table_in(made)["key"], table_in(made)["foreign"]), (["a", "b"], [[["b"], "u"]]))
        self.refused("the key (a) is (1), as in row 0 of t", two["t"], key={"t": "a"})
        self.refused("--key v: nothing that was read has this name", two["t"], key={"v": "a"})

    def test_files(self) -> None:
        """A script of one's own with its files and arguments, alone and after statements."""
        made = ldvtools.World.from_dataframes(
            {}, script='print arg1\nexit 0\n', files={"a=b": b"\xff", "data/ü.csv": "x,y\n"},
            arguments=["--odd", "ä"], seed=2**64 - 1)
        document = json.loads(made.document)
        self.assertEqual((document["start"], document["seed"]), (["main.ldv", "--odd", "ä"], 2**64 - 1))
        self.assertEqual(document["files"], {"main.ldv": "print arg1\nexit 0\n", "a=b": {"hex": "ff"},
                                             "data/ü.csv": "x,y\n"})
        both = self.made(framed(1), script="exit 3\n", no_columns=True)
        self.assertEqual(json.loads(both.document)["start"], ["main"])
        self.assertIn('spawn child "main.ldv"', json.loads(both.document)["files"]["main"])
        self.refused("two files have the path main", framed(1), files={"main": ""})
        self.refused("the file a has half a surrogate pair", framed(1), files={"a": "\udc00"})
        self.refused("the file main.ldv has half a surrogate pair", framed(1), script="print \"\udc00\"\n")
        with self.assertRaisesRegex(ldvtools.RefusedError, "give statements by ask, or a script's text"):
            ldvtools.World.from_dataframes({"t": framed(1)})
        for seed in (-1, 2**64, 1.5, "1", True):
            with self.subTest(seed), self.assertRaisesRegex(ValueError, "seed is a whole number from 0"):
                self.made(framed(1), seed=seed)

    def test_without_pandas(self) -> None:
        """Without pandas, tables have their columns and rows, and only data frames are missing."""
        with mock.patch.dict(sys.modules, {"pandas": None}):
            made = self.made(framed(1.5, None), scale={"t.x": 1})
            found = made.tables()["t"]
            self.assertEqual((found.columns, found.rows), (["x"], [(Decimal("1.5"),), (None,)]))
            self.assertEqual(made.tables(raw=True)["t"].rows, [(15,), (None,)])
            for makes in each_of(found.to_dataframe, made.to_dataframes):
                with self.assertRaises(ldvtools.PandasMissingError) as caught:
                    makes()
                self.assertRegex(str(caught.exception), r"\Apandas isn't installed, .*rows\Z")
        again = self.made(found, scale={"t.x": 1})
        self.assertEqual(again.tables()["t"].rows, found.rows)


# What is tried with pandas, in a Python that has it: each line is a call of `show`.
WITH_PANDAS = """
import datetime, json, sys
import numpy, pandas
import ldvtools

def made(frame, **given):
    return ldvtools.World.from_dataframes({"t": frame}, ask="SELECT * FROM t", **given)

def kinds(frame, **given):
    table = json.loads(made(frame, **given).document)["tables"]["t"]
    return [kind for _, kind in table["columns"]], table["rows"]

def told(frame, **given):
    try:
        made(frame, **given)
    except ldvtools.RefusedError as fault:
        return str(fault)

found = []
show = found.append
columns = {
    "id": [1, 2, 3], "missing": [5, None, 7], "text": ["a", None, "Zoë 'Z'"], "truth": [True, False, True],
    "maybe": [True, None, False], "large": pandas.array([2**63 - 1, None, -2**63], dtype="Int64"),
    "string": pandas.array(["x", pandas.NA, ""], dtype="string"),
    "class": pandas.Categorical(["u", None, "u"]),
    "none": [pandas.NaT, numpy.nan, pandas.NA], "small": numpy.array([1, 2, 255], dtype="uint8"),
    "numpy": [numpy.int64(4), numpy.bool_(True), numpy.float32(2)]}
frame = pandas.DataFrame(columns)
show(kinds(frame))
show(kinds(pandas.DataFrame({"x": pandas.array([], dtype="int64"), "y": []})))
show(kinds(pandas.DataFrame({"x": [0.5, None]}), scale={"t.x": 1}))
days = pandas.DataFrame({"day": pandas.to_datetime(["2024-02-01", None])})
show(told(days))
days["day"] = days["day"].dt.strftime("%Y-%m-%d")
show(kinds(days))
show(told(pandas.DataFrame({"at": pandas.to_datetime(["2024-02-01 10:30"])})))
dates = pandas.DataFrame({"day": [datetime.date(2024, 2, 1), None]})
dates["day"] = dates["day"].map(str, na_action="ignore")
show(kinds(dates))
show(told(pandas.DataFrame({"x": numpy.array([2**64 - 1], dtype="uint64")})))
show(told(pandas.DataFrame({"x": [1.5]})))
show(made(frame.set_index("id")[["small"]]).messages[0])
show(told(pandas.DataFrame([[1, 2]])))
show(told(frame["id"]))
back = made(frame).to_dataframes()["t"]
show([str(each) for each in back.dtypes])
show([None if cell is pandas.NA else int(cell) for cell in back["large"]])
show(json.loads(made(back).document)["tables"] == json.loads(made(frame).document)["tables"])
decimals = made(pandas.DataFrame({"x": [1.5, None]}), scale={"t.x": 2})
show([str(decimals.to_dataframes()["t"]["x"].dtype), decimals.to_dataframes()["t"]["x"].fillna(-1).tolist()])
show([str(decimals.to_dataframes(raw=True)["t"]["x"].dtype),
      list(map(int, decimals.to_dataframes(raw=True)["t"]["x"].fillna(-1)))])
empty = made(pandas.DataFrame({"a": pandas.array([], dtype="Int64"), "b": []}), kind={"t.b": "TEXT"})
empty = empty.to_dataframes()["t"]
show([list(empty.columns), len(empty), [str(each) for each in empty.dtypes]])
twice = ldvtools.Table("t", ["a", "a"], [[1, "x"], [2, None]]).to_dataframe()
show([list(twice.columns), list(map(int, twice.iloc[:, 0])), twice.iloc[:, 1].tolist()])
json.dump(found, sys.stdout)
"""

KINDS = ["INT", "INT", "TEXT", "INT", "INT", "INT", "TEXT", "TEXT", "TEXT", "INT", "INT"]
CARRIED = [
    [KINDS, [[1, 5, "a", 1, 1, 2**63 - 1, "x", "u", None, 1, 4],
             [2, None, None, 0, None, None, None, None, None, 2, 1],
             [3, 7, "Zoë 'Z'", 1, 0, -2**63, "", "u", None, 255, 2]]],
    [["INT", "INT"], []],
    [["INT"], [[5], [None]]],
    "row 0 of t, column day: the date 2024-02-01 00:00:00 has no equal here; frame['day'].dt.strftime("
    "'%Y-%m-%d') makes texts such as 2024-02-01, which compare as these do, --leave-out t.day leaves the "
    "column out",
    [["TEXT"], [["2024-02-01"], [None]]],
    "row 0 of t, column at: the date 2024-02-01 10:30:00 has no equal here; frame['at'].dt.strftime("
    "'%Y-%m-%d %H:%M:%S') makes texts such as 2024-02-01 10:30:00, which compare as these do, "
    "--leave-out t.at leaves the column out",
    [["TEXT"], [["2024-02-01"], [None]]],
    "row 0 of t, column x: 18446744073709551615 is outside 64 bits (-9223372036854775808 to "
    "9223372036854775807)",
    "row 0 of t, column x: the REAL value 1.5 has no equal here; --scale t.x=1 carries all of them as whole "
    "numbers, --leave-out t.x leaves the column out",
    "t: the index id isn't carried; frame.reset_index() makes columns of it",
    "t: 2 columns need another name, column 1 '0', 2 '1': a letter a to z or _, then such letters, digits "
    "and _, no reserved word, and none twice; give --tidy, or --rename \"t.#1=_0\" --rename \"t.#2=_1\"",
    "t: a Series is no data frame: it has no columns and rows",
    ["Int64", "Int64", "object", "Int64", "Int64", "Int64", "object", "object", "object", "Int64", "Int64"],
    [2**63 - 1, None, -2**63],
    True,
    ["float64", [1.5, -1]],
    ["Int64", [150, -1]],
    [["a", "b"], 0, ["Int64", "object"]],
    [["a", "a"], [1, 2], ["x", None]]]

# Runs the code cells of a notebook, and says what each gives beside what stands there.
RUN_CELLS = """
import ast, contextlib, io, json, sys
names, found = {}, []
for cell in json.load(open(sys.argv[1], encoding="utf-8"))["cells"]:
    if cell["cell_type"] != "code":
        continue
    tree = ast.parse("".join(cell["source"]))
    last = tree.body.pop() if isinstance(tree.body[-1], ast.Expr) else None
    out = io.StringIO()
    with contextlib.redirect_stdout(out):
        exec(compile(tree, "cell", "exec"), names)
        value = eval(compile(ast.Expression(last.value), "cell", "eval"), names) if last else None
    given = [["stream", out.getvalue()]] if out.getvalue() else []
    if value is not None:
        given.append(["text/plain", repr(value)])
        given += [["text/html", value._repr_html_()]] if isinstance(value, names["ldvtools"].Table) else []
    due = [["stream", "".join(each["text"])] for each in cell["outputs"] if each["output_type"] == "stream"]
    due += [[kind, "".join(text)] for each in cell["outputs"] if each["output_type"] == "execute_result"
            for kind, text in sorted(each["data"].items(), reverse=True)]
    found.append([given, due])
json.dump(found, sys.stdout)
"""


@unittest.skipUnless(PANDAS, "python3-pandas isn't installed")
class Pandas(InFolder):
    def answer(self, *words: str) -> str:
        """What a Python with pandas writes, in the folder of the test."""
        env = {**os.environ, "PYTHONPATH": TOOLS, "LDV": support.PROGRAM}
        done = subprocess.run([PANDAS or "", *words], capture_output=True, check=False,
                              cwd=self.folder, env=env)
        self.assertEqual((done.returncode, done.stderr), (0, b""), done.stdout.decode())
        return done.stdout.decode()

    def needs_program(self) -> None:
        if not os.access(support.PROGRAM, os.X_OK):
            self.skipTest(f"{support.PROGRAM} isn't there; compile it with ./ldv")

    def test_frames(self) -> None:
        found = json.loads(self.answer("-c", WITH_PANDAS))
        self.assertEqual(len(found), len(CARRIED))
        for place, (each, due) in enumerate(zip(found, CARRIED)):
            self.assertEqual(each, due, place)

    def test_notebook(self) -> None:
        """Each cell of the example gives what stands below it, in a folder of its own."""
        self.needs_program()
        book = os.path.join(ROOT, "examples/notebook/visits.ipynb")
        found = json.loads(self.answer("-c", RUN_CELLS, book))
        self.assertEqual(len(found), 8)
        for given, due in found:
            self.assertEqual(given, due)
            self.assertTrue(due)

    def test_page(self) -> None:
        """The example of docs/NOTEBOOKS.md gives what the page shows."""
        self.needs_program()
        page = os.path.join(ROOT, "docs/NOTEBOOKS.md")
        told = "import doctest, sys; print(doctest.testfile(sys.argv[1], module_relative=False))"
        self.assertRegex(self.answer("-c", told, page), r"\ATestResults\(failed=0, attempted=1[0-9]\)\n\Z")


if __name__ == "__main__":
    unittest.main()
