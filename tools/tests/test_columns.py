"""The files that say what columns are where they were read."""
from __future__ import annotations

import hashlib
import json
import os
import re
from typing import Any

from ldvtools import check, diff, outcome, world
from ldvtools.columns import (
    UNKNOWN,
    Known,
    KnownTable,
    Source,
    columns_file,
    columns_in,
    path_of,
    read_columns,
    script_lines,
)
from ldvtools.date_forms import form_of, in_form
from ldvtools.errors import Malformed
from ldvtools.values import Scaled

from .support import InFolder, each_of, make_database, match_in, read, tool

VISITS = ("Nr;Day;At;Cost;Weight;Seen;Note\n1;27.07.2024;6:00;1.890,75 €;0.5;true;x\n"
          "2;3.12.2024;14:30;12,50 €;NA;false;\n")
VISIT_WORDS = ["--delimiter", ";", "--tidy", "--date", "t.day=dmy", "--date", "t.at=time", "--unit",
               "t.cost=€", "--thousands", "t.cost=.", "--scale", "t.cost=2", "--scale", "t.weight=1",
               "--null", "t.weight=NA", "--key", "t=nr"]
KNOWN = KnownTable("t", Source("t.csv", "ab" * 32, "T"), (
    Known("id", "Id", "integer"), Known("day", "Day", "date", order="dmy", form="D.M.YYYY"),
    Known("cost", "Cost", "decimal", 2, ",", "€", nulls=("", "n/a"), declared="REAL")))


class InWorlds(InFolder):
    def world(self, *words: str) -> tuple[Any, str]:
        status, out, err = tool(world, *words)
        self.assertEqual(status, 0, err)
        return json.loads(out), err

    def known(self, *words: str) -> dict[str, Any]:
        """What the files of a world say of its columns, as they stand there."""
        files = self.world(*words)[0]["files"].items()
        return {path: json.loads(content) for path, content in files if path.startswith("ldv-columns/")}

    def test_csv(self) -> None:
        """Decimals, dates and times with their forms, units, words for NULL, truths, names and the digest."""
        path = self.put("Visits 1.csv", VISITS)
        found = self.known("--csv", f"t={path}", *VISIT_WORDS, "--ask", "SELECT * FROM t")
        self.assertEqual(found, {"ldv-columns/t.json": {
            "table": "t",
            "source": {"file": "Visits 1.csv", "sha256": hashlib.sha256(read(path)).hexdigest()},
            "columns": [
                {"name": "nr", "source": "Nr", "kind": "integer"},
                {"name": "day", "source": "Day", "kind": "date", "order": "dmy", "form": "D.MM.YYYY"},
                {"name": "at", "source": "At", "kind": "time", "order": "time", "form": "h:mm"},
                {"name": "cost", "source": "Cost", "kind": "decimal", "scale": 2, "decimal": ",",
                 "unit": "€"},
                {"name": "weight", "source": "Weight", "kind": "decimal", "scale": 1, "null": ["NA"]},
                {"name": "seen", "source": "Seen", "kind": "boolean"},
                {"name": "note", "source": "Note", "kind": "text", "null": [""]}]}})

    def test_database(self) -> None:
        path = os.path.join(self.folder, "f.db")
        make_database(path, "CREATE TABLE Sites (Id INTEGER PRIMARY KEY, Lat REAL, Ok BOOLEAN, Since DATE, "
                            "Name TEXT); INSERT INTO Sites VALUES (1, 2.5, 1, '2024-02-01', NULL);")
        words = ["--sqlite", path, "--lower", "--scale", "sites.lat=1", "--ask", "SELECT * FROM sites"]
        self.assertEqual(self.known(*words), {"ldv-columns/sites.json": {
            "table": "sites", "source": {
                "file": "f.db", "sha256": hashlib.sha256(read(path)).hexdigest(), "table": "Sites"},
            "columns": [
                {"name": "id", "source": "Id", "kind": "integer", "declared": "INTEGER"},
                {"name": "lat", "source": "Lat", "kind": "decimal", "scale": 1, "declared": "REAL"},
                {"name": "ok", "source": "Ok", "kind": "boolean", "declared": "BOOLEAN"},
                {"name": "since", "source": "Since", "kind": "date", "declared": "DATE"},
                {"name": "name", "source": "Name", "kind": "text", "declared": "TEXT"}]}})

    def test_script(self) -> None:
        """The script of --sql and --ask reads each file at its end; one of the user's own is told how."""
        one, other = self.put("a.csv", "x\n1.5\n"), self.put("b.csv", "y\n2\n")
        words = ["--csv", one, "--csv", other, "--scale", "a.x=1"]
        made, err = self.world(*words, "--ask", "SELECT * FROM a")
        script = made["files"]["main"]
        self.assertEqual(re.sub("[0-9a-f]{64}", "DIGEST", script), 'sql q "SELECT * FROM a"\n'
                         'open columns r "ldv-columns/a.json" else known\nreadline line columns else known\n'
                         'open columns r "ldv-columns/b.json" else known\nreadline line columns else known\n'
                         'open world w "ldv-world/DIGEST" else known\nknown:\n')
        script = self.put("main.ldv", 'sql q "SELECT * FROM a"\n')
        made, err = self.world(*words, "--script", script)
        self.assertEqual(set(made["files"]), {"main.ldv", "ldv-columns/a.json", "ldv-columns/b.json"})
        self.assertIn("no script reads ldv-columns/a.json, so that a package of the run won't say what the "
                      'columns of a are; at the end of the script: open columns r "ldv-columns/a.json" else '
                      "known; readline line columns else known; known:\n", err)
        self.assertNotIn("reads ldv-columns/b.json", err)
        script = self.put("main.ldv", "\n".join([*script_lines(["a"]), "known:"]) + "\n")
        self.assertNotIn("no script reads", self.world(*words, "--script", script)[1])

    def test_without(self) -> None:
        path = self.put("t.csv", "a\n1.5\n")
        words = ["--csv", path, "--scale", "t.a=1", "--no-columns"]
        self.assertEqual(self.world(*words, "--ask", "SELECT * FROM t")[0]["files"],
                         {"main": 'sql q "SELECT * FROM t"\n'})
        script = self.put("m.ldv", "exit 0\n")
        self.assertNotIn("no script reads", self.world(*words, "--script", script)[1])
        self.refused("two files have the path ldv-columns/t.json, which says what columns are", "--csv", path,
                     "--ask", "SELECT a FROM t", "--file", f"ldv-columns/t.json={script}", "--no-check",
                     "--kind", "t.a=TEXT")


class Digests(InFolder):
    """An outcome says of which world it is."""

    def test_edited(self) -> None:
        """It is of the world that made it, in whatever form that is spelled, and of no edited one."""
        path, name = self.put("t.csv", "a\n1\n60\n"), os.path.join(self.folder, "limits.json")
        words = ["--csv", path, "--key", "t=a", "--ask", "SELECT a FROM t WHERE a > 50", "-o", name]
        self.assertEqual(tool(world, *words)[0], 0)
        made = json.loads(read(name))
        self.assertEqual(made["start"], ["limits"])
        script = made["files"]["limits"]
        digest = match_in(r'(?m)^open world w "ldv-world/([0-9a-f]{64})" else known$', script)[1]
        given = self.put("o", "outcome 1 1\nprocess 0 0 0 1\n\nrows 1\nrow 1\nint 60\n"
                         f"file 74 0\nldv-world/{digest}\n\n")
        status, out, err = tool(outcome, "--world", name, given)
        self.assertEqual((status, err), (0, ""))
        self.assertNotIn(b"ldv-world", out)
        other = self.put("spelled.json", json.dumps(made, indent=3))
        self.assertEqual(tool(outcome, "--world", other, given)[0], 0)
        for change in each_of(lambda made: made["files"].update(limits=script.replace("> 50", "> 55")),
                              lambda made: made["tables"]["t"]["rows"].append([7]),
                              lambda made: made.update(seed=1), lambda made: made["start"].append("x")):
            edited = json.loads(read(name))
            change(edited)
            path = self.put("edited.json", json.dumps(edited))
            for said in (tool(outcome, "--world", path, given), tool(check, "--outcome", given, path),
                         tool(diff, "--world", path, given, given)):
                self.assertIn(f"it is of a world with the digest {digest[:16]}.., and this one has ", said[2])
                self.assertIn("the world was edited since, or is another one", said[2])

    def test_names(self) -> None:
        """The script is called as the world's file, or as --name says."""
        path = self.put("t.csv", "a\n1\n")
        for words, name in each_of((["-o", os.path.join(self.folder, "a.b.json")], "a.b"), ([], "main"),
                                   (["--name", "second"], "second"),
                                   (["-o", os.path.join(self.folder, ".x")], "main")):
            out = tool(world, "--csv", path, "--ask", "SELECT a FROM t", *words)[1]
            out = out or read(words[1])
            self.assertEqual(json.loads(out)["start"], [name])


class Files(InFolder):
    def test_there_and_back(self) -> None:
        self.assertEqual(read_columns(columns_file(KNOWN)), KNOWN)
        self.assertEqual(columns_file(KNOWN).decode(), """{
  "table": "t",
  "source": {"file": "t.csv", "sha256": "%s", "table": "T"},
  "columns": [
    {"name": "id", "source": "Id", "kind": "integer"},
    {"name": "day", "source": "Day", "kind": "date", "order": "dmy", "form": "D.M.YYYY"},
    {"name": "cost", "source": "Cost", "kind": "decimal", "scale": 2, "decimal": ",", "unit": "€", \
"declared": "REAL", "null": ["", "n/a"]}
  ]
}
""" % ("ab" * 32))

    def test_collation(self) -> None:
        """How a database compares the texts of a column is in the file."""
        path = os.path.join(self.folder, "f.db")
        make_database(path, "CREATE TABLE t (a TEXT COLLATE NOCASE, b TEXT, c TEXT COLLATE rtrim);")
        made = json.loads(tool(world, "--sqlite", path, "--ask", "SELECT a FROM t")[1])
        known = read_columns(made["files"][path_of("t")].encode())
        self.assertEqual([column.collation for column in known.columns], ["NOCASE", "", "RTRIM"])

    def test_faults(self) -> None:
        """Each rule that a file can break; what isn't known is left alone."""
        plain: dict[str, Any] = {"table": "t", "columns": [{"name": "a", "kind": "decimal", "scale": 1}]}
        self.assertEqual(read_columns(json.dumps({**plain, "more": [1]}).encode()),
                         KnownTable("t", Source(), (Known("a", "", "decimal", 1),)))
        for change, message in each_of(
                ({"table": 1}, "table isn't a text"), ({"columns": {}}, "columns isn't an array"),
                ({"columns": [1]}, "a column isn't an object"), ({"source": 5}, "source isn't an object"),
                ({"columns": [{"name": "a", "kind": "text"}] * 2}, "a column is there twice")):
            with self.assertRaisesRegex(Malformed, message):
                read_columns(json.dumps({**plain, **change}).encode())
        for change, message in each_of(
                ({"name": "A"}, "'A' is no name"), ({"kind": "real"}, "the kind 'real' is none of integer"),
                ({"scale": 19}, "the scale 19 isn't"), ({"scale": -1}, "the scale -1 isn't"),
                ({"scale": True}, "scale isn't a whole number"), ({"kind": "text"}, "what is no decimal"),
                ({"decimal": "ab"}, "the decimal mark"), ({"order": "ydm"}, "the order 'ydm'"),
                ({"form": "D.M.YY"}, "the form 'D.M.YY'"), ({"null": [1]}, "null isn't an array of texts"),
                ({"null": "x"}, "null isn't an array")):
            column: Any = {**plain["columns"][0], **change}
            with self.assertRaisesRegex(Malformed, message):
                read_columns(json.dumps({**plain, "columns": [column]}).encode())
        for data, message in ((b"\xff", "byte 0 isn't UTF-8"), (b"[]", "it isn't an object"),
                              (b"{", "it isn't JSON"), (b"[" * 100_000, "it isn't JSON"),
                              (b'{"columns":[]}', "table is missing")):
            with self.assertRaisesRegex(Malformed, message):
                read_columns(data)

    def test_in_files(self) -> None:
        """A file that isn't one, or that doesn't fit its table, is said and not used."""
        data = columns_file(KNOWN)
        kinds = {"t": [("id", "INT NOT NULL"), ("day", "TEXT"), ("cost", "INT")]}
        found = columns_in({"main": b"x", path_of("t"): data, path_of("u"): None}, kinds)
        self.assertEqual((found.tables, list(found.faults)), ({"t": KNOWN}, []))
        self.assertEqual(found.of_table("t", ["cost", "x"]), [KNOWN.columns[2], None])
        self.assertIsNone(UNKNOWN.column("t", "cost"))
        for path, content, kinds, message in each_of(
                (path_of("u"), data, None, "it is of the table 't'"),
                (path_of("t"), b"{", None, "isn't JSON"),
                (path_of("t"), data, {"t": [("cost", "TEXT")]}, "the column cost is decimal there, and TEXT"),
                (path_of("t"), data, {"t": [("day", "INT")]}, "the column day is date there, and INT")):
            found = columns_in({path: content}, kinds)
            self.assertEqual(found.tables, {})
            self.assertIn(message, found.faults[0])


class Shown(InFolder):
    def test_values(self) -> None:
        cost, day = KNOWN.columns[2], KNOWN.columns[1]
        self.assertEqual([str(cost.shown(value)) for value in (1250, -5, 0, None)],
                         ["12,50", "-0,05", "0,00", "None"])
        self.assertIsInstance(cost.shown(1250), Scaled)
        self.assertEqual(cost.shown("x"), "x")
        self.assertEqual([day.shown(value) for value in ("2024-02-01", "soon", "2024-02", None, 7)],
                         ["1.2.2024", "soon", "2024-02", None, 7])
        self.assertEqual((cost.head, day.head), ("cost (€)", "day"))

    def test_forms(self) -> None:
        """How dates and times were written is known where all were written alike."""
        for texts, order, form in each_of(
                ({"1.2.2024": "2024-02-01", "11.12.2024": "2024-12-11"}, "dmy", "D.M.YYYY"),
                ({"01.02.2024": "2024-02-01"}, "dmy", "DD.MM.YYYY"),
                ({"1.2.2024": "2024-02-01", "01.03.2024": "2024-03-01"}, "dmy", ""),
                ({"1/31/2024": "2024-01-31", "10/2/2024": "2024-10-02"}, "mdy", "M/D/YYYY"),
                ({"2024/03/11": "2024-03-11"}, "ymd", "YYYY/MM/DD"),
                ({"2024-3-1": "2024-03-01"}, "dmy", "YYYY-M-D"),
                ({"1.2.2024 9:05": "2024-02-01 09:05"}, "dmy", "D.M.YYYY h:mm"),
                ({"1.2.2024, 09:05:07": "2024-02-01 09:05:07"}, "dmy", "D.M.YYYY, hh:mm:ss"),
                ({"9:05": "09:05", "14:30": "14:30"}, "time", "h:mm"),
                ({"9:05 PM": "21:05", "12:00 AM": "00:00"}, "time", "h:mm P"),
                ({"9:05pm": "21:05"}, "time", "h:mmp"), ({"9.5": "x"}, "time", ""), ({}, "dmy", "")):
            self.assertEqual(form_of(texts, order), form, texts)
        self.assertIsNone(in_form("2024-02-01 10:00", "D.M.YYYY"))
        self.assertIsNone(in_form("2024-02-01", "D.M.YYYY h:mm"))
        self.assertIsNone(in_form("", "D.M.YYYY"))
