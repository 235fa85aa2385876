"""The evaluation of the paper: its data, its queries beside SQLite, what is compared, and its page."""
from __future__ import annotations

import contextlib
import functools
import io
import json
import os
import re
import shutil
import sqlite3
import sys
import unittest
from typing import Any, Iterator, Optional
from unittest import mock

import harness
import paper
import paper_answers
import paper_plots
import paper_queries
import paper_report
import paper_worlds
import results
from harness import Took
from ldvtools import check
from paper_queries import QUERIES
from paper_worlds import COLUMNS, Data

from . import support
from .support import ROOT, InFolder, command, python_with, read, tool

BENCH = os.path.join(ROOT, "bench")
PROGRAM = os.path.join(support.HERE, "paper_program.py")
SCALE = paper_worlds.LEAST_SCALE
HAS_SQLITE = unittest.skipUnless(shutil.which("sqlite3"), "sqlite3 isn't installed")


@functools.cache
def rows_of(table: str, seed: int = 1) -> list[Any]:
    return list(Data(SCALE, seed).rows(table))


class Shape(InFolder):
    """The data."""

    def test_seed(self) -> None:
        """A seed gives the same rows each time, and another one other rows."""
        for table in COLUMNS:
            self.assertEqual(rows_of(table), list(Data(SCALE, 1).rows(table)))
            self.assertNotEqual(rows_of(table), rows_of(table, 2))

    def test_shape(self) -> None:
        """Numbers of rows, keys and names as TPC-H has them."""
        customers, orders, lines = map(rows_of, COLUMNS)
        self.assertEqual((len(customers), len(orders)), (90, 900))
        self.assertEqual(customers[0][:2], [1, "Customer#000000001"])
        self.assertEqual([row[0] for row in orders[:9]], [1, 2, 3, 4, 5, 6, 7, 8, 33])
        self.assertTrue(all(row[1] % 3 and 1 <= row[1] <= 90 for row in orders))
        by_order: dict[int, list[int]] = {}
        for row in lines:
            by_order.setdefault(row[0], []).append(row[3])
        self.assertEqual(set(by_order), {row[0] for row in orders})
        self.assertEqual({len(places) for places in by_order.values()}, set(range(1, 8)))
        self.assertTrue(all(places == list(range(1, len(places) + 1)) for places in by_order.values()))
        self.assertTrue(all(1 <= row[2] <= 1000 and 1 <= row[4] <= 50 for row in lines))
        # Shipped after the order, received after that; the dates of TPC-H end in 1998.
        days = {row[0]: row[4] for row in orders}
        self.assertTrue(all(days[row[0]] < row[10] < row[12] < "1999" for row in lines))
        for name, least, most, place, rows in (("c", 29, 116, 7, customers), ("o", 19, 78, 8, orders),
                                               ("l", 10, 43, 15, lines)):
            self.assertTrue(all(least - 1 <= len(row[place]) <= most for row in rows), name)

    def test_files(self) -> None:
        """The document and the SQLite file have the rows, and no file is greater than a limit."""
        tables, base = (os.path.join(self.folder, name) for name in ("tables", "base"))
        counts = paper_worlds.write_tables(tables, Data(SCALE))
        self.assertEqual(counts, {table: len(rows_of(table)) for table in COLUMNS})
        paper_worlds.write_world(os.path.join(self.folder, "world"), "exit 0\n", tables)
        world = json.loads(read(os.path.join(self.folder, "world")))
        self.assertEqual((world["start"], world["files"]), (["main"], {"main": "exit 0\n"}))
        paper_worlds.write_database(base, Data(SCALE))
        with contextlib.closing(sqlite3.connect(base)) as found:
            for table, columns in COLUMNS.items():
                self.assertEqual(world["tables"][table]["rows"], rows_of(table))
                self.assertEqual(world["tables"][table]["columns"], [list(each) for each in columns])
                rows = found.execute(f"SELECT * FROM {table} ORDER BY rowid").fetchall()
                self.assertEqual([list(row) for row in rows], rows_of(table))
        size = os.path.getsize(tables)
        self.assertEqual(paper_worlds.write_greatest(tables, 1, (SCALE * 2, SCALE), size), (SCALE, counts))
        with self.assertRaises(ValueError):
            paper_worlds.write_greatest(tables, 1, (SCALE,), size - 1)


class Queries(InFolder):
    """The eighteen queries."""

    def setUp(self) -> None:
        super().setUp()
        self.path = os.path.join(self.folder, "base")
        paper_worlds.write_database(self.path, Data(SCALE))

    def test_forms(self) -> None:
        """ldv is asked for the same rows as sqlite3, though otherwise, and each has some."""
        self.assertEqual([query.form for query in QUERIES], [1] * 5 + [2] * 4 + [3] * 4 + [4] * 5)
        self.assertEqual([query.parameter for query in QUERIES[:9]],
                         ["10", "20", "50", "100", "250", "0" * 7, "0" * 6, "0" * 5, "0" * 4])
        with contextlib.closing(sqlite3.connect(self.path)) as base:
            for query in QUERIES:
                rows = [sorted(base.execute(text).fetchall()) for text in (query.asked, query.beside)]
                self.assertEqual(rows[0], rows[1], query.name())
                self.assertTrue(rows[0] and rows[0][0][0], query.name())
                self.assertNotRegex(query.asked, "LIKE|BETWEEN|COUNT")

    def test_needed(self) -> None:
        """What SQLite counts is what the rows of the generator give."""
        changed = {32 * n + 1 for n in range(100)}
        buyers = {row[0]: row[1] for row in rows_of("orders")}
        self.assertLessEqual(changed, set(buyers))
        for query in QUERIES:
            if query.is_of_names():
                lines = [row for row in rows_of("lineitem")
                         if f"{buyers[row[0]]:09}".startswith(query.parameter)]
            else:
                lines = [row for row in rows_of("lineitem") if row[2] <= int(query.parameter)]
            orders = {row[0] for row in lines} if query.form != 1 else set()
            customers = {buyers[key] for key in orders} if query.is_of_names() else set()
            self.assertEqual(paper_queries.needed_rows(self.path, query),
                             {"customer": len(customers), "orders": len(orders | changed),
                              "lineitem": len(lines)}, query.name())

    def test_work(self) -> None:
        """The script and what sqlite3 is given have so many statements."""
        for text in (paper_queries.script_of(QUERIES[0]), paper_queries.work_of(QUERIES[0], "base")):
            self.assertIn("INSERT INTO orders", text)
        work = paper_queries.work_of(QUERIES[0], "base")
        for word, count in (("INSERT INTO orders", 1000), (QUERIES[0].beside, 10), ("UPDATE orders", 100)):
            self.assertEqual(work.count(word), count)

    def test_dialect(self) -> None:
        """Scripts and statements are those of ldv, as tools/check.py reads them; others aren't."""
        tables, world = (os.path.join(self.folder, name) for name in ("tables", "world"))
        paper_worlds.write_tables(tables, Data(0.0))
        for query in QUERIES:
            paper_worlds.write_world(world, paper_queries.script_of(query), tables)
            status, out, err = tool(check, world)
            self.assertEqual((status, err), (0, "no bad line, and no refused statement among 3\n"), out)
            other = query._replace(asked=query.asked.replace("SELECT ", "SELECT COUNT(*) + l_other, ", 1))
            paper_worlds.write_world(world, paper_queries.script_of(other), tables)
            self.assertEqual(tool(check, world)[0], 1, query.name())

    @HAS_SQLITE
    @unittest.skipUnless(os.access(support.PROGRAM, os.X_OK), "the program isn't built")
    def test_answers(self) -> None:
        """Each answer of ldv is that of sqlite3, in all eighteen."""
        tables, world, work, outcome, found = (os.path.join(self.folder, name) for name in (
            "tables", "world", "work", "outcome", "found"))
        paper_worlds.write_tables(tables, Data(SCALE))
        for query in QUERIES:
            paper_worlds.write_world(world, paper_queries.script_of(query), tables)
            paper.put(work, paper_queries.work_of(query, self.path))
            harness.measure_well([support.PROGRAM, "run"], world, outcome)
            harness.measure_well(["sqlite3"], work, found)
            self.assertIsNone(paper_answers.difference(outcome, found), query.name())


class Answers(InFolder):
    """What ldv and sqlite3 say, written by hand after docs/FORMATS.md."""

    OUTCOME = ("outcome 1 0\nprocess 0 0 20 12\n" + "2\n" * 10 + "\nchanged 3\n"
               + "rows 2\nrow 2\ntext 3\na b\nint -4\nrow 2\nnull\nint 5\n" * 10 + "changed 4\n")
    FOUND = "===\nNULL|5\na b|-4\n" * 10 + "===\n7\n"

    def difference(self, outcome: str = OUTCOME, found: str = FOUND) -> Optional[str]:
        return paper_answers.difference(self.put("outcome", outcome), self.put("found", found))

    def test_same(self) -> None:
        self.assertIsNone(self.difference())

    def test_differences(self) -> None:
        for message, outcome, found in (
                ("the row 'a b|-4'", self.OUTCOME, self.FOUND.replace("a b|-4", "a b|-5")),
                ("finds 2 rows, sqlite3 1", self.OUTCOME, self.FOUND.replace("NULL|5\n", "")),
                ("changed 7 rows, sqlite3 8", self.OUTCOME, self.FOUND.replace("===\n7", "===\n8")),
                ("answers of sqlite3 differ", self.OUTCOME, self.FOUND.replace("NULL|5", "NULL|6", 1)),
                ("sqlite3 gave 9 answers", self.OUTCOME, self.FOUND[len("===\nNULL|5\na b|-4\n"):]),
                ("replies to a query differ", self.OUTCOME.replace("int 5", "int 6", 1), self.FOUND),
                ("ldv says b'refused 1'", self.OUTCOME.replace("changed 3", "refused 1"), self.FOUND),
                ("ldv gave 9 answers", self.OUTCOME.replace("rows 2\nrow 2\ntext 3\na b\nint -4\nrow 2\n"
                                                            "null\nint 5\n", "", 1), self.FOUND),
                ("outcome begins with", self.OUTCOME.replace("process 0 0", "process 0 1"), self.FOUND),
                ("is no value", self.OUTCOME.replace("text 3", "text 2"), self.FOUND)):
            self.assertIn(message, self.difference(outcome, found) or "", message)


class Runs(InFolder):
    """paper.py, with a program that does the same by Python's sqlite3."""

    def program(self, fault: str = "none") -> str:
        words = f'PYTHONPATH="{BENCH}" exec "{sys.executable}" "{PROGRAM}" {fault} "$@"'
        path = self.put(f"program {fault}", f"#!/bin/sh\n{words}\n")
        os.chmod(path, 0o755)
        return path

    def ran(self, fault: str = "none", rows: str = "1", *words: str) -> tuple[int, str, str, dict[str, Any]]:
        """What it ends with, prints and says, and the lines that it wrote."""
        output = os.path.join(self.folder, "results.json")
        status, out, err = command([
            sys.executable, os.path.join(BENCH, "paper.py"), "--scale", str(SCALE), "--rows", rows, "--least",
            "--program", self.program(fault), "-o", output, *words])
        found = {line.name: line for line in results.read(output).lines} if status == 0 else {}
        return status, out.decode(), err.decode(), found

    @HAS_SQLITE
    def test_sizes(self) -> None:
        """The sizes are those of the files, and add up."""
        status, _, err, found = self.ran()
        self.assertEqual((status, err), (0, ""))
        commands = ("run", "record", "replay", "record excluded", "replay excluded", "sqlite3")
        self.assertLessEqual({f"Q1 10 {name}" for name in commands}, set(found))
        values = found["Q1 10 run"].values
        tables, base = (os.path.join(self.folder, name) for name in ("tables", "base"))
        counts = paper_worlds.write_tables(tables, Data(SCALE))
        paper_worlds.write_database(base, Data(SCALE))
        script = paper_queries.script_of(QUERIES[0])
        frame = len('{"start":["main"],"files":{"main":},"tables":}\n')
        self.assertEqual(values["world"], frame + len(json.dumps(script)) + os.path.getsize(tables))
        self.assertEqual(values["database"], os.path.getsize(base))
        self.assertEqual(values["rows"], sum(counts.values()))
        self.assertEqual(values["needed"], sum(values[f"needed_{table}"] for table in COLUMNS))
        self.assertAlmostEqual(values["share"], values["needed"] / values["rows"], 5)
        self.assertEqual(found["Q1 10 record"].values["bytes"], values["world"] + 1)
        self.assertLess(found["Q1 10 record"].values["bytes_by_xz"], values["world"])
        if shutil.which("tar"):
            # By POSIX a file has a head of 512 bytes and whole blocks of 512, two empty ones stand at the
            # end, and all is cut into records of 10,240.
            blocks = sum(1 + -(-size // 512) for size in (len(script.encode()), values["database"])) + 2
            self.assertEqual(values["tar"], -(-blocks // 20) * 10240)
            self.assertIn("Q1 10 tar", found)
        if shutil.which("xz"):
            self.assertLess(values["backup.xz"], values["database"])
            self.assertIn("Q1 10 backup", found)

    @HAS_SQLITE
    def test_wrong(self) -> None:
        """A program whose answers, changes, replays or packed rows are others is found."""
        for fault, message in (("answer", "ldv finds the row"), ("differ", "the replies to a query differ"),
                               ("lost", "ldv changed 1099 rows, sqlite3 1100"),
                               ("replay", "outcome and replayed have other bytes"),
                               ("needed", "and SQLite needs")):
            status, _, err, _ = self.ran(fault)
            self.assertEqual(status, 1, fault)
            self.assertIn(message, err)

    def test_long(self) -> None:
        """A package that is too long has no replay, and its row says so. Without sqlite3 that is said too."""
        status, out, err, found = self.ran("long", "1", "--sqlite", "")
        self.assertEqual((status, err), (0, ""))
        self.assertIn("sqlite3 isn't installed", out)
        self.assertEqual(found["Q1 10 record"].values["too_long"], 1)
        self.assertFalse({"Q1 10 replay", "Q1 10 replay excluded", "Q1 10 sqlite3"} & set(found))
        page = "\n".join(paper_report.page(results.read(os.path.join(self.folder, "results.json")), {}))
        self.assertRegex(page, r"\| Q1 10 \| [\d.]+ % \| above 64 MiB \| above 64 MiB \| [\d.]+ \| - \| - \|")
        self.assertIn("- The package of rows would have more than 64 MiB, and isn't written: Q1 10.", page)
        status, _, err, _ = self.ran("none")
        self.assertEqual(status, 1)
        self.assertIn("has results of another program", err)

    def test_stopped(self) -> None:
        """What was measured before a run is stopped stands in its file."""
        output = os.path.join(self.folder, "results.json")

        def stopped(_: Any) -> Iterator[list[results.Line]]:
            yield [line_of("Q1 10 run", "ldv", 2.0)]
            raise KeyboardInterrupt

        with mock.patch.object(paper, "queries", stopped), contextlib.redirect_stdout(io.StringIO()), \
                self.assertRaises(KeyboardInterrupt):
            paper.main(["--program", self.program("none"), "--least", "-o", output])
        self.assertEqual([line.name for line in results.read(output).lines], ["Q1 10 run"])

    def test_places(self) -> None:
        self.assertEqual(paper.places("1-3,18"), [1, 2, 3, 18])
        for text in ("0", "17-19"):
            with self.assertRaisesRegex(Exception, "1 to 18"):
                paper.places(text)
        with self.assertRaisesRegex(SystemExit, "is no program"):
            paper.main(["--program", self.folder, "--least"])


def line_of(name: str, program: str, seconds: float, **values: Any) -> results.Line:
    return results.line_of("paper", name, 1000, program, [Took(seconds, seconds, 1024, 0)],
                           of_run=seconds / 2, **values)


class Pages(InFolder):
    """The page, of results that are written by hand."""

    LINES = [
        line_of("Q1 10 run", "ldv", 2.0, scale=0.01, rows=1000, share=0.25, world=4e6, database=3e6, tar=4e6),
        line_of("Q1 10 record", "ldv", 3.0, bytes=1e6, bytes_by_xz=5e5),
        line_of("Q1 10 replay", "ldv", 1.0),
        line_of("Q1 10 record excluded", "ldv", 2.5, bytes=8e6, bytes_by_xz=1e6),
        line_of("Q1 10 replay excluded", "ldv", 5.0),
        line_of("Q1 10 sqlite3", "sqlite3", 1.0),
        line_of("Q4 250 run", "ldv", 2.0, scale=0.01, rows=1000, share=1.0, world=4e6, database=3e6, tar=4e6),
        line_of("Q4 250 record", "ldv", 4.0, too_long=1)]
    FACTS = {"version": "1.0.0", "date": "2026-11-29", "runs": 5, "as_it_comes": False, "pinned": True,
             "pace": {"before": 20.0, "after": 21.0},
             "host": {"commit": "0" * 40, "kit": "kit", "processors": 4, "processor": "one",
                      "system": "Linux"}}

    def found(self) -> results.Results:
        return results.Results(self.FACTS, self.LINES)

    def test_page(self) -> None:
        page = "\n".join(paper_report.page(self.found(), {}))
        for text in ("package of rows 0.25; package of replies 2.00 |",
                     "`record` as a multiple of `run`: package of rows 1.50; package of replies 1.25 |",
                     "`replay` as a multiple of `run`: package of rows 0.5; package of replies 2.50 |",
                     "- The package of rows would have more than 64 MiB, and isn't written: Q4 250.",
                     "- The package of replies is larger than the tar, 2.00 times: Q1 10.",
                     "- Replaying the package of replies takes longer than `run`, 2.50 times: Q1 10.",
                     "- `run` takes longer than sqlite3, 2.00 times: Q1 10.",
                     "the world 4.00, the SQLite file 3.00, its tar with the script 4.00, .backup by xz -.",
                     "| Q1 10 | 25.00 % | 1.00 (0.50) | 8.00 (1.00) | 2.00 | 3.00 (1.50) | 1.00 (0.50) "
                     "| 2.50 (1.25) | 5.00 (2.50) | 1.00 (0.50) |",
                     "| Q4 250 | 100.00 % | above 64 MiB | - (-) | 2.00 | - | - | - | - | - |"):
            self.assertIn(text, page)
        self.assertNotIn("Replaying the package of rows", page)
        self.assertEqual(paper_report.page(results.Results(self.FACTS, []), {}),
                         ["No query of these was measured."])

    def test_fill(self) -> None:
        """The page is filled between its marks, and all eighteen rows fit into its length."""
        text = read(paper_report.PAGE).decode()
        once = paper_report.filled(text, "results/x.json", ["one"])
        self.assertIn("made this of results/x.json -->\none\n<!-- end", once)
        self.assertEqual(paper_report.filled(once, "results/x.json", ["one"]), once)
        outside = re.sub(r"<!-- begin.*end[^\n]*-->", "", text, flags=re.S)
        self.assertEqual(re.sub(r"<!-- begin.*end[^\n]*-->", "", once, flags=re.S), outside)
        lines = [line_of(f"{query.name()} run", "ldv", 2.0, rows=1, share=1.0, scale=0.01)
                 for query in QUERIES]
        page = paper_report.page(results.Results(self.FACTS, lines), {"sizes": "x.svg"})
        # What is worse takes at most nine lines.
        self.assertLessEqual(outside.count("\n") + 2 + len(page) - 1 + 9, 80)

    @unittest.skipUnless(python_with("matplotlib"), "python3-matplotlib isn't installed")
    def test_figures(self) -> None:
        """The three figures are drawn, the same bytes each time, with the names of queries and series."""
        path = os.path.join(self.folder, "x.json")
        self.assertEqual(list(paper_report.draw(path, self.found())), ["sizes", "recording", "replaying"])
        files = [os.path.join(self.folder, f"x-{name}.svg") for name in ("sizes", "recording", "replaying")]
        once = [read(file) for file in files]
        for drawn in once:
            self.assertIn(b"Q4 250", drawn)
            self.assertIn(b"package of replies", drawn)
        paper_report.draw(path, self.found())
        self.assertEqual([read(file) for file in files], once)

    def test_no_figures(self) -> None:
        """Without matplotlib that is said, and no figure is named."""
        err = io.StringIO()
        with mock.patch.dict(sys.modules, {"matplotlib": None}), contextlib.redirect_stderr(err), \
                mock.patch.object(paper_plots, "DEBIAN", os.path.join(self.folder, "none")):
            self.assertEqual(paper_report.draw(os.path.join(self.folder, "y.json"), self.found()), {})
        self.assertIn("matplotlib isn't installed", err.getvalue())


if __name__ == "__main__":
    unittest.main()
