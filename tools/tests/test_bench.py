"""The benches, with programs and results that are given to them."""
from __future__ import annotations

import contextlib
import io
import json
import os
import subprocess
import sys
import tempfile
import unittest
from typing import Any, Iterable, Optional
from unittest import mock

import aims
import bench
import compare
import events
import figures
import gen
import harness
import plots
import quiet
import report
import results
import statements
from harness import Took
from results import Line, Results

from .support import ROOT, InFolder, command, read, tool

BENCH = os.path.join(ROOT, "bench")


class QuietRuns(unittest.TestCase):
    """quiet.py, with what the host is said to withhold and what a loop takes."""

    def test_judged(self) -> None:
        """A run doesn't count where processors were withheld or the loop took longer than it can."""
        with mock.patch.object(quiet, "least", [float("inf")]):
            for told, looped, counts in [((5, 5), 8, True), ((5, 6), 8, False), ((0, 0), 11, False),
                                         ((6, 6), 9, True)]:
                seconds = iter(told)
                found = quiet.judged(lambda: "a", lambda: next(seconds), lambda: looped)
                self.assertEqual(found, ("a", counts))

    def test_settled(self) -> None:
        """Where the loop is never as quick as it can be, a run counts at the pace that is usual there."""
        loops = iter([7.0, 10.0, 30.0] * 33 + [10.0])
        with mock.patch.object(quiet, "least", [float("inf")]), mock.patch.object(quiet, "usual", [0.0]):
            self.assertEqual(quiet.settle(lambda: next(loops)), 10.0)
            for loop, counts in (10.0, True), (12.5, True), (12.6, False), (8.0, True), (7.9, False):
                self.assertEqual(quiet.is_quiet(0.02, loop), counts)
            self.assertFalse(quiet.is_quiet(0.03, 10.0))

    def test_withheld(self) -> None:
        """The eighth numbers of the lines of those processors on which it may run, in ticks, or nothing."""
        with tempfile.TemporaryDirectory() as folder:
            path = os.path.join(folder, "stat")
            with open(path, "w", encoding="ascii") as file:
                file.write("cpu  1 2 3 4 5 6 7 275 9 10\ncpu0 1 2 3 4 5 6 7 250 9 10\n"
                           "cpu1 1 2 3 4 5 6 7 8 9 10\ncpu10 1 2 3 4 5 6 7 17 9 10\nintr 1 2 3 4 5 6 7 8 9\n")
            with mock.patch.object(os, "sysconf", return_value=100):
                for those, seconds in ({0}, 2.5), ({1}, 0.08), ({0, 10}, 2.67), ({0, 1, 10}, 2.75), ((), 0.0):
                    with mock.patch.object(quiet, "processors", return_value=those):
                        self.assertEqual(quiet.withheld(path), seconds)
            self.assertEqual(quiet.withheld(os.path.join(folder, "none")), 0.0)
            self.assertEqual(quiet.withheld(os.devnull), 0.0)

    @unittest.skipUnless(hasattr(os, "sched_getaffinity"), "sched_getaffinity(2): where a process may run")
    def test_processors(self) -> None:
        self.assertEqual(quiet.processors(), os.sched_getaffinity(0))

    def test_pace(self) -> None:
        """The loop takes some time of a processor."""
        self.assertGreater(quiet.pace(), 0.0)


class Harness(InFolder):
    """What commands take."""

    def measured(self, text: str, source: str = os.devnull) -> Took:
        return harness.measure([sys.executable, "-c", text], source, os.path.join(self.folder, "out"))

    def alone(self, text: str) -> bytes:
        """What a process prints that does nothing else: the peak of a program's memory begins with that of
        the process which starts it."""
        status, out, err = command(["env", f"PYTHONPATH={BENCH}", sys.executable, "-c", text])
        self.assertEqual((status, err), (0, b""))
        return out

    def test_took(self) -> None:
        """Time and memory are the command's own, its files are read and written, its status is told."""
        took = self.measured("import sys; x = 'a' * 150_000_000; print(sys.stdin.read()); sys.exit(7)",
                             self.put("in", "words"))
        self.assertEqual((took.status, read(os.path.join(self.folder, "out"))), (7, b"words\n"))
        self.assertGreater(took.memory * 1024, 150_000_000)
        self.assertEqual(self.alone(
            "import harness, os, sys\n"
            "for words in [sys.executable, '-c', 'x = b\"a\" * 150_000_000'], ['true']:\n"
            "    print(harness.measure(words, os.devnull, os.devnull).memory * 1024 > 150_000_000)"),
            b"True\nFalse\n")
        busy = self.measured("import time\nwhile time.process_time() < 0.2: pass")
        self.assertGreaterEqual(busy.processor, 0.2)
        asleep = self.measured("import time; time.sleep(0.3)")
        self.assertGreaterEqual(asleep.clock, 0.3)
        self.assertLess(asleep.processor, asleep.clock)

    def test_signals(self) -> None:
        """A command that a signal ends is told, and no measure of one that has to end well."""
        text = "import os; os.kill(os.getpid(), 9)"
        self.assertEqual(self.measured(text).status, -9)
        with self.assertRaisesRegex(SystemExit, "ended with -9"):
            harness.measure_well([sys.executable, "-c", text], os.devnull, os.devnull)

    def test_turns(self) -> None:
        """Each turn has each run once, every second one in the other order."""
        made = []

        def run(name: str) -> Any:
            made.append(name)
            return name + str(len(made))

        taken = harness.in_turn([lambda: run("a"), lambda: run("b")], 3, as_it_comes=True)
        self.assertEqual("".join(made), "abbaab")
        self.assertEqual(taken, [["a1", "a4", "a5"], ["b2", "b3", "b6"]])

    def test_turns_that_count(self) -> None:
        """A run that isn't quiet is made again, without those that have been often enough."""
        made = []

        def run(name: str) -> Any:
            made.append(name)
            return name + str(len(made))

        with mock.patch.object(quiet, "is_quiet", side_effect=[True, False, True, True, True]), \
                mock.patch.object(quiet, "pace", return_value=1.0):
            taken = harness.in_turn([lambda: run("a"), lambda: run("b")], 2)
        self.assertEqual("".join(made), "abbab")
        self.assertEqual(taken, [["a1", "a4"], ["b3", "b5"]])

    def test_turns_that_never_count(self) -> None:
        """After ten times as many turns as are wanted all runs count, which is said."""
        numbers, said = iter(range(100)), io.StringIO()
        with mock.patch.object(quiet, "is_quiet", return_value=False), \
                mock.patch.object(quiet, "pace", return_value=1.0), contextlib.redirect_stderr(said):
            self.assertEqual(harness.in_turn([lambda: next(numbers)], 2), [[20, 21]])
        self.assertIn("not each run is quiet", said.getvalue())

    def test_apart(self) -> None:
        """Work in another process gives its value, and its memory isn't this one's."""
        self.assertEqual(self.alone(
            "import harness, os\n"
            "print(harness.apart(lambda each: [each, len('x' * 100_000_000)], 'a'))\n"
            "print(harness.measure(['true'], os.devnull, os.devnull).memory * 1024 < 100_000_000)"),
            b"['a', 100000000]\nTrue\n")
        with contextlib.redirect_stderr(io.StringIO()), self.assertRaisesRegex(SystemExit, "failed"):
            harness.apart(lambda: [][0])

    def test_host(self) -> None:
        told = self.put("cpuinfo", "processor\t: 0\nmodel name\t: A Processor @ 1 GHz\nmodel name\t: Other\n")
        self.assertEqual(harness.processor_name(told), "A Processor @ 1 GHz")
        self.assertNotEqual(harness.processor_name(os.path.join(self.folder, "none")), "")
        self.assertEqual(harness.said(["no-such-command"]), "")
        with mock.patch.object(harness, "said", lambda words: {"rt": "kit", "git": "0" * 40}[words[0]]):
            self.assertEqual(harness.host()[-2:], ("kit", "0" * 40 + "+"))

    def test_pinned(self) -> None:
        """A process is on one processor afterwards, if that is allowed."""
        script = ("import harness, os; p = harness.pinned(); "
                  "print(p is None or os.sched_getaffinity(0) == {p})")
        done = subprocess.run([sys.executable, "-c", script], cwd=BENCH, stdout=subprocess.PIPE, check=True)
        self.assertEqual(done.stdout, b"True\n")
        with mock.patch.object(os, "sched_setaffinity", side_effect=PermissionError, create=True):
            self.assertIsNone(harness.pinned())


def line(run: str, name: str, size: int, program: str = "ldv", **values: Any) -> Line:
    return Line(run, name, size, program, [(1.0, 2.0, 2048)],
                {"seconds": 1.0, "median": 1.0, "clock": 2.0, "MiB": 2.0, **values})


FACTS = {"version": "1.0.0", "date": "2026-01-01", "runs": 5, "as_it_comes": False, "pinned": True,
         "host": {"name": "h", "system": "Linux 6", "processor": "P", "processors": 4, "kit": "kit",
                  "commit": "c" * 40}, "programs": {"ldv": "0"}, "pace": {"before": 80.0, "after": 81.5}}
MEASURED = Results(FACTS, [
    line("engine", "join2", 1000000, "ldv", all=3.0, load=1.0, asked=2.0, of_sqlite3=1.68,
         **{"MiB beyond load": 146}),
    line("engine", "join2", 1000000, "sqlite3", all=2.0, load=1.0, asked=1.0),
    line("engine", "join2", 1000, "ldv", all=0.1, load=0.05, asked=0.05, of_sqlite3=9.0,
         **{"MiB beyond load": 1}),
    line("engine", "update", 1000000, "ldv", asked=0.3, of_sqlite3=2.4, **{"MiB beyond load": 5}),
    line("worlds", "rows", 60, "ldv", of_input=9.06, **{"MB/s": 37.0}),
])


class Data(InFolder):
    """The files of results."""

    def test_written(self) -> None:
        """What is read is what was written, and a key leads to its value."""
        path = os.path.join(self.folder, "r.json")
        results.write(path, MEASURED)
        found = results.read(path)
        self.assertEqual((found.facts, found.lines), (FACTS, MEASURED.lines))
        self.assertEqual(json.loads(read(path))["lines"][1]["values"]["asked"], 1.0)
        self.assertEqual(found.value("engine/join2/1000000/sqlite3/asked"), 1.0)
        self.assertEqual(found.value("worlds/rows/60/ldv/MB/s"), 37.0)
        for key in ("engine/join2/1000/sqlite3/asked", "engine/join2/1000000/ldv/none", "engine"):
            self.assertIsNone(found.value(key), key)

    def test_merged(self) -> None:
        """A later line stands for an earlier one."""
        later = Results({}, [line("worlds", "rows", 60, of_input=5.0), line("worlds", "hex", 60)])
        found = results.merged([MEASURED, later])
        self.assertEqual(len(found.lines), len(MEASURED.lines) + 1)
        self.assertEqual(found.value("worlds/rows/60/ldv/of_input"), 5.0)
        self.assertEqual(found.facts, FACTS)

    def test_line(self) -> None:
        """Of some runs the least, the median, and the greatest memory."""
        each = [Took(3.0, 4.0, 1024, 0), Took(1.0, 5.0, 3072, 0), Took(2.0, 6.0, 2048, 0)]
        made = results.line_of("run", "name", 7, "ldv", each, more=8.0)
        self.assertEqual(made.values, {"seconds": 1.0, "median": 2.0, "clock": 4.0, "MiB": 3.0, "more": 8.0})
        self.assertEqual(made.key(), "run/name/7/ldv")

    def test_path(self) -> None:
        self.assertEqual(os.path.relpath(results.path_of("1.0.0", "a host.x"), BENCH),
                         "results/1.0.0-a_host_x.json")


class Aims(unittest.TestCase):
    """What the benches aim at."""

    def test_met(self) -> None:
        """A value meets its aim by its two decimals; of a rate the aim is the least."""
        most = aims.Aim("engine", "join2", 1000000, "of_sqlite3", 1.68)
        self.assertEqual([most.is_met(each) for each in (1.0, 1.684, 1.686)], [True, True, False])
        least = aims.Aim("worlds", "rows", 60, "MB/s", 120, is_least=True)
        self.assertEqual([least.is_met(each) for each in (130.0, 119.996, 119.0)], [True, True, False])

    def test_judged(self) -> None:
        """Each aim that has a line is judged, and misses are counted."""
        judged = aims.of_results(MEASURED)
        self.assertEqual([(each.aim.name, each.aim.value, each.is_met) for each in judged],
                         [("join2", "of_sqlite3", True), ("update", "of_sqlite3", False),
                          ("rows", "MB/s", False), ("rows", "of_input", False)])
        self.assertEqual(aims.counted(judged), "aims missed: 3 of 4")
        self.assertIsNone(aims.counted([]))
        self.assertEqual([len(aims.of_line(each)) for each in MEASURED.lines], [1, 0, 0, 1, 2])

    def test_lines(self) -> None:
        """Each aim is of a run, of one of its sizes, and stands once."""
        keys = [each.key() for each in aims.AIMS]
        self.assertEqual(len(keys), len(set(keys)))
        for each in aims.AIMS:
            sizes = bench.RUNS[each.run].sizes + ((10000,) if each.run == "prov" else ())
            self.assertIn(each.size, sizes, each)
            self.assertIn(each.value, report.WORDS)
            self.assertIn(each.run, report.UNITS)


# A program that knows some commands. A package is the world after a head; `replay` of it writes the outcome.
PROGRAM = """#!/usr/bin/env python3
import hashlib, json, sys
data = sys.stdin.buffer.read()
OUTCOME = b"outcome 1 0\\nprocess 0 0 0 0\\n\\n"
if sys.argv[1] == "run":
    sys.stdout.buffer.write(OUTCOME + b"{said}\\n")
elif sys.argv[1] == "record":
    sys.stdout.buffer.write(b"LDV" + data)
elif sys.argv[1] == "replay":
    sys.stdout.buffer.write(OUTCOME + b"{replayed}\\n")
else:
    sys.exit(2)
"""


class Runs(InFolder):
    """bench.py and compare.py, with programs that know some commands."""

    def program(self, name: str, said: str = "a", replayed: Optional[str] = None) -> str:
        path = self.put(name, PROGRAM.replace("{said}", said).replace("{replayed}", replayed or said))
        os.chmod(path, 0o755)
        return path

    def called(self, module: Any, *words: str) -> tuple[Any, bytes, str]:
        with mock.patch("recorded.of_needed", return_value=1.0):
            return tool(module, *words)

    def test_worlds(self) -> None:
        """Lines and values of a run, as they are printed and written."""
        path = os.path.join(self.folder, "r.json")
        words = ["worlds", "--least", "--lines", "hex,rows", "--program", self.program("ldv"), "-o", path]
        status, out, err = self.called(bench, *words, "--beside", "a gate")
        self.assertEqual((status, err), (0, ""))
        self.assertEqual([line.split()[0] for line in out.decode().splitlines() if line],
                         ["worlds:", "line", "rows", "hex", "pace:"])
        found = results.read(path)
        self.assertEqual([each.key() for each in found.lines], ["worlds/rows/1/ldv", "worlds/hex/1/ldv"])
        self.assertEqual((found.facts["runs"], found.facts["as_it_comes"], found.facts["version"]),
                         (1, True, harness.version()))
        self.assertIn(", however busy the host was, beside a gate. A turn", report.host_of(found)[1])
        for each in found.lines:
            self.assertLess(abs(each.values["bytes"] - 2**20), 1000)
            # Values are kept with six digits.
            self.assertAlmostEqual(each.values["of_input"] * each.values["bytes"]
                                   / (each.values["MiB"] * 2**20), 1, 3)
        # Another run is added to the file.
        words[3] = "texts"
        self.called(bench, *words)
        self.assertEqual(len(results.read(path).lines), 3)
        # Those of another program aren't.
        said = self.called(bench, "worlds", "--least", "--program", self.program("other", "b"), "-o", path)[0]
        self.assertIn("has results of another program", said)
        self.assertEqual(len(results.read(path).lines), 3)

    def test_wrong_words(self) -> None:
        self.assertIn("there is no run none", self.called(bench, "none")[2])
        self.assertIn("is no program", str(self.called(bench, "worlds", "--program", self.folder)[0]))

    def test_packages(self) -> None:
        """A replay that doesn't write what the run wrote ends the bench."""
        words = ["package", "--sizes", "3", "--lines", "pick", "--least", "--program"]
        status, out, _ = self.called(bench, *words, self.program("right"))
        self.assertEqual(status, 0)
        self.assertEqual(out.decode().count("memory_of_run"), 6)
        self.assertIn("other bytes", str(self.called(bench, *words, self.program("wrong", replayed="b"))[0]))

    def test_against(self) -> None:
        """Two programs are measured in turn, and have to write the same."""
        words = ["--lines", "pick", "--sizes", "3", "--least"]
        same, other = self.program("same"), self.program("other", "b")
        status, out, _ = self.called(compare, same, self.program("also"), "package", *words)
        self.assertEqual(status, 0)
        rows = out.decode().partition(compare.HEAD)[2].splitlines()[1:]
        self.assertEqual([row.split()[:3] for row in rows],
                         [["package", "pick", word]
                          for word in ("run", "record", "replay", "record", "replay", "replay")])
        self.assertIn("other bytes", str(self.called(compare, same, other, "package", *words)[0]))
        failing = self.put("failing", "#!/bin/sh\nexit 7\n")
        os.chmod(failing, 0o755)
        self.assertIn("ended with 7", str(self.called(compare, same, failing, "package", *words)[0]))

    def test_files(self) -> None:
        """Two files are compared line by line; a statement has two rows."""
        before, after = (os.path.join(self.folder, name) for name in ("a.json", "b.json"))
        results.write(before, MEASURED)
        values = {"seconds": 0.5, "median": 0.5, "clock": 1.0, "MiB": 4.0, "asked": 0.5}
        results.write(after, Results(FACTS, [Line("engine", "join2", 1000000, "ldv", [], values)]))
        status, out, _ = tool(compare, before, after)
        self.assertEqual(status, 0)
        self.assertEqual([row.split() for row in out.decode().splitlines()[2:]],
                         [["engine", "join2", "1000000", "1.000", "0.500", "0.50", "2.0", "4.0", "2.00"],
                          ["engine", "join2,", "asked", "1000000", "2.000", "0.500", "0.25", "2.0", "4.0",
                           "2.00"]])

    def test_csv(self) -> None:
        """world.py takes each of the files."""
        status, out, err = tool(bench, "csv", "--sizes", "20", "--least", "--program", sys.executable)
        self.assertEqual((status, err), (0, ""))
        self.assertEqual([row.split()[:3] for row in out.decode().splitlines()[2:5]],
                         [[form, "20", "world.py"] for form in ("plain", "excel", "guessed")])


class Worlds(InFolder):
    """What the runs read off outcomes and documents, beside what was worked out by hand."""

    def test_found(self) -> None:
        """Rows and changed rows, the sum of their numbers, and refusals, whose key isn't summed."""
        path = self.put("outcome", "outcome 1 1\nprocess 0 0 0 3\n\nrows 2\nrow 1\nint 5\nrow 1\nint -2\n"
                                   "refused 5\nint 40\nchanged 3\n")
        self.assertEqual(statements.found_in(path), (5, 3, 1))

    def test_edges(self) -> None:
        path = self.put("document", '{"a":{"ldv:first":1},"b":{"ldv:first":2}}\n{"ldv:first":3}')
        self.assertEqual(events.count_edges(path), 3)

    def test_gen(self) -> None:
        """The length of the outcome that has what sqlite3 found."""
        outcome = ("outcome 1 1\nprocess 0 0 2 3\n7\n\nrows 1\nrow 2\ntext 2\nc0\nint 10\nchanged 4\nrows 1\n"
                   "row 1\nint 7\nfile 10 6\nreport.txt\nc0 10\n\n")
        self.assertEqual(gen.length_of(["c0,10", "4", "7"]), len(outcome))

    def test_sqlite(self) -> None:
        """sqlite3 finds what a statement has: of 20 rows two have g = 3, and v is 7,919 times the key."""
        done = command([sys.executable, os.path.join(BENCH, "statements_sqlite.py"), "update", "20"])
        self.assertEqual((done[0], json.loads(done[1])[2:]), (0, [2, 0, 0]))
        done = command([sys.executable, os.path.join(BENCH, "statements_sqlite.py"), "join2", "2"])
        # Two rows, of the keys 1 and 2 and of w: 104,729 and 209,458, both without their thousands.
        self.assertEqual(json.loads(done[1])[2:], [2, 1 + 2 + 729 + 458, 0])
        done = command([sys.executable, os.path.join(BENCH, "statements_sqlite.py"), "orphans", "20"])
        self.assertEqual(json.loads(done[1])[2:], [0, 0, 1])


PAGE = "# Benches\n\n<!-- begin: report.py --fill made this of no results yet -->\nNone.\n" \
       "<!-- end: report.py --fill -->\n\nMore.\n"
LIST = ("# DOCUMENT | KEY | WORDS\n"
        "A.md | worlds/rows/60/ldv/of_input | takes {} times its bytes\n"
        "A.md | worlds/rows/60/ldv/MB/s | at {} MB a second\n")


class Reports(InFolder):
    """report.py, and the figures of documents."""

    def setUp(self) -> None:
        super().setUp()
        os.makedirs(os.path.join(self.folder, "bench", "results"))
        self.put("bench/README.md", PAGE)
        self.put("bench/figures.txt", LIST)
        self.put("A.md", "A world\ntakes 9.1\ntimes its bytes, at 37 MB a second.\n")
        self.path = os.path.join(self.folder, "bench", "results", "1.0.0-h.json")
        results.write(self.path, MEASURED)

    def test_tables(self) -> None:
        """Aims with their misses and causes, memory, and growth."""
        status, out, err = tool(report, self.path, "--all")
        self.assertEqual((status, err), (0, ""))
        lines = out.decode().splitlines()
        for due in ("| `engine`, 1,000,000 rows | of sqlite3 | join2 1.68 (1.68), **update 2.40 (0.60)** |",
                    "| `worlds`, 60 MiB | MB a second, at least | **rows 37.00 (120.00)** |",
                    "| `worlds`, 60 MiB | times the bytes | **rows 9.06 (5.00)** |",
                    "Aims missed: 3 of 4. Causes:",
                    "| `worlds`, 60 MiB | rows 2 (9.1 times the bytes) |",
                    "| `engine`, 1,000,000 rows | join2 2 (146 beyond the load) |",
                    "| Statement | 1,000 | 1,000,000 |",
                    "| `join2` | 0.050 / - | 2.000 / 1.000 |", "| `update` | - / - | 0.300 / - |",
                    "### worlds"):
            self.assertIn(due, lines)
        causes = [line for line in lines if line.startswith("- `")]
        self.assertEqual([line.partition(":")[0] for line in causes], ["- `update`", "- `rows`"])
        self.assertIn("a changed row takes some", causes[0])

    def test_filled(self) -> None:
        """--fill writes the page and the figures, and then nothing differs."""
        self.put("A.md", "A world\ntakes 1.0\ntimes its bytes, at 2 MB a second.\n")
        with mock.patch.object(harness, "ROOT", self.folder), mock.patch.object(plots, "drawn"), \
                mock.patch.object(harness, "HERE", os.path.join(self.folder, "bench")):
            self.assertEqual(tool(report, self.path, "--fill")[::2], (0, ""))
        page = read(os.path.join(self.folder, "bench/README.md")).decode()
        self.assertTrue(page.startswith("# Benches\n\n<!-- begin: report.py --fill made this of "
                                        "results/1.0.0-h.json -->\nVersion 1.0.0, commit"))
        self.assertTrue(page.endswith(" |\n<!-- end: report.py --fill -->\n\nMore.\n"))
        self.assertEqual(read(os.path.join(self.folder, "A.md")).decode(),
                         "A world\ntakes 9.1\ntimes its bytes, at 37 MB a second.\n")
        self.assertEqual(self.differences(), [])

    def test_length(self) -> None:
        """The page of a release has at most 150 lines, also if it misses all aims."""
        lines = [line(aim.run, aim.name, aim.size, aim.program, asked=1.0, memory_of_run=1.0,
                      **{"MiB beyond load": 1.0, "of_input": 9.0, "of_bytes": 9.0,
                         aim.value: 0.0 if aim.is_least else 99999.0}) for aim in aims.AIMS]
        lines += [line("engine", case, size, asked=1.0) for case in statements.CASES for size in (1, 2)]
        made = report.report(Results(FACTS, lines), "results/growth.svg")
        self.put("bench/README.md", read(os.path.join(BENCH, "README.md")))
        figures.fill_page(self.folder, self.path, made)
        self.assertLessEqual(read(os.path.join(self.folder, "bench/README.md")).count(b"\n"), 150)

    def differences(self, version: str = "1.0.0") -> list[str]:
        return [f"{document}:{number}: {text}"
                for document, number, text in figures.differences(self.folder, version)]

    def test_differences(self) -> None:
        """A figure that is another one, words that aren't there, and results that aren't of the version."""
        self.assertEqual(self.differences(), [])
        self.put("A.md", "A world takes 9.1 times its bytes.\n")
        gone = "bench/figures.txt:3: A.md has no such words: at {} MB a second"
        self.assertEqual(self.differences(), [gone])
        self.put("bench/README.md", PAGE.replace("no results yet", "results/1.0.0-h.json"))
        self.put("A.md", "A world\ntakes 9.2\ntimes its bytes.\n")
        self.assertEqual(self.differences(),
                         ["A.md:2: 9.2 should be 9.1 (worlds/rows/60/ldv/of_input)", gone])
        self.put("A.md", "A world takes 9 times its bytes, at 37.0 MB a second.\n")
        self.assertEqual(self.differences(), [])
        self.assertEqual(self.differences("1.0.1"),
                         ["bench/results/1.0.0-h.json:1: are no results of version 1.0.1, measured on a "
                          "quiet host"])
        results.write(self.path, Results({**FACTS, "as_it_comes": True}, MEASURED.lines))
        self.assertEqual(len(self.differences()), 1)
        results.write(self.path, Results(FACTS, []))
        self.assertEqual(self.differences()[0],
                         "bench/figures.txt:2: worlds/rows/60/ldv/of_input is no value of the results")
        os.remove(self.path)
        self.assertEqual(self.differences(), ["bench/README.md:1: bench/results/1.0.0-h.json is missing"])
        self.put("bench/README.md", "no marks")
        self.assertEqual(self.differences(), ["bench/README.md:1: has no marks of report.py"])

    def test_plots(self) -> None:
        """A plot is an SVG with a line for each program, or it is said why there is none."""
        path = os.path.join(self.folder, "plots", "1.0.0-h-growth.svg")
        status, _, err = tool(report, self.path, "--plots", os.path.join(self.folder, "plots"))
        self.assertEqual(status, 0)
        if "matplotlib isn't installed" in err:
            self.skipTest("python3-matplotlib isn't installed")
        text = read(path).decode()
        for word in ("<svg", "join2", "update", "sqlite3", "seconds asked"):
            self.assertIn(word, text)
        again = os.path.join(self.folder, "again.svg")
        plots.drawn(again, *report.growth_of(MEASURED))
        self.assertEqual(read(again).decode(), text)

    def test_no_plots(self) -> None:
        """Without matplotlib in either Python there is no plot, which is said."""
        with mock.patch.dict(sys.modules, {"matplotlib": None}), \
                mock.patch.object(plots, "DEBIAN", os.path.join(self.folder, "none")):
            status, _, err = tool(report, self.path, "--plots", self.folder)
        said = "report: matplotlib isn't installed (python3-matplotlib), so there is no plot\n"
        self.assertEqual((status, err), (0, said))
