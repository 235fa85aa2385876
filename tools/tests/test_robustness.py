"""The programs of tests/robustness, with answers and programs that are given to them."""
from __future__ import annotations

import collections
import json
import os
import random
import shutil
import subprocess
import sys
import unittest
from typing import Any
from unittest import mock

import hard_worlds
import hostile
import hostile_documents
import hostile_joins
import hostile_packages
import refused
import repeated
from cases import encoder, join_cases, package_versions, packages_joined
from checks import against_sqlite
from ldvtools.errors import Malformed
from ldvtools.join import clash_of
from ldvtools.packages import read_package
from ldvtools.provenance import Edge, Node, Provenance, document_text

from . import support
from .support import EXAMPLES, ROOT, TOOLS, InFolder, command, each_of, read, tool
from .test_documents import INSTRUCTIONS

FOLDER = os.path.join(ROOT, "tests", "robustness")
PATH = os.pathsep.join([TOOLS, os.path.join(ROOT, "bench")])
# What a bench says where the machine is a slow host's: that is no fault.
WITHHELD = "the host withheld processors: not each run is quiet"
# A process that read `main` and wrote `g`.
PROVENANCE = document_text(Provenance(
    [Node("path", "main"), Node("process", "0"), Node("path", "g")],
    [Edge(0, 1, 0, 0), Edge(1, 2, 1, 1)])).encode()
# Two runs of a world with rows.
TWO = read_package(encoder.encode(encoder.BASES["rows"]))
JOINED = packages_joined.joined(TWO, TWO._replace(seed=5))
# Two runs over tables with a foreign key.
WITH_PARENTS = packages_joined.encode_joined(join_cases.BOTH)


# A program that asks for memory in each way, five times, and says so where it gets none.
ASKER = """
#include <stdio.h>
#include <stdlib.h>
int main(void) {
    char *a = malloc(10), *b = a ? calloc(3, 4) : 0, *c = b ? realloc(a, 100) : 0;
    void *d = 0;
    if (!c || posix_memalign(&d, 64, 10) || !aligned_alloc(64, 64)) {
        fputs("ldv: out of memory\\n", stderr);
        return 11;
    }
    return 0;
}
"""


class RefusedMemory(InFolder):
    """refused.py, with answers that are given to it."""

    def setUp(self) -> None:
        super().setUp()
        rows: dict[str, list[encoder.Part]] = {
            "s": [encoder.row(0, 1)], "t": [encoder.row(3, 1), encoder.row(5, 2)], "u": []}
        tables = [encoder.table(name, [encoder.column("k")], rows=rows[name]) for name in rows]
        trace = [encoder.started(), encoder.act("wrote", "f"), encoder.act("opened append", "g"),
                 encoder.asked(), encoder.ended()]
        self.package = encoder.encode(encoder.package(steps=8, tables=tables, trace=trace))

    def answered(self, number: str = "3\n", other: Any = None) -> tuple[Any, bytes, str]:
        """What refused.py ends with and prints where each command has so many requests,
        perhaps with one other answer."""
        def call(_: Any, words: list[str], data: bytes, at: int = 0, count: str = "") -> Any:
            with open(count or os.devnull, "w", encoding="ascii") as file:
                file.write(number)
            if at == 0:
                return 0, self.package, b""
            return other if at == 2 and other else (11, b"", b"ldv: out of memory\n")
        path = self.put("any", "")
        with mock.patch("refused.Program.call", call):
            return tool(refused, path, path, "--jobs", "1")

    def test_answers(self) -> None:
        status, out, err = self.answered()
        self.assertEqual((status, err), (0, ""))
        for words in ("record --excluded", "inspect depends f", "inspect why t 3", "table t 8", "join",
                      "replay --run 2", "gen 2"):
            self.assertIn(f"{words}: 3 requests, 0 done without, 0 answered otherwise\n", out.decode())
        status, out, _ = self.answered(other=(0, self.package, b""))
        self.assertEqual(status, 0)
        self.assertIn("run: 3 requests, 1 done without, 0 answered otherwise\n", out.decode())
        for other in ((0, b"", b""), (11, b"x", b"ldv: out of memory\n"), (None, b"", b"")):
            status, out, _ = self.answered(other=other)
            self.assertEqual(status, 1)
            self.assertIn(f"request 2: status {other[0]}", out.decode())
        self.assertIn("no request of memory", self.answered(number="0\n")[0])

    def test_no_rows(self) -> None:
        items = refused.items_of(read_package(encoder.encode(encoder.package())))
        self.assertEqual(list(items), [["inspect", "depends", "main"]])

    @unittest.skipUnless(shutil.which("cc") and sys.platform == "linux", "there is no cc")
    def test_shim(self) -> None:
        """The request of a number is refused, and all are counted. A shim that isn't one is found."""
        asker, shim = os.path.join(self.folder, "asker"), os.path.join(self.folder, "refuse.so")
        self.assertEqual(command(["cc", "-fno-builtin", "-w", "-o", asker, self.put("asker.c", ASKER)])[0], 0)
        self.assertEqual(command(["cc", "-shared", "-fPIC", "-Wall", "-Werror", "-o", shim,
                                  os.path.join(FOLDER, "refuse.c")])[0], 0)
        program = refused.Program(asker, shim, self.folder)
        self.assertEqual(program.requests([], b""), (5, b""))
        for number in range(1, 6):
            self.assertEqual(program.call([], b"", number), refused.REFUSED, number)
        self.assertEqual(program.call([], b"", 6), (0, b"", b""))
        program.shim = self.put("none.so", "")
        with self.assertRaisesRegex(SystemExit, "was not taken in"):
            program.requests([], b"")


class HardInputs(InFolder):
    """hard.py and hard_worlds.py, with programs that answer at once."""

    def test_hard_values(self) -> None:
        """Each case of hard.py is asked over each form of values; that a program fails or refuses is said."""
        program = self.put("program", "#!/bin/sh\ncat > /dev/null\n")
        os.chmod(program, 0o755)
        words = ["env", f"PYTHONPATH={PATH}", sys.executable, os.path.join(FOLDER, "hard.py"), program,
                 self.folder, "--size", "10", "--runs", "1"]
        status, out, err = command(words)
        self.assertEqual((status, set(err.decode().splitlines()) - {WITHHELD}), (0, set()))
        rows = [line.split()[:3] for line in out.decode().splitlines()]
        forms = {"number": ["usual", "falling", "equal"], "text": ["usual", "falling", "equal", "last"]}
        cases = ("group", "distinct", "union", "order", "join", "update", "insert")
        asked = [[case, kind, form] for case in cases for kind, those in forms.items() for form in those
                 if form != "equal" or case not in ("join", "insert")]
        self.assertEqual(rows[1:-1], asked)
        self.assertEqual(rows[-1][:2], ["aims", "missed:"])
        self.put("program", "#!/bin/sh\ncat > /dev/null\nexit 7\n")
        self.assertEqual(command([*words, "--cases", "join"])[0], 1)
        self.put("program", "#!/bin/sh\ncat > /dev/null\necho refused 3\n")
        status, _, err = command([*words, "--cases", "order"])
        self.assertEqual(status, 1)
        self.assertIn(b"hard: a statement is refused", err)

    def hard_worlds(self, program: str, *words: str) -> tuple[int, bytes, bytes]:
        """What hard_worlds.py ends with and says, over small inputs."""
        return command(["env", f"PYTHONPATH={PATH}", sys.executable, os.path.join(FOLDER, "hard_worlds.py"),
                        program, self.folder, "--scale", "0.001", "--runs", "1", *words])

    def test_hard_pairs(self) -> None:
        """Each pair is two inputs, and those that `run` reads have the script that is started."""
        for name, pair in hard_worlds.PAIRS.items():
            hard, usual = pair.make(4)
            self.assertTrue(hard != usual, name)
            for text in (hard, usual) if pair.words == ("run",) and pair.statuses == (0, 0) else ():
                self.assertTrue("main" in json.loads(text)["files"], name)

    def test_hard_worlds(self) -> None:
        """That a program ends otherwise than it has to is said."""
        program = self.put("program", "#!/bin/sh\ncat > /dev/null\n")
        os.chmod(program, 0o755)
        names = [name for name, pair in hard_worlds.PAIRS.items() if pair.statuses == (0, 0)]
        status, out, err = self.hard_worlds(program, "--worlds", ",".join(names))
        self.assertEqual((status, set(err.decode().splitlines()) - {WITHHELD}), (0, set()))
        self.assertEqual([line.split()[0] for line in out.decode().splitlines()], ["world", *names, "aims"])
        status, _, err = self.hard_worlds(program, "--worlds", "key_twice")
        self.assertEqual(status, 1)
        self.assertIn(b"hard_worlds: key_twice ended with 0 and not with 6", err)

    def test_hard_worlds_are_answered(self) -> None:
        """The program ends with what each pair says: a world that is none by mistake measures nothing."""
        status, out, err = self.hard_worlds(support.PROGRAM)
        self.assertEqual((status, set(err.decode().splitlines()) - {WITHHELD}), (0, set()))
        self.assertEqual(len(out.decode().splitlines()), 2 + len(hard_worlds.PAIRS))


class FakeCalls:
    """In place of the calls of hostile.py: each gets the same answer, and what is asked is kept."""

    def __init__(self, answer: Any, asked_here: Any) -> None:
        self.answer, self.asked = answer, asked_here

    def call(self, words: list[str], data: bytes) -> Any:
        self.asked.append((words, data))
        return self.answer if words[0] != "record" else (6, b"", b"ldv: not a world: shape\n")


class HostileInputs(InFolder):
    """hostile.py, with answers that are given to it."""

    def test_complaints(self) -> None:
        line = b"ldv: a line\n"
        for words, right, answer in each_of(
                (["run"], True, (0, b"x", b"")), (["run"], True, (6, b"", line)),
                (["run"], True, (11, b"", line)), (["table", "order", "0"], False, (2, b"", line)),
                (["inspect", "rows"], True, (0, b"", b"")),
                (["prov"], True, (8, b"", line)), (["prov", "depends", "q"], True, (16, b"", line)),
                (["join"], True, (15, b"", line)), (["replay", "--run", "1"], True, (7, b"", line)),
                (["prov", "depends", "q"], True, (0, b"", b"")), (["prov", "depends"], False, (2, b"", line)),
                (["inspect", "depends", "q"], True, (0, b"", b"")), (["replay"], True, (9, b"", line))):
            self.assertIsNone(hostile.complaint(words, right, answer), (words, answer))
        for words, right, answer in each_of(
                (["run"], True, (2, b"", line)), (["run", "run"], False, (0, b"x", b"")),
                (["run", "run"], False, (6, b"", line)), (["run"], True, (0, b"", b"")),
                (["inspect", "files"], True, (0, b"", b"")), (["run"], True, (0, b"x", line)),
                (["run"], True, (6, b"x", line)), (["run"], True, (6, b"", line + line)),
                (["run"], True, (6, b"", b"")), (["run"], True, (-11, b"", b"")),
                (["prov"], True, (16, b"", line)), (["prov", "depends", "q"], True, (8, b"", line)),
                (["replay"], True, (15, b"", line)), (["replay", "--run", "1"], True, (9, b"", line)),
                (["run"], True, (8, b"", line)), (["run"], True, (None, b"", b""))):
            self.assertIsNotNone(hostile.complaint(words, right, answer), (words, answer))

    def test_other_values(self) -> None:
        """A document whose parts are of other types has no cells and no scripts."""
        for rows in (5, True, 2 ** 64, "ab", None, {"a": [1]}):
            self.assertEqual(hostile.inner_places({"files": {}, "tables": {"t": {"rows": rows}}}), [])
        self.assertEqual(hostile.inner_places({"files": {}, "tables": {"t": {"rows": [5, [1]]}}}), [([1], 0)])

    def asked(self, answer: Any) -> Any:
        """The calls of a few inputs where each but `record` gets this answer."""
        asked_here: list[Any] = []
        document = read(f"{EXAMPLES}/orders.json")
        made = encoder.encode(encoder.package())
        job = ("program", {"modes": [[], ["--excluded"]]}, 1, 200, self.folder, list(hostile.STATUSES),
               self.folder)
        with mock.patch("hostile.Calls", lambda *_: FakeCalls(answer, asked_here)), \
                mock.patch("hostile.replays", lambda *_: None), \
                mock.patch("hostile.migrates", lambda *_: None), \
                mock.patch("hostile.reads", lambda *_: None), \
                mock.patch("hostile.judges", lambda *_: None), \
                mock.patch("hostile.is_joined_with", lambda *_: None), \
                mock.patch("hostile.corpus",
                           lambda: ([document], [document], [made], [made], [PROVENANCE], [JOINED])):
            hostile.work(job)
        return asked_here

    def test_same_inputs(self) -> None:
        """The inputs don't depend on the answers."""
        asked_here = self.asked((0, b"x", b""))
        self.assertEqual(len(asked_here), 201)
        self.assertEqual(asked_here, self.asked((6, b"", b"ldv: not a world: shape\n")))

    def test_provenance(self) -> None:
        """Documents are made that are some and that are none, and each answer is compared with the tools."""
        chance = random.Random(1)
        counts: collections.Counter[Any] = collections.Counter()
        for _ in range(400):
            made = hostile_documents.mutated_provenance(chance, PROVENANCE)
            kinds = [status for status, output in ((0, b"path main\nprocess 0\n"), (10, b""), (16, b""))
                     if hostile_documents.reads(made, "g", (status, output, b"")) is None]
            counts.update(kinds)
            self.assertLessEqual(len(kinds), 1)
        for status in (0, 10, 16):
            self.assertGreater(counts[status], 4)
        self.assertIsNotNone(hostile_documents.reads(PROVENANCE, "g", (0, b"process 0\n", b"")))

    def test_pairs(self) -> None:
        """Pairs are made that are joined, that clash in each way, and that are none."""
        chance = random.Random(1)
        counts: collections.Counter[Any] = collections.Counter()
        names = ("rows", "picked", "plain in runs", "logs")
        bases = [encoder.encode(encoder.BASES[name]) for name in names]
        bases += map(encoder.encode, (join_cases.FIRST, join_cases.SECOND))
        for _ in range(1500):
            made = hostile_joins.mutated_pair(chance, bases, bases)
            pair = hostile_joins.pair_in(made)
            if pair is None:
                counts["no pair"] += 1
                continue
            try:
                first, second = map(read_package, pair)
            except Malformed:
                counts["no packages"] += 1
                continue
            if max(first.event_count(), second.event_count()) > 1000:
                continue
            clash = clash_of(first, second)
            if clash is None:
                both = packages_joined.joined(first, second)
                self.assertIsNone(hostile_joins.judges(made, (0, both, b"")))
                self.assertIsNotNone(hostile_joins.judges(made, (0, both + b"x", b"")))
                self.assertIsNotNone(hostile_joins.judges(made, (15, b"", b"ldv: clash: file main\n")))
            else:
                said = f"ldv: clash: {clash.name}\n".encode()
                self.assertIsNone(hostile_joins.judges(made, (15, b"", said)))
                self.assertIsNotNone(hostile_joins.judges(made, (15, b"", b"ldv: clash: table none\n")))
                self.assertIsNotNone(hostile_joins.judges(made, (0, b"LDVJOIN1", b"")))
            counts["joined" if clash is None else clash.name.split(" ")[0]] += 1
            counts["foreign keys"] += clash is not None and clash.lines[0].startswith("foreign keys: ")
        for each in ("no pair", "no packages", "joined", "file", "table", "row", "key", "foreign keys"):
            self.assertGreater(counts[each], 4, each)
        self.assertIsNone(hostile_joins.judges(b"", (8, b"", b"ldv: damaged: form\n")))
        self.assertIsNotNone(hostile_joins.judges(b"", (15, b"", b"ldv: clash: file main\n")))

    def test_joined(self) -> None:
        """Joined packages are made with right digests and wrong ones, and with their runs exchanged."""
        chance = random.Random(1)
        counts: collections.Counter[str] = collections.Counter()
        for _ in range(500):
            made = hostile_joins.mutated_joined(chance, [JOINED, WITH_PARENTS])
            counts["read" if hostile_joins.is_joined(made) else "not read"] += 1
            counts["exchanged"] += made == packages_joined.joined(TWO._replace(seed=5), TWO)
            counts["as it is"] += made == JOINED
        for each in ("read", "not read", "exchanged", "as it is"):
            self.assertGreater(counts[each], 4, each)

    def test_joins(self) -> None:
        """Of two runs of a world each has to be replayed as it is run."""
        answers = {"join": (0, JOINED, b""), "1": (0, b"x", b""), "2": (0, b"y", b"")}

        def told(**others: Any) -> Any:
            calls = mock.Mock(call=lambda words, data: {**answers, **others}[words[-1]])
            return hostile_joins.joins(calls, b"a", b"x", b"b", b"y")

        self.assertIsNone(told())
        self.assertIsNone(told(join=(12, b"", b"ldv: package longer than 67108864 bytes\n")))
        self.assertIn("status 15", told(join=(15, b"", b"ldv: clash: key t 1\n")))
        self.assertIn("run 2", told(**{"2": (0, b"x", b"")}))

    def test_packages(self) -> None:
        """Packages are made of both versions, with right digests and wrong ones; of runs those at the limits
        of their numbers, and those that could be longer."""
        chance = random.Random(1)
        counts: collections.Counter[Any] = collections.Counter()
        loop = encoder.encode(encoder.BASES["loop"])
        for base in (loop, encoder.encode(encoder.BASES["rows"])) * 1000:
            made = hostile.package_input(chance, base)
            try:
                found = read_package(made)
            except Malformed as fault:
                counts["its digest is another one" if "digest" in str(fault) else made[:8]] += 1
                continue
            counts[found.version] += 1
            counts["as many as may be"] += found.event_count() == 20_000_001
            if found.version == 2 and found.event_count() < 100:
                longest = encoder.cut(package_versions.event_of(each) for each in found.events)
                counts["could be longer"] += longest != hostile_packages.runs_of(found)
        for each in (1, 2, b"LDVPACK1", b"LDVPACK2", "its digest is another one", "as many as may be",
                     "could be longer"):
            self.assertGreater(counts[each], 4, each)

    def test_other_version(self) -> None:
        """A package in the other version is the same package; what is none stays."""
        for base in ("rows", "acts in runs", "logs"):
            given = encoder.encode(encoder.BASES[base])
            other = hostile_packages.in_other_version(given)
            self.assertNotEqual(other[:8], given[:8])
            self.assertEqual(list(read_package(other).events), list(read_package(given).events))
            self.assertEqual(hostile_packages.in_other_version(other), given)
        self.assertEqual(hostile_packages.in_other_version(b"LDVPACK1"), b"LDVPACK1")
        # What only a program with foreign keys takes for a package.
        rule = {"trace.1.reads.0.rows.0.rule": 4, "trace.1.reads.0.rows.1.rule": 5, "tables.0.rows.0.rule": 4}
        given = encoder.encode(encoder.changed("rows", rule))
        self.assertEqual(hostile_packages.in_other_version(hostile_packages.in_other_version(given)), given)
        # The second event's step has no spelling in 32 bits.
        runs = [encoder.run(encoder.started()), encoder.run(encoder.act("tested", "f", 2**32 - 1), 2, 1)]
        given = encoder.encode(encoder.package(2, runs=runs))
        self.assertEqual([event.step for event in read_package(given).events], [0, 2**32 - 1, 2**32])
        self.assertEqual(hostile_packages.in_other_version(given), given)

    def test_no_other_runs(self) -> None:
        """Steps that go down aren't those of runs, so that the package has no other runs."""
        trace = [encoder.started(), encoder.act("tested", "f", 9), encoder.act("tested", "f", 2)]
        given = encoder.encode(encoder.package(trace=trace))
        self.assertEqual([event.step for event in read_package(given).events], [0, 9, 2])
        for seed in range(50):
            other = hostile_packages.with_other_runs(random.Random(seed), given)
            self.assertTrue(other is None or other.startswith(b"LDVPACK2"))
            self.assertTrue(hostile_packages.mutated_package(random.Random(seed), given))

    def test_migrated(self) -> None:
        """What `migrate` wrote is judged by its version, by what it becomes again and by its replay."""
        old, new = (encoder.encode(encoder.BASES[name]) for name in ("plain", "plain in runs"))
        right = {("migrate", new): (0, new, b""),
                 ("replay", old): (0, b"x", b""), ("replay", new): (0, b"x", b"")}

        def told(package: Any, **others: Any) -> Any:
            answers = {**right, **{(word, new): answer for word, answer in others.items()}}
            calls = mock.Mock(call=lambda words, data: answers[words[0], data])
            return hostile.migrates(calls, old, package)

        self.assertIsNone(told(new))
        self.assertIsNone(told(new, replay=(11, b"", b"ldv: out of memory\n")))
        self.assertIn("no package of version 2", told(old))
        self.assertIn("something else", told(new, migrate=(0, old, b"")))
        self.assertIn("something else", told(new, migrate=(8, b"", b"ldv: damaged: form\n")))
        self.assertIn("replay", told(new, replay=(0, b"y", b"")))

    def test_scripts(self) -> None:
        """The scripts of both find their folder, and say where the program isn't there."""
        program = os.path.join(self.folder, "none")
        for name in ("hostile", "refused") if shutil.which("cc") else ("hostile",):
            done = subprocess.run([f"tests/robustness/{name}.sh"], cwd=ROOT, capture_output=True, check=False,
                                  env={**os.environ, "CDPATH": ROOT, "LDV": program, "TMPDIR": self.folder})
            self.assertEqual((done.returncode, done.stdout), (2, b""), done.stderr)
            said = f" {program}\n".encode() if name == "refused" else b" is no program\n"
            self.assertTrue(done.stderr.endswith(said))
            self.assertEqual(os.listdir(self.folder), [])

    def test_repeated_statements(self) -> None:
        """Scripts ask a statement several times, with parameters of each kind, and stay as they are else."""
        chance = random.Random(1)
        found: set[str] = set()
        asking = '  sql r "SELECT a FROM t WHERE a = ?"'
        script = f'let x = 1\n{asking} x\nprint "hi"\n'
        for _ in range(300):
            made = hostile.mutated_text(chance, script)
            lines = [line for line in made.splitlines() if line.startswith(asking)]
            if len(lines) > 2:
                others = [line for line in made.splitlines() if line not in lines]
                self.assertEqual(others, ["let x = 1", 'print "hi"'])
                found.update(line.split('"', 2)[2] for line in lines)
        self.assertLessEqual({" null", " -1", ' "a"', " x"}, found)
        self.assertEqual({values.count(" ") for values in found}, {1, 2})

    def test_lines(self) -> None:
        """Each instruction of the language is in the lines that scripts are given."""
        chance = random.Random(1)
        found = {(hostile.script_line(chance).split(" ") + [""])[0] for _ in range(2000)}
        self.assertEqual(set(INSTRUCTIONS) - found, set())


def table_of(name: str) -> against_sqlite.Table:
    """A table of repeated.py, as against_sqlite.py has tables."""
    given: Any = repeated.TABLES[name]
    columns = [against_sqlite.Column(column, kind.startswith("TEXT"), kind.endswith("NOT NULL"))
               for column, kind in given["columns"]]
    places = {column.name: place for place, column in enumerate(columns)}
    return against_sqlite.Table(name, columns, [places[key] for key in given.get("key", [])], given["rows"],
                                [against_sqlite.Foreign([places[column] for column in own], parent)
                                 for own, parent in given.get("foreign", [])])


class RepeatedTexts(InFolder):
    """repeated.py, with answers that are given to it and with the program."""

    def test_twin(self) -> None:
        """The twin of a world asks the same questions with the same parameters, and no text twice."""
        for name, _tables, questions in repeated.worlds(1, 5):
            other = repeated.twin(questions)
            self.assertEqual(len({each.text for each in other}), len(questions), name)
            self.assertLess(len({each.text for each in questions}), len(questions) / 2, name)
            for each, own in zip(questions, other):
                self.assertEqual((own.text[:-16], own.params), (each.text, each.params))
                self.assertEqual(own.text[-16:].strip(" \t"), "")

    def test_worlds(self) -> None:
        """Each world has what its name says."""
        made = {name: make() for name, make in repeated.WORLDS.items()}
        self.assertGreater(len({each.text for each in made["many_texts"]}), 128)
        sizes = {(len(each.text.encode()), each.text.isascii()) for each in made["long_texts"]}
        self.assertLessEqual({(size, plain) for size in (1024, 1025) for plain in (True, False)}, sizes)
        by_text: dict[str, set[type]] = collections.defaultdict(set)
        for each in made["other_kinds"] + made["limits"]:
            by_text[each.text].update(type(value) for value in each.params)
        for text, kinds in by_text.items():
            self.assertEqual(kinds, {int, str, type(None)}, text)
        self.assertEqual({len(each.params) for each in made["numbers_of_parameters"]}, {0, 1, 2, 3, 254, 255})

    def test_difference(self) -> None:
        """A world and its twin that are answered otherwise are told, and so is a lost reply."""
        def told(first: Any, second: Any) -> Any:
            given = mock.Mock(side_effect=[first, second])
            with mock.patch("repeated.answers", given), mock.patch("repeated.counted", lambda *_: 2):
                asked = [repeated.Question("SELECT 1", [])] * 2
                return repeated.difference("program", {}, asked, collections.Counter())

        right = {"run": b"a", "inspect rows": b"b"}
        self.assertIsNone(told(right, right))
        self.assertEqual(told(right, {**right, "run": b"x"}), "`run` writes something else")
        self.assertEqual(told(right, {**right, "inspect rows": b"x"}), "`inspect rows` writes something else")
        self.assertIn("status 11", told(right, Malformed("run: status 11: ldv: out of memory")))
        with mock.patch("repeated.answers", lambda *_: right), mock.patch("repeated.counted", lambda *_: 1):
            asked = [repeated.Question("SELECT 1", [])] * 2
            self.assertEqual(repeated.difference("program", {}, asked, collections.Counter()),
                             "1 replies to 2 questions")

    def test_kept_worlds(self) -> None:
        """A world that differs is kept with its twin, and the status is 1."""
        with mock.patch("repeated.difference", lambda *_: "`run` writes something else"):
            status, out, _ = tool(repeated, "program", "--worlds", "0", "--folder", self.folder)
        self.assertEqual(status, 1)
        self.assertTrue(out.endswith(f"{len(repeated.WORLDS)} worlds differ from their twins\n".encode()))
        self.assertEqual(len(os.listdir(self.folder)), 2 * len(repeated.WORLDS))
        main = json.loads(read(os.path.join(self.folder, "repeated_limits_again.json")))["files"]["main"]
        self.assertIn('sql q "SELECT k FROM t ORDER BY k DESC LIMIT ?" 2\n', main)

    @unittest.skipUnless(os.access(support.PROGRAM, os.X_OK), "the program isn't built")
    def test_program(self) -> None:
        """The program answers each world as its twin, and meets each refusal but that of a full table."""
        status, out, _ = tool(repeated, support.PROGRAM, "--worlds", "3", "--folder", self.folder)
        self.assertEqual((status, os.listdir(self.folder)), (0, []), out)
        kinds = {line.rsplit(None, 1)[0] for line in out.decode().splitlines()[:-1]}
        refused_by = {f"refused {code}" for code in (1, 2, 3, 4, 5, 6, 8, 9)}
        self.assertEqual(kinds, {"rows", "changed", *refused_by})

    @unittest.skipUnless(os.access(support.PROGRAM, os.X_OK), "the program isn't built")
    def test_sqlite(self) -> None:
        """SQLite gives the same replies to questions whose texts are asked again between changes."""
        tables = [table_of(name) for name in repeated.TABLES]
        questions = repeated.changed_between() + repeated.many_texts()[:400]
        asked = [against_sqlite.Asked(each.text, list(each.params)) for each in questions]
        base = against_sqlite.opened(tables)
        self.addCleanup(base.close)
        replies = against_sqlite.replies_of([support.PROGRAM, "run"], against_sqlite.world_of(tables, asked))
        self.assertIsNone(against_sqlite.difference(asked, base, replies, collections.Counter()))
