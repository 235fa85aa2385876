"""1,000 inputs for bundle.py, playback.py and capture.py that were cut, flipped, doubled or mixed: each is
taken or refused, with no traceback and no word of Python. What the program ldv would answer is made up."""
from __future__ import annotations

import contextlib
import json
import os
import random
import shutil
import sys
from typing import Any, Callable
from unittest import mock

from cases import encoder
from ldvtools import bundle, capture, picture, playback
from ldvtools.captured_file import read_seen
from ldvtools.captured_run import run_program
from ldvtools.errors import Malformed
from ldvtools.packages import read_package
from ldvtools.provenance import document_text, provenance_of
from ldvtools.values import Reply, changed_reply, rows_reply

from .support import InFolder, make_database, read, tool
from .test_as_read import OUTCOME, ROWS, SCRIPT, packed
from .test_mutated import COUNT, mutated, sealed

PYTHON = ("Traceback", "Error(", "codec", "NoneType", "object has no", "to unpack", " b'", "<class")
# What a program saw: each way and kind of value, rows made of a reply, a fault, and parameters of each kind.
SEEN = {
    "form": 1, "texts": ["SELECT cost, n FROM t", "INSERT INTO t VALUES (?)", "SELECT AVG(n) FROM t", "bad"],
    "connections": [{"process": 0, "driver": "sqlite3", "events": [
        {"text": 0, "way": "one", "params": [1, None, "x", True, {"float": "0.5"}, {"bytes": "00ff"},
                                             {"list": [1, {"kind": ["date", "2024-02-01"]}]}],
         "in": False, "head": ["cost", "n"], "changed": -1, "reply": [0, 1],
         "parts": [["take", 0, 0], ["count", 1, 0]], "scales": [2, 0], "kinds": ["float", "plain"],
         "skip": 1, "order": [1, 0]},
        {"text": 1, "way": "many", "params": [[1], {"named": {"a": 1}}], "in": True, "changed": 1, "last": 7,
         "reply": [1, 2]},
        {"text": 3, "way": "one", "params": {"kind": ["other", "x"]}, "in": True, "fault": [
            "sqlite3", "OperationalError", ["no such column", 1], {"sqlite_errorcode": 1}]}]},
        {"process": 1, "driver": "psycopg2", "events": [
            {"text": 2, "way": "one", "params": [], "in": False, "head": ["avg"], "types": [1700],
             "reply": [3, 1], "parts": [["avg", 0, 1]], "scales": [0, 0], "kinds": ["decimal"]},
            {"text": 0, "way": "one", "params": {"named": {"a": {"float": "nan"}}}, "in": False,
             "head": ["at"], "rows": [[{"kind": ["datetime", "2024-02-01 10:00"]}], [None]]}]}]}
REPLIES = ("outcome 1 0\nprocess 0 0 0 4\n\nrows 3\nrow 2\nint 100\nint 1\nrow 2\nint 250\nnull\nrow 2\n"
           "null\nint 3\nchanged 1\nchanged 1\nrows 1\nrow 2\nint 7\nint 2\n")
TABLES = """PRAGMA page_size = 512;
CREATE TABLE people (id INTEGER PRIMARY KEY, name TEXT NOT NULL COLLATE NOCASE, height REAL, seen DATE);
CREATE TABLE visits (id INTEGER PRIMARY KEY, person INT REFERENCES people (id), dose INT);
CREATE VIEW v AS SELECT * FROM people;
INSERT INTO people VALUES (1, 'Ada', 1.7, '2024-01-02'), (2, 'Bo', 1.82, NULL);
INSERT INTO visits VALUES (1, 1, 10), (2, 2, NULL);
"""
PROGRAM = """import sqlite3
con = sqlite3.connect("study.db")
con.execute("SELECT name, height FROM people WHERE height > 1.5 ORDER BY name").fetchall()
join = "people p JOIN visits v ON v.person = p.id"
con.execute(f"SELECT p.name, AVG(v.dose) FROM {join} GROUP BY p.name").fetchall()
con.execute("INSERT INTO visits (person, dose) VALUES (?, ?)", (1, 30))
con.commit()
try:
    con.execute("SELECT nothing FROM people")
except sqlite3.Error:
    pass
con.execute("SELECT * FROM v WHERE name LIKE 'A%'").fetchall()
"""


class MutatedPrograms(InFolder):
    def setUp(self) -> None:
        super().setUp()
        self.chance = random.Random(54)

    def tried(self, module: Any, words: list[str]) -> Any:
        """How a call ends; a status of its own, and no word of Python."""
        try:
            status, _, err = tool(module, *words)
        except Exception as fault:
            self.fail(f"{module.__name__} {words}: {fault!r}")
        self.assertIn(status, (0, 1, 2, 9), words)
        for word in PYTHON:
            self.assertNotIn(word, err)
        return status

    def change(self, data: bytes, number: int) -> bytes:
        return (sealed if number % 2 else mutated)(data, self.chance)

    def test_bundles(self) -> None:
        """bundle.py over packages, half of them with a right digest, and over what a program answers."""
        data = packed(ROWS, script=SCRIPT)
        prov = document_text(provenance_of(read_package(data))).encode()
        program = self.put("program", b"\0GLIBC_2.34\0")
        path, package = os.path.join(self.folder, "made.zip"), os.path.join(self.folder, "p.package")
        ended = set()

        def answer(number: int) -> Callable[..., tuple[int, bytes, str]]:
            def answered(_: Any, words: list[str], __: Any) -> tuple[int, bytes, str]:
                found = {"replay": OUTCOME.encode(), "audit": b"sound\n", "prov": prov}[words[0]]
                return 0, mutated(found, self.chance) if number % 6 == 0 else found, ""
            return answered

        def image(_: Any, path: str, __: Any) -> None:
            with open(path, "wb") as file:
                file.write(b"<svg/>")

        for number in range(COUNT):
            self.put("p.package", data if number % 3 == 0 else self.change(data, number))
            with mock.patch.object(bundle, "answer_of", answer(number)), \
                    mock.patch.object(picture, "write_svg", image):
                ended.add(self.tried(bundle, [package, "--ldv", program, "-o", path]))
            with contextlib.suppress(FileNotFoundError):
                os.remove(path)
        self.assertEqual(ended, {0, 1})

    def test_playbacks(self) -> None:
        """playback.py over packages, over what a program saw, and over replies."""
        seen, ended, taken = json.dumps(SEEN).encode(), set(), 0
        self.assertEqual(read_seen(seen), SEEN)

        def package(content: Any) -> bytes:
            files = [encoder.file("capture.json", content), encoder.file("main", "exit 0")]
            trace = [encoder.started(), encoder.ended()]
            return encoder.encode(encoder.package(files=files, trace=trace))

        for number in range(COUNT):
            content = mutated(seen, self.chance) if number % 3 == 0 else seen
            data = package(content.decode(errors="replace"))
            data = self.change(data, number) if number % 3 == 1 else data
            replies = mutated(REPLIES.encode(), self.chance) if number % 3 == 2 else REPLIES.encode()
            path = self.put("p", data)
            with mock.patch.object(playback, "answer_of", lambda *_, found=replies: (0, found, "")), \
                    mock.patch.object(playback, "run_program", lambda *_: 0):
                ended.add(self.tried(playback, ["--ldv", "true", path, "--", "true"]))
            with contextlib.suppress(Malformed):
                read_seen(content)
                taken += content != seen
        self.assertEqual(ended, {0, 1})
        self.assertGreater(taken, 0)

    def test_captures(self) -> None:
        """capture.py over databases and over the log of a program, which may be cut off anywhere."""
        self.put("program.py", PROGRAM)
        before = os.getcwd()
        os.chdir(self.folder)
        self.addCleanup(os.chdir, before)
        make_database("whole.db", TABLES)
        whole, logs, ended = read("whole.db"), os.path.join(self.folder, "logs"), set()
        os.mkdir(logs)
        shutil.copy("whole.db", "study.db")
        self.assertEqual(run_program([sys.executable, "program.py"], "record", logs), 0)
        kept = {name: read(os.path.join(logs, name)) for name in os.listdir(logs)}

        def recorded(number: int) -> Callable[..., int]:
            def ran(_: Any, __: Any, folder: str) -> int:
                for name, data in kept.items():
                    with open(os.path.join(folder, name), "wb") as file:
                        file.write(mutated(data, self.chance) if number % 3 == 0 else data)
                return 0
            return ran

        def replies(_: Any, __: Any, count: int) -> list[Reply]:
            return [self.chance.choice((rows_reply([["Ada", 170], ["Bo", 182]]), changed_reply(1),
                                        rows_reply([]))) for _ in range(count)]

        for number in range(COUNT):
            begin = 0 if number % 4 == 0 else 100
            self.put("study.db", whole if number % 3 == 0 else
                     whole[:begin] + mutated(whole[begin:], self.chance))
            with mock.patch.object(capture, "run_program", recorded(number)), \
                    mock.patch.object(capture, "replies_of", replies):
                ended.add(self.tried(capture, [
                    "-q", "--ldv", "true", "--sqlite", "study.db", "--scale", "people.height=2",
                    *["--skip-unreadable"][:number % 2], "-o", "w.json", "--", "true"]))
        self.assertEqual(ended, {0, 1})
