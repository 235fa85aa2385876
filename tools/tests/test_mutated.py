"""1,000 inputs for each tool that were cut, flipped, doubled or mixed: each is read or refused, with no
traceback."""
from __future__ import annotations

import json
import os
import random
from typing import Any, Iterator

from ldvtools import check, diff, join, orders, outcome, package, page, picture, prov, world
from ldvtools.packages import read_package
from ldvtools.provenance import Edge, Node, Provenance, document_text
from ldvtools.trace import graph_of

from .support import InFolder, make_database, read, tool
from .test_as_read import FILES, KINDS, OUTCOME, ROWS, SCRIPT, packed
from .test_picture import TRACE
from .test_proposal import SAMPLES

COUNT = int(os.environ.get("LDV_MUTATED", "1000"))
BITS = [b"", b"\0", b"\xff", b"{", b"}", b'"', b"'", b";", b",", b"\n", b"\r", b"-1", b"99999999999999999999",
        b"null",
        b"[[[[", b"\xc3", "ü".encode(), b"1e999", b"NaN", b"\\ud800", b"AVG(", b"BETWEEN", b"%", b"0.5",
        b"\t"]
# A database with what a world has not: a view, a trigger, a column that is computed, a collation.
BASE = """PRAGMA page_size = 512;
CREATE TABLE a (id INTEGER PRIMARY KEY, lat REAL, name TEXT COLLATE NOCASE, part BLOB, day DATE);
CREATE TABLE b (a INT REFERENCES a (id) ON DELETE CASCADE, "Order" TEXT, twice INT AS (a * 2) STORED);
CREATE VIEW v AS SELECT id, lat FROM a;
CREATE TRIGGER g AFTER INSERT ON b BEGIN DELETE FROM b WHERE a < 0; END;
INSERT INTO a VALUES (1, 1.25, 'Müller', NULL, '2024/03/11'), (2, 0.5, 'a b', x'00ff', '2024/04/11');
INSERT INTO b (a, "Order") VALUES (1, 'x'), (2, NULL);"""


def mutated(data: bytes, chance: random.Random) -> bytes:
    """A few changes at places by chance. A package keeps a right digest half of the time."""
    for _ in range(chance.randint(1, 4)):
        at = chance.randrange(len(data) + 1)
        how = chance.randrange(5)
        if how == 0:
            data = data[:at]
        elif how == 1 and at < len(data):
            data = data[:at] + bytes([data[at] ^ 1 << chance.randrange(8)]) + data[at + 1:]
        elif how == 2:
            data = data[:at] + chance.choice(BITS) + data[at:]
        elif how == 3:
            end = min(len(data), at + chance.randint(1, 40))
            data = data[:at] + data[end:]
        else:
            data = data[:at] + data[at:at + chance.randint(1, 40)] + data[at:]
    return data


def sealed(data: bytes, chance: random.Random) -> bytes:
    """A mutated package whose digest is right."""
    import hashlib
    body = mutated(data[8:-32], chance)
    return data[:8] + body + hashlib.sha256(data[:8] + body).digest()


class Mutated(InFolder):
    def setUp(self) -> None:
        super().setUp()
        self.chance = random.Random(54)
        tables = {"t": {"columns": [list(column) for column in KINDS["t"]], "key": ["id"], "rows": ROWS}}
        files = {"main": SCRIPT, **{path: data.decode() for path, data in FILES.items()}}
        self.document = json.dumps({"start": ["main"], "files": files, "tables": tables}).encode()
        self.packed = packed(ROWS, script=SCRIPT)

    def tried(self, calls: Any) -> None:
        """Calls of tools over mutated inputs: a status of their own, and no line of Python."""
        for number in range(COUNT):
            for module, words, data in calls(number):
                try:
                    status, _, err = tool(module, *words, given=data)
                except Exception as fault:
                    self.fail(f"{module.__name__} {words} {data!r}: {fault!r}")
                self.assertIn(status, (0, 1, 2), (words, data))
                self.assertNotIn("Traceback", err)

    def test_packages(self) -> None:
        """package.py, page.py, outcome.py over packages; half have a right digest."""
        replies = self.put("o", OUTCOME)
        ways = [[], ["--rows"], ["--statement", "0"], ["--sizes"], ["--byte", "100"], ["--world"]]

        def calls(number: int) -> Iterator[Any]:
            change = sealed if number % 2 else mutated
            data = change(self.packed, self.chance)
            yield package, ways[number % len(ways)], data
            yield page, ["-o", os.path.join(self.folder, "p.html")], data
            yield outcome, ["--package", self.put("p", data), replies], b""

        self.tried(calls)

    def test_documents(self) -> None:
        """check.py and outcome.py over world documents."""
        replies = self.put("o", OUTCOME)

        def calls(_: Any) -> Iterator[Any]:
            data = mutated(self.document, self.chance)
            yield check, [], data
            yield outcome, ["--world", self.put("w", data), replies], b""

        self.tried(calls)

    def test_outcomes(self) -> None:
        """outcome.py and diff.py over outcomes, join.py over packages, prov.py over documents."""
        whole, one = self.put("w.json", self.document), self.put("one", self.packed)
        graph = graph_of(read_package(self.packed))
        nodes = [Node(str(node[0]), "/".join(map(str, node[1:]))) for node in graph.nodes]
        text = document_text(Provenance(nodes, [Edge(*ends, *times) for ends, times in graph.edges.items()]))

        def calls(number: int) -> Iterator[Any]:
            data = mutated(OUTCOME.encode(), self.chance)
            yield outcome, ["--world", whole], data
            yield diff, [self.put("a", data), self.put("b", OUTCOME)], b""
            yield join, [one,
                         self.put("c", (sealed if number % 2 else mutated)(self.packed, self.chance))], b""
            yield prov, ["--replies"], mutated(text.encode(), self.chance)

        self.tried(calls)

    def test_reports(self) -> None:
        """picture.py over the reports of a trace, orders.py over packages."""
        rows, depends = "t 0 0 L\nt 7 0 H\n", "path main\nprocess 0.0\nrow t 0 0\nask 0\nreply 0\n"

        def calls(number: int) -> Iterator[Any]:
            given = [mutated(text.encode(), self.chance) if number % 3 == place else text.encode()
                     for place, text in enumerate((TRACE, rows, depends))]
            names = [self.put(f"report {place}", text) for place, text in enumerate(given)]
            yield picture, ["--rows", names[1], "--depends", names[2], names[0]], b""
            yield orders, [], (sealed if number % 2 else mutated)(self.packed, self.chance)

        self.tried(calls)

    def test_databases(self) -> None:
        """world.py over a database of SQLite whose bytes were changed, whole or at its pages alone."""
        path = os.path.join(self.folder, "whole.db")
        make_database(path, BASE)
        whole, shown = read(path), ["--no-check", "--propose", "--tidy", "--lower"]

        def calls(number: int) -> Iterator[Any]:
            # The first 100 bytes say what the file is; with them changed nothing behind them is read.
            begin = 0 if number % 4 == 0 else 100
            name = self.put("f.db", whole[:begin] + mutated(whole[begin:], self.chance))
            yield world, ["--sqlite", name, *shown[number % 4:number % 4 + 1], "--scale", "a.lat=2", "--ask",
                          "SELECT id FROM a", "-o", os.path.join(self.folder, "w.json")], b""

        self.tried(calls)

    def test_tables(self) -> None:
        """world.py over CSV files and statements, with options that it proposed."""
        def calls(number: int) -> Iterator[Any]:
            data = mutated(SAMPLES.encode("cp1252" if number % 2 else "utf-8"), self.chance)
            query = mutated(b"SELECT nr, AVG(kosten) FROM t WHERE kosten BETWEEN 1.5 AND 20 GROUP BY nr;\n"
                            b"SELECT nr FROM t WHERE datum IN ('1.2.2024', 'x') AND zeit LIKE '06%' -- x\n",
                            self.chance)
            words = ["--csv", self.put("t.csv", data), "--encoding", "mixed", "--delimiter", ";", "--tidy",
                     "--sql", self.put("q.sql", query), "-o", os.path.join(self.folder, "w.json")]
            yield world, words, b""

        self.tried(calls)
