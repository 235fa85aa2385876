"""prov.py: documents, PROV-JSON and PROV-N, the latter by the Python package prov where it is installed, and
pictures, by dot where it is installed."""
from __future__ import annotations

import json
import os
import re
import shutil
import subprocess
import sys
import unittest
from typing import Any, Optional
from urllib.parse import unquote

from cases import encoder
from ldvtools import prov
from ldvtools.errors import Malformed, Refused
from ldvtools.packages import read_package
from ldvtools.provenance import (
    GROUP,
    RELATIONS,
    Edge,
    Node,
    Provenance,
    document_text,
    node_of,
    read_provenance,
)
from ldvtools.trace import graph_of

from . import version2
from .support import HERE, ROOT, InFolder, command, read, tool

CASES = os.path.join(ROOT, "crates/conformance/data")
# A process that read a file, another one, and the first again; a path with marks, and one that ends in a dot.
DOCUMENT = (
    '{"activity":{"ldv:process/0":{"ldv:place":1}},'
    '"entity":{"ldv:path/a \\"b\\" é.":{"ldv:place":2},"ldv:path/main":{"ldv:place":0}},'
    '"used":{"ldv:e0":{"ldv:first":0,"ldv:last":0,"prov:activity":"ldv:process/0",'
    '"prov:entity":"ldv:path/main"},'
    '"ldv:e2":{"ldv:first":1,"ldv:last":7,"prov:activity":"ldv:process/0",'
    '"prov:entity":"ldv:path/a \\"b\\" é."}},'
    '"wasDerivedFrom":{},'
    '"wasGeneratedBy":{"ldv:e1":{"ldv:first":2,"ldv:last":2,"prov:activity":"ldv:process/0",'
    '"prov:entity":"ldv:path/a \\"b\\" é."}},"wasInformedBy":{}}')
PROV_N = """document
  prefix ldv <urn:ldv:>

  entity(ldv:path/main, [prov:label="path main", prov:type='ldv:path', ldv:place=0])
  activity(ldv:process/0, -, -, [prov:label="process 0", prov:type='ldv:process', ldv:place=1])
  entity(ldv:path/a%20%22b%22%20%C3%A9%2E, [LABEL, prov:type='ldv:path', ldv:place=2])
  used(ldv:e0; ldv:process/0, ldv:path/main, -, [ldv:first=0, ldv:last=0])
  wasGeneratedBy(ldv:e1; ldv:path/a%20%22b%22%20%C3%A9%2E, ldv:process/0, -, [ldv:first=2, ldv:last=2])
  used(ldv:e2; ldv:process/0, ldv:path/a%20%22b%22%20%C3%A9%2E, -, [ldv:first=1, ldv:last=7])
endDocument
""".replace("LABEL", 'prov:label="path a \\"b\\" é."')
# What the path with marks came from: itself too, as the process read it before it wrote it.
DRAWN = """digraph provenance {
  rankdir=LR;
  node [fontname="Helvetica", fontsize=11];
  edge [fontname="Helvetica", fontsize=9, arrowsize=0.7];
  n0 [shape=ellipse, label="main"];
  n1 [shape=box, label="process 0"];
  n2 [shape=ellipse, style="filled", fillcolor="#cfe8cf", label="a \\"b\\" é."];
  n0 -> n1 [label="0"];
  n1 -> n2 [label="2"];
  n2 -> n1 [label="1 to 7"];
}
"""


def octets(value: Any) -> bytes:
    return bytes.fromhex(value["hex"]) if isinstance(value, dict) else str(value).encode()


def cases() -> list[Any]:
    """The cases of `prov`: their words, their input, their status and their output."""
    found = []
    for name in ("provenance/documents.json", "provenance/whole.json"):
        found += json.loads(read(os.path.join(CASES, name)))
    return [(each["name"], each["words"], octets(each["input"]), each["status"], octets(each["output"]))
            for each in found]


def documents() -> list[Any]:
    """Each document of the cases once: those that `prov` writes, and those that `prov depends` reads."""
    found: dict[bytes, None] = {}
    for _, words, given, status, output in cases():
        if status == 0 and words == ["prov"]:
            found[output] = None
        elif status == 0 and words[:2] == ["prov", "depends"]:
            found[given] = None
    return list(found)


def back(text: str) -> str:
    """The document of which PROV-JSON was made: no label, type or prefix."""
    made = json.loads(text)

    def value(name: Any) -> Any:
        return int(name["$"]) if isinstance(name, dict) else f"ldv:{unquote(name[4:])}"

    document: dict[str, dict[str, Any]] = {
        name: {} for name in ["activity", "entity", *(each.name for each in RELATIONS.values())]}
    for group in document:
        for name, members in made.get(group, {}).items():
            document[group][f"ldv:{unquote(name[4:])}"] = {
                member: value(each) for member, each in members.items()
                if member not in ("prov:label", "prov:type")}
    return json.dumps(document, ensure_ascii=False, separators=(",", ":"), sort_keys=True)


def with_package() -> Optional[str]:
    """An interpreter that has the Python package prov, or None."""
    for program in (sys.executable, "/usr/bin/python3"):
        if os.access(program, os.X_OK) and command([program, "-I", "-c", "import prov.model"])[0] == 0:
            return program
    return None


class Documents(unittest.TestCase):
    def test_read(self) -> None:
        """A document is read exactly where the program reads it, and written as it was."""
        counts = {True: 0, False: 0}
        for name, words, given, status, output in cases():
            if words == ["prov"] and status == 0:
                self.assertEqual(document_text(read_provenance(output)).encode(), output, name)
            elif words[:2] == ["prov", "depends"] and status in (0, 10, 16):
                counts[status == 16] += 1
                if status == 16:
                    with self.assertRaises(Malformed, msg=name):
                        read_provenance(given)
                else:
                    self.assertEqual(document_text(read_provenance(given)).encode(), given, name)
        self.assertGreater(counts[False], 20)
        self.assertGreater(counts[True], 40)

    def test_graph(self) -> None:
        """The graph of a package's trace, as the tools make it, is that of the document."""
        for name, words, given, status, output in cases():
            if words == ["prov"] and status == 0:
                document, package = read_provenance(output), read_package(given)
                made = {process: place for place, process in enumerate(package.process_names())}
                graph = graph_of(package)
                nodes = [Node(str(kind), "/".join(
                    str(made[str(each)] if kind == "process" else each) for each in rest))
                         for kind, *rest in graph.nodes]
                self.assertEqual(sorted(nodes), sorted(document.nodes), name)
                self.assertEqual(
                    sorted((nodes[source], nodes[target], first, last)
                           for (source, target), (first, last) in graph.edges.items()),
                    sorted((document.nodes[edge.source], document.nodes[edge.target], edge.first, edge.last)
                           for edge in document.edges), name)

    def test_malformed(self) -> None:
        for old, new, message in (
                ('"ldv:place":1', '"ldv:place":2', "a node before it has place"),
                ('"ldv:place":1', '"ldv:place":3', "ldv:place is no number from 0 to 2"),
                ('"ldv:place":1', '"ldv:place":true', "ldv:place is no number from 0 to 2"),
                ("process/0", "process/00", "'00' is no number of four bytes"),
                ("process/0", "process/4294967296", "'4294967296' is no number of four bytes"),
                ("process/0", "thread/0", "'ldv:thread/0' is no id of a node"),
                ("path/main", "row/select/0/0", "is no table with a row and a version"),
                ("path/main", "path/\\u001f", "the path is outside its rule"),
                ("path/main", "ask/0", "'ldv:ask/0' stands under entity"),
                ("ldv:e2", "ldv:e3", "edges are numbered from 0 on, each once"),
                ("ldv:e2", "ldv:e02", "edges are numbered from 0 on, each once"),
                ('"ldv:last":7', '"ldv:last":0', "its first step comes after its last"),
                ('"ldv:last":7', '"ldv:last":10000001', "ldv:last is no number from 0 to 10000000"),
                ('"ldv:last":7', '"ldv:last":7.0', "ldv:last is no number from 0 to 10000000"),
                ('"prov:entity":"ldv:path/a \\"b\\" é."}},"wasD', '"prov:entity":"ldv:path/main"}},"wasD',
                 "an edge before it is between the same nodes"),
                ('"ldv:process/0","prov:entity"', '"ldv:process/1","prov:entity"',
                 "prov:activity names no node"),
                ('"wasInformedBy":{}', '"wasInformedBy":[]', "wasInformedBy is no object"),
                ('"wasInformedBy":{}', '"wasInformedBy": {}', "its graph is written otherwise, from"),
                ("}}", "}}x", "it isn't JSON"),
                ('{"activity"', "[" * 100_000, "it nests too deep")):
            self.assertIn(old, DOCUMENT)
            status, out, err = tool(prov, given=DOCUMENT.replace(old, new, 1).encode())
            self.assertEqual((status, out), (1, b""), new)
            self.assertIn(message, err, new)
        self.assertIn("no provenance document: it isn't UTF-8", tool(prov, given=b"\xff")[2])
        self.assertIn("the document is no object", tool(prov, given=b"[]")[2])


class Standard(InFolder):
    def test_written(self) -> None:
        status, out, err = tool(prov, given=DOCUMENT.encode())
        self.assertEqual((status, err), (0, ""))
        made = json.loads(out)
        self.assertEqual(made["prefix"], {"ldv": "urn:ldv:", "prov": "http://www.w3.org/ns/prov#",
                                          "xsd": "http://www.w3.org/2001/XMLSchema#"})
        self.assertEqual(made["entity"]["ldv:path/main"], {
            "prov:label": "path main", "prov:type": {"$": "ldv:path", "type": "prov:QUALIFIED_NAME"},
            "ldv:place": {"$": "0", "type": "xsd:int"}})
        self.assertEqual(made["used"]["ldv:e2"], {
            "prov:activity": "ldv:process/0", "prov:entity": "ldv:path/a%20%22b%22%20%C3%A9%2E",
            "ldv:first": {"$": "1", "type": "xsd:int"}, "ldv:last": {"$": "7", "type": "xsd:int"}})
        self.assertEqual(list(made), ["prefix", "entity", "activity", "used", "wasGeneratedBy"])
        self.assertEqual(tool(prov, "--provn", given=DOCUMENT.encode()), (0, PROV_N.encode(), ""))
        other = tool(prov, "--provn", "--namespace", "https://example.org/run/1#", given=DOCUMENT.encode())[1]
        self.assertEqual(other.decode(), PROV_N.replace("<urn:ldv:>", "<https://example.org/run/1#>"))

    def test_back(self) -> None:
        """Nothing is left out: a document can be made of its PROV-JSON again."""
        for document in [DOCUMENT.encode(), *documents()]:
            self.assertEqual(back(prov.prov_json(read_provenance(document), None, "urn:ldv:")),
                             document.decode())

    def test_names(self) -> None:
        """Every name is one of PROV-N, and no two ids have one name."""
        ids = [f"ldv:path/{path}" for path in (
            "a", "a.", "a%2E", "a.b", ".", "-", "a b", "a+b", "a%20b", "a/b/", "é", "\u200d", "<>", "'",
            "=;,()[]")]
        ids += ["ldv:row/t/0/0", "ldv:process/10", "ldv:ask/1", "ldv:reply/1"]
        names = [prov.local_name(node_of(each)) for each in ids]
        self.assertEqual(len(set(names)), len(ids))
        for name, each in zip(names, ids):
            self.assertEqual(f"ldv:{unquote(name)}", each)
            self.assertRegex(name, r"\A([A-Za-z0-9_/]|%[0-9A-F]{2})(([A-Za-z0-9_/.-]|%[0-9A-F]{2})*"
                                   r"([A-Za-z0-9_/-]|%[0-9A-F]{2}))?\Z")

    def test_process_names(self) -> None:
        """By the package of the document: those of `inspect`."""
        by_name = {name: (given, output) for name, words, given, status, output in cases()
                   if words == ["prov"] and status == 0}
        package, document = by_name["a child"]
        made = json.loads(tool(prov, "--names", self.put("p", package), given=document)[1])
        self.assertEqual({name: value["prov:label"] for name, value in made["activity"].items()},
                         {"ldv:process/0": "process 0", "ldv:process/1": "process 0.0"})
        other = self.put("p", by_name["a run that only ends"][0])
        status, out, err = tool(prov, "--names", other, given=document)
        self.assertEqual((status, out), (1, b""))
        self.assertIn("the package has no process 1", err)
        both = self.put("j", version2.joined(read_package(package), read_package(package)))
        self.assertIn("a joined package has two runs", tool(prov, "--names", both, given=document)[2])

    @unittest.skipUnless(with_package(), "python3-prov isn't installed")
    def test_package(self) -> None:
        """The Python package prov reads PROV-JSON, means by it what PROV-N says, writes it in its own formats
        and draws it."""
        given = [DOCUMENT.encode(), *documents()]
        read_ones = [read_provenance(document) for document in given]
        texts = [prov.prov_json(each, None, "urn:ldv:") for each in read_ones]
        done = subprocess.run([with_package() or "", "-I", os.path.join(HERE, "prov_package.py")],
                              input=json.dumps(texts).encode(), check=False, capture_output=True)
        self.assertEqual(done.returncode, 0, done.stderr.decode())
        seen = json.loads(done.stdout)
        self.assertEqual(len(seen), len(given))
        for each, (lines, same, drawn) in zip(read_ones, seen):
            # It writes a backslash of a label as it is, which PROV-N doesn't allow.
            mine = [line.replace("\\\\", "\\") for line in prov.prov_n(each, None, "urn:ldv:").split("\n")]
            self.assertEqual(sorted(filter(str.strip, mine)), sorted(filter(str.strip, lines)))
            self.assertTrue(same)
            if drawn is not None:
                # A derivation is drawn by way of a node of its own.
                derived = sum(line.startswith("  wasDerivedFrom(") for line in lines)
                self.assertEqual(drawn, [len(each.nodes) + derived, len(each.edges) + derived])


class Pictures(InFolder):
    def test_ancestry(self) -> None:
        """The nodes of a picture are those that `prov depends` lists, and the path."""
        count = 0
        for name, words, given, status, output in cases():
            if words[:2] == ["prov", "depends"] and status in (0, 10):
                document = read_provenance(given)
                if status == 10:
                    with self.assertRaises(Refused, msg=name):
                        prov.place_of(document, words[2], None)
                    continue
                place, found, edges = prov.ancestry(document, prov.place_of(document, words[2], None))
                self.assertEqual(sorted(document.nodes[each].told for each in found),
                                 sorted(output.decode().splitlines()), name)
                self.assertEqual({edge.source for edge in edges}, set(found), name)
                self.assertLessEqual({edge.target for edge in edges}, {place, *found}, name)
                count += 1
        self.assertGreater(count, 20)

    def test_drawn(self) -> None:
        words = ["--ancestry", 'a "b" é.']
        self.assertEqual(tool(prov, *words, given=DOCUMENT.encode()), (0, DRAWN.encode(), ""))
        self.assertEqual(tool(prov, *words, "--limit", "3", self.put("d", DOCUMENT)), (0, DRAWN.encode(), ""))
        status, out, err = tool(prov, *words, "--limit", "2", given=DOCUMENT.encode())
        self.assertEqual((status, out), (1, b""))
        self.assertIn("the picture would have 3 arrows, more than 2; --limit N takes N", err)
        self.assertIn("no node is the path q", tool(prov, "--ancestry", "q", given=DOCUMENT.encode())[2])

    def test_times(self) -> None:
        """What a process read after it wrote for the last time isn't in the picture, nor the way there."""
        document = {name: (given, output) for name, words, given, status, output in cases()
                    if words == ["prov"]}["reading came later"][1]
        text = tool(prov, "--ancestry", "g", given=document)[1].decode()
        self.assertEqual(re.findall(r'label="(\D[^"]*)"', text), ["main", "process 0", "g"])

    def test_image(self) -> None:
        path, script = os.path.join(self.folder, "t.svg"), self.put("fake", '#!/bin/sh\necho "$@"; cat\n')
        os.chmod(script, 0o755)
        words = ["--ancestry", 'a "b" é.', "--svg", path]
        self.assertEqual(tool(prov, *words, "--dot", script, given=DOCUMENT.encode()), (0, b"", ""))
        self.assertEqual(read(path), b"-Tsvg\n" + DRAWN.encode())
        if shutil.which("dot"):
            self.assertEqual(tool(prov, *words, given=DOCUMENT.encode()), (0, b"", ""))
            self.assertEqual(read(path).count(b'class="edge"'), 3)

    def test_words(self) -> None:
        for words, message in (
                (["--svg", "x"], "--svg goes with --ancestry"),
                (["--namespace", "a b:"], "'a b:' is no IRI"),
                (["--namespace", "ldv"], "'ldv' is no IRI"),
                (["--provn", "--ancestry", "main"], "not allowed with")):
            status, out, err = tool(prov, *words, given=DOCUMENT.encode())
            self.assertEqual((status, out), (2, b""), words)
            self.assertIn(message, err)
        self.assertEqual(tool(prov, os.path.join(self.folder, "none"))[0], 1)
        self.assertEqual(set(GROUP), set(prov.SHAPES))


class Replies(InFolder):
    """What replies came from, over a package of many rows."""

    def setUp(self) -> None:
        super().setUp()
        columns = [encoder.column("k", "INT NOT NULL")]
        rows = [encoder.row(number, number, statement=int(number >= 50)) for number in range(1000)]
        trace = [encoder.started(), encoder.asked(0, 1, tables=["pubs"], reads=[
            encoder.group("pubs", *(encoder.read(number) for number in range(50)))]),
            encoder.asked(1, 2, tables=["pubs"], reads=[
                encoder.group("pubs", *(encoder.read(number) for number in range(1000)))]),
                 encoder.ended(3)]
        script = 'sql q "SELECT * FROM pubs WHERE k < 50"\nsql q "SELECT * FROM pubs"\n'
        self.data = encoder.encode(encoder.package(
            steps=3, files=[encoder.file("main", script)], trace=trace,
            tables=[encoder.table("pubs", columns, [0], 1000, rows)]))
        graph = graph_of(read_package(self.data))
        numbers = {"0": "0"}
        nodes = [Node(str(node[0]), numbers[str(node[1])] if node[0] == "process" else
                      "/".join(map(str, node[1:]))) for node in graph.nodes]
        edges = [Edge(*ends, *times) for ends, times in graph.edges.items()]
        self.document = self.put("d.prov", document_text(Provenance(nodes, edges)))
        self.package = self.put("p.package", self.data)
        few = "".join(f"row 1\nint {number}\n" for number in range(50))
        more = "".join(f"row 1\nint {number}\n" for number in range(1000))
        self.outcome = self.put("o", f"outcome 1 0\nprocess 0 0 0 2\n\nrows 50\n{few}rows 1000\n{more}")

    def test_replies(self) -> None:
        self.assertEqual(tool(prov, "--replies", self.document), (
            0, b"reply 0 came from 50 rows of pubs; files main\n"
               b"reply 1 came from 1,000 rows of pubs; files main; replies 0\n", ""))
        words = ["--names", self.package, "--replayed", self.outcome]
        self.assertIn(b"reply 0: SELECT * FROM pubs WHERE k < 50 came from 50 rows of pubs; files main\n",
                      tool(prov, "--replies", *words, self.document)[1])

    def test_folded(self) -> None:
        """A picture of 1,000 rows has a node for those with the same arrows, and few arrows."""
        status, out, err = tool(prov, "--reply", "1", self.document)
        self.assertEqual((status, err), (0, ""))
        self.assertEqual(re.findall(rb'label="([0-9,]+ rows of pubs)"', out), [b"50 rows of pubs",
                                                                               b"950 rows of pubs"])
        self.assertLess(out.count(b"->"), 12)
        self.assertIn(b"reply 1: SELECT * FROM pubs", tool(
            prov, "--reply", "1", "--names", self.package, "--replayed", self.outcome, self.document)[1])
        self.assertIn("no node is the reply 7", tool(prov, "--reply", "7", self.document)[2])

    def test_other_package(self) -> None:
        """Names of another package aren't taken, though it has as many processes."""
        other = self.put("other", encoder.encode(encoder.package(
            steps=1, trace=[encoder.started(), encoder.asked(0), encoder.ended(1)])))
        self.assertEqual(tool(prov, "--names", other, self.document)[::2],
                         (1, "prov.py: the document isn't of the trace of this package: its graph is another "
                             "one\n"))
        self.assertEqual(tool(prov, "--names", self.package, self.document)[0], 0)
        self.assertIn("--names: no package: ", tool(prov, "--names", self.document, self.document)[2])
        self.assertIn("no provenance document: it is a package", tool(prov, self.package)[2])
        self.assertIn("--replayed goes with --names",
                      tool(prov, "--replayed", self.outcome, self.document)[2])
