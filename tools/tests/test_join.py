"""join.py, over packages that encoder.py spells and over those of the cases."""
from __future__ import annotations

from typing import Any, Optional

from cases import encoder, join_cases, packages_joined
from ldvtools import join
from ldvtools.packages import Joined, read_any, read_package

from .support import InFolder, each_of, read, tool
from .test_check import cases


def sized(data: bytes) -> bytes:
    return len(data).to_bytes(4, "big") + data


def pair_in(data: bytes) -> Optional[list[bytes]]:
    """The two packages in an input of `ldv join`; None where it isn't made of them and their lengths."""
    found: list[bytes] = []
    while len(found) < 2 and len(data) >= 4 + int.from_bytes(data[:4], "big"):
        end = 4 + int.from_bytes(data[:4], "big")
        found.append(data[4:end])
        data = data[end:]
    return None if data or len(found) < 2 else found


class Joins(InFolder):
    """Two packages that differ in one thing."""

    def made(self, name: str, start: str = "main", files: Any = None, rows: Any = None, **fields: Any) -> str:
        columns = [encoder.column("k", "INT NOT NULL"), encoder.column("v", "TEXT")]
        rows = rows if rows is not None else [encoder.row(0, 1, "a"), encoder.row(1, 2, "b")]
        table = encoder.table("t", columns, **{"key": [0], "next": 5, "rows": rows, **fields})
        files = files or [encoder.file("main", "exit 0\n"), encoder.file("seen", "x\ny\n")]
        trace = [encoder.started(), encoder.asked(0), encoder.ended()]
        return self.put(name, encoder.encode(encoder.package(tables=[table], files=files, trace=trace)))

    def joined(self, *words: str) -> tuple[Any, bytes, str]:
        return tool(join, *words)

    def test_input(self) -> None:
        """The input has each package with its length before it."""
        first, second = self.made("a"), self.made("b", rows=[encoder.row(1, 2, "b")])
        self.assertEqual(self.joined(first, second), (0, sized(read(first)) + sized(read(second)), ""))

    def test_file(self) -> None:
        files = [encoder.file("main", "exit 0\n"), encoder.file("seen", "x\nz\n")]
        first, second = self.made("a"), self.made("b", files=files)
        status, out, err = self.joined(first, second)
        self.assertEqual((status, out), (1, b""))
        self.assertEqual(err, f"join.py: clash: file seen\n  {first} has 4 bytes of it, {second} 4 bytes; "
                              "the first difference is at byte 2, in line 2\n")

    def test_present_file(self) -> None:
        """A file that only one has whole doesn't clash."""
        files = [encoder.file("main", "exit 0\n"), encoder.file("seen")]
        self.assertEqual(self.joined(self.made("a"), self.made("b", files=files))[0], 0)

    def test_table(self) -> None:
        """Columns, key and next number are named where they differ; a table comes before its rows."""
        first, second = self.made("a"), self.made("b", next=7, key=[], rows=[encoder.row(0, 1, "other")])
        self.assertEqual(self.joined(first, second)[2],
                         f"join.py: clash: table t\n  key: k in {first}, none in {second}\n"
                         f"  next row number: 5 in {first}, 7 in {second}\n")

    def test_foreign(self) -> None:
        """Foreign keys are named with their columns and parents, in their order."""
        to_p, to_q = encoder.foreign([1], "p"), encoder.foreign([1, 2], "q")
        one, both, other, none = (
            self.put(f"{len(foreigns)}{foreigns[:1] == [to_p]}",
                     encoder.encode(join_cases.bare(join_cases.wide(*foreigns))))
            for foreigns in each_of([to_p], [to_p, to_q], [to_q, to_p], []))
        said = "join.py: clash: table c\n  foreign keys: "
        self.assertEqual(self.joined(one, both)[2],
                         f"{said}(p) refers to p in {one}, (p) refers to p; (p, r) refers to q in {both}\n")
        self.assertIn(f"(p, r) refers to q; (p) refers to p in {other}", self.joined(both, other)[2])
        self.assertIn(f"{said}(p) refers to p in {one}, none in {none}", self.joined(one, none)[2])
        self.assertEqual(self.joined(both, both)[0], 0)

    def test_row(self) -> None:
        """The columns that differ, with the values of both."""
        first = self.made("a")
        second = self.made("b", rows=[encoder.row(1, 2, None), encoder.row(3, 1, "a")])
        self.assertEqual(self.joined(first, second)[2],
                         f"join.py: clash: row t 1\n  column v: b in {first}, NULL in {second}\n")

    def test_key(self) -> None:
        """Keys are judged over the rows of both, and it is said which of the two has a row."""
        first = self.made("a")
        second = self.made("b", rows=[encoder.row(0, 1, "a"), encoder.row(3, 2, "c")])
        self.assertEqual(self.joined(first, second)[2],
                         f"join.py: clash: key t 3\n  row 1 of {first} and row 3 of {second} have the same "
                         "key: k 2\n")
        rows = [encoder.row(0, 1, "a"), encoder.row(1, 2, "b"), encoder.row(2, 1, "d")]
        twin = self.made("c", rows=rows)
        self.assertIn(f"row 0 of {first} and {twin} and row 2 of {twin}", self.joined(first, twin)[2])

    def test_order(self) -> None:
        """Files are looked at before tables, and these before rows."""
        files = [encoder.file("main", "exit 1\n")]
        second = self.made("b", files=files, next=7, rows=[encoder.row(0, 9, "a")])
        self.assertIn("clash: file main", self.joined(self.made("a"), second)[2])
        second = self.made("b", next=7, rows=[encoder.row(0, 9, "a")])
        self.assertIn("clash: table t", self.joined(self.made("a"), second)[2])

    def test_no_packages(self) -> None:
        first = self.made("a")
        self.assertEqual(self.joined(first, self.put("n", b"no package"))[0], 1)
        self.assertIn("standard input", self.joined("-", "-")[2])
        self.assertEqual(self.joined(first)[0], 2)
        replies = self.put("r", encoder.encode(encoder.package(mode=2)))
        self.assertIn("recorded replies", self.joined(first, replies)[2])
        both = self.put("j", packages_joined.joined(read_package(read(first)), read_package(read(first))))
        self.assertEqual(self.joined(both, first), (1, b"", f"join.py: {both} is a joined package already; "
                                                    "packages of one run are joined, and no more than two\n"))

    def test_runs_of_cases(self) -> None:
        """What is joined has the packages of both runs, as they were."""
        pairs = 0
        for words, data, status, output, _ in cases():
            if words != ["join"] or status != 0:
                continue
            found = read_any(output)
            assert isinstance(found, Joined)
            for number, given in enumerate(map(read_package, pair_in(data) or []), 1):
                one, other = (each._replace(runs=[], version=0, sizes={}, row_bytes=0, digest="")
                              for each in (found.run(number), given))
                self.assertEqual(one, other)
                self.assertEqual(list(found.run(number).events), list(given.events))
            pairs += 1
        self.assertGreater(pairs, 40)

    def test_cases(self) -> None:
        """The clash is the one that the program has to name, and what doesn't clash has none."""
        named = 0
        joined = 0
        for words, data, status, _, error in cases():
            pair = pair_in(data) if words == ["join"] else None
            if pair is None or status not in (0, 15):
                continue
            first, second = map(read_package, pair)
            clash = join.clash_of(first, second)
            self.assertEqual(f"ldv: clash: {clash.name}\n" if clash else "", error)
            named += clash is not None
            joined += clash is None
        self.assertGreater(min(named, joined), 4)
