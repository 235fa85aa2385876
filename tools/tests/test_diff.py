"""diff.py, over outcomes and packages."""
from __future__ import annotations

import os
from typing import Any, Union

from cases import encoder
from ldvtools import diff

from .support import EXAMPLES, InFolder, each_of, read, tool

BEFORE = (b"outcome 1 1\nprocess 0 0 4 2\na\nb\n\nrows 2\nrow 1\nint 1\nrow 1\nint 2\nchanged 1\n"
          b"file 1 2\nf\nx\n\n")

NOTE = ("diff.py: nothing says what the columns are where they were read: numbers are shown as they are "
        "carried\n")


class Differences(InFolder):
    def compared(self, before: Union[str, bytes], after: Union[str, bytes],
                 *words: str) -> tuple[Any, bytes, str]:
        return tool(diff, *words, self.put("a", before), self.put("b", after))

    def test_outcomes(self) -> None:
        self.assertEqual(self.compared(BEFORE, BEFORE), (0, b"", ""))
        for old, new, said in (
                (b"0 0 4", b"0 3 4", b"process 0: status 0, and 3\n"),
                (b"a\nb", b"a\nc", b"process 0 prints something else\n  @@ -2 +2 @@\n  -b\n  +c\n"),
                (b"int 2", b"int 3", b"process 0 reply 1: 2 rows, and 2 rows\n  - 2\n  + 3\n"),
                (b"int 1\nrow 1\nint 2", b"int 2\nrow 1\nint 1", b"the same rows in another order"),
                (b"changed 1", b"refused 3", b"reply 2: 1 row changed, and refused with code 3"),
                (b"f\nx\n", b"f\ny\n", b"file f: 2 bytes, and 2 bytes\n"),
                (b"file 1 2\nf\nx\n\n", b"removed 1\nf\n",
                 b"file f: the first has content, the second has none")):
            self.assertIn(old, BEFORE)
            status, out, err = self.compared(BEFORE, BEFORE.replace(old, new, 1))
            self.assertEqual((status, err), (1, ""), new)
            self.assertIn(said, out)

    def test_statements(self) -> None:
        """With the world, each reply has its statement."""
        after = read(f"{EXAMPLES}/orders.outcome").replace(b"int 14", b"int 15")
        path = self.put("after", after)
        status, out, _ = tool(diff, "--world", f"{EXAMPLES}/orders.json", f"{EXAMPLES}/orders.outcome", path)
        self.assertEqual(status, 1)
        self.assertIn(b"process 0.0 reply 1 (SELECT c.name", out)

    def test_limit(self) -> None:
        many = b"".join(b"row 1\nint %d\n" % n for n in range(30))
        text = b"outcome 1 0\nprocess 0 0 0 1\n\nrows %d\n%s"
        status, out, _ = self.compared(text % (30, many), text % (0, b""))
        self.assertIn(b"  .. and 10 lines more (--all shows all)\n", out)
        self.assertEqual(self.compared(text % (30, many), text % (0, b""), "--all")[1].count(b"\n"), 31)

    def test_packages(self) -> None:
        columns = [encoder.column("k", "INT NOT NULL")]
        tables = [encoder.table("t", columns, next=5, rows=[encoder.row(0, 1), encoder.row(2, 3)])]
        trace = [encoder.started(),
                 encoder.asked(0, tables=["t"], reads=[encoder.group("t", encoder.read(0))]),
                 encoder.ended()]
        base: dict[str, Any] = dict(tables=tables, trace=trace)
        before = encoder.encode(encoder.package(**base))
        self.assertEqual(self.compared(before, before), (0, b"", ""))
        for change, said in each_of(
                (dict(seed=7), b"seed: 0, and 7\n"),
                (dict(start=["main", "a"]), b"start: main, and main a\n"),
                (dict(files=[encoder.file("main", "exit 1")]), b"file main: 6 bytes, and 6 bytes\n"),
                (dict(tables=[encoder.table("t", columns, next=5, rows=[encoder.row(0, 2)])]),
                 b"table t: 2 packed rows, and 1\n  - row 0: 1\n  + row 0: 2\n  - row 2: 3\n"),
                (dict(tables=[encoder.table("t", columns, next=6,
                                             rows=[encoder.row(0, 1), encoder.row(2, 3)])]),
                 b"table t: next row 5, and 6\n"),
                (dict(tables=[encoder.table("t", [*columns, encoder.column("g", "TEXT")], key=[0], next=5,
                                             rows=[encoder.row(0, 1, "a"), encoder.row(2, 3, "a")])]),
                 b"table t: columns k INT NOT NULL, and k INT NOT NULL, g TEXT\ntable t: key none, and k\n"),
                (dict(tables=[]), b"- table t\n"),
                (dict(trace=[encoder.started(), encoder.asked(0, tables=["t"]), encoder.ended()]),
                 b"process 0 statement 0: needs 1 row, and 0\n  - t 0 version 0 rule L\n")):
            status, out, err = self.compared(before, encoder.encode(encoder.package(**{**base, **change})))
            self.assertEqual((status, err), (1, NOTE))
            self.assertIn(said, out)

    def test_traces(self) -> None:
        """The first event that differs is shown, as `inspect trace` has it; also one that one trace lacks."""
        found = encoder.act("tested", "f", step=1, found=1)
        for trace, other, said in (
                ([encoder.started(), found, encoder.ended(2)],
                 [encoder.started(), encoder.act("tested", "f", step=1, found=0), encoder.ended(2)],
                 "the traces differ: 3 events, and 3; first at event 1, counted from 0\n"
                 "  - 1 0 tested found f\n  + 1 0 tested absent f\n"),
                ([encoder.started(), found, encoder.ended(2)], [encoder.started(), encoder.ended(2)],
                 "the traces differ: 3 events, and 2; first at event 1, counted from 0\n"
                 "  - 1 0 tested found f\n  + 2 0 ended 0\n"),
                ([encoder.started(), found], [encoder.started()],
                 "the traces differ: 2 events, and 1; first at event 1, counted from 0\n"
                 "  - 1 0 tested found f\n"),
                ([encoder.started(), encoder.spawned(1), encoder.waited(1, 2), encoder.ended(3)],
                 [encoder.started(), encoder.spawned(1), encoder.waited(1, 3), encoder.ended(3)],
                 "first at event 2, counted from 0\n  - 2 0 waited 0.0\n  + 3 0 waited 0.0\n")):
            status, out, err = self.compared(encoder.encode(encoder.package(steps=3, trace=trace)),
                                             encoder.encode(encoder.package(steps=3, trace=other)))
            self.assertEqual((status, err), (1, ""))
            self.assertIn(said, out.decode())
        # Of runs that stand for many events only the place is worked out.
        found = encoder.act("wrote", "f", step=1)
        whole, part = (encoder.encode(encoder.package(version=2, steps=9_000_001, runs=[
            encoder.run(encoder.started()), encoder.run(encoder.act("opened write", "f")),
            encoder.run(found, count, 2)], trace=[])) for count in (4_000_000, 4_000_001))
        self.assertIn("the traces differ: 4000002 events, and 4000003; first at event 4000002, counted from "
                      "0\n"
                      "  + 8000001 0 wrote f\n", self.compared(whole, part)[1].decode())

    def test_logs(self) -> None:
        def spelled(*entries: Any) -> bytes:
            return encoder.encode(encoder.package(mode=2, logs=[encoder.log([0], *entries)],
                                                    trace=[encoder.started(), encoder.asked(0),
                                                           encoder.ended()]))
        before = spelled(encoder.entry("SELECT 1", [1], dict(changed=1)))
        status, out, _ = self.compared(before, spelled(encoder.entry("SELECT 2", [1], dict(changed=2))))
        self.assertEqual(out.decode(),
                         "process 0 statement 0 is another one\n  - SELECT 1 with 1\n  + SELECT 2 with 1\n"
                                       "process 0 statement 0: 1 row changed, and 2 rows changed\n")

    def test_misuse(self) -> None:
        self.assertEqual(self.compared(BEFORE, encoder.encode(encoder.package()))[0], 2)
        self.assertEqual(self.compared(BEFORE, b"x")[0], 2)
        world = read(f"{EXAMPLES}/orders.json")
        for before, after, said in ((world, b" " + world, "these are worlds"),
                                    (world, BEFORE, "the first is a world"),
                                    (encoder.encode(encoder.package()), world, "the second is a world")):
            self.assertEqual(self.compared(before, after),
                             (2, b"", f"diff.py: {said}: compare the outcomes that ldv run makes, or the "
                                      "packages of ldv record\n"))
        self.assertEqual(tool(diff, os.path.join(self.folder, "none"), "none")[0], 2)
