"""outcome.py."""
from __future__ import annotations

import json
import os

from ldvtools import outcome

from .support import EXAMPLES, TOOLS, InFolder, command, read, tool
from .test_page import orders

FAMILY = (b"outcome 3 2\nprocess 0 240 8 2\ntotal 3\n\nchanged 1\nrefused 6 orders 2\nint -10\nnull\n"
          b"process 0.0 0 0 0\n\nprocess 0.1 1 3 1\n\xc3\xb8\n\nrows 2\n"
          b"row 2\ntext 3\na\nb\nint 7\nrow 2\ntext 0\n\nnull\n"
          b"file 1 3\na\nx\ny\nremoved 2\nbb\n")


NOTE = ("outcome.py: nothing says what the columns are where they were read: numbers are shown as they are "
        "carried\n")
ENDS = "outcome.py: 1 of 3 statements was refused\noutcome.py: 1 process ended by misuse\n"


class Outcomes(InFolder):
    def test_shown(self) -> None:
        status, out, err = tool(outcome, given=FAMILY)
        self.assertEqual((status, err), (0, ""))
        self.assertEqual(out.decode(), """\
process 0 ended with status 240 (misuse: a wrong kind of value, or a name that means nothing)

  printed:
  | total 3

  reply 1: 1 row changed

  reply 2: refused with code 6: two rows would have one key (table orders, key -10, NULL)

process 0.0 ended with status 0

process 0.1 ended with status 1

  printed:
  | ø

  reply 1: 2 rows
    1      | 2
    -------+-----
    "a\\nb" |    7
    ""     | NULL

file a has 3 bytes
  | x
  | y

file bb was removed

1 of 3 statements was refused
1 process ended by misuse
""")

    def test_control_characters(self) -> None:
        """What a terminal could take for a command is shown as an escape."""
        given = FAMILY.replace(b"text 3\na\nb\n",
                               b"text 5\na\x7f\xc2\x9b1\n").replace(b"a\nx\ny", b"a\n\x1bxy").replace(
            b"removed 2\nbb", b"removed 2\n\xc2\x9b")
        status, out, err = tool(outcome, given=given)
        self.assertEqual((status, err), (0, ""))
        for shown in ('"a\\u007f\\u009b1"', "| \\u001bxy", "file \\u009b was removed"):
            self.assertIn(shown, out.decode())

    def test_csv(self) -> None:
        rows = b'1,2\n"a\nb",7\n"",\n'
        sections = (b"# process 0 reply 1: 1 row changed\nchanged\n1\n\n"
                    b"# process 0 reply 2: refused with code 6: two rows would have one key "
                    b"(table orders, key -10, NULL)\n\n"
                    b"# process 0.1 reply 1: 2 rows\n" + rows)
        self.assertEqual(tool(outcome, "--csv", given=FAMILY), (0, sections, ENDS))
        words = ["--csv", "--process", "0.1", "--reply"]
        self.assertEqual(tool(outcome, *words, "1", given=FAMILY), (0, rows, ENDS))
        status, out, _ = tool(outcome, *words, "1", "--null", "NULL", given=FAMILY)
        self.assertEqual((status, out), (0, b'1,2\n"a\nb",7\n"",NULL\n'))
        self.assertEqual(tool(outcome, *words, "2", given=FAMILY)[0], 1)
        status, out, err = tool(outcome, "--folder", self.folder, self.put("o", FAMILY))
        self.assertEqual((status, err), (0, ENDS))
        self.assertEqual(read(os.path.join(self.folder, "0.1-1.csv")), rows)
        self.assertEqual(sorted(os.listdir(self.folder)), ["0-1.csv", "0.1-1.csv", "o"])
        self.assertIn(f"no {self.folder}/0-2.csv: refused with code 6".encode(), out)

    def test_no_data(self) -> None:
        """A refused statement is no data: no file and no line is made of it. A change is a column."""
        refused = ("outcome.py: process 0 reply 2: refused with code 6: two rows would have one key (table "
                   "orders, "
                   "key -10, NULL)\n")
        self.assertEqual(tool(outcome, "--csv", "--reply", "2", given=FAMILY), (1, b"", refused))
        self.assertEqual(tool(outcome, "--csv", "--reply", "1", given=FAMILY), (0, b"changed\n1\n", ENDS))
        given = b"outcome 1 0\nprocess 0 0 0 1\n\nrows 0\n"
        self.assertEqual(tool(outcome, "--csv", "--reply", "1", given=given), (0, b"", ""))
        path = self.put("w", json.dumps({"start": ["m"], "files": {"m": 'sql q "SELECT k, 1 FROM t"\n'},
                                         "tables": {"t": {"columns": [["k", "INT"]]}}}))
        self.assertEqual(tool(outcome, "--csv", "--reply", "1", "--world", path, given=given),
                         (0, b"k,2\n", NOTE))

    def test_malformed(self) -> None:
        for old, new, message in (
                (b"outcome 3", b"outcom 3", "byte 0 (line 1)"),
                (b"outcome 3", b"outcome 0", "the number of processes"),
                (b"outcome 3", b"outcome 03", "'outcome 03 2' where outcome P F is due"),
                (b"outcome 3", b"outcome 2", "file A N"),
                (b"outcome 3 2", b"outcome 3 1", "more bytes follow"),
                (b"outcome 3 2", b"outcome 3 3", "the input ends"),
                (b"0 240 8", b"0 256 8", "the status is 256"),
                (b"240 8 2", b"240 9 2", "no LF after the 9 bytes"),
                (b"240 8 2", b"240 999 2", "of 999 bytes and LF; found"),
                (b"int -10", b"int -0", "-0 is no number"),
                (b"int -10", b"int 9223372036854775808", "a number is"),
                (b"int -10", b"real 1", "a value"),
                (b"process 0.0", b"process 0.2", "isn't there"),
                (b"process 0.1", b"process 0.0", "out of order"),
                (b"process 0.1", b"process 0.0.1", "isn't there"),
                (b"process 0 ", b"process 1 ", "process NAME"),
                (b"process 0.1", b"process 0.1.0", "no parent"),
                (b"refused 6 ", b"refused 7 ", "a reply"),
                (b"refused 6 orders", b"refused 8", "a reply"),
                (b"row 2\ntext 0", b"row 3\ntext 0", "a value"),
                (b"\xc3\xb8", b"\xc3x", "isn't UTF-8"),
                (b"file 1 3\na", b"file 1 3\nc", "the path bb is out of order"),
                (b"text 3", b"text 65537", "the length of a text"),
                (b"removed 2\nbb\n", b"removed 2\nbb", "found 2 bytes")):
            self.assertIn(old, FAMILY)
            status, out, err = tool(outcome, given=FAMILY.replace(old, new, 1))
            self.assertEqual((status, out), (1, b""), (old, new))
            self.assertIn(message, err, (old, new))
        for end in range(len(FAMILY)):
            self.assertEqual(tool(outcome, given=FAMILY[:end])[0], 1, end)

    def test_commands(self) -> None:
        """The tools as commands."""
        for name in ("world.py", "outcome.py"):
            status, out, err = command([os.path.join(TOOLS, name), "--help"])
            self.assertEqual((status, err), (0, b""))
            self.assertIn(f"usage: {name}".encode(), out)
        path = self.put("o", FAMILY)
        shown = command([os.path.join(TOOLS, "outcome.py"), path])
        self.assertEqual(shown, command([os.path.join(TOOLS, "outcome.py")], FAMILY))
        self.assertEqual((shown[0], shown[1][:10]), (0, b"process 0 "))
        none = command([os.path.join(TOOLS, "outcome.py"), path + "x"])
        self.assertEqual((none[0], none[1]), (1, b""))

    def test_strict(self) -> None:
        """A refused statement and misuse are a status of their own, on demand."""
        self.assertEqual(tool(outcome, "--strict", given=FAMILY)[0], 1)
        self.assertEqual(tool(outcome, "--strict", "--csv", given=FAMILY)[0], 1)
        good = b"outcome 1 0\nprocess 0 3 0 1\n\nchanged 0\n"
        self.assertEqual(tool(outcome, "--strict", given=good)[0], 0)
        self.assertNotIn(b"refused", tool(outcome, given=good)[1])
        many = b"outcome 2 0\nprocess 0 241 0 2\n\nrefused 2\nrefused 3\nprocess 0.0 242 0 0\n\n"
        self.assertTrue(tool(outcome,
                             given=many)[1].endswith(b"\n2 of 2 statements were refused\n2 processes ended "
                                                     b"by misuse\n"))

    def test_part(self) -> None:
        """What a process printed, or one file, and nothing else."""
        self.assertEqual(tool(outcome, "--printed", given=FAMILY), (0, b"total 3\n", ENDS))
        self.assertEqual(tool(outcome, "--printed", "--process", "0.1", given=FAMILY)[1], "\u00f8\n".encode())
        words = ["--printed", "--process", "0.0", "--strict"]
        self.assertEqual(tool(outcome, *words, given=FAMILY), (1, b"", ENDS))
        self.assertEqual(tool(outcome, "--file", "a", given=FAMILY), (0, b"x\ny", ENDS))
        raw = b"outcome 1 1\nprocess 0 0 0 0\n\nfile 1 3\nf\n\xff\x00\n\n"
        self.assertEqual(tool(outcome, "--file", "f", given=raw), (0, b"\xff\x00\n", ""))
        for words, said in ((["--file", "c"], "the file c isn't there; the run left a"),
                            (["--file", "bb"], "the file bb was removed; the run left a"),
                            (["--printed", "--process", "0.2"], "there is no process 0.2"),
                            (["--csv", "--reply", "9"], "process 0 has 2 replies, and none is 9")):
            self.assertEqual(tool(outcome, *words, given=FAMILY), (1, b"", f"outcome.py: {said}\n"))
        for words in (["--printed", "--csv"], ["--file", "a", "--printed"], ["--process", "0"],
                      ["--folder", "x", "--file", "a"], ["--printed", "--scale", "a=1"]):
            self.assertEqual(tool(outcome, *words, given=FAMILY)[0], 2, words)

    def test_scale(self) -> None:
        """Whole numbers of hundredths are shown as the decimals that they were."""
        numbers = (0, 5, -5, 300, -12345, 9223372036854775807)
        rows = b"".join(b"row 2\nint %d\ntext 1\n7\n" % number for number in numbers)
        given = b"outcome 1 0\nprocess 0 0 0 1\n\nrows 7\n" + rows + b"row 2\nnull\nint 7\n"
        for scale, shown in ((2, ["0.00", "0.05", "-0.05", "3.00", "-123.45", "92233720368547758.07"]),
                             (0, list(map(str, numbers))),
                             (18, ["0.000000000000000000", "0.000000000000000005", "-0.000000000000000005",
                                   "0.000000000000000300", "-0.000000000000012345", "9.223372036854775807"])):
            status, out, err = tool(outcome, "--csv", "--reply", "1", "--scale", f"1={scale}", given=given)
            self.assertEqual((status, err), (0, ""))
            self.assertEqual(out.decode(), "1,2\n" + "".join(f"{text},7\n" for text in shown) + ",7\n")
        table = tool(outcome, "--scale", "1=2", "--scale", "2=1", given=given)[1].decode()
        self.assertIn("\n                 -123.45 | \"7\"\n", table)
        self.assertIn("\n    NULL                 | 0.7\n", table)
        text = 'sql q "SELECT cents, SUM(cents) FROM t GROUP BY cents"\n'
        world = self.put("w", json.dumps({"start": ["m"], "files": {"m": text},
                                          "tables": {"t": {"columns": [["cents", "INT"]]}}}))
        given = b"outcome 1 0\nprocess 0 0 0 1\n\nrows 1\nrow 2\nint 1250\nint 2500\n"
        words = ["--world", world, "--scale", "cents=2"]
        due = b"cents | 2\n    ------+-----\n    12.50 | 2500\n"
        self.assertIn(due, tool(outcome, *words, given=given)[1])
        self.assertEqual(tool(outcome, *words, "--scale", "2=2", "--csv", given=given)[1].split(b"\n")[-2],
                         b"12.50,25.00")
        folder = os.path.join(self.folder, "replies")
        self.assertEqual(tool(outcome, *words, "--folder", folder, given=given)[0], 0)
        self.assertEqual(read(f"{folder}/0-1.csv"), b"cents,2\n12.50,2500\n")
        for words, said in ((["--scale", "cents=2"], "no reply has a column with this head; there are 1, 2; "
                                                     "--world or --package gives names"),
                            (["--world", world, "--scale", "euros=2"], "there are 2, cents ("),
                            (["--scale", "1=19"], "give NAME=N"), (["--scale", "1"], "give NAME=N")):
            status, out, err = tool(outcome, *words, given=given)
            self.assertEqual((status, out), (2, b""))
            self.assertIn(said, err)

    def test_statements(self) -> None:
        """With its world or its package each reply has its statement and its columns' names."""
        path = f"{EXAMPLES}/orders.outcome"
        for words in (["--world", f"{EXAMPLES}/orders.json"], ["--package", self.put("p", orders())],
                      ["--package", self.put("q", orders(2))]):
            status, out, err = tool(outcome, *words, path)
            self.assertEqual((status, err), (0, NOTE))
            self.assertIn(b"  > INSERT INTO orders VALUES (?, ?, ?, 1)\n  > with 10, 2, pen\n", out)
            self.assertIn(b"    name | 2\n    -----+---\n    Ada  | 14\n", out)
        world = f"{EXAMPLES}/orders.json"
        status, out, _ = tool(outcome, "--csv", "--process", "0.0", "--reply", "1", "--world", world, path)
        self.assertEqual((status, out), (0, b"name,2\nAda,14\n"))
        self.assertIn("isn't of this world", tool(outcome, "--world", f"{EXAMPLES}/hello.json", path)[2])
        self.assertIn(f"{path}: no world document: not json: it is an outcome",
                      tool(outcome, "--world", path, path)[2])
