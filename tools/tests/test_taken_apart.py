"""A joined package taken apart, its page, and files that are something else than what a tool reads."""
from __future__ import annotations

import gzip
import json
import os
import unittest

from ldvtools import check, diff, outcome, package, page, prov
from ldvtools.package_bytes import package_bytes
from ldvtools.packages import Joined, read_any, read_package

from . import support
from .support import EXAMPLES, InFolder, command, each_of, ldv, read, tool
from .test_check import cases


class Apart(InFolder):
    def test_bytes(self) -> None:
        """Each package of version 2 in the cases is spelled again to its bytes, and each run of a joined one
        is a package that `ldv replay` takes as the joined one's run."""
        count = joined = 0
        for words, data, status, output, _ in cases():
            if words[:1] == ["replay"] and status == 0 and data.startswith((b"LDVPACK2", b"LDVJOIN1")):
                found = read_any(data)
                if isinstance(found, Joined):
                    each = package_bytes(found.run(int(words[words.index("--run") + 1])))
                    self.assertEqual(package_bytes(read_package(each)), each)
                    joined += 1
                elif found.event_count() < 100_000:
                    self.assertEqual(package_bytes(found), data)
                    count += 1
        self.assertTrue(count > 50 and joined > 3, (count, joined))

    @unittest.skipUnless(os.access(support.PROGRAM, os.X_OK), "the program isn't built")
    def test_audit(self) -> None:
        """Audit, inspect and table of each run of a joined package; its page is audited."""
        world = read(f"{EXAMPLES}/weather.json")
        made = json.loads(world)
        script = made["files"].pop(made["start"][0])
        both = []
        for name, extra in (("one", ""), ("two", 'print "x"\n')):
            other = {**made, "start": [name], "files": {**made["files"], name: script + extra}}
            both.append(ldv(["record"], json.dumps(other).encode())[1])
        pair = b"".join(len(each).to_bytes(4, "big") + each for each in both)
        joined = self.put("both.joined", ldv(["join"], pair)[1])
        for number in (1, 2):
            path = os.path.join(self.folder, f"{number}.package")
            words = ["--run", str(number), "--package", joined, "-o", path]
            self.assertEqual(tool(package, *words), (0, b"", ""))
            self.assertEqual(read(path), both[number - 1])
            self.assertEqual(ldv(["audit"], read(path))[:2], (0, b"sound\n"))
            html = os.path.join(self.folder, "page.html")
            status, _, err = tool(page, "--run", str(number), "--ldv", support.PROGRAM, joined, "-o", html)
            self.assertEqual((status, err), (0, ""))
            self.assertIn(b'"verdict":"sound"', read(html))


class OtherFiles(InFolder):
    def test_kinds(self) -> None:
        """A file that is something else is called what it is, without a word of Python."""
        world, text = f"{EXAMPLES}/hello.json", f"{EXAMPLES}/hello.outcome"
        packed = self.put("p", next(data for words, data, status, _, _ in cases()
                                    if words == ["replay"] and status == 0))
        zipped, table = self.put("z.gz", gzip.compress(b"x")), self.put("t.csv", "a,b\n1,2\n")
        for module, words, given, said in each_of(
                (check, [], packed, "no world: not json: it is a package"),
                (check, [], text, "it is an outcome"), (check, [], zipped, "compressed by gzip"),
                (check, [], table, "it is a table such as CSV"),
                (outcome, [], packed, "no outcome: it is a package"), (outcome, [], world, "it is a world "
                                                                                           "document"),
                (outcome, ["--world", packed], text, "p: no world document: not json: it is a package"),
                (outcome, ["--package", world], text, "hello.json: no package: "),
                (package, [], world, "it is a world document"), (package, [], zipped, "compressed by gzip"),
                (page, [], text, "it is an outcome"), (prov, [], packed, "it is a package")):
            status, out, err = tool(module, *words, given)
            self.assertEqual((status, out), (1, b""), (words, err))
            self.assertIn(said, err)
            for word in ("Error", "codec", "NoneType", "object has no", "to unpack", "b'"):
                self.assertNotIn(word, err)
        changed = self.put("crlf", read(text).replace(b"\n", b"\r\n"))
        self.assertIn("its lines end with CR and LF", tool(outcome, changed)[2])

    def test_audits(self) -> None:
        """A page takes a verdict that audit wrote, and nothing else."""
        packed = self.put("p", next(data for words, data, status, _, _ in cases()
                                    if words == ["replay"] and status == 0))
        self.assertEqual(tool(page, packed, "--audit", self.put("v", "sound\n"))[0], 0)
        self.assertEqual(tool(page, packed, "--audit", self.put("v", "unsound 12\n"))[0], 0)
        for text in ("sound", "unsound\n", "unsound 01\n", "", "sound\nx"):
            self.assertEqual(tool(page, packed, "--audit", self.put("v", text))[:2], (1, b""), text)
        err = tool(page, packed, "--audit", f"{EXAMPLES}/hello.json")[2]
        self.assertIn("isn't what ldv audit writes, `sound` or `unsound N` and LF, but a world document", err)
        self.assertIn("/bin/true replay wrote no outcome", tool(page, packed, "--ldv", "/bin/true")[2])
        self.assertIn("/bin/false replay ends with 1 and says nothing",
                      tool(page, packed, "--ldv", "/bin/false")[2])

    def test_failing(self) -> None:
        """No traceback where a folder isn't there or can't be written, and where the disk is full."""
        packed = self.put("p", next(data for words, data, status, _, _ in cases() if words == ["replay"]
                                    and status == 0 and read_any(data).__class__.__name__ == "Package"
                                    and read_package(data).mode == "included"))
        status, out, err = tool(package, "--sqlite", "/no/such/x.db", packed)
        self.assertEqual((status, out), (1, b""))
        self.assertIn("/no/such/x.db: there is no folder /no/such\n", err)
        here = os.path.join(support.TOOLS, "diff.py")
        one, other = self.put("1", "outcome 1 0\nprocess 0 0 0 0\n\n"), self.put("2", "outcome 1 0\nprocess "
                                                                                      "0 1 0 0"
                                                                                "\n\n")
        self.assertEqual(tool(diff, one, other)[0], 1)
        asked = ["--csv", self.put("t.csv", "a\n1\n"), "--ask", "SELECT a FROM t"]
        for name, words, due in (("diff.py", [one, other], 2), ("outcome.py", [one], 1),
                                 ("package.py", [packed], 1), ("package.py", ["--sizes", packed], 1),
                                 ("page.py", [packed], 1), ("join.py", [packed, packed], 1),
                                 ("orders.py", [packed], 2), ("world.py", ["-q", *asked], 1),
                                 ("world.py", ["--propose", *asked], 1)):
            here = os.path.join(support.TOOLS, name)
            status, _, told = command(["sh", "-c", '"$@" > /dev/full', "sh", here, *words])
            self.assertEqual((status, told.decode()), (due, f"{name}: standard output: No space left on "
                                                           "device\n"))
        status, _, told = command([os.path.join(support.TOOLS, "world.py"), "--csv", "t=/dev/zero", "--ask",
                                  "SELECT a FROM t"])
        self.assertEqual(status, 1)
        self.assertIn(b"world.py: /dev/zero has more than 268435456 bytes, four times what a world may "
                      b"have\n", told)
        status, _, told = command(["sh", "-c", 'ulimit -v 200000; exec "$@"', "sh", os.path.join(
            support.TOOLS, "world.py"), "--csv", "t=/dev/zero", "--ask", "SELECT a FROM t"])
        self.assertEqual((status, told), (1, b"world.py: there isn't memory enough for this input\n"))
