"""The checks of documents, with what they have to find."""
from __future__ import annotations

import contextlib
import io
import json
import os
import re
import shutil
import sys
import unittest
from typing import Any

from checks import check_docs, check_page, check_scripts, crate_map
from ldvtools.sql_check import judge

from .support import ROOT, InFolder, command, read, tool
from .test_examples import asked, in_sqlite, reply_text

INSTRUCTIONS = """let cut goto if print exit open readline write copy close remove exists spawn wait sql fetch
    count status""".split()


class ScriptsPage(unittest.TestCase):
    def setUp(self) -> None:
        self.examples, self.tables = check_scripts.read_page(read(check_scripts.PAGE).decode())

    def test_examples(self) -> None:
        """Each instruction and each status of misuse is in an example, and nothing is passed over."""
        lines = [line.split() for example in self.examples for line in example.script.split("\n")]
        used = {words[0] for words in lines if len(words) > 1}
        self.assertEqual(set(INSTRUCTIONS) - used, set())
        for sign in ("+", "-", "*", "++"):
            self.assertTrue(any(words[:1] == ["let"] and words[4:5] == [sign] for words in lines), sign)
        self.assertTrue(any(words[:1] == ["let"] and words[3:4] == ["int"] for words in lines))
        self.assertEqual({words[2] for words in lines if words[:1] == ["open"]}, set("rwan"))
        ends = {run.status for example in self.examples for run in example.runs}
        self.assertTrue({240, 241, 242, 243, 244} <= ends)
        self.assertEqual([len(example.runs) for example in self.examples if len(example.runs) > 1], [2])
        self.assertEqual([table[:2] for table in self.tables], [("items", "id")])

    def test_wrong_pages(self) -> None:
        """A page that says something else than the run is found."""
        page = ("# a\n\nWith the file `f`:\n\n    x\n\nthis script\n\n    print 1\n\nprints\n\n    1\n\n"
                "and leaves no `f`.\n")
        right = b"outcome 1 1\nprocess 0 0 2 0\n1\n\nremoved 1\nf\n"
        printed = io.StringIO()
        with contextlib.redirect_stdout(printed):
            self.assertEqual(check_scripts.check(page, lambda given: (0, right, b"")), (1, 0))
            for old, new in ((b"0 0 2", b"0 1 2"), (b"\n1\n", b"\n2\n"), (b"removed 1\nf", b"file 1 0\nf\n")):
                wrong = right.replace(old, new, 1)
                self.assertEqual(check_scripts.check(page, lambda given: (0, wrong, b"")), (1, 1))
            self.assertEqual(check_scripts.check(page,
                                                 lambda given: (7, b"", b"ldv: not ended after 1000000 "
                                                                        b"steps\n")), (1, 1))
        self.assertEqual(printed.getvalue().count("\n"), 4)

    def test_first_line(self) -> None:
        self.assertEqual(check_scripts.pieces("    a\n"), [("block", 1, "a\n"), ("text", 3, "end")])


PAGE = """# a page

    $ echo one \\
        two; ls
    one two

    no command

    $ false
    $ ./ldv run
    said run
    more

text
"""


class Pages(InFolder):
    def program(self) -> str:
        path = self.put("fake", '#!/bin/sh\nprintf "said $1\\r\\nmore\\n" >&2\n')
        os.chmod(path, 0o755)
        return path

    def test_page(self) -> None:
        program = self.program()
        shown = [(each.command, each.lines) for each in check_page.commands(PAGE)]
        self.assertEqual(shown, [("echo one \\\n        two; ls", ["one two"]), ("false", []),
                                 ("./ldv run", ["said run", "more"])])
        path = self.put("page.md", PAGE)
        words = ["--program", program, path]
        status, out, _ = tool(check_page, *words)
        self.assertEqual(status, 1)
        self.assertIn(b"line 6: echo one", out)
        self.assertIn(b"page: nothing\n    now:  examples\n", out)
        self.assertIn(b"3 commands, 1 differ", out)
        self.assertEqual(tool(check_page, "--fill", *words)[0], 0)
        self.assertEqual(read(path).decode(),
                         PAGE.replace("    one two\n", "    one two\n    examples\n    ldv\n    tools\n"))
        self.assertEqual(tool(check_page, *words)[0], 0)
        self.put("page.md", read(path).decode().replace("    more\n", ""))
        self.assertIn(b"now:  more", tool(check_page, *words)[1])
        self.assertEqual(tool(check_page, "--program", program + "x", path)[0], 1)

    def test_empty_lines(self) -> None:
        """An empty line that a command writes is kept on the page,
        and a line that isn't written is missed."""
        path = self.put("page.md", "    $ printf 'a\\n\\nb\\n'\n\ntext\n")
        words = ["--program", self.program(), path]
        for _ in range(2):
            self.assertEqual(tool(check_page, "--fill", *words)[0], 0)
            self.assertEqual(read(path), b"    $ printf 'a\\n\\nb\\n'\n    a\n    \n    b\n\ntext\n")
            self.assertEqual(tool(check_page, *words)[0], 0)
        self.put("page.md", "    $ true\n    nothing\n")
        self.assertIn(b"1 commands, 1 differ", tool(check_page, *words)[1])


class StatementTables(InFolder):
    """The tutorial's table of what to write in place of what the dialect leaves out."""

    def asked(self, data: bytes) -> bytes:
        """The outcome of a world whose script asks statements, by SQLite."""
        made = json.loads(data)
        base = in_sqlite(made["tables"])
        replies = [reply_text(base.execute(text).fetchall()) for text, _ in asked(made["files"]["main"])]
        return f"outcome 1 0\nprocess 0 0 0 {len(replies)}\n\n{''.join(replies)}".encode()

    def test_tutorial(self) -> None:
        """Each statement has its reply in SQLite too, and is one of the dialect."""
        page = read(check_page.TUTORIAL).decode()
        (files, rows), = check_page.statement_tables(page)
        self.assertEqual(len(files), 2)
        self.assertGreater(len(rows), 15)
        self.assertEqual(list(check_page.table_differences(page, self.asked)), [])
        made = json.loads(check_page.asked_world(files, [text for _, texts, _ in rows for text in texts]))
        schemas = {name: [(column[0], column[1]) for column in table["columns"]]
                   for name, table in made["tables"].items()}
        for number, texts, _ in rows:
            for text in texts:
                self.assertEqual(judge(text, [], schemas)[::2], (None, []), number)

    def test_wrong_reply(self) -> None:
        """A reply that is another one is found."""
        page = read(check_page.TUTORIAL).decode()
        wrong = page.replace("| (60, 3) |", "| (60, 4) |", 1)
        self.assertNotEqual(page, wrong)
        found, = check_page.table_differences(wrong, self.asked)
        self.assertIn("page: (60, 4)\n    now:  (60, 3)", found)


class ManualPage(InFolder):
    def test_formatted(self) -> None:
        """groff and mandoc have nothing to say against the page."""
        page = os.path.join(ROOT, check_docs.MANUAL)
        for words in (["groff", "-mandoc", "-ww", "-Tutf8", page], ["mandoc", "-Tlint", page]):
            if shutil.which(words[0]):
                status, out, err = command(words)
                self.assertEqual((status, err), (0, b""), words)
                self.assertTrue(words[0] == "groff" or out == b"", out)

    def test_compared(self) -> None:
        """A command or a status that one of the two pages has is found where the other hasn't."""
        listed = ("| Words | Input |\n|---|---|\n| `run` | a |\n| `inspect why TABLE ROW` | b |\n\n"
                  "| Status | Message on standard error | When |\n|---|---|---|\n| 0 | none | |\n"
                  "| 2 | `ldv: usage` | |\n| 126, 127 | of the script `./ldv` | |\n")
        manual = ".It Cm run\n.It Cm inspect why Ar TABLE ROW\n.It 0\n.It 2 Li ldv: usage\n.It 126, 127\n"
        for name, text in ((check_docs.COMMANDS, listed), (check_docs.MANUAL, manual)):
            os.makedirs(os.path.join(self.folder, "docs"), exist_ok=True)
            self.put(name, text)
        self.assertEqual(self.differences(), "")
        self.put(check_docs.MANUAL,
                 manual.replace("why", "how").replace("usage", "use") + ".It Cm record Fl -excluded\n")
        self.assertEqual(self.differences(), """\
docs/ldv.1:2: docs/COMMANDS.md has no command inspect how TABLE ROW
docs/COMMANDS.md:4: docs/ldv.1 has no command inspect why TABLE ROW
docs/ldv.1:6: docs/COMMANDS.md has no command record --excluded
docs/COMMANDS.md:9: docs/ldv.1 has no status 2 ldv: usage
docs/ldv.1:4: docs/COMMANDS.md has no status 2 ldv: use
""")

    def differences(self) -> str:
        with contextlib.redirect_stdout(io.StringIO()) as printed:
            check_docs.check_manual(self.folder, check_docs.Differences())
        return printed.getvalue()


class Documents(InFolder):
    def test_paths(self) -> None:
        """A path that isn't there is found, whatever its letters; one with a word for others is none."""
        os.makedirs(os.path.join(self.folder, "docs"))
        self.put("docs/HERE.md", "`docs/HERE.md`, `docs/NONE.md`, `docs/none`, `docs/PART/x.md`, "
                                 "`docs/*.md`\n")
        with contextlib.redirect_stdout(io.StringIO()) as printed:
            check_docs.check_paths(self.folder, "docs/HERE.md", check_docs.Differences())
        self.assertEqual(printed.getvalue(), "docs/HERE.md:1: there is no docs/NONE.md\n"
                                             "docs/HERE.md:1: there is no docs/none\n")

    def told(self, check: Any) -> str:
        with contextlib.redirect_stdout(io.StringIO()) as printed:
            check(self.folder, check_docs.Differences())
        return printed.getvalue()

    def test_pages(self) -> None:
        """A page or a heading that a program names and that isn't there is found, but for tests of tools."""
        for folder in ("docs", "tools/tests", "bench"):
            os.makedirs(os.path.join(self.folder, folder))
        self.put("docs/HERE.md", "# A page\n\n## One part\n")
        self.put("ldv", "# docs/HERE.md\n# docs/GONE.md\n")
        self.put("tools/a.py", '"docs/HERE.md#one-part docs/HERE.md. https://a.org/docs/GONE.md"\n')
        self.put("bench/b.sh", "# \n# docs/HERE.md#two\n")
        self.put("tools/tests/test_a.py", '"docs/GONE.md"\n')
        self.assertEqual(self.told(check_docs.check_pages),
                         "bench/b.sh:2: docs/HERE.md has no heading two\n"
                         "ldv:2: the link docs/GONE.md leads nowhere\n")

    def test_lengths(self) -> None:
        """A document that is longer than it may be is found, and one that is just as long isn't."""
        os.makedirs(os.path.join(self.folder, "docs/internals/notes"))
        for name, most in (("README.md", 130), ("docs/internals/ARCHITECTURE.md", 350),
                           ("docs/internals/notes/gate.md", 100)):
            self.put(name, "line\n" * most)
        self.assertEqual(self.told(check_docs.check_lengths), "")
        self.put("README.md", "line\n" * 131)
        self.assertEqual(self.told(check_docs.check_lengths),
                         "README.md:131: 131 lines, and 130 are the most\n")

    def test_indexes(self) -> None:
        """A page that the index of its folder doesn't lead to is found."""
        os.makedirs(os.path.join(self.folder, "docs/internals"))
        for name in ("SQL.md", "ldv.1", "internals/CASES.md"):
            self.put("docs/" + name, "text\n")
        self.put("docs/README.md", "[SQL](SQL.md#texts), [ldv.1](ldv.1), [engineers](internals/README.md)\n")
        self.put("docs/internals/README.md", "[SQL](../SQL.md), `CASES.md`\n")
        self.assertEqual(self.told(check_docs.check_indexes),
                         "docs/internals/README.md:1: CASES.md is missing\n")

    def test_versions(self) -> None:
        """The files that name the version name one."""
        os.makedirs(os.path.join(self.folder, "docs"))
        os.makedirs(os.path.join(self.folder, "tools"))
        texts = {
            check_docs.CHANGELOG: "# Changes\n\nText.\n\n## 1.2.0\n\n## 1.1.3\n",
            check_docs.README: "# a\n\nThis is version 1.2.0.\n",
            check_docs.MANUAL: ".Dt LDV 1\n.Sh HISTORY\nVersion 1.2.0.\n",
            check_docs.PROJECT: '[project]\nversion = "1.2.0"\n',
            check_docs.CITATION: "cff-version: 1.2.0\nversion: 1.2.0\n",
        }
        for name, text in texts.items():
            self.put(name, text)
        self.assertEqual(self.versions(), "")
        self.put(check_docs.README, "# a\n\nThis is version 1.1.3.\n")
        self.put(check_docs.PROJECT, "[project]\n")
        self.assertEqual(self.versions(), "README.md:3: version 1.1.3, and 1.2.0 in CHANGELOG.md\n"
                                          "tools/pyproject.toml:1: there is no version\n")
        self.put(check_docs.CHANGELOG, "# Changes\n\n## 1.1.3\n")
        self.assertEqual(self.versions(), "docs/ldv.1:3: version 1.2.0, and 1.1.3 in CHANGELOG.md\n"
                                          "tools/pyproject.toml:1: there is no version\n"
                                          "CITATION.cff:2: version 1.2.0, and 1.1.3 in CHANGELOG.md\n")

    def versions(self) -> str:
        with contextlib.redirect_stdout(io.StringIO()) as printed:
            check_docs.check_version(self.folder, check_docs.Differences())
        return printed.getvalue()


class Citation(InFolder):
    def test_citation(self) -> None:
        """CITATION.cff has what version 1.2.0 of its format asks for, and the papers that README names."""
        text = read(os.path.join(ROOT, check_docs.CITATION)).decode()
        known = dict(re.findall(r'(?m)^([a-z-]+): (?:"(.*)"|.*)$', text))
        self.assertLessEqual({"cff-version", "message", "title", "type", "version", "date-released",
                              "abstract"}, set(known))
        self.assertRegex(text, r"(?m)^cff-version: 1\.2\.0$")
        self.assertRegex(text, r"(?m)^date-released: \d{4}-\d\d-\d\d$")
        self.assertRegex(text, r"(?m)^authors:\n  - name: ")
        readme = read(os.path.join(ROOT, check_docs.README)).decode()
        papers = readme.partition("## Version, licence, citation, contact")[2]
        papers = " ".join(papers.split())
        titles = re.findall(r'(?m)^    title: "(.*)"$', text)
        self.assertEqual(len(titles), 2)
        for title in titles:
            self.assertIn(title, papers)
        people = re.findall(r'family-names: (\w+)\n +given-names: "?([\w. ]+)', text)
        self.assertEqual(len(people), 7)
        for family, given in people:
            self.assertIn(f"{given} {family}", papers)
        self.assertNotIn("licen", text.lower())

    def test_format(self) -> None:
        """It is a document of YAML, where a Python with the package yaml is there to read it."""
        for program in (sys.executable, "/usr/bin/python3"):
            if os.access(program, os.X_OK) and command([program, "-I", "-c", "import yaml"])[0] == 0:
                break
        else:
            self.skipTest("python3-yaml isn't installed")
        asked = "import json, sys, yaml; print(json.dumps(yaml.safe_load(sys.stdin), default=str))"
        status, out, err = command([program, "-I", "-c", asked],
                                   read(os.path.join(ROOT, check_docs.CITATION)))
        self.assertEqual(status, 0, err)
        found = json.loads(out)
        self.assertEqual([each["type"] for each in found["references"]], ["conference-paper", "article"])
        self.assertEqual([len(each["authors"]) for each in found["references"]], [4, 3])


class Layout(InFolder):
    """A small tree of crates: `low`, and `high` over it, which uses a library too."""

    def setUp(self) -> None:
        super().setUp()
        for folder in ("low/src", "low/specs", "low/out/src", "high/src", "high/specs", "high/proofs/f"):
            os.makedirs(os.path.join(self.folder, "crates", folder))
        self.put("crates.txt", "# Part\nlow:\nhigh: low itoa\n")
        self.put("crates/low/src/lib.rt", "//! Low.\n")
        self.put("crates/high/src/lib.rt", "use low::add;\nuse itoa::Buffer;\n")

    def differences(self, check: Any) -> str:
        with contextlib.redirect_stdout(io.StringIO()) as printed:
            check(self.folder, check_docs.Differences())
        return printed.getvalue()

    def test_uses(self) -> None:
        """What a crate lists is used by a path, in its sources, its specs or its proofs."""
        self.assertEqual(self.differences(check_docs.check_list), "")
        self.put("crates/high/src/lib.rt", "// use low::add;\n//! Of low.\nlet x = itoa::Buffer::new();\n")
        self.assertEqual(self.differences(check_docs.check_list), "crates.txt:3: high uses no low\n")
        for name in ("specs/Sums.antt", "proofs/f/Answers.antt"):
            path = self.put("crates/high/" + name, "-- Sums.\nuse Rattle.low.specs.Adding.{added}\n")
            self.assertEqual(self.differences(check_docs.check_list), "")
            self.put("crates/high/" + name, "-- use Rattle.low.specs.Sums.{sum}\nuse Rattle.lower.specs\n")
            self.assertEqual(self.differences(check_docs.check_list), "crates.txt:3: high uses no low\n")
            os.remove(path)

    def test_order(self) -> None:
        """A crate comes after those that it stands on, and all crates are listed."""
        self.put("crates.txt", "# Part\nhigh: low itoa\nlow:\nhigher: high\n")
        self.assertEqual(self.differences(check_docs.check_list),
                         "crates.txt:2: high comes before low\ncrates.txt:4: higher uses no high\n"
                         "crates.txt:1: higher is no folder of crates/\n")
        self.put("crates.txt", "# Part\nlow:\n")
        self.assertEqual(self.differences(check_docs.check_list),
                         "crates.txt:1: high is no crate of the list\n")

    def test_chains(self) -> None:
        """No chain of crates is longer than eight; libraries of the kit don't count."""
        lines = ["c1: itoa"] + [f"c{n}: c{n - 1} c1" for n in range(2, 11)]
        self.put("crates.txt", "# Part\n" + "\n".join(lines) + "\n")
        found = [line for line in self.differences(check_docs.check_list).splitlines() if "chain" in line]
        self.assertEqual(found, ["crates.txt:10: c9 ends a chain of 9 crates",
                                 "crates.txt:11: c10 ends a chain of 10 crates"])

    def rooms(self) -> str:
        return self.differences(
            lambda root, differ: check_docs.check_rooms(root, check_docs.crates_in(root), differ))

    def test_rooms(self) -> None:
        """What other crates or public calls cite, and what that is made of, is meaning, nothing else is."""
        self.put("crates/low/specs/Adding.antt",
                 "use Rattle.low.specs.Digits.{digits}\nabbrev pub added : N\nadded = digits\n"
                 "abbrev pub left : N\nleft = 1\n")
        self.put("crates/low/specs/Digits.antt", "abbrev pub digits : N\ndigits = 2\n")
        self.put("crates/high/proofs/f/Answers.antt", "use Rattle.low.specs.Adding.{left}\n")
        adding, digits = (f"crates/low/specs/{name}.antt:1: belongs to specs/inner: none of it is meaning\n"
                          for name in ("Adding", "Digits"))
        self.assertEqual(self.rooms(), adding + digits)
        for cited, found in (("-- use Rattle.low.specs.Adding.{added}\n", adding + digits),
                             ("use Rattle.low.specs.Adding.{left}\n", digits),
                             ("use Rattle.low.specs.Adding.{added}\n", ""),
                             ("use Rattle.low.specs.Adding as adding\n", ""),
                             ("use Rattle.low.specs.Digits.{digits as numbers}\n", adding)):
            self.put("crates/high/specs/Sums.antt", cited)
            self.assertEqual(self.rooms(), found, cited)

    def test_rooms_of_calls(self) -> None:
        """What a contract cites is meaning if its call is public; what a body or an invariant cites isn't."""
        os.makedirs(os.path.join(self.folder, "crates", "low", "specs", "inner"))
        self.put("crates/low/specs/inner/Sums.antt", "abbrev pub sum : N\nsum = 0\n")
        wrong = "crates/low/specs/inner/Sums.antt:1: belongs to specs: a definition of it is meaning\n"
        use = "ghost use Rattle.low.specs.inner.Sums.{sum};\n"
        function = "pub fn add(n: u8) -> u8\n    ensures { %s }\n{\n    %s\n}\n"
        method = "pub struct Heap {\n    n: u8,\n}\n\nimpl%s Heap {\n    %s\n}\n"
        clause = "pub fn add(&self) -> u8\n        ensures { result ≡ sum }\n    {\n        1\n    }"
        for out, source, found in (
                ("add", function % ("result ≡ sum", "1"), wrong),
                ("other", function % ("result ≡ sum", "1"), ""),
                ("add", function % ("result ≡ n", "sum"), ""),
                ("add", function % ("result ≡ add", "1 // sum"), ""),
                ("Heap", method % ("", clause), wrong),
                ("other", method % ("", clause), ""),
                ("Heap", method % ("", clause.replace("pub fn", "pub(crate) fn")), ""),
                ("Heap", method % (" Model for", "ghost Value = { sum };"), wrong),
                ("Heap", method % (" Model for", "ghost Value = { N };\n\n"
                                                 "    ghost invariant = { λ a. sum };"), ""),
                ("Heap", method % (" Shown for", "ghost shown = { sum };"), wrong)):
            self.put("crates/low/src/heap.rt", use + source)
            self.put("crates/low/src/lib.rt", f"//! Low.\nmod heap;\npub use heap::{{{out}}};\n")
            self.assertEqual(self.rooms(), found, source)

    def test_rooms_of_programs(self) -> None:
        """Of a program that is meaning which its head says to read first."""
        os.remove(self.put("crates/high/src/lib.rt", ""))
        self.put("crates/high/specs/Sums.antt", "abbrev pub sum : N\nsum = 0\n")
        for first, found in (("Sums", ""),
                             ("Digits", "crates/high/specs/Sums.antt:1: belongs to specs/inner: "
                                        "none of it is meaning\n")):
            self.put("crates/high/src/main.rt", f"//! High.\n//!\n//! Read first: `specs/{first}.antt`.\n")
            self.assertEqual(self.rooms(), found, first)

    def test_map(self) -> None:
        """The map is made from crates.txt and the heads, and what these name is there."""
        os.makedirs(os.path.join(self.folder, "docs", "internals"))
        self.put(check_docs.ARCHITECTURE, f"# Map\n\n{crate_map.BEGIN}\nold\n{crate_map.END}\n\nMore.\n")
        self.put("crates/low/specs/Adding.antt", "")
        self.put("crates/low/src/lib.rt",
                 "//! Adds numbers: small ones. Others it refuses.\n//!\n"
                 "//! Entry: `add` in `src/lib.rt`. Read first:\n//! `specs/Adding.antt`.\n"
                 "pub fn add() {}\n")
        self.put("crates/high/src/lib.rt",
                 "//! SQL sums.\n//!\n//! Read first: `specs/Adding.antt` of `low`.\n")
        stale = "docs/internals/ARCHITECTURE.md:1: the map of crates is stale: "
        stale += "python3 tools check_docs --fill\n"
        self.assertEqual(self.differences(check_docs.check_map), stale)
        check_docs.fill(self.folder)
        self.assertEqual(self.differences(check_docs.check_map), "")
        made = check_docs.read(self.folder, check_docs.ARCHITECTURE)
        self.assertTrue(made.startswith("# Map\n\n") and made.endswith("\n\nMore.\n"))
        self.assertIn("| `low` | adds numbers: small ones | `add` in `src/lib.rt` "
                      "| `specs/Adding.antt` |  |\n"
                      "| `high` | SQL sums |  | `specs/Adding.antt` of `low` | low |\n", made)
        self.put("crates/low/src/lib.rt",
                 "//! Adds numbers: small ones.\n//!\n"
                 "//! Entry: `sum` in `src/lib.rt`. Read first: `specs/Sums.antt`.\n")
        self.assertEqual(self.differences(check_docs.check_map),
                         "crates/low/src/lib.rt:1: crates/low/src/lib.rt has no function sum\n"
                         "crates/low/src/lib.rt:1: there is no crates/low/specs/Sums.antt\n" + stale)

    def test_lines(self) -> None:
        """Lines of sources and specs have at most 110 columns, but for imports and attributes."""
        self.assertEqual(self.differences(check_docs.check_lines), "")
        laid_out = ("use low::{%s};", "pub use low::{%s};", "ghost use Rattle.low.{%s};",
                    "    #[tactic(auto, using(%s))]", "#![tactic(%s)]")
        self.put("crates/low/src/lib.rt", "".join(line % ("a" * 120) + "\n" for line in laid_out))
        self.put("crates/low/specs/Adding.antt", "use Rattle.%s\n%s\n" % ("a" * 120, "λ" * 110))
        self.put("crates/low/out/src/made.rt", "a" * 200)
        self.put("crates/high/proofs/f/Answers.antt", "a" * 200)
        self.assertEqual(self.differences(check_docs.check_lines), "")
        self.put("crates/low/src/lib.rt", "\n// %s\nlet used = %s;\n" % ("a" * 108, "a" * 120))
        self.put("crates/low/specs/Adding.antt", "λ" * 111)
        self.assertEqual(self.differences(check_docs.check_lines), """\
crates/low/src/lib.rt:2: a line of 111 columns
crates/low/src/lib.rt:3: a line of 132 columns
crates/low/specs/Adding.antt:1: a line of 111 columns
""")
