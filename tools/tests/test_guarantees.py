"""The check of guarantees, with what it has to find."""
from __future__ import annotations

import contextlib
import io
import os

from checks import check_docs

from .support import InFolder


class Guarantees(InFolder):
    """A crate `low` with a promise, and a page that says it."""

    def setUp(self) -> None:
        super().setUp()
        for folder in ("docs/internals", "crates/low/src", "crates/low/specs"):
            os.makedirs(os.path.join(self.folder, folder))
        self.put("crates.txt", "# Part\nlow:\n")
        self.put("crates/low/src/lib.rt",
                 "pub struct Sum {\n}\n\nimpl Sum {\n    pub fn add(&mut self) -> bool\n"
                 "        requires small { True }\n        ensures ok { IsSum result }\n    {\n"
                 "        lost()\n    }\n\n    fn lost() -> bool {\n        true\n    }\n}\n\n"
                 "pub fn law()\n    ensures { SumLaw }\n{}\n")
        self.put("crates/low/specs/Sums.antt",
                 "pub record SumLaw : Type 0 where\n  pub same : N\n  -- more\n  pub one : N\n\n"
                 "pub record Other : Type 0 where\n  pub two : N\n")

    def differences(self, cell: str) -> str:
        self.put(check_docs.GUARANTEES, "## [`low`](../crates/low/src/lib.rt)\n\n| | | |\n|---|---|---|\n"
                                        f"| Proved | sums | {cell} |\n\n## Tested\n\n| | | |\n|---|---|---|\n"
                                        "| a | b | `none` (`lost`) |\n")
        with contextlib.redirect_stdout(io.StringIO()) as printed:
            check_docs.check_guarantees(self.folder, check_docs.Differences())
        return printed.getvalue()

    def test_assumed(self) -> None:
        """A library that a crate uses is in its table, in a row of what is assumed."""
        def told(row: str) -> str:
            self.put(check_docs.GUARANTEES, "## [`low`](../crates/low/src/lib.rt)\n\n| | | |\n|---|---|---|\n"
                                            f"| Proved | sums | |\n{row}\n\n## Trusted\n\n`itoa`, `hex`\n")
            with contextlib.redirect_stdout(io.StringIO()) as printed:
                check_docs.check_kit({"low": ["itoa", "hex"]}, check_docs.Differences(), self.folder)
            return printed.getvalue()
        self.put(check_docs.ARCHITECTURE, "| Library | For | Used by |\n|---|---|---|\n| `itoa` | a | low |\n"
                                          "| `hex` | b | low |\n")
        for row in ("| Assumed | what `itoa` and `hex` say | |",
                    "| Assumed | what `itoa` says | |\n| | what `hex` says | |\n| Tested only | sums | |"):
            self.assertEqual(told(row), "", row)
        for row in ("| Assumed | what `itoa` says | |",
                    "| Assumed | what `itoa` says | |\n| Tested only | `hex` | |",
                    "| Assumed | what `itoa` says | `hex` |"):
            self.assertEqual(told(row), f"{check_docs.GUARANTEES}:1: the table of low assumes nothing of "
                                        "hex\n", row)

    def test_promises(self) -> None:
        """A function is one of the crate; in brackets are clauses, what they cite, and fields of that."""
        for cell in ("`Sum::add` (`ok`, `small`, `IsSum`)", "`law` (`SumLaw`, `same`, `one`), `add`", "`Sum`",
                     "`run_tests/src/lib.rt`", "what is said"):
            self.assertEqual(self.differences(cell), "", cell)
        for cell, found in (("`Sum::take`", "low has no take"), ("`Sums::add`", "low has no Sums"),
                            ("`add` (`ok`, `err`)", "the contract of add has no err"),
                            ("`add` (`lost`)", "the contract of add has no lost"),
                            ("`law` (`two`)", "the contract of law has no two")):
            self.assertEqual(self.differences(cell), f"docs/internals/GUARANTEES.md:5: {found}\n", cell)

    def test_crates(self) -> None:
        self.put("crates.txt", "# Part\nlow:\nhigh: low\n")
        self.assertEqual(self.differences("`add`"), "docs/internals/GUARANTEES.md:1: high is missing\n")
