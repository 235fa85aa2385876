"""Random programs, captured and played back."""
from __future__ import annotations

from checks import against_programs
from ldvtools.dialects import Unreadable, read_statement

from . import support
from .support import InFolder
from .test_capture import Programs


class Random(Programs):
    def test_programs(self) -> None:
        """A few. `python3 tools against_programs --programs 1000` tries more."""
        for seed in range(1, 9):
            self.assertIsNone(against_programs.compare(support.PROGRAM, seed, 20), f"seed {seed}")


class Maker(InFolder):
    def test_maker(self) -> None:
        """A seed makes the same program again, and its statements can be read."""
        for seed in range(1, 21):
            tables, statements = against_programs.statements_of(seed, 30)
            self.assertEqual((tables, statements), against_programs.statements_of(seed, 30))
            for _, text, _ in statements:
                if text:
                    try:
                        read_statement(text)
                    except Unreadable as fault:
                        self.fail(f"{text}: {fault}")
