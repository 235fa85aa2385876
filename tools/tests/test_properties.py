"""Statements and worlds that hypothesis makes, which gives the smallest that shows a difference. They are the
same each time."""
from __future__ import annotations

import collections
import importlib.util
import json
import os
import random
import unittest
from typing import Callable

from checks import against_sqlite
from checks.against_sqlite import Maker, operand
from ldvtools.scripts_of_statements import escaped

from . import support
from .support import ldv

# Lines of a script, where `end` is a label behind the last one. None goes back, so that each script ends.
LINES = ('print "hi"', 'print x', 'let x = 1', 'let x = x + 1', 'let x = x ++ "a"', 'open f r "q" else end',
         'open f w "q" else end', 'open f a "q" else end', 'open f n "new" else end', 'readline x f else end',
         'write f x', 'close f', 'remove "q" else end', 'exists x "q"', 'fetch r x y else end', 'count x r',
         'status x r', 'if x < 3 goto end', 'exit 3')
CHILDREN = ('spawn p "child" else end', 'wait x p')


def line_of(maker: Maker, tables: list[against_sqlite.Table], lines: tuple[str, ...]) -> str:
    """A line of a script: mostly a statement."""
    if maker.perhaps(0.5):
        return maker.chance.choice(lines)
    made = maker.statement(tables)
    return " ".join([f'sql r "{escaped(made.text)}"', *map(operand, made.params)])


def world_of(chance: random.Random) -> bytes:
    """A world of some tables and a file, whose script starts others over the same tables and files."""
    maker = Maker(chance)
    tables = [maker.table(name) for name in ("t", "u")]
    made = against_sqlite.world_of(tables, [])
    scripts = {"main": LINES + CHILDREN, "child": LINES}
    files = {name: "".join(line_of(maker, tables, lines) + "\n" for _ in maker.some(8)) + "end:\n"
             for name, lines in scripts.items()}
    return json.dumps({**made, "files": {**files, "q": "a\nb\n"}, "seed": chance.randrange(3)}).encode()


@unittest.skipUnless(importlib.util.find_spec("hypothesis"), "hypothesis isn't installed")
@unittest.skipUnless(os.access(support.PROGRAM, os.X_OK), "the program isn't built")
class Properties(unittest.TestCase):
    def held(self, check: Callable[[random.Random], None], examples: int) -> None:
        """Tries what hypothesis chooses. Each example takes some calls of the program, however slow it is."""
        from hypothesis import HealthCheck, given, settings, strategies
        checks = [HealthCheck.too_slow, HealthCheck.data_too_large, HealthCheck.filter_too_much]
        chosen = settings(max_examples=examples, derandomize=True, database=None, deadline=None,
                          suppress_health_check=checks)
        chosen(given(strategies.randoms(use_true_random=False))(check))()

    def test_statements(self) -> None:
        """Each statement has the reply that SQLite gives to it, one after the other."""
        counts: against_sqlite.Counts = collections.Counter()

        def is_same(chance: random.Random) -> None:
            tables, asked = against_sqlite.made_by(chance, 4)
            found = against_sqlite.compare_made([support.PROGRAM, "run"], tables, asked, counts)
            self.assertIsNone(found and found[0])

        self.held(is_same, 50)
        self.assertGreater(counts["SELECT", "rows"], 50)

    def test_worlds(self) -> None:
        """The package of a run is replayed to the outcome of the run, with rows and with replies."""
        def is_replayed(chance: random.Random) -> None:
            data = world_of(chance)
            status, outcome, said = ldv(["run"], data)
            self.assertEqual((status, said), (0, b""))
            for words in (["record"], ["record", "--excluded"]):
                status, package, said = ldv(words, data)
                self.assertEqual((status, said), (0, b""), words)
                self.assertEqual(ldv(["replay"], package), (0, outcome, b""), words)

        self.held(is_replayed, 30)
