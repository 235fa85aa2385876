"""against_sqlite.py."""
from __future__ import annotations

import unittest

from checks import against_sqlite


class AgainstSqlite(unittest.TestCase):
    def test_maker(self) -> None:
        """A seed makes the same database and statements again, and SQLite takes them all."""
        for seed in range(1, 21):
            tables, asked_here = against_sqlite.made(seed, 40)
            self.assertEqual((tables, asked_here), against_sqlite.made(seed, 40))
            base = against_sqlite.opened(tables)
            for each in asked_here:
                against_sqlite.reply_of(base, each)
