"""Statements as tools read them, and as the library sqlglot does, which is another reader of dialects."""
from __future__ import annotations

import json
import os
import random
import subprocess
import unittest
from typing import Any, Optional

from checks import against_programs
from ldvtools.dialects import Delete, Insert, Query, Update, read_statement

from .support import HERE, python_with

# A statement or a part of it: what it is, and its parts.
Tree = list[Any]
PYTHON = python_with("sqlglot")
# Statements that both read, of each dialect.
BOTH = {
    "sqlite": (
        "SELECT id FROM t WHERE v BETWEEN 1 AND ? AND NOT v BETWEEN 2 AND 3 OR v NOT BETWEEN ? AND 9",
        "SELECT id FROM t WHERE v IN (1, 2) AND v NOT IN (3) AND name NOT LIKE 'a%' AND name LIKE 'b'",
        "SELECT id FROM t WHERE v NOTNULL AND name ISNULL AND v IS NOT NULL AND NOT v IS NULL",
        'SELECT DISTINCT [id] AS "Id", `v` x, t.name FROM t ORDER BY 1 DESC, x, t.v + 1 LIMIT 5 OFFSET 10',
        "SELECT COUNT(*), SUM(v) total, AVG(v), MIN(v * 2 - 1), MAX(-v) FROM t GROUP BY name, v "
        "HAVING SUM(v) > 3 AND COUNT(*) <> 2",
        "SELECT a.id, b.* FROM t a JOIN u AS b ON a.id = b.t AND b.w = 'x''y' WHERE a.v >= 1.5",
        "SELECT * FROM t, u AS w WHERE (t.id = w.t OR w.w < 'a') AND (t.v == 1 OR t.v != 2 OR t.v <= 3)",
        "SELECT id FROM t WHERE v = :b AND id = @a OR v = ? -- a comment",
        "SELECT id FROM t UNION ALL SELECT t FROM u UNION SELECT v FROM t ORDER BY 1 LIMIT 3",
        "SELECT 1 + 2 * 3 - 4, (1 + 2) * 3, 1 - (2 - 3), - (-v) FROM t WHERE NOT NOT v = 1",
        "SELECT id FROM t WHERE CAST(v AS INT) > 2",
        "INSERT INTO t (id, \"Name\") VALUES (1, 'a'), (?, NULL)", "INSERT INTO t VALUES (1, 'a', -2, 3.5)",
        "UPDATE t SET v = v + 1, name = 'b' WHERE id = ? AND v > 2", "UPDATE t SET v = NULL",
        "DELETE FROM t WHERE name IN ('a') OR v IS NULL", "DELETE FROM t"),
    "postgres": (
        "SELECT id FROM t WHERE day = '2019-01-02'::date AND active = TRUE AND v::int > 3",
        'SELECT "t"."Id" FROM t JOIN u ON "t"."Id" = u.t ORDER BY u.w DESC LIMIT 3 OFFSET 1',
        "UPDATE people SET active = FALSE WHERE id IN (1, 2)")}
# What the library in Debian, 10.6.3, doesn't read, or reads as something else than the database does.
# SQLite's `LIMIT 5, 10` passes over 5 rows; the library takes it for 5 rows, and passes over 10.
OWN = (
    ("sqlite", "SELECT id FROM t WHERE v = ?2"), ("sqlite", "SELECT id FROM t WHERE v = $c"),
    ("postgres", "SELECT id FROM t WHERE v = %s"),
    ("postgres", "SELECT id FROM t WHERE v = %(name)s"), ("postgres", "DELETE FROM t RETURNING id"),
    ("sqlite", "DELETE FROM t AS x WHERE x.v = 1"), ("sqlite", "SELECT id FROM t LIMIT 5, 10"))


def expr(found: Any) -> Tree:
    """An expression in the form of sqlglot_trees.py."""
    parts = [expr(part) for part in found.parts]
    if found.form == "constant":
        return constant(found.value)
    if found.form == "column":
        return ["column", found.source.lower(), found.word.lower()]
    if found.form == "aggregate":
        return ["aggregate", found.word, parts[0] if parts else None]
    heads = {"parameter": ["parameter"], "star": ["star", found.source.lower()],
             "compare": ["compare", found.word], "arithmetic": ["arithmetic", found.word]}
    made = [*heads.get(found.form, [found.form]), *parts]
    return ["not", made] if found.is_negative else made


def constant(value: Any) -> Tree:
    if value is None:
        return ["null"]
    if isinstance(value, bool):
        return ["truth", value]
    if isinstance(value, str):
        return ["text", value]
    return ["number", value[1] if isinstance(value, tuple) else str(value)]


def optional(found: Any) -> Optional[Tree]:
    return None if found is None else expr(found)


def core(found: Any) -> Tree:
    items = [[expr(item.expr), item.name.lower()] for item in found.items]
    sources = sorted([source.table.lower(), source.name.lower()] for source in found.sources)
    return ["core", found.is_distinct, items, sources, list(map(expr, found.picks)),
            list(map(expr, found.group)), optional(found.having)]


def tree(text: str) -> Tree:
    """A statement as the tools read it, in the form of sqlglot_trees.py."""
    found = read_statement(text)
    if isinstance(found, Query):
        terms = [[expr(order.expr), order.is_down] for order in found.order]
        return ["query", list(map(core, found.cores)), found.unions, terms, optional(found.limit),
                optional(found.offset)]
    table = found.table.lower()
    if isinstance(found, Insert):
        names = None if found.columns is None else [name.lower() for name in found.columns]
        return ["insert", table, names, [list(map(expr, row)) for row in found.rows]]
    if isinstance(found, Update):
        sets = [[name.lower(), expr(value)] for name, value in found.sets]
        return ["update", table, found.name.lower(), sets, optional(found.pick)]
    assert isinstance(found, Delete)
    return ["delete", table, found.name.lower(), optional(found.pick)]


def trees_of_library(corpus: Any) -> Any:
    done = subprocess.run([PYTHON or "", os.path.join(HERE, "sqlglot_trees.py")],
                          input=json.dumps(corpus).encode(), stdout=subprocess.PIPE, check=True)
    return json.loads(done.stdout)


@unittest.skipUnless(PYTHON, "python3-sqlglot isn't installed")
class Library(unittest.TestCase):
    def check(self, corpus: Any) -> None:
        for (dialect, text), found in zip(corpus, trees_of_library(corpus)):
            with self.subTest(text, dialect=dialect):
                self.assertEqual(tree(text), found)

    def test_both(self) -> None:
        """Both readers find the same in the forms that both know."""
        self.check([(dialect, text) for dialect, texts in BOTH.items() for text in texts])

    def test_random(self) -> None:
        """And in random statements, in random spellings."""
        corpus = []
        for seed in range(1, 11):
            _, statements = against_programs.statements_of(seed, 40)
            # The library reads a comment in few places.
            corpus += [("sqlite", text.replace("/* a comment */", " ")) for way, text, _ in statements
                       if way in ("one", "many")]
        self.assertGreater(len(corpus), 300)
        random.Random(1).shuffle(corpus)
        self.check(corpus)

    def test_own(self) -> None:
        """What the library doesn't read, or reads as something else: why it isn't the tools' reader."""
        for (dialect, text), found in zip(OWN, trees_of_library(OWN)):
            with self.subTest(text, dialect=dialect):
                self.assertNotEqual(tree(text), found)
