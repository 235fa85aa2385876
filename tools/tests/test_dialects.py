"""Statements of SQLite and PostgreSQL in the dialect: what is exact, and what is named."""
from __future__ import annotations

import unittest
from typing import Any, Optional

from ldvtools.captured_values import divided, made_value, quotient
from ldvtools.dialect_changes import Given, plan_of
from ldvtools.dialect_rules import Shape
from ldvtools.dialects import POSTGRES, SQLITE, Unreadable, read_statement
from ldvtools.world_columns import Column, Table


def shape(name: str, key: Any, *columns: Any, **more: Any) -> Shape:
    """A table of columns (name, kind, declared type, NOT NULL, decimals, default)."""
    found = []
    for place, (own, kind, declared, not_null, scale, default) in enumerate(columns, 1):
        column = Column(own.lower(), own, place, kind, not_null, declared)
        column.scale, column.default = scale, default
        found.append(column)
    return Shape(Table(name.lower(), found, 0, key), [column[0] for column in columns], **more)


def number(name: str, declared: str = "INT", not_null: bool = False, scale: Optional[int] = None,
           default: Any = None) -> tuple[Any, ...]:
    return name, "INT", declared, not_null, scale, default


def text(name: str, declared: str = "TEXT", default: Any = None) -> tuple[Any, ...]:
    return name, "TEXT", declared, False, None, default


SHAPES = {
    "t": shape("t", ["id"], number("id", "INTEGER", True), text("name"), number("v"),
               number("price", "REAL", scale=2)),
    "u": shape("u", ["id"], number("id", "INTEGER", True), number("t"), text("w"), text("day", "DATE")),
    "d": shape("d", [], number("a", default="7"), text("b", default="'x''y'"),
               text("c", default="CURRENT_DATE"))}
SERVER = {
    "t": shape("t", ["id"], number("id", "integer", True, default="nextval('t_id_seq'::regclass)"),
               text("name", "text"), number("price", "numeric(10,2)", scale=2), text("day", "date"),
               number("on", "boolean"), text("at", "timestamp without time zone"), collation="en_US.UTF-8")}


class Dialects(unittest.TestCase):
    def plan(self, statement: str, params: Any = (), driver: Any = SQLITE, keys: Any = (),
             shapes: Any = None) -> Any:
        shapes = shapes or (SHAPES if driver == SQLITE else SERVER)
        return plan_of(read_statement(statement), shapes, driver, params, Given(keys))

    def becomes(self, statement: str, expected: Any, params: Any = (), given: Any = None,
                **more: Any) -> Any:
        plan = self.plan(statement, params, **more)
        self.assertEqual(plan.text, expected)
        self.assertEqual(plan.params, list(params) if given is None else given)
        return plan

    def named(self, statement: str, reason: str, params: Any = (), **more: Any) -> None:
        with self.assertRaises(Unreadable) as caught:
            self.plan(statement, params, **more)
        self.assertIn(reason, caught.exception.reason)

    def test_comparisons(self) -> None:
        for condition, expected in (
                ("v BETWEEN 1 AND ?", "v >= 1 AND v <= ?"), ("NOT v BETWEEN 1 AND ?",
                                                             "NOT (v >= 1 AND v <= ?)"),
                ("v NOT BETWEEN 1 AND ?", "NOT (v >= 1 AND v <= ?)"), ("v == ?", "v = ?"), ("v <> ?",
                                                                                            "v <> ?"),
                ("v IN (1, ?)", "v = 1 OR v = ?"), ("v NOT IN (1, ?)", "NOT (v = 1 OR v = ?)"),
                ("v NOTNULL AND v != ?", "v IS NOT NULL AND v <> ?"), ("v ISNULL OR v > ?",
                                                                       "v IS NULL OR v > ?"),
                ('"v" = ? -- a comment', "v = ?"), ("[V] = ?", "v = ?"), ("`v` = ?", "v = ?"),
                ("t.v = ?", "v = ?"), ("main.t.v = ?", "v = ?"), ("v", "v <> 0"),
                ("CAST(v AS INTEGER) = ?", "v = ?"),
                ("v + 2 * 3 < -?", "v + 2 * 3 < -?"), ("v > ? AND TRUE", "v > ? AND 1 = 1")):
            with self.subTest(condition):
                params = (4,) if "?" in condition else ()
                self.becomes(f"SELECT id FROM t WHERE {condition}", f"SELECT id FROM t WHERE {expected}",
                             params)

    def test_long_in(self) -> None:
        """A long IN is no deep chain: 200 values are 8 halves and a chain of 16 at most."""
        plan = self.plan(f"SELECT id FROM t WHERE v IN ({', '.join('?' * 200)})", tuple(range(200)))
        self.assertEqual(plan.params, list(range(200)))

    def test_parameters(self) -> None:
        self.becomes("SELECT id FROM t WHERE v = :b AND id = @a OR v = $b",
                     "SELECT id FROM t WHERE v = ? AND id = ? "
                     "OR v = ?", {"a": 1, "b": 2}, [2, 1, 2])
        self.becomes("SELECT id FROM t WHERE v = ?2 AND id = ?1", "SELECT id FROM t WHERE v = ? AND id = ?",
                     (1, 2), [2, 1])
        self.becomes("SELECT id FROM t WHERE price > %(x)s AND name = %s".replace("%s", "%(y)s"),
                     "SELECT id FROM t WHERE price > ? AND name = ?", {"x": ("decimal", "2.5"),
                                                                       "y": "a"}, [250, "a"],
                     driver=POSTGRES)
        self.becomes("SELECT id FROM t WHERE id IN %s", "SELECT id FROM t WHERE id = ? OR id = ?",
                     (("list", [1, 2]),), [1, 2], driver=POSTGRES)
        self.named("SELECT id FROM t WHERE v = ?", "no value", ())

    def test_like(self) -> None:
        self.becomes("SELECT id FROM u WHERE day LIKE '2019-0%'",
                     "SELECT id FROM u WHERE day >= '2019-0' AND day < '2019-1'")
        # SQLite takes small and large letters for the same.
        self.becomes("SELECT id FROM t WHERE name LIKE ?", "SELECT id FROM t WHERE name >= 'A' AND name < "
                     "'B' OR "
                     "name >= 'a' AND name < 'b'", ("a%",), [])
        self.becomes("SELECT id FROM t WHERE name LIKE 'A%'", "SELECT id FROM t WHERE name >= 'A' AND name "
                     "< 'B'",
                     driver=POSTGRES)
        self.becomes("SELECT id FROM t WHERE name NOT LIKE '1'", "SELECT id FROM t WHERE NOT name = '1'")
        for pattern in ("%a", "a_b%", "é%", "abcdefgh%", "%", ""):
            self.named(f"SELECT id FROM t WHERE name LIKE '{pattern}'", "LIKE")
        self.named("SELECT id FROM t WHERE v LIKE '1%'", "LIKE")

    def test_answers(self) -> None:
        """What a program's columns are made of: AVG of two, COUNT in a join of a sum, hidden columns of an
        order."""
        plan = self.becomes("SELECT AVG(v) m, name FROM t GROUP BY name",
                            "SELECT SUM(v), COUNT(v), name FROM t GROUP BY name")
        self.assertEqual([part[:3] for part in plan.parts], [("avg", 0, 1), ("take", 2, 0)])
        plan = self.becomes("SELECT COUNT(*) FROM t JOIN u ON u.t = t.id",
                            "SELECT SUM(t.id * 0 + 1) FROM t, u WHERE "
                            "u.t = t.id")
        self.assertEqual(plan.parts[0][:2], ("count", 0))
        plan = self.becomes("SELECT name FROM t ORDER BY v DESC, name LIMIT 3 OFFSET ?",
                            "SELECT name, v FROM t ORDER BY 2 DESC, 1 LIMIT 5", (2,), [])
        self.assertEqual((len(plan.parts), plan.skip), (1, 2))
        self.becomes("SELECT name n, SUM(v) FROM t GROUP BY 1 ORDER BY n",
                     "SELECT name, SUM(v) FROM t GROUP BY name ORDER BY 1")
        # The key settles the other columns of its table.
        self.becomes("SELECT t.name, COUNT(u.id) FROM t JOIN u USING (id) GROUP BY t.id",
                     "SELECT t.name, SUM(u.id * 0 + 1) FROM t, u WHERE t.id = u.id GROUP BY t.id, t.name")
        self.becomes("SELECT u.* FROM t CROSS JOIN main.u", "SELECT u.id, u.t, u.w, u.day FROM t, u")

    def test_kinds(self) -> None:
        """Constants beside columns: as SQLite converts them, and as decimals are carried."""
        self.becomes("SELECT id FROM t WHERE v = '3' AND name = 4", "SELECT id FROM t WHERE v = 3 AND name "
                     "= '4'")
        self.becomes("SELECT id FROM t WHERE price >= ? AND price < 3",
                     "SELECT id FROM t WHERE price >= ? AND price "
                     "< 300", (1.25,), [125])
        self.named("SELECT id FROM t WHERE price > 1.234", "more decimals")
        self.named("SELECT id FROM t WHERE v > 1.5", "decimals")
        self.named("SELECT id FROM t WHERE v = name", "a number with a text")
        self.named("SELECT id FROM t WHERE v = ?", "beside a column of numbers", (b"x",))
        self.named("SELECT SUM(price) FROM t", "floats")
        self.named("SELECT AVG(price) FROM t", "floats")
        self.named("SELECT price * 2 FROM t", "floats")
        self.becomes("SELECT MAX(price), SUM(v * 2) FROM t", "SELECT MAX(price), SUM(v * 2) FROM t")

    def test_server(self) -> None:
        for condition, params, expected, given in (
                ("price * 2 > 5", (), "price * 2 > 500", []), ("day = %s", (("date", "2019-01-02"),),
                                                               "day = ?", ["2019-01-02"]),
                ("day > '2019-01-02'::date", (), "day > '2019-01-02'", []), ('"on"', (), "on_ <> 0", []),
                ("at = %s", (("datetime", "2019-01-02 03:04:05"),), "at = ?", ["2019-01-02 03:04:05"]),
                ("at = '2019-01-02'", (), "at = '2019-01-02 00:00:00'", []),
                ("name = E'a\\\\b'", (), "name = 'a\\b'", [])):
            with self.subTest(condition):
                shapes = dict(SERVER)
                shapes["t"].table.columns[4].name = "on_"
                self.becomes(f"SELECT id FROM public.t WHERE {condition}",
                             f"SELECT id FROM t WHERE {expected}", params,
                             given, driver=POSTGRES, shapes=shapes)
        self.named("SELECT id FROM t WHERE name > 'a'", "collation en_US.UTF-8", driver=POSTGRES)
        self.named("SELECT id FROM t WHERE day = '1.2.2019'", "column of dates", driver=POSTGRES)
        self.assertTrue(self.plan("SELECT id FROM t ORDER BY name", driver=POSTGRES).is_loose)
        # NULL stands last there and first here.
        self.assertTrue(self.plan("SELECT id FROM t ORDER BY price", driver=POSTGRES).is_loose)
        self.assertFalse(self.plan("SELECT id FROM t ORDER BY price NULLS FIRST", driver=POSTGRES).is_loose)
        self.named("SELECT id FROM t ORDER BY price LIMIT 1", "LIMIT", driver=POSTGRES)

    def test_changes(self) -> None:
        self.becomes("INSERT INTO t (name, v) VALUES (?, 2)", "INSERT INTO t (id, name, v) VALUES (9, ?, 2)",
                     ("a",),
                     keys=[9])
        self.becomes("INSERT INTO t VALUES (NULL, 'a', 1, 2.5), (NULL, 'b', 2, 3)",
                     "INSERT INTO t VALUES (4, 'a', 1, 250), (5, 'b', 2, 300)", keys=[4, 5])
        self.becomes("INSERT INTO t (name) VALUES (%s) RETURNING id",
                     "INSERT INTO t (id, name) VALUES (3, ?)", ("a",),
                     keys=[3], driver=POSTGRES)
        self.named("INSERT INTO t (name) VALUES ('a')", "by itself", driver=POSTGRES)
        self.becomes("INSERT INTO d (c) VALUES ('z')", "INSERT INTO d (c, a, b) VALUES ('z', 7, 'x''y')")
        self.named("INSERT INTO d (a) VALUES (1)", "DEFAULT CURRENT_DATE")
        self.becomes("UPDATE t SET price = ?, v = v + 1 WHERE t.id = 3",
                     "UPDATE t SET price = ?, v = v + 1 WHERE "
                     "id = 3", (1.5,), [150])
        self.becomes("DELETE FROM t AS x WHERE x.name IN ('a')", "DELETE FROM t WHERE name = 'a'")

    def test_named(self) -> None:
        """What isn't exact has a reason."""
        for statement, reason in (
                ("SELECT id FROM t LEFT JOIN u ON t.id = u.t", "an outer join"), ("SELECT (SELECT 1)",
                                                                                  "a subquery"),
                ("SELECT id FROM t WHERE id IN (SELECT t FROM u)", "a subquery"), ("SELECT id FROM (SELECT "
                                                                                   "1)", "a subquery"),
                ("SELECT id FROM t WHERE EXISTS (SELECT 1 FROM u)", "a subquery"),
                ("SELECT CASE WHEN v THEN 1 END FROM t", "CASE"), ("SELECT upper(name) FROM t",
                                                                   "the function upper"),
                ("SELECT name || 'x' FROM t", "parts of values"), ("SELECT v / 2 FROM t", "a division"),
                ("SELECT COUNT(DISTINCT v) FROM t", "COUNT(DISTINCT"), ("SELECT SUM(v) OVER () FROM t",
                                                                        "a window"),
                ("SELECT id FROM t INTERSECT SELECT id FROM u", "INTERSECT"), ("SELECT v > 2 FROM t",
                                                                               "a condition as a value"),
                ("SELECT id FROM t WHERE name GLOB 'a*'", "GLOB"), ("SELECT id FROM t WHERE v IS 3",
                                                                    "IS beside"),
                ("INSERT OR IGNORE INTO t VALUES (1, 'a', 2, 3)", "INSERT OR IGNORE"),
                ("INSERT INTO t SELECT * FROM t", "INSERT .. SELECT"),
                ("INSERT INTO t VALUES (1, 'a', 2, 3) ON CONFLICT DO NOTHING", "ON CONFLICT"),
                ("UPDATE t SET v = 1 FROM u", "UPDATE .. FROM"), ('SELECT id FROM t WHERE name = "Ada"',
                                                                  "takes it for a text"),
                ("SELECT id FROM nowhere", "no table of the database"), ("SELECT nothing FROM t",
                                                                         "no column"),
                ("SELECT id FROM t, u", "two tables"), ("SELECT name, COUNT(*) FROM t", "without GROUP BY"),
                ("SELECT v FROM t GROUP BY name", "outside of GROUP BY"), ("SELECT id FROM t ORDER BY v + "
                                                                           "name", "arithmetic"),
                ("SELECT id FROM t NATURAL JOIN u", "NATURAL"), ("WITH x AS (SELECT 1) SELECT * FROM x",
                                                                 "WITH"),
                ("SELECT id FROM t WHERE CAST(v AS TEXT) = '3'", "CAST"), ("SELECT ^ FROM t",
                                                                           "parts of values"),
                ("SELECT MAX(v, 1) FROM t", "MAX of several"), ("SELECT id FROM other.t",
                                                                "a table of other"),
                ("SELECT id FROM other.main.t", "a table of other.main"),
                ("SELECT other.t.id FROM t", "a table of other")):
            with self.subTest(statement):
                self.named(statement, reason)

    def test_values(self) -> None:
        """Values of replies as the program gets them; averages as SQLite and PostgreSQL 15 write them."""
        self.assertEqual(made_value("float", 2, 1250), 12.5)
        self.assertEqual(made_value("decimal", 2, 1250), ("decimal", "12.50"))
        self.assertEqual(made_value("decimal", 2, -5), ("decimal", "-0.05"))
        self.assertEqual((made_value("numeric", 1, 30), made_value("numeric", 1, 31)), (3, 3.1))
        self.assertIs(made_value("bool", 0, 1), True)
        self.assertEqual(made_value("bytes", 0, "é"), b"\xc3\xa9")
        self.assertEqual(quotient("float", 0, 7, 2), 3.5)
        self.assertIsNone(quotient("float", 0, None, 0))
        for total, scale, count, expected in (
                (3, 0, 2, "1.5000000000000000"), (10, 0, 3, "3.3333333333333333"),
                (100000, 0, 3, "33333.333333333333"), (1, 0, 3, "0.33333333333333333333"),
                (11975, 2, 3, "39.9166666666666667"), (-1, 0, 2, "-0.50000000000000000000")):
            self.assertEqual(format(divided(total, scale, count), "f"), expected)
