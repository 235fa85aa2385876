"""check.py: bad lines and refused statements, against the program's answers in the cases."""
from __future__ import annotations

import glob
import hashlib
import json
import os
import re
from typing import Any, Iterator

from ldvtools import check, diff, outcome, package, world
from ldvtools.errors import Malformed
from ldvtools.outcomes import read_outcome
from ldvtools.packages import read_package
from ldvtools.rerun import questions_of
from ldvtools.scripts import FORMS, BadLine, read_script
from ldvtools.sql_check import UNKNOWN, judge
from ldvtools.worlds import read_world, world_of_package

from .support import ASK, EXAMPLES, ROOT, InFolder, match_in, read, tool

SCHEMAS = {"t": [("k", "INT NOT NULL"), ("g", "TEXT"), ("v", "INT")],
           "u": [("k", "INT"), ("w", "TEXT NOT NULL")]}
BAD_LINE = re.compile(r"ldv: not a world: bad script line (\d+)\n")

# Where each rule of a world is broken: what the place begins with.
PLACES = {
    "not json": r"line \d+ column \d+: |byte \d+ |it begins with a byte order mark|it is (?!a world)|"
                r"the number \S+ is beyond|\w+\.\w+ has half a surrogate pair",
    "shape": r"the document |files |start |seed |tables |(start|files)\[\d+\]|the (file|table) \"|"
             r"(row|column|foreign key) \d+ of the table \"|(the kind of |the name of )?column \d+ |"
             r"\w+ of the (file|table) \"|the (columns|parent) of foreign",
    "name": r"the (path|table) \"|a (column|foreign key) of \w+ |the key of \w+ |\w+ has two columns |"
            r"start has|the first start word ",
    "limit": r"(bytes of .+|start words|tables|files|(columns|rows|foreign keys) of \w+): \d+; the limit is "
             r"\d+$|\w+ has no column|next of \w+ is ",
    "row type": r"row \d+ of \w+, column \w+, is ", "not null": r"row \d+ of \w+, column \w+, is null",
    "key": r"row \d+ of \w+ has the key of row \d+: |the key of \w+ names \w+, ",
    "reference": r"the foreign key \(.*\) of \w+ to \w+: |row \d+ of \w+ refers by ",
    "no start": r"the first start word, \""}


def bytes_of(text: Any) -> bytes:
    if isinstance(text, dict):
        return bytes.fromhex(text["hex"])
    return str(text).encode("utf-8", "surrogatepass")


def cases() -> Iterator[Any]:
    """The cases of the program: the words, the input, the status, the output and the line."""
    for path in sorted(glob.glob(os.path.join(ROOT, "crates/conformance/data/*/*.json"))):
        with open(path, encoding="utf-8") as file:
            for case in json.load(file):
                yield (case["words"], bytes_of(case["input"]), case["status"], bytes_of(case["output"]),
                       case["error"])


class AgainstCases(InFolder):
    def test_bad_lines(self) -> None:
        """A line is bad exactly where the program says so."""
        bad = good = 0
        for words, data, status, _, error in cases():
            found = BAD_LINE.fullmatch(error)
            if words[:1] not in (["run"], ["record"]) or status != 0 and not found:
                continue
            made = json.loads(data)
            script = bytes_of(made["files"][made["start"][0]])
            try:
                read_script(script)
                self.assertIsNone(found, script)
                good += 1
            except BadLine as fault:
                self.assertEqual(fault.line, int(found[1]) if found else 0, script)
                bad += 1
        self.assertTrue(bad > 20 and good > 200, (bad, good))

    def test_codes(self) -> None:
        """A statement is refused by a code from 1 to 4 exactly where the reply says so,
        and has as many columns."""
        codes = {0: 0, 1: 0, 2: 0, 3: 0, 4: 0}
        for words, data, status, output, _ in cases():
            if status != 0 or words != ["run"]:
                continue
            document = read_world(data)
            for question in questions_of(document.world, read_outcome(output)):
                judged = judge(question.text, question.params, document.schemas)
                assert question.reply is not None
                code = question.reply.code if question.reply.code <= 4 else 0
                self.assertEqual(judged.finding.code if judged.finding else 0, code, (question, judged))
                codes[code] += 1
                for row in question.reply.rows[:1]:
                    self.assertEqual(len(row), len(judged.names), question)
        self.assertTrue(all(count >= 5 for count in codes.values()), codes)

    def test_replays(self) -> None:
        """The scripts of each package lead to the outcome of its replay, whatever its kind and version."""
        count = 0
        for words, data, status, output, _ in cases():
            if words == ["replay"] and status == 0:
                questions_of(world_of_package(read_package(data)).world, read_outcome(output))
                count += 1
        self.assertGreater(count, 50)

    def test_worlds(self) -> None:
        """Each world that the program refuses is refused by the same rule, with a place; each that it takes
        is taken."""
        refused, taken, seen = set(), 0, set()
        for words, data, status, _, error in cases():
            if words[:1] not in (["run"], ["record"]) or status == 2 or data in seen:
                continue
            seen.add(data)
            found = re.fullmatch(r"ldv: not a world: (.*)\n", error)
            got, out, err = tool(check, given=data)
            if found is None:
                self.assertNotIn("check.py: no world: ", err, data)
                taken += 1
            elif BAD_LINE.fullmatch(error):
                self.assertRegex(out.decode(), rf" line {found[1].split()[-1]}: bad: ..")
                refused.add("bad script line")
            else:
                self.assertEqual((got, out), (1, b""), data)
                said = match_in(r"(?m)^check\.py: no world: (.*)$", err)
                self.assertRegex(said[1], rf"^{found[1]}: ({PLACES[found[1]]})", data)
                refused.add(found[1])
        self.assertEqual(refused, {*PLACES, "bad script line"})
        self.assertGreater(taken, 2000)

    def test_other_outcomes(self) -> None:
        """An outcome of another world is found."""
        document = read_world(b'{"start":["m"],"files":{"m":"print 1\\nsql q \\"SELECT 1 FROM t\\"\\n"}}')
        for text in ("outcome 1 0\nprocess 0 0 2 0\n1\n\n", "outcome 1 0\nprocess 0 0 2 1\n2\n\nrefused 2\n",
                     "outcome 1 0\nprocess 0 1 2 1\n1\n\nrefused 2\n",
                     "outcome 2 0\nprocess 0 0 2 1\n1\n\nrefused 2\nprocess 0.0 0 0 0\n\n",
                     "outcome 1 1\nprocess 0 0 2 1\n1\n\nrefused 2\nfile 1 0\na\n\n"):
            with self.assertRaises(Malformed):
                questions_of(document.world, read_outcome(text.encode()))


class Hints(InFolder):
    """What it says is wrong, and what to write instead."""

    def test_statements(self) -> None:
        for text, code, said in (
                ("SELECT AVG(v) FROM t", 1, "ask SUM(x) and COUNT(x)"),
                ("SELECT * FROM t WHERE k IN (1, 2)", 1, "write x = 1 OR x = 2"),
                ("SELECT * FROM t WHERE k NOT IN (1, 2)", 1, "a script says which aren't in (docs"),
                ("SELECT * FROM t WHERE k BETWEEN 1 AND 2", 1, "write x >= 1 AND x <= 5"),
                ("SELECT * FROM t WHERE g LIKE 'a%'", 1, "x >= 'ab' AND x < 'ac'"),
                ("SELECT * FROM t WHERE g LIKE '%a%'", 1, "a part inside: cut in a script"),
                ("SELECT * FROM t WHERE g LIKE 'A%'", 1, "case of their letters, which LIKE of SQLite"),
                ("SELECT CASE WHEN k = 1 THEN 2 END FROM t", 1, "UNION ALL"),
                ("SELECT COALESCE(v, 0) FROM t", 1, "x IS NOT NULL"),
                ("SELECT * FROM t WHERE k = (SELECT MAX(k) FROM u)", 1, "no subqueries"),
                ("SELECT * FROM t LIMIT 3 OFFSET 2", 1, "pass over the first ones"),
                ("SELECT * FROM t WHERE k == 1", 1, "equal is one ="),
                ("SELECT * FROM t LEFT OUTER JOIN u ON t.k = u.k", 1, "outer join"),
                ("SELECT * FROM t NATURAL JOIN u", 1, "JOIN .. ON"),
                ("SELECT k AS count FROM t", 1, "count is a reserved word"),
                ("SELECT k n FROM t", 1, "AS n"),
                ("SELECT 1", 1, "each SELECT has FROM"),
                ("SELECT k / 2 FROM t", 1, "division: SUM and COUNT, and divide in the script"),
                ("SELECT g || 'a' FROM t", 1, "'||' can't be read, where FROM is due; ++ in a script"),
                ("SELECT k /* all */ FROM t", 1, "'/*' can't be read, where FROM is due; comments are -- .."),
                ("SELECT * FROM t WHERE g = \"a\"", 1, "a text stands in '"),
                ("SELECT * FROM t -- all", 1, "no comments"),
                ("SELECT * FROM t WHERE v = 1.5", 1, "no decimals"),
                ("SELECT COUNT(DISTINCT g) FROM t", 1, "SELECT DISTINCT and count"),
                ("INSERT INTO t SELECT * FROM u", 1, "takes VALUES"),
                ("DELETE FROM t; DELETE FROM u", 1, "an instruction of its own"),
                ("SELECT k FROM t ORDER BY t.k", 1, "name it with AS"),
                ("SELECT g FROM t GROUP BY g ORDER BY SUM(v)", 1, "with AS, as SUM(x) AS y, and write ORDER "
                                                                  "BY y"),
                ("SELECT g FROM t GROUP BY g ORDER BY g, count(*) DESC", 1, "as COUNT(x) AS y, and write "
                                                                            "ORDER"),
                ("SELECT g FROM t GROUP BY MAX(v)", 1, "and GROUP BY columns: name the item with AS"),
                ("SELECT k FROM t LIMIT 1 UNION SELECT k FROM u", 1, "at the end of the whole query"),
                ("CREATE TABLE x (a INT)", 1, "tables come with the world"),
                ("SELECT * FROM tt", 2, "did you mean t?"),
                ("SELECT * FROM t, t", 2, "two sources have the name t"),
                ("SELECT vv FROM t", 3, "did you mean v?"),
                ("SELECT k FROM t, u", 3, "write t.k"),
                ("SELECT k FROM t WHERE g = pen", 3, "a text would be 'pen'"),
                ("SELECT k, g FROM t GROUP BY g", 3, "k stands outside aggregates"),
                ("SELECT k FROM t ORDER BY v", 3, "no answer column is named v"),
                ("SELECT * FROM t WHERE v = '3'", 4,
                 "= compares v (a number) with a text; a number has no quotes: 3"),
                ("SELECT * FROM t WHERE 3 < g", 4, "< compares a number with g (a text)"),
                ("SELECT * FROM t WHERE v = g", 4, "= compares v (a number) with g (a text)"),
                ("SELECT * FROM t WHERE v = 'x'", 4, "= compares v (a number) with a text"),
                ("SELECT SUM(g) FROM t", 4, "SUM of g (a text)"),
                ("SELECT -g FROM t", 4, "arithmetic with g (a text)"),
                ("SELECT * FROM t WHERE g AND 1 = 1", 4, "and takes conditions, and g (a text) is none"),
                ("SELECT COUNT(*) FROM t JOIN u ON t.k = u.k", 4, "SUM(x * 0 + 1)"),
                ("INSERT INTO t VALUES (1, 'a')", 4, "2 values for 3 columns (k, g, v)"),
                ("UPDATE t SET v = 'a'", 4, "v is INT")):
            found = judge(text, [], SCHEMAS).finding
            assert found is not None, text
            self.assertEqual(found.code, code, text)
            self.assertIn(said, found.cause, text)
            self.assertFalse(found.cause.endswith((",", ";", " ")), found.cause)
        self.assertIsNone(judge("SELECT k FROM t WHERE k = ? LIMIT ?", [UNKNOWN, UNKNOWN], SCHEMAS).finding)
        self.assertEqual(judge("SELECT k, v + 1, g AS x FROM t", [], SCHEMAS).names, ["k", None, "x"])
        self.assertEqual(judge("SELECT * FROM u, t", [], SCHEMAS).names, ["k", "w", "k", "g", "v"])

    def test_joins(self) -> None:
        """Words of other dialects that are names here are found before JOIN."""
        for word in ("LEFT", "right", "Full", "CROSS", "NATURAL", "OUTER"):
            judged = judge(f"SELECT 1 FROM t {word} JOIN u ON 1 = 1", [], SCHEMAS)
            self.assertIsNone(judged.finding)
            self.assertIn("this is an inner join", judged.warnings[0])
        self.assertEqual(judge("SELECT 1 FROM t AS left JOIN u ON 1 = 1", [], SCHEMAS).warnings, [])

    def test_partners(self) -> None:
        """What finds rows without a partner is a script, and the hint names a section that is there."""
        said = "for each row SELECT COUNT(*) of its partners (docs/SCRIPTS.md, Rows without a partner)"
        self.assertIn(said, judge("SELECT 1 FROM t LEFT JOIN u ON 1 = 1", [], SCHEMAS).warnings[0])
        found = judge("SELECT 1 FROM t LEFT OUTER JOIN u ON 1 = 1", [], SCHEMAS).finding
        assert found is not None
        self.assertIn(said, found.cause)
        self.assertIn(b"\n### Rows without a partner\n", read(f"{ROOT}/docs/SCRIPTS.md"))

    def test_nulls(self) -> None:
        """A comparison with NULL runs and is never true, which is said; SET takes NULL."""
        given = '{"start":["m"],"files":{"m":"sql q \\"%s\\"\\n"},"tables":{"t":{"columns":[["g","TEXT"]]}}}'
        for condition, said in (("g = NULL", "g = NULL is never true, and NOT of it neither; write g IS"),
                                ("NOT (NULL = t.g)", "t.g = NULL is never true"),
                                ("g = 'a' OR g <> (NULL)", "write g IS NOT NULL"),
                                ("g IS NULL", ""), ("g = 'NULL'", "")):
            text = f"SELECT * FROM t WHERE {condition}"
            path = self.put("w.json", given % text)
            for words in ([path], ["--statement", text, path]):
                status, out, _ = tool(check, *words)
                self.assertEqual(status, 1 if said else 0, condition)
                self.assertIn(said.encode(), out)
            status, out, err = tool(world, "--csv", self.put("t.csv", "g\nb\n"), "--ask", text)
            self.assertEqual((status, "world.py: warning: --ask 1: " in err), (0, bool(said)))
            self.assertIn(said, err)
        path = self.put("w.json", given % "UPDATE t SET g = NULL")
        self.assertEqual(tool(check, path)[:2], (0, b""))

    def test_deep_texts(self) -> None:
        """A text of many parentheses or minuses has no reading, and needs no deep stack."""
        for text in ("(" * 30000, "NOT " * 10000, "- " * 30000):
            found = judge(f"SELECT k FROM t WHERE {text}", [], SCHEMAS).finding
            self.assertEqual(found.code if found else 0, 1)
        for depth, code in ((63, None), (64, 1)):
            found = judge("SELECT " + "(" * depth + "k" + ")" * depth + " FROM t", [], SCHEMAS).finding
            self.assertEqual(found and found.code, code, depth)

    def test_lines(self) -> None:
        for line, said in (
                ("prin 1", "perhaps print v v*"), ("x = 1", "let x = v"), ("let x=1", "blanks stand between"),
                ("let x = 1.5", "no decimals"), ("let x = 'a'", 'a text stands in "'),
                ('print "a', 'closing "'), ('print "\\q"', "\\q in a text"),
                ("goto nowhere", "no line is the label nowhere"),
                ("open f x \"p\" else e", "r or w or a or n"), ("readline a b", "else is missing"),
                ("Let x = 1", "perhaps let x = v"), ("cut x x 1", "the two variables are one"),
                ("let x = 9223372036854775808", "outside 64 bits"), ("e: 1", "a line of its own"),
                ('print "a""b"', "no blank"), ("exit", "a value is missing"),
                ("close F", "no upper-case letters")):
            with self.assertRaises(BadLine) as caught:
                read_script(f"e:\n{line}\n".encode())
            self.assertEqual(caught.exception.line, 2, line)
            self.assertIn(said, caught.exception.rule, line)
        with self.assertRaises(BadLine) as caught:
            read_script(b"e:\n\ne:\n")
        self.assertEqual(str(caught.exception), "line 3: the label e is on line 1 already")
        self.assertEqual(len(FORMS), 19)


WORLD = {"start": ["main"], "files": {
    "main": 'sql q "SELECT kk FROM t"\nlet s = "SELECT * FROM tt"\nsql q s\nsql r "SELECT k, g FROM '
            't"\nfetch r a else e\n'
            'spawn c "child" else e\ne:\nlet t = t ++ "x"\nsql q t\n',
    "child": "prin 1\n", "data": "no script\n"},
    "tables": {"t": {"columns": [["k", "INT"], ["g", "TEXT"]], "rows": []}}}


class Command(InFolder):
    def test_world(self) -> None:
        """Both kinds of findings, in a child too, with the place that is meant."""
        path = self.put("w.json", json.dumps(WORLD))
        status, out, err = tool(check, path)
        self.assertEqual((status, err), (1, ""))
        self.assertEqual(out.decode(), """\
main line 1: the statement will be refused with code 3: there is no column kk (columns: k, g); did you mean \
k?; a text would be 'kk'
    SELECT kk FROM t
           ^
main line 3: the statement will be refused with code 2: there is no table tt (tables: t); did you mean t?
    SELECT * FROM tt
                  ^
main line 5: fetch takes 1 column of a reply of 2: with the first row that is misuse, which ends the process \
with 240
child line 1: bad: 'prin' is no instruction; perhaps print v v*
""")
        self.assertEqual(tool(check, "--statement", "SELECT k FROM t WHERE k = ?", path), (0, b"", ""))
        self.assertIn(b"code 3", tool(check, "--statement", "SELECT x FROM t", path)[1])
        self.assertEqual(tool(check, given=b"{}")[0], 1)

    def test_good(self) -> None:
        made = {"start": ["m"], "files": {"m": 'sql q "SELECT 1 FROM t"\n'},
                "tables": {"t": {"columns": [["k", "INT"]]}}}
        status, out, err = tool(check, given=json.dumps(made).encode())
        self.assertEqual((status, out, err), (0, b"", "no bad line, and no refused statement among 1\n"))

    def test_outcome(self) -> None:
        """Of a run: each refused statement and each misuse, with its cause."""
        made = {"start": ["m"], "files": {"m": 'sql q "INSERT INTO t VALUES (?)" "x"\nprint 1\nlet a = a + '
                                               '1\n'},
                "tables": {"t": {"columns": [["k", "INT"]]}}}
        world_path = self.put("w.json", json.dumps(made))
        path = self.put("o", "outcome 1 0\nprocess 0 240 2 1\n1\n\nrefused 4\n")
        status, out, _ = tool(check, "--outcome", path, world_path)
        self.assertEqual((status, out.decode()), (1, """\
statement 0: process 0 at step 1: refused with code 4: k is INT, and a text doesn't fit
    INSERT INTO t VALUES (?)
                          ^
    with x
process 0: line 3 of its script is misuse: a wrong kind of value, or a name that means nothing: let a + null 1
"""))
        shown = tool(outcome, "--world", world_path, path)[1].decode()
        self.assertIn("  > INSERT INTO t VALUES (?)\n  > with x\n", shown)

    def test_numbers(self) -> None:
        """A statement has one number in all tools, from 0, as `inspect` and `diverged` count."""
        from .test_page import orders
        data = orders()
        document = world_of_package(read_package(data))
        path = self.put("p", data)
        status, made, _ = tool(package, "--world", path)
        lines = tool(check, "--outcome", f"{EXAMPLES}/orders.outcome", self.put("w.json", made))[1].decode()
        found = re.findall(r"(?m)^(statement (\d+): process (\S+) at step \d+): refused", lines)
        # The second of the three statements, by hand: an order with a number that is taken.
        self.assertEqual(found, [("statement 1: process 0 at step 14", "1", "0")])
        shown = tool(package, "--statement", "1", path)[1].decode()
        self.assertTrue(shown.startswith("statement 1: process 0 at step 14, tables orders\n"), shown)
        questions = questions_of(document.world, read_outcome(read(f"{EXAMPLES}/orders.outcome")))
        self.assertEqual([(each.statement, each.process, each.place) for each in questions],
                         [(0, "0", 0), (1, "0", 1), (2, "0.0", 0)])
        body = orders(2)[:-32]
        # The last one that is recorded, after those of the script and of the statement before it.
        at = body.rindex(b"INSERT INTO orders VALUES (?")
        other = body[:at] + b"i" + body[at + 1:]
        out = tool(diff, self.put("e.package", orders(2)),
                   self.put("o.package", other + hashlib.sha256(other).digest()))[1].decode()
        self.assertEqual(re.findall(r"(?m)^(process \S+ statement \d+) is another one", out),
                         ["process 0 statement 1"])
        for name in ("docs/PACKAGES.md", "docs/TUTORIAL.md", "docs/ldv.1"):
            self.assertIn("statements from 0" if name != "docs/PACKAGES.md" else "are counted, from 0 too",
                          " ".join(read(os.path.join(ROOT, name)).decode().split()), name)

    def test_world_maker(self) -> None:
        """world.py warns of what it makes, and refuses a join that would mean another one."""
        path = self.put("t.csv", "k,g\n1,a\n")
        words = ["--csv", path]
        status, out, err = tool(world, *words, "--ask", "SELECT x FROM t")
        self.assertEqual(status, 0)
        self.assertIn("world.py: warning: --ask 1: the statement will be refused with code 3", err)
        self.refused("this is an inner join", *words, "--ask", "SELECT t.k FROM t LEFT JOIN t u ON t.k = u.k")
        for join in ("s LEFT JOIN", "AS s RIGHT JOIN", "s FULL OUTER JOIN", "s left outer\n join", "s CROSS "
                                                                                                   "JOIN",
                     "s NATURAL JOIN", "s NATURAL LEFT JOIN", "LEFT OUTER JOIN"):
            text = f"SELECT s.k FROM t {join} t a ON a.k = s.k"
            self.refused("the statement will be refused with code 1: ", *words, "--ask", text)
            self.refused("the statement will be refused with code 1: ", *words, "--script",
                         self.put("m", 'sql q "' + text.replace("\n", "\\n") + '"\n'))
        self.refused("an outer join is left out; the rows without a partner are found by a script", *words,
                     "--ask", "SELECT s.k FROM t s LEFT JOIN t a ON a.k = s.k")
        # A word that only looks like one of these, and a text that isn't a join, are warnings.
        for text in ("SELECT s.k FROM t s leftmost JOIN t a ON 1 = 1", "SELECT k FROM t s LEFT"):
            self.assertEqual(tool(world, *words, "--ask", text)[0], 0)
        script = self.put("m", 'sql q "SELECT 1 FROM t CROSS JOIN t u ON 1 = 1"\n')
        self.refused("this is an inner join", *words, "--script", script)
        self.assertEqual(tool(world, *words, "--script", script, "--no-check", "-q")[0], 0)
        self.refused("--strict", *words, "--strict", "--ask", "SELECT x FROM t")
        child = self.put("c", "prin\n")
        status, _, err = tool(world, "--script", self.put("m", 'spawn c "c" else e\ne:\n'), "--file", child)
        self.assertIn("c line 1: bad: 'prin' is no instruction", err)
        self.assertEqual(tool(world, *words, *ASK)[2].count("warning"), 0)
