"""world.py: constants of statements that meet a column which is carried in another form."""
from __future__ import annotations

import json
import os
import re
import sqlite3
from typing import Any

from ldvtools import world

from .support import ROOT, InFolder, make_database, read, tool
from .test_examples import asked, in_sqlite

# What was read: a number, a clock time, a date, a temperature, a price with its unit, and a note.
ROWS = [(1, "9:00", "1.2.2024", "2,0", "1.000,50 €", "a"), (2, "10:30", "15.2.2024", "3,5", "2,00 €", "NA"),
        (3, "8:15", "3.3.2024", "-1,0", "30,00 €", ""), (4, "13:05", "31.1.2024", "21,0", "0,99 €", "b")]
OPTIONS = ["--delimiter", ";", "--date", "log.time=time", "--date", "log.day=dmy", "--decimal", "log.temp=,",
           "--scale", "log.temp=1", "--unit", "log.price=€", "--thousands", "log.price=.", "--scale",
           "log.price=2", "--null", "NA"]


class Carried(InFolder):
    def words(self) -> list[str]:
        text = "id;time;day;temp;price;note\n" + "".join(";".join(map(str, row)) + "\n" for row in ROWS)
        return ["--csv", self.put("log.csv", text), *OPTIONS]

    def said(self, *words: str) -> tuple[list[str], Any]:
        """What is said of the statements of a world, and the world."""
        status, out, err = tool(world, *self.words(), *words)
        self.assertEqual(status, 0, err)
        lines = [line[len("world.py: "):] for line in err.split("\n")
                 if line.startswith("world.py: ") and " rows; " not in line]
        return lines, json.loads(out)

    def answered(self, made: Any) -> list[Any]:
        """What SQLite answers to the first statement of a world."""
        base = in_sqlite(made["tables"])
        (text, parameters), *_ = asked(made["files"]["main"])
        return [row[0] for row in base.execute(text, parameters)]

    def check(self, condition: str, said: Any, written: Any, ids: Any) -> None:
        """A condition as a reader of the file writes it is said, and as it is advised it finds these rows."""
        lines, _ = self.said("--ask", f"SELECT id FROM log WHERE {condition}")
        self.assertEqual(lines, [f"warning: --ask 1: {said}"])
        lines, made = self.said("--ask", f"SELECT id FROM log WHERE {written}")
        self.assertEqual(lines, [])
        self.assertEqual(self.answered(made), ids)

    def test_times(self) -> None:
        like = "time has texts such as 09:05: "
        self.check("time < '9:00'", like + "'9:00' is written '09:00'", "time < '09:00'", [3])
        self.check("'1:05 PM' <= time", like + "'1:05 PM' is written '13:05'", "'13:05' <= time", [4])
        self.check("time > '9'", like + "'9' isn't, and compares as a text", "time > '09'", [1, 2, 4])

    def test_dates(self) -> None:
        like = "day has texts such as 2019-01-31: "
        self.check("day < '1.2.2024'", like + "'1.2.2024' is written '2024-02-01'", "day < '2024-02-01'", [4])
        self.check("log.day = '15.2.2024'", "log." + like + "'15.2.2024' is written '2024-02-15'",
                   "log.day = '2024-02-15'", [2])
        self.check("day >= '2024-2'", like + "'2024-2' isn't, and compares as a text", "day >= '2024-02'",
                   [1, 2, 3])
        lines, _ = self.said("--ask", "SELECT day, COUNT(*) FROM log GROUP BY day HAVING MIN(day) > "
                                      "'1.2.2024'")
        self.assertEqual(lines, ["warning: --ask 1: day has texts such as 2019-01-31: '1.2.2024' is written "
                                 "'2024-02-01'"])

    def test_nulls(self) -> None:
        null = " is NULL here, and no comparison with NULL is true; write note IS "
        self.check("note = 'NA'", f"'NA' of note{null}NULL", "note IS NULL", [2, 3])
        self.check("note <> ''", f"an empty cell of note{null}NOT NULL", "note IS NOT NULL", [1, 4])
        # A word that stands for NULL in no cell of a column is a text as any other there.
        self.assertEqual(self.said("--ask", "SELECT id FROM log WHERE time = ''")[0],
                         ["warning: --ask 1: time has texts such as 09:05: '' isn't, and compares as a text"])

    def test_numbers(self) -> None:
        """A number beside a column of decimals is said with what it means; a product and 0 need no word."""
        for condition, said, written, ids in (
                ("temp > 20", "temp is carried times 10, so 20 means 2.0; 20 itself is written 200",
                 "temp > 20 * 10", [4]),
                ("-1 >= temp", "temp is carried times 10, so -1 means -0.1; -1 itself is written -10",
                 "-1 * 10 >= temp", [3]),
                ("price * 2 < 3", "price is carried times 100, so 3 means 0.03; 3 itself is written 300",
                 "price * 2 < 3 * 100", [4])):
            lines, _ = self.said("--ask", f"SELECT id FROM log WHERE {condition}")
            self.assertEqual(lines, [f"--ask 1: {said}"])
            lines, made = self.said("--ask", f"SELECT id FROM log WHERE {written}")
            self.assertEqual((lines, self.answered(made)), ([], ids))
        for text in ("SELECT id FROM log WHERE temp > 0 AND id > 3", "SELECT COUNT(temp) FROM log HAVING "
                                                                     "COUNT(temp) > 3",
                     "SELECT id FROM log WHERE temp > 9223372036854775807 * 1", "SELECT temp * 2 AS y FROM "
                                                                                "log",
                     "SELECT id FROM log LIMIT 3"):
            self.assertEqual(self.said("--ask", text)[0], [], text)
        lines, _ = self.said("--ask", "SELECT SUM(price) FROM log HAVING SUM(price) > 5", "--ask",
                             "SELECT temp + 5 AS y FROM log WHERE temp < 9223372036854775807")
        self.assertEqual(lines, ["--ask 1: price is carried times 100, so 5 means 0.05; 5 itself is written "
                                 "500",
                                 "--ask 2: temp is carried times 10, so 5 means 0.5; 5 itself is written 50",
                                 "--ask 2: temp is carried times 10, so 9223372036854775807 means "
                                 "922337203685477580.7"])
        # What a number means isn't wrong: with --strict the world is made.
        lines, _ = self.said("--ask", "SELECT id FROM log WHERE temp > 20", "--strict")
        self.assertEqual(lines[0][:7], "--ask 1")
        self.refused("--ask 1: time has texts such as 09:05", *self.words(), "--strict", "--ask",
                     "SELECT id FROM log WHERE time < '9:00'")

    def test_units(self) -> None:
        """A number with its unit is refused as a text, and said as it is written."""
        lines, _ = self.said("--ask", "SELECT id FROM log WHERE price > '1.000 €' OR temp = '3,5'")
        self.assertEqual(lines[1:], ["warning: --ask 1: price is carried times 100: '1.000 €' is written "
                                     "100000",
                                     "warning: --ask 1: temp is carried times 10: '3,5' is written 35"])
        self.assertIn("will be refused with code 4", lines[0])
        path = self.put("t.csv", "k\n5 kg\n7 kg\n")
        err = tool(world, "--csv", path, "--unit", "t.k=kg", "--ask", "SELECT k FROM t WHERE k > '5 kg'")[2]
        self.assertIn("warning: --ask 1: k is carried as it is: '5 kg' is written 5\n", err)

    def test_columns(self) -> None:
        """Columns that are carried times other numbers don't compare."""
        for condition, said, written, ids in (
                ("price > temp", "price is carried times 100, and temp carried times 10: write temp * 10",
                 "price > temp * 10", [1, 3]),
                ("id < temp", "temp is carried times 10, and id carried as it is: write id * 10", "id * 10 "
                                                                                                  "< temp",
                 [1, 2, 4])):
            self.check(condition, said, written, ids)
        self.assertEqual(self.said("--ask", "SELECT id FROM log WHERE temp * id > price * 1 * temp")[0],
                         ["warning: --ask 1: price * temp is carried times 1000, and temp carried times 10: "
                          "write "
                          "temp * 100"])

    def test_changes(self) -> None:
        lines, _ = self.said("--ask", "UPDATE log SET time = '7:00', temp = 20, note = '' WHERE day = "
                                      "'1.2.2024'",
                             "--ask", "INSERT INTO log VALUES (5, '7:30', '2024-02-01', 5, 0, 'NA')",
                             "--ask", "INSERT INTO log (day, time) VALUES ('5.2.2024', '07:30')",
                             "--ask", "DELETE FROM log WHERE time = '7:00'")
        self.assertEqual(lines, [
            "warning: --ask 1: time has texts such as 09:05: '7:00' is written '07:00'",
            "warning: --ask 1: day has texts such as 2019-01-31: '1.2.2024' is written '2024-02-01'",
            "warning: --ask 2: time has texts such as 09:05: '7:30' is written '07:30'",
            "warning: --ask 3: day has texts such as 2019-01-31: '5.2.2024' is written '2024-02-05'",
            "warning: --ask 4: time has texts such as 09:05: '7:00' is written '07:00'",
            "--ask 1: temp is carried times 10, so 20 means 2.0; 20 itself is written 200",
            "--ask 2: temp is carried times 10, so 5 means 0.5; 5 itself is written 50"])

    def test_places(self) -> None:
        """It is said of files of statements, of scripts and of parameters that are known."""
        path = self.put("q.sql", "-- early\nSELECT id FROM log\nWHERE time < '9:00';\nSELECT id FROM log "
                                 "WHERE temp > 2;\n")
        lines, _ = self.said("--sql", path)
        self.assertEqual([line.partition(" line ")[2][:1] for line in lines], ["2", "4"])
        script = self.put("main.ldv", 'let limit = 20\nlet early = "9:00"\n'
                          'sql a "SELECT id FROM log WHERE temp > ? AND time < ?" limit early\n'
                          'sql b "SELECT id FROM log WHERE day > ?" "1.2.2024"\nspawn c "child.ldv" else '
                          'e\ne:\n')
        child = self.put("child.ldv", 'sql a "SELECT id FROM log WHERE time > \'9:00\'"\nsql b "SELECT 1 '
                                      'FROM log '
                         'WHERE temp > ?" arg1\nlet x = "SELECT id FROM log WHERE time = " ++ arg1\nsql c '
                         'x\n')
        lines, _ = self.said("--script", script, "--file", child, "--no-columns")
        self.assertEqual([line.partition(": ")[0] if line[:4] == "main" else line[9:].partition(": ")[0]
                          for line in lines],
                         ["main.ldv line 3", "main.ldv line 4", "child.ldv line 1", "main.ldv line 3"])
        self.assertEqual(self.said("--no-check", "--sql", path)[0], [])

    def test_as_read(self) -> None:
        """Texts that were dates and clock times in this form already are looked at too, and others aren't."""
        rows = "2024-02-01,09:00,1.2\n2024-03-01,10:00,9:00\n2024-03-02,,x\n"
        path = self.put("t.csv", "day,hour,name\n" + rows)
        for condition, said in (("day < '1.2.2024'", "day has texts such as 2019-01-31: '1.2.2024' is "
                                                     "written "
                                                     "'2024-02-01'"),
                                ("day < '2/1/2024'", "day has texts such as 2019-01-31: '2/1/2024' isn't, "
                                                     "and compares "
                                                     "as a text"),
                                ("hour < '9:30'", "hour has texts such as 09:05: '9:30' is written '09:30'"),
                                ("day < '2024-02-15'", None), ("day < 'x'", None), ("name = '9:00'", None),
                                ("hour < '09'", None)):
            err = tool(world, "--csv", path, "--ask", f"SELECT day FROM t WHERE {condition}")[2]
            self.assertEqual(re.findall("warning: --ask 1: (.*)", err), [said] if said else [], condition)

    def test_databases(self) -> None:
        path = os.path.join(self.folder, "t.db")
        make_database(path, "CREATE TABLE t (day DATE, fee REAL); INSERT INTO t VALUES ('3.1.2020', 1.5), "
                            "('13.1.2020', 2), (NULL, NULL);")
        err = tool(world, "--sqlite", path, "--date", "t.day=dmy", "--scale", "t.fee=1", "--ask",
                   "SELECT fee FROM t WHERE day = '3.1.2020' AND fee < 2")[2]
        self.assertIn("warning: --ask 1: day has texts such as 2019-01-31: '3.1.2020' is written "
                      "'2020-01-03'\n", err)
        self.assertIn("world.py: --ask 1: fee is carried times 10, so 2 means 0.2; 2 itself is written "
                      "20\n", err)

    def test_documents(self) -> None:
        """--help and the tutorial say what is written."""
        text = " ".join(tool(world, "--help")[1].decode().split())
        self.assertIn("A statement asks for values as they are carried: 2024-02-01 and 09:05, and 1250 for "
                      "12.50 at "
                      "--scale 2.", text)
        page = read(os.path.join(ROOT, "docs/TUTORIAL.md"))
        self.assertIn(b"'09:00'", page)
        base = sqlite3.connect(":memory:")
        # As texts these don't compare as clock times, which is why they are carried.
        self.assertEqual(base.execute("SELECT '10:30' < '9:00', '10:30' < '09:00'").fetchone(), (1, 0))
