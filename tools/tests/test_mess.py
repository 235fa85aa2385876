"""Three sets of data with the mess that people have: each number that comes out of the tools is that of
SQLite over the same data, imported another way, or it is named that it isn't."""
from __future__ import annotations

import csv
import io
import json
import os
import random
import sqlite3
import unittest
from typing import Any, Sequence

from ldvtools import outcome, package, world
from ldvtools.proposal import accepted

from . import support
from .support import InFolder, ldv, make_database, read, tool


@unittest.skipUnless(os.access(support.PROGRAM, os.X_OK), "the program isn't built")
class Mess(InFolder):
    def replies(self, *words: str, sql: Sequence[str]) -> tuple[list[Any], str]:
        """The replies to statements as CSV, and what was said."""
        query, path = self.put("q.sql", ";\n".join(sql)), os.path.join(self.folder, "w.json")
        status, _, err = tool(world, *words, "--sql", query, "-o", path)
        self.assertEqual(status, 0, err)
        result = self.put("w.outcome", ldv(["run"], read(path))[1])
        found = []
        for place in range(1, len(sql) + 1):
            out = tool(outcome, "--csv", "--reply", str(place), "--world", path, result)[1].decode()
            found.append([self.value(row) for row in list(csv.reader(io.StringIO(out)))[1:]])
        return found, err

    @staticmethod
    def value(row: Any) -> tuple[Any, ...]:
        """Cells as numbers where they are some, whatever sign stands before decimals."""
        found: list[Any] = []
        for cell in row:
            try:
                found.append(float(cell.replace(",", ".")))
            except ValueError:
                found.append(cell or None)
        return tuple(found)

    def compared(self, base: sqlite3.Connection, found: Any, sql: Sequence[str]) -> None:
        for text, rows in zip(sql, found):
            due = [tuple(float(value) if isinstance(value, (int, float)) else value for value in row)
                   for row in base.execute(text)]
            self.assertEqual(rows, due, text)

    def test_samples(self) -> None:
        """A file of cp1252 with decimal commas, units, dates, `<0,5`, and lines of delimiters alone."""
        chance, rows = random.Random(1), []
        for number in range(1, 201):
            amount = f"{chance.randint(60, 4000) / 100:.2f}".replace(".", ",")
            nitrate = "<0,5" if number % 20 == 0 else amount
            cost = chance.randint(100, 250000)
            euros = f"{cost // 100:,}".replace(",", ".") + f",{cost % 100:02} €"
            rows.append((number, f"S{chance.randint(1, 5)}",
                         f"{chance.randint(1, 28)}.{chance.randint(1, 12)}.2024",
                         nitrate, euros, f"{chance.randint(0, 999) / 10}".replace(".", ",") + "%"))
        lines = ["Nr;Stelle;Datum;Nitrat;Kosten;Anteil"] + [";".join(map(str, row)) for row in rows]
        lines[100:100] = [";;;;;", ";;;;;"]
        path = self.put("proben.csv", ("\r\n".join(lines) + "\r\n").encode("cp1252"))
        words = ["--csv", path]
        proposed = tool(world, "--propose", *words)[1].decode()
        self.assertIn("'proben.nitrat=<0,5'", proposed)
        options = accepted(proposed, "p")
        options.remove("--look")
        base = sqlite3.connect(":memory:")
        base.execute("CREATE TABLE proben (nr INT, stelle TEXT, datum TEXT, nitrat REAL, kosten REAL, anteil "
                     "REAL)")
        for number, site, day, nitrate, price, part in rows:
            d, m, y = map(int, day.split("."))
            base.execute("INSERT INTO proben VALUES (?, ?, ?, ?, ?, ?)", (
                number, site, f"{y}-{m:02}-{d:02}",
                None if nitrate == "<0,5" else float(nitrate.replace(",", ".")),
                float(price[:-2].replace(".", "").replace(",", ".")), float(part[:-1].replace(",", "."))))
        sql = ["SELECT MAX(nitrat), MIN(kosten), MAX(anteil) FROM proben",
               "SELECT nr, nitrat FROM proben WHERE nitrat > 20.5 AND nitrat < 30.25 ORDER BY nr",
               "SELECT stelle, COUNT(*) AS n, COUNT(nitrat) AS m FROM proben GROUP BY stelle ORDER BY stelle",
               "SELECT nr FROM proben WHERE kosten BETWEEN 100.5 AND 900.75 ORDER BY nr",
               "SELECT nr FROM proben WHERE datum >= '2024-06-01' AND stelle IN ('S1', 'S3') ORDER BY nr",
               "SELECT nr FROM proben WHERE nitrat IS NULL ORDER BY nr"]
        found, err = self.replies(*options, sql=sql)
        self.compared(base, found, sql)
        self.assertNotIn("warning", err)
        sums, _ = self.replies(*options, sql=["SELECT SUM(kosten) AS summe, COUNT(*) AS anzahl FROM proben",
                                              "SELECT SUM(anteil) AS summe FROM proben"])
        due = base.execute("SELECT SUM(kosten), COUNT(*) FROM proben").fetchone()
        self.assertAlmostEqual(sums[0][0][0], due[0], 2)
        self.assertEqual(sums[0][0][1], 200)
        self.assertAlmostEqual(sums[1][0][0], base.execute("SELECT SUM(anteil) FROM proben").fetchone()[0], 1)

    def test_field(self) -> None:
        """A database with REAL, NOCASE, a reserved name: its package gives SQLite the same numbers again."""
        path, chance = os.path.join(self.folder, "field.db"), random.Random(2)
        make_database(path, 'CREATE TABLE survey (id INTEGER PRIMARY KEY, dist REAL, "Order" TEXT, red_list '
                            'TEXT COLLATE '
                            "NOCASE, seen DATE);" + "".join(
            f"INSERT INTO survey VALUES ({number}, {chance.randint(1, 99999) / 100}, 'o{number % 3}', "
            f"'{chance.choice(['LC', 'lc', 'VU'])}', '2024-{chance.randint(1, 12):02}-03');"
            for number in range(80)))
        words = ["--sqlite", path, "--rename", "survey.Order=ordo", "--lower", "--scale", "survey.dist=2"]
        sql = ["SELECT id, dist FROM survey WHERE dist > 500.5 ORDER BY id",
               "SELECT MAX(dist), MIN(dist), COUNT(*) FROM survey", "SELECT id FROM survey WHERE dist < "
                                                                    "100.005 ORDER BY id"]
        found, err = self.replies(*words, sql=sql)
        base = sqlite3.connect(path)
        self.compared(base, found, sql)
        _, err = self.replies(*words, sql=["SELECT COUNT(*) FROM survey WHERE red_list = 'LC'"])
        self.assertIn("red_list is COLLATE NOCASE in its database", err)
        self.replies(*words, sql=["SELECT * FROM survey"])
        packed = self.put("w.package", ldv(["record"], read(os.path.join(self.folder, "w.json")))[1])
        again = os.path.join(self.folder, "again.db")
        self.assertEqual(tool(package, "--sqlite", again, packed)[0], 0)
        other = sqlite3.connect(again)
        for text in ("SELECT AVG(dist), SUM(dist), MAX(dist) FROM survey", "SELECT id, dist, seen FROM "
                                                                           "survey ORDER BY id"):
            self.assertEqual(other.execute(text).fetchall(), base.execute(text).fetchall())
        base.close()
        other.close()

    def test_sites(self) -> None:
        """Two files, one with a byte order mark: cells with line feeds, delimiters and quotes, clock times, a
        station that isn't in the other file."""
        chance, remarks = random.Random(3), ["trüb; Ölfilm", 'sagt "klar"', "siehe\nProtokoll", "ok"]
        rows = [(number, f"S{chance.randint(1, 6)}", f"{chance.randint(0, 23)}:{chance.randint(0, 59):02}",
                 remarks[number % 4]) for number in range(1, 101)]
        sites = [(f"S{number}", town, 10 * number) for number, town in
                 enumerate(["Köln", "Bonn", "Mainz", "Köln", "Trier", "Worms", "Speyer"], 1) if number != 6]
        written = io.StringIO(newline="")
        writer = csv.writer(written, delimiter=";", lineterminator="\r\n")
        writer.writerows([("Nr", "Stelle", "Zeit", "Bemerkung"), *rows])
        samples = self.put("Proben.csv", written.getvalue().encode("cp1252"))
        text = "".join(";".join(map(str, row)) + "\r\n" for row in [("Id", "Ort", "Km"), *sites])
        stations = self.put("Messstellen.csv", text.encode("utf-8-sig"))
        words = ["--csv", samples, "--csv", stations]
        options = accepted(tool(world, "--propose", *words)[1].decode(), "p")
        options.remove("--look")
        base = sqlite3.connect(":memory:")
        self.addCleanup(base.close)
        base.execute("CREATE TABLE proben (nr INT, stelle TEXT, zeit TEXT, bemerkung TEXT)")
        base.execute("CREATE TABLE messstellen (id TEXT, ort TEXT, km INT)")
        base.executemany("INSERT INTO proben VALUES (?, ?, ?, ?)", [
            (number, site, time.rjust(5, "0"), remark) for number, site, time, remark in rows])
        base.executemany("INSERT INTO messstellen VALUES (?, ?, ?)", sites)
        sql = ["SELECT m.ort, COUNT(*) AS n, SUM(m.km) AS s FROM proben p JOIN messstellen m ON p.stelle = "
               "m.id GROUP BY m.ort ORDER BY ort",
               "SELECT nr FROM proben WHERE zeit < '07:30' ORDER BY nr",
               "SELECT nr FROM proben WHERE bemerkung IN ('trüb; Ölfilm', 'sagt \"klar\"') ORDER BY nr",
               "SELECT nr FROM proben WHERE bemerkung LIKE 'tr%' OR stelle = 'S6' ORDER BY nr",
               "SELECT bemerkung, COUNT(*) FROM proben GROUP BY bemerkung ORDER BY bemerkung"]
        found, err = self.replies(*options, sql=sql)
        self.compared(base, found, sql)
        self.assertNotIn("warning", err)
        # Times are given back as they were written.
        shown = self.shown(*options, sql="SELECT nr, zeit FROM proben ORDER BY nr")
        self.assertEqual([row[1] for row in shown], [time for _, _, time, _ in rows])
        # What would be another number is named: the one with a line feed, the join of others, the station.
        for condition, said in (
                ("bemerkung = 'siehe Protokoll'", "look like 'siehe Protokoll' and are other"),
                ("zeit < '7:30'", "'07:30'")):
            _, err = self.replies(*options, sql=[f"SELECT COUNT(*) FROM proben WHERE {condition}"])
            self.assertIn(said, err)
        query = self.put("q.sql", "SELECT id FROM messstellen ANTI JOIN proben ON stelle = id")
        self.refused("this is an inner join", *options, "--sql", query)
        place = next(place for place, row in enumerate(rows) if row[1] == "S6")
        line = 2 + place + sum("\n" in row[3] for row in rows[:place])
        self.refused(f"Proben.csv line {line} ", *options, "--key", "messstellen=id", "--foreign",
                     "proben.stelle=messstellen", "--ask", "SELECT nr FROM proben")

    def shown(self, *words: str, sql: str) -> list[list[str]]:
        """The cells of a reply, as they are shown."""
        path = os.path.join(self.folder, "w.json")
        status, _, err = tool(world, *words, "--ask", sql, "-o", path)
        self.assertEqual(status, 0, err)
        result = self.put("w.outcome", ldv(["run"], read(path))[1])
        out = tool(outcome, "--csv", "--reply", "1", "--world", path, result)[1].decode()
        return list(csv.reader(io.StringIO(out)))[1:]

    def test_program(self) -> None:
        """A program of its own gives the same over the database and over that which its package makes."""
        path, chance = os.path.join(self.folder, "field.db"), random.Random(4)
        make_database(path, """
            CREATE TABLE site (id INTEGER PRIMARY KEY, name TEXT UNIQUE, area NUMERIC, twice INT AS (id * 2));
            CREATE TABLE "Survey" (id INTEGER PRIMARY KEY, site INT REFERENCES site (id) ON DELETE CASCADE,
                dist REAL, "Order" TEXT, red_list TEXT COLLATE NOCASE, seen DATE);
            CREATE TABLE note (site INT, at TEXT, text TEXT, PRIMARY KEY (site, at)) WITHOUT ROWID;
            CREATE VIEW far AS SELECT * FROM "Survey" WHERE dist > 100;
            CREATE TRIGGER g AFTER INSERT ON note BEGIN DELETE FROM note WHERE text = ''; END;
            """ + "".join(f"INSERT INTO site (id, name, area) VALUES ({n}, 'site {n}', {n * 25 / 2});"
                          for n in range(1, 8)) + "".join(
            f"INSERT INTO Survey VALUES ({n}, {chance.randint(1, 6)}, {chance.randint(1, 99999) / 1000}, "
            f"'o{n % 3}', '{chance.choice(['LC', 'lc', 'VU'])}', '2024-{chance.randint(1, 12):02}-03');"
            for n in range(90)) + "".join(f"INSERT INTO note VALUES ({n % 4}, 'at {n}', 'n');"
                                          for n in range(9)))
        program = [
            "SELECT s.name, COUNT(DISTINCT v.\"Order\"), AVG(v.dist) FROM site s LEFT JOIN Survey v ON "
            "v.site = s.id GROUP BY s.name ORDER BY s.name",
            "SELECT strftime('%m', seen), SUM(dist) FROM Survey GROUP BY 1 ORDER BY 1",
            "SELECT site, RANK() OVER (ORDER BY AVG(dist) DESC) FROM Survey GROUP BY site ORDER BY site",
            "SELECT COUNT(*) FROM Survey WHERE red_list = 'LC'", "SELECT SUM(area), MAX(area) FROM site",
            "SELECT red_list, COUNT(*) FROM Survey GROUP BY upper(red_list), red_list ORDER BY 2, 1",
            "SELECT id FROM Survey WHERE dist BETWEEN 10.5 AND 50.25 ORDER BY id",
            "SELECT site, at, text FROM note ORDER BY site, at", "SELECT name, twice FROM site ORDER BY name"]
        words = ["--sqlite", path, "--tidy", "--scale", "survey.dist=3", "--scale", "site.area=1"]
        asks = [word for name in ("site", "survey", "note") for word in ("--ask", f"SELECT * FROM {name}")]
        status, _, err = tool(world, *words, *asks, "-o", os.path.join(self.folder, "w.json"))
        self.assertEqual(status, 0, err)
        for said in ("the view far isn't carried", "the trigger g of note isn't carried",
                     "twice is GENERATED", "UNIQUE (name) isn't carried", "COLLATE NOCASE isn't carried"):
            self.assertIn(said, err)
        packed = self.put("w.package", ldv(["record"], read(os.path.join(self.folder, "w.json")))[1])
        again = os.path.join(self.folder, "again.db")
        self.assertEqual(tool(package, "--sqlite", again, packed), (0, b"", ""))
        one, other = sqlite3.connect(path), sqlite3.connect(again)
        self.addCleanup(one.close)
        self.addCleanup(other.close)
        for text in program:
            self.assertEqual(other.execute(text).fetchall(), one.execute(text).fetchall(), text)

    def test_authors(self) -> None:
        """Three files of two delimiters: a word among the years, quotes and backslashes, blanks that aren't
        seen."""
        odd = ["O'Neil", 'the "best"', "back\\slash", "a\u00a0b", "ze\u200bro", "soft\u00ady", "Иванов", "王",
               "عمر"]
        pubs = [(number, odd[number % 9], "in press" if number % 30 == 0 else str(2000 + number % 7))
                for number in range(1, 91)]
        self.put("pubs.tsv", "id\tauthor\tyear\n" + "".join("\t".join(map(str, row)) + "\n" for row in pubs))
        lands = [(name, f"C{number % 3}") for number, name in enumerate(odd)]
        self.put("authors.tsv", "name\tcountry\n" + "".join(f"{name}\t{land}\n" for name, land in lands))
        self.put("done.csv", "id,ok\n" + "".join(f"{number},{number % 2}\n" for number in range(1, 91, 4)))
        words = [word for name in ("pubs.tsv", "authors.tsv", "done.csv")
                 for word in ("--csv", os.path.join(self.folder, name))]
        proposed = tool(world, "--propose", *words)[1].decode()
        options = accepted(proposed, "p")
        options.remove("--look")
        base = sqlite3.connect(":memory:")
        self.addCleanup(base.close)
        base.executescript("CREATE TABLE pubs (id INT, author TEXT, year INT); CREATE TABLE authors (name "
                           "TEXT, country TEXT); CREATE TABLE done (id INT, ok INT);")
        base.executemany("INSERT INTO pubs VALUES (?, ?, ?)", [
            (number, name, None if year == "in press" else int(year)) for number, name, year in pubs])
        base.executemany("INSERT INTO authors VALUES (?, ?)", lands)
        base.executemany("INSERT INTO done VALUES (?, ?)", [
            (number, number % 2) for number in range(1, 91, 4)])
        sql = ["SELECT year, COUNT(*) FROM pubs WHERE year BETWEEN 2001 AND 2004 GROUP BY year ORDER BY year",
               "SELECT COUNT(*) FROM pubs WHERE year IS NULL",
               "SELECT a.country, COUNT(*) AS n FROM pubs p JOIN authors a ON p.author = a.name GROUP BY "
               "a.country ORDER BY country",
               "SELECT p.id FROM pubs p JOIN done d ON p.id = d.id WHERE d.ok == 1 AND p.year > 2002 ORDER "
               "BY 1",
               "SELECT id FROM pubs WHERE author = 'O''Neil' ORDER BY id",
               "SELECT id FROM pubs WHERE author = 'the \"best\"' OR author = 'back\\slash' ORDER BY id",
               "SELECT author, MIN(year) FROM pubs GROUP BY author ORDER BY author"]
        self.assertIn("'pubs.year=in press'", proposed)
        found, err = self.replies(*options, sql=sql)
        self.compared(base, found, sql)
        _, err = self.replies(*options, sql=["SELECT COUNT(*) FROM pubs WHERE author = 'a b'"])
        self.assertIn("look like 'a b' and are other texts", err)

    def test_texts(self) -> None:
        """A table of several scripts, with two spellings of a name: groups are named, and --plain joins
        them."""
        names = ["Müller", "Mu\u0308ller", "Иванов", "王", "عمر", "O'Neil", "a\u00a0b", "a b"]
        lines = ["id\tname\tyear"] + [f"{number}\t{names[number % 8]}\t{2000 + number % 5}"
                                      for number in range(80)]
        path = self.put("pubs.tsv", "\n".join(lines) + "\n")
        words = ["--csv", path, "--delimiter", "tab"]
        base = sqlite3.connect(":memory:")
        base.execute("CREATE TABLE pubs (id INT, name TEXT, year INT)")
        base.executemany("INSERT INTO pubs VALUES (?, ?, ?)", [
            (number, names[number % 8], 2000 + number % 5) for number in range(80)])
        sql = ["SELECT name, COUNT(*) FROM pubs GROUP BY name ORDER BY name",
               "SELECT id FROM pubs WHERE name = '王' AND year IN (2001, 2003) ORDER BY id"]
        found, err = self.replies(*words, sql=sql)
        self.compared(base, found, sql)
        self.assertIn("look alike and are two in GROUP BY, and 1 more such; --plain makes them one", err)
        found, err = self.replies(*words, "--plain", sql=sql[:1])
        self.assertEqual(sorted(dict(found[0]).values()), [10.0] * 4 + [20.0] * 2)
        self.assertEqual(json.loads(read(os.path.join(self.folder, "w.json")))["start"], ["w"])
