"""world.py --propose and --accept: one round in place of several."""
from __future__ import annotations

import json
import os
from unittest import mock

from ldvtools import world, world_csv

from .support import InFolder, make_database, read, tool

SAMPLES = ("Nr;Datum;Zeit;Nitrat mg/l;Kosten;Anteil\n1;27.07.2024;6:00;14,4;1.890,75 €;86,9%\n"
           "2;3.12.2024;14:30;<0,5;12,50 €;1,5%\n;;;;;\n3;5.1.2024;7:15;31,97;3,00 €;\n")


class Proposals(InFolder):
    def setUp(self) -> None:
        super().setUp()
        self.samples = self.put("samples.csv", SAMPLES.encode("cp1252"))
        self.base = os.path.join(self.folder, "f.db")
        make_database(self.base, "CREATE TABLE a (id INTEGER PRIMARY KEY, lat REAL, day TEXT); INSERT INTO a "
                                 "VALUES (1, 1.25, '2024/03/11'); CREATE TABLE b (x REAL); INSERT INTO b "
                                 "VALUES (0.5);")

    def test_accepted(self) -> None:
        """A file of many forms and a database: one command line, each choice with why, and its world."""
        query = self.put("q.sql", "SELECT kosten FROM samples;\n")
        out = os.path.join(self.folder, "w.json")
        status, text, err = tool(world, "--propose", "--csv", self.samples, "--sqlite", self.base, "--sql",
                                 query,
                                 "-o", out)
        self.assertEqual((status, err), (0, ""))
        for line in ("# --encoding cp1252: ", "# --delimiter ';': ", "# --tidy: ", "# --skip-blank: ",
                     "# --date samples.datum=dmy: ", "# --date samples.zeit=time: ",
                     "# --decimal samples.nitrat_mg_l=, --scale samples.nitrat_mg_l=2 --null "
                     "'samples.nitrat_mg_l=<0,5': ",
                     "# --unit 'samples.kosten=€' --thousands samples.kosten=. --scale samples.kosten=2: ",
                     "# --scale a.lat=2 --scale b.x=1: ", "# --date a.day=ymd: ", "# --key samples=nr: "):
            self.assertIn("\n" + line, text.decode())
        self.assertFalse(os.path.exists(out))
        status, _, err = tool(world, "--accept", self.put("proposal", text))
        self.assertEqual(status, 0, err)
        made = json.loads(read(out))
        self.assertEqual(made["tables"]["samples"]["rows"][1], [2, "2024-12-03", "14:30", None, 1250, 15])
        self.assertEqual(made["tables"]["a"]["rows"], [[1, 125, "2024-03-11"]])
        self.assertEqual(made["tables"]["b"]["rows"], [[5]])

    def test_read_once(self) -> None:
        """Each file is read once."""
        with mock.patch.object(world_csv, "read_anew", wraps=world_csv.read_anew) as read_anew:
            self.assertEqual(tool(world, "--propose", "--csv", self.samples)[0], 0)
        paths = [call.args[0] for call in read_anew.call_args_list if call.args[1] < 0]
        self.assertEqual(paths, [self.samples])

    def test_refused(self) -> None:
        for text, said in (("{}", "no proposal of world.py --propose"),
                           ("tools/world.py 'x", "a quote in it")):
            path = self.put("p", text)
            status, out, err = tool(world, "--accept", path)
            self.assertEqual((status, out), (1, b""))
            self.assertIn(said, err)
        self.assertEqual(tool(world, "--propose", "--csv", "/no/such")[0], 1)
