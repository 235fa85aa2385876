"""What capture.py advises, followed through a shell."""
from __future__ import annotations

import os
import sys
from typing import Any

from . import support
from .support import TOOLS, command, match_in
from .test_capture import SCALES, Programs


class Followed(Programs):
    """What capture.py advises, typed in a shell after the words that were given."""

    def followed(self, program: str, given: Any, said: str, meant: str = "") -> str:
        """What a program writes, captured with the words that are said of it."""
        words = self.program(program)
        expected = self.plain(words)[1]
        err = self.capture(words, *given, status=1)[1]
        found = match_in(said, err)
        self.make()
        tool = f"{sys.executable} {TOOLS}/capture.py -q --ldv {support.PROGRAM} --sqlite study.db -o w.json"
        line = f"{tool} {' '.join(given)} {found[1].replace('TABLE', meant)} -- {' '.join(words)}"
        status, out, told = command(["sh", "-c", line])
        self.assertEqual((status, out), (0, expected), told.decode())
        return told.decode()

    def test_scale(self) -> None:
        err = self.followed("print(con.execute('SELECT height FROM people').fetchall())\n", [],
                            r"; (--scale \S+) carries all of them")
        self.assertIn("1 of 1 statement", err)

    def test_skipped(self) -> None:
        self.followed("print(con.execute('SELECT upper(name) FROM people').fetchall())\n", SCALES,
                      r"; (--skip-unreadable) leaves them out")

    def test_foreign(self) -> None:
        """A row without a parent, which SQLite took before it looked at foreign keys."""
        self.followed("""
            con.execute("INSERT INTO visits VALUES (9, 99, '2019-03-01', 5)")
            con.commit()
            print(con.execute("SELECT person FROM visits WHERE id = 9").fetchall())
            other = sqlite3.connect("study.db")
            other.execute("PRAGMA foreign_keys = ON")
            print(other.execute("SELECT name FROM people WHERE id = 2").fetchall())
            """, SCALES, r"; (--foreign TABLE=none) leaves those of a table out", "visits")

    def test_file(self) -> None:
        """A file with a name of the world's own, in another folder, goes in under another name."""
        os.mkdir("a folder")
        self.put("a folder/capture.json", "notes")
        words = self.program("print(con.execute('SELECT name FROM people').fetchall())\n")
        err = self.capture(words, *SCALES, "--file", "a folder/capture.json", status=1)[1]
        found = match_in(r"has a file capture\.json of its own; give (--file NAME=.*)\n", err)
        self.make()
        tool = f"{sys.executable} {TOOLS}/capture.py -q --ldv {support.PROGRAM}"
        option = found[1].replace("NAME", "notes")
        line = f"{tool} --sqlite study.db -o world.json {' '.join(SCALES)} {option} -- {' '.join(words)}"
        status, _, told = command(["sh", "-c", line])
        self.assertEqual(status, 0, told.decode())
        self.assertEqual(self.world()["files"]["notes"], "notes")
