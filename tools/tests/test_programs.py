"""The programs of examples/programs: captured, recorded and played back, each file as it stands there."""
from __future__ import annotations

import os
import shutil
import sys

from ldvtools import page

from . import support
from .support import EXAMPLES, TOOLS, command, make_database, python_with, read, tool
from .test_capture import Programs

PROGRAMS = os.path.join(EXAMPLES, "programs")


class Examples(Programs):
    def whole_example(self, name: str, module: str, words: list[str], *options: str) -> list[str]:
        """Captures and plays an example back, and compares all with its files."""
        python = python_with(module)
        if python is None:
            self.skipTest(f"python3-{module} isn't installed")
        expected = {end: read(os.path.join(PROGRAMS, f"{name}.{end}"))
                    for end in ("out", "json", "package", "replies", "html")}
        shutil.copy(os.path.join(PROGRAMS, f"{name}.py"), self.folder)
        program = [python, f"{name}.py", *words]
        if os.path.exists(f"{name}.db"):
            os.remove(f"{name}.db")
        make_database(f"{name}.db", read(os.path.join(PROGRAMS, f"{name}.sql")).decode())
        status, out, err = command([
            sys.executable, os.path.join(TOOLS,
                                         "capture.py"), "-q", "--ldv", support.PROGRAM, "--sqlite",
                                         f"{name}.db",
            *options, "-o", "world.json", "--", *program])
        self.assertEqual((status, out), (0, expected["out"]), err.decode())
        self.assertEqual(read("world.json"), expected["json"])
        os.remove(f"{name}.db")
        for kind, end in ((("--excluded",), "replies"), ((), "package")):
            self.record(*kind)
            self.assertEqual(read("package"), expected[end])
            self.assertEqual(self.play(program)[0], expected["out"])
        shutil.copy("package", f"{name}.package")
        self.assertEqual(tool(page, f"{name}.package")[1], expected["html"])
        return program

    def test_study(self) -> None:
        program = self.whole_example("study", "pandas", ["--year", "2019"], "--scale", "people.weight=2")
        _, said = self.play([*program[:-1], "2018"], status=9)
        self.assertIn("study.py line 13: the program asks", said)
        self.assertIn("{'first': '2018-01-01', 'last': '2018-12-31'}", said)

    def test_shop(self) -> None:
        program = self.whole_example("shop", "sqlalchemy", ["Ada", "pad", "2"])
        _, said = self.play([*program[:-1], "1"], status=9)
        self.assertIn("UPDATE items SET stock=?", said)

    def test_page(self) -> None:
        """The page names what is there."""
        text = read(os.path.join(PROGRAMS, "README.md")).decode()
        for name in os.listdir(PROGRAMS):
            if name != "README.md":
                self.assertIn("NAME." + name.split(".")[1], text)
