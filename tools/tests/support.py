"""What the tests of the tools share."""
from __future__ import annotations

import contextlib
import io
import json
import os
import re
import sqlite3
import subprocess
import sys
import tempfile
import unittest
from typing import Any, Optional, Union
from unittest import mock

from ldvtools import world

HERE = os.path.dirname(os.path.abspath(__file__))
TOOLS = os.path.dirname(HERE)
ROOT = os.path.dirname(TOOLS)
EXAMPLES = os.path.join(ROOT, "examples")
TUTORIAL = os.path.join(EXAMPLES, "tutorial")
PROGRAM = os.environ.get("LDV_PROGRAM") or os.path.join(ROOT, "crates", "ldv", "out", "ldv")
ASK = ["--ask", "SELECT * FROM t"]
# The words of docs/TUTORIAL.md for its two worlds.
WEATHER = ["--csv", f"{TUTORIAL}/weather.csv", "--lower", "--key", "weather=id", "--rename",
           "weather.Celsius=tenths", "--scale", "weather.tenths=1", "--sql", f"{TUTORIAL}/weather.sql"]
LIBRARY = ["--rename", "members.fee=cents", "--scale", "members.cents=2",
           "--sql", f"{TUTORIAL}/questions.sql"]


def read(path: str) -> bytes:
    with open(path, "rb") as file:
        return file.read()


def tool(module: Any, *words: str, given: bytes = b"") -> tuple[Any, bytes, str]:
    """What a tool ends with and writes to standard output and to standard error, in this process."""
    written = io.BytesIO()
    out, err, before = io.TextIOWrapper(written, "utf-8"), io.StringIO(), sys.stdin
    sys.stdin = io.TextIOWrapper(io.BytesIO(given), "utf-8")
    name = module.__name__.rpartition(".")[2] + ".py"
    try:
        with contextlib.redirect_stdout(out), contextlib.redirect_stderr(err), \
                mock.patch.object(sys, "argv", [name, *words]):
            status = module.main(list(words))
    except SystemExit as end:
        status = end.code
    finally:
        sys.stdin = before
    out.flush()
    return status, written.getvalue(), err.getvalue()


def command(words: list[str], given: bytes = b"") -> tuple[int, bytes, bytes]:
    """What a program ends with and writes to standard output and to standard error."""
    done = subprocess.run(words, input=given, capture_output=True)
    return done.returncode, done.stdout, done.stderr


def ldv(words: list[str], given: bytes) -> tuple[int, bytes, bytes]:
    return command([PROGRAM, *words], given)


def make_database(path: str, statements: str) -> None:
    base = sqlite3.connect(path)
    base.executescript(statements)
    base.commit()
    base.close()


class InFolder(unittest.TestCase):
    """A test with a folder of its own."""

    def setUp(self) -> None:
        folder = tempfile.TemporaryDirectory()
        self.addCleanup(folder.cleanup)
        self.folder = folder.name

    def put(self, name: str, content: Union[str, bytes]) -> str:
        path = os.path.join(self.folder, name)
        with open(path, "wb") as file:
            file.write(content if isinstance(content, bytes) else content.encode())
        return path

    def table(self, content: Union[str, bytes], *words: str) -> Any:
        """The table t of a CSV file, as the document has it."""
        status, out, err = tool(world, "--csv", self.put("t.csv", content), *ASK, *words)
        self.assertEqual(status, 0, err)
        return json.loads(out)["tables"]["t"]

    def refused(self, message: str, *words: str, status: int = 1) -> None:
        """A call of world.py that is refused, writes nothing and says why."""
        got, out, err = tool(world, *words)
        self.assertEqual((got, out), (status, b""), err)
        self.assertIn(message, err)

    def csv_refused(self, message: str, content: Union[str, bytes], *words: str, status: int = 1) -> None:
        self.refused(message, "--csv", self.put("t.csv", content), *ASK, *words, status=status)


def python_with(*modules: str) -> Optional[str]:
    """A Python that has these modules, this one or that of the system; None where there is none."""
    for python in (sys.executable, "/usr/bin/python3"):
        words = [python, "-c", "import " + ", ".join(modules)]
        with contextlib.suppress(OSError):
            if subprocess.run(words, stderr=subprocess.DEVNULL, check=False).returncode == 0:
                return python
    return None


def each_of(*given: Any) -> Any:
    """The rows of a table of cases, whose cells have types of their own."""
    return given


def match_in(pattern: str, text: str) -> re.Match[str]:
    """Where a text first has a pattern, which it has to have."""
    found = re.search(pattern, text)
    if found is None:
        raise AssertionError(f"{pattern} isn't in {text}")
    return found
