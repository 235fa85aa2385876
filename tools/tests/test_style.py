"""The types of the tools by mypy and their style by ruff, where these are installed; the package,
and what .ci/run says."""
from __future__ import annotations

import os
import re
import shutil
import subprocess
import sys
import unittest

import ldvtools

from .support import ROOT, TOOLS, InFolder, command, match_in, read

COMMANDS = ("world", "outcome", "package", "picture", "check", "page", "diff", "join", "orders", "prov",
            "bundle", "capture", "playback")


def called(words: list[str]) -> tuple[int, str]:
    done = subprocess.run(words, cwd=TOOLS, stdout=subprocess.PIPE, stderr=subprocess.STDOUT, check=False)
    return done.returncode, done.stdout.decode()


class Style(unittest.TestCase):
    @unittest.skipUnless(shutil.which("mypy"), "mypy isn't installed")
    def test_types(self) -> None:
        status, out = called(["mypy", "--cache-dir", os.devnull])
        self.assertEqual(status, 0, out)

    @unittest.skipUnless(shutil.which("ruff"), "ruff isn't installed")
    def test_style(self) -> None:
        status, out = called(["ruff", "check", "--no-cache", "ldvtools", "tests"])
        self.assertEqual(status, 0, out)

    def test_imports(self) -> None:
        """No module takes in all names of another one, and none edits Python's path but for two: a command
        that is installed says where its package is, and what is in the process of a captured program leaves
        the path as that program would have it."""
        found = []
        for folder, folders, names in os.walk(ROOT):
            folders[:] = [name for name in folders if name not in (".git", "out", "dist", "build")]
            for path in (os.path.join(folder, name) for name in names if name.endswith(".py")):
                text = read(path).decode()
                if re.search(r"(?m)^\s*from \S+ import \*|^\s*sys\.path(\.|\[.*\] *=|\s*\+?=)", text):
                    found.append(os.path.relpath(path, ROOT))
        self.assertEqual(sorted(found), ["tools/ldvtools/inside/sitecustomize.py", "tools/release.py"])

    def test_lines(self) -> None:
        """No line is longer than 110 columns, and no file than 800 lines."""
        for folder in ("tools", "tools/ldvtools", "tools/ldvtools/inside", "tools/ldvtools/notebook",
                       "tools/cases", "tools/checks",
                       "tools/tests", "bench", "bench/python", "tests/robustness"):
            for name in sorted(os.listdir(os.path.join(ROOT, folder))):
                if name.endswith((".py", ".js", ".css")):
                    text = read(os.path.join(ROOT, folder, name)).decode()
                    self.assertLess(text.count("\n"), 800, name)
                    for number, line in enumerate(text.split("\n"), 1):
                        self.assertLessEqual(len(line), 110, f"{folder}/{name}:{number}")


class Package(InFolder):
    def test_commands(self) -> None:
        """Each command runs as a script of tools/ and as an entry point, by the same name and version."""
        text = read(os.path.join(TOOLS, "pyproject.toml")).decode()
        points = dict(re.findall(r'(?m)^ldv-(\w+) = "ldvtools\.(\w+):main"$', text))
        self.assertEqual(points, {name: name for name in COMMANDS})
        self.assertEqual(match_in(r'(?m)^version = "(.*)"$', text)[1], ldvtools.__version__)
        for name in COMMANDS:
            for words in ([os.path.join(TOOLS, name + ".py")], [sys.executable, "-m", f"ldvtools.{name}"]):
                done = subprocess.run([*words, "--help"], capture_output=True,
                                      check=False, cwd=self.folder, env={**os.environ, "PYTHONPATH": TOOLS})
                self.assertEqual((done.returncode, done.stderr), (0, b""), words)
                self.assertIn(f"usage: {name}.py".encode(), done.stdout)

    def test_names(self) -> None:
        """A command says the name by which it was called, in its help and in its messages."""
        called = self.put("ldv-outcome", "import sys\nfrom ldvtools.outcome import main\nsys.exit(main())\n")
        env = {**os.environ, "PYTHONPATH": TOOLS}
        for words, status, said in ((["--help"], 0, "usage: ldv-outcome "),
                                    (["none"], 1, "ldv-outcome: none: No such file or directory\n"),
                                    (["--none"], 2, "ldv-outcome: unrecognized arguments: --none (ldv-")):
            done = subprocess.run([sys.executable, called, *words], stdout=subprocess.PIPE,
                                  stderr=subprocess.STDOUT, check=False, cwd=self.folder, env=env)
            self.assertEqual((done.returncode, done.stdout.decode()[:len(said)]), (status, said))

    def test_gate(self) -> None:
        """.ci/run ends with the status of rt ci where that fails, and names what isn't installed."""
        os.makedirs(os.path.join(self.folder, "bin"))
        os.makedirs(os.path.join(self.folder, "top/.ci"))
        script = shutil.copy(os.path.join(ROOT, ".ci/run"), os.path.join(self.folder, "top/.ci"))
        for name in ("sh", "dirname", "sed"):
            os.symlink(shutil.which(name) or name, os.path.join(self.folder, "bin", name))
        rt = self.put("bin/rt", "#!/bin/sh\nexit 3\n")
        os.chmod(rt, 0o755)
        env = {"PATH": os.path.join(self.folder, "bin")}
        done = subprocess.run([script], env=env, capture_output=True, check=False)
        self.assertEqual((done.returncode, done.stdout), (3, b""))
        self.put("bin/rt", "#!/bin/sh\nexit 0\n")
        done = subprocess.run([script], env=env, capture_output=True, check=False)
        self.assertEqual(done.returncode, 0, done.stderr)
        for name in ("python3:", "dot (graphviz):", "chromium:", "sqlite3:", "groff:", "mandoc:", "cc:",
                     "mypy:", "ruff:", "make:", "git:", "dpkg-deb:", "unshare:", "unzip:", "zsh:", "fish:"):
            self.assertIn(f"  {name}".encode(), done.stdout)

    @unittest.skipUnless(shutil.which("sqlite3"), "sqlite3 isn't installed")
    def test_database(self) -> None:
        """The program sqlite3 makes the tutorial's database, as the page says."""
        from ldvtools import world

        from .support import LIBRARY, TUTORIAL, make_database, tool
        path, other = (os.path.join(self.folder, name, "library.db") for name in ("a", "b"))
        for each in (path, other):
            os.makedirs(os.path.dirname(each))
        self.assertEqual(command(["sqlite3", path], read(TUTORIAL + "/library.sql")), (0, b"", b""))
        make_database(other, read(TUTORIAL + "/library.sql").decode())
        words = [*LIBRARY, "--no-columns"]
        self.assertEqual(tool(world, "--sqlite", path, *words), tool(world, "--sqlite", other, *words))
