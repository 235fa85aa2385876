#!/usr/bin/env python3
"""Tests the tools, the checks of tools/ and bench/, and the examples, with the program where it is there.

    python3 tools check_tools [PROGRAM] [TEST ..]

PROGRAM is the compiled ldv, by default crates/ldv/out/ldv of this checkout. Where it isn't there, the tests
that run it are skipped; one that is given has to be there. TEST is a file of tools/tests, such as test_world,
by default all, or a class or a test in one, as test_world.Class.test_name. The examples are those of
examples/, the tutorial, docs/SCRIPTS.md and docs/PACKAGES.md. What is expected was worked out by hand, or
comes from SQLite. The types are checked by mypy and the style by ruff, where these are installed.

pytest runs them side by side where its plugin xdist is installed, and else unittest runs them in turn. At the
end the tests that were skipped are named, each with what is missing. Ends with a status other than 0 where a
test fails.
"""
from __future__ import annotations

import os
import subprocess
import sys
from typing import Dict, List

from tests import FOLDERS, support

TOOLS = os.path.dirname(os.path.dirname(os.path.abspath(__file__)))


def place_of(test: str) -> str:
    """Where pytest finds a test that is named as unittest does."""
    file, *parts = test.split(".")
    return "::".join([f"tests/{file}.py", *parts])


def with_path(env: Dict[str, str]) -> Dict[str, str]:
    """The variables by which Python finds what the tests import beside the packages of tools/."""
    before = env.get("PYTHONPATH")
    return {**env, "PYTHONPATH": os.pathsep.join([*FOLDERS, *([before] if before else [])])}


def status_of(tests: List[str], env: Dict[str, str]) -> int:
    python = support.python_with("pytest", "xdist")
    if python is None:
        words = [sys.executable, "-m", "tests", *tests]
        return subprocess.run(words, cwd=TOOLS, env=with_path(env), check=False).returncode
    words = [python, "-m", "pytest", "-q", "-rs", "-n", "auto", "--dist", "loadscope", *map(place_of, tests)]
    return subprocess.run(words, cwd=TOOLS, env=env, check=False).returncode


def main(words: List[str]) -> int:
    env = dict(os.environ)
    if words and not words[0].startswith("test_"):
        program = os.path.abspath(words[0])
        if not os.access(program, os.X_OK):
            sys.exit(f"check_tools: {program} is no program")
        env["LDV_PROGRAM"] = program
        words = words[1:]
    return status_of(words, env)


if __name__ == "__main__":
    sys.exit(main(sys.argv[1:]))
