"""Calls a check, or what makes cases, by its name: `python3 tools NAME [WORD ..]`, from any folder.

Python begins with this file where it is given the folder, and finds the packages beside it. So
`python3 tools check_docs` is `python3 -m checks.check_docs` in this folder.
"""
from __future__ import annotations

import os
import runpy
import sys
from typing import List

HERE = os.path.dirname(os.path.abspath(__file__))
PACKAGES = ("checks", "cases")


def module_of(name: str) -> str:
    for package in PACKAGES:
        if name.isidentifier() and os.path.exists(os.path.join(HERE, package, name + ".py")):
            return f"{package}.{name}"
    sys.exit(f"python3 tools: there is no {name}; tools/README.md has the names")


def main(words: List[str]) -> None:
    if not words:
        sys.exit(__doc__)
    sys.argv = words
    runpy.run_module(module_of(words[0]), run_name="__main__", alter_sys=True)


if __name__ == "__main__":
    main(sys.argv[1:])
