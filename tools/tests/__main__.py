"""Runs all tests, or those that are named, by unittest: `python3 -m tests [TEST ..]` in tools/."""
from __future__ import annotations

import os
import sys
import unittest
from typing import List

HERE = os.path.dirname(os.path.abspath(__file__))


def suite(names: List[str]) -> unittest.TestSuite:
    loader = unittest.TestLoader()
    if names:
        return loader.loadTestsFromNames([f"tests.{name}" for name in names])
    return loader.discover(HERE, top_level_dir=os.path.dirname(HERE))


def main(names: List[str]) -> int:
    result = unittest.TextTestRunner().run(suite(names))
    for reason in sorted({reason for _, reason in result.skipped}):
        count = sum(each == reason for _, each in result.skipped)
        print(f"check_tools: {count} skipped: {reason}")
    return 0 if result.wasSuccessful() and result.testsRun else 1


if __name__ == "__main__":
    sys.exit(main(sys.argv[1:]))
