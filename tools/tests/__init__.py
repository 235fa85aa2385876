"""Tests of the tools; checks/check_tools.py runs them.

What they import beside the packages of tools/ are the programs of bench/ and tests/robustness: pyproject.toml
names these folders for pytest, and for unittest check_tools.py does so in PYTHONPATH. Programs that the tests
start don't find them there.
"""
import os

ROOT = os.path.dirname(os.path.dirname(os.path.dirname(os.path.abspath(__file__))))
FOLDERS = [os.path.join(ROOT, "bench"), os.path.join(ROOT, "tests", "robustness")]

if "PYTHONPATH" in os.environ:
    os.environ["PYTHONPATH"] = os.pathsep.join(
        folder for folder in os.environ["PYTHONPATH"].split(os.pathsep) if folder not in FOLDERS)
