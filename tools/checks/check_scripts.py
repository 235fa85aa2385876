#!/usr/bin/env python3
"""Runs the examples of docs/SCRIPTS.md and compares what they give with what the page says.

    python3 tools check_scripts [--program 'CMD ..'] [--page FILE] [--worlds FOLDER]

--program names another program than `./ldv run` of this checkout; it reads a world and writes an outcome.
--worlds writes each example as a world document into a folder.

A block is the indented lines after a line of text, which says what it is:

    With the file `P`:              the lines of a file of the next example
    With the script `P`:            the same
    With the file `P`, in hex:      its bytes
    With the start words `main`, `A` and `B`:    the arguments of the next example, which is the next block
    .. the table `T`, whose key is `K`:          CSV: a table of all examples

An example is a block with one of these lines after it. What it says of the run is compared:

    prints                          the next block is what process 0 prints; without it, it prints nothing
    ends with status N              of process 0; without it, N is 0
    leaves `P` with                 the next block is the content of the file afterwards
    leaves no `P`                   the file was removed

They may begin with `and`, or with `Under seed N it`, which runs the example again with that seed.

tools/world.py makes the worlds, as it would for a reader. Statuses: 0 no difference; 1 a difference, or a
program that failed; 2 wrong words.
"""
from __future__ import annotations

import os
import re
import shlex
import subprocess
import sys
import tempfile
from typing import Callable, Iterator, Optional, Sequence, Union

from ldvtools import world
from ldvtools.errors import Malformed, Refused, words_of
from ldvtools.outcomes import read_outcome

from . import ROOT

PAGE = os.path.join(ROOT, "docs", "SCRIPTS.md")
FILE = re.compile(r"With the (?:file|script) `([^`]+)`(, in hex)?:")
TABLE = re.compile(r".* the table `(\w+)`, whose key is `(\w+)`:")
WORDS = re.compile(r"With the start words .*:")
RESULT = re.compile(r"(?:and |Under seed (?P<seed>\d+) it )?(?:(?P<prints>prints)|ends with status "
                    r"(?P<status>\d+)"
                    r"|leaves `(?P<file>[^`]+)` with|leaves no `(?P<gone>[^`]+)`)\.?")


# A piece of the page: what it is, its line and its text. A table: its name, its key and its CSV.
Piece = tuple[str, int, str]
Table = tuple[str, str, str]
# What runs a world: status, output and error.
Call = Callable[[bytes], tuple[int, bytes, bytes]]


class Run:
    """What the page says of a run of an example."""

    def __init__(self, seed: int) -> None:
        self.seed, self.printed, self.status = seed, "", 0
        self.files: dict[str, Optional[bytes]] = {}


class Example:
    """A script of the page with the line on which it begins, its files and arguments, and its runs."""

    def __init__(self, line: int, script: str, files: dict[str, bytes], arguments: Sequence[str]) -> None:
        self.line, self.script, self.files, self.arguments = line, script, files, arguments
        self.runs: list[Run] = []


# ---- the page

def pieces(text: str) -> list[Piece]:
    """The page in order: ("block", line number, its text) and ("text", line number, the last line of a
    paragraph). Empty lines within a block are its own."""
    found: list[Piece] = []
    block: list[str] = []
    begun = 0
    for number, line in enumerate(text.split("\n") + ["end"], 1):
        if line.startswith("    ") and (block or not found or found[-1][0] == "empty"):
            begun = begun if block else number
            block.append(line[4:])
        elif block and not line:
            block.append("")
        else:
            if block:
                kept = "\n".join(block).rstrip("\n") + "\n"
                found += [("block", begun, kept), ("empty", number, "")]
                block = []
            found.append(("text" if line else "empty", number, line))
    return [piece for piece in found if piece[0] != "empty"]


def add_result(example: Example, found: re.Match[str], block: str) -> bool:
    """What a line, perhaps with the block after it, says of a run."""
    if not example.runs or found["seed"]:
        example.runs.append(Run(int(found["seed"] or 0)))
    run = example.runs[-1]
    if found["prints"]:
        run.printed = block
    elif found["status"]:
        run.status = int(found["status"])
    elif found["file"]:
        run.files[found["file"]] = block.encode()
    else:
        run.files[found["gone"]] = None
    return bool(found["prints"] or found["file"])


def read_page(text: str) -> tuple[list[Example], list[Table]]:
    """The examples of the page, and its tables: name, key and CSV."""
    parts = pieces(text)
    examples: list[Example] = []
    tables: list[Table] = []
    files: dict[str, bytes] = {}
    arguments: list[str] = []
    last: Union[Example, tuple[int, str], None] = None
    place = 0
    while place < len(parts):
        kind, number, content = parts[place]
        block = parts[place + 1][2] if place + 1 < len(parts) and parts[place + 1][0] == "block" else ""
        named, table = FILE.fullmatch(content), TABLE.fullmatch(content)
        result = RESULT.fullmatch(content) if kind == "text" else None
        if kind == "text" and content.startswith("#"):
            files, arguments, last = {}, [], None
        if kind == "block":
            last = (number, content)
        elif result and last:
            if not isinstance(last, Example):
                last = Example(*last, files, arguments)
                examples.append(last)
                files, arguments = {}, []
            place += add_result(last, result, block)
        elif block and named:
            files[named[1]] = bytes.fromhex(block) if named[2] else block.encode()
            place += 1
        elif block and table:
            tables.append((table[1], table[2], block))
            place += 1
        elif WORDS.fullmatch(content):
            arguments = re.findall("`([^`]+)`", content)[1:]
        place += 1
    return examples, tables


# ---- runs

def put(folder: str, name: str, content: bytes) -> str:
    path = os.path.join(folder, name)
    with open(path, "wb") as file:
        file.write(content)
    return path


def document(example: Example, seed: int, tables: list[Table]) -> bytes:
    """The world of an example, as tools/world.py makes it."""
    with tempfile.TemporaryDirectory() as folder:
        words = ["--quiet", "--seed", str(seed), "--script",
                 "main=" + put(folder, "script", example.script.encode())]
        for place, (path, content) in enumerate(example.files.items()):
            words += ["--file", f"{path}=" + put(folder, f"file{place}", content)]
        for name, key, rows in tables:
            words += ["--csv", put(folder, f"{name}.csv", rows.encode()), "--key", f"{name}={key}"]
        for argument in example.arguments:
            words += ["--arg", argument]
        return world.document_of(words)


def differences(run: Run, outcome: bytes) -> Iterator[str]:
    """What an outcome has otherwise than the page says."""
    processes, touched = read_outcome(outcome)
    first, after = processes[0], dict(touched)
    if first.status != run.status:
        yield f"ends with status {first.status} and not {run.status}"
    if first.printed != run.printed:
        yield f"prints {first.printed!r} and not {run.printed!r}"
    for path, content in run.files.items():
        if path not in after or after[path] != content:
            yield f"leaves {path} with {after.get(path)!r} and not {content!r}"


def check(page: str, call: Call) -> tuple[int, int]:
    """Prints what differs. `call` gives status, output and error of a run. Gives the numbers of runs and of
    those that differ."""
    examples, tables = read_page(page)
    runs = differ = 0
    for example in examples:
        for run in example.runs:
            runs += 1
            try:
                status, output, error = call(document(example, run.seed, tables))
                found = list(differences(run, output)) if status == 0 else [
                    f"the program ends with {status}: {error.decode(errors='replace').strip()}"]
            except (Malformed, Refused) as fault:
                found = [str(fault)]
            differ += bool(found)
            for each in found:
                print(f"line {example.line}, seed {run.seed}: {each}")
    return runs, differ


def program(words: Sequence[str]) -> Call:
    def call(given: bytes) -> tuple[int, bytes, bytes]:
        done = subprocess.run(words, input=given, capture_output=True, check=False)
        return done.returncode, done.stdout, done.stderr
    return call


def write_worlds(page: str, folder: str) -> None:
    examples, tables = read_page(page)
    os.makedirs(folder, exist_ok=True)
    for example in examples:
        for run in example.runs:
            put(folder, f"{example.line}-{run.seed}.json", document(example, run.seed, tables))


def main(given: Optional[Sequence[str]] = None) -> int:
    parser = words_of(__doc__)
    parser.add_argument("--program", default=os.path.join(ROOT, "ldv") + " run", metavar="'CMD ..'")
    parser.add_argument("--page", default=PAGE, metavar="FILE")
    parser.add_argument("--worlds", metavar="FOLDER")
    words = parser.parse_args(given)
    with open(words.page, encoding="utf-8") as file:
        page = file.read()
    if words.worlds:
        write_worlds(page, words.worlds)
        return 0
    runs, differ = check(page, program(shlex.split(words.program)))
    print(f"{os.path.basename(words.page)}: {runs} runs, {differ} differ")
    return 1 if differ or not runs else 0


if __name__ == "__main__":
    sys.exit(main())
