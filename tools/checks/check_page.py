#!/usr/bin/env python3
"""Runs the commands of a page and compares what they write with what the page shows.

    python3 tools check_page [--program PROGRAM] [--fill] [PAGE ..]

A page is a document with indented blocks such as this one, by default docs/PACKAGES.md,
docs/ORDERS.md and docs/TUTORIAL.md:

    $ ./ldv record < examples/orders.json > orders.package
    $ ./ldv inspect why orders 0 < orders.package
    statement 1 process 0 step 14 rule K

A line that begins with `$ ` is a command, and so is the next line where it ends with a backslash. The lines
up to the next command or the end of the block are what it writes to standard output and standard error; one
may end with CR too. A block without such a line is no matter of this program. The commands of a page are run
in order by `sh`, in a folder of their own that has `ldv`, `tools` and `examples` of this checkout, so that it
is as at its top.

A table whose head has the cells `Write` and `Reply` has statements in the one and what is replied in the
other, each reply in brackets row by row, several ones with `;` between them. They are asked of the tables of
the CSV files that are named before the table.

--program names another program than crates/ldv/out/ldv to be called as ./ldv. --fill writes what the commands
write into the page, in place of what it shows.

Statuses: 0 no difference, or filled; 1 a difference, or a program that isn't there; 2 wrong words.
"""
from __future__ import annotations

import os
import re
import subprocess
import sys
import tempfile
from typing import Callable, Iterator, Optional, Sequence

from ldvtools import world
from ldvtools.errors import program_name, words_of
from ldvtools.outcomes import read_outcome
from ldvtools.values import Reply, cell, reply_title

from . import ROOT

PAGE = os.path.join(ROOT, "docs", "PACKAGES.md")
ORDERS = os.path.join(ROOT, "docs", "ORDERS.md")
TUTORIAL = os.path.join(ROOT, "docs", "TUTORIAL.md")
STATEMENT = re.compile(r"`((?:SELECT|INSERT|UPDATE|DELETE) [^`]+)`")
DATA = re.compile(r"`(examples/[\w./]+\.csv)`")
PROGRAM = os.path.join(ROOT, "crates", "ldv", "out", "ldv")
INDENT = "    "
PROMPT = INDENT + "$ "
SECONDS = 600
# What runs a world and gives its outcome.
Call = Callable[[bytes], bytes]
# A row of a table of statements: its line, the statements and what is said to be replied.
Row = tuple[int, list[str], str]


class Shown:
    """A command of a page: where it stands, its words, and the lines that the page shows after it."""

    def __init__(self, number: int, command: str) -> None:
        self.number, self.command = number, command
        self.lines: list[str] = []
        # The lines of the page that show what it writes: from one up to another.
        self.begin = self.end = number


def commands(page: str) -> list[Shown]:
    """The commands of a page, in order."""
    found: list[Shown] = []
    current: Optional[Shown] = None
    goes_on = False
    for number, line in enumerate(page.split("\n")):
        if current and goes_on:
            current.command += "\n" + line
            current.begin = current.end = number + 1
        elif line.startswith(PROMPT):
            current = Shown(number, line[len(PROMPT):])
            current.begin = current.end = number + 1
            found.append(current)
        elif current and line.startswith(INDENT):
            current.lines.append(line[len(INDENT):])
            current.end = number + 1
        else:
            current = None
        goes_on = (current is not None and current.end == current.begin == number + 1
                   and line.endswith("\\"))
    return found


def folder_with(program: str, folder: str) -> None:
    """Makes a folder as the top of a checkout."""
    os.symlink(os.path.abspath(program), os.path.join(folder, "ldv"))
    for name in ("tools", "examples"):
        os.symlink(os.path.join(ROOT, name), os.path.join(folder, name))


def run(command: str, folder: str) -> list[str]:
    """The lines that a command writes."""
    done = subprocess.run(["sh", "-c", command], cwd=folder, stdin=subprocess.DEVNULL, stdout=subprocess.PIPE,
                          stderr=subprocess.STDOUT, timeout=SECONDS, check=False)
    text = done.stdout.decode(errors="backslashreplace").replace("\r\n", "\n")
    return text[:-1].split("\n") if text.endswith("\n") else text.split("\n") if text else []


def outputs(page: str, program: str) -> list[tuple[Shown, list[str]]]:
    """Each command of a page with the lines that it writes."""
    with tempfile.TemporaryDirectory() as folder:
        folder_with(program, folder)
        return [(shown, run(shown.command, folder)) for shown in commands(page)]


def differences(page: str, results: Sequence[tuple[Shown, list[str]]]) -> Iterator[str]:
    """A line for each command whose output isn't that of the page."""
    for shown, lines in results:
        for place in range(max(len(lines), len(shown.lines))):
            if shown.lines[place:place + 1] != lines[place:place + 1]:
                was, got = (each[place] if place < len(each) else "nothing" for each in (shown.lines, lines))
                yield f"line {shown.begin + place + 1}: {shown.command}\n    page: {was}\n    now:  {got}"
                break


def filled(page: str, results: Sequence[tuple[Shown, list[str]]]) -> str:
    """The page with what its commands write."""
    lines = page.split("\n")
    for shown, written in reversed(results):
        # An empty line is indented too: without that it would end the block.
        lines[shown.begin:shown.end] = [INDENT + line for line in written]
    return "\n".join(lines)


# ---- tables of statements

def statement_tables(page: str) -> list[tuple[list[str], list[Row]]]:
    """The tables of statements: the CSV files that they are asked of, and each row as its line,
    statements and reply."""
    found: list[tuple[list[str], list[Row]]] = []
    files: list[str] = []
    write: Optional[int] = None
    reply = 0
    for number, line in enumerate(page.split("\n"), 1):
        if not line.startswith("|"):
            files = DATA.findall(line) or files
            write = None
            continue
        cells = [part.strip() for part in re.split(r"(?<!\\)\|", line.strip().strip("|"))]
        if "Write" in cells and "Reply" in cells:
            write, reply = cells.index("Write"), cells.index("Reply")
            found.append((files, []))
        elif write is not None and not set(line) <= set("|-: "):
            found[-1][1].append((number, STATEMENT.findall(cells[write]), cells[reply]))
    return [table for table in found if table[1]]


def shown_reply(reply: Reply) -> str:
    """A reply as a table of statements has it."""
    if reply.kind != "rows":
        return reply_title(reply)
    return ", ".join("(" + ", ".join(cell(value) for value in row) + ")" for row in reply.rows) or "no row"


def asked_world(files: Sequence[str], statements: Sequence[str]) -> bytes:
    """A world of the files of a table that asks its statements."""
    words = ["--no-check", "--quiet"]
    for path in files:
        words += ["--csv", os.path.join(ROOT, path)]
    for statement in statements:
        words += ["--ask", statement]
    return world.document_of(words)


def table_differences(page: str, call: Call) -> Iterator[str]:
    """A line for each row of a table of statements whose reply isn't the one that comes.
    `call` runs a world."""
    for files, rows in statement_tables(page):
        asked = [statement for _, statements, _ in rows for statement in statements]
        replies = iter(read_outcome(call(asked_world(files, asked))).processes[0].replies)
        for number, statements, said in rows:
            given = "; ".join(shown_reply(next(replies)) for _ in statements)
            if given != said:
                yield f"line {number}: {' '.join(statements)}\n    page: {said}\n    now:  {given}"


def running(program: str) -> Call:
    """What a program writes for a world."""
    def call(data: bytes) -> bytes:
        return subprocess.run([program, "run"], input=data, stdout=subprocess.PIPE, check=True).stdout
    return call


def check(path: str, program: str, fill: bool) -> bool:
    """Whether the page is as its commands say, or was made so."""
    with open(path, encoding="utf-8") as file:
        page = file.read()
    results = outputs(page, program)
    name = os.path.relpath(path, ROOT)
    if fill:
        with open(path, "w", encoding="utf-8") as file:
            file.write(filled(page, results))
        print(f"{name}: {len(results)} commands, filled")
        return True
    found = list(differences(page, results)) + list(table_differences(page, running(program)))
    for each in found:
        print(f"{name}, {each}")
    statements = sum(len(rows) for _, rows in statement_tables(page))
    print(f"{name}: {len(results)} commands" + (f", {statements} statements" if statements else "")
          + f", {len(found)} differ")
    return bool(results or statements) and not found


def main(words: Optional[Sequence[str]] = None) -> int:
    parser = words_of(__doc__)
    parser.add_argument("pages", nargs="*", default=[PAGE, ORDERS, TUTORIAL], metavar="PAGE")
    parser.add_argument("--program", default=PROGRAM)
    parser.add_argument("--fill", action="store_true")
    given = parser.parse_args(words)
    if not os.access(given.program, os.X_OK):
        print(f"{program_name()}: {given.program} isn't there; compile it with ./ldv", file=sys.stderr)
        return 1
    return 0 if all([check(page, given.program, given.fill) for page in given.pages]) else 1


if __name__ == "__main__":
    sys.exit(main())
