"""The tables of a PostgreSQL database as they were before a program: one transaction sees them while it
runs."""
from __future__ import annotations

import contextlib
import json
import os
import re
import subprocess
import sys
from typing import Any, Dict, List, Mapping, Optional, Sequence

from .captured_tables import Taken, tables_taken
from .dialect_rules import Shape
from .errors import Refused

TOOLS = os.path.dirname(os.path.dirname(os.path.abspath(__file__)))
NUMERIC = re.compile(r"numeric\([0-9]+,([0-9]+)\)\Z")


def python_with_driver(program: Sequence[str]) -> str:
    """A Python that has psycopg2: that of the program, this one, or another of the system."""
    named = [program[0]] if re.search(r"python[0-9.]*$", program[0]) else []
    for python in [*named, sys.executable, "python3", "/usr/bin/python3"]:
        try:
            done = subprocess.run([python, "-c", "import psycopg2"], stdout=subprocess.DEVNULL,
                                  stderr=subprocess.DEVNULL, check=False)
        except OSError:
            continue
        if done.returncode == 0:
            return python
    raise Refused("no Python with psycopg2 is there, by which the server is read")


class Before:
    """The database as it was before the program, and its name."""

    def __init__(self, dsn: str, path: str, program: Sequence[str]) -> None:
        words = [python_with_driver(program), "-m", "ldvtools.inside.snapshot", dsn, path]
        environment = {**os.environ, "PYTHONPATH": TOOLS}
        self.process = subprocess.Popen(words, stdin=subprocess.PIPE, stdout=subprocess.PIPE, env=environment,
                                        start_new_session=True)
        line = self.line()
        found = json.loads(line) if line.strip() else {"fault": "the server wasn't read"}
        if "fault" in found:
            self.end()
            raise Refused(found["fault"])
        self.name = str(found["ready"])

    def line(self) -> str:
        assert self.process.stdout is not None
        return self.process.stdout.readline().decode()

    def told(self, text: str) -> None:
        assert self.process.stdin is not None
        self.process.stdin.write((text + "\n").encode())
        self.process.stdin.flush()

    def copy(self, names: Sequence[str]) -> Dict[str, Any]:
        """Copies tables, and gives what is known of them."""
        self.told(json.dumps(list(names)))
        line = self.line()
        self.end()
        if not line.strip():
            raise Refused("the tables of the server weren't copied")
        found: Dict[str, Any] = json.loads(line)
        return found

    def end(self) -> None:
        for stream in (self.process.stdin, self.process.stdout):
            with contextlib.suppress(OSError):
                if stream is not None:
                    stream.close()
        self.process.wait()


def options_of(known: Mapping[str, Any], given: Sequence[str]) -> List[str]:
    """The options by which the columns are carried: decimals by the type of the column."""
    words = list(given)
    for table, columns in known.items():
        for column in columns:
            name = f"{table}.{column['name']}"
            match = NUMERIC.match(column["declared"])
            if not column["carried"]:
                words += ["--leave-out", name]
            elif match and match[1] != "0" and not any(word.startswith(name + "=") for word in given):
                words += ["--scale", f"{name}={match[1]}"]
    return words


def server_tables(copy: str, known: Mapping[str, Any], options: Sequence[str]) -> Taken:
    """The tables of a copy, with the types, defaults and the collation that they have in the server."""
    columns: Mapping[str, Any] = known["tables"]
    taken = tables_taken(copy, list(columns), options_of(columns, options))
    for shape in taken.shapes.values():
        set_types(shape, columns[shape.table.old])
        for column in columns[shape.table.old]:
            if not column["carried"]:
                taken.notes.append(f"{shape.table.old}.{column['name']}: {column['declared']} isn't carried")
    following = {table: {column["name"].lower(): int(column["following"]) for column in those
                         if column["following"] is not None} for table, those in columns.items()}
    shapes = {name: shape._replace(collation=known["collation"], following=following[shape.table.old])
              for name, shape in taken.shapes.items()}
    return taken._replace(shapes=shapes)


def set_types(shape: Shape, columns: Sequence[Mapping[str, Any]]) -> None:
    for column in shape.table.columns:
        found: Optional[Mapping[str, Any]] = next(
            (each for each in columns if each["name"] == column.old), None)
        if found is not None:
            column.declared, column.default = found["declared"], found["default"]
