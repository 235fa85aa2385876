"""Worlds of broken statements and scripts, with what check.py says of each,
to be held against what the program does."""
from __future__ import annotations

import json
import random
from typing import Any

import hostile
from checks import against_sqlite
from ldvtools.language import RESERVED
from ldvtools.scripts import BadLine, read_script
from ldvtools.scripts_of_statements import escaped
from ldvtools.sql import tokens_of
from ldvtools.sql_check import judge

WORDS = hostile.SQL + ["left", "JOIN", "ON", "a.b", "1a", "?", "AS", "!=", "SET", "'it''s'", ";", "--"]
# What a byte of a script is replaced by.
BYTES = b' "\\#:x1\t\r\xff\nAl='


class Worlds:
    """Random worlds of a seed. A statement is one that both SQLite and the program take,
    with some tokens changed."""

    def __init__(self, seed: int) -> None:
        self.chance = random.Random(seed)
        self.tables = against_sqlite.made(seed, 1)[0]
        columns = [(table.name, column.name) for table in self.tables for column in table.columns]
        self.names = [name for _, name in columns] + [".".join(each) for each in columns]
        self.names += [table.name for table in self.tables]

    def statement(self) -> tuple[str, list[Any]]:
        made = against_sqlite.Maker(self.chance).statement(self.tables)
        parts = [made.text[token.at:token.end]
                 for token in tokens_of(made.text) if token.kind not in ("end", "bad")]
        change = self.other_names if self.chance.random() < 0.7 else self.other_tokens
        change(parts)
        params = list(made.params)
        if self.chance.random() < 0.05:
            params = params[:-1] if params else [1]
        return " ".join(parts), params

    def other_names(self, parts: list[str]) -> None:
        """Names, numbers and texts of the statement put in the place of others:
        it mostly has a reading still."""
        places = [place for place, part in enumerate(parts)
                  if part[0] in "'0123456789" or part[0].isalpha() and part.lower() not in RESERVED]
        for _ in range(self.chance.choice((1, 1, 2)) if places else 0):
            other = [parts[self.chance.choice(places)], "5", "'a'", *self.chance.choices(self.names, k=2)]
            parts[self.chance.choice(places)] = self.chance.choice(other)

    def other_tokens(self, parts: list[str]) -> None:
        for _ in range(self.chance.choice((1, 1, 1, 2))):
            place = self.chance.randrange(len(parts))
            how = self.chance.randrange(3)
            if how == 0 and len(parts) > 1:
                del parts[place]
            elif how == 1:
                parts.insert(place, self.chance.choice(WORDS + self.names))
            else:
                parts[place] = self.chance.choice(WORDS + parts)

    def script(self) -> bytes:
        """A script that ends at once, and is one or isn't."""
        lines = ["exit 0"] + [hostile.script_line(self.chance) for _ in range(self.chance.randrange(1, 4))]
        data = bytearray("\n".join(lines).encode()
                         + (b"\nl:\ne:\nend:\n" if self.chance.random() < 0.7 else b""))
        if self.chance.random() < 0.5:
            data[self.chance.randrange(len(data))] = self.chance.choice(BYTES)
        return bytes(data)

    def world(self, statements: int, scripts: int) -> tuple[bytes, list[int], list[int]]:
        """A world whose script starts each of some scripts, printing 1 or 0, and asks statements; and what is
        expected: these numbers, and the code from 1 to 4 of each statement, or 0."""
        made = against_sqlite.world_of(self.tables, [])
        schemas = {name: [(column[0], column[1]) for column in table["columns"]]
                   for name, table in made["tables"].items()}
        lines, flags, codes = [], [], []
        for place in range(scripts):
            data = self.script()
            made["files"][f"c{place}"] = {"hex": data.hex()}
            flags.append(is_script(data))
            lines += [f'spawn p "c{place}" else b{place}', "print 1", f"goto a{place}", f"b{place}:",
                      "print 0", f"a{place}:"]
        for _ in range(statements):
            text, params = self.statement()
            finding = judge(text, params, schemas).finding
            codes.append(finding.code if finding else 0)
            lines.append(" ".join([f'sql q "{escaped(text)}"', *map(operand, params)]))
        made["files"]["main"] = "".join(line + "\n" for line in lines)
        return json.dumps(made).encode(), flags, codes


def is_script(data: bytes) -> int:
    try:
        read_script(data)
        return 1
    except BadLine:
        return 0


def operand(value: Any) -> str:
    if value is None:
        return "null"
    return str(value) if isinstance(value, int) else f'"{escaped(value)}"'
