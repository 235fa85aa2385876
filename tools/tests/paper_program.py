"""In place of ldv for bench/paper.py: the application by Python's sqlite3, with faults that are named.

    PYTHONPATH=bench paper_program.py FAULT run|record|record --excluded|replay|inspect rows

A package is a letter with the world or the outcome behind it. FAULT is `none`, or one of these: `answer`,
each answer has another row; `lost`, a row isn't updated; `replay`, replays write something else; `needed`, a
row more is packed; `long`, no package is written; `differ`, one of the ten answers has a row less.
"""
from __future__ import annotations

import json
import os
import re
import sqlite3
import sys
import tempfile
from typing import Any

import paper_queries

TOO_LONG = 12


def value_text(value: Any) -> str:
    if value is None:
        return "null\n"
    return f"int {value}\n" if isinstance(value, int) else f"text {len(value.encode())}\n{value}\n"


def reply_text(rows: Any) -> str:
    return f"rows {len(rows)}\n" + "".join(
        f"row {len(row)}\n" + "".join(map(value_text, row)) for row in rows)


def database_of(world: Any, path: str = ":memory:") -> sqlite3.Connection:
    base = sqlite3.connect(path)
    for name, table in world["tables"].items():
        columns = ", ".join(column for column, _ in table["columns"])
        base.execute(f"CREATE TABLE {name} ({columns}, PRIMARY KEY ({', '.join(table['key'])}))")
        places = ", ".join("?" * len(table["columns"]))
        base.executemany(f"INSERT INTO {name} VALUES ({places})", table["rows"])
    base.commit()
    return base


def query_of(world: Any) -> str:
    found, = re.findall(r'^sql q "(SELECT .*)"$', world["files"]["main"], re.M)
    return str(found)


def outcome_of(world: Any, fault: str) -> str:
    base, printed, replies = database_of(world), "", ""
    for statement in paper_queries.statements_before():
        replies += f"changed {base.execute(statement).rowcount}\n"
    for time in range(paper_queries.ASKS):
        rows = base.execute(query_of(world)).fetchall()
        if fault == "answer":
            rows[-1] = (*rows[-1][:-1], "another")
        if fault == "differ" and time == 3:
            rows.pop()
        printed += f"{len(rows)}\n"
        replies += reply_text(rows)
    after = paper_queries.statements_after()
    for statement in after[:-1] if fault == "lost" else after:
        replies += f"changed {base.execute(statement).rowcount}\n"
    count = paper_queries.INSERTS + paper_queries.ASKS + paper_queries.UPDATES
    return f"outcome 1 0\nprocess 0 0 {len(printed)} {count}\n{printed}\n{replies}"


def rows_text(world: Any, fault: str) -> str:
    query = next(each for each in paper_queries.QUERIES if each.asked == query_of(world))
    with tempfile.TemporaryDirectory() as folder:
        path = os.path.join(folder, "base")
        database_of(world, path).close()
        counts = paper_queries.needed_rows(path, query)
    if fault == "needed":
        counts["orders"] += 1
    return "".join(f"{table} {row} 0 L\n" for table in sorted(counts) for row in range(counts[table]))


def main() -> None:
    fault, *words = sys.argv[1:]
    given = sys.stdin.read()
    if words[0] == "record" and fault == "long":
        sys.exit(TOO_LONG)
    if words == ["run"]:
        text = outcome_of(json.loads(given), fault)
    elif words == ["record"]:
        text = "P" + given
    elif words == ["record", "--excluded"]:
        text = "E" + outcome_of(json.loads(given), fault)
    elif words == ["replay"]:
        text = given[1:] if given[0] == "E" else outcome_of(json.loads(given[1:]), fault)
        text += "more\n" if fault == "replay" else ""
    else:
        text = rows_text(json.loads(given[1:]), fault)
    sys.stdout.write(text)


if __name__ == "__main__":
    main()
