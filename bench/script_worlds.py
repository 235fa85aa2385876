"""The worlds of the run `scripts`:

    loop        a loop of SIZE turns, of two `let` and an `if`
    inserts     SIZE INSERTs from a loop
    lines       a file of SIZE bytes, read line by line, cut, and written
    processes   SIZE processes that each write a line; each starts two others, as long as there are so many
    report      a report over SIZE orders
"""
from __future__ import annotations

import json
import os
from typing import Any, Dict, List, NamedTuple

LINE = 64

LOOP = """let n = 0
let sum = 0
again:
let sum = sum + n
let n = n + 1
if n < {size} goto again
print sum
"""

INSERTS = """let n = 0
again:
sql q "INSERT INTO t VALUES (?, ?)" n "a row"
let n = n + 1
if n < {size} goto again
sql c "SELECT COUNT(*) FROM t"
fetch c k else end
print k
end:
"""

LINES = """open f r "big" else end
open g w "out" else end
let n = 0
next:
readline line f else end
cut id line ","
write g line "," id
let n = n + 1
goto next
end:
print n
"""

PROCESSES = """let me = int arg1
let a = me * 2
let b = a + 1
if a > {size} goto last
spawn c "main" a else last
if b > {size} goto last
spawn c "main" b else last
last:
open f a "log" else end
write f "process " me
end:
"""

REPORT = """sql q "SELECT c.name, SUM(o.amount) FROM orders o JOIN customers c ON o.customer = c.id \
WHERE o.amount < 50 GROUP BY c.name"
open f w "report.txt" else done
next:
fetch q n s else done
write f n " " s
goto next
done:
sql d "DELETE FROM orders WHERE amount >= 90"
sql c "SELECT COUNT(*) FROM orders WHERE amount < 50"
fetch c k else end
print k
end:
"""


def big(size: int) -> str:
    """A file of lines of 64 bytes."""
    return "".join(f"{n:07},".ljust(LINE - 1, "x") + "\n" for n in range(size // LINE))


def orders(size: int) -> Dict[str, Any]:
    customers = [[n, f"c{n}"] for n in range(10)]
    return {
        "customers": {"columns": [["id", "INT NOT NULL"], ["name", "TEXT NOT NULL"]], "key": ["id"],
                      "rows": customers},
        "orders": {"columns": [[name, "INT NOT NULL"] for name in ("id", "customer", "amount")],
                   "key": ["id"], "rows": [[n, n % 10, 7 * n % 100] for n in range(size)]},
    }


class World(NamedTuple):
    """A world, with the exact number of steps of its run, which is its budget."""

    script: str
    steps: int
    arguments: List[str] = []
    files: Dict[str, str] = {}
    tables: Dict[str, Any] = {}


def made(name: str, size: int) -> World:
    if name == "loop":
        return World(LOOP, 3 * size + 4)
    if name == "inserts":
        columns = [["id", "INT NOT NULL"], ["note", "TEXT"]]
        return World(INSERTS, 3 * size + 5, tables={"t": {"columns": columns, "key": ["id"]}})
    if name == "lines":
        return World(LINES, 5 * (size // LINE) + 6, files={"big": big(size)})
    if name == "processes":
        both = (size - 1) // 2
        one = 1 - size % 2
        return World(PROCESSES, 10 * both + 9 * one + 7 * (size - both - one), ["1"])
    picked = {n % 10 for n in range(size) if 7 * n % 100 < 50}
    return World(REPORT, 8 + 3 * len(picked), tables=orders(size))


def write_world(folder: str, name: str, size: int, seed: int) -> int:
    """Writes `world` into a folder, and `big` where the world has such a file; gives the number of steps."""
    world = made(name, size)
    document = {"start": ["main", *world.arguments], "seed": seed,
                "files": {**world.files, "main": world.script.format(size=size)}, "tables": world.tables}
    with open(os.path.join(folder, "world"), "w", encoding="utf-8") as file:
        json.dump(document, file, separators=(",", ":"))
    if "big" in world.files:
        with open(os.path.join(folder, "big"), "w", encoding="utf-8") as file:
            file.write(world.files["big"])
    return world.steps
