"""The worlds of the runs that record, replay, join and look into packages.

Worlds of one table with SIZE rows, each with an id, a number below 100 and a text:

    pick        one SELECT, by an equality that picks one row of a hundred
    change      three processes that take turns: one inserts 100 rows, one by one, one updates a hundredth of
                the rows and deletes another, one writes counts of groups to a file
    groups      one SELECT with sums over all rows, in 100 groups
    sums        fifty SELECTs in a loop, each with a sum over all rows
    low, high   one SELECT of a half of the rows. Both worlds have both scripts, and no row is of both halves

Worlds whose run has about SIZE events. The last event is that `out` is opened for writing:

    files       each turn reads the file that the turn before made, and makes another
    one         each turn tests the same file
    rows        each turn updates one of 1,000 rows
    loop        after a SELECT of one row each turn tests the same file a thousand times. 9,980,004 events
                take 9,999,963 steps, and a run has at most 10,000,000
"""
from __future__ import annotations

import json
from typing import Any, Dict, Tuple

Files = Dict[str, str]
Tables = Dict[str, Any]

PICK = {"main": 'sql q "SELECT * FROM t WHERE part = 7"\n'}
GROUPS = {"main": 'sql q "SELECT part, COUNT(*), SUM(id) FROM t GROUP BY part"\n'}
SUMS = {"main": """let n = 0
next:
sql q "SELECT SUM(id) FROM t"
let n = n + 1
if n < 50 goto next
"""}

HALVES = {"low": 'sql q "SELECT SUM(id) FROM t WHERE part < 50"\n',
          "high": 'sql q "SELECT SUM(id) FROM t WHERE part >= 50"\n'}

LOAD = """let i = {size}
next:
sql q "INSERT INTO t VALUES (?, 50, ?)" i "new"
let i = i + 1
if i < {last} goto next
"""
FIX = """sql q "UPDATE t SET part = part + 1 WHERE part = 7"
sql q "DELETE FROM t WHERE part = 9"
"""
REPORT = """open f w "report.txt" else end
sql q "SELECT part, COUNT(*) FROM t WHERE part < 3 GROUP BY part HAVING COUNT(*) > 5"
row:
fetch q part count else end
write f part " " count
goto row
end:
"""
CHILDREN = ("load", "fix", "report")

FILES = """let n = 0
let q = "main"
next:
let p = "f" ++ n
open f r q else end
open g w p else end
let q = p
let n = n + 1
if n < {turns} goto next
open f r q else end
open g w "out" else end
end:
"""
ONE = """let n = 0
next:
exists y "main"
let n = n + 1
if n < {turns} goto next
open g w "out" else end
end:
"""
ROWS = """let n = 0
let k = 0
next:
sql q "UPDATE t SET v = v + 1 WHERE k = ?" k
let k = k + 1
if k < 1000 goto same
let k = 0
same:
let n = n + 1
if n < {turns} goto next
open g w "out" else end
end:
"""
LOOP = """let n = 0
sql q "SELECT v FROM t WHERE k = 7"
next:
{tests}let n = n + 1
if n < {turns} goto next
open g w "out" else end
end:
"""
TESTS = 1000
TEST = 'exists y "main"\n'
# The events of a turn, and beside the turns: Started, Ended, and the last; of the loop also its statement.
EVENTS = {"files": (2, 4), "one": (1, 3), "rows": (1, 3), "loop": (TESTS, 4)}
# Those with a table.
WITH_TABLE = ("rows", "loop")


def change(size: int) -> Files:
    files = {"main": "".join(f'spawn {child} "{child}" else end\n' for child in CHILDREN)
                     + "".join(f"wait s {child}\n" for child in CHILDREN) + "end:\n"}
    texts = {"load": LOAD.format(size=size, last=size + 100), "fix": FIX, "report": REPORT}
    return {**files, **texts}


def parts(size: int) -> Dict[str, Any]:
    return {"columns": [["id", "INT NOT NULL"], ["part", "INT"], ["name", "TEXT"]], "key": ["id"],
            "rows": [[n, n % 100, f"name {n}"] for n in range(size)]}


def counters() -> Dict[str, Any]:
    return {"columns": [["k", "INT NOT NULL"], ["v", "INT"]], "key": ["k"],
            "rows": [[n, 0] for n in range(1000)]}


def made(name: str, size: int) -> Tuple[Files, Tables]:
    """The files and the tables of a world."""
    if name in EVENTS:
        each, beside = EVENTS[name]
        script = {"files": FILES, "one": ONE, "rows": ROWS, "loop": LOOP}[name]
        text = script.format(turns=max(1, (size - beside) // each), tests=TEST * TESTS)
        return {"main": text}, {"t": counters()} if name in WITH_TABLE else {}
    if name in HALVES:
        return HALVES, {"t": parts(size)}
    scripts = {"pick": PICK, "groups": GROUPS, "sums": SUMS}
    return scripts.get(name) or change(size), {"t": parts(size)}


def write_world(path: str, name: str, size: int) -> None:
    """Writes the document of a world."""
    files, tables = made(name, size)
    start = name if name in HALVES else "main"
    with open(path, "w", encoding="utf-8") as out:
        json.dump({"start": [start], "files": files, "tables": tables}, out, separators=(",", ":"))
