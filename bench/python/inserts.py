"""INSERTs from a loop, each of which commits. usage: inserts.py ROWS"""
import sqlite3
import sys


def main(rows: int) -> None:
    base = sqlite3.connect(":memory:", isolation_level=None)
    base.execute("CREATE TABLE t (id INTEGER PRIMARY KEY, note TEXT)")
    for n in range(rows):
        base.execute("INSERT INTO t VALUES (?, ?)", (n, "a row"))
    print(base.execute("SELECT COUNT(*) FROM t").fetchone()[0])


main(int(sys.argv[1]))
