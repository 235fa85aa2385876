"""A report over orders. usage: orders_report.py REPORT [DATABASE]

The orders are those of the world on standard input, or of a database in a file.
Where that isn't there, it is made of them.
"""
import json
import os
import sqlite3
import sys

SUMS = """SELECT c.name, SUM(o.amount) FROM orders o JOIN customers c ON o.customer = c.id
          WHERE o.amount < 50 GROUP BY c.name"""


def import_orders(base: sqlite3.Connection) -> None:
    base.execute("CREATE TABLE customers (id INTEGER NOT NULL PRIMARY KEY, name TEXT NOT NULL)")
    base.execute("CREATE TABLE orders (id INTEGER NOT NULL PRIMARY KEY, customer INTEGER NOT NULL,"
                 " amount INTEGER NOT NULL)")
    tables = json.load(sys.stdin)["tables"]
    base.executemany("INSERT INTO customers VALUES (?, ?)", tables["customers"]["rows"])
    base.executemany("INSERT INTO orders VALUES (?, ?, ?)", tables["orders"]["rows"])
    base.commit()


def main(report: str, database: str = ":memory:") -> None:
    is_there = os.path.exists(database)
    base = sqlite3.connect(database)
    if not is_there:
        import_orders(base)
    with open(report, "w", encoding="utf-8") as file:
        for name, total in base.execute(SUMS):
            file.write(f"{name} {total}\n")
    base.execute("DELETE FROM orders WHERE amount >= 90")
    print(base.execute("SELECT COUNT(*) FROM orders WHERE amount < 50").fetchone()[0])
    # The next run finds the database as it was.
    base.rollback()


main(*sys.argv[1:])
