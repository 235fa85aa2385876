"""Who has had a book since before a day, and what do they pay?"""
import sqlite3
import sys

base = sqlite3.connect("library.db")
rows = base.execute(
    "SELECT m.name, l.book, l.lent, m.fee FROM loans l JOIN members m ON m.id = l.member "
    "WHERE l.back IS NULL AND l.lent < ? ORDER BY l.lent", (sys.argv[1],))
for name, book, lent, fee in rows:
    print(f"{name} has had {book} since {lent}, and pays {fee}")
print("loans in all:", base.execute("SELECT COUNT(*) FROM loans").fetchone()[0])
