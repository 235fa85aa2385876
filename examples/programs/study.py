"""The pulse at rest in one year: by site, and how it changed from the first measure to the last."""
import argparse
import sqlite3

import pandas

words = argparse.ArgumentParser(description=__doc__)
words.add_argument("--year", type=int, required=True)
year = words.parse_args().year
between = {"first": f"{year}-01-01", "last": f"{year}-12-31"}
base = sqlite3.connect("study.db")

measures = pandas.read_sql(
    "SELECT m.person, p.name, m.day, m.pulse FROM measures m JOIN people p ON p.id = m.person "
    "WHERE m.day BETWEEN :first AND :last AND m.pulse IS NOT NULL ORDER BY m.day, m.id",
    base, params=between, parse_dates=["day"])
change = measures.groupby("name")["pulse"].agg(["first", "last", "count"])
change["change"] = change["last"] - change["first"]
print(change.to_string())

sites = pandas.read_sql_query(
    "SELECT p.site, COUNT(*) AS measures, MIN(m.pulse) AS least, MAX(m.pulse) AS most FROM people p "
    "JOIN measures m ON m.person = p.id WHERE m.day BETWEEN :first AND :last GROUP BY p.site ORDER BY p.site",
    base, params=between, index_col="site")
print(sites.to_string())

heavy = base.execute("SELECT name, weight FROM people WHERE weight >= ? ORDER BY weight DESC", (70.5,))
print(", ".join(f"{name} {weight} kg" for name, weight in heavy))
