"""Reads a file line by line, cuts each line, and writes another file. usage: lines.py SOURCE TARGET"""
import sys


def main(source: str, target: str) -> None:
    n = 0
    with open(source, encoding="utf-8") as lines, open(target, "w", encoding="utf-8") as out:
        for line in lines:
            first, _, rest = line.rstrip("\n").partition(",")
            out.write(f"{rest},{first}\n")
            n += 1
    print(n)


main(*sys.argv[1:])
