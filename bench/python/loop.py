"""A loop of two additions and a comparison. usage: loop.py TURNS"""
import sys


def main(turns: int) -> None:
    n = 0
    total = 0
    while n < turns:
        total = total + n
        n = n + 1
    print(total)


main(int(sys.argv[1]))
