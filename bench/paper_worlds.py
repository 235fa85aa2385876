"""Data in the shape of TPC-H, made from a seed: the tables customer, orders and lineitem.

Columns, keys, numbers of rows and lengths of texts are those of TPC-H; names of customers and clerks are
written as it writes them. Dates are texts, money is in cents, and percents are whole numbers, as `ldv`
carries them. Two thirds of the customers have orders, and an order has one to seven lines. Keys of orders
are the first 8 of each 32 numbers, so that there is room for new ones between them.

There are 1,000 suppliers at each scale, where TPC-H has more of them at a greater one. So a range of
suppliers has the same share of the lines at each scale."""
from __future__ import annotations

import datetime
import json
import os
import random
import shutil
import sqlite3
from typing import Dict, Iterator, List, Mapping, NamedTuple, Sequence, Tuple, Union

Row = List[Union[int, str]]

SEED = 1
# Rows of TPC-H at scale 1.
CUSTOMERS = 150_000
ORDERS_OF_CUSTOMER = 10
PARTS = 200_000
CLERKS = 1_000
SUPPLIERS = 1_000
MOST_LINES = 7
FIRST_DAY = datetime.date(1992, 1, 1)
DAYS = 2406
# The scales that are tried, the greatest first, and what a document may have.
SCALES = (0.07, 0.06, 0.05, 0.04, 0.03, 0.02, 0.01)
# The least at which there are orders to be changed.
LEAST_SCALE = 0.0006
DOCUMENT_LIMIT = 67_108_864

INT, TEXT = 'INT NOT NULL', 'TEXT NOT NULL'
COLUMNS: Mapping[str, Sequence[Tuple[str, str]]] = {
    'customer': (
        ('c_custkey', INT), ('c_name', TEXT), ('c_address', TEXT), ('c_nationkey', INT), ('c_phone', TEXT),
        ('c_acctbal', INT), ('c_mktsegment', TEXT), ('c_comment', TEXT)),
    'orders': (
        ('o_orderkey', INT), ('o_custkey', INT), ('o_orderstatus', TEXT), ('o_totalprice', INT),
        ('o_orderdate', TEXT), ('o_orderpriority', TEXT), ('o_clerk', TEXT), ('o_shippriority', INT),
        ('o_comment', TEXT)),
    'lineitem': (
        ('l_orderkey', INT), ('l_partkey', INT), ('l_suppkey', INT), ('l_linenumber', INT),
        ('l_quantity', INT), ('l_extendedprice', INT), ('l_discount', INT), ('l_tax', INT),
        ('l_returnflag', TEXT), ('l_linestatus', TEXT), ('l_shipdate', TEXT), ('l_commitdate', TEXT),
        ('l_receiptdate', TEXT), ('l_shipinstruct', TEXT), ('l_shipmode', TEXT), ('l_comment', TEXT)),
}
KEYS: Mapping[str, Sequence[str]] = {
    'customer': ('c_custkey',), 'orders': ('o_orderkey',), 'lineitem': ('l_orderkey', 'l_linenumber')}

SEGMENTS = ('bridges', 'gardens', 'kitchens', 'railways', 'workshops')
PRIORITIES = ('1-at once', '2-soon', '3-usual', '4-some day', '5-not said')
INSTRUCTIONS = ('hand to a person', 'leave at the door', 'keep at the depot', 'send back if late')
MODES = ('air', 'barge', 'bike', 'cart', 'rail', 'ship', 'truck')
WORDS = ('about above after again among anew apples around ask bags barley before behind below beside '
         'between boats bold boxes brass bread bricks bright brown busy calm careful cedar cheese '
         'chests clay clear clouds coffee copper corn cotton crates daily deep doors early eager empty '
         'even fair fast felt fields final fine flour fresh glass gold grain grapes green grey heavy '
         'hills honey idle iron jars keen kegs ladders lamps late leather light linen loose maps '
         'marble meadows milk near nails narrow never oak oats often olives onward ovens paper pears '
         'pepper pine plain plums quick quiet rapid ready rice rivers ropes round rusty sacks salt '
         'sand seldom sharp sheds short silk slow slate small soap soft spare steel still stone straw '
         'sugar tall tea thin tiles timber tin tools toward trays under upon usual vans walls warm wax '
         'wheat wheels wide wine wood wool yellow').split()
LETTERS = 'abcdefghijklmnopqrstuvwxyzABCDEFGHIJKLMNOPQRSTUVWXYZ0123456789 '


class Chance:
    """Numbers from a seed, by `random` of Python's generator alone: all of its versions have that alike."""

    def __init__(self, text: str) -> None:
        self.next = random.Random(text).random

    def number(self, least: int, most: int) -> int:
        return least + int(self.next() * (most - least + 1))

    def one(self, names: Sequence[str]) -> str:
        return names[int(self.next() * len(names))]

    def comment(self, least: int, most: int) -> str:
        """Some words, cut to a length."""
        length = self.number(least, most)
        text = self.one(WORDS)
        while len(text) < length:
            text += ' ' + self.one(WORDS)
        return text[:length].rstrip()

    def letters(self, least: int, most: int) -> str:
        return ''.join(self.one(LETTERS) for _ in range(self.number(least, most))).strip() or 'x'


class Data(NamedTuple):
    """The rows of a scale, made from a seed."""

    scale: float
    seed: int = SEED

    def chance(self, table: str) -> Chance:
        return Chance(f'{self.seed} {table}')

    def customer_count(self) -> int:
        return max(3, round(CUSTOMERS * self.scale))

    def order_count(self) -> int:
        return ORDERS_OF_CUSTOMER * self.customer_count()

    def rows(self, table: str) -> Iterator[Row]:
        return {'customer': self.customers, 'orders': self.orders, 'lineitem': self.lines}[table]()

    def customers(self) -> Iterator[Row]:
        chance = self.chance('customer')
        for key in range(1, self.customer_count() + 1):
            nation = chance.number(0, 24)
            phone = '-'.join([str(nation + 10), str(chance.number(100, 999)), str(chance.number(100, 999)),
                              str(chance.number(1000, 9999))])
            yield [key, f'Customer#{key:09}', chance.letters(10, 40), nation, phone,
                   chance.number(-99_999, 999_999), chance.one(SEGMENTS), chance.comment(29, 116)]

    def orders(self) -> Iterator[Row]:
        chance, count = self.chance('orders'), self.customer_count()
        clerks = max(1, round(CLERKS * self.scale))
        for number in range(self.order_count()):
            customer = chance.number(1, count - 1)
            yield [key_of_order(number), customer - (customer % 3 == 0), chance.one('FOP'),
                   chance.number(85_000, 55_000_000), DATES[day_of_order(number)], chance.one(PRIORITIES),
                   f'Clerk#{chance.number(1, clerks):09}', 0, chance.comment(19, 78)]

    def lines(self) -> Iterator[Row]:
        chance, parts = self.chance('lineitem'), max(1, round(PARTS * self.scale))
        for number in range(self.order_count()):
            key, day = key_of_order(number), day_of_order(number)
            for place in range(1, chance.number(1, MOST_LINES) + 1):
                quantity, shipped = chance.number(1, 50), day + chance.number(1, 121)
                yield [key, chance.number(1, parts), chance.number(1, SUPPLIERS), place, quantity,
                       quantity * chance.number(90_000, 210_000), chance.number(0, 10), chance.number(0, 8),
                       chance.one('ANR'), chance.one('FO'), DATES[shipped],
                       DATES[day + chance.number(30, 90)], DATES[shipped + chance.number(1, 30)],
                       chance.one(INSTRUCTIONS), chance.one(MODES), chance.comment(10, 43)]


# The days of orders and of lines, which come up to 151 days later.
DATES = [(FIRST_DAY + datetime.timedelta(days=day)).isoformat() for day in range(DAYS + 160)]


def key_of_order(number: int) -> int:
    """The key of an order, of which the first has the number 0."""
    return number // 8 * 32 + number % 8 + 1


def day_of_order(number: int) -> int:
    return number * 7919 % DAYS


# ---- documents

def write_tables(path: str, data: Data) -> Dict[str, int]:
    """Writes the tables as a world document has them, and says how many rows each has."""
    counts = {}
    with open(path, 'w', encoding='utf-8') as out:
        out.write('{')
        for place, (table, columns) in enumerate(COLUMNS.items()):
            head = json.dumps({'columns': columns, 'key': KEYS[table]}, separators=(',', ':'))
            out.write(f'{"," if place else ""}"{table}":{head[:-1]},"rows":[')
            counts[table] = 0
            for row in data.rows(table):
                out.write(('\n,' if counts[table] else '\n') + json.dumps(row, separators=(',', ':')))
                counts[table] += 1
            out.write('\n]}')
        out.write('}')
    return counts


def write_world(path: str, script: str, tables: str) -> None:
    """Writes a world of a script and the file of its tables."""
    with open(path, 'wb') as out:
        out.write(f'{{"start":["main"],"files":{{"main":{json.dumps(script)}}},"tables":'.encode())
        with open(tables, 'rb') as source:
            shutil.copyfileobj(source, out, 1 << 20)
        out.write(b'}\n')


def write_greatest(path: str, seed: int = SEED, scales: Sequence[float] = SCALES,
                   limit: int = DOCUMENT_LIMIT - 65_536) -> Tuple[float, Dict[str, int]]:
    """Writes the tables of the greatest scale that leaves room for a script, and says which that is."""
    for scale in scales:
        counts = write_tables(path, Data(scale, seed))
        if os.path.getsize(path) <= limit:
            return scale, counts
    raise ValueError(f'no scale has a document of at most {limit} bytes')


# ---- databases

def declaration_of(table: str) -> str:
    columns = ', '.join(f'{name} {kind.replace("INT ", "INTEGER ")}' for name, kind in COLUMNS[table])
    return f'CREATE TABLE {table} ({columns}, PRIMARY KEY ({", ".join(KEYS[table])}))'


def write_database(path: str, data: Data) -> None:
    """Writes the same tables as an SQLite file."""
    if os.path.exists(path):
        os.remove(path)
    base = sqlite3.connect(path)
    for table, columns in COLUMNS.items():
        base.execute(declaration_of(table))
        places = ', '.join('?' * len(columns))
        base.executemany(f'INSERT INTO {table} VALUES ({places})', data.rows(table))
    base.commit()
    base.execute('VACUUM')
    base.close()
