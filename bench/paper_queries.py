"""The application: 1,000 INSERTs, one of eighteen queries ten times, 100 UPDATEs.

The queries have four forms. 1: some columns of the lines of a range of suppliers. 2: a join of three tables
by the names of customers. 3: how many rows that join has. 4: a sum for each order, over a range of
suppliers.

`sqlite3` is asked them with BETWEEN, LIKE and COUNT. `ldv` has none of these in a join: it is asked for a
range, and counts by sums of `x * 0 + 1`. Sources stand in the order in which `ldv` joins them fastest,
since it tries no other: the customers first, or the lines of some suppliers."""
from __future__ import annotations

import sqlite3
from typing import Dict, List, NamedTuple, Sequence

from paper_worlds import key_of_order

INSERTS, ASKS, UPDATES = 1000, 10, 100
SUPPLIERS = (10, 20, 50, 100, 250)
ZEROS = ('0000000', '000000', '00000', '0000')
DIGITS = 9
# New keys stand in the room that the keys of the orders leave, and the first order of each eight is changed.
KEY_STEP = 32
NEW_KEY = 9
FIRST_KEY = key_of_order(0)
# New orders are those of so many customers, by turns.
BUYERS = 99
MARK = '==='

JOINED = ('customer c JOIN orders o ON o.o_custkey = c.c_custkey '
          'JOIN lineitem l ON l.l_orderkey = o.o_orderkey')
LISTED = ('lineitem l, orders o, customer c '
          'WHERE l.l_orderkey = o.o_orderkey AND o.o_custkey = c.c_custkey')
SUMMED = ('SELECT o.o_orderkey, SUM(l.l_quantity) FROM lineitem l '
          'JOIN orders o ON l.l_orderkey = o.o_orderkey')
PICKED = 'SELECT l_quantity, l_partkey, l_extendedprice, l_shipdate, l_receiptdate FROM lineitem'


class Query(NamedTuple):
    """A query, as ldv and as sqlite3 are asked it."""

    form: int
    parameter: str
    asked: str
    beside: str

    def name(self) -> str:
        return f'Q{self.form} {self.parameter}'

    def is_of_names(self) -> bool:
        return self.form in (2, 3)


def range_of_names(zeros: str) -> str:
    """The names of customers whose number begins with so many zeros."""
    last = zeros + '9' * (DIGITS - len(zeros))
    return f"c.c_name >= 'Customer#{zeros}' AND c.c_name <= 'Customer#{last}'"


def of_names(form: int, zeros: str) -> Query:
    items = 'o.o_comment, l.l_comment' if form == 2 else 'SUM(l.l_orderkey * 0 + 1)'
    beside = items if form == 2 else 'COUNT(*)'
    return Query(form, zeros, f'SELECT {items} FROM {JOINED} WHERE {range_of_names(zeros)}',
                 f"SELECT {beside} FROM {LISTED} AND c.c_name LIKE '%{zeros}%'")


def of_suppliers(form: int, last: int) -> Query:
    start, name, end = {1: (PICKED, 'l_suppkey', ''),
                        4: (SUMMED, 'l.l_suppkey', ' GROUP BY o.o_orderkey')}[form]
    return Query(form, str(last), f'{start} WHERE {name} >= 1 AND {name} <= {last}{end}',
                 f'{start} WHERE {name} BETWEEN 1 AND {last}{end}')


QUERIES: Sequence[Query] = (
    *(of_suppliers(1, last) for last in SUPPLIERS), *(of_names(2, zeros) for zeros in ZEROS),
    *(of_names(3, zeros) for zeros in ZEROS), *(of_suppliers(4, last) for last in SUPPLIERS))

# ---- the application as a script

SCRIPT = """# takes new orders
let n = 0
let key = {new}
let customer = 1
insert:
let day = "1998-08-03"
sql q "INSERT INTO orders VALUES (?, ?, 'O', ?, ?, '3-usual', 'Clerk#000000001', 0, 'new')" key customer n day
let n = n + 1
let key = key + {step}
let customer = customer + 1
if customer <= {buyers} goto same
let customer = 1
same:
if n < {inserts} goto insert

# asks
let n = 0
ask:
sql q "{query}"
count rows q
print rows
let n = n + 1
if n < {asks} goto ask

# changes old orders
let n = 0
let key = {first}
update:
sql q "UPDATE orders SET o_totalprice = o_totalprice + 1 WHERE o_orderkey = ?" key
let n = n + 1
let key = key + {step}
if n < {updates} goto update
"""


def script_of(query: Query) -> str:
    return SCRIPT.format(new=NEW_KEY, step=KEY_STEP, buyers=BUYERS, inserts=INSERTS, asks=ASKS,
                         first=FIRST_KEY, updates=UPDATES, query=query.asked)


# ---- the same for sqlite3

def changed_keys() -> List[int]:
    """The keys of the orders that are changed."""
    return [FIRST_KEY + KEY_STEP * n for n in range(UPDATES)]


def statements_before() -> List[str]:
    return [f"INSERT INTO orders VALUES ({NEW_KEY + KEY_STEP * n}, {n % BUYERS + 1}, 'O', {n}, '1998-08-03', "
            "'3-usual', 'Clerk#000000001', 0, 'new')" for n in range(INSERTS)]


def statements_after() -> List[str]:
    return [f'UPDATE orders SET o_totalprice = o_totalprice + 1 WHERE o_orderkey = {key}'
            for key in changed_keys()]


def work_of(query: Query, database: str) -> str:
    """What the program sqlite3 is given: the same over a copy of the file in memory, each statement for
    itself. The mark stands before each answer, and at the end how many rows were changed."""
    asked = [f'.print {MARK}\n{query.beside};'] * ASKS
    lines = ['.bail on', '.mode list', '.separator |', '.nullvalue NULL', f'.restore "{database}"',
             *(f'{each};' for each in statements_before()), *asked,
             *(f'{each};' for each in statements_after()), f'.print {MARK}', 'SELECT total_changes();']
    return '\n'.join(lines) + '\n'


# ---- what is needed

def needed_rows(database: str, query: Query) -> Dict[str, int]:
    """How many rows of each table the application needs, as SQLite counts them: those from which an answer
    comes, and the orders that are changed."""
    base = sqlite3.connect(database)
    where = query.beside.partition(' WHERE ')[2].partition(' GROUP BY ')[0]
    changed = ', '.join(map(str, changed_keys()))
    if query.form == 1:
        base.execute('CREATE TEMP TABLE needed AS SELECT rowid AS line, NULL AS o_orderkey, '
                     f'NULL AS c_custkey FROM lineitem WHERE {where}')
    elif query.form == 4:
        base.execute('CREATE TEMP TABLE needed AS SELECT l.rowid AS line, o.o_orderkey, NULL AS c_custkey '
                     f'FROM lineitem l JOIN orders o ON l.l_orderkey = o.o_orderkey WHERE {where}')
    else:
        base.execute('CREATE TEMP TABLE needed AS SELECT l.rowid AS line, o.o_orderkey, c.c_custkey '
                     f'FROM lineitem l, orders o, customer c WHERE {where}')
    counts = {table: base.execute(text).fetchone()[0] for table, text in (
        ('customer', 'SELECT COUNT(DISTINCT c_custkey) FROM needed'),
        ('orders', 'SELECT COUNT(*) FROM (SELECT o_orderkey FROM needed WHERE o_orderkey IS NOT NULL UNION '
                   f'SELECT o_orderkey FROM orders WHERE o_orderkey IN ({changed}))'),
        ('lineitem', 'SELECT COUNT(DISTINCT line) FROM needed'))}
    base.close()
    return counts
