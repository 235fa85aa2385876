"""Constants of statements that meet a column which a world carries in another form than it was read in.

A price of 12.50 is carried as 1250, 1.2.2024 as 2024-02-01 and 9:05 as 09:05. Where a statement compares such
a column with 20, 1.2.2024 or 9:05, it runs and answers another question. What is written in another form is a
warning; of a number that meets a column of decimals it is said what it means, since 20 may be meant as 2.0.
"""
from __future__ import annotations

import itertools
from typing import (
    AbstractSet,
    Dict,
    Iterator,
    List,
    Mapping,
    NamedTuple,
    Optional,
    Sequence,
    Set,
    Tuple,
    Union,
)

from .errors import Unfit
from .findings import Finding, operands_known, scripts_of, text_of
from .language import MAX_INT
from .scripts import Instruction, Operand
from .sql import Core, Expr, Insert, NoReading, Query, Source, Statement, Update, parse_statement
from .sql_check import shown
from .values import Scaled, Value, plain_count
from .world_cells import DATE, scaled_number
from .world_cells import shown as shown_cell
from .world_cells import whole_number
from .world_columns import Column, Table
from .world_dates import SAMPLE, said_of_date
from .world_texts import alike, alike_in_case, folded, plain_text

Columns = Mapping[str, Mapping[str, Column]]


class Meeting(NamedTuple):
    """A constant that meets a column: its place in the statement, what is said of it, and whether that is
    only what a number means."""

    at: int
    cause: str
    is_meaning: bool


class Carrier(NamedTuple):
    """What the value of an expression is carried as: like a column, and times 10 ** `scale`."""

    name: str
    column: Column
    scale: int
    is_product: bool = False


class Unwritten:
    """In place of a value that isn't written in a statement."""


UNWRITTEN = Unwritten()
# A comparison with its sides changed.
TURNED = {"<": ">", "<=": ">=", ">": "<", ">=": "<="}
# The word between comparisons of one column with several texts, and of how many of them all are shown.
CHAINED, MOST_SPELLED = {"=": "OR", "<>": "AND"}, 8
Written = Union[Value, Unwritten]
# A column of an answer: what it is carried as, and its expression where it has one.
AnswerColumn = Tuple[Optional[Carrier], Optional[Expr]]


# ---- what is said of a constant

def times(scale: int) -> str:
    return f"carried times {10 ** scale}" if scale else "carried as it is"


def said_of_number(carrier: Carrier, number: int) -> Optional[str]:
    """What a number means beside a column of decimals. 0 is 0 at each scale."""
    if not carrier.column.scale or not number:
        return None
    means = f"{carrier.name} is {times(carrier.scale)}, so {number} means {Scaled(number, carrier.scale)}"
    meant = number * 10 ** carrier.scale
    return means if abs(meant) > MAX_INT else f"{means}; {number} itself is written {meant}"


def said_of_product(carrier: Carrier, factors: Tuple[int, int]) -> Optional[str]:
    """What a product means in which a number is times 10, 100 and so on, and that isn't as the column is."""
    if not carrier.column.scale or 10 ** carrier.scale in factors or not any(map(zeros_of, factors)):
        return None
    number, power = sorted(factors, key=zeros_of)
    return (f"{carrier.name} is {times(carrier.scale)}, so {number} * {power} means "
            f"{Scaled(number * power, carrier.scale)}; {number} itself is written {number} * "
            f"{10 ** carrier.scale}")


def zeros_of(number: int) -> int:
    """How many zeros 10, 100 and so on have, and 0 for another number."""
    zeros = len(str(number)) - 1
    return zeros if number == 10 ** zeros else 0


def said_of_text(carrier: Carrier, text: str, compare: str, spelled: AbstractSet[str]) -> Optional[str]:
    """What to write in place of a text that isn't in the form of its column. `spelled` has the texts with
    which the column is compared in the same chain of OR, or of AND for <>."""
    column, name = carrier.column, carrier.name
    if column.kind == "INT":
        number = number_of_text(column, text)
        return None if number is None else f"{name} is {times(carrier.scale)}: '{text}' is written {number}"
    return (said_of_date(name, column, text, compare) or said_of_separators(name, column, text)
            or said_of_escapes(name, column, text) or said_of_case(name, column, text, compare, spelled)
            or said_of_looks(name, column, text, compare))


def said_of_separators(name: str, column: Column, text: str) -> Optional[str]:
    """That dates of a column have other signs between their parts than one that it is compared with."""
    given = DATE.match(text)
    if given is None or column.date is not None:
        return None
    sample = [cell for cell in itertools.islice(column.cells, SAMPLE) if isinstance(cell, str)]
    found = [match for match in map(DATE.match, sample) if match]
    if 2 * len(found) <= len(sample) or any(match[2] == given[2] for match in found):
        return None
    written = text.replace(given[2], found[0][2]) if len(found[0][1]) == len(given[1]) else ""
    what = f"'{text}' is written '{written}'" if written else f"'{text}' isn't, and compares as a text"
    return f"{name} has texts such as '{found[0][0]}': {what}"


def said_of_case(name: str, column: Column, text: str, compare: str,
                 spelled: AbstractSet[str]) -> Optional[str]:
    """That a database takes other texts for the one with which a column is compared, with all of them written
    out if that is as exact."""
    if column.collation != "NOCASE":
        return None
    others = [cell for cell in column.cells if isinstance(cell, str) and cell != text
              and folded(cell) == folded(text)]
    texts = list(dict.fromkeys([text, *others]))
    if not others or compare in CHAINED and set(texts) <= spelled:
        return None
    word = CHAINED.get(compare, "")
    each = [f"{name} {compare} " + "'" + one.replace("'", "''") + "'" for one in texts]
    way = "write them in one way in a copy of the database first"
    if word:
        way = "write " + (f" {word} ".join(each) if len(each) <= MOST_SPELLED and "".join(texts).isprintable()
                          else f"each, with {word} between them")
    return (f"{name} is COLLATE NOCASE in its database, and compares by its bytes here: "
            f"{plain_count(len(others), 'cell')} such as {shown_cell(others[0])} would be equal to "
            f"'{text}' there; {way}")


def said_of_looks(name: str, column: Column, text: str, compare: str) -> Optional[str]:
    """That a column has texts that look like one that it is compared with, and are other ones."""
    if compare not in ("=", "<>"):
        return None
    look = plain_text(text)
    others = [cell for cell in column.cells if isinstance(cell, str) and cell != text
              and (plain_text(cell) == look)]
    if not others:
        return None
    return (f"{plain_count(len(others), 'cell')} of {name} look like '{text}' and are other texts, such as "
            f"{shown_cell(others[0])}; --plain makes them one")


def said_of_groups(name: str, column: Column, what: str) -> Optional[str]:
    """That a column which makes groups has texts that look alike, and are several groups."""
    if column.kind != "TEXT":
        return None
    found = alike_in_case(column.cells) if column.collation == "NOCASE" else {}
    if found:
        first = next(iter(found.values()))
        return (f"{name} is COLLATE NOCASE in its database, and here {shown_cell(first[0])} and "
                f"{shown_cell(first[1])} are two in {what}; write them in one way in a copy of the database "
                "first")
    found = alike(column.cells)
    if not found:
        return None
    first = next(iter(found.values()))
    more = f", and {len(found) - 1} more such" if len(found) > 1 else ""
    return (f"{ascii(first[0])} and {ascii(first[1])} of {name} look alike and are two in {what}{more}; "
            "--plain makes them one")


CONTROLS = {"\t": "a tab", "\n": "a line feed"}


def said_of_escapes(name: str, column: Column, text: str) -> Optional[str]:
    """That a text has a tab or a line feed, and no text of its column has it: in a script's text \\t and \\n
    are these."""
    found = [sign for sign in CONTROLS if sign in text]
    if not found or any(sign in cell for cell in column.cells if isinstance(cell, str) for sign in found):
        return None
    has = " and ".join(CONTROLS[sign] for sign in found)
    return f"the text has {has}, and no text of {name} has; in a script \\ is written \\\\"


def number_of_text(column: Column, text: str) -> Optional[int]:
    """The number that a cell with this text would be."""
    try:
        if column.scale is not None:
            return scaled_number(text, column.scale, column.form, False)
        return whole_number(text, column.form)
    except Unfit:
        return None


# ---- expressions

def written(expr: Expr, parameters: Sequence[Written]) -> Written:
    """The value of a constant, with its minus, or of a parameter that is known. What is computed, such as
    20 * 10, isn't one."""
    if expr.form == "constant":
        return expr.value
    if expr.form == "parameter":
        return parameters[int(expr.word)] if int(expr.word) < len(parameters) else UNWRITTEN
    if expr.form == "negate":
        value = written(expr.parts[0], parameters)
        return -value if isinstance(value, int) else UNWRITTEN
    return UNWRITTEN


class Scope:
    """The columns of some sources, and what meets them in expressions."""

    def __init__(self, sources: Sequence[Source], columns: Columns, parameters: Sequence[Written]) -> None:
        self.sources = [(source.name, columns.get(source.table, {})) for source in sources]
        self.parameters = parameters
        self.found: List[Meeting] = []
        # The chain of AND or OR that is looked at, with the comparisons of columns with texts in it.
        self.chain = ""
        self.compared: List[Tuple[Column, str, str]] = []

    def column(self, expr: Expr) -> Optional[Column]:
        there = [columns[expr.word] for name, columns in self.sources
                 if expr.source in ("", name) and expr.word in columns]
        return there[0] if len(there) == 1 else None

    def look(self, expr: Expr) -> Optional[Carrier]:
        """Looks for meetings in an expression. Gives what its value is carried as."""
        if expr.form != "logic" or expr.word == self.chain:
            return self.look_within(expr)
        before, self.chain = (self.chain, self.compared), expr.word
        self.compared = list(self.comparisons(expr))
        found = self.look_within(expr)
        self.chain, self.compared = before
        return found

    def comparisons(self, expr: Expr) -> Iterator[Tuple[Column, str, str]]:
        """The columns that are compared with texts in a chain, each with how, and with the text."""
        if expr.form == "logic" and expr.word == self.chain:
            for part in expr.parts:
                yield from self.comparisons(part)
        elif expr.form == "compare":
            for one, other in (expr.parts, expr.parts[::-1]):
                column = self.column(one) if one.form == "column" else None
                value = written(other, self.parameters)
                if column is not None and isinstance(value, str):
                    yield column, expr.word, value

    def spelled(self, column: Column, compare: str) -> Set[str]:
        """The texts with which a column is compared in the chain in which a comparison says so."""
        if self.chain != CHAINED.get(compare, "").lower():
            return set()
        return {text for each, word, text in self.compared if each is column and word == compare}

    def look_within(self, expr: Expr) -> Optional[Carrier]:
        if expr.form == "column":
            column = self.column(expr)
            return Carrier(shown(expr), column, column.scale or 0) if column else None
        carriers = [self.look(part) for part in expr.parts]
        if expr.form == "aggregate":
            return carriers[0] if carriers and expr.word != "count" else None
        if expr.form == "negate":
            return carriers[0]
        if expr.form == "arithmetic" and expr.word == "*":
            return product(*carriers) or self.raised(expr, carriers)
        if expr.form in ("arithmetic", "compare"):
            self.meet_both(expr, carriers)
            return next(filter(None, carriers), None) if expr.form == "arithmetic" else None
        return None

    def meet_both(self, expr: Expr, carriers: Sequence[Optional[Carrier]]) -> None:
        left, right = carriers
        if left and right:
            self.meet_scales(expr.at, left, right)
        word = expr.word if expr.form == "compare" else ""
        for carrier, other, compare in ((left, expr.parts[1], word), (right, expr.parts[0],
                                                                     TURNED.get(word, word))):
            if carrier:
                self.meet(carrier, other, compare)

    def group(self, expr: Expr, what: str) -> None:
        """Of a column whose texts are told apart."""
        column = self.column(expr) if expr.form == "column" else None
        if column is not None:
            self.add(expr.at, said_of_groups(shown(expr), column, what), False)

    def raised(self, expr: Expr, carriers: Sequence[Optional[Carrier]]) -> Optional[Carrier]:
        """What is carried times a number more often: `price * 10`, where 10 is written."""
        for carrier, other in zip(carriers, reversed(expr.parts)):
            value = written(other, self.parameters)
            if carrier is None or not isinstance(value, int):
                continue
            zeros = zeros_of(value)
            if zeros:
                return Carrier(f"{carrier.name} * {value}", carrier.column, carrier.scale + zeros)
        return next(filter(None, carriers), None)

    def meet_scales(self, at: int, left: Carrier, right: Carrier) -> None:
        """Of two columns that are carried times other numbers."""
        if left.scale == right.scale or {left.column.kind, right.column.kind} != {"INT"}:
            return
        less, more = sorted((left, right), key=lambda carrier: carrier.scale)
        by = 10 ** (more.scale - less.scale)
        self.add(at, f"{more.name} is {times(more.scale)}, and {less.name} {times(less.scale)}: write "
                     f"{less.name} * {by}", False)

    def join(self, at: int, one: AnswerColumn, other: AnswerColumn) -> None:
        """Of two columns that a UNION puts into one."""
        (left, first), (right, second) = one, other
        if left and right:
            self.meet_scales(at, left, right)
        elif left and second:
            self.meet(left, second, "")
        elif right and first:
            self.meet(right, first, "")

    def meet(self, carrier: Carrier, other: Expr, compare: str) -> None:
        """What is said where a column meets another expression, by a comparison or by none."""
        value = written(other, self.parameters)
        factors = self.factors(other)
        if factors is not None:
            self.add(other.at, said_of_product(carrier, factors), True)
        if isinstance(value, int):
            self.add(other.at, said_of_number(carrier, value), True)
        elif isinstance(value, str) and compare and value in carrier.column.nulls:
            test = "IS NOT NULL" if compare == "<>" else "IS NULL"
            what = f"'{value}'" if value else "an empty cell"
            self.add(other.at, f"{what} of {carrier.name} is NULL here, and no comparison with NULL is true; "
                               f"write {carrier.name} {test}", False)
        elif isinstance(value, str):
            spelled = self.spelled(carrier.column, compare)
            self.add(other.at, said_of_text(carrier, value, compare, spelled), False)

    def factors(self, expr: Expr) -> Optional[Tuple[int, int]]:
        """The two numbers of a product that is written, such as 20 * 10."""
        if expr.form != "arithmetic" or expr.word != "*":
            return None
        left, right = (written(part, self.parameters) for part in expr.parts)
        return (left, right) if isinstance(left, int) and isinstance(right, int) else None

    def add(self, at: int, cause: Optional[str], is_meaning: bool) -> None:
        if cause is not None and cause not in [each.cause for each in self.found]:
            self.found.append(Meeting(at, cause, is_meaning))


def product(left: Optional[Carrier], right: Optional[Carrier]) -> Optional[Carrier]:
    """What a product of two columns is carried as: times both numbers."""
    if left is None or right is None:
        return None
    more = left if left.scale >= right.scale else right
    name = more.name if not min(left.scale, right.scale) else f"{left.name} * {right.name}"
    return Carrier(name, more.column, left.scale + right.scale, min(left.scale, right.scale) > 0)


# ---- statements

def meetings_of(text: str, parameters: Sequence[Written], columns: Columns) -> List[Meeting]:
    """The meetings of a statement, in the order in which they stand. One without a reading has none."""
    try:
        statement = parse_statement(text).statement
    except NoReading:
        return []
    found: List[Meeting] = []
    for scope in scopes_of(statement, columns, parameters):
        found += [each for each in scope.found if each.cause not in [one.cause for one in found]]
    return sorted(found)


def scopes_of(statement: Statement, columns: Columns, parameters: Sequence[Written]) -> Iterator[Scope]:
    if isinstance(statement, Query):
        first: List[AnswerColumn] = []
        for core in statement.cores:
            scope = Scope(core.sources, columns, parameters)
            found = answer_columns(core, scope)
            for expr in [*core.picks, *([core.having] if core.having else [])]:
                scope.look(expr)
            for expr in core.group:
                scope.group(expr, "GROUP BY")
            for item in core.items or [] if core.is_distinct else []:
                scope.group(item.expr, "DISTINCT")
            for one, other in zip(first, found):
                scope.join(core.at, one, other)
            first = first or found
            yield scope
        return
    scope = Scope([statement.table], columns, parameters)
    for name, expr in taken(statement, columns):
        column = columns.get(statement.table.table, {}).get(name)
        scope.look(expr)
        if column is not None:
            scope.meet(Carrier(name, column, column.scale or 0), expr, "")
    if not isinstance(statement, Insert) and statement.pick is not None:
        scope.look(statement.pick)
    yield scope


def answer_columns(core: Core, scope: Scope) -> List[AnswerColumn]:
    """The columns of an answer. Of a product of two decimals it is said what it is carried as."""
    if core.items is None:
        return [(Carrier(name, column, column.scale or 0), None) for _, columns in scope.sources
                for name, column in columns.items()]
    found: List[AnswerColumn] = []
    for place, item in enumerate(core.items, 1):
        carrier = scope.look(item.expr)
        if carrier is not None and carrier.is_product:
            scope.add(item.expr.at, f"{carrier.name} is {times(carrier.scale)} in the answer; outcome.py "
                                    f"--scale {item.name or place}={carrier.scale} shows it", True)
        found.append((carrier, item.expr))
    return found


def taken(statement: Statement, columns: Columns) -> Iterator[Tuple[str, Expr]]:
    """The columns that a change gives values to, each with such a value."""
    if isinstance(statement, Insert):
        there = list(columns.get(statement.table.table, {}))
        names = there if statement.columns is None else [name for name, _ in statement.columns]
        for row in statement.rows:
            yield from zip(names, row)
    elif isinstance(statement, Update):
        yield from ((name, expr) for name, _, expr in statement.sets)


# ---- scripts

def parameters_of(each: Instruction, known: Mapping[str, Operand]) -> List[Written]:
    given = [known.get(operand.name) if operand.name else operand for operand in each.operands[1:]]
    return [operand.value if operand else UNWRITTEN for operand in given]


def carried_findings(files: Mapping[str, bytes], start: str,
                     tables: Sequence[Table]) -> Iterator[Tuple[Finding, bool]]:
    """What meets carried columns in the statements that are written in scripts, and whether it is only what a
    number means."""
    columns: Dict[str, Dict[str, Column]] = {
        table.name: {column.name: column for column in table.columns} for table in tables}
    for path, script, _ in scripts_of(files, start):
        known = operands_known(script) if script else {}
        for each in script.instructions if script else []:
            text = text_of(each.operands[0], known) if each.word == "sql" else None
            for found in meetings_of(text, parameters_of(each, known), columns) if text else []:
                yield Finding(path, each.line, -1, found.cause, False, text or "", found.at), found.is_meaning
