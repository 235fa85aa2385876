"""What the columns of a reply are, and replies as their source would have them.

A column of an answer is shown as the column of a table that it is. SUM, MIN and MAX of one are shown as it is
too, a COUNT as a number, and a product with the decimals of both factors. What else is computed of a column
that is carried in another form is shown as it is carried, and its head says `(raw)`.
"""
from __future__ import annotations

from typing import Dict, List, Mapping, NamedTuple, Optional, Sequence, Tuple

from .columns import MAX_SCALE, Columns, Known
from .sql import Core, Expr, NoReading, Query, Source, parse_statement
from .values import Reply, Row, Scaled, Value

Kinds = Mapping[str, Sequence[Tuple[str, str]]]
RAW_MARK = " (raw)"


class Answer(NamedTuple):
    """What a column of an answer is: a column that is known, or computed of such ones in a way that has no
    form of its own. A constant fits any."""

    known: Optional[Known] = None
    is_raw: bool = False
    is_constant: bool = False

    def shown(self, value: Value) -> Value:
        return value if self.known is None or isinstance(value, Scaled) else self.known.shown(value)

    def head(self, name: str) -> str:
        """The head of the column, with its unit, or with what says that it is as it is carried."""
        if self.is_raw:
            return name + RAW_MARK
        return f"{name} ({self.known.unit})" if self.known is not None and self.known.unit else name


PLAIN, RAW, CONSTANT = Answer(), Answer(is_raw=True), Answer(is_constant=True)


def kinds_known(columns: Columns) -> Dict[str, List[Tuple[str, str]]]:
    """The columns of the tables that are known, where nothing else says them."""
    return {name: [(column.name, "TEXT" if column.kind in ("text", "date", "time") else "INT")
                   for column in table.columns] for name, table in columns.tables.items()}


class Scope:
    """The columns of the sources of a SELECT."""

    def __init__(self, sources: Sequence[Source], columns: Columns, kinds: Kinds) -> None:
        self.is_whole = all(source.table in kinds for source in sources)
        self.there = [(source.name, name, columns.column(source.table, name))
                      for source in sources for name, _ in kinds.get(source.table, ())]

    def column(self, expr: Expr) -> Answer:
        found = [known for source, name, known in self.there
                 if name == expr.word and expr.source in ("", source)]
        return Answer(found[0]) if len(found) == 1 else PLAIN

    def answer(self, expr: Expr) -> Answer:
        """What an expression is."""
        if expr.form == "column":
            return self.column(expr)
        if expr.form in ("constant", "parameter"):
            return CONSTANT
        if expr.form == "aggregate":
            return PLAIN if expr.word == "count" else self.answer(expr.parts[0])
        if expr.form == "negate" and expr.parts[0].form == "constant":
            return CONSTANT
        if expr.form == "arithmetic" and expr.word == "*":
            return self.product(expr)
        return RAW if any(is_carried(self.answer(part)) for part in expr.parts) else PLAIN

    def product(self, expr: Expr) -> Answer:
        left, right = map(self.answer, expr.parts)
        if any(part.form == "constant" and part.value == 0 for part in expr.parts):
            return PLAIN
        if left.is_raw or right.is_raw:
            return RAW
        if left.is_constant and right.is_constant:
            return CONSTANT
        return multiplied(left.known, right.known)


def is_carried(answer: Answer) -> bool:
    return answer.is_raw or answer.known is not None and answer.known.is_carried


def multiplied(left: Optional[Known], right: Optional[Known]) -> Answer:
    """What a product of two numbers is: one with the decimals of both."""
    factors = [each for each in (left, right) if each is not None and (each.scale or each.unit)]
    if not factors:
        return PLAIN
    scale = sum(each.scale for each in factors)
    if scale > MAX_SCALE:
        return RAW
    units = " ".join(each.unit for each in factors if each.unit)
    more = max(factors, key=lambda each: each.scale)
    return Answer(Known(more.name, "", "decimal" if scale else "integer", scale, more.decimal, units))


def core_answers(core: Core, columns: Columns, kinds: Kinds) -> Optional[List[Answer]]:
    scope = Scope(core.sources, columns, kinds)
    if core.items is None:
        return [Answer(known) for _, _, known in scope.there] if scope.is_whole else None
    return [scope.answer(item.expr) for item in core.items]


def joined(one: Answer, other: Answer) -> Answer:
    """What a column of a UNION is that is one in a part, and the other in the next part."""
    if one.is_constant or other.is_constant:
        return other if one.is_constant else one
    if form(one) == form(other):
        return one
    return RAW if is_carried(one) or is_carried(other) else PLAIN


def form(answer: Answer) -> Tuple[object, ...]:
    """What a column is shown by, the sign before its decimals aside."""
    known = answer.known
    return (answer.is_raw, *((known.scale, known.unit, known.form) if known is not None else (0, "", "")))


def answers_of(text: str, columns: Columns, kinds: Optional[Kinds]) -> List[Answer]:
    """What the columns of the reply to a statement are, as far as that is known."""
    try:
        statement = parse_statement(text).statement
    except NoReading:
        return []
    if not isinstance(statement, Query):
        return []
    found: List[Answer] = []
    for place, core in enumerate(statement.cores):
        answers = core_answers(core, columns, kinds if kinds is not None else kinds_known(columns))
        if answers is None or place and len(answers) != len(found):
            return []
        found = [joined(*pair) for pair in zip(found, answers)] if place else answers
    return found


def shown_reply(reply: Reply, answers: Sequence[Answer]) -> Reply:
    """A reply as its source would have it."""
    if reply.kind != "rows" or not any(answer.known is not None for answer in answers):
        return reply
    return reply._replace(rows=[shown_row(row, answers) for row in reply.rows])


def shown_row(row: Row, answers: Sequence[Answer]) -> Row:
    found = [answer.shown(value) for value, answer in zip(row, answers)]
    return found + row[len(found):]


def heads_of_answers(names: Sequence[str], answers: Sequence[Answer], plain: Sequence[str] = ()) -> List[str]:
    """The heads of a reply. Those whose decimals are given, in `plain`, say no more than their names."""
    found = [name if name in plain else answer.head(name) for name, answer in zip(names, answers)]
    return found + list(names[len(found):])
