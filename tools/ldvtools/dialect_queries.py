"""Puts queries of SQLite and PostgreSQL into the dialect of docs/SQL.md: the answer of a program's query is
made of the reply to the one here, column by column."""
from __future__ import annotations

from typing import Any, List, NamedTuple, Optional, Sequence, Tuple

from .dialect_rules import Made, Rules, source_name
from .dialects import SQLITE, Core, Expr, Item, Order, Query, Unreadable
from .values import Value
from .world_columns import Column


class Part(NamedTuple):
    """A column of the program's answer: `take` that of a reply at a place; `count` too, with 0 for NULL;
    `avg` the quotient of two. `column` is the column of the database that it is, where it is one."""

    way: str
    place: int
    other: int = 0
    column: Optional[Column] = None


class Plan(NamedTuple):
    """A statement of the dialect with its parameters, and how the program's answer is made of its reply.
    `scales` has the decimals of each column of the reply, `order` the places of the reply by which it is
    ordered, `skip` how many rows an OFFSET passes over. The parts are None for a change."""

    text: str
    params: List[Value]
    parts: Optional[List[Part]] = None
    scales: Sequence[int] = ()
    order: Sequence[int] = ()
    skip: int = 0
    is_loose: bool = False
    has_limit: bool = False


class Answer:
    """What a core answers with: its items in the dialect, and what the program's columns are made of."""

    def __init__(self) -> None:
        self.items: List[Made] = []
        self.parts: List[Part] = []
        self.names: List[str] = []

    def add(self, made: Made) -> int:
        self.items.append(made)
        return len(self.items) - 1

    def place_of(self, made: Made) -> Optional[int]:
        """The place of an item that is the same expression."""
        for place, item in enumerate(self.items):
            if item.text == made.text:
                return place
        return None


class Queries(Rules):
    """The rules for queries."""

    def query(self, query: Query) -> Plan:
        answers: List[Answer] = []
        cores: List[str] = []
        for core in query.cores:
            answer, text = self.core(core, query if len(query.cores) == 1 else None)
            answers.append(answer)
            cores.append(text)
        self.check_union(answers)
        if len(cores) > 1:
            terms = [self.union_order(order, answers[0]) for order in query.order]
        else:
            terms = self.terms
        text = cores[0]
        for union, core_text in zip(query.unions, cores[1:]):
            text += f" {union} {core_text}"
        if terms:
            text += " ORDER BY " + \
                ", ".join(f"{place + 1}{' DESC' if is_down else ''}" for place, is_down in terms)
        limit, skip = self.limit(query)
        text += "" if limit is None else f" LIMIT {limit}"
        if self.is_loose and limit is not None:
            raise Unreadable("LIMIT after an order in which NULL, or texts, stand elsewhere here",
                             "order by columns that are NOT NULL, or write NULLS FIRST")
        finished, values = self.finished(text)
        first = answers[0]
        return Plan(finished, values, first.parts, [item.carried.scale for item in first.items],
                    [] if self.is_loose else [place for place, _ in terms], skip, self.is_loose,
                    limit is not None)

    def check_union(self, answers: Sequence[Answer]) -> None:
        if len(answers) > 1 and any(part.way != "take" for answer in answers for part in answer.parts):
            raise Unreadable("COUNT of a join or AVG in a UNION", "ask for both, and put them together")
        for answer in answers[1:]:
            if [item.carried.scale for item in answer.items] != [
                item.carried.scale for item in answers[0].items]:
                raise Unreadable("a UNION of columns with different decimals", "give both one --scale")

    # ---- a core

    def core(self, core: Core, query: Optional[Query]) -> Tuple[Answer, str]:
        """The answer and the text of a core. Where it is the whole query, its order is settled with it."""
        if not core.sources:
            raise Unreadable("a query without a table", "")
        self.is_loose = self.has_aggregate = False
        self.enter(core.sources)
        answer = Answer()
        for item in core.items:
            self.item(item, core, answer)
        head = "SELECT DISTINCT " if core.is_distinct else "SELECT "
        picks = self.joined(core)
        text = " FROM " + ", ".join(map(self.source_text, core.sources))
        if picks:
            text += " WHERE " + picks
        groups = self.groups(core, answer)
        text += " GROUP BY " + ", ".join(groups) if groups else ""
        if core.having is not None:
            text += " HAVING " + self.having(core)
        self.terms = [self.term(order, core, answer) for order in query.order] if query else []
        if core.is_distinct:
            self.check_distinct(answer)
        return answer, head + ", ".join(item.text for item in answer.items) + text

    def source_text(self, source: Any) -> str:
        name = self.shape(source.table).table.name
        alias = source_name(source.name)
        return name if alias == name else f"{name} AS {alias}"

    def check_distinct(self, answer: Answer) -> None:
        if any(part.way == "avg" for part in answer.parts) or len(answer.items) > len(answer.parts):
            raise Unreadable("DISTINCT with AVG, or ordered by another column", "order by what is asked for")
        for item in answer.items:
            self.compares_by_bytes(item, False)

    def item(self, item: Item, core: Core, answer: Answer) -> None:
        if item.expr.form == "star":
            self.star(item.expr, core, answer)
            return
        answer.names.append((item.name or (item.expr.word if item.expr.form == "column" else "")).lower())
        expr = item.expr
        if expr.form == "aggregate" and expr.word == "avg":
            answer.parts.append(self.average(expr, answer))
            return
        made = self.plain(self.made(expr))
        if made.carried.kind == "TRUTH":
            raise Unreadable("a condition as a value", "ask for its columns and compare in the program")
        way = "count" if expr.form == "aggregate" and expr.word == "count" and len(self.scope) > 1 else "take"
        answer.parts.append(Part(way, answer.add(made), column=made.carried.column))

    def average(self, expr: Expr, answer: Answer) -> Part:
        made = self.number(self.made(expr.parts[0]))
        if made.is_constant:
            raise Unreadable("AVG of a constant", "")
        self.has_aggregate = True
        total = answer.add(Made(f"SUM({made.text})", made.carried))
        return Part("avg", total, answer.add(self.count_of(made)))

    def star(self, expr: Expr, core: Core, answer: Answer) -> None:
        """All columns, each by its name: of all sources, or of one."""
        if core.uses:
            raise Unreadable("* of a JOIN .. USING", "name the columns")
        found = [each for each in self.scope if expr.source.lower() in ("", each[0])]
        if not found:
            raise Unreadable(f"{expr.source} is no table here")
        for name, shape in found:
            for column_name in shape.names:
                made = self.column(Expr("column", column_name, name if len(self.scope) > 1 else ""))
                answer.names.append(column_name.lower())
                answer.parts.append(Part("take", answer.add(made), column=made.carried.column))

    def joined(self, core: Core) -> str:
        """What picks the rows: ON, USING and WHERE, one by one."""
        found: List[Made] = []
        for place, names in core.uses:
            for name in names:
                other = next((before for before, shape in self.scope[:place]
                              if shape.column(name) is not None), "")
                left, right = Expr("column", name, other), Expr("column", name, self.scope[place][0])
                found.append(self.compare(Expr("compare", "=", parts=(left, right))))
        found += [self.truth(pick) for pick in core.picks]
        return " AND ".join([wrapped_and(made) for made in found]) if len(found) > 1 else \
            "".join(made.text for made in found)

    # ---- groups

    def groups(self, core: Core, answer: Answer) -> List[str]:
        """The columns of GROUP BY, with those that a key among them settles."""
        texts: List[str] = []
        columns: List[Column] = []
        for expr in core.group:
            made = self.group_column(expr, core)
            self.compares_by_bytes(made, False)
            if made.text not in texts:
                texts.append(made.text)
                columns += [made.carried.column] if made.carried.column is not None else []
        for expr in [item.expr for item in core.items if item.expr.form == "column"] if texts else []:
            made = self.made(expr)
            if made.text not in texts and not self.is_settled(made, columns):
                raise Unreadable(f"{expr.word} outside of GROUP BY", "put it into GROUP BY, or ask for MIN")
            if made.text not in texts:
                texts.append(made.text)
        if not texts and (self.has_aggregate or core.having is not None) and \
                any(item.expr.form in ("column", "star") for item in core.items):
            raise Unreadable("a column beside an aggregate without GROUP BY",
                             "ask for them one after the other")
        return texts

    def group_column(self, expr: Expr, core: Core) -> Made:
        if expr.form == "constant" and isinstance(expr.value, int) and 1 <= expr.value <= len(core.items):
            expr = core.items[expr.value - 1].expr
        elif expr.form == "column" and not expr.source:
            named = [item for item in core.items if item.name.lower() == expr.word.lower()]
            is_column = any(shape.column(expr.word) is not None for _, shape in self.scope)
            expr = named[0].expr if named and not is_column else expr
        if expr.form != "column":
            raise Unreadable("GROUP BY of an expression", "ask for the rows and group in the program")
        return self.made(expr)

    def is_settled(self, made: Made, columns: Sequence[Column]) -> bool:
        """Whether the columns of a group have the whole key of the table of another column."""
        for _, shape in self.scope:
            if any(each is made.carried.column for each in shape.table.columns):
                names = [column.name for column in shape.table.columns
                         if any(column is each for each in columns)]
                return bool(shape.table.key) and set(shape.table.key) <= set(names)
        return False

    def having(self, core: Core) -> str:
        if core.having is None:
            return ""
        if len(self.scope) > 1 and not core.group and counts(core.having):
            raise Unreadable("HAVING with COUNT in a join without GROUP BY", "compare in the program")
        return self.truth(self.named_items(core.having, core)).text

    def named_items(self, expr: Expr, core: Core) -> Expr:
        """An expression with the items that it names in their place."""
        if expr.form == "column" and not expr.source:
            if not any(shape.column(expr.word) is not None for _, shape in self.scope):
                for item in core.items:
                    if item.name.lower() == expr.word.lower():
                        return item.expr
        return Expr(expr.form, expr.word, expr.source, tuple(self.named_items(part,
                                                                              core) for part in expr.parts),
                    expr.value, expr.is_negative)

    # ---- order and limit

    def term(self, order: Order, core: Core, answer: Answer) -> Tuple[int, bool]:
        """The place of the reply by which it is ordered. What isn't asked for becomes one more column of
        the reply."""
        place = self.place_of(order.expr, answer)
        if place is None:
            made = self.plain(self.made(self.named_items(order.expr, core)))
            if made.carried.kind == "TRUTH":
                raise Unreadable("an order by a condition", "sort in the program")
            found = answer.place_of(made)
            place = answer.add(made) if found is None else found
        self.check_order(order, answer.items[place])
        return place, order.is_down

    def place_of(self, expr: Expr, answer: Answer) -> Optional[int]:
        """The place of the reply that an order names by its number or its name."""
        part: Optional[Part] = None
        if expr.form == "constant" and isinstance(expr.value, int) and 1 <= expr.value <= len(answer.parts):
            part = answer.parts[expr.value - 1]
        elif expr.form == "column" and not expr.source and expr.word.lower() in answer.names:
            part = answer.parts[answer.names.index(expr.word.lower())]
        if part is not None and part.way == "avg":
            raise Unreadable("an order by AVG", "sort in the program")
        return None if part is None else part.place

    def union_order(self, order: Order, answer: Answer) -> Tuple[int, bool]:
        place = self.place_of(order.expr, answer)
        if place is None:
            raise Unreadable("an order of a UNION by an expression", "order by a column of the answer")
        self.check_order(order, answer.items[place])
        return place, order.is_down

    def check_order(self, order: Order, made: Made) -> None:
        """Notes that the database orders otherwise: NULL is first here, and texts stand by their bytes."""
        nulls = order.nulls or ("first" if (self.driver == SQLITE) != order.is_down else "last")
        if made.may_be_null and nulls != ("last" if order.is_down else "first"):
            self.is_loose = True
        try:
            self.compares_by_bytes(made, True)
        except Unreadable:
            self.is_loose = True

    def limit(self, query: Query) -> Tuple[Optional[int], int]:
        """How many rows there are at most, those of OFFSET counted, and how many OFFSET passes over."""
        limit, offset = (None if part is None else self.made(part) for part in (query.limit, query.offset))
        numbers = [None if made is None else made.value for made in (limit, offset)]
        if any(number is not None and type(number) is not int for number in numbers):
            raise Unreadable("LIMIT of another value than a whole number", "")
        skip = max(numbers[1] or 0, 0)
        if numbers[0] is None or numbers[0] < 0:
            return None, skip
        return numbers[0] + skip, skip


def counts(expr: Expr) -> bool:
    """Whether there is a COUNT in an expression."""
    return expr.form == "aggregate" and expr.word == "count" or any(map(counts, expr.parts))


def wrapped_and(made: Made) -> str:
    return made.text if made.level > 2 else f"({made.text})" if made.level == 1 else made.text
