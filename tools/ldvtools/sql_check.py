"""Judges statements by the tables that they are asked of: the codes 1 to 4 of docs/SQL.md,
with their cause."""
from __future__ import annotations

import difflib
import re
from typing import Dict, Iterator, List, Mapping, NamedTuple, NoReturn, Optional, Sequence, Set, Tuple

from .sql import Core, Expr, Insert, NoReading, Parsed, Query, Source, Statement, Update, parse_statement

Columns = Sequence[Tuple[str, str]]
Schemas = Mapping[str, Columns]
INT, TEXT, ANY, TRUTH = "INT", "TEXT", "ANY", "TRUTH"


class Unknown:
    """A parameter whose value isn't known before the run."""


UNKNOWN = Unknown()
Parameter = object


class Finding(NamedTuple):
    """A refusal: its code, its place in the text, and its cause."""

    code: int
    at: int
    cause: str


class Judged(NamedTuple):
    """What is known of a statement: the refusal, the names of its columns,
    and what a reader could misread."""

    finding: Optional[Finding]
    names: List[Optional[str]]
    warnings: List[str]


class Found(Exception):
    """A refusal."""

    def __init__(self, code: int, at: int, cause: str) -> None:
        super().__init__(cause)
        self.finding = Finding(code, at, cause)


def refuse(code: int, at: int, cause: str) -> NoReturn:
    raise Found(code, at, cause)


class Known(NamedTuple):
    """A column in scope: the name of its source, its own name, and INT or TEXT."""

    source: str
    name: str
    kind: str


Scope = List[Known]


def scope_of(sources: Sequence[Source], schemas: Schemas) -> Scope:
    return [Known(source.name, name, kind.split()[0]) for source in sources
            for name, kind in schemas.get(source.table, ())]


def walked(expr: Expr, into_aggregates: bool = True) -> Iterator[Expr]:
    """An expression and all within it, from the left."""
    yield expr
    if expr.form != "aggregate" or into_aggregates:
        for part in expr.parts:
            yield from walked(part, into_aggregates)


def shown(expr: Expr) -> str:
    return f"{expr.source}.{expr.word}" if expr.source else expr.word


# ---- code 2

def closest(name: str, names: Sequence[str]) -> str:
    near = difflib.get_close_matches(name, names, 1)
    return f"; did you mean {near[0]}?" if near else ""


def check_tables(statement: Statement, schemas: Schemas) -> None:
    sources = ([source for core in statement.cores for source in core.sources] if isinstance(statement, Query)
               else [statement.table])
    for source in sources:
        if source.table not in schemas:
            there = ", ".join(sorted(schemas)) or "none"
            refuse(2, source.at, f"there is no table {source.table} (tables: "
                                 f"{there}){closest(source.table, list(schemas))}")
    for core in statement.cores if isinstance(statement, Query) else []:
        names: Dict[str, Source] = {}
        for source in core.sources:
            if source.name in names:
                refuse(2, source.at, f"two sources have the name {source.name}; give one another name: "
                                     f"{source.table} AS other")
            names[source.name] = source


# ---- code 3

def place_of(expr: Expr, scope: Scope) -> int:
    """The place of the column that a name means, which is in scope once."""
    places = [place for place, known in enumerate(scope)
              if known.name == expr.word and expr.source in ("", known.source)]
    if len(places) == 1:
        return places[0]
    if places:
        refuse(3, expr.at, f"{shown(expr)} is a column of "
                           f"{' and of '.join(scope[place].source for place in places)}; "
                           f"write {scope[places[0]].source}.{expr.word}")
    if expr.source and expr.source not in {known.source for known in scope}:
        sources = ", ".join(dict.fromkeys(known.source for known in scope)) or "none"
        refuse(3, expr.at, f"there is no source {expr.source} here (sources: {sources})")
    names = list(dict.fromkeys(known.name for known in scope if expr.source in ("", known.source)))
    refuse(3, expr.at, f"there is no column {shown(expr)} (columns: {', '.join(names) or 'none'})"
                       f"{closest(expr.word, names)}{text_hint(expr)}")


def text_hint(expr: Expr) -> str:
    return "" if expr.source else f"; a text would be '{expr.word}'"


def check_names(exprs: Sequence[Expr], scope: Scope) -> None:
    for expr in exprs:
        for part in walked(expr):
            if part.form == "column":
                place_of(part, scope)


def is_grouping(core: Core) -> bool:
    return bool(core.group or core.having is not None or any(
        part.form == "aggregate" for item in core.items or [] for part in walked(item.expr)))


def check_core_names(core: Core, scope: Scope) -> None:
    items = [item.expr for item in core.items or []]
    check_names([*items, *core.picks, *core.group, *([core.having] if core.having else [])], scope)
    if not is_grouping(core):
        return
    grouped = {place_of(column, scope) for column in core.group}
    if core.items is None and len(grouped) < len(scope):
        refuse(3, core.at, "* has columns that aren't in GROUP BY")
    for expr in [*items, *([core.having] if core.having else [])]:
        for part in walked(expr, into_aggregates=False):
            if part.form == "column" and place_of(part, scope) not in grouped:
                refuse(3, part.at, f"{shown(part)} stands outside aggregates and isn't in GROUP BY")


def titles_of(core: Core, scope: Scope) -> List[Optional[str]]:
    """The names of a core's answer columns."""
    if core.items is None:
        return [known.name for known in scope]
    return [item.name or (item.expr.word if item.expr.form == "column" else None) for item in core.items]


def check_order(query: Query, titles: List[Optional[str]]) -> None:
    for key, _, at in query.order:
        if isinstance(key, int):
            if not 1 <= key <= len(titles):
                refuse(3, at, f"ORDER BY {key}: the answer has {len(titles)} columns")
        elif titles.count(key) != 1:
            names = ", ".join(title for title in titles if title) or "none"
            how = "several answer columns are" if key in titles else "no answer column is"
            refuse(3, at, f"ORDER BY {key}: {how} named {key} (names: {names})")


def check_columns(statement: Statement, schemas: Schemas) -> None:
    if isinstance(statement, Query):
        for core in statement.cores:
            check_core_names(core, scope_of(core.sources, schemas))
        first = statement.cores[0]
        check_order(statement, titles_of(first, scope_of(first.sources, schemas)))
        return
    columns = [name for name, _ in schemas[statement.table.table]]
    scope = scope_of([statement.table], schemas)
    for name, at in targets_of(statement):
        if name not in columns:
            refuse(3, at, f"{statement.table.table} has no column {name} (columns: {', '.join(columns)})"
                          f"{closest(name, columns)}")
    if isinstance(statement, Insert):
        check_names([expr for row in statement.rows for expr in row], [])
    else:
        sets = [expr for _, _, expr in statement.sets] if isinstance(statement, Update) else []
        check_names([*sets, *([statement.pick] if statement.pick else [])], scope)


def targets_of(statement: Statement) -> List[Tuple[str, int]]:
    """The columns that a change names, with their places."""
    if isinstance(statement, Insert):
        return statement.columns or []
    return [(name, at) for name, at, _ in statement.sets] if isinstance(statement, Update) else []


# ---- code 4

class Kinds:
    """The kinds of expressions over a scope. An unknown parameter has the kind of NULL, which fits most."""

    def __init__(self, scope: Scope, parameters: Sequence[Parameter]) -> None:
        self.scope, self.parameters = scope, parameters

    def kind(self, expr: Expr, over_groups: bool) -> str:
        if expr.form == "constant":
            return kind_of_value(expr.value)
        if expr.form == "parameter":
            return kind_of_value(self.parameters[int(expr.word)])
        if expr.form == "column":
            return self.scope[place_of(expr, self.scope)].kind
        if expr.form == "aggregate":
            return self.aggregate(expr, over_groups)
        kinds = [self.kind(part, over_groups) for part in expr.parts]
        if expr.form in ("negate", "arithmetic"):
            for part, kind in zip(expr.parts, kinds):
                if kind not in (INT, ANY):
                    refuse(4, part.at, f"arithmetic with {told(part, kind)}")
            return INT
        if expr.form == "isnull":
            if kinds[0] == TRUTH:
                refuse(4, expr.at, "IS NULL of a condition")
            return TRUTH
        if expr.form == "compare":
            self.check_compared(expr, kinds)
            return TRUTH
        for part, kind in zip(expr.parts, kinds):
            if kind != TRUTH:
                refuse(4, part.at, f"{expr.word or 'not'} takes conditions, and {told(part, kind)} is none")
        return TRUTH

    @staticmethod
    def check_compared(expr: Expr, kinds: List[str]) -> None:
        for part, kind in zip(expr.parts, kinds):
            if kind == TRUTH:
                refuse(4, part.at, f"a condition is no value, and {expr.word} compares values")
        if set(kinds) == {INT, TEXT}:
            left, right = (told(part, kind) for part, kind in zip(expr.parts, kinds))
            refuse(4, expr.at, f"{expr.word} compares {left} with {right}{quotes_hint(expr, kinds)}")

    def aggregate(self, expr: Expr, over_groups: bool) -> str:
        name = expr.word.upper()
        if not over_groups:
            refuse(4, expr.at, f"{name} stands only in items and in HAVING, and not within an aggregate")
        if not expr.parts:
            return INT
        kind = self.kind(expr.parts[0], False)
        if kind == TRUTH or name == "SUM" and kind == TEXT:
            refuse(4, expr.at, f"{name} of {told(expr.parts[0], kind)}")
        return INT if name in ("COUNT", "SUM") else kind

    def condition(self, expr: Expr, what: str, over_groups: bool = False) -> None:
        if self.kind(expr, over_groups) != TRUTH:
            refuse(4, expr.at, f"{what} takes a condition, such as x = 1")

    def value(self, expr: Expr, over_groups: bool) -> str:
        kind = self.kind(expr, over_groups)
        if kind == TRUTH:
            refuse(4, expr.at, "a condition is no value")
        return kind


def kind_of_value(value: object) -> str:
    if isinstance(value, int):
        return INT
    return TEXT if isinstance(value, str) else ANY


def told(expr: Expr, kind: str) -> str:
    """An expression as a message names it."""
    what = {INT: "a number", TEXT: "a text", ANY: "NULL", TRUTH: "a condition"}[kind]
    return f"{shown(expr)} ({what})" if expr.form == "column" else what


def quotes_hint(expr: Expr, kinds: Sequence[str]) -> str:
    """Where a number is compared with a number in quotes, the number."""
    for part, kind in zip(expr.parts, kinds):
        if part.form == "constant" and kind == TEXT and re.fullmatch(r"-?[0-9]{1,18}", str(part.value)):
            return f"; a number has no quotes: {part.value}"
    return ""


def names_column(expr: Expr) -> bool:
    return any(part.form == "column" for part in walked(expr))


def check_counts(core: Core) -> None:
    exprs = [item.expr for item in core.items or []] + ([core.having] if core.having else [])
    for expr in exprs if len(core.sources) > 1 else []:
        for part in walked(expr):
            if part.form != "aggregate":
                continue
            if part.word == "count":
                refuse(4, part.at, "COUNT over several sources; SUM(x * 0 + 1), with a column x of numbers "
                                   "that is never "
                                   "NULL, counts")
            if part.word == "sum" and not names_column(part):
                refuse(4, part.at, "SUM over several sources names a column: SUM(x * 0 + 1)")


def core_kinds(core: Core, schemas: Schemas, parameters: Sequence[Parameter]) -> List[str]:
    scope = scope_of(core.sources, schemas)
    kinds = Kinds(scope, parameters)
    for pick in core.picks:
        kinds.condition(pick, "ON or WHERE")
    if core.having is not None:
        kinds.condition(core.having, "HAVING", True)
    check_counts(core)
    if core.items is None:
        return [known.kind for known in scope]
    return [kinds.value(item.expr, True) for item in core.items]


def check_query_kinds(query: Query, schemas: Schemas, parameters: Sequence[Parameter]) -> None:
    known = core_kinds(query.cores[0], schemas, parameters)
    for core in query.cores[1:]:
        kinds = core_kinds(core, schemas, parameters)
        if len(kinds) != len(known):
            refuse(4, core.at, f"UNION of {len(known)} and of {len(kinds)} columns")
        for place, (one, other) in enumerate(zip(known, kinds)):
            if {one, other} == {INT, TEXT}:
                refuse(4, core.at, f"column {place + 1} of the UNION is {one} before and {other} here")
        known = [other if one == ANY else one for one, other in zip(known, kinds)]
    if isinstance(query.limit, Expr):
        value = parameters[int(query.limit.word)]
        if value is not UNKNOWN and not (isinstance(value, int) and value >= 0):
            refuse(4, query.limit.at, "LIMIT takes a number of at least 0")


def check_taken(columns: Mapping[str, str], name: str, expr: Expr, kind: str) -> None:
    column = columns[name].split()[0]
    if kind == TRUTH or {column, kind} == {INT, TEXT}:
        refuse(4, expr.at, f"{name} is {columns[name]}, and {told(expr, kind)} doesn't fit")


def check_kinds(statement: Statement, schemas: Schemas, parameters: Sequence[Parameter]) -> None:
    if isinstance(statement, Query):
        check_query_kinds(statement, schemas, parameters)
        return
    columns = dict(schemas[statement.table.table])
    targets = targets_of(statement)
    seen: Set[str] = set()
    for name, at in targets:
        if name in seen:
            refuse(4, at, f"{name} is named twice")
        seen.add(name)
    if isinstance(statement, Insert):
        kinds = Kinds([], parameters)
        names = [name for name, _ in targets] if statement.columns is not None else list(columns)
        for row in statement.rows:
            if len(row) != len(names):
                refuse(4, row[0].at, f"{len(row)} values for {len(names)} columns ({', '.join(names)})")
            for name, expr in zip(names, row):
                check_taken(columns, name, expr, kinds.kind(expr, False))
        return
    kinds = Kinds(scope_of([statement.table], schemas), parameters)
    for name, _, expr in statement.sets if isinstance(statement, Update) else []:
        check_taken(columns, name, expr, kinds.kind(expr, False))
    if statement.pick is not None:
        kinds.condition(statement.pick, "WHERE")


# ---- the whole

def parsed(text: str, parameters: Sequence[Parameter]) -> Parsed:
    """The reading of a text with so many parameters, or Found with code 1."""
    try:
        found = parse_statement(text)
    except NoReading as fault:
        raise Found(1, fault.at, str(fault)) from None
    if found.parameters != len(parameters):
        raise Found(1, len(text), f"the text has {found.parameters} ?, and there are {len(parameters)} "
                                  "parameters")
    return found


def judge(text: str, parameters: Sequence[Parameter], schemas: Optional[Schemas]) -> Judged:
    """What the codes 1 to 4 say of a statement. Without schemas only code 1 is judged."""
    names: List[Optional[str]] = []
    warnings: List[str] = []
    try:
        found = parsed(text, parameters)
        warnings = found.warnings
        if schemas is not None:
            check_tables(found.statement, schemas)
            check_columns(found.statement, schemas)
        if isinstance(found.statement, Query):
            first = found.statement.cores[0]
            known = all(source.table in (schemas or {}) for source in first.sources)
            names = titles_of(first, scope_of(first.sources, schemas or {})) if known or first.items else []
        if schemas is not None:
            check_kinds(found.statement, schemas, parameters)
    except Found as fault:
        return Judged(fault.finding, names, warnings)
    return Judged(None, names, warnings)
