"""The statements of a corpus as the library sqlglot reads them. A list of pairs of a dialect and a text comes
in as JSON, and a list of trees goes out. What it doesn't read is null; some of its messages end with an
IndexError."""
from __future__ import annotations

import json
import sys
from typing import Any, Callable, Optional

import sqlglot
from sqlglot import exp

# A statement or a part of it: what it is, and its parts.
Tree = list[Any]
COMPARED = {exp.EQ: "=", exp.NEQ: "<>", exp.LT: "<", exp.LTE: "<=", exp.GT: ">", exp.GTE: ">="}
ARITHMETIC = {exp.Add: "+", exp.Sub: "-", exp.Mul: "*"}
AGGREGATES = {exp.Count: "count", exp.Sum: "sum", exp.Min: "min", exp.Max: "max", exp.Avg: "avg"}
CHAINS = {exp.And: "and", exp.Or: "or"}


def chain(node: Any) -> Tree:
    """The operands of a chain without parentheses, from the left."""
    left = chain(node.left) if type(node.left) is type(node) else [expr(node.left)]
    return [*left, expr(node.right)]


def column(node: Any) -> Tree:
    if isinstance(node.this, exp.Star):
        return ["star", node.text("table").lower()]
    return ["column", node.text("table").lower(), node.name.lower()]


def literal(node: Any) -> Tree:
    return ["text" if node.is_string else "number", node.name]


def tested(node: Any) -> Tree:
    if not isinstance(node.expression, exp.Null):
        raise ValueError(node)
    return ["isnull", expr(node.this)]


def aggregate(node: Any) -> Tree:
    part = node.this
    return ["aggregate", AGGREGATES[type(node)], None if isinstance(part, exp.Star) else expr(part)]


OTHERS: dict[Any, Callable[[Any], Tree]] = {
    exp.Paren: lambda node: expr(node.this), exp.Column: column, exp.Literal: literal, exp.Is: tested,
    exp.Star: lambda node: ["star", ""],
    exp.Null: lambda node: ["null"], exp.Boolean: lambda node: ["truth", bool(node.this)],
    exp.Placeholder: lambda node: ["parameter"], exp.Parameter: lambda node: ["parameter"],
    exp.Not: lambda node: ["not", expr(node.this)], exp.Neg: lambda node: ["negate", expr(node.this)],
    exp.Cast: lambda node: ["cast", expr(node.this)],
    exp.Between: lambda node: ["between", *map(expr, (node.this, node.args["low"], node.args["high"]))],
    exp.In: lambda node: ["in", expr(node.this), *map(expr, node.expressions)],
    exp.Like: lambda node: ["like", expr(node.this), expr(node.expression)]}


def expr(node: Any) -> Tree:
    kind = type(node)
    if kind in COMPARED:
        return ["compare", COMPARED[kind], expr(node.left), expr(node.right)]
    if kind in ARITHMETIC:
        return ["arithmetic", ARITHMETIC[kind], expr(node.left), expr(node.right)]
    if kind in CHAINS:
        return [CHAINS[kind], *chain(node)]
    if kind in AGGREGATES:
        return aggregate(node)
    return OTHERS[kind](node)


def optional(node: Any) -> Optional[Tree]:
    return None if node is None else expr(node)


def picked(node: Any) -> Optional[Tree]:
    where = node.args.get("where")
    return None if where is None else expr(where.this)


def source(node: Any) -> Tree:
    return [node.name.lower(), (node.alias or node.name).lower()]


def item(node: Any) -> Tree:
    return [expr(node.this), node.alias.lower()] if isinstance(node, exp.Alias) else [expr(node), ""]


def core(node: Any) -> Tree:
    """A SELECT. Its sources stand in the order of their names: the library puts those after a comma before
    those of a JOIN, wherever they are."""
    joins = node.args.get("joins") or []
    if any(join.args.get(word) for join in joins for word in ("side", "natural", "using")):
        raise ValueError(node)
    tables = [*node.args["from"].expressions, *(join.this for join in joins)]
    ons = [expr(join.args["on"]) for join in joins if join.args.get("on") is not None]
    where, group, having = (node.args.get(word) for word in ("where", "group", "having"))
    return ["core", bool(node.args.get("distinct")), list(map(item, node.expressions)),
            sorted(map(source, tables)), ons + ([] if where is None else [expr(where.this)]),
            [] if group is None else list(map(expr, group.expressions)),
            None if having is None else expr(having.this)]


def united(node: Any) -> tuple[list[Any], list[str]]:
    """The cores of a union, with the words between them. Which of several unions comes first is lost: the
    library begins with the last one, and databases with the first."""
    if not isinstance(node, exp.Union):
        return [node], []
    cores, unions = united(node.this)
    more, others = united(node.expression)
    return cores + more, [*unions, "UNION" if node.args.get("distinct") else "UNION ALL", *others]


def query(node: Any) -> Tree:
    """A query: its order and limit stand with a union or with its last core."""
    cores, unions = united(node)
    ends = [node, cores[-1]]
    order, limit, offset = (next((each.args[word] for each in ends if each.args.get(word)), None)
                            for word in ("order", "limit", "offset"))
    terms = [] if order is None else [[expr(each.this), bool(each.args.get("desc"))]
                                      for each in order.expressions]
    return ["query", list(map(core, cores)), unions, terms, optional(limit and limit.expression),
            optional(offset and offset.expression)]


def insert(node: Any) -> Tree:
    table = node.this
    names = [each.name.lower() for each in table.expressions] if isinstance(table, exp.Schema) else None
    rows = [list(map(expr, row.expressions)) for row in node.expression.expressions]
    return ["insert", (table.this if isinstance(table, exp.Schema) else table).name.lower(), names, rows]


def update(node: Any) -> Tree:
    sets = [[each.this.name.lower(), expr(each.expression)] for each in node.expressions]
    return ["update", *source(node.this), sets, picked(node)]


def delete(node: Any) -> Tree:
    return ["delete", *source(node.this), picked(node)]


def tree(dialect: str, text: str) -> Optional[Tree]:
    try:
        node = sqlglot.parse_one(text, read=dialect)
    except (sqlglot.errors.ParseError, IndexError):
        return None
    kinds = {exp.Insert: insert, exp.Update: update, exp.Delete: delete}
    return kinds.get(type(node), query)(node)


if __name__ == "__main__":
    json.dump([tree(*each) for each in json.load(sys.stdin)], sys.stdout)
