"""Puts expressions of SQLite and PostgreSQL into the dialect of docs/SQL.md, where that is exact."""
from __future__ import annotations

import itertools
import re
from dataclasses import dataclass
from typing import Any, Callable, Dict, List, Mapping, NamedTuple, Optional, Sequence, Tuple

from .dialect_values import ANY, NUMBER, TEXT, Carried, carried_column, fitted
from .dialects import POSTGRES, SQLITE, Expr, Source, Unreadable
from .values import Value
from .world_columns import Column, Table
from .world_settings import tidy_name

# How strongly an operator binds.
OR, AND, NOT, TEST, SUM, PRODUCT, UNARY, PLAIN = range(1, 9)
TRUTH = Carried("TRUTH")
# A value of a statement stands in its text as its number between these until the text is whole.
MARK = "\x00"
MARKED = re.compile(f"{MARK}([0-9]+){MARK}")
# So many forms of a prefix are asked one by one where LIKE ignores the case of letters.
MOST_FORMS = 16
TEXT_TYPES = ("text", "character", "varchar", "char", "bpchar", "name", "citext")


class Shape(NamedTuple):
    """A table as the program sees it: the table of the world, the names of all its columns in the database,
    the collation by which its texts compare where that isn't by bytes, columns that have another one, and
    the number that a sequence gives next to a column."""

    table: Table
    names: List[str]
    collation: str = ""
    collated: Mapping[str, str] = {}
    following: Mapping[str, int] = {}

    def column(self, name: str) -> Optional[Column]:
        """The column of a name of the database, in either case."""
        for column in self.table.columns:
            if column.old.lower() == name.lower():
                return column
        if name.lower() in [each.lower() for each in self.names]:
            raise Unreadable(f"{self.table.old}.{name} isn't carried", "leave --leave-out out")
        return None


@dataclass
class Made:
    """An expression of the dialect: its text, how it is carried, how strongly it binds, and whether it may
    be NULL. Of a constant, whose text stands beside what it is compared with, there is the value."""

    text: str
    carried: Carried
    level: int = PLAIN
    is_constant: bool = False
    value: Any = None
    is_parameter: bool = False
    may_be_null: bool = True


def wrapped(made: Made, level: int) -> str:
    """The text of an expression as an operand of what binds so strongly."""
    return made.text if made.level >= level else f"({made.text})"


def chain_of(texts: Sequence[str], word: str, most: int = 16) -> str:
    """A chain of operands, in parentheses by halves where it is long, since no expression is deep."""
    if len(texts) <= most:
        return f" {word} ".join(texts)
    middle = len(texts) // 2
    return f"({chain_of(texts[:middle], word, most)}) {word} ({chain_of(texts[middle:], word, most)})"


class Rules:
    """Puts the expressions of one statement into the dialect, with the values of its parameters."""

    def __init__(self, shapes: Mapping[str, Shape], driver: str, params: Any) -> None:
        self.shapes, self.driver, self.params = shapes, driver, params
        self.values: List[Value] = []
        self.scope: List[Tuple[str, Shape]] = []
        self.is_bare = False
        # Whether an item of the core that is being made is an aggregate.
        self.has_aggregate = False
        self.makers: Dict[str, Callable[[Expr], Made]] = {
            "constant": self.constant, "parameter": self.parameter, "column": self.column,
            "not": self.negation,
            "and": self.chain, "or": self.chain, "compare": self.compare, "arithmetic": self.arithmetic,
            "negate": self.negate, "isnull": self.isnull, "between": self.between, "in": self.among,
            "like": self.like, "cast": self.cast, "aggregate": self.aggregate}

    # ---- texts and values

    def marked(self, value: Value) -> str:
        self.values.append(value)
        return f"{MARK}{len(self.values) - 1}{MARK}"

    def finished(self, text: str) -> Tuple[str, List[Value]]:
        """A text with a `?` for each of its values, and these in order."""
        return MARKED.sub("?", text), [self.values[int(each)] for each in MARKED.findall(text)]

    def spelled(self, made: Made, value: Value) -> str:
        """A constant: as the statement has it, or as a parameter."""
        if made.is_parameter or isinstance(value, int) and value == -2**63:
            return self.marked(value)
        if value is None:
            return "NULL"
        if isinstance(value, int):
            return str(value)
        return "'" + value.replace("'", "''") + "'"

    def beside(self, made: Made, carried: Carried) -> Made:
        """An operand beside what is carried so: a constant gets its text by that."""
        if not made.is_constant:
            return made
        value = fitted(made.value, carried, self.driver)
        kind = ANY if value is None else Carried("INT", carried.scale) if isinstance(value, int) else TEXT
        level = UNARY if isinstance(value, int) and value < 0 and not made.is_parameter else PLAIN
        return Made(self.spelled(made, value), kind, level, may_be_null=value is None)

    def plain(self, made: Made) -> Made:
        """An operand for itself."""
        return self.beside(made, ANY)

    # ---- scopes

    def shape(self, name: str) -> Shape:
        found = self.shapes.get(name.lower())
        if found is None:
            raise Unreadable(f"{name} is no table of the database", "")
        return found

    def enter(self, sources: Sequence[Source]) -> None:
        self.scope = [(source.name.lower(), self.shape(source.table)) for source in sources]
        names = [name for name, _ in self.scope]
        if len(set(names)) < len(names):
            raise Unreadable("two tables have one name", "give them other names with AS")

    def source_of(self, expr: Expr) -> Tuple[str, Column]:
        """The source and the column of a name."""
        found = [(name, column) for name, shape in self.scope if expr.source.lower() in ("", name)
                 for column in [shape.column(expr.word)] if column is not None]
        if not found and expr.value == "name":
            raise Unreadable(f'"{expr.word}" is no column, and SQLite takes it for a text', "write it in '")
        if not found:
            raise Unreadable(f"{expr.word} is no column here")
        if len(found) > 1:
            raise Unreadable(f"{expr.word} is a column of two tables", "name the table before it")
        return found[0]

    def column(self, expr: Expr) -> Made:
        source, column = self.source_of(expr)
        carried = carried_column(column, self.driver)
        prefix = "" if self.is_bare or len(self.scope) == 1 else f"{source_name(source)}."
        return Made(prefix + column.name, carried, may_be_null=not column.not_null)

    def compares_by_bytes(self, made: Made, is_order: bool) -> None:
        """Refuses a text that the database compares otherwise."""
        column = made.carried.column
        if column is None or made.carried.kind != "TEXT":
            return
        for _, shape in self.scope:
            if column in shape.table.columns:
                if column.old.lower() in shape.collated:
                    raise Unreadable(f"{column.old} has COLLATE {shape.collated[column.old.lower()]}",
                                     "choose and sort in the program")
                if is_order and shape.collation and column.declared.lower().startswith(TEXT_TYPES):
                    raise Unreadable(f"texts compare by the collation {shape.collation} of the database, "
                                     f"and here "
                                     "by their bytes", "choose and sort in the program")

    # ---- constants

    def made(self, expr: Expr) -> Made:
        return self.makers[expr.form](expr)

    def constant(self, expr: Expr) -> Made:
        value = expr.value
        if self.driver == POSTGRES and self.params and isinstance(value, str):
            # psycopg2 writes parameters by %, and so a % of a text is doubled.
            value = value.replace("%%", "%")
        return Made("", ANY, is_constant=True, value=value)

    def parameter(self, expr: Expr) -> Made:
        return Made("", ANY, is_constant=True, value=self.value_of(expr), is_parameter=True)

    def value_of(self, expr: Expr) -> Any:
        """The value of a parameter."""
        word = expr.word[2:-2] if expr.word.startswith("%(") else expr.word[1:]
        try:
            if expr.word in ("?", "%s"):
                return self.params[expr.value]
            if word.isdigit():
                return self.params[int(word) - 1]
            return self.params[word]
        except (KeyError, IndexError, TypeError):
            raise Unreadable(f"the parameter {expr.word} has no value") from None

    # ---- truths

    def truth(self, expr: Expr) -> Made:
        """An expression as a condition. A number is true where it isn't 0."""
        made = self.made(expr)
        if made.carried.kind == "TRUTH":
            return made
        if made.is_constant and isinstance(made.value, (bool, int)):
            return Made("1 = 1" if made.value else "1 = 0", TRUTH, TEST)
        if made.carried.kind == "INT" and not made.is_constant:
            return Made(f"{wrapped(made, SUM)} <> 0", TRUTH, TEST)
        raise Unreadable("a text as a condition", "write a comparison")

    def negation(self, expr: Expr) -> Made:
        return self.negated(self.truth(expr.parts[0]))

    def negated(self, made: Made) -> Made:
        return Made(f"NOT {wrapped(made, NOT)}", TRUTH, NOT)

    def chain(self, expr: Expr) -> Made:
        level = OR if expr.form == "or" else AND
        texts = [wrapped(self.truth(part), level + 1) for part in expr.parts]
        return Made(chain_of(texts, expr.form.upper()), TRUTH, level)

    def pair(self, left: Made, right: Made) -> Tuple[Made, Made]:
        """Two operands of a comparison, each as it stands beside the other."""
        if left.is_constant:
            right = self.plain(right)
            left = self.beside(left, right.carried)
        else:
            right = self.beside(right, left.carried)
        kinds = {left.carried.kind, right.carried.kind} - {"ANY"}
        if "TRUTH" in kinds or len(kinds) > 1:
            raise Unreadable("a comparison of a number with a text, or of a condition", "")
        if kinds == {"INT"} and left.carried.scale != right.carried.scale:
            raise Unreadable("a comparison of columns with different decimals", "give both one --scale")
        return left, right

    def compared(self, left: Made, word: str, right: Made) -> str:
        left, right = self.pair(left, right)
        for made in (left, right):
            self.compares_by_bytes(made, word not in ("=", "<>"))
        return f"{wrapped(left, SUM)} {word} {wrapped(right, SUM)}"

    def compare(self, expr: Expr) -> Made:
        left, right = map(self.made, expr.parts)
        return Made(self.compared(left, expr.word, right), TRUTH, TEST)

    def between(self, expr: Expr) -> Made:
        value, low, high = map(self.made, expr.parts)
        text = f"{self.compared(value, '>=', low)} AND {self.compared(value, '<=', high)}"
        found = Made(text, TRUTH, AND)
        return self.negated(found) if expr.is_negative else found

    def among(self, expr: Expr) -> Made:
        value = self.made(expr.parts[0])
        tests = []
        for other in self.choices(expr.parts[1:]):
            if not other.is_constant:
                raise Unreadable("IN with other values than constants", "write OR")
            tests.append(self.compared(value, "=", other))
        found = Made(chain_of(tests, "OR"), TRUTH, OR if len(tests) > 1 else TEST)
        return self.negated(found) if expr.is_negative else found

    def choices(self, parts: Sequence[Expr]) -> List[Made]:
        """The values of IN: a parameter that is a list stands for all of them."""
        found = [self.made(part) for part in parts]
        if len(found) == 1 and isinstance(found[0].value, tuple) and found[0].value[0] == "list":
            return [Made("", ANY, is_constant=True, value=each, is_parameter=True)
                    for each in found[0].value[1]]
        return found

    def isnull(self, expr: Expr) -> Made:
        made = self.plain(self.made(expr.parts[0]))
        if made.carried.kind == "TRUTH":
            raise Unreadable("IS NULL of a condition", "")
        return Made(f"{wrapped(made, SUM)} IS {'NOT ' if expr.is_negative else ''}NULL", TRUTH, TEST)

    def like(self, expr: Expr) -> Made:
        value, pattern = map(self.made, expr.parts)
        if not pattern.is_constant or not isinstance(pattern.value, str) or value.carried.kind != "TEXT":
            raise Unreadable("LIKE beside another text than a constant, or of a number",
                             "choose in the program")
        self.compares_by_bytes(value, False)
        prefix, is_prefix = pattern.value, pattern.value.endswith("%")
        prefix = prefix[:-1] if is_prefix else prefix
        if not prefix or set("%_\\") & set(prefix) or not prefix.isascii() or prefix[-1] == "\x7f":
            raise Unreadable(f"LIKE {pattern.value!r}: it isn't the beginning of a text in ASCII",
                             "ask for more rows and choose in the program")
        tests = [self.prefix_test(wrapped(value, SUM), each, is_prefix) for each in self.forms_of(prefix)]
        found = Made(chain_of(tests, "OR"), TRUTH, OR if len(tests) > 1 else AND if is_prefix else TEST)
        return self.negated(found) if expr.is_negative else found

    def forms_of(self, prefix: str) -> List[str]:
        """The texts that LIKE takes for one: SQLite ignores the case of ASCII letters there."""
        if self.driver != SQLITE:
            return [prefix]
        choices = [sorted({char.lower(), char.upper()}) for char in prefix]
        if 2 ** sum(len(each) > 1 for each in choices) > MOST_FORMS:
            raise Unreadable(f"LIKE {prefix!r}: it ignores the case of {len(prefix)} letters",
                             "ask by its first letters and choose in the program")
        return ["".join(each) for each in itertools.product(*choices)]

    def prefix_test(self, column: str, prefix: str, is_prefix: bool) -> str:
        text = "'" + prefix.replace("'", "''") + "'"
        if not is_prefix:
            return f"{column} = {text}"
        following = prefix[:-1] + chr(ord(prefix[-1]) + 1)
        return f"{column} >= {text} AND {column} < '" + following.replace("'", "''") + "'"

    # ---- numbers

    def number(self, made: Made) -> Made:
        """An operand of arithmetic."""
        if made.carried.is_float or made.is_constant and isinstance(made.value, float):
            raise Unreadable("arithmetic of floats", "ask for the columns and reckon in the program")
        if made.carried.kind not in ("INT", "ANY"):
            raise Unreadable("arithmetic of texts or conditions", "")
        return made

    def arithmetic(self, expr: Expr) -> Made:
        left, right = (self.number(self.made(part)) for part in expr.parts)
        level = PRODUCT if expr.word == "*" else SUM
        if expr.word == "*":
            left, right = self.beside(left, NUMBER), self.beside(right, NUMBER)
            scale = left.carried.scale + right.carried.scale
        else:
            left, right = self.pair(left, right)
            scale = max(left.carried.scale, right.carried.scale)
        text = f"{wrapped(left, level)} {expr.word} {wrapped(right, level + 1)}"
        return Made(text, Carried("INT", scale), level)

    def negate(self, expr: Expr) -> Made:
        made = self.number(self.made(expr.parts[0]))
        if made.is_constant and not made.is_parameter:
            return Made("", ANY, is_constant=True, value=negative(made.value))
        made = self.beside(made, NUMBER)
        return Made(f"-{wrapped(made, UNARY)}" if not made.text.startswith("-") else f"- ({made.text})",
                    Carried("INT", made.carried.scale), UNARY)

    def cast(self, expr: Expr) -> Made:
        """CAST where it changes nothing."""
        made = self.made(expr.parts[0])
        kind = expr.word.split("(")[0]
        is_text = made.carried.kind == "TEXT" or made.is_constant and isinstance(made.value, str)
        is_whole = made.carried.kind == "INT" and not made.carried.scale or made.is_constant and type(
            made.value) is int
        if is_text and kind in ("text", "varchar", "character varying", "date", "timestamp") or \
                is_whole and kind in ("integer", "int", "bigint", "int8", "int4") or \
                made.is_constant and made.value is None:
            column = made.carried.column
            if column is None or kind in ("text", "varchar", "character varying", "integer", "int", "bigint",
                                          "int8", "int4") or column.declared.lower().startswith(kind):
                return made
        raise Unreadable(f"CAST AS {expr.word.upper()} changes the value", "change it in the program")

    # ---- aggregates

    def aggregate(self, expr: Expr) -> Made:
        word = expr.word.upper()
        self.has_aggregate = True
        if not expr.parts:
            return self.count_of(None)
        made = self.made(expr.parts[0])
        if made.is_constant:
            made = self.plain(made)
        if word == "COUNT":
            return self.count_of(made)
        if word == "AVG":
            raise Unreadable("AVG beside another value", "ask for SUM and COUNT, and divide in the program")
        if word == "SUM":
            self.number(made)
            return Made(f"SUM({made.text})", Carried("INT", made.carried.scale))
        self.compares_by_bytes(made, True)
        return Made(f"{word}({made.text})", made.carried)

    def count_of(self, made: Optional[Made]) -> Made:
        """COUNT; in a join the sum of a 1 for each row, since there is none there."""
        if len(self.scope) == 1:
            return Made(f"COUNT({'*' if made is None else made.text})", NUMBER, may_be_null=False)
        if made is None:
            made = self.never_null()
        if made.carried.kind != "INT":
            raise Unreadable("COUNT of a text in a join", "count the rows in the program, or COUNT(*)")
        return Made(f"SUM({wrapped(made, PRODUCT)} * 0 + 1)", NUMBER, may_be_null=False)

    def never_null(self) -> Made:
        """A column of numbers that is never NULL."""
        for name, shape in self.scope:
            for column in shape.table.columns:
                if column.kind == "INT" and column.not_null:
                    return Made(f"{source_name(name)}.{column.name}", NUMBER)
        raise Unreadable("COUNT in a join of tables without a number column that is never NULL",
                         "count the rows in the program")


def source_name(name: str) -> str:
    """A name of a source, as the dialect has it."""
    return tidy_name(name)


def negative(value: Any) -> Any:
    if isinstance(value, tuple):
        return ("decimal", "-" + value[1])
    return -value if isinstance(value, (int, float)) else None
