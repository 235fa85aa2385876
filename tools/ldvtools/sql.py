"""Reads statements of the dialect of docs/SQL.md, and says of a text without a reading
what to write instead."""
from __future__ import annotations

import re
from dataclasses import dataclass, field, replace
from typing import Callable, Dict, List, NamedTuple, NoReturn, Optional, Tuple, Union

from .language import MAX_DEPTH, MAX_INT, MAX_NAME, MAX_SOURCES, MAX_TEXT, RESERVED
from .sql_hints import JOIN_WORDS, OTHER_JOINS, hint_at
from .values import Value


class NoReading(Exception):
    """A text isn't a statement: where, what stands there, and what to write instead."""

    def __init__(self, at: int, found: str, expected: str, hint: str) -> None:
        super().__init__(f"{found} can't be read, where {expected} is due" + (f"; {hint}" if hint else ""))
        self.at, self.hint = at, hint


class Token(NamedTuple):
    """A token: a "word" in lower case, a "number", a "text", a "sign", the "end",
    or "bad" with what is wrong."""

    kind: str
    text: str
    at: int
    end: int


@dataclass(frozen=True)
class Expr:
    """An expression: its form, where it begins, and its depth.

    Forms are constant, parameter, column, negate, not, arithmetic, compare, logic, isnull and aggregate.
    `word` is the operator, the aggregate or the column's name, and `source` the name before a column's dot.
    """

    form: str
    at: int
    depth: int
    parts: Tuple["Expr", ...] = ()
    word: str = ""
    source: str = ""
    value: Value = None


@dataclass(frozen=True)
class Source:
    table: str
    name: str
    at: int


@dataclass(frozen=True)
class Item:
    expr: Expr
    name: Optional[str]


@dataclass
class Core:
    """A SELECT without its ORDER BY and LIMIT. `items` is None for `*`; `picks` are ON and WHERE."""

    at: int
    is_distinct: bool
    items: Optional[List[Item]]
    sources: List[Source] = field(default_factory=list)
    picks: List[Expr] = field(default_factory=list)
    group: List[Expr] = field(default_factory=list)
    having: Optional[Expr] = None


@dataclass
class Query:
    cores: List[Core]
    unions: List[str] = field(default_factory=list)
    order: List[Tuple[Union[int, str], bool, int]] = field(default_factory=list)
    limit: Union[None, int, Expr] = None


@dataclass
class Insert:
    table: Source
    columns: Optional[List[Tuple[str, int]]]
    rows: List[List[Expr]]


@dataclass
class Update:
    table: Source
    sets: List[Tuple[str, int, Expr]]
    pick: Optional[Expr]


@dataclass
class Delete:
    table: Source
    pick: Optional[Expr]


Statement = Union[Query, Insert, Update, Delete]
PartReader = Callable[[], Expr]


class Parsed(NamedTuple):
    """A statement, the number of its parameters, what a reader could take for something else,
    and the places of comparisons that are never true, with what to write instead."""

    statement: Statement
    parameters: int
    warnings: List[str]
    nevers: List[Tuple[int, str]]


# ---- tokens

SIGNS = re.compile(r"<>|!=|<=|>=|[?*+\-=<>(),.;]")
WORD = re.compile(r"[A-Za-z_][A-Za-z0-9_]*")
DIGITS = re.compile(r"[0-9]+")
TEXT = re.compile(r"'(?:[^']|'')*'")
BLANKS = re.compile(r"[ \t\r\n]*")


def fold(word: str) -> str:
    return "".join(chr(ord(c) + 32) if "A" <= c <= "Z" else c for c in word)


def token_at(text: str, at: int) -> Token:
    """The token that begins at a place that isn't blank."""
    if found := WORD.match(text, at):
        kind = "word" if found.end() - at <= MAX_NAME else "bad"
        shown = fold(found.group()) if kind == "word" else f"a word of more than {MAX_NAME} bytes"
        return Token(kind, shown, at, found.end())
    if found := DIGITS.match(text, at):
        digits = found.group().lstrip("0")
        if WORD.match(text, found.end()):
            return Token("bad", f"a word that follows the number {found.group()[:20]} without a blank", at,
                         found.end())
        if len(digits) > 19 or int(digits or "0") > MAX_INT:
            return Token("bad", f"the number {found.group()[:30]}, which is outside 64 bits,", at,
                         found.end())
        return Token("number", digits or "0", at, found.end())
    if text[at] == "'":
        found = TEXT.match(text, at)
        if found is None:
            return Token("bad", "a text that begins with ' and doesn't end", at, len(text))
        content = found.group()[1:-1].replace("''", "'")
        if len(content.encode()) > MAX_TEXT:
            return Token("bad", f"a text of more than {MAX_TEXT} bytes", at, found.end())
        return Token("text", content, at, found.end())
    if found := SIGNS.match(text, at):
        return Token("sign", found.group(), at, found.end())
    end = at + bad_length(text, at)
    return Token("bad", repr(text[at:end]), at, end)


def bad_length(text: str, at: int) -> int:
    """How many characters belong together where no token begins."""
    return 2 if text.startswith(("/*", "||"), at) else 1


def tokens_of(text: str) -> List[Token]:
    """The tokens up to the first bad one, or to the end."""
    found: List[Token] = []
    place = 0
    while True:
        blank = BLANKS.match(text, place)
        place = blank.end() if blank else place
        if place == len(text):
            return found + [Token("end", "the end", place, place)]
        found.append(token_at(text, place))
        if found[-1].kind == "bad":
            return found
        place = found[-1].end


# ---- the parser

COMPARES = ("=", "<>", "!=", "<", "<=", ">", ">=")
AGGREGATES = ("count", "sum", "min", "max")


class Parser:
    """The tokens of a text, and how far they were read. It goes from left to right and never back."""

    def __init__(self, text: str) -> None:
        self.text, self.tokens, self.place = text, tokens_of(text), 0
        self.nesting = 0
        self.parameters = 0
        self.warnings: List[str] = []
        self.nevers: List[Tuple[int, str]] = [
            (token.at, "-- is two minuses here, and begins no comment: write - - where these are meant")
            for token, after in zip(self.tokens, self.tokens[1:])
            if token.text == after.text == "-" and {token.kind, after.kind} == {"sign"}
            and token.end == after.at]

    def next(self) -> Token:
        return self.tokens[self.place]

    def take(self) -> Token:
        token = self.tokens[self.place]
        self.place += 1
        return token

    def fail(self, expected: str) -> NoReturn:
        token = self.next()
        shown = token.text if token.kind in ("bad", "end") else repr(self.text[token.at:token.end])
        raise NoReading(token.at, shown[:80], expected, hint_at(self.tokens, self.place))

    def is_word(self, *words: str) -> bool:
        return self.next().kind == "word" and self.next().text in words

    def is_sign(self, *signs: str) -> bool:
        return self.next().kind == "sign" and self.next().text in signs

    def word(self, word: str) -> Token:
        if not self.is_word(word):
            self.fail(word.upper())
        return self.take()

    def sign(self, sign: str) -> Token:
        if not self.is_sign(sign):
            self.fail(repr(sign))
        return self.take()

    def skip_word(self, word: str) -> bool:
        if self.is_word(word):
            self.take()
            return True
        return False

    def skip_sign(self, sign: str) -> bool:
        if self.is_sign(sign):
            self.take()
            return True
        return False

    def is_name(self) -> bool:
        return self.next().kind == "word" and self.next().text not in RESERVED

    def name(self, what: str) -> Token:
        if not self.is_name():
            self.fail(what)
        return self.take()

    # ---- expressions

    def expr(self) -> Expr:
        return self.chain(self.all_of, "logic", "or")

    def all_of(self) -> Expr:
        return self.chain(self.negated, "logic", "and")

    def chain(self, part: PartReader, form: str, word: str) -> Expr:
        left = part()
        while self.is_word(word):
            self.take()
            left = self.both(form, word, left, part())
        return left

    def both(self, form: str, word: str, left: Expr, right: Expr) -> Expr:
        return self.made(Expr(form, left.at, 1 + max(left.depth, right.depth), (left, right), word))

    def made(self, expr: Expr) -> Expr:
        if expr.depth > MAX_DEPTH:
            self.fail(f"an expression of a depth of at most {MAX_DEPTH}")
        return expr

    def inner(self, read: PartReader) -> Expr:
        """An expression one level down. So deep a text has no reading, and no stack is used up by it."""
        self.nesting += 1
        if self.nesting > MAX_DEPTH:
            self.fail(f"an expression of a depth of at most {MAX_DEPTH}")
        found = read()
        self.nesting -= 1
        return found

    def negated(self) -> Expr:
        if not self.is_word("not"):
            return self.test()
        at = self.take().at
        part = self.inner(self.negated)
        return self.made(Expr("not", at, 1 + part.depth, (part,)))

    def test(self) -> Expr:
        left = self.sum()
        if self.is_sign(*COMPARES):
            word = self.take().text
            right = self.sum()
            self.note_null(word, left, right)
            return self.both("compare", "<>" if word == "!=" else word, left, right)
        if not self.is_word("is"):
            return left
        self.take()
        is_negative = self.skip_word("not")
        self.word("null")
        return self.made(Expr("isnull", left.at, 1 + left.depth, (left,),
                              "is not null" if is_negative else "is null"))

    def note_null(self, word: str, left: Expr, right: Expr) -> None:
        """Notes a comparison with NULL, which many take for IS NULL."""
        nulls = [part.form == "constant" and part.value is None for part in (left, right)]
        if any(nulls):
            other = right if nulls[0] else left
            source = f"{other.source}." if other.source else ""
            name = source + other.word if other.form == "column" else "x"
            test = "IS NOT NULL" if word in ("<>", "!=") else "IS NULL"
            self.nevers.append((left.at, f"{name} {word} NULL is never true, and NOT of it neither; "
                                         f"write {name} {test}"))

    def sum(self) -> Expr:
        left = self.product()
        while self.is_sign("+", "-"):
            left = self.both("arithmetic", self.take().text, left, self.product())
        return left

    def product(self) -> Expr:
        left = self.unary()
        while self.is_sign("*"):
            left = self.both("arithmetic", self.take().text, left, self.unary())
        return left

    def unary(self) -> Expr:
        if not self.is_sign("-"):
            return self.primary()
        at = self.take().at
        part = self.inner(self.unary)
        return self.made(Expr("negate", at, 1 + part.depth, (part,)))

    def primary(self) -> Expr:
        token = self.next()
        if token.kind == "number":
            self.take()
            return Expr("constant", token.at, 1, value=int(token.text))
        if token.kind == "text":
            self.take()
            return Expr("constant", token.at, 1, value=token.text)
        if self.skip_word("null"):
            return Expr("constant", token.at, 1)
        if self.skip_sign("?"):
            self.parameters += 1
            return Expr("parameter", token.at, 1, word=str(self.parameters - 1))
        if self.is_word(*AGGREGATES):
            return self.aggregate()
        if self.skip_sign("("):
            part = self.inner(self.expr)
            self.sign(")")
            return self.made(replace(part, depth=part.depth + 1))
        return self.column("a value")

    def aggregate(self) -> Expr:
        token = self.take()
        self.sign("(")
        if token.text == "count" and self.skip_sign("*"):
            self.sign(")")
            return Expr("aggregate", token.at, 1, word="count")
        part = self.inner(self.expr)
        self.sign(")")
        return self.made(Expr("aggregate", token.at, 1 + part.depth, (part,), token.text))

    def column(self, what: str = "the name of a column") -> Expr:
        first = self.name(what)
        if not self.skip_sign("."):
            return Expr("column", first.at, 1, word=first.text)
        return Expr("column", first.at, 1, word=self.name("the name of a column").text, source=first.text)

    # ---- queries

    def query(self) -> Query:
        query = Query([self.core()])
        while self.skip_word("union"):
            query.unions.append("union all" if self.skip_word("all") else "union")
            query.cores.append(self.core())
        if self.skip_word("order"):
            self.word("by")
            query.order.append(self.order())
            while self.skip_sign(","):
                query.order.append(self.order())
        if self.skip_word("limit"):
            query.limit = self.limit()
        return query

    def limit(self) -> Union[int, Expr]:
        token = self.next()
        if self.skip_sign("?"):
            self.parameters += 1
            return Expr("parameter", token.at, 1, word=str(self.parameters - 1))
        if token.kind != "number":
            self.fail("a number or ?")
        return int(self.take().text)

    def order(self) -> Tuple[Union[int, str], bool, int]:
        token = self.next()
        if token.kind == "number":
            key: Union[int, str] = int(self.take().text)
        else:
            key = self.name("the name or the place of an answer column").text
        is_down = self.skip_word("desc")
        if not is_down:
            self.skip_word("asc")
        return key, is_down, token.at

    def core(self) -> Core:
        at = self.word("select").at
        core = Core(at, self.skip_word("distinct"), None)
        if not self.skip_sign("*"):
            core.items = [self.item()]
            while self.skip_sign(","):
                core.items.append(self.item())
        self.word("from")
        self.sources(core)
        if self.skip_word("where"):
            core.picks.append(self.expr())
        if self.skip_word("group"):
            self.word("by")
            core.group.append(self.column())
            while self.skip_sign(","):
                core.group.append(self.column())
        if self.skip_word("having"):
            core.having = self.expr()
        return core

    def sources(self, core: Core) -> None:
        self.source(core)
        while True:
            if self.skip_sign(","):
                self.source(core)
            elif self.is_word("join", "inner"):
                if self.skip_word("inner") and not self.is_word("join"):
                    self.fail("JOIN")
                self.take()
                self.source(core)
                self.word("on")
                core.picks.append(self.expr())
            else:
                return

    def source(self, core: Core) -> None:
        if len(core.sources) == MAX_SOURCES:
            self.fail(f"the end of FROM, which has at most {MAX_SOURCES} sources,")
        table = self.name("the name of a table")
        name = table
        if self.skip_word("as"):
            name = self.name("another name of the table")
        elif self.is_name():
            name = self.take()
            if self.is_word("join"):
                self.note_join(table, name)
        core.sources.append(Source(table.text, name.text, table.at))

    def note_join(self, table: Token, name: Token) -> None:
        """Notes a word before JOIN that is another name of a table here, and a kind of join elsewhere. One by
        which no column is named may be such a word too."""
        word, how = name.text, JOIN_WORDS.get(name.text) or OTHER_JOINS.get(name.text)
        reads = f"{word.upper()} before JOIN is read as another name of {table.text}"
        if how is not None:
            self.warnings.append(f"{reads}: this is an inner join; {how}")
        elif not any(token.text == word and after.text == "." for token, after in zip(
                self.tokens, self.tokens[1:])):
            self.nevers.append((name.at, f"{reads}, by which no column is named: this is an inner join; "
                                         f"where a name is meant, write AS {word}"))

    def item(self) -> Item:
        expr = self.expr()
        return Item(expr, self.name("a name").text if self.skip_word("as") else None)

    # ---- changes

    def table(self) -> Source:
        token = self.name("the name of a table")
        return Source(token.text, token.text, token.at)

    def where(self) -> Optional[Expr]:
        return self.expr() if self.skip_word("where") else None

    def insert(self) -> Insert:
        self.word("insert")
        self.word("into")
        table = self.table()
        columns: Optional[List[Tuple[str, int]]] = None
        if self.skip_sign("("):
            columns = [self.target()]
            while self.skip_sign(","):
                columns.append(self.target())
            self.sign(")")
        self.word("values")
        rows = [self.tuple()]
        while self.skip_sign(","):
            rows.append(self.tuple())
        return Insert(table, columns, rows)

    def target(self) -> Tuple[str, int]:
        token = self.name("the name of a column")
        return token.text, token.at

    def tuple(self) -> List[Expr]:
        self.sign("(")
        row = [self.expr()]
        while self.skip_sign(","):
            row.append(self.expr())
        self.sign(")")
        return row

    def update(self) -> Update:
        self.word("update")
        table = self.table()
        self.word("set")
        sets = [self.set()]
        while self.skip_sign(","):
            sets.append(self.set())
        return Update(table, sets, self.where())

    def set(self) -> Tuple[str, int, Expr]:
        name, at = self.target()
        self.sign("=")
        return name, at, self.expr()

    def delete(self) -> Delete:
        self.word("delete")
        self.word("from")
        return Delete(self.table(), self.where())

    def statement(self) -> Statement:
        readers: Dict[str, Callable[[], Statement]] = {
            "select": self.query, "insert": self.insert, "update": self.update, "delete": self.delete}
        if not self.is_word(*readers):
            self.fail("SELECT, INSERT, UPDATE or DELETE")
        found = readers[self.next().text]()
        self.skip_sign(";")
        if self.next().kind != "end":
            self.fail("the end of the statement")
        return found


def parse_statement(text: str) -> Parsed:
    """The one reading of a text; NoReading where it has none."""
    parser = Parser(text)
    statement = parser.statement()
    return Parsed(statement, parser.parameters, parser.warnings, parser.nevers)


def never_true(text: str) -> List[Tuple[int, str]]:
    """The comparisons of a statement that are never true. A text without a reading has none."""
    try:
        return parse_statement(text).nevers
    except NoReading:
        return []
