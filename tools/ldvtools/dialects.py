"""Reads the statements of SQLite and PostgreSQL, as far as rules of `dialect_rules` may put them into the
dialect of docs/SQL.md. What isn't read has a reason, and a way around it."""
from __future__ import annotations

import re
from dataclasses import dataclass, field
from typing import Any, Callable, Dict, List, Optional, Tuple, Union

SQLITE, POSTGRES = "sqlite3", "psycopg2"


class Unreadable(Exception):
    """A statement isn't put into the dialect: why, and what else can be done."""

    def __init__(self, reason: str, way: str = "") -> None:
        super().__init__(reason)
        self.reason, self.way = reason, way


class Token:
    """A token: a "word", a quoted "name", a "number", a "text", a "parameter", a "sign" or the "end". The
    text of a word is in lower case."""

    def __init__(self, kind: str, text: str, at: int) -> None:
        self.kind, self.text, self.at = kind, text, at


@dataclass(frozen=True)
class Expr:
    """An expression. Forms are constant, parameter, column, star, not, and, or, compare, arithmetic,
    negate, isnull, between, in, like, cast and aggregate; `word` is the operator, the aggregate, the type
    or the column's name, and `source` what stands before a column's dot. A constant of a number with a
    point has it as a text."""

    form: str
    word: str = ""
    source: str = ""
    parts: Tuple["Expr", ...] = ()
    value: Any = None
    is_negative: bool = False


@dataclass
class Source:
    table: str
    name: str


@dataclass
class Item:
    expr: Expr
    name: str


@dataclass
class Core:
    """A SELECT without its ORDER BY and LIMIT."""

    is_distinct: bool = False
    items: List[Item] = field(default_factory=list)
    sources: List[Source] = field(default_factory=list)
    picks: List[Expr] = field(default_factory=list)
    uses: List[Tuple[int, List[str]]] = field(default_factory=list)
    group: List[Expr] = field(default_factory=list)
    having: Optional[Expr] = None


@dataclass
class Order:
    expr: Expr
    is_down: bool
    nulls: str = ""


@dataclass
class Query:
    cores: List[Core]
    unions: List[str] = field(default_factory=list)
    order: List[Order] = field(default_factory=list)
    limit: Optional[Expr] = None
    offset: Optional[Expr] = None


@dataclass
class Insert:
    table: str
    columns: Optional[List[str]]
    rows: List[List[Expr]]
    returning: bool = False


@dataclass
class Update:
    table: str
    name: str
    sets: List[Tuple[str, Expr]]
    pick: Optional[Expr] = None
    returning: bool = False


@dataclass
class Delete:
    table: str
    name: str
    pick: Optional[Expr] = None
    returning: bool = False


Statement = Union[Query, Insert, Update, Delete]

# ---- what isn't read

LEFT = ("an outer join", "ask both tables and put the rows together in the program, or ask for each row of "
        "the one "
        "the rows of the other")
SUBQUERY = ("a subquery", "ask the inner question first and give its answer to the outer one as parameters")
CASE = ("CASE", "ask for the columns and decide in the program")
WINDOW = ("a window function", "ask for the rows in their order and count in the program")
PARTS = ("it takes or joins parts of values", "ask for the columns and work them out in the program")
OTHERS: Dict[str, Tuple[str, str]] = {
    "left": LEFT, "right": LEFT, "full": LEFT, "natural": ("NATURAL JOIN", "write JOIN .. ON"),
    "exists": SUBQUERY, "case": CASE, "over": WINDOW, "filter": WINDOW, "window": WINDOW,
    "with": ("WITH", "ask the parts one after the other"),
    "intersect": ("INTERSECT", "ask both, and compare in the program"),
    "except": ("EXCEPT", "ask both, and compare in the program"),
    "glob": ("GLOB", "compare with >= and <, or choose in the program"),
    "regexp": ("REGEXP", "choose the rows in the program"), "match": ("MATCH",
                                                                      "choose the rows in the program"),
    "ilike": ("ILIKE", "choose the rows in the program"), "similar": ("SIMILAR TO", "choose in the program"),
    "collate": ("COLLATE", "texts compare by their bytes; sort in the program"),
    "escape": ("LIKE .. ESCAPE", "choose the rows in the program"),
    "any": ("ANY", "write IN (..)"), "array": ("an array", "write IN (..)"), "interval": PARTS,
    "conflict": ("ON CONFLICT", "ask whether the row is there, and then INSERT or UPDATE"),
    "lateral": ("LATERAL", ""), "tablesample": ("TABLESAMPLE", ""), "indexed": ("INDEXED BY", "leave it out"),
    "fetch": ("FETCH FIRST", "write LIMIT"),
}
AGGREGATES = ("count", "sum", "min", "max", "avg")
# Words that are no names of a source or of an item where they stand after one.
NO_NAMES = frozenset(
    "all and as asc between by cross desc distinct else end except fetch for from full group having in inner "
    "intersect into is isnull join left like limit natural not notnull offset on or order outer returning "
    "right "
    "select set then union using values when where window collate escape glob regexp match ilike "
    "similar".split())

TOKENS = re.compile(
    r"(?P<blank>\s+|--[^\n]*|/\*.*?\*/)"
    r"|(?P<escaped>[eE]'(?:[^'\\]|\\.|'')*')"
    r"|(?P<text>'(?:[^']|'')*')"
    r"|(?P<name>\"(?:[^\"]|\"\")*\"|`(?:[^`]|``)*`|\[[^\]]*\])"
    r"|(?P<number>(?:[0-9]+(?:\.[0-9]*)?|\.[0-9]+)(?:[eE][+-]?[0-9]+)?)"
    r"|(?P<parameter>\?[0-9]*|%s|%\(\w+\)s|(?<!:):\w+|@\w+|\$\w+)"
    r"|(?P<word>[^\W\d]\w*)"
    r"|(?P<sign>::|\|\||<>|!=|==|<=|>=|<<|>>|->>|->|%%|[-+*/%=<>(),.;~!&|^#@:])", re.DOTALL)


def tokens_of(text: str) -> List[Token]:
    """The tokens of a statement, without blanks and comments."""
    found: List[Token] = []
    place = 0
    while place < len(text):
        match = TOKENS.match(text, place)
        if match is None:
            raise Unreadable(f"{text[place:place + 10]!r} begins nothing that is known here")
        kind, shown = match.lastgroup or "", match.group()
        if kind == "word":
            shown = shown.lower()
        elif kind == "name":
            shown = shown[1:-1].replace(shown[0] * 2, shown[0])
        elif kind == "text":
            shown = shown[1:-1].replace("''", "'")
        elif kind == "escaped":
            kind, shown = "text", unescaped(shown[2:-1])
        if kind != "blank":
            found.append(Token(kind, shown, place))
        place = match.end()
    found.append(Token("end", "the end", len(text)))
    return found


def unescaped(text: str) -> str:
    """The text of PostgreSQL's E'..', of which psycopg2 writes only doubled signs."""
    if re.search(r"\\[^\\']", text.replace("\\\\", "")):
        raise Unreadable("escapes in a text", "give it as a parameter")
    return text.replace("\\\\", "\\").replace("\\'", "'").replace("''", "'")


class Reader:
    """Reads one statement."""

    def __init__(self, text: str) -> None:
        self.tokens, self.place, self.parameters = tokens_of(text), 0, 0

    # ---- tokens

    def next(self, ahead: int = 0) -> Token:
        return self.tokens[min(self.place + ahead, len(self.tokens) - 1)]

    def take(self) -> Token:
        token = self.next()
        self.place += 1
        return token

    def is_word(self, *words: str) -> bool:
        return self.next().kind == "word" and self.next().text in words

    def is_sign(self, *signs: str) -> bool:
        return self.next().kind == "sign" and self.next().text in signs

    def skip(self, *words: str) -> bool:
        """Takes these words, where all of them are next."""
        for ahead, word in enumerate(words):
            if not (self.next(ahead).kind in ("word", "sign") and self.next(ahead).text == word):
                return False
        self.place += len(words)
        return True

    def want(self, word: str) -> None:
        if not self.skip(word):
            self.fail()

    def fail(self) -> None:
        """Says of what is next why it isn't read."""
        token = self.next()
        if token.kind == "word" and token.text in OTHERS:
            raise Unreadable(*OTHERS[token.text])
        if token.kind == "word" and token.text == "select":
            raise Unreadable(*SUBQUERY)
        if token.kind == "sign" and token.text in ("/", "%", "%%"):
            raise Unreadable("a division", "ask for both numbers and divide in the program")
        if token.kind == "sign" and token.text in ("||", "->", "->>", "~", "&", "|", "<<", ">>", "#", "^"):
            raise Unreadable(*PARTS)
        raise Unreadable(f"{token.text!r} isn't known here")

    def name(self) -> str:
        token = self.next()
        if token.kind == "name" or token.kind == "word" and token.text not in NO_NAMES:
            return self.take().text
        self.fail()
        return ""

    # ---- expressions

    def expr(self) -> Expr:
        return self.chain(self.all_of, "or")

    def all_of(self) -> Expr:
        return self.chain(self.negated, "and")

    def chain(self, part: Callable[[], Expr], word: str) -> Expr:
        found = [part()]
        while self.skip(word):
            found.append(part())
        return found[0] if len(found) == 1 else Expr(word, parts=tuple(found))

    def negated(self) -> Expr:
        if self.is_word("not") and not (self.next(1).kind == "word" and self.next(1).text == "exists"):
            self.take()
            return Expr("not", parts=(self.negated(),))
        return self.test()

    def test(self) -> Expr:
        left = self.sum()
        while True:
            is_negative = self.is_word("not") and self.next(1).text in ("between", "in", "like")
            if is_negative:
                self.take()
            if self.is_sign("=", "==", "<>", "!=", "<", "<=", ">", ">="):
                word = {"==": "=", "!=": "<>"}.get(self.next().text, self.next().text)
                self.take()
                left = Expr("compare", word, parts=(left, self.sum()))
            elif self.skip("between"):
                low = self.sum()
                self.want("and")
                left = Expr("between", parts=(left, low, self.sum()), is_negative=is_negative)
            elif self.skip("in"):
                left = Expr("in", parts=(left, *self.list()), is_negative=is_negative)
            elif self.skip("like"):
                left = Expr("like", parts=(left, self.sum()), is_negative=is_negative)
            elif self.skip("isnull"):
                left = Expr("isnull", parts=(left,))
            elif self.skip("notnull"):
                left = Expr("isnull", parts=(left,), is_negative=True)
            elif self.skip("is"):
                left = self.is_test(left)
            else:
                return left

    def is_test(self, left: Expr) -> Expr:
        is_negative = self.skip("not")
        if self.skip("null"):
            return Expr("isnull", parts=(left,), is_negative=is_negative)
        raise Unreadable("IS beside another value than NULL", "write = or <>, and IS NULL beside it")

    def list(self) -> List[Expr]:
        """The values of IN. One parameter may have all of them."""
        if self.next().kind == "parameter":
            return [self.primary()]
        self.want("(")
        if self.is_sign(")"):
            raise Unreadable("IN without a value", "don't ask where there is nothing to look for")
        found = [self.expr()]
        while self.skip(","):
            found.append(self.expr())
        self.want(")")
        return found

    def sum(self) -> Expr:
        left = self.product()
        while self.is_sign("+", "-"):
            left = Expr("arithmetic", self.take().text, parts=(left, self.product()))
        return left

    def product(self) -> Expr:
        left = self.unary()
        while self.is_sign("*"):
            left = Expr("arithmetic", self.take().text, parts=(left, self.unary()))
        return left

    def unary(self) -> Expr:
        if self.skip("-"):
            return Expr("negate", parts=(self.unary(),))
        if self.skip("+"):
            return self.unary()
        found = self.primary()
        while self.skip("::"):
            found = Expr("cast", self.type(), parts=(found,))
        return found

    def type(self) -> str:
        """A type, as one text in lower case."""
        words = [self.name()]
        while self.next().kind == "word" and self.next().text in ("varying", "precision", "without", "with",
                                                                  "time",
                                                                  "zone"):
            words.append(self.take().text)
        if self.skip("("):
            while not self.skip(")"):
                self.take() if self.next().kind != "end" else self.fail()
        return " ".join(words).lower()

    def primary(self) -> Expr:
        token = self.next()
        if token.kind == "number":
            self.take()
            whole = token.text.isdigit()
            return Expr("constant", value=int(token.text) if whole else ("decimal", token.text))
        if token.kind == "text":
            self.take()
            return Expr("constant", value=token.text)
        if token.kind == "parameter":
            self.take()
            self.parameters += 1
            return Expr("parameter", token.text, value=self.parameters - 1)
        if self.is_word("null", "true", "false"):
            return Expr("constant", value={"null": None, "true": True, "false": False}[self.take().text])
        if self.skip("("):
            found = self.expr()
            if self.is_sign(","):
                raise Unreadable("several values in parentheses", "compare them one by one, with AND")
            self.want(")")
            return found
        if self.is_word("cast"):
            return self.cast()
        return self.named()

    def cast(self) -> Expr:
        self.take()
        self.want("(")
        part = self.expr()
        self.want("as")
        kind = self.type()
        self.want(")")
        return Expr("cast", kind, parts=(part,))

    def named(self) -> Expr:
        """A column, or an aggregate."""
        token = self.next()
        if token.kind == "word" and token.text in OTHERS and token.text not in ("match", "filter", "window"):
            self.fail()
        first = self.name()
        if self.is_sign("(") and token.kind == "word":
            return self.call(first)
        if not self.skip("."):
            return Expr("column", first, value=token.kind)
        if self.skip("*"):
            return Expr("star", source=first)
        second = self.name()
        if not self.skip("."):
            return Expr("column", second, source=first)
        source = self.in_schema([first], second)
        return Expr("star", source=source) if self.skip("*") else Expr("column", self.name(), source=source)

    def call(self, word: str) -> Expr:
        self.want("(")
        if word not in AGGREGATES:
            raise Unreadable(f"the function {word}", "ask for the columns and work it out in the program")
        if word == "count" and self.skip("*"):
            self.want(")")
            found = Expr("aggregate", "count")
        else:
            if self.is_word("distinct"):
                raise Unreadable(f"{word.upper()}(DISTINCT ..)", "SELECT DISTINCT, and count in the program")
            part = self.expr()
            if self.is_sign(","):
                raise Unreadable(f"{word.upper()} of several values", "work it out in the program")
            self.want(")")
            found = Expr("aggregate", word, parts=(part,))
        if self.is_word("over", "filter"):
            self.fail()
        return found

    # ---- queries

    def query(self) -> Query:
        query = Query([self.core()])
        while self.is_word("union"):
            self.take()
            query.unions.append("UNION ALL" if self.skip("all") else "UNION")
            query.cores.append(self.core())
        if self.skip("order", "by"):
            query.order.append(self.order())
            while self.skip(","):
                query.order.append(self.order())
        if self.skip("limit"):
            query.limit = None if self.skip("all") else self.expr()
            if self.skip(","):
                query.offset, query.limit = query.limit, self.expr()
        if self.skip("offset"):
            query.offset = self.expr()
        return query

    def order(self) -> Order:
        found = Order(self.expr(), False)
        if self.is_word("collate"):
            self.fail()
        found.is_down = self.skip("desc")
        if not found.is_down:
            self.skip("asc")
        if self.skip("nulls"):
            found.nulls = self.take().text
        return found

    def core(self) -> Core:
        if self.is_sign("("):
            raise Unreadable(*SUBQUERY)
        self.want("select")
        core = Core(self.skip("distinct"))
        if core.is_distinct and self.is_word("on"):
            raise Unreadable("DISTINCT ON", "choose the rows in the program")
        self.skip("all")
        core.items.append(self.item())
        while self.skip(","):
            core.items.append(self.item())
        if self.skip("from"):
            self.sources(core)
        if self.skip("where"):
            core.picks.append(self.expr())
        if self.skip("group", "by"):
            core.group.append(self.expr())
            while self.skip(","):
                core.group.append(self.expr())
        if self.skip("having"):
            core.having = self.expr()
        return core

    def item(self) -> Item:
        if self.skip("*"):
            return Item(Expr("star"), "")
        expr = self.expr()
        if self.skip("as"):
            return Item(expr, self.take().text)
        token = self.next()
        has_name = token.kind in ("name", "text") or token.kind == "word" and token.text not in NO_NAMES \
            and token.text not in OTHERS
        return Item(expr, self.take().text if has_name else "")

    def sources(self, core: Core) -> None:
        self.source(core)
        while True:
            if self.skip(",") or self.skip("cross", "join"):
                self.source(core)
            elif self.is_word("join", "inner"):
                self.skip("inner")
                self.want("join")
                self.source(core)
                self.condition(core)
            elif self.is_word("left", "right", "full", "natural"):
                self.fail()
            else:
                return

    def condition(self, core: Core) -> None:
        if self.skip("on"):
            core.picks.append(self.expr())
        elif self.skip("using"):
            self.want("(")
            names = [self.name()]
            while self.skip(","):
                names.append(self.name())
            self.want(")")
            core.uses.append((len(core.sources) - 1, names))

    def source(self, core: Core) -> None:
        if self.is_sign("("):
            raise Unreadable(*SUBQUERY)
        table = self.table()
        name = table
        if self.skip("as"):
            name = self.name()
        elif self.next().kind == "name" or self.next().kind == "word" and self.next().text not in NO_NAMES \
                and self.next().text not in ("lateral", "tablesample", "indexed"):
            name = self.take().text
        if self.is_sign("("):
            raise Unreadable(f"the function {table} as a table")
        core.sources.append(Source(table, name))

    def table(self) -> str:
        """A table, without the name of its schema where that is the usual one."""
        names = [self.name()]
        while self.skip("."):
            names.append(self.name())
        return self.in_schema(names[:-1], names[-1])

    def in_schema(self, schema: List[str], name: str) -> str:
        """The name of a table without that of its schema."""
        if schema and schema not in (["main"], ["public"]):
            raise Unreadable(f"a table of {'.'.join(schema)}",
                             "only the tables of the database itself are carried")
        return name

    # ---- changes

    def where(self) -> Optional[Expr]:
        return self.expr() if self.skip("where") else None

    def returning(self) -> bool:
        """Whether there is a RETURNING, which is the rest of the statement."""
        if not self.skip("returning"):
            return False
        while self.next().kind != "end" and not self.is_sign(";"):
            self.take()
        return True

    def insert(self) -> Insert:
        self.want("insert")
        if self.is_word("or"):
            raise Unreadable(f"INSERT OR {self.next(1).text.upper()}",
                             "ask whether the row is there, and then INSERT or UPDATE")
        self.want("into")
        table = self.table()
        columns: Optional[List[str]] = None
        if self.skip("("):
            columns = [self.name()]
            while self.skip(","):
                columns.append(self.name())
            self.want(")")
        if self.is_word("select", "with"):
            raise Unreadable("INSERT .. SELECT", "ask for the rows, and INSERT them with VALUES")
        if self.is_word("default"):
            raise Unreadable("DEFAULT VALUES", "name the columns and their values")
        self.want("values")
        rows = [self.tuple()]
        while self.skip(","):
            rows.append(self.tuple())
        if self.skip("on"):
            self.fail()
        return Insert(table, columns, rows, self.returning())

    def tuple(self) -> List[Expr]:
        self.want("(")
        row = [self.expr()]
        while self.skip(","):
            row.append(self.expr())
        self.want(")")
        return row

    def update(self) -> Update:
        self.want("update")
        if self.is_word("or"):
            raise Unreadable(f"UPDATE OR {self.next(1).text.upper()}", "write UPDATE")
        table = self.table()
        name = self.name() if self.skip("as") or not self.is_word("set") else table
        self.want("set")
        sets = [self.set()]
        while self.skip(","):
            sets.append(self.set())
        if self.is_word("from"):
            raise Unreadable("UPDATE .. FROM", "ask for the values, and give them as parameters")
        return Update(table, name, sets, self.where(), self.returning())

    def set(self) -> Tuple[str, Expr]:
        if self.is_sign("("):
            raise Unreadable("SET of several columns at once", "set them one by one")
        name = self.name()
        if not self.skip("=="):
            self.want("=")
        return name, self.expr()

    def delete(self) -> Delete:
        self.want("delete")
        self.want("from")
        table = self.table()
        has_name = self.skip("as") or self.next().kind == "word" and self.next().text not in NO_NAMES
        name = self.name() if has_name else table
        if self.is_word("using"):
            raise Unreadable("DELETE .. USING", "ask for the keys, and delete them one by one")
        return Delete(table, name, self.where(), self.returning())

    def statement(self) -> Statement:
        readers: Dict[str, Callable[[], Statement]] = {
            "select": self.query, "insert": self.insert, "update": self.update, "delete": self.delete}
        if not self.is_word(*readers):
            self.fail()
        found = readers[self.next().text]()
        if self.is_word("for"):
            raise Unreadable("FOR UPDATE", "leave it out: nobody else changes rows here")
        self.skip(";")
        if self.next().kind != "end":
            self.fail()
        return found


def read_statement(text: str) -> Statement:
    """The statement of a text; Unreadable where it isn't one of those that are known."""
    return Reader(text).statement()


def tables_named(statement: Statement) -> List[str]:
    """The tables that a statement names."""
    if isinstance(statement, Query):
        return [source.table for core in statement.cores for source in core.sources]
    return [statement.table]
