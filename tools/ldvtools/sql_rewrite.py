"""Statements as people write them for other databases, put into the dialect where that is exactly the same.

What is put otherwise is shown. What has no equal here stays as it is, and is refused with a way around it.
"""
from __future__ import annotations

import re
from decimal import ROUND_CEILING, ROUND_FLOOR, Decimal
from typing import Dict, List, Mapping, NamedTuple, Optional, Sequence, Tuple

from .errors import Unfit
from .language import MAX_INT, RESERVED
from .sql import NoReading, parse_statement
from .world_cells import comparable
from .world_columns import Column, Table
from .world_texts import folded

TOKEN = re.compile(
    r"(?P<blank>[ "
    r"\t\r\n]+)|(?P<comment>--[^\n]*|/\*.*?\*/)|(?P<text>'(?:[^']|'')*')|(?P<quoted>\"(?:[^\"]|\"\")*\")"
    r"|(?P<number>[0-9]+\.[0-9]+|\.[0-9]+|[0-9]+)|(?P<word>[A-Za-z_][A-Za-z0-9_]*)"
    r"|(?P<sign>==|<>|!=|<=|>=|\|\||.)", re.DOTALL)
COMPARES = ("=", "<>", "!=", "<", "<=", ">", ">=")
TURNED = {"<": ">", "<=": ">=", ">": "<", ">=": "<="}
# Where an operand of BETWEEN, IN or LIKE begins or ends.
BOUNDS = frozenset("where and or not on having when select group order limit union join inner by from then "
                   "else "
                   "end as is like between in".split())
MANY = 50
Tables = Mapping[str, Mapping[str, Column]]


class Token(NamedTuple):
    """A token, or a blank; `kind` is the group of TOKEN."""

    kind: str
    text: str

    @property
    def word(self) -> str:
        return self.text.lower() if self.kind == "word" else ""


class Rewritten(NamedTuple):
    """A statement in the dialect, and what is said beside it."""

    text: str
    notes: List[str]


def tokens_of(text: str) -> List[Token]:
    return [Token(match.lastgroup or "sign", match[0]) for match in TOKEN.finditer(text)]


def is_blank(token: Token) -> bool:
    return token.kind in ("blank", "comment")


def joined(tokens: Sequence[Token]) -> str:
    return "".join(token.text for token in tokens)


def word(text: str) -> Token:
    return Token("word", text)


def sign(text: str) -> Token:
    return Token("sign", text)


class Statement:
    """A statement that is being put otherwise, with the columns of its tables. `renamed` has the names of the
    world by those of the source, `is_as_read` says that constants are as the source has them."""

    def __init__(self, text: str, tables: Tables, renamed: Mapping[str, str], is_as_read: bool) -> None:
        self.tokens = tokens_of(text)
        self.tables, self.renamed, self.is_as_read = tables, renamed, is_as_read
        self.notes: List[str] = []

    # ---- places

    def next(self, place: int, step: int = 1) -> int:
        """The place of the next token that is no blank, or -1."""
        place += step
        while 0 <= place < len(self.tokens) and is_blank(self.tokens[place]):
            place += step
        return place if 0 <= place < len(self.tokens) else -1

    def at(self, place: int) -> Token:
        return self.tokens[place] if 0 <= place < len(self.tokens) else Token("end", "")

    def before(self, place: int) -> int:
        """Where the operand begins that ends before a place."""
        begin, depth, here = place, 0, self.next(place, -1)
        while here >= 0:
            token = self.tokens[here]
            if token.text == ")":
                depth += 1
            elif token.text == "(":
                if depth == 0:
                    break
                depth -= 1
            elif depth == 0 and (token.word in BOUNDS or token.text in (",", ";", *COMPARES)):
                break
            begin, here = here, self.next(here, -1)
        return begin

    def behind(self, place: int) -> int:
        """Where the operand ends that begins behind a place: the place after it."""
        end, depth, here = place + 1, 0, self.next(place)
        while here >= 0:
            token = self.tokens[here]
            if token.text == "(":
                depth += 1
            elif token.text == ")":
                if depth == 0:
                    break
                depth -= 1
            elif depth == 0 and (token.word in BOUNDS or token.text in (",", ";", *COMPARES)):
                break
            end, here = here + 1, self.next(here)
        return end

    # ---- columns

    def sources(self) -> List[Tuple[str, str]]:
        """The tables behind FROM, JOIN, INTO and UPDATE, with the names by which they are known."""
        found: List[Tuple[str, str]] = []
        for place, token in enumerate(self.tokens):
            if token.word in ("from", "join", "into",
                              "update") or token.text == "," and self.is_in_from(place):
                table = self.at(self.next(place))
                name = table.text.lower()
                after = self.next(self.next(place))
                alias = self.at(self.next(after)) if self.at(after).word == "as" else self.at(after)
                is_alias = alias.kind == "word" and alias.word not in RESERVED
                if name in self.tables:
                    found.append((name, alias.text.lower() if is_alias else name))
        return found

    def is_in_from(self, place: int) -> bool:
        """Whether a comma stands in FROM."""
        depth = 0
        for token in reversed(self.tokens[:place]):
            depth += {")": 1, "(": -1}.get(token.text, 0)
            if depth == 0 and token.word in ("where", "group", "having", "order", "select", "on", "set",
                                             "values"):
                return False
            if depth == 0 and token.word == "from":
                return True
        return False

    def column(self, tokens: Sequence[Token]) -> Optional[Column]:
        """The column that some tokens name."""
        names = [token.text.lower() for token in tokens if not is_blank(token) and token.text != "."]
        if not 1 <= len(names) <= 2 or any(token.kind not in ("word", "blank", "sign") for token in tokens):
            return None
        found = [self.tables[table][names[-1]] for table, name in self.sources()
                 if names[-1] in self.tables[table] and (len(names) == 1 or names[0] == name)]
        return found[0] if len(found) == 1 else None

    # ---- what is put otherwise

    def all(self) -> None:
        self.names()
        self.signs()
        self.aliases()
        for step in (self.between, self.lists, self.likes):
            for _ in range(len(self.tokens)):
                if not step():
                    break
        self.averages()
        self.counts()
        self.constants()

    def names(self) -> None:
        """A name in double quotes is the name, where a column or a table is called so."""
        known = set(self.tables) | {name for columns in self.tables.values() for name in columns}
        renamed = {old.casefold(): new for old, new in self.renamed.items()}
        for place, token in enumerate(self.tokens):
            if token.kind == "quoted":
                plain = token.text[1:-1].replace('""', '"')
                name = plain.lower() if plain.lower() in known else renamed.get(plain.casefold())
                if name is not None:
                    self.tokens[place] = word(name)

    def signs(self) -> None:
        self.tokens = [sign("=") if token.text == "==" else token for token in self.tokens]

    def aliases(self) -> None:
        """Another name of an item without AS."""
        place, is_item, depth = 0, False, 0
        while place < len(self.tokens):
            token = self.tokens[place]
            depth += {"(": 1, ")": -1}.get(token.text, 0)
            is_item = token.word == "select" or is_item and token.word != "from"
            if is_item and depth == 0 and self.is_alias(place):
                self.tokens[place:place] = [word("AS"), Token("blank", " ")]
                place += 2
            place += 1

    def is_alias(self, place: int) -> bool:
        token, before, after = self.tokens[place], self.at(self.next(place, -1)), self.at(self.next(place))
        ends = before.kind in ("number", "text") or before.text == ")" or (
            before.kind == "word" and before.word not in RESERVED)
        return (token.kind == "word" and token.word not in RESERVED and token.word not in BOUNDS and ends
                and (after.text == "," or after.word == "from"))

    def between(self) -> bool:
        for place, token in enumerate(self.tokens):
            if token.word != "between":
                continue
            is_not = self.at(self.next(place, -1)).word == "not"
            begin = self.before(self.next(place, -1) if is_not else place)
            end_of = self.next(place, -1) if is_not else place
            middle = self.behind(place)
            conjunction = self.next(middle - 1)
            if self.at(conjunction).word != "and":
                return False
            end = self.behind(conjunction)
            operand = joined(self.tokens[begin:end_of]).strip()
            low = joined(self.tokens[place + 1:middle]).strip()
            high = joined(self.tokens[conjunction + 1:end]).strip()
            if not operand or not low or not high:
                return False
            self.put(begin, end, f"{'NOT ' if is_not else ''}({operand} >= {low} AND {operand} <= {high})")
            return True
        return False

    def put(self, begin: int, end: int, text: str) -> None:
        """Puts a text in place of some tokens. The lines that they had stay."""
        lines = "\n" * joined(self.tokens[begin:end]).count("\n")
        self.tokens[begin:end] = tokens_of(text + (f" {lines}" if lines else ""))

    def lists(self) -> bool:
        for place, token in enumerate(self.tokens):
            opening = self.next(place)
            if token.word != "in" or self.at(opening).text != "(":
                continue
            closing = next((here for here in range(opening, len(self.tokens))
                            if self.tokens[here].text == ")"), -1)
            parts = [part.strip() for part in split(self.tokens[opening + 1:closing])] if closing > 0 else []
            is_not = self.at(self.next(place, -1)).word == "not"
            end_of = self.next(place, -1) if is_not else place
            begin = self.before(end_of)
            operand = joined(self.tokens[begin:end_of]).strip()
            if not parts or len(parts) > MANY or not operand or not all(map(CONSTANT.match, parts)):
                continue
            choice = " OR ".join(f"{operand} = {part}" for part in parts)
            self.put(begin, closing + 1, f"{'NOT ' if is_not else ''}({choice})")
            return True
        return False

    def likes(self) -> bool:
        """`LIKE 'abc%'` by a range, where no cell of the column is found by the case of its letters alone."""
        for place, token in enumerate(self.tokens):
            pattern = self.at(self.next(place))
            if token.word != "like" or pattern.kind != "text":
                continue
            is_not = self.at(self.next(place, -1)).word == "not"
            end_of = self.next(place, -1) if is_not else place
            begin = self.before(end_of)
            column = self.column(self.tokens[begin:end_of])
            prefix = pattern.text[1:-1].replace("''", "'")
            is_open = prefix.endswith("%")
            prefix = prefix[:-1] if is_open else prefix
            if column is None or column.kind != "TEXT" or not prefix or re.search("[%_\\\\]", prefix) or not (
                    is_case_known(column, prefix, is_open)):
                continue
            operand = joined(self.tokens[begin:end_of]).strip()
            if is_open:
                condition = f"({operand} >= {literal(prefix)} AND {operand} < {literal(after(prefix))})"
            else:
                condition = f"({operand} = {literal(prefix)})"
            self.put(begin, self.next(place) + 1, ("NOT " if is_not else "") + condition)
            return True
        return False

    def is_join(self) -> bool:
        return len(self.sources()) > 1

    def has(self, *words: str) -> bool:
        return any(token.word in words for token in self.tokens)

    def averages(self) -> None:
        """AVG(x) as an item becomes two columns."""
        place = 0
        while place < len(self.tokens) and not self.has("union"):
            token, opening = self.tokens[place], self.next(place)
            before = self.at(self.next(place, -1))
            if token.word == "avg" and self.at(opening).text == "(" and (
                    before.word == "select" or before.text == ","):
                closing = self.closing(opening)
                behind = self.next(closing)
                has_name = self.at(behind).word == "as"
                last = self.next(behind) if has_name else closing
                after_it = self.at(self.next(last))
                if closing < 0 or not (after_it.text == "," or after_it.word == "from"):
                    place += 1
                    continue
                operand = joined(self.tokens[opening + 1:closing]).strip()
                name = self.at(last).text.lower() if has_name else ""
                sums, counts = f"SUM({operand})", f"COUNT({operand})"
                names = (f"{name}_sum", f"{name}_count") if name else ("", "")
                self.put(place, last + 1, f"{sums}{f' AS {names[0]}' if name else ''}, "
                                          f"{counts}{f' AS {names[1]}' if name else ''}")
                self.notes.append(f"AVG({operand}) is two columns, {sums} and {counts}: their quotient is "
                                  "the "
                                  "average")
            place += 1

    def closing(self, opening: int) -> int:
        depth = 0
        for place in range(opening, len(self.tokens)):
            depth += {"(": 1, ")": -1}.get(self.tokens[place].text, 0)
            if depth == 0:
                return place
        return -1

    def counts(self) -> None:
        """COUNT in a join becomes a sum of ones, of a column that is never NULL."""
        place = 0
        while place < len(self.tokens) and self.is_join():
            token, opening = self.tokens[place], self.next(place)
            if token.word == "count" and self.at(opening).text == "(":
                closing = self.closing(opening)
                inner = self.tokens[opening + 1:closing]
                name = self.ones(joined(inner).strip(), inner)
                if closing > 0 and name is not None:
                    self.put(place, closing + 1, f"SUM({name} * 0 + 1)")
                    if not self.has("group"):
                        self.notes.append(f"COUNT({joined(inner).strip()}) of a join is SUM({name} * 0 + 1), "
                                          "which "
                                          "is NULL in place of 0 where there is no row")
            place += 1

    def ones(self, operand: str, inner: Sequence[Token]) -> Optional[str]:
        """A column of numbers that is NULL where the operand of a COUNT is."""
        if operand != "*":
            column = self.column(inner)
            return operand if column is not None and column.kind == "INT" and column.not_null else None
        for table, name in self.sources():
            for column in self.tables[table].values():
                if column.kind == "INT" and column.not_null:
                    return f"{name}.{column.name}"
        return None

    def constants(self) -> None:
        """Decimals beside a carried column, and with --as-read all constants in the form of the column."""
        place = 0
        while place < len(self.tokens):
            if self.tokens[place].text in COMPARES and self.tokens[place].kind == "sign":
                compare = self.tokens[place].text
                begin, end = self.before(place), self.behind(place)
                left, right = self.column(self.tokens[begin:place]), self.column(self.tokens[place + 1:end])
                if left is not None and right is None:
                    self.constant(place + 1, end, left, compare)
                elif right is not None and left is None:
                    self.constant(begin, place, right, TURNED.get(compare, compare))
            place += 1

    def constant(self, begin: int, end: int, column: Column, compare: str) -> None:
        text = joined(self.tokens[begin:end]).strip()
        written: Optional[str] = None
        if column.kind == "INT" and re.fullmatch(r"-?\s*(?:[0-9]+\.[0-9]*|\.[0-9]+|[0-9]+)", text):
            number = Decimal(re.sub(r"\s", "", text))
            if "." in text or self.is_as_read:
                written = carried_number(number, column.scale or 0, compare)
        elif self.is_as_read and column.kind == "TEXT" and column.date is not None and text[:1] == "'":
            try:
                written = literal(comparable(text[1:-1].replace("''", "'"), column.date))
            except Unfit:
                written = None
        if written is not None and written != text:
            blank = " " if begin and not is_blank(self.tokens[begin]) else ""
            lead = joined(self.tokens[begin:end])
            lead = lead[:len(lead) - len(lead.lstrip())]
            tail = joined(self.tokens[begin:end])
            tail = tail[len(tail.rstrip()):]
            self.tokens[begin:end] = tokens_of((lead or blank) + written + tail)


CONSTANT = re.compile(r"(?:-\s*)?[0-9]+(?:\.[0-9]+)?\Z|'(?:[^']|'')*'\Z|null\Z|\?\Z", re.IGNORECASE)


def split(tokens: Sequence[Token]) -> List[str]:
    """The parts of tokens between commas."""
    parts: List[List[Token]] = [[]]
    for token in tokens:
        if token.text == ",":
            parts.append([])
        else:
            parts[-1].append(token)
    return [joined(part) for part in parts]


def literal(text: str) -> str:
    return "'" + text.replace("'", "''") + "'"


def after(prefix: str) -> str:
    """The least text behind all that begin with a prefix."""
    last = ord(prefix[-1])
    return prefix[:-1] + chr(0xE000 if last == 0xD7FF else last + 1)


def is_case_known(column: Column, prefix: str, is_open: bool) -> bool:
    """Whether LIKE finds no other cell than one of the same letters: it ignores the case of ASCII letters."""
    fold = folded(prefix)
    if not any(char.isascii() and char.isalpha() for char in prefix):
        return ord(prefix[-1]) < 0x10FFFF
    for cell in dict.fromkeys(column.cells):
        if isinstance(cell, str):
            found = folded(cell).startswith(fold) if is_open else folded(cell) == fold
            if found and not cell.startswith(prefix):
                return False
    return True


def carried_number(number: Decimal, scale: int, compare: str) -> Optional[str]:
    """A number as a column of a scale carries it; one between two of them by the one that compares alike."""
    exact = number.scaleb(scale)
    whole = exact.to_integral_value(ROUND_FLOOR)
    if exact != whole:
        if compare in ("=", "<>", "!="):
            return None
        if compare in ("<", ">="):
            whole = exact.to_integral_value(ROUND_CEILING)
    found = int(whole)
    return str(found) if abs(found) <= MAX_INT else None


def rewritten(text: str, tables: Tables, renamed: Mapping[str, str], is_as_read: bool = False) -> Rewritten:
    """A statement in the dialect, where it can be put so; else as it is."""
    statement = Statement(text, tables, renamed, is_as_read)
    statement.all()
    found = joined(statement.tokens)
    if found == text:
        return Rewritten(text, [])
    try:
        parse_statement(found.strip().rstrip(";"))
    except NoReading:
        # What has no reading is told of the statement that was written.
        return Rewritten(text, [])
    return Rewritten(found, statement.notes)


def statements_in(text: str) -> List[Tuple[int, int]]:
    """From where to where each statement of a text stands, without the `;` behind it."""
    found, begun, place = [], 0, 0
    for token in tokens_of(text):
        if token.text == ";" and token.kind == "sign":
            found.append((begun, place))
            begun = place + 1
        place += len(token.text)
    return [*found, (begun, place)]


def leading(text: str) -> int:
    """How many characters of blanks and comments stand before a statement."""
    place = 0
    for token in tokens_of(text):
        if not is_blank(token):
            break
        place += len(token.text)
    return place


def rewritten_text(text: str, tables: Tables, renamed: Mapping[str, str],
                   is_as_read: bool = False) -> Tuple[str, List[Tuple[int, str, List[str]]]]:
    """A text of statements in the dialect. Gives each that was put otherwise with its line, and what is said
    beside it."""
    parts, said, last = [], [], 0
    for begin, end in statements_in(text):
        begin += leading(text[begin:end])
        found = rewritten(text[begin:end], tables, renamed, is_as_read)
        if found.text != text[begin:end]:
            said.append((text.count("\n", 0, begin) + 1, " ".join(found.text.split()), found.notes))
        parts += [text[last:begin], found.text]
        last = end
    return "".join(parts) + text[last:], said


def columns_by_table(tables: Sequence[Table]) -> Dict[str, Dict[str, Column]]:
    return {table.name: {column.name: column for column in table.columns} for table in tables}


def renamed_columns(tables: Sequence[Table]) -> Dict[str, str]:
    """The names of columns that have another one where they were read, by that."""
    return {column.old: column.name for table in tables for column in table.columns
            if column.old != column.name}
