"""What becomes of each statement of a program: what it is in the dialect, or why it isn't in the script,
and then it is played back from what was seen."""
from __future__ import annotations

import re
from dataclasses import dataclass, field
from typing import Dict, FrozenSet, List, Mapping, Optional, Sequence, Tuple, Union

from .captured import Event
from .captured_order import first_word
from .dialect_changes import Given, key_given, plan_of
from .dialect_queries import Plan
from .dialect_rules import Shape
from .dialects import SQLITE, Insert, Query, Statement, Unreadable, read_statement, tables_named

ASKED, SEEN, UNREADABLE = "asked", "seen", "unreadable"
# Statements that ask no table for rows: sessions, and what the database is.
APART = frozenset(
    "begin commit end rollback savepoint release start set reset show pragma explain analyze vacuum reindex "
    "lock "
    "listen unlisten notify discard checkpoint".split())
DEFINES = {
    "create": "it defines a table, a view or an index", "drop": "it drops a table, a view or an index",
    "alter": "it alters a table", "truncate": "TRUNCATE", "attach": "it attaches another database",
    "detach": "it detaches a database", "copy": "COPY", "comment": "COMMENT", "grant": "GRANT",
    "revoke": "REVOKE", "call": "a procedure", "do": "a block of code", "replace": "REPLACE",
    "declare": "a cursor of the server", "prepare": "PREPARE", "execute": "EXECUTE", "with": "WITH",
    "values": "VALUES", "merge": "MERGE", "fetch": "a cursor of the server", "refresh": "REFRESH"}
WAYS = {
    "create": "make the table before the capture: a world has the tables that are there before the first "
    "statement",
    "replace": "ask whether the row is there, and then INSERT or UPDATE",
    "truncate": "write DELETE FROM", "copy": "write INSERT", "with": "ask the parts one after the other",
    "attach": "put the tables into one database", "values": "give the values in the program"}
CATALOG = re.compile(
    r"\b(?:sqlite_(?:temp_)?(?:master|schema|sequence)|pg_\w+|information_schema)\b",
     re.IGNORECASE)
FROM = re.compile(r"\bfrom\b", re.IGNORECASE)
IF_NOT_EXISTS = re.compile(
    r"create\s+table\s+if\s+not\s+exists\s+(?:main\.|public\.)?[\"`\[]?(\w+)",
     re.IGNORECASE)
TEMPORARY = re.compile(r"create\s+(?:global\s+|local\s+)?temp", re.IGNORECASE)

# The refusals that an exception may be.
BROKEN: Dict[str, FrozenSet[int]] = {
    "UNIQUE": frozenset((6,)), "NOT NULL": frozenset((5,)), "FOREIGN KEY": frozenset((8, 9)),
    "23505": frozenset((6,)), "23502": frozenset((5,)), "23503": frozenset((8, 9))}


@dataclass
class Fate:
    """What becomes of an event. `kind` is asked, seen or unreadable. `first` is the number of its first
    reply, and `refusals` has the codes of which its last reply has one, where the program got an
    exception."""

    kind: str
    reason: str = ""
    way: str = ""
    plans: List[Plan] = field(default_factory=list)
    first: int = 0
    refusals: FrozenSet[int] = frozenset()


def refusals_of(event: Event, shapes: Mapping[str, Shape]) -> FrozenSet[int]:
    """The refusals that the exception of an event may be; none where it is of another kind."""
    if event.fault is None:
        return frozenset()
    _, _, arguments, codes = event.fault
    message = str(arguments[0]) if arguments else ""
    if event.connection.driver == SQLITE:
        match = re.match(r"(UNIQUE|NOT NULL|FOREIGN KEY) constraint failed(?:: (.*))?", message)
        if match is None or match[1] == "UNIQUE" and not is_key(match[2] or "", shapes):
            return frozenset()
        return BROKEN[match[1]]
    found = BROKEN.get(str(codes.get("pgcode", "")), frozenset())
    if 6 in found:
        named = re.search(r'"(\w+)"', message)
        keys = {f"{shape.table.old}_pkey" for shape in shapes.values()}
        return found if named and named[1] in keys else frozenset()
    return found


def is_key(columns: str, shapes: Mapping[str, Shape]) -> bool:
    """Whether columns, as SQLite names them in a message, are the key of their table."""
    pairs = [each.strip().rpartition(".") for each in columns.split(",")]
    shape = shapes.get(pairs[0][0].lower())
    if shape is None:
        return False
    names = {column.old.lower(): column.name for column in shape.table.columns}
    return sorted(names.get(pair[2].lower(), "") for pair in pairs) == sorted(shape.table.key)


def apart(event: Event, tables: Sequence[str]) -> Optional[str]:
    """Why a statement asks for no rows of the tables, where it doesn't."""
    word = first_word(event.text)
    if word in APART:
        return f"{word.upper()} asks for no rows"
    if word == "create":
        match = IF_NOT_EXISTS.search(event.text)
        if match and match[1].lower() in tables:
            return f"{match[1]} is there already"
    if word == "select" and CATALOG.search(event.text):
        return "it asks what tables there are"
    if word == "select" and not FROM.search(event.text):
        return "it asks no table"
    return "an empty statement" if not word else None


class Planner:
    """Finds the fates of events, with the shapes of the tables."""

    def __init__(self, shapes: Mapping[str, Shape], tables: Sequence[str], views: Sequence[str]) -> None:
        self.shapes = shapes
        self.tables, self.views = [name.lower() for name in tables], [name.lower() for name in views]
        self.statements: Dict[str, Union[Statement, Unreadable]] = {}
        self.replies = 0
        self.keys: Dict[int, List[int]] = {}

    def statement(self, text: str) -> Statement:
        """The statement of a text, which is read once."""
        found = self.statements.get(text)
        if found is None:
            try:
                found = read_statement(text)
            except Unreadable as fault:
                found = fault
            self.statements[text] = found
        if isinstance(found, Unreadable):
            raise found
        return found

    def fate(self, event: Event) -> Fate:
        """What becomes of an event that wasn't undone."""
        word = first_word(event.text)
        refusals = refusals_of(event, self.shapes)
        if event.fault is not None and not refusals and event.way != "many":
            return Fate(SEEN, "the database didn't do it, and so it left nothing")
        reason = apart(event, self.tables)
        if reason is not None:
            return Fate(SEEN, reason)
        if event.connection.away:
            return Fate(UNREADABLE, f"it asks another database, {event.connection.away}",
                        "put the tables into one database")
        if any(isinstance(value, tuple) and value[:1] == ("other",)
               for row in event.rows[:100] for value in row):
            return Fate(UNREADABLE, "a converter of the program's own makes its values",
                        "convert the values after they are there")
        try:
            self.check_word(event, word)
            return self.asked(event, refusals)
        except Unreadable as fault:
            return Fate(UNREADABLE, self.told(event, fault), fault.way)

    def check_word(self, event: Event, word: str) -> None:
        if event.way == "script":
            raise Unreadable("a script of several statements", "ask them one by one")
        if TEMPORARY.search(event.text):
            raise Unreadable("a temporary table", "keep the rows in the program")
        if word in DEFINES:
            raise Unreadable(DEFINES[word], WAYS.get(word, ""))

    def told(self, event: Event, fault: Unreadable) -> str:
        """The reason, where a table is a view or was made by the program."""
        match = re.fullmatch(r"(\w+) is no table of the database", fault.reason)
        if match and match[1].lower() in self.views:
            return f"{match[1]} is a view"
        if match and match[1].lower() not in self.tables:
            return f"{match[1]} is no table that was there before the program"
        return fault.reason

    def asked(self, event: Event, refusals: FrozenSet[int]) -> Fate:
        statement = self.statement(event.text)
        if isinstance(statement, Query) and not any(core.sources for core in statement.cores):
            return Fate(SEEN, "it asks no table")
        sets = event.params if event.way == "many" else [event.params]
        # Of many the last one failed, where one did.
        if event.fault is not None and not refusals:
            sets = sets[:-1]
        plans = []
        for place, params in enumerate(sets):
            given = self.given(event, statement, place, len(sets))
            plans.append(plan_of(statement, self.shapes, event.connection.driver, params, given))
        if isinstance(statement, Insert) and len(statement.rows) > 1 and refusals & {5, 6}:
            # SQLite judges row by row, and which of two refusals comes first is another matter there.
            refusals = refusals | {5, 6}
        fate = Fate(ASKED, plans=plans, first=self.replies, refusals=refusals)
        if not isinstance(statement, Query) and event.head is not None:
            fate.reason = "what RETURNING gave is played back as it was seen"
        self.replies += len(plans)
        return fate

    def given(self, event: Event, statement: Statement, place: int, count: int) -> Given:
        """The keys that the database gave to the rows of an INSERT."""
        if not isinstance(statement, Insert):
            return Given([])
        rows = len(statement.rows)
        keys = self.keys.get(event.number)
        if keys is not None:
            return Given(keys[place * rows:(place + 1) * rows])
        if event.connection.driver != SQLITE or event.last is None:
            return Given([])
        last = event.last - rows * (count - 1 - place)
        return Given(range(last - rows + 1, last + 1))

    def find_keys(self, events: Sequence[Event]) -> None:
        """Finds the keys that sequences of a server gave: one after the other in the order of time, also
        where the rows were undone, and what RETURNING says."""
        following: Dict[str, int] = {}
        for event in events:
            statement = self.insert_of(event)
            shape = None if statement is None else self.shapes.get(statement.table.lower())
            key = None if shape is None else key_given(shape, event.connection.driver)
            if statement is None or shape is None or key is None:
                continue
            if key.old.lower() in [name.lower() for name in statement.columns or shape.names]:
                continue
            rows = len(statement.rows) * (len(event.params) if event.way == "many" else 1)
            begin = following.get(shape.table.old, shape.following.get(key.old.lower()))
            keys = returned_keys(event, key.old, rows)
            if keys is None and begin is not None:
                keys = list(range(begin, begin + rows))
            if keys:
                following[shape.table.old] = keys[-1] + 1
                self.keys[event.number] = keys

    def insert_of(self, event: Event) -> Optional[Insert]:
        """The INSERT that an event is."""
        if event.kind != "asked" or first_word(event.text) != "insert":
            return None
        try:
            statement = self.statement(event.text)
        except Unreadable:
            return None
        return statement if isinstance(statement, Insert) else None


def returned_keys(event: Event, name: str, rows: int) -> Optional[List[int]]:
    """The keys that RETURNING gave, where it gave them."""
    heads = [head.lower() for head in event.head or ()]
    if name.lower() not in heads or len(event.rows) != rows:
        return None
    keys = [row[heads.index(name.lower())] for row in event.rows]
    return keys if all(type(key) is int for key in keys) else None


def named_tables(events: Sequence[Event]) -> List[str]:
    """The tables of the captured database that statements name, in lower case, as far as these can be
    read."""
    found: Dict[str, None] = {}
    texts: Dict[str, None] = {event.text: None for event in events
                              if event.kind == "asked" and not event.connection.away}
    for text in texts:
        try:
            found.update((name.lower(), None) for name in tables_named(read_statement(text)))
        except Unreadable:
            pass
    return list(found)


Fates = List[Tuple[Event, Fate]]


def fates_of(ordered: Sequence[Event], undone: Sequence[Event], planner: Planner) -> Fates:
    """The fates of all statements: first those that took effect, in their order, then those that were
    undone."""
    planner.find_keys(sorted([*ordered, *undone], key=lambda event: event.number))
    found: Fates = [(event, planner.fate(event)) for event in ordered if event.kind == "asked"]
    for event in undone:
        what = "it was rolled back" if event.head is None else \
            "it was asked after a change that was rolled back, and so it isn't packed"
        found.append((event, Fate(SEEN, apart(event, planner.tables) or what)))
    return found
