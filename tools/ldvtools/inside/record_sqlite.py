"""sqlite3 as it is, but that a log has what is asked.

Connection and Cursor become subclasses with their names, so that what a program makes of them is recorded
too. Rows are noted before a row factory gets them. """
from __future__ import annotations

import importlib
import sqlite3

from .kept import pack, sum_of
from .noted import PLAIN, noted, noted_all
from .record import FORM, HAS_KEY, HAS_ROWS, MOST_WAITING, STATEMENT, Log, clock, dumps, fault_of, frame_at

# For a check of types alone: a program starts sooner without.
TYPE_CHECKING = False
if TYPE_CHECKING:
    from sqlite3 import Connection as PlainConnection
    from sqlite3 import Cursor as PlainCursor
    from typing import Any, Iterable, List, Optional

    from .record import Frame
else:
    from _sqlite3 import Connection as PlainConnection
    from _sqlite3 import Cursor as PlainCursor

# A cursor and a connection of the system have their row factory in a field that the property of the subclass
# hides.
FACTORY: Any = PlainCursor.__dict__["row_factory"]
CONNECTION_FACTORY: Any = PlainConnection.__dict__["row_factory"]
TEXT_FACTORY: Any = PlainConnection.__dict__["text_factory"]
plain_execute, plain_fetch = PlainCursor.execute, PlainCursor.fetchone
plain_cursor: Any = PlainConnection.cursor
pack_statement = STATEMENT.pack
adapt: Any = importlib.import_module("_sqlite3").adapt
LOG: Log
WAITING: List[Any]
# Whether a converter, a text factory or a row factory of the program may have made values of rows.
ARE_MADE = False


def note_made() -> None:
    """Has values of rows looked at from now on."""
    global ARE_MADE
    ARE_MADE = True


def adapted(value: Any) -> Any:
    """A parameter as SQLite gets it."""
    if type(value) in PLAIN:
        return value
    try:
        return noted(adapt(value))
    except sqlite3.ProgrammingError:
        return noted(value)


def parameters_of(values: Any) -> Any:
    """The parameters of a statement as a log has them."""
    if type(values) is tuple:
        for value in values:
            if type(value) not in PLAIN:
                break
        else:
            return values
    return noted_all(values, adapted)


def row_of(row: Any) -> Any:
    """A row of an answer as a log has it."""
    for value in row:
        if type(value) not in PLAIN:
            return tuple(map(noted, row))
    return row


def take(cursor: "Cursor", row: Any) -> Any:
    """Notes a row, and gives it to the row factory of the program."""
    LOG.row(cursor.ldv_event, row_of(row))
    return cursor.ldv_factory(cursor, row)


class Cursor(PlainCursor):
    """A cursor of sqlite3 whose statements and rows are noted."""

    ldv_event = 0
    ldv_factory: Any = None

    @property
    def row_factory(self) -> Any:
        return self.ldv_factory

    @row_factory.setter
    def row_factory(self, factory: Any) -> None:
        note_made()
        self.ldv_factory = factory
        FACTORY.__set__(self, None if factory is None else take)

    def execute(self, sql: str, parameters: Any = (), /) -> Any:
        return ask(self, self.connection, sql, parameters, frame_at(1))

    def ldv_note(self, way: str, sql: str, params: Any, frame: Frame, fault: Optional[BaseException],
                 last: Optional[int] = None) -> None:
        connection: Any = self.connection
        changed = self.rowcount if fault is None else -1
        noted_fault = None if fault is None else fault_of(fault)
        self.ldv_event = LOG.asked(connection.ldv_number, way, str(sql), params, None, changed, last,
                                   connection.in_transaction, frame, noted_fault)

    def executemany(self, sql: str, parameters: Iterable[Any], /) -> "Cursor":
        found: List[Any] = []

        def each() -> Iterable[Any]:
            for values in parameters:
                found.append(parameters_of(values))
                yield values
        try:
            super().executemany(sql, each())
        except BaseException as fault:
            self.ldv_note("many", sql, found, frame_at(1), fault)
            raise
        self.ldv_note("many", sql, found, frame_at(1), None, self.ldv_last(sql) if found else None)
        return self

    def ldv_last(self, sql: str) -> Optional[int]:
        """The key of the row that an INSERT made last, which a cursor of many doesn't have."""
        if sql.lstrip()[:6].lower() != "insert":
            return None
        last: int = plain_execute(PlainCursor(self.connection), "SELECT last_insert_rowid()").fetchone()[0]
        return last

    def executescript(self, sql_script: Any, /) -> "Cursor":
        try:
            super().executescript(sql_script)
        except BaseException as fault:
            self.ldv_note("script", sql_script, (), frame_at(1), fault)
            raise
        self.ldv_note("script", sql_script, (), frame_at(1), None)
        return self

    # ---- rows

    def fetchone(self) -> Any:
        row = found = plain_fetch(self)
        if ARE_MADE and row is not None:
            if self.ldv_factory is not None:
                return row
            found = row_of(row)
        WAITING.append((self.ldv_event, found))
        if len(WAITING) >= MOST_WAITING:
            LOG.flush()
        return row

    def fetchmany(self, *words: Any, **named: Any) -> List[Any]:
        rows = super().fetchmany(*words, **named)
        size = named.get("size", words[0] if words else self.arraysize)
        self.ldv_rows(rows, size is not None and len(rows) < size)
        return rows

    def fetchall(self) -> List[Any]:
        rows = super().fetchall()
        self.ldv_rows(rows, True)
        return rows

    def ldv_rows(self, rows: List[Any], is_end: bool) -> None:
        if self.ldv_factory is not None:
            LOG.rows(self.ldv_event, [], is_end)
        else:
            LOG.rows(self.ldv_event, list(map(row_of, rows)) if ARE_MADE else rows, is_end)

    def __next__(self) -> Any:
        try:
            row = super().__next__()
        except StopIteration:
            LOG.row(self.ldv_event, None)
            raise
        if self.ldv_factory is None:
            LOG.row(self.ldv_event, row_of(row))
        return row


def taken() -> Any:
    """What was read, for one record: one row as it waits, or a list."""
    try:
        return WAITING.pop() if len(WAITING) == 1 else LOG.read()
    except IndexError:
        # Another thread took it.
        return []


def ask(cursor: Any, connection: Any, sql: str, parameters: Any, frame: Frame) -> Any:
    """Asks one statement, and notes it with what came of it."""
    if hasattr(parameters, "__next__") and not isinstance(parameters, (tuple, list, dict)):
        parameters = list(parameters)
    try:
        plain_execute(cursor, sql, parameters)
    except BaseException as fault:
        cursor.ldv_note("one", sql, parameters_of(parameters), frame, fault)
        raise
    return note(cursor, connection, sql, parameters_of(parameters), frame)


def note(cursor: Any, connection: Any, sql: str, parameters: Any, frame: Frame) -> Any:
    """Notes a statement, whose parameters are as a log has them, with what came of it. It does what Log.asked
    does by itself: of many small statements this is what a recorder costs."""
    head, is_open = cursor.description, connection.in_transaction
    try:
        code, place, was_open, known, number = connection.ldv_asked[sql]
        is_known = (code is frame.f_code and place == frame.f_lasti and was_open is is_open and known == head)
    except KeyError:
        is_known = False
    if not is_known:
        number = LOG.again(connection.ldv_asked, connection.ldv_number, sql, head, is_open, frame)
    # A change has no rows that name it.
    cursor.ldv_event = event = 0 if head is None else next(LOG.events)
    last = cursor.lastrowid if head is None else None
    form = 0 if last is None else HAS_KEY
    if WAITING:
        form, parameters = form | HAS_ROWS, (parameters, taken())
    data = (pack_statement(form, number, event, clock(), cursor.rowcount, last or 0)
            + dumps(parameters, FORM))
    try:
        LOG.kept.write(pack(len(data), sum_of(data)) + data)
    except ValueError:
        LOG.append(data)
    return cursor


class Connection(PlainConnection):
    """A connection of sqlite3 whose cursors are noted, and whose transactions are. It is simple if its
    cursors are those of this module, without a row factory."""

    ldv_is_simple = False

    @property
    def text_factory(self) -> Any:
        return TEXT_FACTORY.__get__(self)

    @text_factory.setter
    def text_factory(self, factory: Any) -> None:
        note_made()
        TEXT_FACTORY.__set__(self, factory)

    @property
    def row_factory(self) -> Any:
        return CONNECTION_FACTORY.__get__(self)

    @row_factory.setter
    def row_factory(self, factory: Any) -> None:
        CONNECTION_FACTORY.__set__(self, factory)
        self.ldv_is_simple = type(self) is Connection and factory is None

    def __init__(self, *words: Any, **named: Any) -> None:
        super().__init__(*words, **named)
        self.ldv_asked = LOG.statements_of(bool(words[4] if len(words) > 4
                                                else named.get("check_same_thread", True)))
        self.ldv_number = LOG.connect("sqlite3", database_of(self), frame_at(1))
        self.ldv_is_simple = type(self) is Connection
        if words[2] if len(words) > 2 else named.get("detect_types", 0):
            note_made()

    def cursor(self, factory: Any = None) -> Any:
        found = super().cursor(Cursor if factory is None else factory)
        factory = FACTORY.__get__(found)
        if factory is not None and factory is not take:
            found.row_factory = factory
        return found

    def execute(self, sql: str, parameters: Any = (), /) -> Any:
        # Its line is that of who called this.
        if self.ldv_is_simple and type(parameters) is tuple:
            # As ask does, without a call.
            cursor = plain_cursor(self, Cursor)
            try:
                plain_execute(cursor, sql, parameters)
            except BaseException as fault:
                cursor.ldv_note("one", sql, parameters_of(parameters), frame_at(1), fault)
                raise
            for value in parameters:
                if type(value) not in PLAIN:
                    parameters = noted_all(parameters, adapted)
                    break
            return note(cursor, self, sql, parameters, frame_at(1))
        cursor = self.cursor()
        if type(cursor) is Cursor:
            return ask(cursor, self, sql, parameters, frame_at(1))
        return cursor.execute(sql, parameters)

    def executemany(self, sql: str, parameters: Iterable[Any], /) -> Any:
        return self.cursor().executemany(sql, parameters)

    def executescript(self, sql_script: Any, /) -> Any:
        return self.cursor().executescript(sql_script)

    def ldv_act(self, act: str, what: str, frame: Frame, fault: Optional[BaseException] = None) -> None:
        noted_fault = None if fault is None else fault_of(fault)
        LOG.act(self.ldv_number, act, what, self.in_transaction, frame, noted_fault)

    def commit(self) -> None:
        try:
            super().commit()
        except BaseException as fault:
            self.ldv_act("commit", "", frame_at(1), fault)
            raise
        self.ldv_act("commit", "", frame_at(1))

    def rollback(self) -> None:
        try:
            super().rollback()
        except BaseException as fault:
            self.ldv_act("rollback", "", frame_at(1), fault)
            raise
        self.ldv_act("rollback", "", frame_at(1))

    def close(self) -> None:
        super().close()
        LOG.act(self.ldv_number, "close", "", False, frame_at(1))

    def __exit__(self, kind: Any, value: Any, trace: Any) -> Any:
        was_open = self.in_transaction
        act = "commit" if kind is None else "rollback"
        try:
            found = super().__exit__(kind, value, trace)
        except BaseException as fault:
            self.ldv_act(act, "", frame_at(1), fault)
            raise
        if was_open:
            self.ldv_act(act, "", frame_at(1))
        return found

    def backup(self, target: Any, *words: Any, **named: Any) -> None:
        try:
            super().backup(target, *words, **named)
        except BaseException as fault:
            self.ldv_act("other", "backup", frame_at(1), fault)
            raise
        self.ldv_act("other", "backup", frame_at(1))
        if isinstance(target, Connection):
            target.ldv_act("other", "backup", frame_at(1))


def database_of(connection: Any) -> str:
    """The file of a connection, or an empty text where it has none."""
    rows = plain_execute(PlainCursor(connection), "PRAGMA database_list").fetchall()
    return next((str(row[2]) for row in rows if row[1] == "main"), "")


def change(module: Any, log: Log) -> None:
    """Makes a recorder of sqlite3.dbapi2."""
    global LOG, WAITING
    LOG, WAITING = log, log.waiting
    plain_connect = module.connect

    def connect(*words: Any, **named: Any) -> Any:
        if len(words) < 6:
            named.setdefault("factory", Connection)
        return plain_connect(*words, **named)

    connect.__doc__ = plain_connect.__doc__
    for own, name in ((Connection, "Connection"), (Cursor, "Cursor")):
        own.__module__, own.__qualname__, own.__name__ = "sqlite3", name, name
        setattr(module, name, own)
    module.connect = connect
