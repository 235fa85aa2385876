"""psycopg2 as it is, but that a log has what is asked.

connection and cursor of psycopg2.extensions become subclasses with their names before psycopg2.extras
derives its own from them. """
from __future__ import annotations

import importlib
from typing import TYPE_CHECKING, Any, Iterable, List, Optional, Tuple, Type

from .noted import noted, noted_all
from .record import Log, Place, fault_of, frame_at

if TYPE_CHECKING:
    from .record import Frame

LOG: Log


def text_of(query: Any, cursor: Any) -> str:
    """A statement as a text: it may be bytes, or made by psycopg2.sql."""
    if isinstance(query, str):
        return query
    if isinstance(query, (bytes, bytearray)):
        return bytes(query).decode(errors="surrogateescape")
    return str(query.as_string(cursor)) if hasattr(query, "as_string") else str(query)


def params_of(values: Any) -> Any:
    """The parameters of a statement as a log has them."""
    return () if values is None else noted_all(values)


def row_of(row: Any) -> Tuple[Any, ...]:
    """A row of an answer as a log has it: it may be a list or a dictionary."""
    return tuple(map(noted, row.values() if isinstance(row, dict) else row))


def heads_of(description: Any) -> Optional[Tuple[Any, ...]]:
    """The names of an answer's columns with the numbers of their types."""
    return None if description is None else tuple((column[0], column[1]) for column in description)


def classes_of(plain_cursor: Type[Any], plain_connection: Type[Any]) -> Tuple[Type[Any], Type[Any]]:
    """The cursor and the connection that are noted."""

    class cursor(plain_cursor):                                              # type: ignore[misc]
        """A cursor whose statements and rows are noted. One of the server is noted when its first row
        comes."""

        ldv_event = 0
        ldv_waits: Any = None

        def ldv_note(self, way: str, text: str, params: Any, frame: Frame,
                     fault: Optional[BaseException]) -> None:
            connection = self.connection
            in_transaction = not connection.closed and connection.get_transaction_status() != 0
            head = None if fault is not None else heads_of(self.description)
            changed = -1 if fault is not None else self.rowcount
            self.ldv_event = LOG.asked(connection.ldv_number, way, text, params, head, changed, None,
                                       in_transaction, frame, None if fault is None else fault_of(fault))

        def execute(self, query: Any, vars: Any = None) -> Any:
            frame = frame_at(1)
            params = params_of(vars)
            try:
                found = super().execute(query, vars)
            except BaseException as fault:
                self.ldv_note("one", text_of(query, self), params, frame, fault)
                raise
            if self.name is None:
                self.ldv_note("one", text_of(query, self), params, frame, None)
            else:
                self.ldv_waits = ("one", text_of(query, self), params, Place(LOG.outer(frame)), None)
            return found

        def executemany(self, query: Any, vars_list: Iterable[Any]) -> Any:
            found: List[Any] = []

            def each() -> Iterable[Any]:
                for values in vars_list:
                    found.append(params_of(values))
                    yield values
            frame = frame_at(1)
            try:
                done = super().executemany(query, each())
            except BaseException as fault:
                self.ldv_note("many", text_of(query, self), found, frame, fault)
                raise
            self.ldv_note("many", text_of(query, self), found, frame, None)
            return done

        def ldv_other(self, what: str, words: Tuple[Any, ...], named: Any) -> Any:
            """What is no statement of SQL, or a call of a procedure."""
            frame = frame_at(2)
            done = getattr(super(), what)(*words, **named)
            self.ldv_note("one", f"{'CALL' if what == 'callproc' else 'COPY'} {words[:1]!r}", (), frame, None)
            return done

        def callproc(self, *words: Any, **named: Any) -> Any:
            return self.ldv_other("callproc", words, named)

        def copy_from(self, *words: Any, **named: Any) -> Any:
            return self.ldv_other("copy_from", words, named)

        def copy_to(self, *words: Any, **named: Any) -> Any:
            return self.ldv_other("copy_to", words, named)

        def copy_expert(self, *words: Any, **named: Any) -> Any:
            return self.ldv_other("copy_expert", words, named)

        # ---- rows

        def ldv_rows(self, rows: List[Any], is_end: bool) -> None:
            if self.ldv_waits is not None:
                waits, self.ldv_waits = self.ldv_waits, None
                self.ldv_note(*waits)
            LOG.rows(self.ldv_event, list(map(row_of, rows)), is_end)

        def fetchone(self) -> Any:
            row = super().fetchone()
            self.ldv_rows([] if row is None else [row], row is None)
            return row

        def fetchmany(self, size: Any = None) -> Any:
            size = self.arraysize if size is None else size
            rows = super().fetchmany(size)
            self.ldv_rows(rows, len(rows) < size)
            return rows

        def fetchall(self) -> Any:
            rows = super().fetchall()
            self.ldv_rows(rows, True)
            return rows

        def __next__(self) -> Any:
            try:
                row = super().__next__()
            except StopIteration:
                self.ldv_rows([], True)
                raise
            self.ldv_rows([row], False)
            return row

    class connection(plain_connection):                                      # type: ignore[misc]
        """A connection whose cursors are noted, and whose transactions are."""

        def __init__(self, *words: Any, **named: Any) -> None:
            super().__init__(*words, **named)
            info = self.info
            self.ldv_number = LOG.connect("psycopg2", f"{info.dbname} at {info.host}:{info.port}",
                                          frame_at(1))

        def cursor(self, *words: Any, **named: Any) -> Any:
            if len(words) < 2:
                named["cursor_factory"] = named.get("cursor_factory") or self.cursor_factory or cursor
            return super().cursor(*words, **named)

        def ldv_act(self, act: str, frame: Frame, fault: Optional[BaseException] = None) -> None:
            is_open = not self.closed and self.get_transaction_status() != 0
            LOG.act(self.ldv_number, act, "", is_open, frame, None if fault is None else fault_of(fault))

        def commit(self) -> None:
            try:
                super().commit()
            except BaseException as fault:
                self.ldv_act("commit", frame_at(1), fault)
                raise
            self.ldv_act("commit", frame_at(1))

        def rollback(self) -> None:
            try:
                super().rollback()
            except BaseException as fault:
                self.ldv_act("rollback", frame_at(1), fault)
                raise
            self.ldv_act("rollback", frame_at(1))

        def close(self) -> None:
            super().close()
            self.ldv_act("close", frame_at(1))

    return cursor, connection


def change(module: Any, log: Log) -> None:
    """Makes a recorder of psycopg2."""
    global LOG
    LOG = log
    extensions = importlib.import_module("psycopg2.extensions")
    plain_connect = module.connect
    cursor, connection = classes_of(extensions.cursor, extensions.connection)
    for own, name in ((cursor, "cursor"), (connection, "connection")):
        own.__module__, own.__qualname__ = "psycopg2.extensions", name
        setattr(extensions, name, own)

    def connect(dsn: Any = None, connection_factory: Any = None, cursor_factory: Any = None,
                **named: Any) -> Any:
        return plain_connect(dsn, connection_factory=connection_factory or connection,
                             cursor_factory=cursor_factory, **named)

    connect.__doc__ = plain_connect.__doc__
    module.connect = connect
