"""psycopg2 that connects to no server: connections and cursors have the answers that were captured."""
from __future__ import annotations

import importlib
import types
from typing import Any, Dict, Iterable, Iterator, List, Optional, Tuple

from .noted import plain_row
from .play import Event, Line, Player, fault_of
from .record_psycopg2 import params_of, text_of

PLAYER: Player
IDLE, IN_TRANSACTION = 0, 2
READY, BEGIN = 1, 2
VERSION = 150000


def driver(name: str = "") -> Any:
    """psycopg2, or a module of it."""
    return importlib.import_module("psycopg2" + name)


class cursor:
    """A cursor with the answers that were captured."""

    def __init__(self, conn: "connection", name: Any = None, scrollable: Any = None,
                 withhold: Any = False) -> None:
        self.connection, self.name, self.scrollable, self.withhold = conn, name, scrollable, withhold
        self.arraysize, self.itersize, self.closed = 1, 2000, False
        self.row_factory: Any = None
        self.description: Any = None
        self.query: Optional[bytes] = None
        self.statusmessage: Optional[str] = None
        self.rowcount, self.rownumber, self.lastrowid = -1, 0, 0
        self.ldv_rows: List[Tuple[Any, ...]] = []
        self.itersize = 2000

    # ---- statements

    def ldv_check(self) -> None:
        if self.closed:
            raise driver().InterfaceError("cursor already closed")
        if self.connection.closed:
            raise driver().InterfaceError("connection already closed")

    def ldv_ask(self, way: str, query: Any, params: Any) -> None:
        self.ldv_check()
        text = text_of(query, self)
        self.query = text.encode(errors="surrogateescape")
        self.description, self.rowcount, self.rownumber, self.ldv_rows = None, -1, 0, []
        event = self.connection.ldv_line.next(way, text, params, driver().OperationalError)
        self.connection.ldv_status = IN_TRANSACTION if event["in"] else IDLE
        if event.get("fault"):
            raise ldv_fault(event)
        self.ldv_show(event)

    def ldv_show(self, event: Event) -> None:
        if event.get("head") is not None:
            kinds = event.get("types") or [0] * len(event["head"])
            column = driver(".extensions").Column
            self.description = tuple(column(name=name, type_code=kind) for name,
                                     kind in zip(event["head"], kinds))
            self.ldv_rows = event.get("rows") or []
        self.rowcount = event.get("changed", -1)

    def execute(self, query: Any, vars: Any = None) -> None:
        self.ldv_ask("one", query, params_of(vars))

    def executemany(self, query: Any, vars_list: Iterable[Any]) -> None:
        self.ldv_ask("many", query, [params_of(values) for values in vars_list])

    def callproc(self, *words: Any, **named: Any) -> None:
        self.ldv_ask("one", f"CALL {words[:1]!r}", ())

    def copy_from(self, *words: Any, **named: Any) -> None:
        self.ldv_ask("one", f"COPY {words[:1]!r}", ())

    copy_to = copy_expert = copy_from

    def mogrify(self, query: Any, vars: Any = None) -> bytes:
        """A statement with its parameters written into it."""
        text = text_of(query, self)
        if vars is None:
            return text.encode()
        quoted = {name: literal(value) for name, value in vars.items()} if hasattr(vars, "keys") else \
            tuple(map(literal, vars))
        return (text % quoted).encode()

    # ---- rows

    def ldv_next(self, count: Optional[int]) -> List[Any]:
        self.ldv_check()
        if self.description is None:
            raise driver().ProgrammingError("no results to fetch")
        end = len(self.ldv_rows) if count is None else min(len(self.ldv_rows), self.rownumber + count)
        rows = [self.ldv_made(plain_row(row)) for row in self.ldv_rows[self.rownumber:end]]
        self.rownumber = end
        return rows

    def ldv_made(self, row: Tuple[Any, ...]) -> Any:
        """A row as the row factory makes it."""
        if self.row_factory is None:
            return row
        found = self.row_factory(self)
        for place, value in enumerate(row):
            found[place] = value
        return found

    def fetchone(self) -> Any:
        rows = self.ldv_next(1)
        return rows[0] if rows else None

    def fetchmany(self, size: Optional[int] = None) -> List[Any]:
        return self.ldv_next(self.arraysize if size is None else size)

    def fetchall(self) -> List[Any]:
        return self.ldv_next(None)

    def __iter__(self) -> Iterator[Any]:
        return self

    def __next__(self) -> Any:
        rows = self.ldv_next(1)
        if not rows:
            raise StopIteration
        return rows[0]

    def scroll(self, value: int, mode: str = "relative") -> None:
        place = value if mode == "absolute" else self.rownumber + value
        if not 0 <= place <= len(self.ldv_rows):
            raise driver().ProgrammingError("scroll destination out of bounds")
        self.rownumber = place

    def close(self) -> None:
        self.closed = True

    def setinputsizes(self, sizes: Any) -> None:
        """Does nothing, as in psycopg2."""

    def setoutputsize(self, size: Any, column: Any = None) -> None:
        """Does nothing, as in psycopg2."""

    def __enter__(self) -> "cursor":
        return self

    def __exit__(self, kind: Any, value: Any, trace: Any) -> None:
        self.close()


def ldv_fault(event: Event) -> BaseException:
    """The exception that an event was captured with."""
    return fault_of(event["fault"], {"psycopg2": driver(), "psycopg2.errors": driver(".errors"),
                                     "psycopg2.extensions": driver(".extensions")})


def literal(value: Any) -> str:
    """A value as a statement has it."""
    return str(driver(".extensions").adapt(value).getquoted().decode())


class Quoted:
    """A value that is quoted without a connection."""

    def __init__(self, adapter: Any) -> None:
        self.adapter = adapter
        if hasattr(adapter, "encoding"):
            adapter.encoding = "utf8"

    def getquoted(self) -> bytes:
        return bytes(self.adapter.getquoted())


class connection:
    """A connection to no server."""

    def __init__(self, dsn: str = "", **named: Any) -> None:
        self.dsn, self.closed, self.encoding, self.autocommit = dsn, 0, "UTF8", False
        self.cursor_factory: Any = None
        self.isolation_level: Any = None
        self.readonly: Any = None
        self.deferrable: Any = None
        self.notices: List[str] = []
        self.notifies: List[Any] = []
        self.server_version, self.protocol_version, self.async_ = VERSION, 3, 0
        self.ldv_line = Line(PLAYER, "psycopg2")
        self.ldv_status = IDLE
        words = driver(".extensions").parse_dsn(dsn) if dsn else {}
        self.info = types.SimpleNamespace(
            server_version=VERSION, dbname=words.get("dbname", ""), user=words.get("user", ""),
            host=words.get("host", ""), port=int(words.get("port", "5432")), dsn_parameters=words,
            transaction_status=IDLE, status=READY, backend_pid=0)

    def cursor(self, name: Any = None, cursor_factory: Any = None, withhold: Any = False,
               scrollable: Any = None) -> Any:
        if self.closed:
            raise driver().InterfaceError("connection already closed")
        factory = cursor_factory or self.cursor_factory or cursor
        return factory(self) if name is None else factory(self, name)

    @property
    def status(self) -> int:
        return BEGIN if self.ldv_status else READY

    def get_transaction_status(self) -> int:
        return self.ldv_status

    def get_parameter_status(self, name: str) -> Optional[str]:
        return {"server_version": "15.0", "standard_conforming_strings": "on", "client_encoding": "UTF8",
                "integer_datetimes": "on"}.get(name)

    def get_dsn_parameters(self) -> Dict[str, str]:
        return dict(self.info.dsn_parameters)

    def get_backend_pid(self) -> int:
        return 0

    def commit(self) -> None:
        self.ldv_done("commit")

    def rollback(self) -> None:
        self.ldv_done("rollback")

    def ldv_done(self, act: str) -> None:
        """Ends a transaction, and raises what that was captured with."""
        if self.closed:
            raise driver().InterfaceError("connection already closed")
        self.ldv_status = IDLE
        event = self.ldv_line.act(act)
        if event is not None:
            self.ldv_status = IN_TRANSACTION if event["in"] else IDLE
            raise ldv_fault(event)

    def close(self) -> None:
        self.closed, self.ldv_status = 1, IDLE

    def set_session(self, isolation_level: Any = None, readonly: Any = None, deferrable: Any = None,
                    autocommit: Any = None) -> None:
        self.isolation_level = self.isolation_level if isolation_level is None else isolation_level
        self.autocommit = self.autocommit if autocommit is None else autocommit

    def set_isolation_level(self, level: int) -> None:
        self.autocommit, self.isolation_level = level == 0, level or None

    def set_client_encoding(self, encoding: str) -> None:
        self.encoding = encoding

    def reset(self) -> None:
        self.ldv_done("rollback")

    def cancel(self) -> None:
        """There is nothing to be cancelled."""

    def __enter__(self) -> "connection":
        return self

    def __exit__(self, kind: Any, value: Any, trace: Any) -> None:
        self.commit() if kind is None else self.rollback()


def change(module: Any, player: Player) -> None:
    """Makes a player of psycopg2."""
    global PLAYER
    PLAYER = player
    extensions = driver(".extensions")
    plain_register, plain_adapt = extensions.register_type, extensions.adapt
    for own, name in ((cursor, "cursor"), (connection, "connection")):
        own.__module__, own.__qualname__ = "psycopg2.extensions", name
        setattr(extensions, name, own)

    def connect(dsn: Any = None, connection_factory: Any = None, cursor_factory: Any = None,
                **named: Any) -> Any:
        named.pop("async", None), named.pop("async_", None)
        found = (connection_factory or connection)(extensions.make_dsn(dsn, **named))
        if cursor_factory is not None:
            found.cursor_factory = cursor_factory
        return found

    def register_type(kind: Any, where: Any = None) -> None:
        """For one connection alone it does nothing: values are made already."""
        if where is None:
            plain_register(kind)

    def adapt(value: Any, *words: Any) -> Any:
        found = plain_adapt(value, *words)
        return Quoted(found) if hasattr(found, "prepare") else found

    def quote_ident(name: str, where: Any) -> str:
        return '"' + name.replace('"', '""') + '"'

    module.connect, extensions.register_type = connect, register_type
    extensions.adapt, extensions.quote_ident = adapt, quote_ident
