"""sqlite3 that opens nothing: a connection is one to an empty database in memory, and its cursors have the
answers that were captured."""
from __future__ import annotations

import sqlite3
from typing import TYPE_CHECKING, Any, Iterable, List, Optional

from .noted import plain_row
from .play import Event, Line, Player, fault_of
from .record_sqlite import parameters_of

if TYPE_CHECKING:
    from sqlite3 import Connection as PlainConnection
    from sqlite3 import Cursor as PlainCursor
else:
    from _sqlite3 import Connection as PlainConnection
    from _sqlite3 import Cursor as PlainCursor

plain_execute = PlainCursor.execute
DESCRIPTION: Any = PlainCursor.__dict__["description"]
PLAYER: Player


def heads(names: Iterable[str]) -> str:
    """A query without rows that has columns of these names."""
    columns = ", ".join('NULL AS "' + name.replace('"', '""') + '"' for name in names)
    return f"SELECT {columns} WHERE 0"


class Cursor(PlainCursor):
    """A cursor with the answers that were captured."""

    def __init__(self, connection: Any, *rest: Any) -> None:
        super().__init__(connection, *rest)
        self.ldv_rows: List[Any] = []
        self.ldv_place, self.ldv_has_head, self.ldv_is_closed = 0, False, False
        self.ldv_changed: int = -1
        self.ldv_last: Optional[int] = None

    # ---- statements

    def ldv_ask(self, way: str, text: str, params: Any) -> "Cursor":
        self.ldv_check()
        connection: Any = self.connection
        event = connection.ldv_line.next(way, text, params, sqlite3.OperationalError)
        connection.ldv_in = event["in"]
        self.ldv_rows, self.ldv_place, self.ldv_has_head = [], 0, False
        if event.get("fault"):
            raise fault_of(event["fault"], {"sqlite3": sqlite3})
        self.ldv_show(event)
        return self

    def ldv_show(self, event: Event) -> None:
        if event.get("head") is not None:
            plain_execute(self, heads(event["head"]))
            self.ldv_has_head, self.ldv_rows = True, event.get("rows") or []
        self.ldv_changed = event.get("changed", -1)
        self.ldv_last = event.get("last", self.ldv_last)
        connection: Any = self.connection
        connection.ldv_total += max(self.ldv_changed, 0)

    def execute(self, sql: str, parameters: Any = (), /) -> "Cursor":
        if not isinstance(parameters, (tuple, list, dict)) and hasattr(parameters, "__next__"):
            parameters = list(parameters)
        return self.ldv_ask("one", sql, parameters_of(parameters))

    def executemany(self, sql: str, parameters: Iterable[Any], /) -> "Cursor":
        return self.ldv_ask("many", sql, [parameters_of(values) for values in parameters])

    def executescript(self, sql_script: str, /) -> "Cursor":
        return self.ldv_ask("script", sql_script, ())

    # ---- what came of one

    @property
    def description(self) -> Any:
        return DESCRIPTION.__get__(self) if self.ldv_has_head else None

    @property
    def rowcount(self) -> int:
        return self.ldv_changed

    @property
    def lastrowid(self) -> Optional[int]:
        return self.ldv_last

    # ---- rows

    def ldv_check(self) -> None:
        if self.ldv_is_closed:
            raise sqlite3.ProgrammingError("Cannot operate on a closed cursor.")

    def ldv_next(self, count: Optional[int]) -> List[Any]:
        """So many rows, or all that are left, as the row factory makes them."""
        self.ldv_check()
        end = len(self.ldv_rows) if count is None else min(len(self.ldv_rows), self.ldv_place + count)
        rows: List[Any] = list(map(plain_row, self.ldv_rows[self.ldv_place:end]))
        self.ldv_place = end
        factory: Any = self.row_factory
        return rows if factory is None else [factory(self, row) for row in rows]

    def fetchone(self) -> Any:
        rows = self.ldv_next(1)
        return rows[0] if rows else None

    def fetchmany(self, size: Optional[int] = None) -> List[Any]:
        return self.ldv_next(self.arraysize if size is None else size)

    def fetchall(self) -> List[Any]:
        return self.ldv_next(None)

    def __iter__(self) -> "Cursor":
        return self

    def __next__(self) -> Any:
        rows = self.ldv_next(1)
        if not rows:
            raise StopIteration
        return rows[0]

    def close(self) -> None:
        super().close()
        self.ldv_is_closed = True


class Connection(PlainConnection):
    """A connection that opens no database."""

    def __init__(self, database: Any, *words: Any, **named: Any) -> None:
        named.pop("uri", None)
        super().__init__(":memory:", *words[:6], **named)
        self.ldv_line = Line(PLAYER, "sqlite3")
        self.ldv_in, self.ldv_total = False, 0

    def cursor(self, factory: Any = None) -> Any:
        return super().cursor(Cursor if factory is None else factory)

    def execute(self, sql: str, parameters: Any = (), /) -> Any:
        return self.cursor().execute(sql, parameters)

    def executemany(self, sql: str, parameters: Iterable[Any], /) -> Any:
        return self.cursor().executemany(sql, parameters)

    def executescript(self, sql_script: str, /) -> Any:
        return self.cursor().executescript(sql_script)

    @property
    def in_transaction(self) -> bool:
        return self.ldv_in

    @property
    def total_changes(self) -> int:
        return self.ldv_total

    def ldv_act(self, act: str) -> None:
        """Raises what an act was captured with."""
        event = self.ldv_line.act(act)
        if event is not None:
            self.ldv_in = event["in"]
            raise fault_of(event["fault"], {"sqlite3": sqlite3})

    def commit(self) -> None:
        self.ldv_act("commit")
        super().commit()
        self.ldv_in = False

    def rollback(self) -> None:
        self.ldv_act("rollback")
        super().rollback()
        self.ldv_in = False

    def __exit__(self, kind: Any, value: Any, trace: Any) -> Any:
        self.ldv_act("commit" if kind is None else "rollback")
        self.ldv_in = False
        return super().__exit__(kind, value, trace)

    def backup(self, target: Any, *words: Any, **named: Any) -> None:
        self.ldv_act("other")
        super().backup(target, *words, **named)


def change(module: Any, player: Player) -> None:
    """Makes a player of sqlite3.dbapi2."""
    global PLAYER
    PLAYER = player
    plain_connect = module.connect

    def connect(*words: Any, **named: Any) -> Any:
        if len(words) < 6:
            named.setdefault("factory", Connection)
        if words:
            words = (":memory:", *words[1:])
        else:
            named["database"] = ":memory:"
        return plain_connect(*words, **named)

    connect.__doc__ = plain_connect.__doc__
    for own, name in ((Connection, "Connection"), (Cursor, "Cursor")):
        own.__module__, own.__qualname__, own.__name__ = "sqlite3", name, name
        setattr(module, name, own)
    module.connect = connect
