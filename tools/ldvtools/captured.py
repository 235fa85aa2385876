"""What a program asked: the logs of its processes as one list of events in the order of time."""
from __future__ import annotations

import marshal
import os
import re
from dataclasses import dataclass, field
from typing import Any, Dict, Iterator, List, Optional, Sequence, Tuple

from .errors import Refused
from .inside.kept import kept_records
from .inside.record import HAS_KEY, HAS_ROWS, STATEMENT

ACTS = ("commit", "rollback", "close", "other")


@dataclass
class Connection:
    """A connection: the number of its process, its own number there, and what it is connected to. `away` is
    the name of that where it isn't the database that is captured."""

    process: int
    number: int
    driver: str
    where: str
    away: str = ""


@dataclass
class Event:
    """A statement or an act of a connection, and what came of it. `kind` is asked or act, and the text of
    an act is commit, rollback, close or other. `way`, `params`, `head`, `changed`, `last` and `fault` are
    those of inside.record.Log.asked; `is_whole` says that the program read its answer to the end."""

    connection: Connection
    kind: str
    time: int
    thread: int
    file: str
    line: int
    text: str
    in_transaction: bool
    fault: Optional[Tuple[Any, ...]] = None
    way: str = "one"
    params: Any = ()
    head: Optional[Tuple[str, ...]] = None
    types: Optional[Tuple[int, ...]] = None
    changed: int = -1
    last: Optional[int] = None
    rows: List[Tuple[Any, ...]] = field(default_factory=list)
    is_whole: bool = False
    number: int = 0

    def place(self) -> str:
        """Where the program asked."""
        return f"{os.path.basename(self.file)} line {self.line}"


@dataclass
class Log:
    """What a program asked. The drivers are those that it imported and that aren't watched."""

    processes: List[List[str]] = field(default_factory=list)
    drivers: List[str] = field(default_factory=list)
    connections: List[Connection] = field(default_factory=list)
    events: List[Event] = field(default_factory=list)
    threads: Dict[Tuple[int, int], int] = field(default_factory=dict)
    files: List[str] = field(default_factory=list)


def records_of(data: bytes) -> Iterator[Tuple[Any, ...]]:
    """The records of a file. The last one may be cut off, where the program was killed."""
    for kept in kept_records(data):
        yield statement_of(kept) if kept[0] <= HAS_KEY | HAS_ROWS else marshal.loads(kept)


def statement_of(kept: bytes) -> Tuple[Any, ...]:
    """The record of one statement as that of any event."""
    form, number, event, time, changed, last = STATEMENT.unpack_from(kept)
    found = marshal.loads(kept[STATEMENT.size:])
    params, rows = found if form & HAS_ROWS else (found, ())
    return (number, event, time, params, changed, last if form & HAS_KEY else None, rows)


class Process:
    """Reads the records of one process."""

    def __init__(self, number: int, log: Log) -> None:
        self.number, self.log = number, log
        self.names: Dict[Tuple[str, int], Any] = {}
        self.connections: Dict[int, Connection] = {}
        self.contexts: Dict[int, Tuple[Any, ...]] = {}
        self.events: Dict[int, Event] = {}

    def read(self, record: Tuple[Any, ...]) -> None:
        kind, *rest = record
        if isinstance(kind, int):
            self.asked(self.contexts[kind], *rest)
        elif kind == "context":
            self.contexts[rest[0]] = tuple(rest[1:])
        elif kind == "process":
            self.log.processes.append(rest[1])
        elif kind == "driver":
            self.log.drivers.append(rest[0])
        elif kind in ("text", "site"):
            self.names[kind, rest[0]] = rest[1]
            if kind == "site" and rest[1][0] not in self.log.files:
                self.log.files.append(rest[1][0])
        elif kind == "connect":
            number, driver, where = rest[:3]
            self.connections[number] = Connection(self.number, number, driver, where)
            self.log.connections.append(self.connections[number])
        elif kind == "rows":
            self.rows(rest[0])
        elif kind == "fault":
            self.events[rest[0]].fault = rest[1]

    def asked(self, context: Tuple[Any, ...], number: int, time: int, params: Any, changed: int,
              last: Optional[int] = None, rows: Any = ()) -> None:
        pairs: List[Any] = [rows] if rows and isinstance(rows, tuple) else list(rows)
        self.rows(pairs)
        connection, way, text, in_transaction, thread, site, head = context
        file, line = self.names["site", site]
        what = self.names["text", text]
        kind = "act" if way in ACTS else "asked"
        if connection not in self.connections:
            raise Refused("a process asks over a connection that the process before its fork made; SQLite "
                          "and PostgreSQL don't allow that: let it connect itself")
        event = Event(self.connections[connection], kind, time, self.thread(thread), file, line,
                      way if kind == "act" else what, in_transaction, None, what if kind == "act" else way,
                      params, head, None, changed, last)
        if head and isinstance(head[0], tuple):
            event.head = tuple(name for name, _ in head)
            event.types = tuple(kind for _, kind in head)
        if number:
            self.events[number] = event
        self.log.events.append(event)

    def rows(self, rows: Sequence[Tuple[int, Any]]) -> None:
        for number, row in rows:
            event = self.events.get(number)
            if event is None or event.head is None:
                continue
            if row is None:
                event.is_whole = True
            elif isinstance(row, list):
                event.rows += row
            else:
                event.rows.append(row)

    def thread(self, number: int) -> int:
        return self.log.threads.setdefault((self.number, number), len(self.log.threads) + 1)


def read_logs(folder: str) -> Log:
    """The logs of a folder as one."""
    log = Log()
    names = [name for name in os.listdir(folder) if re.fullmatch("process-[0-9]+", name)]
    for number, name in enumerate(sorted(names, key=lambda name: int(name[8:]))):
        process = Process(number, log)
        with open(os.path.join(folder, name), "rb") as file:
            for record in records_of(file.read()):
                process.read(record)
    log.events.sort(key=lambda event: event.time)
    for number, event in enumerate(log.events):
        event.number = number
    return log
