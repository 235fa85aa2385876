"""The log of what a program asks its database: a file for each process, in which what is there stays when
the program is killed (`kept`).

A record is a tuple of marshal, which begins with a word that says what it is, or with the number of a
context:

    process  the number of a process of the system, its words, and the time
    driver   a module that was imported and isn't watched
    text     a number, and the text of a statement
    site     a number, a file and a line of the program
    connect  a connection, the driver, what it is connected to, thread, site, time
    context  a number, a connection, a way, a text, whether a transaction is open, thread, site, and the
             names of an answer's columns or None
    rows     what the program read: a list of pairs of the number of an event, and a row of its answer, a
             list of rows, or None if there is no other row
    fault    an event, and the exception that it ended with
    NUMBER   an event: its number, the time, its parameters, the number of changed rows, the key of the last
             row, and what the program read before it, as above or one pair; see Log.asked. What has no value
             at the end is left out

The way of an event is one, many or script, or that of an act: commit, rollback, close or other.

One statement of sqlite3 is written as STATEMENT, whose first number is 0 to 3, where marshal begins with a
bracket, and the parameters, or the parameters and what was read before as a pair, in marshal. The number has
HAS_KEY if the database gave a key, and HAS_ROWS if it is a pair.
"""
from __future__ import annotations

import atexit
import itertools
import marshal
import os
import struct
import sys
import time
from threading import RLock, get_ident

from _weakrefset import WeakSet

from .kept import Kept, refuse

# For a check of types alone: a program starts sooner without.
TYPE_CHECKING = False
if TYPE_CHECKING:
    import types
    from typing import Any, Callable, Dict, Iterable, List, Optional, Tuple, Union

    Fault = Optional[Tuple[Any, ...]]
    Frame = Union[types.FrameType, "Place"]
    # Of a statement the code of who asks it and the place there, whether a transaction is open, the
    # description of its answer, and the number of the context that these make.
    Last = Tuple[types.CodeType, int, bool, Any, int]
    Texts = Dict[Any, Last]
    Context = Tuple[Any, int, types.CodeType]
else:
    Texts = dict

# So many rows wait in memory for the next record at most, and so many stand in one.
MOST_WAITING, TOGETHER = 200, 10_000
# So many contexts are known at most, before they are forgotten and noted anew.
CONTEXTS = 20_000
FORM = 2
# A form, and of an event the context, its number, the time, the changed rows and the key.
STATEMENT = struct.Struct("@BIIdqq")
HAS_KEY, HAS_ROWS = 1, 2
HERE = os.path.dirname(os.path.abspath(__file__))
clock, dumps = time.monotonic, marshal.dumps
thread_now, frame_at = get_ident, sys._getframe


def library_folders() -> Tuple[str, ...]:
    """The folders whose lines aren't lines of the program, beside those of packages."""
    return (HERE, os.path.dirname(os.__file__))


class Place:
    """Where a frame of the program stands, for what is noted when it stands elsewhere."""

    f_back: Optional[Frame] = None

    def __init__(self, frame: Frame) -> None:
        self.f_code: types.CodeType = frame.f_code
        self.f_lasti: int = frame.f_lasti
        self.f_lineno: int = frame.f_lineno


class Unbegun:
    """In place of a file that isn't there yet."""

    write = staticmethod(refuse)


class Asked(Texts):
    """The last context of each statement of a connection, which one thread uses."""

    __slots__ = ("__weakref__",)
    # One is equal to itself alone, as what a set of them wants.
    __eq__ = object.__eq__
    __hash__ = object.__hash__                                               # type: ignore[assignment]

    def note(self, sql: str, last: Last) -> None:
        self[sql] = last


class AskedByThreads(Asked):
    """The same of a connection which several threads use."""

    __slots__ = ()

    def __getitem__(self, sql: str) -> Last:
        return super().__getitem__((sql, thread_now()))

    def note(self, sql: str, last: Last) -> None:
        self[sql, thread_now()] = last


class Log:
    """The log of this process, begun by its first record."""

    def __init__(self, folder: str) -> None:
        self.folder = folder
        self.libraries = library_folders()
        self.statements: WeakSet[Asked] = WeakSet()
        self.waiting: List[Tuple[int, Any]] = []
        self.forget()
        atexit.register(self.flush)
        os.register_at_fork(after_in_child=self.forget)

    def forget(self) -> None:
        """Begins anew: a child of a fork has a log of its own. What it inherits, it connects to once
        more."""
        self.lock = RLock()
        self.append: Callable[[bytes], None] = self.begin
        self.kept: Any = Unbegun
        self.numbers: Dict[str, Dict[Any, int]] = {"text": {}, "site": {}}
        self.files: Dict[str, bool] = {}
        self.threads: Dict[int, int] = {}
        # Of each context its columns, its number, and its code, which keeps its address so.
        self.contexts: Dict[Tuple[Any, ...], Context] = {}
        self.forget_contexts()
        self.context_numbers = itertools.count(1)
        self.events = itertools.count(1)
        self.waiting.clear()
        self.connections = 0

    def forget_contexts(self) -> None:
        self.contexts.clear()
        for asked in self.statements:
            asked.clear()

    # ---- records

    def write(self, record: Tuple[Any, ...]) -> None:
        self.append(dumps(record, FORM))

    def flush(self) -> None:
        """Writes what was read."""
        if self.waiting:
            self.write(("rows", self.read()))

    def read(self) -> List[Tuple[int, Any]]:
        """What was read, for one record. Other threads may read more meanwhile, which waits on."""
        with self.lock:
            rows = self.waiting[:]
            del self.waiting[:len(rows)]
        return rows

    def begin(self, data: bytes) -> None:
        """Writes the first record, in the first file that isn't there."""
        with self.lock:
            number = 0
            while self.append == self.begin:
                try:
                    kept = Kept(os.path.join(self.folder, f"process-{number}"))
                except FileExistsError:
                    number += 1
                    continue
                words = [str(word) for word in getattr(sys, "argv", [])]
                kept.append(dumps(("process", os.getpid(), words, clock()), FORM))
                self.kept, self.append = kept, kept.append
        self.append(data)

    def number_of(self, kind: str, what: Any) -> int:
        """The number of a text or a site; what hasn't one yet is written."""
        numbers = self.numbers[kind]
        found = numbers.get(what)
        if found is None:
            with self.lock:
                found = numbers.get(what)
                if found is None:
                    found = len(numbers)
                    self.write((kind, found, what))
                    numbers[what] = found
        return found

    # ---- rows

    def row(self, event: int, row: Any) -> None:
        """A row that the program got, or None where there is no other."""
        self.waiting.append((event, row))
        if len(self.waiting) >= MOST_WAITING:
            self.flush()

    def rows(self, event: int, rows: List[Any], is_end: bool) -> None:
        """Rows that the program got at once: few wait, and many are written."""
        if len(rows) < MOST_WAITING:
            for row in rows:
                self.row(event, row)
        else:
            for place in range(0, len(rows), TOGETHER):
                self.waiting.append((event, rows[place:place + TOGETHER]))
                self.flush()
        if is_end:
            self.row(event, None)

    # ---- where the program stands

    def site(self, frame: Frame) -> int:
        """The number of the line of the program that asks: the innermost one that is in no library."""
        frame = self.outer(frame)
        return self.number_of("site", (frame.f_code.co_filename, frame.f_lineno))

    def outer(self, frame: Frame) -> Frame:
        """The innermost frame of the program around one, or this one."""
        found: Optional[Frame] = frame
        while found is not None and not self.is_program(found.f_code.co_filename):
            found = found.f_back
        return frame if found is None else found

    def is_program(self, name: str) -> bool:
        """Whether a file is of the program, and not of a library."""
        found = self.files.get(name)
        if found is None:
            found = self.files[name] = not (
                name.startswith(self.libraries) or name.startswith("<frozen") or "-packages" in name)
        return found

    # ---- what is written

    def thread(self) -> int:
        """The number of this thread."""
        return self.threads.setdefault(thread_now(), len(self.threads) + 1)

    def note_driver(self, module: types.ModuleType) -> None:
        """A driver that isn't watched."""
        self.write(("driver", module.__name__))

    def statements_of(self, is_one_thread: bool) -> Asked:
        """The last contexts of a new connection."""
        found = Asked() if is_one_thread else AskedByThreads()
        self.statements.add(found)
        return found

    def connect(self, driver: str, where: str, frame: Frame) -> int:
        """A new connection, by its number."""
        with self.lock:
            self.connections += 1
            number = self.connections
        self.write(("connect", number, driver, where, self.thread(), self.site(frame), clock()))
        return number

    def act(self, connection: int, act: str, what: str, in_transaction: bool, frame: Frame,
            fault: Fault = None) -> None:
        """commit, rollback, close or another act of a connection."""
        self.asked(connection, act, what, (), None, -1, None, in_transaction, frame, fault)

    def asked(self, connection: int, way: str, text: str, params: Any, head: Any, changed: int, last: Any,
              in_transaction: bool, frame: Frame, fault: Fault) -> int:
        """A statement and what came of it, as an event: its number. `way` is one, many or script, `params`
        are those of one or a list of those of many, `head` the description of an answer or None,
        `changed` the number of changed rows or -1, `last` the key that the database gave to the last row or
        None, `frame` that of who asks, and `fault` the exception that it ended with or None."""
        number = self.context(connection, way, text, head, in_transaction, frame)[1]
        event = next(self.events)
        self.append(dumps((number, event, clock(), params, changed, last, self.read()), FORM))
        if fault is not None:
            self.write(("fault", event, fault))
        return event

    def context(self, connection: int, way: str, text: str, head: Any, in_transaction: bool,
                frame: Frame) -> Context:
        """What is known of who asks what. The line in a library is no line of the program: there the one
        that calls it counts."""
        own = self.outer(frame)
        code = own.f_code
        key = (text, id(code), own.f_lasti, connection, in_transaction, way, thread_now())
        known = self.contexts.get(key)
        if known is not None and known[0] == head:
            return known
        number = next(self.context_numbers)
        # A text may be of a subclass.
        text_number = self.number_of("text", str.__str__(text))
        self.write(("context", number, connection, way, text_number, in_transaction, self.thread(),
                    self.site(own), None if head is None else names_of(head)))
        if len(self.contexts) >= CONTEXTS:
            self.forget_contexts()
        known = self.contexts[key] = (head, number, code)
        return known

    def again(self, asked: Asked, connection: int, text: str, head: Any, in_transaction: bool,
              frame: Frame) -> int:
        """The number of the context of one statement, which is known when the same line asks it again."""
        head, number, code = self.context(connection, "one", text, head, in_transaction, frame)
        if code is frame.f_code:
            asked.note(text, (code, frame.f_lasti, in_transaction, head, number))
        return number

    # ---- the drivers

    def change_sqlite(self, module: types.ModuleType) -> None:
        from . import record_sqlite
        record_sqlite.change(module, self)

    def change_psycopg2(self, module: types.ModuleType) -> None:
        from . import record_psycopg2
        record_psycopg2.change(module, self)


def fault_of(fault: BaseException) -> Tuple[Any, ...]:
    """An exception as a log has it: its class, its arguments as far as they are plain, and its codes."""
    arguments = tuple(each if isinstance(each, (int, str, float)) else str(each) for each in fault.args)
    codes = {name: getattr(fault, name) for name in ("sqlite_errorcode", "sqlite_errorname", "pgcode",
                                                     "pgerror")
             if isinstance(getattr(fault, name, None), (int, str))}
    return (type(fault).__module__, type(fault).__name__, arguments, codes)


def names_of(description: Iterable[Any]) -> Tuple[Any, ...]:
    """The names of the columns of an answer; of a server with the numbers of their types."""
    return tuple([column[0] if column[1] is None else (column[0], column[1]) for column in description])
