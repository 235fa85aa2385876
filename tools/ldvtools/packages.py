"""Reads packages: both versions, both modes, and joined ones. docs/FORMATS.md has the format.

The digest is compared, and the rest is read as far as tools need it: that a package is valid is what `ldv
replay` says. The trace stays in runs, since a short package may have twenty million events; `Package.events`
has them one by one.
"""
from __future__ import annotations

import hashlib
import struct
from typing import Callable, Dict, Iterator, List, Mapping, NamedTuple, Optional, Tuple, TypeVar, Union

from .errors import Malformed, Refused, TwoRuns
from .file_kinds import told_kind
from .language import (
    ACTS,
    ASKED,
    ENDED,
    KEYED_REFUSALS,
    KINDS,
    MAX_EVENTS,
    MAX_PROCESSES,
    MODES,
    NAME,
    REFUSALS,
    RULES,
    SPAWNED,
    WAITED,
)
from .values import Reply, Row, Value, changed_reply, refused_reply, rows_reply

VERSIONS = {b"LDVPACK1": 1, b"LDVPACK2": 2}
JOINED = b"LDVJOIN1"
MAGIC_LENGTH = 8
DIGEST_LENGTH = 32
# A row number or a step, a statement, a version or a process, and a rule or an act; a version; an i64.
ROW, VERSION, INT = struct.Struct(">IIB"), struct.Struct(">II"), struct.Struct(">q")
T = TypeVar("T")


class Need(NamedTuple):
    """A row that a statement needed, at its version before the statement."""

    row: int
    version: int
    rule: str


class Made(NamedTuple):
    """A version of a row that a statement made."""

    row: int
    version: int


class Asked(NamedTuple):
    """A statement in the trace: its number, the tables that it names,
    and by table what it needed and made."""

    statement: int
    tables: List[str]
    reads: List[Tuple[str, List[Need]]]
    made: List[Tuple[str, List[Made]]]


class Event(NamedTuple):
    """An event. Of the later fields those of its act have a meaning; `number` is a child's or a status."""

    step: int
    process: int
    act: int
    path: str = ""
    found: Optional[bool] = None
    number: int = 0
    asked: Optional[Asked] = None


class Run(NamedTuple):
    """Events that differ in their steps alone: `times` of them,
    each `stride` steps after the one before it."""

    first: Event
    times: int
    stride: int


class PackedRow(NamedTuple):
    """A row with its number, and the statement that needed it first with the rule."""

    number: int
    statement: int
    rule: str
    values: Row


class Foreign(NamedTuple):
    """A foreign key: the columns, and the table to whose key they refer."""

    columns: List[str]
    parent: str


class PackedTable(NamedTuple):
    """A table with its needed rows. `next` is the number that the next new row gets."""

    name: str
    columns: List[Tuple[str, str]]
    key: List[str]
    foreign: List[Foreign]
    next: int
    rows: List[PackedRow]

    def names(self) -> List[str]:
        return [name for name, _ in self.columns]


class Entry(NamedTuple):
    """A recorded statement with its parameters and its reply."""

    text: str
    params: Row
    reply: Reply


class Log(NamedTuple):
    """What one process asked, in order."""

    process: str
    entries: List[Entry]


Files = List[Tuple[str, Optional[bytes]]]


class Package(NamedTuple):
    """The parts of a package. A file that is only present has no content.
    `sizes` has the bytes of each section."""

    version: int
    mode: str
    start: List[str]
    seed: int
    steps: int
    files: Files
    tables: List[PackedTable]
    logs: List[Log]
    runs: List[Run]
    sizes: Mapping[str, int]
    row_bytes: int
    digest: str

    @property
    def events(self) -> Iterator[Event]:
        for run in self.runs:
            for place in range(run.times):
                yield run.first._replace(step=run.first.step + place * run.stride) if place else run.first

    def event_count(self) -> int:
        return sum(run.times for run in self.runs)

    def process_names(self) -> List[str]:
        """The names of the processes in the order in which they were made."""
        names, children = ["0"], [0]
        made = 1 + sum(run.times for run in self.runs if run.first.act == SPAWNED)
        if made > MAX_PROCESSES:
            raise Malformed(f"{made} processes; the limit is {MAX_PROCESSES}")
        for run in self.runs:
            for _ in range(run.times if run.first.act == SPAWNED else 0):
                parent = run.first.process
                if parent >= len(names):
                    raise Malformed(f"step {run.first.step}: there is no process {parent}")
                names.append(f"{names[parent]}.{children[parent]}")
                children[parent] += 1
                children.append(0)
        return names

    def table(self, name: str) -> Optional[PackedTable]:
        return next((table for table in self.tables if table.name == name), None)


class JoinedRun(NamedTuple):
    """What a run of a joined package picks out of the common files and tables, and its trace."""

    start: List[str]
    seed: int
    steps: int
    wholes: List[str]
    presents: List[str]
    tables: List[str]
    reasons: List[Tuple[str, int, int, str]]
    runs: List[Run]


class Joined(NamedTuple):
    """A joined package: the files and tables of both runs, and the two runs."""

    files: Files
    tables: List[PackedTable]
    picks: Tuple[JoinedRun, JoinedRun]
    sizes: Mapping[str, int]
    digest: str

    def run(self, number: int) -> Package:
        """The package of the run 1 or 2."""
        pick = self.picks[number - 1]
        content = dict(self.files)
        files: Files = [(path, content.get(path)) for path in pick.wholes]
        files += [(path, None) for path in pick.presents]
        reasons = {(table, row): (statement, rule) for table, row, statement, rule in pick.reasons}
        tables = [table._replace(rows=[PackedRow(row.number, *reasons[table.name, row.number], row.values)
                                       for row in table.rows if (table.name, row.number) in reasons])
                  for table in self.tables if table.name in pick.tables]
        return Package(2, "included", pick.start, pick.seed, pick.steps,
                       sorted(files, key=lambda file: file[0].encode()),
                       tables, [], pick.runs, {}, 0, self.digest)


class Reader:
    """The bytes of a package and how far they were read."""

    def __init__(self, data: bytes, version: int) -> None:
        self.data, self.place, self.version, self.row_bytes = data, MAGIC_LENGTH, version, 0
        self.sizes: Dict[str, int] = {}

    def take(self, count: int) -> bytes:
        if count > len(self.data) - self.place:
            raise Malformed(f"byte {self.place}: {count} bytes wanted, {len(self.data) - self.place} left")
        self.place += count
        return self.data[self.place - count:self.place]

    def number(self, width: int) -> int:
        return int.from_bytes(self.take(width), "big")

    def unpack(self, form: struct.Struct) -> Tuple[int, ...]:
        """Several numbers at once."""
        self.place += form.size
        if self.place > len(self.data):
            self.place -= form.size
            self.take(form.size)
        return form.unpack_from(self.data, self.place - form.size)

    def rule(self, number: int) -> str:
        if number not in RULES:
            raise Malformed(f"byte {self.place - 1}: {number} is none of {sorted(RULES)}")
        return RULES[number]

    def among(self, names: Mapping[int, T]) -> T:
        number = self.number(1)
        if number not in names:
            raise Malformed(f"byte {self.place - 1}: {number} is none of {sorted(names)}")
        return names[number]

    def text(self) -> str:
        start = self.place
        try:
            return self.take(self.number(4)).decode()
        except UnicodeDecodeError:
            raise Malformed(f"byte {start}: a text that isn't UTF-8") from None

    def name(self) -> str:
        """Of a table or a column."""
        start, name = self.place, self.text()
        if not NAME.match(name):
            raise Malformed(f"byte {start}: {name!r} is no name")
        return name

    def list(self, width: int, item: Callable[[], T]) -> List[T]:
        return [item() for _ in range(self.number(width))]

    def value(self) -> Value:
        kind = self.number(1)
        if kind == 0:
            return None
        if kind == 1:
            return self.unpack(INT)[0]
        if kind != 2:
            raise Malformed(f"byte {self.place - 1}: {kind} is no kind of a value")
        return self.text()

    def section(self, name: str, read: Callable[[], T], since: Optional[int] = None) -> T:
        """What is read, with its bytes under a name."""
        start = self.place if since is None else since
        found = read()
        self.sizes[name] = self.place - start
        return found

    def start(self) -> List[str]:
        return self.list(2, self.text)

    def seed_and_steps(self) -> Tuple[int, int]:
        return self.number(8), self.number(4)

    # ---- files, tables, logs

    def file(self) -> Tuple[str, Optional[bytes]]:
        path = self.text()
        is_whole = self.among({1: True, 2: False})
        return path, self.take(self.number(4)) if is_whole else None

    def column(self) -> Tuple[str, str]:
        return self.name(), self.among(KINDS)

    def column_of(self, table: str, columns: List[Tuple[str, str]]) -> str:
        place = self.number(1)
        if place >= len(columns):
            raise Malformed(f"byte {self.place - 1}: table {table} has no column {place}")
        return columns[place][0]

    def table(self, has_reasons: bool = True) -> PackedTable:
        name, columns = self.name(), self.list(1, self.column)
        key = self.list(1, lambda: self.column_of(name, columns))
        foreign: List[Foreign] = []
        if self.version > 1:
            foreign = self.list(1, lambda: Foreign(self.list(1, lambda: self.column_of(name, columns)),
                                                   self.name()))
        following, count = self.number(4), self.number(4)
        start = self.place
        rows = [self.row(len(columns), has_reasons) for _ in range(count)]
        self.row_bytes += self.place - start
        return PackedTable(name, columns, key, foreign, following, rows)

    def row(self, width: int, has_reasons: bool) -> PackedRow:
        if not has_reasons:
            return PackedRow(self.number(4), 0, "", [self.value() for _ in range(width)])
        number, statement, rule = self.unpack(ROW)
        return PackedRow(number, statement, self.rule(rule), [self.value() for _ in range(width)])

    def reply(self) -> Reply:
        kind = self.among({1: "rows", 2: "changed", 3: "refused"})
        if kind == "rows":
            return rows_reply(self.list(4, lambda: self.list(2, self.value)))
        if kind == "changed":
            return changed_reply(self.number(8))
        code = self.among({code: code for code in REFUSALS})
        if code not in KEYED_REFUSALS:
            return refused_reply(code)
        return refused_reply(code, self.text(), self.list(1, self.value))

    def entry(self) -> Entry:
        return Entry(self.text(), self.list(2, self.value), self.reply())

    def log(self) -> Log:
        name = self.list(2, lambda: self.number(4))
        return Log(".".join(map(str, name)), self.list(4, self.entry))

    # ---- the trace

    def asked(self) -> Asked:
        return Asked(self.number(4), self.list(2, self.text), self.list(2, self.needs),
                     self.list(2, self.makes))

    def needs(self) -> Tuple[str, List[Need]]:
        return self.text(), self.list(4, self.need)

    def makes(self) -> Tuple[str, List[Made]]:
        return self.text(), self.list(4, self.made)

    def need(self) -> Need:
        row, version, rule = self.unpack(ROW)
        return Need(row, version, self.rule(rule))

    def made(self) -> Made:
        return Made(*self.unpack(VERSION))

    def event(self) -> Event:
        step, process, number = self.unpack(ROW)
        if number >= len(ACTS):
            raise Malformed(f"byte {self.place - 1}: {number} is no act")
        act = ACTS[number]
        if act.has_path:
            path = self.text()
            return Event(step, process, number, path,
                         self.among({0: False, 1: True}) if act.has_flag else None)
        if number == WAITED:
            return Event(step, process, number, number=self.number(4))
        if number == ENDED:
            return Event(step, process, number, number=self.number(1))
        return Event(step, process, number, asked=self.asked())

    def run(self) -> Run:
        if self.version == 1:
            return Run(self.event(), 1, 0)
        start = self.place
        run = Run(self.event(), self.number(4), self.number(4))
        if run.times == 0 or run.times == 1 and run.stride != 0 or run.times > 1 and run.first.act == ASKED:
            raise Malformed(f"byte {start}: a run of {run.times} events with the stride {run.stride}")
        return run

    def trace(self) -> List[Run]:
        runs = self.list(4, self.run)
        count = sum(run.times for run in runs)
        if count > MAX_EVENTS:
            raise Malformed(f"{count} events; the limit is {MAX_EVENTS}")
        return runs

    # ---- the whole

    def package(self) -> Package:
        mode = self.section("magic, mode", lambda: self.among(MODES), since=0)
        start = self.section("start", self.start)
        seed, steps = self.section("seed, steps", self.seed_and_steps)
        files = self.section("files", lambda: self.list(4, self.file))
        tables = self.section("tables", lambda: self.list(2, self.table))
        logs = self.section("logs", lambda: self.list(4, self.log))
        runs = self.section("trace", self.trace)
        return Package(self.version, mode, start, seed, steps, files, tables, logs, runs, self.sizes,
                       self.row_bytes, "")

    def picked(self) -> JoinedRun:
        start = self.start()
        seed, steps = self.seed_and_steps()
        wholes, presents, tables = self.list(4, self.text), self.list(4, self.text), self.list(2, self.text)
        reasons = self.list(4, self.reason)
        return JoinedRun(start, seed, steps, wholes, presents, tables, reasons, self.trace())

    def reason(self) -> Tuple[str, int, int, str]:
        """Why a run of a joined package needs a row."""
        table = self.text()
        row, statement, rule = self.unpack(ROW)
        return table, row, statement, self.rule(rule)

    def joined(self) -> Joined:
        self.sizes["magic"] = MAGIC_LENGTH
        files = self.section("files", lambda: self.list(4, self.file))
        tables = self.section("tables", lambda: self.list(2, lambda: self.table(has_reasons=False)))
        first = self.section("run 1", self.picked)
        second = self.section("run 2", self.picked)
        return Joined(files, tables, (first, second), self.sizes, "")

    def end(self) -> None:
        if self.place != len(self.data):
            raise Malformed(f"byte {self.place}: more bytes than a package has")
        self.sizes["digest"] = DIGEST_LENGTH


def read_any(data: bytes, reads: Callable[[bytes, int], Reader] = Reader) -> Union[Package, Joined]:
    """The package or joined package that bytes spell; Malformed where they spell none. `reads` makes the
    reader of these bytes without their digest, and of their version."""
    magic = data[:MAGIC_LENGTH]
    if magic not in VERSIONS and magic != JOINED:
        kind = told_kind(data)
        raise Malformed("it doesn't begin with LDVPACK1 or LDVPACK2, as `ldv record` writes a package"
                        + (f"; it is {kind}" if kind else "; it is empty" if not data else ""))
    digest = data[-DIGEST_LENGTH:]
    if len(data) < MAGIC_LENGTH + DIGEST_LENGTH or hashlib.sha256(data[:-DIGEST_LENGTH]).digest() != digest:
        raise Malformed("its digest is another one: bytes were lost or changed on the way")
    reader = reads(data[:-DIGEST_LENGTH], VERSIONS.get(magic, 2))
    found: Union[Package, Joined] = reader.joined() if magic == JOINED else reader.package()
    reader.end()
    return found._replace(digest=digest.hex())


def read_package(data: bytes, run: Optional[int] = None) -> Package:
    """The package that bytes spell. Of a joined package `run` says which of its two; TwoRuns where it
    doesn't."""
    found = read_any(data)
    if isinstance(found, Package):
        if run is not None:
            raise Refused("it isn't a joined package, and has no runs to choose from")
        return found
    if run is None:
        raise TwoRuns("it is a joined package, which has two runs; --run 1 or --run 2 says which one")
    return found.run(run)
