"""What stands at a byte of a package: `audit` names the first one that isn't as its own run has it."""
from __future__ import annotations

from typing import Callable, List, Optional, Tuple, TypeVar

from .errors import Refused
from .packages import (
    DIGEST_LENGTH,
    Entry,
    Event,
    Joined,
    Log,
    Made,
    Need,
    PackedRow,
    PackedTable,
    Reader,
    Run,
    read_any,
)
from .trace import event_line
from .values import cell, escaped

T = TypeVar("T")


class Finder(Reader):
    """Reads a package, and notes what a byte of it belongs to: the smallest part first."""

    def __init__(self, data: bytes, version: int, at: int) -> None:
        super().__init__(data, version)
        self.at = at
        self.found: List[str] = []
        self.event_found: Optional[Tuple[int, Event]] = None
        self.events = 0

    def noted(self, start: int, part: T, told: Callable[[T], str]) -> T:
        """A part that was read from a place up to here, noted where the byte is in it."""
        if start <= self.at < self.place:
            self.found.append(told(part))
        return part

    def section(self, name: str, read: Callable[[], T], since: Optional[int] = None) -> T:
        start = self.place if since is None else since
        return self.noted(start, super().section(name, read, since), lambda _: f"section {name}")

    def file(self) -> Tuple[str, Optional[bytes]]:
        return self.noted(self.place, super().file(), lambda file: f"file {escaped(file[0])}")

    def column(self) -> Tuple[str, str]:
        return self.noted(self.place, super().column(), lambda column: f"column {' '.join(column)}")

    def table(self, has_reasons: bool = True) -> PackedTable:
        return self.noted(self.place, super().table(has_reasons), lambda table: f"table {table.name}")

    def row(self, width: int, has_reasons: bool) -> PackedRow:
        def told(row: PackedRow) -> str:
            why = f", statement {row.statement}, rule {row.rule}" if has_reasons else ""
            return f"row {row.number}{why}: {' | '.join(map(cell, row.values))}"
        return self.noted(self.place, super().row(width, has_reasons), told)

    def reason(self) -> Tuple[str, int, int, str]:
        def told(reason: Tuple[str, int, int, str]) -> str:
            table, row, statement, rule = reason
            return f"row {row} of {table}, statement {statement}, rule {rule}"
        return self.noted(self.place, super().reason(), told)

    def log(self) -> Log:
        return self.noted(self.place, super().log(), lambda log: f"log of process {log.process}")

    def entry(self) -> Entry:
        return self.noted(self.place, super().entry(), lambda entry: f"statement {escaped(entry.text)}")

    def needs(self) -> Tuple[str, List[Need]]:
        return self.noted(self.place, super().needs(), lambda group: f"rows of {group[0]} that it needed")

    def need(self) -> Need:
        return self.noted(self.place, super().need(),
                          lambda need: f"row {need.row}, version {need.version}, rule {need.rule}")

    def makes(self) -> Tuple[str, List[Made]]:
        return self.noted(self.place, super().makes(),
                          lambda group: f"versions of rows of {group[0]} that it made")

    def made(self) -> Made:
        return self.noted(self.place, super().made(), lambda made: f"row {made.row}, version {made.version}")

    def trace(self) -> List[Run]:
        self.events = 0
        return super().trace()

    def run(self) -> Run:
        start, place = self.place, self.events
        run = super().run()
        self.events += run.times
        if start <= self.at < self.place:
            self.event_found = place, run.first
            self.found.append("event")
        return run


def byte_lines(data: bytes, at: int) -> List[str]:
    """What stands at a byte of a package, from the section down to the smallest part."""
    if not 0 <= at < len(data):
        raise Refused(f"there is no byte {at}; the package has {len(data)}, counted from 0")
    finders: List[Finder] = []

    def reads(body: bytes, version: int) -> Finder:
        finders.append(Finder(body, version, at))
        return finders[0]

    package = read_any(data, reads)
    finder, = finders
    lines = [f"byte {at} of {len(data)}: {data[at]:02x}"]
    if at >= len(data) - DIGEST_LENGTH:
        return [*lines, "the digest of all bytes before"]
    for told in reversed(finder.found):
        if told == "event" and finder.event_found is not None:
            place, event = finder.event_found
            which = package if not isinstance(package, Joined) else package.run(
                1 if "section run 1" in finder.found else 2)
            told = f"event {place}, counted from 0: {event_line(event, which.process_names())}"
        lines.append(told)
    return lines
