"""Reads outcomes, which `ldv run` and `ldv replay` write. docs/FORMATS.md has the format."""
from __future__ import annotations

import re
from typing import Dict, List, NamedTuple, NoReturn, Optional, Tuple

from .errors import Malformed
from .file_kinds import told_kind
from .language import MAX_FILE, MAX_PATH, MAX_PROCESSES, MAX_TEXT
from .values import Reply, Row, Value, changed_reply, escaped, refused_reply, rows_reply

NATURAL = r"(0|[1-9][0-9]*)"
PROCESS = rf"process (0(?:\.(?:0|[1-9][0-9]{{0,9}}))*) {NATURAL} {NATURAL} {NATURAL}"
REPLY = (rf"(rows) {NATURAL}|(changed) {NATURAL}|(refused) ([1-57])"
         rf"|(refused) ([689]) ([a-z_][a-z0-9_]{{0,62}}) {NATURAL}")


class Process(NamedTuple):
    """What became of one process."""

    name: str
    status: int
    printed: str
    replies: List[Reply]


class Outcome(NamedTuple):
    """The processes by name, and each touched path with its bytes, or None where it is gone."""

    processes: List[Process]
    touched: List[Tuple[str, Optional[bytes]]]


class Reader:
    """The bytes of an outcome and how far they were read."""

    def __init__(self, data: bytes) -> None:
        self.data, self.place = data, 0

    def refuse(self, message: str, place: Optional[int] = None) -> NoReturn:
        place = self.place if place is None else place
        line = self.data.count(b"\n", 0, place) + 1
        raise Malformed(f"byte {place} (line {line}): {message}")

    def line(self, pattern: str, expected: str) -> List[str]:
        """The parts of the next line, which has to have a form."""
        end = self.data.find(b"\n", self.place)
        if end < 0:
            self.refuse(f"the input ends, but {expected} is due" if self.place == len(self.data)
                        else "the last line doesn't end with LF")
        found = self.data[self.place:end]
        match = re.fullmatch(pattern.encode(), found)
        if match is None:
            shown = escaped(found[:60].decode(errors="backslashreplace"))
            self.refuse(f"'{shown}' where {expected} is due")
        self.place = end + 1
        return [part.decode() for part in match.groups() if part is not None]

    def number(self, text: str, least: int, most: int, what: str) -> int:
        """The number of a text of digits of the line before."""
        if len(text) > 20 or not least <= int(text) <= most:
            self.refuse(f"{what} is {text[:30]}, not from {least} to {most}", self.place - 1)
        return int(text)

    def block(self, length: int, what: str) -> bytes:
        """The bytes of a length and the LF after them."""
        start, end = self.place, self.place + length
        if end >= len(self.data):
            left = len(self.data) - start
            self.refuse(f"expected {what} of {length} bytes and LF; found {left} bytes")
        if self.data[end:end + 1] != b"\n":
            self.refuse(f"no LF after the {length} bytes of {what}", end)
        self.place = end + 1
        return self.data[start:end]

    def text(self, length: int, what: str) -> str:
        start = self.place
        try:
            return self.block(length, what).decode()
        except UnicodeDecodeError as fault:
            self.refuse(f"{what} isn't UTF-8", start + fault.start)


def read_value(reader: Reader) -> Value:
    parts = reader.line(rf"(null)|(int) (-?{NATURAL})|(text) {NATURAL}", "a value: null, int D or text N")
    if parts[0] == "null":
        return None
    if parts[0] == "text":
        return reader.text(reader.number(parts[1], 0, MAX_TEXT, "the length of a text"), "a text")
    if parts[1] == "-0":
        reader.refuse("-0 is no number", reader.place - 1)
    digits = parts[1].lstrip("-")
    if parts[1].startswith("-"):
        return -reader.number(digits, 0, 2**63, "a number below 0, without its sign,")
    return reader.number(digits, 0, 2**63 - 1, "a number")


def read_values(reader: Reader, count: int) -> Row:
    return [read_value(reader) for _ in range(count)]


def read_reply(reader: Reader) -> Reply:
    kind, first, *rest = reader.line(REPLY, "a reply: rows N, changed N or refused CODE")
    if kind == "changed":
        return changed_reply(reader.number(first, 0, 2**64 - 1, "the number of changed rows"))
    if kind == "refused":
        if not rest:
            return refused_reply(int(first))
        width = reader.number(rest[1], 0, 255, "the width of a key")
        return refused_reply(int(first), rest[0], read_values(reader, width))
    rows = []
    for _ in range(reader.number(first, 0, 2**32 - 1, "the number of rows")):
        text, = reader.line(rf"row {NATURAL}", "row W")
        rows.append(read_values(reader, reader.number(text, 0, 65_535, "the width of a row")))
    return rows_reply(rows)


Names = Dict[Tuple[int, ...], str]


def read_process(reader: Reader, names: Names) -> Process:
    """The next process. `names` has those of the processes before it, in order."""
    name, status, length, count = reader.line(PROCESS, "process NAME STATUS N R")
    check_name(reader, name, names)
    ended = reader.number(status, 0, 255, "the status")
    size = reader.number(length, 0, MAX_FILE, "the length of what is printed")
    replies = reader.number(count, 0, 2**32 - 1, "the number of replies")
    printed = reader.text(size, "what is printed")
    return Process(name, ended, printed, [read_reply(reader) for _ in range(replies)])


def check_name(reader: Reader, text: str, names: Names) -> None:
    """Adds the name of a process to those before it, which have its parent and its elder siblings."""
    name = tuple(int(part) for part in text.split("."))
    if names and name <= next(reversed(names)) or not names and name != (0,):
        reader.refuse(f"process {text} is out of order", reader.place - 1)
    if len(name) > 1 and name[:-1] not in names:
        reader.refuse(f"process {text} has no parent", reader.place - 1)
    if name[-1] > 0 and name[:-1] + (name[-1] - 1,) not in names:
        reader.refuse(f"the process before {text} isn't there", reader.place - 1)
    names[name] = text


def read_path(reader: Reader, before: Optional[str]) -> Tuple[str, Optional[bytes]]:
    """The next touched path, with its bytes, or None where it is removed."""
    kind, length, *size = reader.line(
        rf"(file) {NATURAL} {NATURAL}|(removed) {NATURAL}", "file A N or removed A")
    start = reader.place
    path = reader.text(reader.number(length, 1, MAX_PATH, "the length of a path"), "a path")
    if any(ord(char) < 32 or ord(char) == 127 for char in path):
        reader.refuse("a path with a control character", start)
    if before is not None and path.encode() <= before.encode():
        reader.refuse(f"the path {path} is out of order", start)
    if kind == "removed":
        return path, None
    return path, reader.block(reader.number(size[0], 0, MAX_FILE, "the length of a file"), "a file")


def read_outcome(data: bytes) -> Outcome:
    """The outcome that bytes spell; Malformed where they spell none."""
    if not data:
        raise Malformed("it is empty; did the run fail? It says why on standard error")
    if data.startswith(b"outcome ") and data.split(b"\n", 1)[0].endswith(b"\r"):
        raise Malformed("its lines end with CR and LF: something changed the ends of its lines; copy it as "
                        "it is")
    kind = None if data.startswith(b"outcom") else told_kind(data)
    if kind:
        raise Malformed(f"it is {kind}")
    reader = Reader(data)
    head = reader.line(rf"outcome {NATURAL} {NATURAL}", "outcome P F")
    processes = reader.number(head[0], 1, MAX_PROCESSES, "the number of processes")
    paths = reader.number(head[1], 0, 2**32 - 1, "the number of touched paths")
    names: Names = {}
    found: List[Process] = []
    touched: List[Tuple[str, Optional[bytes]]] = []
    for _ in range(processes):
        found.append(read_process(reader, names))
    for _ in range(paths):
        touched.append(read_path(reader, touched[-1][0] if touched else None))
    if reader.place != len(data):
        reader.refuse("more bytes follow the end of the outcome")
    return Outcome(found, touched)
