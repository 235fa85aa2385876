"""The bytes of a package in version 2 (docs/FORMATS.md): a run of a joined package becomes one of its own."""
from __future__ import annotations

import hashlib
from typing import Callable, Iterable, List, Optional, Tuple, TypeVar

from .language import ACTS, ENDED, KEYED_REFUSALS, KINDS, MODES, RULES, WAITED
from .packages import Asked, Entry, Event, Log, Package, PackedRow, PackedTable, Run
from .values import Reply, Value

T = TypeVar("T")
MAGIC = b"LDVPACK2"
KIND_NUMBERS = {kind: number for number, kind in KINDS.items()}
RULE_NUMBERS = {rule: number for number, rule in RULES.items()}
MODE_NUMBERS = {mode: number for number, mode in MODES.items()}


def number(width: int, value: int) -> bytes:
    return value.to_bytes(width, "big")


def text(value: str) -> bytes:
    data = value.encode()
    return number(4, len(data)) + data


def listed(width: int, items: Iterable[T], spell: Callable[[T], bytes]) -> bytes:
    spelled = list(map(spell, items))
    return number(width, len(spelled)) + b"".join(spelled)


def value_bytes(value: Value) -> bytes:
    if value is None:
        return b"\0"
    if isinstance(value, int):
        return b"\1" + int(value).to_bytes(8, "big", signed=True)
    return b"\2" + text(value)


def file_bytes(file: Tuple[str, Optional[bytes]]) -> bytes:
    path, content = file
    return text(path) + (b"\2" if content is None else b"\1" + number(4, len(content)) + content)


def row_bytes(row: PackedRow) -> bytes:
    return (number(4, row.number) + number(4, row.statement) + number(1, RULE_NUMBERS[row.rule])
            + b"".join(map(value_bytes, row.values)))


def table_bytes(table: PackedTable) -> bytes:
    names = table.names()

    def place(name: str) -> bytes:
        return number(1, names.index(name))

    columns = listed(1, table.columns, lambda column: text(column[0]) + number(1, KIND_NUMBERS[column[1]]))
    foreign = listed(1, table.foreign, lambda each: listed(1, each.columns, place) + text(each.parent))
    return (text(table.name) + columns + listed(1, table.key, place) + foreign + number(4, table.next)
            + listed(4, table.rows, row_bytes))


def reply_bytes(reply: Reply) -> bytes:
    if reply.kind == "rows":
        return b"\1" + listed(4, reply.rows, lambda row: listed(2, row, value_bytes))
    if reply.kind == "changed":
        return b"\2" + number(8, reply.changed)
    taken = text(reply.table) + listed(1, reply.key, value_bytes) if reply.code in KEYED_REFUSALS else b""
    return b"\3" + number(1, reply.code) + taken


def entry_bytes(entry: Entry) -> bytes:
    return text(entry.text) + listed(2, entry.params, value_bytes) + reply_bytes(entry.reply)


def log_bytes(log: Log) -> bytes:
    parts: List[int] = [int(part) for part in log.process.split(".")]
    return listed(2, parts, lambda part: number(4, part)) + listed(4, log.entries, entry_bytes)


def asked_bytes(asked: Asked) -> bytes:
    reads = listed(2, asked.reads, lambda group: text(group[0]) + listed(
        4, group[1], lambda need: number(4, need.row) + number(4, need.version)
        + number(1, RULE_NUMBERS[need.rule])))
    made = listed(2, asked.made, lambda group: text(group[0]) + listed(
        4, group[1], lambda each: number(4, each.row) + number(4, each.version)))
    return number(4, asked.statement) + listed(2, asked.tables, text) + reads + made


def event_bytes(event: Event) -> bytes:
    act = ACTS[event.act]
    found = number(4, event.step) + number(4, event.process) + number(1, event.act)
    if act.has_path:
        return found + text(event.path) + (number(1, bool(event.found)) if act.has_flag else b"")
    if event.act == WAITED:
        return found + number(4, event.number)
    if event.act == ENDED:
        return found + number(1, event.number)
    return found + (asked_bytes(event.asked) if event.asked is not None else b"")


def run_bytes(run: Run) -> bytes:
    return event_bytes(run.first) + number(4, run.times) + number(4, run.stride)


def package_bytes(package: Package) -> bytes:
    """The bytes of a package, with their digest."""
    body = (MAGIC + number(1, MODE_NUMBERS[package.mode]) + listed(2, package.start, text)
            + number(8, package.seed) + number(4, package.steps) + listed(4, package.files, file_bytes)
            + listed(2, package.tables, table_bytes) + listed(4, package.logs, log_bytes)
            + listed(4, package.runs, run_bytes))
    return body + hashlib.sha256(body).digest()
