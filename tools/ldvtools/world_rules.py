"""The rules of a world document, in the order of docs/FORMATS.md: the first that one breaks, and where.

`ldv` names the rule alone. Each rule is tried over the whole document before the next one, as it does.
"""
from __future__ import annotations

import json
import math
import re
from typing import Any, Callable, Dict, Iterator, List, NamedTuple, Optional, Sequence, Tuple

from .file_kinds import told_kind
from .language import (
    KINDS,
    MAX_COLUMNS,
    MAX_DOCUMENT,
    MAX_FILE,
    MAX_FILES,
    MAX_FOREIGN,
    MAX_INT,
    MAX_PATH,
    MAX_ROWS,
    MAX_START_WORDS,
    MAX_TABLES,
    MAX_TEXT,
    MIN_INT,
    NAME,
    RESERVED,
)
from .scripts import BadLine, read_script
from .values import plain_count

MAX_NEXT = 4_294_967_295
MAX_JSON_DEPTH = 127
MEMBERS = {"start", "files", "seed", "tables"}
TABLE_MEMBERS = {"columns", "key", "foreign", "rows", "next"}


class Broken(NamedTuple):
    """A rule that a document breaks, as `ldv` names it, and where and how in words."""

    rule: str
    where: str

    def __str__(self) -> str:
        return f"{self.rule}: {self.where}"


class Fault(Exception):
    """A document breaks a rule."""

    def __init__(self, rule: str, where: str) -> None:
        super().__init__(where)
        self.broken = Broken(rule, where)


# ---- JSON

class NotWhole:
    """A number that is no whole number of 64 bits here, and how it is written."""

    def __init__(self, text: str) -> None:
        self.text = text[:40]


def whole(text: str) -> object:
    """What a number without a point or an exponent is. -0 is a float, and so is one beyond 64 bits."""
    if text == "-0" or len(text) > 20 or not MIN_INT <= int(text) < 2**64:
        return decimal(text)
    return int(text)


def decimal(text: str) -> NotWhole:
    if math.isinf(float(text)):
        raise Fault("not json", f"the number {text[:40]} is beyond the largest float")
    return NotWhole(text)


CONSTANT = re.compile(r'"(?:[^"\\]|\\.)*"|(-?Infinity|NaN)', re.DOTALL)


def no_number(text: str, word: str) -> None:
    """The fault of the first word in a text that Python takes for a number and JSON doesn't."""
    at = next(found.start() for found in CONSTANT.finditer(text) if found[1])
    raise Fault("not json", f"{place_in(text, at)}: {word} is no number of JSON")


DEPTH = re.compile(r'"(?:[^"\\]|\\.)*"|[][{}]', re.DOTALL)
HALF = re.compile(r"\\u[dD][89a-fA-F]")


def check_depth(text: str) -> None:
    """Arrays and objects nest at most 127 deep."""
    depth = 0
    for found in DEPTH.finditer(text):
        sign = found[0]
        if sign in "[{":
            depth += 1
            if depth > MAX_JSON_DEPTH:
                raise Fault("not json", f"{place_in(text, found.start())}: more than {MAX_JSON_DEPTH} arrays "
                                        "and objects in one another")
        elif sign in "]}":
            depth -= 1


def place_in(text: str, at: int) -> str:
    return f"line {text.count(chr(10), 0, at) + 1} column {at - text.rfind(chr(10), 0, at)}"


def halves(value: Any, where: str) -> Iterator[str]:
    """Where texts have half a surrogate pair."""
    if isinstance(value, str):
        if any("\ud800" <= char <= "\udfff" for char in value):
            yield where or "the document"
    elif isinstance(value, list):
        for place, each in enumerate(value):
            yield from halves(each, f"{where}[{place}]")
    elif isinstance(value, dict):
        for name, each in value.items():
            yield from halves(name, f"a name in {where or 'the document'}")
            yield from halves(each, f"{where}.{name}" if where else name)


def other_kind(data: bytes) -> Optional[str]:
    """What else than a world a file is. A world document that is broken isn't called one."""
    kind = told_kind(data)
    return None if kind is not None and kind.startswith("a world") else kind


def json_of(data: bytes) -> Any:
    """The value of a JSON text, with what is no whole number as NotWhole."""
    try:
        text = data.decode()
    except UnicodeDecodeError as fault:
        kind = other_kind(data)
        raise Fault("not json", f"it is {kind}" if kind else f"byte {fault.start} isn't UTF-8") from None
    if text[:1] == "\ufeff":
        raise Fault("not json", "it begins with a byte order mark: save it without one")
    check_depth(text)
    try:
        found = json.loads(text, parse_int=whole, parse_float=decimal,
                           parse_constant=lambda word: no_number(text, word))
    except json.JSONDecodeError as fault:
        kind = other_kind(data)
        where = f"line {fault.lineno} column {fault.colno}: {said_of_json(fault.msg)}"
        raise Fault("not json", f"it is {kind}" if kind else where) from None
    if HALF.search(text):
        for place in halves(found, ""):
            raise Fault("not json", f"{place} has half a surrogate pair")
    return found


JSON_WORDS = (
    ("Expecting value", "a value is due"), ("Expecting property name", "a name in \" is due"),
    ("Expecting ',' delimiter", "a comma or a bracket is due"), ("Expecting ':' delimiter", "a colon is due"),
    ("Extra data", "more stands behind the document"),
    ("Unterminated string", "a text begins here and doesn't end"),
    ("Invalid control character", "a control character stands in a text: write it as an escape"),
    ("Invalid \\escape", "a \\ stands before what is no escape"),
    ("Invalid \\u", "four hex digits are due"),
    ("Illegal trailing comma", "a comma stands before a bracket"))


def said_of_json(message: str) -> str:
    return next((words for begin, words in JSON_WORDS if message.startswith(begin)), "this is no JSON")


# ---- the shape

def told(value: object) -> str:
    """A value as a message names it."""
    if value is None:
        return "null"
    if isinstance(value, bool):
        return "true" if value else "false"
    if isinstance(value, NotWhole):
        is_whole = re.fullmatch("-?[0-9]+", value.text) is not None
        return f"the number {value.text}, which {'is out of range' if is_whole else 'is not whole'}"
    if isinstance(value, int):
        return f"the number {value}"
    if isinstance(value, str):
        return f"the text {json.dumps(value[:40], ensure_ascii=False)}"
    return "an array" if isinstance(value, list) else "an object"


def want(value: object, kind: type, where: str) -> Any:
    if not isinstance(value, kind) or isinstance(value, bool):
        what = {str: "a text", list: "an array", dict: "an object", int: "a whole number"}[kind]
        raise Fault("shape", f"{where} is {told(value)}, and {what} is due")
    return value


def want_number(value: object, least: int, most: int, where: str) -> int:
    number: int = want(value, int, where)
    if not least <= number <= most:
        raise Fault("shape", f"{where} is {number}, not from {least} to {most}")
    return number


def check_members(given: Dict[str, Any], known: "set[str]", needed: Sequence[str], where: str) -> None:
    for name in given:
        if name not in known:
            raise Fault("shape", f"{where} has a member {json.dumps(name[:60], ensure_ascii=False)}; the "
                                 f"members are {', '.join(sorted(known))}")
    for name in needed:
        if name not in given:
            raise Fault("shape", f"{where} has no member {name}")


def texts_of(value: object, where: str) -> List[str]:
    found: List[str] = want(value, list, where)
    for place, each in enumerate(found):
        want(each, str, f"{where}[{place}]")
    return found


HEX = re.compile(r"(?:[0-9a-fA-F]{2})*\Z")


def shape_file(path: str, value: object) -> bytes:
    where = f"the file {json.dumps(path[:60], ensure_ascii=False)}"
    if isinstance(value, str):
        return value.encode()
    if not isinstance(value, dict):
        raise Fault("shape", f"{where} is {told(value)}, and a text or {{\"hex\": ..}} is due")
    check_members(value, {"hex"}, ["hex"], where)
    digits: str = want(value["hex"], str, f"hex of {where}")
    if not HEX.match(digits):
        raise Fault("shape", f"hex of {where} isn't two hex digits for each byte")
    return bytes.fromhex(digits)


def shape_table(name: str, table: Any) -> None:
    where = f"the table {json.dumps(name[:60], ensure_ascii=False)}"
    want(table, dict, where)
    check_members(table, TABLE_MEMBERS, ["columns"], where)
    columns = want(table["columns"], list, f"columns of {where}")
    for place, column in enumerate(columns):
        here = f"column {place} of {where}, counted from 0,"
        if len(want(column, list, here)) != 2:
            raise Fault("shape", f"{here} has {plain_count(len(column), 'part')}, and a name and a kind are "
                                 "due")
        want(column[0], str, f"the name of {here}")
        if want(column[1], str, f"the kind of {here}") not in KINDS.values():
            raise Fault("shape", f"the kind of {here} is {told(column[1])}; kinds are "
                                 f"{', '.join(KINDS.values())}")
    texts_of(table.get("key", []), f"key of {where}")
    for place, each in enumerate(want(table.get("foreign", []), list, f"foreign of {where}")):
        here = f"foreign key {place} of {where}, counted from 0,"
        if len(want(each, list, here)) != 2:
            raise Fault("shape", f"{here} has {plain_count(len(each), 'part')}, and columns and a parent are "
                                 "due")
        texts_of(each[0], f"the columns of {here}")
        want(each[1], str, f"the parent of {here}")
    shape_rows(table.get("rows", []), columns, where)
    if "next" in table:
        want_number(table["next"], 0, 2**64 - 1, f"next of {where}")


def shape_rows(rows: Any, columns: List[Any], where: str) -> None:
    for number, row in enumerate(want(rows, list, f"rows of {where}")):
        here = f"row {number} of {where}"
        if len(want(row, list, here)) != len(columns):
            raise Fault("shape", f"{here} has {plain_count(len(row), 'cell')}, and the table has "
                                 f"{plain_count(len(columns), 'column')}")
        for value, column in zip(row, columns):
            if value is None or type(value) is str or type(value) is int and value <= MAX_INT:
                continue
            if type(value) is int:
                raise Fault("shape", f"{here}, column {column[0]}, is {told(value)}, not from {MIN_INT} to "
                                     f"{MAX_INT}")
            raise Fault("shape", f"{here}, column {column[0]}, is {told(value)}; a cell is null, a text or a "
                                 "whole number")


def check_shape(made: Any) -> Dict[str, bytes]:
    """The files of a document, by path."""
    want(made, dict, "the document")
    check_members(made, MEMBERS, ["start", "files"], "the document")
    texts_of(made["start"], "start")
    want_number(made.get("seed", 0), 0, 2**64 - 1, "seed")
    files = {path: shape_file(path, value) for path, value in want(made["files"], dict, "files").items()}
    for name, table in want(made.get("tables", {}), dict, "tables").items():
        shape_table(name, table)
    return files


# ---- names

def is_path(text: str) -> bool:
    is_long = not 1 <= len(text.encode()) <= MAX_PATH
    return not is_long and not any(ord(char) < 32 or ord(char) == 127 for char in text)


def check_name(what: str, name: str) -> None:
    shown = json.dumps(name[:70], ensure_ascii=False)
    if name in RESERVED:
        raise Fault("name", f"{what} {shown} is a reserved word")
    if not NAME.match(name):
        raise Fault("name", f"{what} {shown} isn't a name: a letter a to z or _, then such letters, digits "
                            "and _, 1 to 63 bytes")


def check_listed(names: Sequence[str], columns: Sequence[str], what: str) -> None:
    for place, name in enumerate(names):
        if name not in columns:
            shown = json.dumps(name[:60], ensure_ascii=False)
            raise Fault("name", f"{what} names {shown}, which is no column")
        if name in names[:place]:
            raise Fault("name", f"{what} names {name} twice")


def check_names(made: Any) -> None:
    for path in made["files"]:
        if not is_path(path):
            shown = json.dumps(path[:60], ensure_ascii=False)
            raise Fault("name", f"the path {shown}: one has 1 to {MAX_PATH} bytes and no control characters")
    tables = made.get("tables", {})
    for table, given in tables.items():
        check_name("the table", table)
        seen = set()
        for name, _ in given["columns"]:
            check_name(f"a column of {table}", name)
            if name in seen:
                raise Fault("name", f"{table} has two columns {name}")
            seen.add(name)
        names = [name for name, _ in given["columns"]]
        check_listed(given.get("key", []), names, f"the key of {table}")
        for columns, parent in given.get("foreign", []):
            check_listed(columns, names, f"a foreign key of {table}")
            if parent not in tables:
                raise Fault("name", f"a foreign key of {table} has the parent "
                                    f"{json.dumps(parent[:60], ensure_ascii=False)}, which is no table")
    if not made["start"] or not is_path(made["start"][0]):
        raise Fault("name", "start has no word" if not made["start"] else "the first start word is no path")


# ---- limits

def check_limits(made: Any, files: Dict[str, bytes]) -> None:
    def limit(count: int, most: int, what: str) -> None:
        if count > most:
            raise Fault("limit", f"{what}: {count}; the limit is {most}")

    tables = made.get("tables", {})
    limit(len(files), MAX_FILES, "files")
    for path, content in files.items():
        limit(len(content), MAX_FILE, f"bytes of the file {path}")
    limit(len(made["start"]), MAX_START_WORDS, "start words")
    for word in made["start"]:
        limit(len(word.encode()), MAX_TEXT, "bytes of a start word")
    limit(len(tables), MAX_TABLES, "tables")
    for name, table in tables.items():
        rows = table.get("rows", [])
        limit(len(table["columns"]), MAX_COLUMNS, f"columns of {name}")
        if not table["columns"]:
            raise Fault("limit", f"{name} has no column")
        limit(len(table.get("foreign", [])), MAX_FOREIGN, f"foreign keys of {name}")
        limit(len(rows), MAX_ROWS, f"rows of {name}")
        following = table.get("next", len(rows))
        if not len(rows) <= following <= MAX_NEXT:
            raise Fault("limit", f"next of {name} is {following}, not from {len(rows)}, its rows, to "
                                 f"{MAX_NEXT}")
        for number, row in enumerate(rows):
            for value, (column, _) in zip(row, table["columns"]):
                if isinstance(value, str) and len(value) * 4 > MAX_TEXT:
                    limit(len(value.encode()), MAX_TEXT, f"bytes of row {number} of {name}, column {column}")


# ---- rows

def cells_of(made: Any) -> Iterator[Tuple[str, str, str, object]]:
    """Each cell: where it is, its kind, and it itself."""
    for name, table in made.get("tables", {}).items():
        for number, row in enumerate(table.get("rows", [])):
            for value, (column, kind) in zip(row, table["columns"]):
                yield f"row {number} of {name}, column {column}", column, kind, value


def check_types(made: Any) -> None:
    for where, _, kind, value in cells_of(made):
        other = str if kind.startswith("INT") else int
        if isinstance(value, other):
            raise Fault("row type", f"{where}, is {told(value)}, and the column is {kind}")


def check_nulls(made: Any) -> None:
    for where, _, kind, value in cells_of(made):
        if value is None and kind.endswith("NOT NULL"):
            raise Fault("not null", f"{where}, is null, and the column is {kind}")


def keys_of(table: Any, names: Sequence[str]) -> Iterator[Tuple[object, ...]]:
    places = [[name for name, _ in table["columns"]].index(name) for name in names]
    return (tuple(row[place] for place in places) for row in table.get("rows", []))


def check_keys(made: Any) -> None:
    for name, table in made.get("tables", {}).items():
        kinds = dict(table["columns"])
        for column in table.get("key", []):
            if not kinds[column].endswith("NOT NULL"):
                raise Fault("key", f"the key of {name} names {column}, which isn't NOT NULL")
        seen: Dict[Tuple[object, ...], int] = {}
        for number, key in enumerate(keys_of(table, table["key"]) if table.get("key") else ()):
            if key in seen:
                raise Fault("key", f"row {number} of {name} has the key of row {seen[key]}: {shown_key(key)}")
            seen[key] = number


def shown_key(key: Sequence[object]) -> str:
    return ", ".join(json.dumps(value, ensure_ascii=False) for value in key)


def check_references(made: Any) -> None:
    tables = made.get("tables", {})
    for name, table in tables.items():
        kinds = dict(table["columns"])
        for columns, parent in table.get("foreign", []):
            other = dict(tables[parent]["columns"])
            key = tables[parent].get("key", [])
            what = f"the foreign key ({', '.join(columns)}) of {name} to {parent}"
            if not key or len(key) != len(columns):
                has = f"a key of {len(key)}" if key else "no key"
                raise Fault("reference", f"{what}: {parent} has {has}, and {len(columns)} are named")
            for own, its in zip(columns, key):
                if kinds[own].split()[0] != other[its].split()[0]:
                    raise Fault("reference", f"{what}: {own} is {kinds[own]}, and {its} is {other[its]}")


def check_parents(made: Any) -> None:
    tables = made.get("tables", {})
    for name, table in tables.items():
        for columns, parent in table.get("foreign", []):
            there = set(keys_of(tables[parent], tables[parent]["key"]))
            for number, key in enumerate(keys_of(table, columns)):
                if None not in key and key not in there:
                    raise Fault("reference", f"row {number} of {name} refers by ({', '.join(columns)}) to "
                                             f"{shown_key(key)}, which no row of {parent} has for a key")


# ---- the whole

def check_start(made: Any, files: Dict[str, bytes]) -> None:
    path = made["start"][0]
    if path not in files:
        raise Fault("no start", f"the first start word, {json.dumps(path, ensure_ascii=False)}, is no file; "
                                f"there are {', '.join(list(files)[:5]) or 'none'}")
    try:
        read_script(files[path])
    except BadLine as fault:
        raise Fault(f"bad script line {fault.line}", f"of {path}: {fault.rule}") from None


def broken_rule(data: bytes) -> Optional[Broken]:
    """The first rule that a document breaks, or None where it is a world."""
    try:
        if len(data) > MAX_DOCUMENT:
            # Where it is so long, nothing else of it is looked at.
            raise Fault("limit", f"bytes of the document: {len(data)}; the limit is {MAX_DOCUMENT}")
        made = json_of(data)
        files = check_shape(made)
        rules: Sequence[Callable[[], None]] = (
            lambda: check_names(made), lambda: check_limits(made, files), lambda: check_types(made),
            lambda: check_nulls(made), lambda: check_keys(made), lambda: check_references(made),
            lambda: check_parents(made), lambda: check_start(made, files))
        for rule in rules:
            rule()
    except Fault as fault:
        return fault.broken
    return None
