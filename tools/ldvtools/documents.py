"""Writes world documents (docs/FORMATS.md)."""
from __future__ import annotations

import json
import os
import sys
import tempfile
from typing import Iterable, Mapping, NamedTuple, Optional, Sequence, Tuple

from .errors import Refused
from .language import MAX_DOCUMENT


def as_json(value: object) -> str:
    return ENCODER.encode(value)


ENCODER = json.JSONEncoder(ensure_ascii=False, separators=(",", ":"))


def file_json(content: bytes) -> str:
    try:
        return as_json(content.decode())
    except UnicodeDecodeError:
        return as_json({"hex": content.hex()})


class Rows(NamedTuple):
    """The rows of a table as the document has them, and how many they are."""

    text: str
    number: int


def row_lines(cells: Iterable[str], count: int) -> Rows:
    """So many rows, each as its cells in JSON with commas between them."""
    return Rows("[\n        [" + "],\n        [".join(cells) + "]\n      ]" if count else "[]", count)


def table_json(columns: Sequence[Tuple[str, str]], key: Sequence[str], rows: Rows,
               following: Optional[int] = None, foreign: Sequence[Tuple[Sequence[str], str]] = ()) -> str:
    """A table. The number of the next row is left out where it is the number of rows."""
    parts = [f'      "columns": {as_json([list(column) for column in columns])}']
    if key:
        parts.append(f'      "key": {as_json(list(key))}')
    parts.append('      "rows": ' + rows.text)
    if following is not None and following != rows.number:
        parts.append(f'      "next": {following}')
    if foreign:
        parts.append(f'      "foreign": {as_json([[list(columns), parent] for columns, parent in foreign])}')
    return "{\n" + ",\n".join(parts) + "\n    }"


def members(pairs: Iterable[Tuple[str, str]]) -> str:
    lines = ",\n".join(f"    {as_json(name)}: {value}" for name, value in pairs)
    return f"{{\n{lines}\n  }}"


def document(start: Sequence[str], seed: int, files: Mapping[str, bytes],
             tables: Sequence[Tuple[str, str]]) -> bytes:
    """The bytes of a world document, within the limit on its length.
    Tables are JSON already, with their names."""
    parts = [f'  "start": {as_json(list(start))}']
    if seed:
        parts.append(f'  "seed": {seed}')
    parts.append('  "files": ' + members((path, file_json(content)) for path, content in files.items()))
    if tables:
        parts.append('  "tables": ' + members(tables))
    data = ("{\n" + ",\n".join(parts) + "\n}\n").encode()
    if len(data) > MAX_DOCUMENT:
        raise Refused(f"the document has {len(data)} bytes; the limit is {MAX_DOCUMENT}")
    return data


def write_file(data: bytes, path: Optional[str]) -> None:
    """Writes a file whole or not at all: one that was there stays where something fails."""
    try:
        if not path:
            sys.stdout.buffer.write(data)
            sys.stdout.buffer.flush()
        elif os.path.exists(path) and not os.path.isfile(path):
            with open(path, "wb") as file:
                file.write(data)
        else:
            replace_file(data, path)
    except OSError as fault:
        raise Refused(f"{path or 'standard output'}: {fault.strerror}") from None


def replace_file(data: bytes, path: str) -> None:
    path = os.path.realpath(path)
    handle, new = tempfile.mkstemp(dir=os.path.dirname(path), prefix=os.path.basename(path) + ".")
    try:
        with os.fdopen(handle, "wb") as file:
            file.write(data)
        mask = os.umask(0)
        os.umask(mask)
        os.chmod(new, os.stat(path).st_mode & 0o777 if os.path.exists(path) else 0o666 & ~mask)
        os.replace(new, path)
    except OSError:
        os.remove(new)
        raise
