"""Reads world documents as far as the tools need them, and gives the worlds of packages."""
from __future__ import annotations

import json
from typing import Any, Dict, Iterable, List, Mapping, NamedTuple, Optional, Sequence, Tuple

from .columns import UNKNOWN, Columns, columns_in
from .errors import Malformed
from .packages import Package
from .reply_columns import kinds_known
from .rerun import World
from .sql_check import Schemas
from .world_columns import Column, Form, Table
from .world_digest import digest_in_script, digest_of_document
from .world_rules import broken_rule


class Document(NamedTuple):
    """The start words, the seed, the files, the columns of each table where these are known, and what these
    are where they were read."""

    world: World
    schemas: Optional[Schemas]
    columns: Columns = UNKNOWN
    # The digest of the world, where it is known.
    digest: str = ""

    @property
    def kinds(self) -> Schemas:
        """The columns of tables. Where replies were recorded, those that are known."""
        return self.schemas if self.schemas is not None else kinds_known(self.columns)

    def notes(self) -> List[str]:
        """What is said where numbers are shown as they are carried."""
        return self.columns.notes(self.schemas is None or have_numbers(self.schemas.values()))


def have_numbers(tables: Iterable[Sequence[Tuple[str, str]]]) -> bool:
    """Whether some table has a column of numbers."""
    return any(kind.startswith("INT") for columns in tables for _, kind in columns)


def read_world(data: bytes) -> Document:
    """The world of a document. That it meets all rules is what `ldv run` and check.py say."""
    try:
        document = json.loads(data.decode())
        files = {path: file_bytes(content) for path, content in document["files"].items()}
        tables: Mapping[str, Any] = document.get("tables", {})
        schemas: Dict[str, List[Tuple[str, str]]] = {
            name: [(str(column), str(kind))
                   for column, kind in table["columns"]] for name, table in tables.items()}
        start = [str(word) for word in document["start"]]
        world = World(start, int(document.get("seed", 0)), files)
    except (AttributeError, KeyError, TypeError, ValueError, RecursionError):
        raise Malformed(str(broken_rule(data) or "it has no form of a world document")) from None
    if not start or start[0] not in files:
        raise Malformed(str(broken_rule(data) or "the first start word is no file"))
    return Document(world, schemas, columns_in(files, schemas), digest_in(data, world))


def digest_in(data: bytes, world: World) -> str:
    """The digest of a world whose start script writes one."""
    if digest_in_script(world.files[world.start[0]]) is None:
        return ""
    try:
        return digest_of_document(data, world.start, world.seed, world.files)
    except (AttributeError, KeyError, TypeError, ValueError):
        raise Malformed(str(broken_rule(data) or "it has no form of a world document")) from None


def tables_in(data: bytes, columns: Columns) -> List[Table]:
    """The tables of a document that meets all rules, as they were before they became its own."""
    found = []
    for name, given in json.loads(data.decode()).get("tables", {}).items():
        rows = given.get("rows", [])
        own = [column_in(columns, name, place, column, kind) for place, (column, kind) in
               enumerate(given["columns"], 1)]
        for place, column in enumerate(own):
            column.cells = [row[place] for row in rows]
        found.append(Table(name, own, len(rows), given.get("key", [])))
    return found


def column_in(columns: Columns, table: str, place: int, name: str, kind: str) -> Column:
    known = columns.column(table, name)
    found = Column(name, known.source if known else name, place, kind.split()[0], kind.endswith("NOT NULL"))
    if known is not None:
        found.scale = known.scale if known.kind == "decimal" else None
        found.date, found.date_form = known.order or None, known.form
        found.form, found.nulls = Form(known.decimal, "", known.unit), set(known.nulls)
        found.collation = known.collation
    return found


def file_bytes(content: Any) -> bytes:
    found: bytes = bytes.fromhex(content["hex"]) if isinstance(content, dict) else content.encode()
    return found


def world_of_package(package: Package) -> Document:
    """The package's own world. One of recorded replies has no tables."""
    files = {path: content or b"" for path, content in package.files}
    if not package.start or package.start[0] not in files:
        raise Malformed("the first start word is no file")
    world = World(package.start, package.seed, files)
    digest = digest_in_script(files[package.start[0]]) or ""
    if package.mode == "excluded":
        return Document(world, None, columns_in(dict(package.files)), digest)
    schemas = {table.name: table.columns for table in package.tables}
    return Document(world, schemas, columns_in(dict(package.files), schemas), digest)
