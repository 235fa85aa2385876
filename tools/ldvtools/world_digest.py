"""The digest of a world, by which an outcome says of which world it is.

The script that world.py makes ends by making an empty file whose name is the digest of its world. An outcome
has each file that its run made, so it says of which world it is, and a world that was edited since has
another digest. The line that makes the file is left out of what is digested.
"""
from __future__ import annotations

import hashlib
import json
import re
from typing import Any, Iterable, List, Mapping, Optional, Sequence, Tuple

from .documents import as_json, row_lines, table_json
from .outcomes import Outcome
from .scripts_of_statements import escaped

FOLDER = "ldv-world/"
# What stands in a script in place of the digest while that isn't known yet.
NO_DIGEST = "0" * 64
LINE = re.compile(rb'(?m)^open world w "ldv-world/([0-9a-f]{64})" else known\n')


def digest_of(start: Sequence[str], seed: int, files: Mapping[str, bytes],
              tables: Iterable[Tuple[str, str]]) -> str:
    """The digest of a world; tables are as `documents` writes them, with their names."""
    found = hashlib.sha256(f"{as_json(list(start))}\n{seed}\n".encode())
    for path, content in sorted(files.items()):
        plain = LINE.sub(b"", content)
        found.update(f"{as_json(path)} {hashlib.sha256(plain).hexdigest()}\n".encode())
    for name, text in sorted(tables):
        found.update(f"{name} {text}\n".encode())
    return found.hexdigest()


def digest_of_document(data: bytes, start: Sequence[str], seed: int, files: Mapping[str, bytes]) -> str:
    """The digest of a world document that meets all rules."""
    tables: Mapping[str, Any] = json.loads(data.decode()).get("tables", {})
    return digest_of(start, seed, files, [(name, written(table)) for name, table in tables.items()])


def written(table: Mapping[str, Any]) -> str:
    """A table as `documents` writes it."""
    rows = table.get("rows", [])
    text = row_lines((as_json(row)[1:-1] for row in rows), len(rows))
    return table_json(table["columns"], table.get("key", []), text, table.get("next"),
                      table.get("foreign", []))


def digest_line(digest: str) -> str:
    return f'open world w "{escaped(FOLDER + digest)}" else known'


def digest_in_script(script: bytes) -> Optional[str]:
    """The digest that a script writes, where it writes one."""
    found = LINE.search(script)
    return found[1].decode() if found else None


def digests_in(outcome: Outcome) -> List[str]:
    """The digests of worlds that an outcome names."""
    return [path[len(FOLDER):] for path, _ in outcome.touched if path.startswith(FOLDER)]


def without_digest(outcome: Outcome) -> Outcome:
    """An outcome without the files that name its world, for people."""
    return outcome._replace(touched=[each for each in outcome.touched if not each[0].startswith(FOLDER)])
