"""The files of an archive that `bundle.py` makes: where each stands in it, and what it is."""
from __future__ import annotations

import hashlib
import os
import re
from typing import Dict, Iterable, List, NamedTuple, Optional, Sequence, Tuple

README, REPLAY, SUMS, METADATA = "README.txt", "replay.sh", "SHA256SUMS", "ro-crate-metadata.json"
PACKAGE, PROGRAM = "recorded.package", "ldv"
OUTCOME = "recorded.outcome"

BINARY, TEXT = "application/octet-stream", "text/plain"
# The media types of files that a run wrote, by their endings; another one is a text where it is UTF-8.
MEDIA = {".csv": "text/csv", ".tsv": "text/tab-separated-values", ".json": "application/json",
         ".html": "text/html", ".svg": "image/svg+xml", ".xml": "application/xml", ".md": "text/markdown"}
# What a name of a file can't have on every system, and `%` itself.
UNFIT = re.compile(r'[%\\:*?"<>|]')
MAX_PART = 255


class Part(NamedTuple):
    """A file of the archive. `told` says what it is. What a replay made, or a tool of it, has the number of
    the run: 1 or 2 of a joined package, else 0."""

    path: str
    data: bytes
    told: str
    media: str
    run: Optional[int] = None

    @property
    def may_run(self) -> bool:
        return self.path in (PROGRAM, REPLAY)

    @property
    def digest(self) -> str:
        return hashlib.sha256(self.data).hexdigest()


# ---- files that a run wrote

def coded(text: str) -> str:
    return "".join(f"%{byte:02X}" for byte in text.encode())


def plain_part(part: str) -> str:
    """A part of a path as a name that each system takes, and that stays in its folder."""
    if part in ("", ".", ".."):
        return coded(part) or "%"
    plain = UNFIT.sub(lambda sign: coded(sign[0]), part)
    return plain[:-1] + coded(plain[-1]) if plain[-1] in " ." else plain


def places_of(paths: Sequence[str]) -> Dict[str, str]:
    """Where the files of a run stand, another place for each path: characters that a name can't have are
    %XX, and so are the slashes of a file where another one needs a folder. A name that is too long is the
    digest of the path."""
    folders = {"/".join(path.split("/")[:end]) for path in paths for end in range(1, path.count("/") + 1)}
    found: Dict[str, str] = {}
    for path in paths:
        parts = [plain_part(part) for part in path.split("/")]
        place = "%2F".join(parts) + "%2F" if path in folders else "/".join(parts)
        if any(len(part.encode()) > MAX_PART for part in place.split("/")):
            place = "%%" + hashlib.sha256(path.encode()).hexdigest()
        found[path] = place
    return found


def media_of(path: str, data: bytes) -> str:
    """The media type of a file that a run wrote."""
    try:
        data.decode()
    except UnicodeDecodeError:
        return BINARY
    return MEDIA.get(os.path.splitext(path)[1].lower(), TEXT)


# ---- sums and order

def sum_lines(parts: Iterable[Part]) -> bytes:
    """What `sha256sum` writes of the files."""
    return "".join(f"{part.digest}  {part.path}\n" for part in parts).encode()


def sums_size(paths: Iterable[str]) -> int:
    """How many bytes the sums of files with these paths have."""
    return sum(64 + 2 + len(path.encode()) + 1 for path in paths)


def in_order(parts: Sequence[Part]) -> List[Part]:
    """What is read first stands first, and the rest goes by its path."""
    first = [README, REPLAY, SUMS, METADATA, PACKAGE, PROGRAM]

    def place(part: Part) -> Tuple[int, bytes]:
        return first.index(part.path) if part.path in first else len(first), part.path.encode()

    return sorted(parts, key=place)
