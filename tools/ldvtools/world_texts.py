"""Texts that look alike and are other ones, that were decoded twice, or that have what doesn't show."""
from __future__ import annotations

import re
import unicodedata
from typing import Dict, Iterable, Iterator, List, Optional

from .world_cells import shown
from .world_columns import Column, Table

# Blanks and line feeds, and what looks like a blank; what doesn't show.
BLANKS = re.compile("[\\s\u00a0\u1680\u2000-\u200a\u202f\u205f\u3000]+")
HIDDEN = re.compile("[\u00ad\u200b-\u200f\u2028-\u202e\u2060-\u2064\ufeff]")
# How UTF-8 looks that was read as an encoding of one byte a character.
TWICE = re.compile("[\u00c2-\u00f4][\u0080-\u00bf\u0152-\u0192\u02c6\u02dc\u2013-\u2122]|\u00e2\u20ac")


def plain_text(text: str) -> str:
    """A text in the form NFC, with one blank for what looks like some, and without what doesn't show."""
    if text.isascii() and "  " not in text and text.strip() == text and text.isprintable():
        return text
    return BLANKS.sub(" ", HIDDEN.sub("", unicodedata.normalize("NFC", text))).strip(" ")


def once_decoded(text: str) -> Optional[str]:
    """What a text is where it was decoded twice, or None."""
    if text.isascii() or not TWICE.search(text):
        return None
    for encoding in ("cp1252", "latin-1"):
        try:
            found = text.encode(encoding).decode()
        except (UnicodeEncodeError, UnicodeDecodeError):
            continue
        return found if len(found) < len(text) else None
    return None


def odd_texts(table: Table, column: Column) -> Iterator[str]:
    """That a settled column has texts that were decoded twice, or with NUL."""
    if column.kind != "TEXT":
        return
    name = table.full_name(column)
    is_said = {"twice": False, "nul": False}
    for row, cell in enumerate(column.cells):
        if not isinstance(cell, str) or cell.isascii() and "\0" not in cell:
            continue
        once = once_decoded(cell) if not is_said["twice"] else None
        if once is not None:
            is_said["twice"] = True
            how = ("--encoding mixed reads it so where the file has it once" if table.from_text
                   else "write it so in a copy of the database first")
            yield (f"{table.row_name(row)}: {shown(cell)} of {name} looks as if it had been decoded twice, "
                   f"being {shown(once)}; {how}")
        if "\0" in cell and not is_said["nul"]:
            is_said["nul"] = True
            yield f"{table.row_name(row)}: {shown(cell)} of {name} has a NUL in it, which nothing shows"


def alike(cells: Iterable[object]) -> Dict[str, List[str]]:
    """The texts of some cells that look alike, by how they look; those alone that are several ones."""
    found: Dict[str, List[str]] = {}
    for cell in dict.fromkeys(cells):
        if isinstance(cell, str):
            found.setdefault(plain_text(cell), []).append(cell)
    return {look: texts for look, texts in found.items() if len(texts) > 1}


def alike_in_case(cells: Iterable[object]) -> Dict[str, List[str]]:
    """The texts that differ in the case of their ASCII letters alone."""
    found: Dict[str, List[str]] = {}
    for cell in dict.fromkeys(cells):
        if isinstance(cell, str):
            found.setdefault(folded(cell), []).append(cell)
    return {look: texts for look, texts in found.items() if len(texts) > 1}


def folded(text: str) -> str:
    """A text as NOCASE of SQLite compares it: without the case of ASCII letters."""
    return "".join(chr(ord(char) + 32) if "A" <= char <= "Z" else char for char in text)
