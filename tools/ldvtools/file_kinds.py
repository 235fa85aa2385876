"""What a file is that isn't what a tool reads, by its first bytes."""
from __future__ import annotations

import re
from typing import Optional

STARTS = (
    (b"LDVPACK", "a package, as `ldv record` writes it (tools/package.py shows it)"),
    (b"LDVJOIN", "a joined package, as `ldv join` writes it (tools/package.py shows it)"),
    (b"outcome ", "an outcome, as `ldv run` writes it (tools/outcome.py shows it)"),
    (b"\x1f\x8b", "compressed by gzip: unpack it first"),
    (b"PK\x03\x04", "a zip archive or a workbook"),
    (b"SQLite format 3\0", "an SQLite database (tools/world.py --sqlite makes a world of it)"),
    (b"\xff\xfe", "a text in UTF-16: save it as UTF-8"),
    (b"\xfe\xff", "a text in UTF-16: save it as UTF-8"),
    (b"<!DOCTYPE html", "a page of HTML"),
    (b"%PDF", "a PDF"),
)
PROVENANCE = "a provenance document, as `ldv prov` writes it"
WORLD = re.compile(rb'\s*\{\s*"(?:start|files|seed|tables)"\s*:')
PROV = re.compile(rb'\s*\{\s*"(?:activity|entity|used|prefix)"\s*:')
SCRIPT = re.compile(rb'(?:\s*(?:#[^\n]*)?\n)*(?:sql|let|open|print|spawn|exit) ')
CSV = re.compile(rb'[^\n,;\t{}\[\]]{0,80}[,;\t][^\n]{0,2000}\r?\n')


def told_kind(data: bytes) -> Optional[str]:
    """What a file is, or None where it isn't known."""
    for start, what in STARTS:
        if data.startswith(start):
            return what
    if WORLD.match(data):
        return "a world document (ldv run runs it)"
    if PROV.match(data):
        return PROVENANCE
    if data[:1] in (b"{", b"["):
        return None
    if SCRIPT.match(data):
        return "a script (tools/world.py --script makes a world with it)"
    if CSV.match(data):
        return "a table such as CSV (tools/world.py --csv makes a world of it)"
    return None
