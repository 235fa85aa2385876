"""HTML by which a notebook shows worlds, outcomes and packages. All texts are escaped, and long ones cut."""
from __future__ import annotations

import html
from typing import Any, Iterable, List, Optional, Sequence

from ..values import cell, counted, escaped

# What is shown of a table, of a text and of a list; the rest is counted.
MANY_ROWS, MANY_SIGNS, MANY_ITEMS = 20, 200, 20
LEFT = ' style="text-align: left"'


def text_html(text: str) -> str:
    """A text as HTML, with control characters as escapes, and cut where it is long."""
    shown = text if len(text) <= MANY_SIGNS else text[:MANY_SIGNS] + "…"
    return html.escape(escaped(shown), quote=True)


def lines_html(text: str) -> str:
    """A text of several lines as HTML."""
    lines = text.split("\n")
    more = [f"… and {len(lines) - MANY_ROWS} more lines"] if len(lines) > MANY_ROWS else []
    return f"<pre>{chr(10).join([*map(text_html, lines[:MANY_ROWS]), *more])}</pre>"


def cell_html(value: Any) -> str:
    """A cell of a table. NULL is in italics, numbers stand right and texts left."""
    if value is None:
        return "<td><i>NULL</i></td>"
    if not isinstance(value, str):
        return f"<td>{value}</td>"
    return f"<td{LEFT}>{text_html(value if len(value) > MANY_SIGNS else cell(value))}</td>"


def table_html(heads: Sequence[str], rows: Sequence[Sequence[Any]], name: str, statement: str = "",
               count: Optional[int] = None) -> str:
    """A table with its name, the statement whose reply it is, and its first rows. `count` says how many rows
    there are where `rows` has only the first ones."""
    number = len(rows) if count is None else count
    lines = [f"<p><b>{text_html(name)}</b>: {counted(number, 'row')}</p>"]
    lines += [lines_html(statement)] if statement else []
    if rows or not statement:
        lines.append("<table><thead><tr>" + "".join(f"<th>{text_html(head)}</th>" for head in heads)
                     + "</tr></thead><tbody>")
        lines += ["<tr>" + "".join(map(cell_html, row)) + "</tr>" for row in rows[:MANY_ROWS]]
        lines.append("</tbody></table>")
    if number > MANY_ROWS:
        lines.append(f"<p>… and {counted(number - MANY_ROWS, 'more row')}</p>")
    return "\n".join(lines)


def list_html(title: str, items: Iterable[str]) -> List[str]:
    """A list of texts under a title; nothing where there is none."""
    found = list(items)
    if not found:
        return []
    more = [f"… and {len(found) - MANY_ITEMS:,} more"] if len(found) > MANY_ITEMS else []
    shown = "".join(f"<li>{text_html(item)}</li>" for item in [*found[:MANY_ITEMS], *more])
    return [f"<p>{text_html(title)}</p><ul>{shown}</ul>"]


def block_html(title: str, parts: Iterable[str]) -> str:
    """A block with a title."""
    return "\n".join([f"<div><p><b>{text_html(title)}</b></p>", *parts, "</div>"])
