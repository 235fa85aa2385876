"""Statements that somebody asks of the packed rows of a package: put into the dialect, as world.py puts them,
and what is said of them."""
from __future__ import annotations

from typing import Dict, List, NamedTuple, Sequence, Tuple

from .columns import Columns
from .findings import Finding, check_joins, findings_of, warning_lines
from .packages import Package
from .scripts_of_statements import script_of
from .sql_rewrite import columns_by_table, renamed_columns, rewritten_text
from .world_carried import carried_findings
from .world_columns import Table
from .worlds import column_in

NAME = "main"


class Asked(NamedTuple):
    """The script that asks statements, and what is said of them."""

    script: bytes
    notes: List[str]


def tables_of_rows(package: Package, columns: Columns) -> List[Table]:
    """The packed rows, as tables of a world that is made."""
    found = []
    for table in package.tables:
        own = [column_in(columns, table.name, place, name, kind)
               for place, (name, kind) in enumerate(table.columns, 1)]
        for place, column in enumerate(own):
            column.cells = [row.values[place] for row in table.rows]
        found.append(Table(table.name, own, len(table.rows), table.key))
    return found


def put_otherwise(asks: Sequence[str], tables: Sequence[Table],
                  is_as_read: bool) -> Tuple[List[str], List[str]]:
    """The statements in the dialect, where they can be put so exactly, and each that was put otherwise."""
    texts, notes = [], []
    for place, text in enumerate(asks, 1):
        found, said = rewritten_text(text, columns_by_table(tables), renamed_columns(tables), is_as_read)
        texts.append(found)
        for _, statement, remarks in said:
            notes += [f"--ask {place} is asked as: {statement}",
                      *(f"--ask {place}: {remark}" for remark in remarks)]
    return texts, notes


def findings_said(package: Package, tables: Sequence[Table], script: bytes,
                  places: Sequence[str]) -> List[str]:
    """What is wrong with statements over the packed tables, and what their constants mean. A join of another
    dialect is refused."""
    files: Dict[str, bytes] = {NAME: script}

    def placed(finding: Finding) -> Finding:
        return finding.placed(NAME, places)

    schemas = {table.name: table.columns for table in package.tables}
    found = [placed(finding) for finding in findings_of(files, NAME, schemas)]
    check_joins(found)
    lines = warning_lines(found)
    for finding, is_meaning in carried_findings(files, NAME, tables):
        lines += [placed(finding).text] if is_meaning else warning_lines([placed(finding)])
    return lines


def asked_of_rows(package: Package, columns: Columns, asks: Sequence[str], is_as_read: bool = False,
                  is_as_written: bool = False) -> Asked:
    """A script of these statements over the packed rows, with what is said of it."""
    tables = tables_of_rows(package, columns)
    texts, notes = (list(asks), []) if is_as_written else put_otherwise(asks, tables, is_as_read)
    made = script_of([(text, f"--ask {place}") for place, text in enumerate(texts, 1)],
                     renamed_columns(tables))
    return Asked(made.data, notes + findings_said(package, tables, made.data, made.places))
