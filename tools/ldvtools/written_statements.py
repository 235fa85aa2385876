"""Statements as the scripts of a package have them, where neither an outcome nor a log says what was asked.

Of a script that asks one statement after the other it is known which was asked when, and with what. Of
another one the statements are known that it may have asked, as they are written there.
"""
from __future__ import annotations

from typing import Dict, FrozenSet, List, NamedTuple, Optional, Set, Tuple

from .findings import operands_known, text_of
from .packages import Asked, Package
from .scripts import BadLine, Operand, Script, read_script
from .sql import NoReading, Query, parse_statement
from .trace import lives
from .values import Value, cell


class Written(NamedTuple):
    """A `sql` of a script: where it stands, its text if that is written there, and its parameters. One that
    is a variable has the variable's name."""

    path: str
    line: int
    text: Optional[str]
    params: Tuple[str, ...]
    tables: FrozenSet[str]
    is_change: bool


def scripts_in(package: Package) -> Dict[str, Script]:
    """The scripts that the processes of a package run, by path."""
    files, found = dict(package.files), {}
    for path in {path for _, path, _, _, _ in lives(package)}:
        try:
            found[path] = read_script(files.get(path) or b"")
        except BadLine:
            continue
    return found


# ---- one after the other

def asked_in_order(script: Script) -> Optional[List[Tuple[str, List[Value]]]]:
    """The statements of a script that asks them one by one, with their parameters: nothing but its lines says
    in which order."""
    known = operands_known(script)
    last = max((place for place, each in enumerate(script.instructions) if each.word == "sql"), default=-1)
    asked = []
    for each in script.instructions[:last + 1]:
        if each.word == "sql":
            text, params = text_of(each.operands[0], known), each.operands[1:]
            if text is None or any(operand.name for operand in params):
                return None
            asked.append((text, [operand.value for operand in params]))
        elif each.word not in ("print", "let"):
            return None
    return asked


# ---- as they are written

def shown_operand(operand: Operand) -> str:
    return operand.name or cell(operand.value)


def tables_of(text: Optional[str]) -> Tuple[FrozenSet[str], bool]:
    """The tables that a statement names, and whether it is a change. One without a reading has neither."""
    try:
        statement = parse_statement(text or "").statement
    except NoReading:
        return frozenset(), False
    if isinstance(statement, Query):
        return frozenset(source.table for core in statement.cores for source in core.sources), False
    return frozenset([statement.table.table]), True


def written_in(path: str, script: Script) -> List[Written]:
    known = operands_known(script)
    found = []
    for each in script.instructions:
        if each.word == "sql":
            text = text_of(each.operands[0], known)
            params = tuple(shown_operand(operand) for operand in each.operands[1:])
            found.append(Written(path, each.line, text, params, *tables_of(text)))
    return found


def parents_of(package: Package) -> Dict[str, Set[str]]:
    """The tables to which the foreign keys of each table lead."""
    return {table.name: {each.parent for each in table.foreign} for table in package.tables}


def with_parents(names: FrozenSet[str], parents: Dict[str, Set[str]]) -> Set[str]:
    """The tables that are there of these, with their parents, and theirs."""
    found: Set[str] = set()
    due = [name for name in names if name in parents]
    while due:
        name = due.pop()
        if name not in found:
            found.add(name)
            due += parents[name]
    return found


def may_be(written: Written, asked: Asked, parents: Dict[str, Set[str]]) -> bool:
    """Whether an event of the trace can be of this statement. Its tables are those that are there and that
    the statement names, with their parents; a change may need rows of others too."""
    named = with_parents(written.tables, parents)
    if written.text is None:
        return True
    if written.is_change:
        return named <= set(asked.tables)
    return named == set(asked.tables) and not asked.made


def candidates(written: List[Written], asked: Asked, parents: Dict[str, Set[str]]) -> List[Written]:
    """The statements of a script that an event can be of, each text with its parameters once."""
    found: Dict[Tuple[Optional[str], Tuple[str, ...]], Written] = {}
    for each in written:
        if may_be(each, asked, parents):
            found.setdefault((each.text, each.params), each)
    return list(found.values())
