"""What is wrong in the scripts and statements of a world, as far as it is written in them."""
from __future__ import annotations

import collections
import os
import re
from typing import Dict, Iterator, List, Mapping, NamedTuple, Optional, Sequence, Set, Tuple

from .errors import Refused
from .scripts import BadLine, Instruction, Operand, Script, read_script
from .sql import never_true
from .sql_check import UNKNOWN
from .sql_check import Finding as Refusal
from .sql_check import Judged, Parameter, Schemas, judge
from .values import escaped, plain_count

SCRIPT_ENDINGS = (".ldv", ".script")
WIDTH = 70


class Finding(NamedTuple):
    """Something wrong. `code` is 0 for a bad line; `is_trap` says that it will run and mean something else,
    and `is_join` that a join of another dialect is refused. `where` says in place of the line where it
    stands."""

    path: str
    line: int
    code: int
    cause: str
    is_trap: bool = False
    statement: str = ""
    at: int = 0
    is_join: bool = False
    where: str = ""

    @property
    def text(self) -> str:
        what = ("bad: " if self.code == 0 else f"the statement will be refused with code {self.code}: ")
        begin = "" if self.is_trap or self.code < 0 else what
        return f"{self.where or f'{escaped(self.path)} line {self.line}'}: {begin}{self.cause}"

    def placed(self, path: str, places: Sequence[str]) -> Finding:
        """The same, where it stands in what a script was made of."""
        return self._replace(where=places[self.line - 1]) if self.path == path and places else self

    def lines(self) -> List[str]:
        return [self.text, *self.excerpt()]

    def excerpt(self) -> List[str]:
        """The part of the statement that is meant, with a mark below it."""
        if not self.statement:
            return []
        start = max(0, self.at - WIDTH // 2) if len(self.statement) > WIDTH else 0
        shown = self.statement[start:start + WIDTH].translate({9: " ", 10: " ", 13: " "})
        return ["    " + escaped(shown), "    " + " " * (self.at - start) + "^"]


# ---- scripts

def operands_known(script: Script) -> Dict[str, Operand]:
    """The variables that a script sets in one place only, to a value that is written there."""
    setters: Dict[str, List[Optional[Operand]]] = {}
    for each in script.instructions:
        if each.word == "let":
            is_plain = each.sign == "" and not each.operands[0].name
            setters.setdefault(each.names[0], []).append(each.operands[0] if is_plain else None)
        elif each.word in ("cut", "readline", "exists", "wait", "count", "status"):
            for name in each.names if each.word == "cut" else each.names[:1]:
                setters.setdefault(name, []).append(None)
        elif each.word == "fetch":
            for name in each.names[1:]:
                setters.setdefault(name, []).append(None)
    return {name: values[0] for name, values in setters.items()
            if len(values) == 1 and values[0] is not None and not name.startswith("arg")}


def text_of(operand: Operand, known: Mapping[str, Operand]) -> Optional[str]:
    """The text that an operand is known to have.
    A variable may be read before it is set, and is NULL then."""
    given = known.get(operand.name) if operand.name else operand
    value = given.value if given else None
    return value if isinstance(value, str) else None


def judged(each: Instruction, known: Mapping[str, Operand],
           schemas: Optional[Schemas]) -> Optional[Tuple[str, Judged]]:
    """A statement that is written in a script, with what the codes say of it."""
    text = text_of(each.operands[0], known)
    if text is None:
        return None
    params: List[Parameter] = [UNKNOWN if operand.name else operand.value for operand in each.operands[1:]]
    return text, judge(text, params, schemas)


def statement_findings(path: str, script: Script, schemas: Optional[Schemas]) -> Iterator[Finding]:
    known = operands_known(script)
    for each in script.instructions:
        found = judged(each, known, schemas) if each.word == "sql" else None
        if found is None:
            continue
        text, result = found
        for warning in result.warnings:
            yield Finding(path, each.line, 1, warning, True, text, 0)
        if result.finding is not None:
            yield refused(path, each.line, result.finding, text)
        else:
            for at, cause in never_true(text):
                yield Finding(path, each.line, -1, cause, False, text, at)


# A join of another dialect, at the word that can't be read.
OTHER_JOIN = re.compile(r"(?:left|right|full|outer|cross|natural|anti|semi|asof|any|positional|global)\b"
                        r"(?:\s+(?:left|right|full|outer|inner|anti|semi)\b)*\s+join\b", re.IGNORECASE)


def refused(path: str, line: int, refusal: Refusal, text: str) -> Finding:
    is_join = refusal.code == 1 and OTHER_JOIN.match(text, refusal.at) is not None
    return Finding(path, line, refusal.code, refusal.cause, False, text, refusal.at, is_join)


def check_joins(found: Sequence[Finding]) -> None:
    """Refuses what looks like another join: it would mean something else, or can't be read."""
    for finding in found:
        if finding.is_trap or finding.is_join:
            raise Refused(finding.text)


def warning_lines(found: Sequence[Finding]) -> List[str]:
    """Findings as warnings, each with the statement."""
    return ["\n".join([f"warning: {finding.text}", *finding.excerpt()]) for finding in found]


def width_findings(path: str, script: Script, schemas: Optional[Schemas]) -> Iterator[Finding]:
    """A fetch that takes another number of columns than each reply of its name has."""
    known = operands_known(script)
    widths: Dict[str, Set[Optional[int]]] = {}
    for each in script.instructions:
        if each.word == "sql":
            found = judged(each, known, schemas)
            is_known = found is not None and found[1].finding is None and bool(found[1].names)
            widths.setdefault(each.names[0], set()).add(len(found[1].names) if found and is_known else None)
    for each in script.instructions:
        width = widths.get(each.names[0], set()) if each.word == "fetch" else set()
        if len(width) == 1 and None not in width and len(each.names) - 1 not in width:
            taken = plain_count(len(each.names) - 1, "column")
            yield Finding(path, each.line, -1,
                          f"fetch takes {taken} of a reply of {width.pop()}: with the first row that is "
                                               "misuse, which ends the process with 240")


def children_of(script: Script, files: Mapping[str, bytes]) -> List[str]:
    """The paths of scripts that a script may start."""
    known = operands_known(script)
    spawned = {text_of(each.operands[0], known): None for each in script.instructions if each.word == "spawn"}
    paths = [path for path in spawned if path is not None and path in files]
    return paths + [name for name in files if name.endswith(SCRIPT_ENDINGS)] if None in spawned else paths


def scripts_of(files: Mapping[str, bytes],
               start: str) -> Iterator[Tuple[str, Optional[Script], Optional[BadLine]]]:
    """The start script and all that may be started, each with its script or its first bad line."""
    due, seen = collections.deque([start]), {start}
    while due:
        path = due.popleft()
        try:
            script = read_script(files[path])
        except BadLine as fault:
            yield path, None, fault
            continue
        yield path, script, None
        for child in children_of(script, files):
            if child not in seen:
                seen.add(child)
                due.append(child)


# Programs in other languages, by the endings of their names and by their first lines.
PROGRAMS = {".py": "Python", ".r": "R", ".sql": "SQL", ".sh": "a shell", ".pl": "Perl", ".jl": "Julia",
            ".js": "JavaScript"}
INSTEAD = {"Python": "tools/capture.py makes a world of what a Python program asks",
           "SQL": "tools/world.py --sql takes statements"}


def other_program(path: str, content: bytes) -> str:
    """What is said of a file that is a program in another language."""
    begin = re.match(rb"#!.*?\b(python|sh|perl|Rscript)[0-9.]*\s*\n", content)
    ending = {b"python": ".py", b"sh": ".sh", b"perl": ".pl", b"Rscript": ".r"}[begin[1]] if begin else ""
    language = PROGRAMS.get(ending or os.path.splitext(path)[1].lower())
    if language is None:
        return ""
    said = (f"; it looks like a program in {language}, and a script is in a language of its own "
            "(docs/SCRIPTS.md)")
    return said + (f": {INSTEAD[language]}" if language in INSTEAD else "")


def findings_of(files: Mapping[str, bytes], start: str, schemas: Optional[Schemas]) -> List[Finding]:
    """What is wrong in the scripts of a world. Without schemas, tables and columns aren't judged."""
    found: List[Finding] = []
    for path, script, bad in scripts_of(files, start):
        if bad is not None:
            found.append(Finding(path, bad.line, 0, bad.rule + other_program(path, files[path])))
        elif script is not None:
            found += statement_findings(path, script, schemas)
            found += width_findings(path, script, schemas)
    return found


def unjudged(files: Mapping[str, bytes], start: str) -> Tuple[int, int]:
    """How many statements are written, and how many have a text that is computed."""
    written = computed = 0
    for _, script, _ in scripts_of(files, start):
        known = operands_known(script) if script else {}
        for each in script.instructions if script else []:
            if each.word == "sql":
                is_written = text_of(each.operands[0], known) is not None
                written, computed = written + is_written, computed + (not is_written)
    return written, computed
