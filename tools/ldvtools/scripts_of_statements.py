"""A start script that asks the statements of a text one by one."""
from __future__ import annotations

import re
from typing import List, Mapping, NamedTuple, NoReturn, Optional, Sequence, Tuple

from .errors import Refused
from .language import MAX_TEXT
from .sql import bad_length
from .sql_hints import SIGN_HINTS

TOKEN = re.compile(
    r"(?P<blank>[ \t\r\n]+)|(?P<text>'[^']*(?:''[^']*)*')|(?P<end>;)|(?P<comment>--)|(?P<parameter>\?)"
    r"|(?P<other>[A-Za-z0-9_]+|<>|!=|<=|>=|[*+\-=<>(),.])")


class Made(NamedTuple):
    """A script, and for each of its lines where it came from, as a message names it."""

    data: bytes
    places: List[str]


class Lines:
    """The lines of a script that asks the statements of a text. `name` is what messages call the text, and
    `renamed` has the names of the world by those where its data was read."""

    def __init__(self, text: str, name: str, renamed: Mapping[str, str]) -> None:
        self.text, self.name, self.renamed = text, name, renamed
        self.lines: List[str] = []
        self.places: List[str] = []
        self.faults: List[str] = []
        # The number of the line at a place up to which lines were counted.
        self.line, self.counted = 1, 0

    def add(self, line: str, place: int) -> None:
        """Adds a line that came from a place, which is behind those of the lines before it."""
        self.line += self.text.count("\n", self.counted, place)
        self.counted = place
        self.lines.append(line)
        # A statement of --ask is one line most often.
        is_one = self.name.startswith("--ask") and "\n" not in self.text
        self.places.append(self.name if is_one else f"{self.name} line {self.line}")

    def add_all(self) -> None:
        """Each statement ends with `;` or with the text. Blanks outside of quotes become one space. The
        dialect has no comments, so `--` begins one only between two statements; it becomes a comment of the
        script."""
        text, place, begun = self.text, 0, 0
        parts: List[str] = []
        while place < len(text):
            if not parts and text.startswith("--", place):
                end = text.find("\n", place)
                end = len(text) if end < 0 else end
                self.add(f"# {text[place + 2:end].strip()}".rstrip(), place)
                place = end
                continue
            try:
                match = check_token(TOKEN.match(text, place), text, place, self.name, self.renamed)
            except Refused as fault:
                # What is wrong in the statements behind it is said too.
                self.faults.append(str(fault))
                place, parts = end_of_statement(text, place), []
                continue
            if match.lastgroup == "end":
                self.add_statement(parts, begun)
                parts = []
            elif parts or match.lastgroup != "blank":
                begun = begun if parts else place
                parts.append(" " if match.lastgroup == "blank" else match.group())
            place = match.end()
        self.add_statement(parts, begun)

    def add_statement(self, parts: Sequence[str], begun: int) -> None:
        """The line that asks a statement, where there is one."""
        statement = "".join(parts).rstrip(" ")
        length = len(statement.encode())
        if length > MAX_TEXT:
            refuse(self.text, self.name, begun, f"a statement of {length} bytes; the limit is {MAX_TEXT}")
        if statement:
            self.add(f'sql q "{escaped(statement)}"', begun)


def end_of_statement(text: str, place: int) -> int:
    """The place of the `;` behind a place, in no quotes, or of the end of the text."""
    while place < len(text) and text[place] != ";":
        quote = text[place]
        end = text.find(quote, place + 1) if quote in "'\"" else -1
        place = end + 1 if end >= 0 else place + 1
    return place


def refuse(text: str, name: str, place: int, fault: str) -> NoReturn:
    raise Refused(f"{name} line {line_at(text, place)}: {fault}")


def line_at(text: str, place: int) -> int:
    return text.count("\n", 0, place) + 1


def check_token(match: Optional["re.Match[str]"], text: str, place: int, name: str,
                renamed: Mapping[str, str]) -> "re.Match[str]":
    """A token that may stand in a statement of the script."""
    if match is None and text[place] == "'":
        fault = "the text that begins with ' doesn't end"
    elif match is None:
        found = repr(text[place:place + bad_length(text, place)])
        hint = SIGN_HINTS.get(found) or renamed_hint(text, place, renamed)
        fault = f"{found} has no meaning in this dialect (docs/SQL.md)" + (f"; {hint}" if hint else "")
    elif match.lastgroup == "comment":
        fault = "-- within a statement is two minuses here; put a comment before it, and write minuses as - -"
    elif match.lastgroup == "parameter":
        fault = "? takes a parameter, which only a script can give (docs/SCRIPTS.md); give --script"
    else:
        return match
    refuse(text, name, place, fault)


def renamed_hint(text: str, place: int, renamed: Mapping[str, str]) -> str:
    """What a name of the file is called in the world, where one stands around a place."""
    start = place
    while start and (text[start - 1].isalnum() or text[start - 1] == "_"):
        start -= 1
    end = place + 1
    while end < len(text) and (text[end].isalnum() or text[end] == "_"):
        end += 1
    word = text[start:end].casefold()
    # A header may go on after its first word.
    old = next((each for each in renamed if each.casefold() == word),
               next((each for each in renamed if re.match(re.escape(word) + r"\b", each.casefold())), None))
    return f"in this world {old!r} is called {renamed[old]}" if old is not None and word else ""


def escaped(text: str) -> str:
    for plain, escape in (("\\", "\\\\"), ('"', '\\"'), ("\n", "\\n"), ("\t", "\\t")):
        text = text.replace(plain, escape)
    return text


def script_of(texts: Sequence[Tuple[str, str]], renamed: Mapping[str, str]) -> Made:
    """A script that asks the statements of some (text, name)."""
    lines: List[str] = []
    places: List[str] = []
    faults: List[str] = []
    for text, name in texts:
        found = Lines(text, name, renamed)
        found.add_all()
        faults += found.faults
        if not found.faults and not any(line.startswith("sql ") for line in found.lines):
            raise Refused(f"{name}: there is no statement in it")
        lines += found.lines
        places += found.places
    if faults:
        raise Refused("\n".join(faults))
    return Made("".join(line + "\n" for line in lines).encode(), places)
