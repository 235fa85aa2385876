"""Reads scripts (docs/SCRIPTS.md), and says of a bad line which rule it breaks."""
from __future__ import annotations

import difflib
import re
from typing import Callable, Dict, List, NamedTuple, NoReturn, Optional, Sequence, Tuple

from .language import MAX_INT, MAX_NAME, MAX_OPERANDS, MAX_TEXT, MIN_INT, NAME
from .values import Value

NO_NAMES = ("null", "else", "int")
# How many labels are looked through for one that is meant.
MANY = 1000
COMPARES = ("=", "<>", "<", "<=", ">", ">=")
MODES = ("r", "w", "a", "n")
FORMS = {
    "let": "let x = v, let x = v + w (or -, *, ++) or let x = int v",
    "cut": "cut x y v",
    "goto": "goto L",
    "if": "if v = w goto L (or <>, <, <=, >, >=)",
    "print": "print v v*",
    "exit": "exit v",
    "open": "open f M v else L, with M one of r, w, a, n",
    "readline": "readline x f else L",
    "write": "write f v v*",
    "copy": "copy f g",
    "close": "close f",
    "remove": "remove v else L",
    "exists": "exists x v",
    "spawn": "spawn p v v* else L",
    "wait": "wait x p",
    "sql": "sql c v v*",
    "fetch": "fetch c x x* else L",
    "count": "count x c",
    "status": "status x c",
}
# How other languages say it.
OTHERS = {"set": "let", "var": "let", "echo": "print", "return": "exit", "while": "goto", "for": "goto",
          "jump": "goto", "select": "sql", "insert": "sql", "update": "sql", "delete": "sql",
          "read": "readline", "append": "write", "end": "exit", "call": "spawn", "run": "spawn", "else": "if",
          "elif": "if", "then": "if", "stop": "exit"}


class BadLine(Exception):
    """The first line of a script that is bad, from 1, with the rule that it breaks."""

    def __init__(self, line: int, rule: str) -> None:
        super().__init__(f"line {line}: {rule}")
        self.line, self.rule = line, rule


class Bad(Exception):
    """What is bad about a line."""


class Operand(NamedTuple):
    """A value that is written, or the name of a variable."""

    value: Value = None
    name: str = ""


class Instruction(NamedTuple):
    """An instruction, the number of its line, its names, its operands, and the place of its label.

    `word` is its first word; `sign` the operator of `let` and `if`, or the mode of `open`.
    """

    word: str
    line: int
    names: List[str] = []
    operands: List[Operand] = []
    label: str = ""
    sign: str = ""


class Script(NamedTuple):
    """Instructions, and for each label the place of the instruction that follows it."""

    instructions: List[Instruction]
    labels: Dict[str, int]


# ---- tokens

TOKEN = re.compile(r'"(?:[^"\\]|\\.)*"|[^ \t]+', re.DOTALL)
ESCAPES = {"n": "\n", "t": "\t", '"': '"', "\\": "\\"}
NUMBER = re.compile(r"-?[0-9]+\Z")


def tokens_of(line: str) -> List[str]:
    """The tokens of a line that is no comment: texts with their quotes, and words."""
    found: List[str] = []
    place = 0
    while True:
        while place < len(line) and line[place] in " \t":
            place += 1
        if place == len(line):
            return found
        match = TOKEN.match(line, place)
        assert match is not None
        token, place = match.group(), match.end()
        if token[0] == '"' and (len(token) == 1 or not is_closed(token)):
            raise Bad('a text without its closing "')
        if token[0] == '"' and place < len(line) and line[place] not in " \t":
            raise Bad(f"no blank between a text and what stands after it: {line[place:place + 20]!r}")
        found.append(token)


def is_closed(token: str) -> bool:
    return re.fullmatch(r'"(?:[^"\\]|\\.)*"', token, re.DOTALL) is not None


def text_of(token: str) -> str:
    """The text of a token in quotes."""
    parts = re.split(r"\\(.)", token[1:-1], flags=re.DOTALL)
    for place in range(1, len(parts), 2):
        if parts[place] not in ESCAPES:
            raise Bad(f"\\{parts[place]} in a text: only \\n, \\t, \\\" and \\\\ have a meaning")
        parts[place] = ESCAPES[parts[place]]
    text = "".join(parts)
    if len(text.encode()) > MAX_TEXT:
        raise Bad(f"a text of {len(text.encode())} bytes; the limit is {MAX_TEXT}")
    return text


def number_of(token: str) -> Optional[int]:
    """The number of a text of digits, perhaps with a minus, within 64 bits."""
    digits = token.lstrip("-").lstrip("0") or "0"
    # Longer ones are outside 64 bits, and python doesn't read numbers of every length.
    number = MAX_INT + 2 if len(digits) > 19 else int(digits)
    number = -number if token[0] == "-" else number
    return number if MIN_INT <= number <= MAX_INT else None


def is_name(token: str) -> bool:
    return NAME.match(token) is not None and token not in NO_NAMES


def why_no_name(token: str) -> str:
    if token in NO_NAMES:
        return f"{token} is a word of the language, and no name"
    if token[:1] == '"':
        return f"{token[:30]} is a text, and no name"
    if NUMBER.match(token):
        return f"{token[:30]} is a number, and no name"
    if len(token) > MAX_NAME and re.fullmatch("[a-z_][a-z0-9_]*", token):
        return f"a name of {len(token)} bytes; the limit is {MAX_NAME}"
    if NAME.match(token.lower()):
        return f"{token!r}: names have no upper-case letters"
    return f"{token[:40]!r} is no name: a letter a to z or _, then such letters, digits and _"


# ---- instructions

class Line:
    """The tokens of an instruction after its first word, taken from the front."""

    def __init__(self, word: str, tokens: Sequence[str]) -> None:
        self.word, self.tokens = word, list(tokens)

    def fail(self, why: str) -> NoReturn:
        raise Bad(f"{why}; the form is {FORMS[self.word]}")

    def take(self, what: str) -> str:
        if not self.tokens:
            self.fail(f"{what} is missing")
        return self.tokens.pop(0)

    def name(self, what: str) -> str:
        token = self.take(what)
        if not is_name(token):
            self.fail(f"{what}: {why_no_name(token)}{glued(token)}")
        return token

    def exact(self, *words: str) -> str:
        token = self.take(" or ".join(words))
        if token not in words:
            self.fail(f"{token[:40]!r} where {' or '.join(words)} is due" + glued(token))
        return token

    def operand(self, what: str = "a value") -> Operand:
        token = self.take(what)
        if token[0] == '"':
            return Operand(text_of(token))
        if NUMBER.match(token):
            number = number_of(token)
            if number is None:
                self.fail(f"the number {token[:30]} is outside 64 bits")
            return Operand(number)
        if token == "null":
            return Operand()
        if not is_name(token):
            self.fail(f"{what}: {why_no_value(token)}")
        return Operand(name=token)

    def operands(self, until: Optional[str] = None) -> List[Operand]:
        """One value and at most 255 more, up to a word or to the end."""
        found = [self.operand()]
        while self.tokens and self.tokens[0] != until:
            found.append(self.operand())
        if len(found) > MAX_OPERANDS + 1:
            self.fail(f"{len(found)} values; there are at most {MAX_OPERANDS + 1}")
        return found

    def label(self) -> str:
        return self.name("a label")

    def otherwise(self) -> str:
        self.exact("else")
        return self.label()

    def end(self) -> None:
        if self.tokens:
            self.fail(f"{self.tokens[0][:40]!r} is too much")


def why_no_value(token: str) -> str:
    if re.fullmatch(r"-?[0-9]*\.[0-9]+", token):
        return f"{token} is no value: there are no decimals"
    if token[0] in "'`":
        return f"{token[:30]} is no value: a text stands in \""
    return why_no_name(token) + glued(token)


def glued(token: str) -> str:
    """That blanks are missing, where a token looks so."""
    is_glued = token[0] != '"' and re.search(r"[a-z0-9\"](\+\+|[-+*=<>]+)|^[-+*=<>]+[a-z0-9\"]|[a-z]\"",
                                             token)
    return ": blanks stand between names, values and signs" if is_glued else ""


def read_let(line: Line) -> Tuple[List[str], List[Operand], str, str]:
    name = line.name("a variable")
    line.exact("=")
    if line.tokens[:1] == ["int"]:
        line.take("int")
        return [name], [line.operand()], "", "int"
    first = line.operand()
    if not line.tokens:
        return [name], [first], "", ""
    sign = line.exact("+", "-", "*", "++")
    return [name], [first, line.operand()], "", sign


def read_cut(line: Line) -> Tuple[List[str], List[Operand], str, str]:
    names = [line.name("a variable"), line.name("a variable")]
    if names[0] == names[1]:
        line.fail("the two variables are one")
    return names, [line.operand()], "", ""


def read_if(line: Line) -> Tuple[List[str], List[Operand], str, str]:
    left = line.operand()
    sign = line.exact(*COMPARES)
    right = line.operand()
    line.exact("goto")
    return [], [left, right], line.label(), sign


def read_open(line: Line) -> Tuple[List[str], List[Operand], str, str]:
    name, mode = line.name("a file"), line.exact(*MODES)
    return [name], [line.operand("a path")], line.otherwise(), mode


def read_spawn(line: Line) -> Tuple[List[str], List[Operand], str, str]:
    return [line.name("a child")], line.operands("else"), line.otherwise(), ""


def read_fetch(line: Line) -> Tuple[List[str], List[Operand], str, str]:
    names = [line.name("a reply"), line.name("a variable")]
    while line.tokens and line.tokens[0] != "else":
        names.append(line.name("a variable"))
    if len(names) > MAX_OPERANDS + 2:
        line.fail(f"{len(names) - 1} variables; there are at most {MAX_OPERANDS + 1}")
    return names, [], line.otherwise(), ""


Parts = Tuple[List[str], List[Operand], str, str]
READERS: Dict[str, Callable[[Line], Parts]] = {
    "let": read_let,
    "cut": read_cut,
    "goto": lambda line: ([], [], line.label(), ""),
    "if": read_if,
    "print": lambda line: ([], line.operands(), "", ""),
    "exit": lambda line: ([], [line.operand()], "", ""),
    "open": read_open,
    "readline": lambda line: ([line.name("a variable"), line.name("a file")], [], line.otherwise(), ""),
    "write": lambda line: ([line.name("a file")], line.operands(), "", ""),
    "copy": lambda line: ([line.name("a file"), line.name("a file")], [], "", ""),
    "close": lambda line: ([line.name("a file")], [], "", ""),
    "remove": lambda line: ([], [line.operand("a path")], line.otherwise(), ""),
    "exists": lambda line: ([line.name("a variable")], [line.operand("a path")], "", ""),
    "spawn": read_spawn,
    "wait": lambda line: ([line.name("a variable"), line.name("a child")], [], "", ""),
    "sql": lambda line: ([line.name("a reply")], line.operands(), "", ""),
    "fetch": read_fetch,
    "count": lambda line: ([line.name("a variable"), line.name("a reply")], [], "", ""),
    "status": lambda line: ([line.name("a variable"), line.name("a reply")], [], "", ""),
}


def instruction(tokens: Sequence[str], number: int) -> Instruction:
    word = tokens[0]
    if word not in READERS:
        raise Bad(no_instruction(tokens))
    line = Line(word, tokens[1:])
    names, operands, label, sign = READERS[word](line)
    line.end()
    return Instruction(word, number, names, operands, label, sign)


def no_instruction(tokens: Sequence[str]) -> str:
    word = tokens[0]
    if word.startswith("\ufeff"):
        return "it begins with a byte order mark: save it without one"
    if word.endswith(":") and len(tokens) > 1:
        return f"{word} is a label, which has a line of its own"
    if word.endswith(":"):
        return f"the label {word}: {why_no_name(word[:-1])}"
    if len(tokens) > 1 and tokens[1] == "=":
        return f"{word[:30]!r} is no instruction; to set a variable, let {word[:30]} = v"
    near = OTHERS.get(word.lower()) or (word.lower() if word.lower() in FORMS else None) or next(
        iter(difflib.get_close_matches(word.lower(), FORMS, 1)), None)
    return f"{word[:30]!r} is no instruction" + (f"; perhaps {FORMS[near]}" if near else "")


# ---- the whole

def lines_of(data: bytes) -> List[bytes]:
    """The lines of a script, cut at each LF; a CR right before it is no part of a line."""
    lines = data.split(b"\n")
    return [line[:-1] if line.endswith(b"\r") else line for line in lines[:-1]] + lines[-1:]


class Reading:
    """A script that is being read line by line."""

    def __init__(self) -> None:
        self.instructions: List[Instruction] = []
        self.labels: Dict[str, int] = {}
        self.defined: Dict[str, int] = {}
        self.bad: Optional[BadLine] = None

    def add(self, data: bytes, number: int) -> None:
        try:
            line = data.decode()
        except UnicodeDecodeError as fault:
            raise Bad(f"its byte {fault.start + 1} isn't UTF-8") from None
        if line.lstrip(" \t")[:1] in ("", "#"):
            return
        tokens = tokens_of(line)
        if len(tokens) == 1 and tokens[0].endswith(":") and is_name(tokens[0][:-1]):
            self.add_label(tokens[0][:-1], number)
        else:
            self.instructions.append(instruction(tokens, number))

    def add_label(self, name: str, number: int) -> None:
        if name in self.labels:
            raise Bad(f"the label {name} is on line {self.defined[name]} already")
        self.labels[name], self.defined[name] = len(self.instructions), number

    def add_all(self, data: bytes) -> None:
        """Reads on after a bad line, for the labels that stand behind it."""
        for number, line in enumerate(lines_of(data), 1):
            try:
                self.add(line, number)
            except Bad as fault:
                self.bad = self.bad or BadLine(number, str(fault))

    def check_labels(self) -> None:
        for each in self.instructions:
            if each.label and each.label not in self.labels:
                if self.bad is None or each.line < self.bad.line:
                    near = difflib.get_close_matches(each.label, list(self.labels)[:MANY], 1)
                    self.bad = BadLine(each.line, f"no line is the label {each.label}:"
                                       + (f"; perhaps {near[0]} is meant" if near else ""))
                return


def read_script(data: bytes) -> Script:
    """The script that bytes are; BadLine with the first bad line where they are none."""
    reading = Reading()
    reading.add_all(data)
    reading.check_labels()
    if reading.bad is not None:
        raise reading.bad
    return Script(reading.instructions, reading.labels)
