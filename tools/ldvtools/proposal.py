"""The whole command line that carries some files, with a comment for each choice: world.py --propose.

What world.py says of a file names the options that mend it. Here these are taken until nothing more is said,
over files that are read once.
"""
from __future__ import annotations

import re
import shlex
from typing import Callable, List, NamedTuple, Optional, Sequence, Tuple

from .errors import Misused, Refused
from .world_columns import Remark, Table

ROUNDS = 40
# A word of a shell behind an option.
WORD = r"(?:'[^']*'(?:\"'\"'[^']*')*|\$'[^']*'|\"[^\"]*\"|[^\s;,]+(?:,[^\s;]+)*,?)"
FLAGS = ("tidy", "skip-blank", "trim", "round", "plain", "lower", "tsv")
VALUED = ("delimiter", "encoding", "quotes", "header", "date", "decimal", "thousands", "unit", "scale",
          "kind",
          "null", "rename", "leave-out")
OPTION = re.compile(rf"--(?:({'|'.join(FLAGS)})(?![a-z-])|({'|'.join(VALUED)}) ({WORD}))")
# What ends the options of the first way that a message names.
END = re.compile(r" carries| reads| takes|, or --|, and --| leaves|; where|, --leave-out|, rounded")


class Choice(NamedTuple):
    """Options that were taken, and what was said."""

    words: List[str]
    reason: str


def options_in(message: str) -> List[str]:
    """The options of the first way that a message names, as words."""
    found: List[str] = []
    message = message.replace("--encoding, such as ", "--encoding ")
    place = message.find("--")
    end = END.search(message, place) if place >= 0 else None
    part = message[place:end.start() if end else len(message)] if place >= 0 else ""
    for match in OPTION.finditer(part):
        if match[1]:
            found.append(f"--{match[1]}")
            continue
        value = shlex.split(match[3].rstrip(",") if match[2] != "decimal" else match[3])
        if value and "NAME" not in value[0]:
            found += [f"--{match[2]}", value[0]]
    return found


Made = Callable[[Sequence[str], List[str], List[str]], List[Table]]


def stale_choice(found: Sequence[Choice], given: Sequence[str], make: Made) -> Optional[int]:
    """The place of a choice before the last one, without which the others fit."""
    for place in range(len(found) - 1):
        others = [word for number, choice in enumerate(found) if number != place for word in choice.words]
        try:
            make([*given, *others], [], [])
        except Misused:
            continue
        except Refused:
            pass
        return place
    return None


def choices(given: Sequence[str], make: Made) -> Tuple[List[Choice], List[str], List[Table]]:
    """The options that carry what some words name; what is left to be done by hand, and the tables."""
    found: List[Choice] = []
    words = list(given)
    hints: List[str] = []
    tables: List[Table] = []
    for _ in range(ROUNDS):
        notes: List[str] = []
        hints, refusal = [], ""
        try:
            tables = make(words, notes, hints)
        except Refused as fault:
            refusal = str(fault)
        except Misused:
            if not found:
                raise
            # An option that fits nothing after another one is taken back: a table has another name by then.
            stale = stale_choice(found, given, make)
            if stale is None:
                words = words[:-len(found.pop().words)]
                break
            del found[stale]
            words = [*given, *(word for choice in found for word in choice.words)]
            continue
        news = [(message, options_in(message)) for message in ([refusal] if refusal else hints)
                if not isinstance(message, Remark)]
        news = [(message, without(options, words)) for message, options in news]
        news = [(message, options) for message, options in news if options]
        if not news:
            if refusal:
                raise Refused(refusal)
            break
        for message, options in news:
            found.append(Choice(without(options, words), message))
            words += found[-1].words
    left = [hint for hint in hints if not isinstance(hint, Remark) and not without(options_in(hint), words)]
    return [choice for choice in found if choice.words], left, tables


def without(options: Sequence[str], words: Sequence[str]) -> List[str]:
    """Options without those that are among words already."""
    left: List[str] = []
    place = 0
    while place < len(options):
        size = 1 if options[place][2:] in FLAGS else 2
        each = list(options[place:place + size])
        is_there = any(list(words[at:at + size]) == each for at in range(len(words)))
        left += [] if is_there else each
        place += size
    return left


def keys(tables: Sequence[Table]) -> List[Choice]:
    """For each table without a key, its first column, where each row has another value of it."""
    found = []
    for table in tables:
        cells = table.columns[0].cells if table.columns else []
        if not table.key and cells and None not in cells and len(set(cells)) == len(cells):
            name = table.columns[0].name
            found.append(Choice(["--key", f"{table.name}={name}"], f"each row of {table.name} has another "
                                                                   f"{name}"))
    return found


def proposal(given: Sequence[str], make: Made) -> str:
    """The text of a proposal: comments, and a command line that --accept runs and a shell runs too."""
    words = [word for word in given if word != "--propose"]
    looks = ["--look"] if not any(word in ("--sql", "--ask", "--script") or word.startswith(
        ("--sql=", "--ask=", "--script=")) for word in words) else []
    made, left, tables = choices(words, make)
    made += keys(tables)
    lines = ["# What world.py proposes for these files. Run it by: world.py --accept FILE"]
    for choice in made:
        lines.append(f"# {shlex.join(choice.words)}: {' '.join(choice.reason.split())}")
    lines += [f"# by hand: {' '.join(each.split())}" for each in left]
    if looks:
        lines.append("# put --sql FILE -o FILE in place of --look, for a world that asks")
    every = [*words, *(word for choice in made for word in choice.words), *looks]
    return "\n".join([*lines, "tools/world.py " + shlex.join(every)]) + "\n"


def accepted(text: str, path: str) -> List[str]:
    """The words of the command line of a proposal."""
    lines = [line for line in text.split("\n") if line.strip() and not line.lstrip().startswith("#")]
    try:
        words = shlex.split(" ".join(lines))
    except ValueError:
        raise Refused(f"{path}: a quote in it doesn't end") from None
    if not words or not words[0].endswith("world.py"):
        raise Refused(f"{path}: no proposal of world.py --propose: its command line begins with "
                      "tools/world.py")
    return words[1:]
