"""What the options of world.py say of tables and columns."""
from __future__ import annotations

import argparse
import re
import unicodedata
from typing import Dict, List, Optional, Sequence, Set, Tuple

from .errors import Misused
from .language import KINDS, MAX_NAME, RESERVED

# Options that are given a table, a column, or both before an `=`.
OF_NAMES = ("--key", "--kind", "--scale", "--empty", "--rename", "--unit", "--date", "--foreign")
OF_COLUMNS = ("--kind", "--scale", "--empty", "--unit", "--date")
# Options that hold for all CSV files, or for what is named before an `=`.
BROAD = ("--delimiter", "--encoding", "--quotes", "--header", "--decimal", "--thousands", "--null")
OF_TABLES = ("--delimiter", "--encoding", "--quotes", "--header")
DATE_FORMS = ("dmy", "mdy", "ymd", "time")
# What letters become that aren't an ASCII letter with a mark.
LETTERS = str.maketrans({"ß": "ss", "æ": "ae", "Æ": "ae", "ø": "o", "Ø": "o"})


def fold(name: str) -> str:
    return "".join(chr(ord(c) + 32) if "A" <= c <= "Z" else c for c in name)


def tidy_name(text: str) -> str:
    """A name that is as near to a text as a name may be: ASCII letters in lower case without their marks,
    digits, and one _ for what stands between; `column` for a text without these; _ before a digit at its
    start, and after a reserved word."""
    plain = unicodedata.normalize("NFKD", text.translate(LETTERS)).encode("ascii", "ignore").decode()
    name = re.sub(r"[^a-z0-9_]+", "_", fold(plain).strip()).strip("_") or "column"
    name = ("_" + name if name[0].isdigit() else name)[:MAX_NAME - 5]
    return name + "_" if name in RESERVED else name


def tidy_names(texts: Sequence[str]) -> List[str]:
    """Names for the columns of a table; one that is there already has _ and its place behind it."""
    found: List[str] = []
    for place, text in enumerate(texts, 1):
        name = tidy_name(text)
        while name in found:
            name = f"{name}_{place}"
        found.append(name)
    return found


class Settings:
    """What the options say. One that speaks of nothing that was read is refused at the end."""

    def __init__(self, words: argparse.Namespace) -> None:
        self.values: Dict[Tuple[str, str], str] = {}
        self.general: Dict[str, str] = {}
        # The words for NULL of a table or column, and by the empty name of all.
        self.nulls: Dict[str, Set[str]] = {}
        for option in OF_NAMES:
            for word in getattr(words, option[2:]):
                name, _, value = word.rpartition("=")
                if not (name and value):
                    raise Misused(f"{option} {word}: give {form_of(option)}")
                self.values[option, name] = value.upper() if option == "--kind" else value
        for option in BROAD:
            for word in getattr(words, option[2:]):
                self.add_broad(option, word)
        for name in words.leave_out:
            self.values["--leave-out", name] = "yes"
        self.unused: Set[Tuple[str, str]] = set(self.values)
        self.lower: bool = words.lower
        self.tidy: bool = words.tidy
        self.rounds: bool = words.round
        self.skips_blank: bool = words.skip_blank
        self.trims: bool = words.trim
        self.is_plain: bool = words.plain
        # Whether an option that isn't given a table holds for more than one file.
        self.has_many: bool = len(words.csv) > 1
        # As PostgreSQL's COPY and MySQL's --batch write tables: no quotes, and escapes by backslash.
        self.is_tsv: bool = words.tsv
        for (option, name), value in self.values.items():
            self.check(option, name, value)

    def add_broad(self, option: str, word: str) -> None:
        """Takes [NAME=]VALUE. A value may begin with an `=`, or be one."""
        name, equals, value = word.partition("=")
        if not (name and equals and value):
            name, value = "", word
        check_broad(option, name, value)
        if name:
            self.values[option, name] = value
        else:
            self.general[option] = value
        if option == "--null":
            self.nulls.setdefault(name, set()).add(value)

    def check(self, option: str, name: str, value: str) -> None:
        kinds = list(KINDS.values())
        if option in OF_COLUMNS and "." not in name:
            raise Misused(f"{option} {name}={value}: give TABLE.COLUMN={value}")
        if option == "--kind" and value not in kinds:
            raise Misused(f"--kind {name}={value}: a kind is one of {', '.join(kinds)}")
        if option == "--kind" and value.startswith("TEXT"):
            for other in ("--scale", "--unit"):
                if (other, name) in self.values:
                    raise Misused(f"{other} {name}: by --kind the column is {value}")
        if option == "--scale" and not re.fullmatch("[0-9]|1[0-8]", value):
            raise Misused(f"--scale {name}={value}: give a number of decimals from 0 to 18")
        if option == "--foreign" and (value == "none") == ("." in name):
            raise Misused(f"--foreign {name}={value}: give TABLE.COLUMN,..=PARENT, or TABLE=none")
        if option == "--empty" and value not in ("text", "null"):
            raise Misused(f"--empty {name}={value}: give text or null")
        if option == "--date":
            self.check_date(name, value)

    def check_date(self, name: str, value: str) -> None:
        if value not in DATE_FORMS:
            raise Misused(f"--date {name}={value}: give dmy for the day first, mdy for the month first, ymd "
                          "for the year first, or time for clock times")
        for other in ("--scale", "--unit"):
            if (other, name) in self.values:
                raise Misused(f"{other} {name}: by --date the column is TEXT")
        if self.values.get(("--kind", name), "TEXT").startswith("INT"):
            raise Misused(f"--kind {name}: by --date the column is TEXT")

    def take(self, option: str, name: str) -> Optional[str]:
        """What an option says of a name, or None."""
        self.unused.discard((option, name))
        return self.values.get((option, name))

    def foreign_of(self, table: str) -> List[Tuple[List[str], str]]:
        """The foreign keys that are given to a table: columns and parent."""
        names = [name for option, name in self.values
                 if option == "--foreign" and name.startswith(table + ".")]
        return [(name[len(table) + 1:].split(","), self.take("--foreign", name) or "") for name in names]

    def take_all(self, name: str) -> None:
        """Notes that a table or a column is there."""
        for option in ("--key", *OF_COLUMNS, *BROAD):
            self.take(option, name)

    def of_table(self, option: str, table: str, default: str) -> str:
        """What an option says of a table, or of all."""
        own = self.take(option, table)
        return own if own is not None else self.general.get(option, default)

    def of_column(self, option: str, table: str, column: str, default: str) -> str:
        """What an option says of a column, or of its table, or of all."""
        of_table = self.of_table(option, table, default)
        return self.take(option, f"{table}.{column}") or of_table

    def nulls_of(self, table: str, column: str) -> Set[str]:
        """The words that are NULL in a column."""
        found: Set[str] = set()
        for name in ("", table, f"{table}.{column}"):
            self.take("--null", name)
            found |= self.nulls.get(name, set())
        return found

    def is_left_out(self, *names: str) -> bool:
        return any([self.take("--leave-out", name) is not None for name in names])

    def new_name(self, old: str, name: str, place: str = "") -> str:
        """The name in the world of what is read as `name`, which --rename calls `old`,
        or calls by its place."""
        by_place = self.take("--rename", place) if place else None
        return by_place or self.take("--rename", old) or (fold(name) if self.lower or self.tidy else name)

    def check_used(self, there: Dict[str, List[Tuple[str, str]]]) -> None:
        """Refuses an option that names nothing. `there` has the columns of each table: where they were read
        they have the first name, in the world the second."""
        for option, name in sorted(self.unused):
            table = name.partition(".")[0]
            columns = [old if option == "--rename" else new for old, new in there.get(table, [])]
            which = (f"{table} has {', '.join(columns)}" if columns and "." in name
                     else f"the tables are {', '.join(there) or 'none'}")
            raise Misused(f"{option} {name}: nothing that was read has this name; {which}")


def form_of(option: str) -> str:
    """The form of an option's word."""
    return {"--key": "TABLE=COLUMN,..", "--rename": "OLD=NEW"}.get(option, "TABLE.COLUMN=VALUE")


def check_broad(option: str, name: str, value: str) -> None:
    if option in OF_TABLES and "." in name:
        raise Misused(f"{option} {name}={value}: it is of a whole file; give "
                      f"{name.partition('.')[0]}={value}")
    if option == "--delimiter" and value != "tab" and (len(value) != 1 or value in '"\r\n'):
        raise Misused("--delimiter is one character, or tab")
    if option == "--header" and value not in ("none", "first"):
        raise Misused(f"--header {value}: give none where the first line is a row, or first")
    if option == "--quotes" and value not in ("none", "double"):
        raise Misused(f"--quotes {value}: give none, or double for the quotes of CSV")
    if option == "--decimal" and (len(value) != 1 or value.isalnum() or value in "+-"):
        raise Misused("--decimal is one character, such as ,")
    if option == "--thousands" and (len(value) != 1 or value.isalnum() or value in "+-"):
        raise Misused("--thousands is one character, such as . or a blank")
