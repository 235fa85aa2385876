"""Arguments of Python as words of the command world.py, so that both have one set of rules.

An argument has the name of its option with _ for -. One that holds for tables or columns is an object whose
keys name these: scale={"visits.dose": 2} is --scale visits.dose=2.
"""
from __future__ import annotations

from typing import Iterator, List, Mapping, Sequence, Union

Value = Union[str, int, None]
Option = Union[Value, Sequence[str], Mapping[str, Union[Value, Sequence[str]]]]

# Options with a name before an `=`, and those that may be given without one; --key takes several columns.
NAMED = ("key", "foreign", "kind", "scale", "empty", "unit", "date", "rename")
BROAD = ("null", "decimal", "thousands", "delimiter", "quotes", "header", "encoding", "leave_out", "table",
         "accept")
FLAGS = ("round", "skip_blank", "trim", "lower", "tidy", "plain", "tsv", "strict", "as_read", "as_written",
         "no_columns", "no_check")
NUMBERS = ("shuffle",)
TEXTS = ("name",)
ALL = NAMED + BROAD + FLAGS + NUMBERS + TEXTS


def words_of(options: Mapping[str, Option]) -> List[str]:
    """The words of some arguments. TypeError where one has no such option, or a value of another type."""
    words: List[str] = []
    for name, value in options.items():
        if name not in ALL:
            raise TypeError(f"there is no argument {name!r}; the options are {', '.join(sorted(ALL))}")
        option = "--" + name.replace("_", "-")
        if name in FLAGS:
            words += flag_words(name, option, value)
        else:
            words += [f"{option}={word}" for word in values_of(name, value)]
    return words


def flag_words(name: str, option: str, value: Option) -> List[str]:
    if value is not None and not isinstance(value, bool):
        raise TypeError(f"{name} is True or False")
    return [option] if value else []


def values_of(name: str, value: Option) -> Iterator[str]:
    """What stands behind the `=` of an option, once or more."""
    if isinstance(value, Mapping):
        if name in NUMBERS + TEXTS:
            raise TypeError(f"{name} is one value")
        for key, each in value.items():
            yield from (f"{key}={text}" for text in texts_of(name, each))
    elif value is not None:
        if name in NAMED:
            raise TypeError(f"{name} is an object such as {{'visits.dose': ..}}, whose keys are names of "
                            "tables or columns")
        yield from texts_of(name, value)


def texts_of(name: str, value: Union[Value, Sequence[str]]) -> Iterator[str]:
    """One value as one text or more. A key of several columns is one, and None is the word for none."""
    if value is None:
        yield "none"
    elif isinstance(value, bool) or name in NUMBERS and not isinstance(value, int):
        raise TypeError(f"{name}: {value!r} isn't a value of it")
    elif isinstance(value, (str, int)):
        yield str(value)
    elif name == "key":
        yield ",".join(value)
    else:
        yield from value
