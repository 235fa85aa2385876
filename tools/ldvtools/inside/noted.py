"""Values of a program as a log has them: numbers, texts, bytes and NULL as they are, others as a tuple of
their kind and a text. A log and a program's parameters are compared in this form."""
from __future__ import annotations

from collections.abc import Mapping

# For a check of types alone: a program starts sooner without.
TYPE_CHECKING = False
if TYPE_CHECKING:
    from typing import Any, Callable, Dict, List, Tuple

    Form = Callable[[Any], Any]

PLAIN = frozenset((type(None), bool, int, float, str, bytes))


def noted(value: Any) -> Any:
    """A value as a log has it."""
    if type(value) in PLAIN:
        return value
    for kind, form in FORMS or add_forms():
        if isinstance(value, kind):
            return form(value)
    if hasattr(value, "adapted") and hasattr(value, "getquoted"):
        return ("adapted", noted(value.adapted))
    try:
        return bytes(memoryview(value))
    except TypeError:
        return ("other", type(value).__name__, repr(value)[:200])


def noted_list(value: Any) -> Any:
    return ("list", [noted(each) for each in value])


def noted_all(values: Any, adapt: Callable[[Any], Any] = noted) -> Any:
    """The parameters of a statement: by name, or in order."""
    if isinstance(values, Mapping):
        return {str(name): adapt(value) for name, value in values.items()}
    try:
        return tuple(map(adapt, values))
    except TypeError:
        return ("other", type(values).__name__, repr(values)[:200])


# The kinds of values with their forms, once one that isn't plain was seen.
FORMS: List[Tuple[type, Form]] = []


def add_forms() -> List[Tuple[type, Form]]:
    """The kinds with their forms: a subclass stands before what it is one of."""
    import datetime
    import decimal
    import uuid
    FORMS.extend((
        (bool, bool), (int, int), (float, float), (str, str.__str__), (bytes, bytes), (bytearray, bytes),
        (memoryview, bytes),
        (decimal.Decimal, lambda value: ("decimal", str(value))),
        (datetime.datetime, lambda value: ("datetime", value.isoformat(" "))),
        (datetime.date, lambda value: ("date", value.isoformat())),
        (datetime.time, lambda value: ("time", value.isoformat())),
        (uuid.UUID, lambda value: ("uuid", str(value))),
        (list, noted_list), (tuple, noted_list)))
    return FORMS


# ---- from a log

def as_list(value: Any) -> Any:
    return [plain(each) for each in value]


MAKERS: Dict[str, Form] = {}


def add_makers() -> Dict[str, Form]:
    """Of each kind in a log how its text becomes a value."""
    import datetime
    import decimal
    import uuid
    MAKERS.update({
        "decimal": decimal.Decimal, "date": datetime.date.fromisoformat,
        "datetime": datetime.datetime.fromisoformat,
        "time": datetime.time.fromisoformat, "uuid": uuid.UUID, "list": as_list})
    return MAKERS


def plain(value: Any) -> Any:
    """A value of a log as the program had it."""
    if type(value) is tuple and value[0] in (MAKERS or add_makers()):
        return MAKERS[value[0]](value[1])
    return value


def plain_row(row: Tuple[Any, ...]) -> Tuple[Any, ...]:
    """A row of a log as the program had it."""
    for value in row:
        if type(value) is tuple:
            return tuple(map(plain, row))
    return row
