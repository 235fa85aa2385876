"""Reads the file of what a program saw. Each member has the kind that capture.py gives it, or the place of
the first that hasn't is said."""
from __future__ import annotations

import json
from typing import Any, Callable, Dict, List, Mapping

from .captured_world import FORM
from .dialects import POSTGRES, SQLITE
from .errors import Malformed

Check = Callable[[Any], bool]
WAYS = ("take", "avg", "count")


# ---- kinds of members

def is_text(value: Any) -> bool:
    return isinstance(value, str)


def is_number(value: Any) -> bool:
    return isinstance(value, int) and not isinstance(value, bool)


def is_count(value: Any) -> bool:
    return is_number(value) and value >= 0


def list_of(check: Check) -> Check:
    return lambda value: isinstance(value, list) and all(map(check, value))


def is_value(value: Any) -> bool:
    """A value as captured_values.to_json writes it."""
    if not isinstance(value, dict):
        return value is None or isinstance(value, (bool, int, str))
    if len(value) != 1:
        return False
    (name, content), = value.items()
    if name == "list":
        return list_of(is_value)(content)
    if name == "kind":
        return list_of(is_text)(content) and len(content) >= 2
    return is_text(content) and (name == "bytes" and is_hex(content) or name == "float" and is_float(content))


def is_hex(text: str) -> bool:
    return succeeds(bytes.fromhex, text)


def is_float(text: str) -> bool:
    return succeeds(float, text)


def succeeds(made: Callable[[str], Any], text: str) -> bool:
    try:
        made(text)
    except ValueError:
        return False
    return True


def are_params(value: Any) -> bool:
    if not isinstance(value, dict):
        return list_of(is_value)(value)
    named = value.get("named")
    return len(value) == 1 and (isinstance(named, dict) and all(map(is_value, named.values()))
                                or "kind" in value and is_value(value))


def is_part(value: Any) -> bool:
    """How a column of an answer is made of those of a reply."""
    return (isinstance(value, list) and len(value) == 3 and value[0] in WAYS
            and all(map(is_count, value[1:])))


def is_fault(value: Any) -> bool:
    """An exception: its module, its name, its arguments, and its codes."""
    return (isinstance(value, list) and len(value) == 4 and is_text(value[0]) and is_text(value[1])
            and list_of(is_value)(value[2]) and isinstance(value[3], dict)
            and all(is_text(code) or is_number(code) for code in value[3].values()))


def is_span(value: Any) -> bool:
    """The first reply of a statement, and how many it has."""
    return list_of(is_count)(value) and len(value) == 2


# Members that an event may have. Those that it has to have stand in check_event.
OTHERS: Dict[str, Check] = {
    "head": list_of(is_text), "types": list_of(is_number), "changed": is_number, "last": is_number,
    "fault": is_fault, "reply": is_span, "parts": list_of(is_part), "scales": list_of(is_count),
    "kinds": list_of(is_text), "skip": is_count, "order": list_of(is_count),
    "rows": list_of(list_of(is_value))}


# ---- the file

def check_members(where: str, given: Any, needed: Mapping[str, Check], others: Mapping[str, Check]) -> None:
    if not isinstance(given, dict):
        raise Malformed(f"{where} isn't an object")
    for name, check in {**needed, **others}.items():
        if name not in given and name in needed:
            raise Malformed(f"{where} has no {name}")
        if name in given and not check(given[name]):
            raise Malformed(f"{where}: its {name} isn't one that capture.py writes")


def check_event(where: str, event: Any, texts: int) -> None:
    is_many = isinstance(event, dict) and event.get("way") == "many"
    params = list_of(are_params) if is_many else are_params
    needed: Dict[str, Check] = {"text": is_count, "way": is_text, "params": params,
                                "in": lambda value: isinstance(value, bool)}
    check_members(where, event, needed, OTHERS)
    if event["text"] >= texts:
        raise Malformed(f"{where}: there is no text {event['text']}")
    if "parts" in event:
        for name in ("scales", "kinds", "reply"):
            if name not in event:
                raise Malformed(f"{where} has no {name}")
        places = [place for part in event["parts"] for place in part[1:]]
        # Of a reply that was refused no kinds are known.
        if event["reply"][1] == 0 or len(event["kinds"]) not in (0, len(event["parts"])) or any(
                place >= len(event["scales"]) for place in places):
            raise Malformed(f"{where}: its parts, kinds and scales don't fit one another")


def read_seen(data: bytes) -> Dict[str, Any]:
    """The members of the file."""
    try:
        given = json.loads(data)
    except ValueError:
        raise Malformed("it isn't JSON") from None
    check_members("the file", given, {"form": is_number, "texts": list_of(is_text),
                                      "connections": list_of(lambda value: isinstance(value, dict))}, {})
    if given["form"] != FORM:
        raise Malformed(f"it has the form {given['form']}; this tool plays {FORM}")
    connections: List[Dict[str, Any]] = given["connections"]
    for place, connection in enumerate(connections):
        check_members(f"connection {place}", connection, {
            "driver": lambda value: value in (SQLITE, POSTGRES), "process": is_number,
            "events": lambda value: isinstance(value, list)}, {})
        for number, event in enumerate(connection["events"]):
            check_event(f"event {number} of connection {place}", event, len(given["texts"]))
    return dict(given)
