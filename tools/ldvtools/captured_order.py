"""The order in which the statements of a program take effect: those of a transaction that changed something
where it was committed, those of one that was rolled back nowhere."""
from __future__ import annotations

import re
from typing import Dict, List, NamedTuple, Sequence, Set, Tuple

from .captured import Event

COMMENTS = re.compile(r"(?:\s+|--[^\n]*\n|/\*.*?\*/|;)*", re.DOTALL)
WORDS = re.compile(r"[A-Za-z_]+")
CHANGES = ("insert", "update", "delete", "replace", "with", "create", "drop", "alter", "truncate", "copy",
           "merge",
           "call", "do")
NAME = r"[\"`\[]?([^\s\"`\];]+)[\"`\]]?"
SAVEPOINT = re.compile(rf"savepoint\s+{NAME}", re.IGNORECASE)
ROLLBACK_TO = re.compile(rf"rollback(?:\s+transaction)?\s+to(?:\s+savepoint)?\s+{NAME}", re.IGNORECASE)


def first_word(text: str) -> str:
    """The first word of a statement in lower case."""
    match = COMMENTS.match(text)
    word = WORDS.match(text, match.end() if match else 0)
    return word.group().lower() if word else ""


class Ordered(NamedTuple):
    """The events in the order in which they took effect, and those that were undone."""

    events: List[Event]
    undone: List[Event]


class Open:
    """A transaction: its events since its first change, and how many of them there were at each
    savepoint."""

    def __init__(self) -> None:
        self.events: List[Event] = []
        self.marks: List[Tuple[str, int]] = []


class Orderer:
    """Puts events in their order, one after the other."""

    def __init__(self) -> None:
        self.open: Dict[int, Open] = {}
        self.events: List[Event] = []
        self.undone: List[Event] = []

    def take(self, event: Event) -> None:
        own = self.open.setdefault(id(event.connection), Open())
        if event.kind == "act":
            self.act(event, own)
            return
        word = first_word(event.text)
        if event.way == "script":
            self.commit(own)
        if word in ("commit", "end") and event.fault is None:
            self.commit(own)
            self.events.append(event)
        elif word in ("rollback", "savepoint") and event.fault is None:
            self.partly(event, own)
            self.events.append(event)
        elif own.events or word in CHANGES and event.in_transaction:
            own.events.append(event)
        else:
            self.events.append(event)
        if not event.in_transaction and own.events:
            self.roll_back(own, 0) if event.fault is not None else self.commit(own)

    def act(self, event: Event, own: Open) -> None:
        """An act that ended with an exception leaves the transaction open, or undoes it."""
        if event.fault is not None:
            if not event.in_transaction:
                self.roll_back(own, 0)
        elif event.text == "commit":
            self.commit(own)
        elif event.text in ("rollback", "close"):
            self.roll_back(own, 0)

    def partly(self, event: Event, own: Open) -> None:
        """A savepoint, or a return to one or to the beginning."""
        mark = SAVEPOINT.search(event.text) if first_word(event.text) == "savepoint" else None
        back = ROLLBACK_TO.search(event.text)
        if mark is not None:
            own.marks.append((mark[1].lower(), len(own.events)))
        elif back is not None:
            places = [place for name, place in own.marks if name == back[1].lower()]
            self.roll_back(own, places[-1] if places else 0)
        else:
            self.roll_back(own, 0)

    def commit(self, own: Open) -> None:
        self.events += own.events
        own.events, own.marks = [], []

    def roll_back(self, own: Open, place: int) -> None:
        self.undone += own.events[place:]
        del own.events[place:]
        own.marks = [mark for mark in own.marks if mark[1] <= place] if place else []


def in_order(events: Sequence[Event]) -> Ordered:
    """The events in the order in which they took effect. What was never committed is undone."""
    orderer = Orderer()
    for event in events:
        orderer.take(event)
    for own in orderer.open.values():
        orderer.roll_back(own, 0)
    there: Set[int] = {event.number for event in orderer.undone}
    return Ordered(orderer.events, [event for event in events if event.number in there])
