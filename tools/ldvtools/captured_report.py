"""The report of a capture: what became of each statement, in a table for each connection and thread."""
from __future__ import annotations

import os
from typing import Dict, Iterator, List, Mapping, Sequence, Tuple

from .captured import Event, Log
from .captured_judge import Judged, seen_in_words
from .captured_plan import ASKED, UNREADABLE, Fate, Fates
from .captured_values import shown_params
from .captured_world import counts_of
from .values import escaped, plain_count

LONGEST = 100
DATABASES = {"sqlite3": "SQLite", "psycopg2": "PostgreSQL"}
Key = Tuple[int, int, int]


def one_line(text: str, longest: int = LONGEST) -> str:
    """A statement in one line, cut where it is long."""
    line = escaped(" ".join(text.split()))
    return line if len(line) <= longest else line[:longest - 2] + ".."


def unreadable_lines(fates: Fates) -> Iterator[str]:
    """Each statement that can't be asked here, once for each place of the program, with why and a way
    around."""
    found: Dict[Tuple[str, str, str, str], int] = {}
    for event, fate in fates:
        if fate.kind == UNREADABLE:
            key = (event.place(), one_line(event.text), fate.reason, fate.way)
            found[key] = found.get(key, 0) + 1
    for (place, text, reason, way), count in found.items():
        times = f" ({count} times)" if count > 1 else ""
        yield f"{place}: {reason}{times}: {text}"
        if way:
            yield f"    instead: {way}"


def different_lines(fates: Fates, judged: Mapping[int, Judged], driver: str) -> Iterator[str]:
    """Each statement whose replies aren't what the database gave."""
    for event, fate in fates:
        found = judged.get(event.number)
        if found is None or not found.differs:
            continue
        yield f"{event.place()}: {one_line(event.text)}"
        if event.way != "many" and event.params:
            yield f"    parameters: {shown_params(event.params)}"
        yield f"    {DATABASES.get(driver, driver)} gave: {found.seen}"
        yield f"    ldv gives: {found.replied}"
        yield f"    asked as: {one_line(fate.plans[0].text if fate.plans else '')}"
        if found.advice:
            yield f"    {found.advice}"


def verdict(fates: Fates, judged: Mapping[int, Judged], driver: str) -> str:
    """How many statements have the answers that the database gave."""
    asked = [event for event, fate in fates if fate.kind == ASKED]
    equal = sum(not judged[event.number].differs for event in asked if event.number in judged)
    have = "statement has the answer" if len(asked) == 1 else "statements have the answers"
    return f"{equal} of {len(asked)} {have} that {DATABASES.get(driver, driver)} gave"


def seen_lines(fates: Fates) -> Iterator[str]:
    """Why statements are played back from what was seen, and how many by each reason."""
    found: Dict[str, int] = {}
    for _, fate in fates:
        if fate.kind not in (ASKED, UNREADABLE):
            found[fate.reason] = found.get(fate.reason, 0) + 1
    for reason, count in found.items():
        yield f"{plain_count(count, 'statement')} played back as seen: {reason}"


def became(fate: Fate, judged: Mapping[int, Judged], event: Event) -> str:
    """What became of a statement."""
    if fate.kind == ASKED:
        last = fate.first + len(fate.plans)
        places = f"{fate.first + 1}" if len(fate.plans) == 1 else f"{fate.first + 1} to {last}"
        differs = ", and differs" if event.number in judged and judged[event.number].differs else ""
        return f"reply {places}{differs}" if fate.plans else "nothing to ask"
    return ("not asked here: " if fate.kind == UNREADABLE else "as seen: ") + fate.reason


def tables_of_events(log: Log, fates: Mapping[int, Fate], judged: Mapping[int, Judged]) -> Iterator[str]:
    """A table for each connection and thread, in the order of time."""
    groups: Dict[Key, List[Event]] = {}
    for event in log.events:
        key = (event.connection.process, event.connection.number, event.thread)
        groups.setdefault(key, []).append(event)
    for (process, number, thread), events in groups.items():
        where = os.path.basename(events[0].connection.where) or "memory"
        yield ""
        yield f"process {process}, connection {number} to {where}, thread {thread}"
        yield ""
        for event in events:
            yield event_line(event, fates, judged)


def event_line(event: Event, fates: Mapping[int, Fate], judged: Mapping[int, Judged]) -> str:
    if event.kind == "act":
        return f"  {event.number:5}  {event.place()}: {event.text}{' ' + event.way if event.way else ''}"
    fate = fates[event.number]
    params = shown_params(event.params) if event.way == "one" else \
        plain_count(len(event.params), "row") if event.way == "many" else ""
    line = f"  {event.number:5}  {event.place()}: {one_line(event.text)}"
    line += f"  [{one_line(params, 60)}]" if params else ""
    return f"{line}\n         {seen_in_words(event)}; {became(fate, judged, event)}"


def report(log: Log, fates: Fates, judged: Mapping[int, Judged], driver: str, said: Sequence[str]) -> str:
    """The whole report as a text."""
    counts = counts_of(fates)
    marks = {event.number: fate for event, fate in fates}
    lines = [verdict(fates, judged, driver), *seen_lines(fates)]
    if counts.unreadable:
        lines += ["", f"{plain_count(counts.unreadable, 'statement')} not asked here, and played back from "
                  f"what was "
                      "seen alone:", *unreadable_lines(fates)]
    different = list(different_lines(fates, judged, driver))
    if different:
        lines += ["", "Other answers:", *different]
    lines += ["", *said] if said else []
    lines += tables_of_events(log, marks, judged)
    return "".join(line + "\n" for line in lines)
