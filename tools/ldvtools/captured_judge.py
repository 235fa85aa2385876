"""Whether the replies of a run are the answers that the database gave, one by one."""
from __future__ import annotations

from dataclasses import dataclass, field
from typing import Any, Dict, List, Optional, Sequence, Tuple

from .captured import Event
from .captured_plan import ASKED, Fate, Fates
from .captured_values import kind_of, made_rows, shown_row
from .dialect_queries import Plan
from .dialects import SQLITE
from .values import Reply, plain_count, reply_title


@dataclass
class Judged:
    """An event beside its replies: what differs, or nothing; the kinds of the columns of its answer, and
    the order in which the program saw its rows, where that isn't the order of the reply."""

    differs: str = ""
    seen: str = ""
    replied: str = ""
    advice: str = ""
    kinds: List[str] = field(default_factory=list)
    order: Optional[List[int]] = None


def judged(event: Event, fate: Fate, replies: Sequence[Reply]) -> Judged:
    """What comes of an event that is asked in the script."""
    own = replies[fate.first:fate.first + len(fate.plans)]
    if fate.refusals and own:
        return judged_refusal(event, fate, own)
    refused = next((reply for reply in own if reply.kind == "refused"), None)
    if refused is not None:
        return different(event, reply_title(refused), advice_of(refused, event))
    if not own or fate.plans[0].parts is None:
        return judged_change(event, own)
    return judged_rows(event, fate.plans[0], own[0])


def different(event: Event, replied: str, advice: str = "") -> Judged:
    return Judged("the replies differ", seen_in_words(event), replied, advice)


def seen_in_words(event: Event) -> str:
    """What the program got, in a few words."""
    if event.fault is not None:
        return f"{event.fault[1]}: {event.fault[2][0] if event.fault[2] else ''}"
    if event.head is not None:
        return plain_count(len(event.rows), "row")
    return f"{plain_count(event.changed, 'row')} changed"


def advice_of(reply: Reply, event: Event) -> str:
    if reply.code in (8, 9) and event.connection.driver == SQLITE:
        return ("SQLite looks at foreign keys after PRAGMA foreign_keys = ON alone; --foreign TABLE=none "
                "leaves those "
                "of a table out")
    return "the column has no default here" if reply.code == 5 else ""


def judged_refusal(event: Event, fate: Fate, own: Sequence[Reply]) -> Judged:
    """Beside an exception: the last reply is a refusal of its kind, and no earlier one is."""
    *before, last = own
    if last.kind == "refused" and last.code in fate.refusals and all(
        each.kind != "refused" for each in before):
        return Judged()
    other = next((each for each in before if each.kind == "refused"), last)
    return different(event, reply_title(other))


def judged_change(event: Event, own: Sequence[Reply]) -> Judged:
    changed = sum(reply.changed for reply in own)
    seen = event.changed
    if event.head is not None:
        # The rows of RETURNING are as many as those that were changed.
        seen = len(event.rows) if event.is_whole else -1
    if event.fault is None and seen not in (-1, changed):
        return different(event, f"{plain_count(changed, 'row')} changed")
    return Judged()


def judged_rows(event: Event, plan: Plan, reply: Reply) -> Judged:
    """Rows in their order as far as the statement orders them, and else as a bag. Of an answer that wasn't
    read to its end, the rows that were."""
    parts = plan.parts or []
    kinds = [kind_of([row[place] for row in event.rows], part, event.connection.driver)
             for place, part in enumerate(parts)]
    rows = made_rows(plan, kinds, reply.rows)
    found = Judged(kinds=kinds)
    if event.is_whole and len(rows) != len(event.rows):
        return told(different(event, plain_count(len(rows), "row"), limit_advice(plan)), kinds)
    if same_rows(rows[:len(event.rows)], event.rows):
        return found
    order = order_of(rows, event.rows)
    if order is None or not keeps_order(order, plan, reply, len(event.rows)):
        place = first_difference(rows, event.rows)
        found = different(event, shown_row(rows[place] if place < len(rows) else None), limit_advice(plan))
        found.seen = f"row {place + 1}: {shown_row(event.rows[place] if place < len(event.rows) else None)}"
        return told(found, kinds)
    found.order = order
    return found


def told(found: Judged, kinds: List[str]) -> Judged:
    found.kinds = kinds
    return found


def limit_advice(plan: Plan) -> str:
    return "order by a key too: LIMIT keeps the first rows, and which these are isn't settled" \
        if plan.has_limit else ""


def same_rows(rows: Sequence[Tuple[Any, ...]], seen: Sequence[Tuple[Any, ...]]) -> bool:
    """Whether rows are the same, values of the same kinds."""
    return len(rows) == len(seen) and all(map(same_row, rows, seen))


def same_row(row: Tuple[Any, ...], other: Tuple[Any, ...]) -> bool:
    return row == other and all(type(a) is type(b) for a, b in zip(row, other))


def in_kinds(row: Tuple[Any, ...]) -> Tuple[Any, ...]:
    """A row by which rows of the same values and kinds are found."""
    return tuple((type(value).__name__, value if not isinstance(value, tuple) else repr(value))
                 for value in row)


def order_of(rows: Sequence[Tuple[Any, ...]], seen: Sequence[Tuple[Any, ...]]) -> Optional[List[int]]:
    """The places of the rows that were seen, and then those of the others; None where one isn't there."""
    places: Dict[Tuple[Any, ...], List[int]] = {}
    for place in range(len(rows) - 1, -1, -1):
        places.setdefault(in_kinds(rows[place]), []).append(place)
    found: List[int] = []
    for row in seen:
        own = places.get(in_kinds(tuple(row)))
        if not own:
            return None
        found.append(own.pop())
    there = set(found)
    return found + [place for place in range(len(rows)) if place not in there]


def keeps_order(order: Sequence[int], plan: Plan, reply: Reply, count: int) -> bool:
    """Whether rows in another order have the same values by which they are ordered."""
    if not plan.order:
        return True
    rows = reply.rows[plan.skip:]
    return all(rows[order[place]][key] == rows[place][key] for place in range(count) for key in plan.order)


def first_difference(rows: Sequence[Tuple[Any, ...]], seen: Sequence[Tuple[Any, ...]]) -> int:
    for place, (row, other) in enumerate(zip(rows, seen)):
        if not same_row(row, tuple(other)):
            return place
    return min(len(rows), len(seen))


def judge(fates: Fates, replies: Sequence[Reply]) -> Dict[int, Judged]:
    """What comes of each event that is asked in the script, by its number."""
    return {event.number: judged(event, fate, replies) for event, fate in fates if fate.kind == ASKED}
