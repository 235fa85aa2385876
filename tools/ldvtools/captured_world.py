"""The world of a program: a script that asks its statements, and the file of what it saw, by which it is
played back."""
from __future__ import annotations

import json
from typing import Any, Dict, List, Mapping, NamedTuple, Optional, Sequence

from .captured import Event, Log
from .captured_judge import Judged
from .captured_plan import ASKED, SEEN, Fate, Fates
from .captured_values import params_to_json, to_json
from .dialect_queries import Plan
from .documents import as_json
from .scripts_of_statements import escaped
from .values import Value, plain_count

# The path of the file that says what the program saw, and of the report.
SEEN_FILE, REPORT_FILE = "capture.json", "capture.txt"
FORM = 1


class Counts(NamedTuple):
    """How many statements are asked in the script, and how many are played back from what was seen: since
    they ask no table, failed or were undone, and since they can't be read here."""

    asked: int
    seen: int
    unreadable: int


def counts_of(fates: Fates) -> Counts:
    kinds = [fate.kind for _, fate in fates]
    asked, seen = kinds.count(ASKED), kinds.count(SEEN)
    return Counts(asked, seen, len(kinds) - asked - seen)


# ---- the script

def operand(value: Value) -> str:
    """A value as a script writes it."""
    if value is None:
        return "null"
    return str(value) if isinstance(value, int) else f'"{escaped(value)}"'


def statement_line(plan: Plan) -> str:
    return " ".join([f'sql q "{escaped(plan.text)}"', *map(operand, plan.params)])


def opening_lines(paths: Sequence[str]) -> List[str]:
    """Lines by which the script looks at files, so that a package has them."""
    lines: List[str] = []
    for number, path in enumerate(paths):
        lines += [f'open f r "{escaped(path)}" else no{number}', f"no{number}:"]
    return lines


def summary_line(counts: Counts) -> str:
    """What the script prints: what of the program isn't in it."""
    text = f"{plain_count(counts.asked, 'statement')} of the program"
    if counts.seen:
        text += f"; {counts.seen} more asked no table, failed or were undone: played back as they were seen"
    if counts.unreadable:
        text += f"; {counts.unreadable} more can't be asked here: played back from what was seen alone"
    return text


def script_of(fates: Fates, paths: Sequence[str]) -> bytes:
    """The script: it looks at the files, says what it is, and asks the statements, each after its place."""
    counts = counts_of(fates)
    lines = opening_lines(paths) + [f'print "{escaped(summary_line(counts))}"']
    before = ""
    for event, fate in fates:
        if fate.kind != ASKED:
            continue
        if event.place() != before:
            before = event.place()
            lines.append("# " + "".join(char if char.isprintable() else "?" for char in before))
        lines += map(statement_line, fate.plans)
    return "".join(line + "\n" for line in lines).encode(errors="replace")


# ---- what the program saw

class Texts:
    """Texts by their numbers."""

    def __init__(self) -> None:
        self.places: Dict[str, int] = {}

    def number(self, text: str) -> int:
        return self.places.setdefault(text, len(self.places))


def fault_json(fault: Optional[Any]) -> Any:
    return None if fault is None else [fault[0], fault[1], [to_json(each) for each in fault[2]], fault[3]]


def event_json(event: Event, fate: Fate, judged: Optional[Judged], texts: Texts) -> Dict[str, Any]:
    """What the file has of an event. Members that would be empty aren't there."""
    found: Dict[str, Any] = {"text": texts.number(event.text), "way": event.way}
    many = event.way == "many"
    params = list(map(params_to_json, event.params)) if many else params_to_json(event.params)
    found["params"] = params
    found["in"] = event.in_transaction
    if event.head is not None:
        found["head"] = list(event.head)
    if event.types is not None:
        found["types"] = list(event.types)
    if event.changed != -1:
        found["changed"] = event.changed
    if event.last is not None:
        found["last"] = event.last
    if event.fault is not None:
        found["fault"] = fault_json(event.fault)
    if fate.kind == ASKED:
        found["reply"] = [fate.first, len(fate.plans)]
    plan = fate.plans[0] if fate.plans else None
    if plan is not None and plan.parts is not None and event.fault is None:
        found.update(answer_json(plan, judged or Judged()))
    elif event.rows:
        found["rows"] = [[to_json(value) for value in row] for row in event.rows]
    return found


def act_json(event: Event, texts: Texts) -> Dict[str, Any]:
    """What the file has of an act that ended with an exception."""
    return {"text": texts.number(event.text), "way": event.text, "params": [], "in": event.in_transaction,
            "fault": fault_json(event.fault)}


def answer_json(plan: Plan, judged: Judged) -> Dict[str, Any]:
    """How the rows of an answer are made of those of a reply."""
    parts = [[part.way, part.place, part.other] for part in plan.parts or []]
    found: Dict[str, Any] = {"parts": parts, "scales": list(plan.scales), "kinds": judged.kinds}
    if plan.skip:
        found["skip"] = plan.skip
    if judged.order is not None:
        found["order"] = judged.order
    return found


def seen_file(log: Log, fates: Mapping[int, Fate], judged: Mapping[int, Judged]) -> bytes:
    """The file of what the program saw: its connections, each with its events in their order."""
    texts = Texts()
    connections = []
    for connection in log.connections:
        events = [event_json(event, fates[event.number], judged.get(event.number), texts)
                  if event.kind == "asked" else act_json(event, texts) for event in log.events
                  if event.connection is connection and (event.kind == "asked" or event.fault is not None)]
        connections.append({"process": connection.process, "driver": connection.driver, "events": events})
    members = [f'"form": {FORM}', f'"texts": {as_json(list(texts.places))}']
    lines = ",\n".join(json.dumps(each, ensure_ascii=True, separators=(",", ":")) for each in connections)
    return ("{" + ",\n".join(members) + f',\n"connections": [\n{lines}\n]' + "}\n").encode(errors="replace")
