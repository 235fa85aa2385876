"""What a page shows of a package, as values of JSON."""
from __future__ import annotations

import base64
from typing import Any, Dict, Iterable, List, Optional, Set, Tuple

from .agreement import check_replies
from .columns import UNKNOWN, Columns
from .language import ACTS, ASKED, MISUSES, RULE_TEXTS
from .outcome import column_names
from .outcomes import Outcome
from .package_tables import columns_of, tables_as_read
from .packages import Asked, Entry, Package
from .reply_columns import answers_of, heads_of_answers, shown_reply
from .rerun import Question, questions_of
from .trace import graph_of, lives
from .values import Reply, Scaled, Value, cell, heads_of, reply_title
from .world_digest import FOLDER, without_digest
from .worlds import Document, world_of_package
from .written_statements import Written, asked_in_order, candidates, parents_of, scripts_in, written_in

# What a number of JavaScript carries exactly.
EXACT = 2**53 - 1
MAX_EDGES = 200_000
COLUMNS = 600
Json = Any


def value_json(value: Value) -> Json:
    """A value; a number that JavaScript wouldn't carry exactly as {"i": its digits}, a decimal as {"i": as it
    was read}."""
    if isinstance(value, Scaled):
        return {"i": str(value)}
    return {"i": str(value)} if isinstance(value, int) and abs(value) > EXACT else value


def values_json(values: Iterable[Value]) -> List[Json]:
    return [value_json(value) for value in values]


def bytes_json(content: Optional[bytes]) -> Json:
    """Bytes as a text where they are one, else in base64; None stays."""
    if content is None:
        return None
    try:
        return {"text": content.decode(), "size": len(content)}
    except UnicodeDecodeError:
        return {"base64": base64.b64encode(content).decode(), "size": len(content)}


def reply_json(reply: Optional[Reply]) -> Json:
    if reply is None:
        return None
    return {"kind": reply.kind, "title": reply_title(reply), "rows": [values_json(row) for row in reply.rows]}


class Statement:
    """A statement of the trace, with what is known of its text and its reply."""

    def __init__(self, step: int, process: str, asked: Asked) -> None:
        self.step, self.process, self.asked = step, process, asked
        self.text: Optional[str] = None
        self.params: List[Value] = []
        self.columns: List[str] = []
        self.reply: Optional[Reply] = None
        # Where the text isn't known: the statements of its script that it may be.
        self.written: List[Written] = []

    def know(self, question: Question, document: Document, is_raw: bool = True) -> None:
        self.text, self.params, self.reply = question.text, question.params, question.reply
        self.columns = column_names(question, document)
        if not is_raw and self.reply is not None:
            answers = answers_of(question.text, document.columns, document.schemas)
            self.reply = shown_reply(self.reply, answers)
            self.columns = heads_of_answers(heads_of(self.columns, len(answers)), answers)

    def json(self, places: Dict[Written, int]) -> Json:
        """`places` has the place of each statement as it is written, in the page's list of these."""
        needs = [[table, [[need.row, need.version, need.rule] for need in rows]]
                 for table, rows in self.asked.reads]
        made = [[table, [[each.row, each.version] for each in rows]] for table, rows in self.asked.made]
        return {"step": self.step, "process": self.process, "text": self.text,
                "params": [cell(v) for v in self.params],
                "written": [places.setdefault(each, len(places)) for each in self.written],
                "columns": self.columns, "reply": reply_json(self.reply), "tables": self.asked.tables,
                "needs": needs, "made": made}


def know_written(package: Package, statements: List["Statement"]) -> None:
    """Texts from the scripts, where nothing else has them."""
    scripts, parents = scripts_in(package), parents_of(package)
    paths = {name: path for name, path, _, _, _ in lives(package)}
    in_order = {path: asked_in_order(script) for path, script in scripts.items()}
    written = {path: written_in(path, script) for path, script in scripts.items()}
    left = {name: list(reversed(in_order.get(path) or [])) for name, path in paths.items()}
    for statement in statements:
        path = paths[statement.process]
        if left[statement.process]:
            statement.text, statement.params = left[statement.process].pop()
        elif in_order.get(path) is None:
            statement.written = candidates(written.get(path, []), statement.asked, parents)


def statements_of(package: Package, outcome: Optional[Outcome], is_raw: bool = True) -> List[Statement]:
    """The statements of the trace; their texts from the outcome of the replay, from the recorded replies, or
    from the scripts."""
    names = package.process_names()
    found = [Statement(run.first.step, names[run.first.process], run.first.asked) for run in package.runs
             if run.first.act == ASKED and run.first.asked is not None]
    document = world_of_package(package)
    if outcome is not None:
        questions = questions_of(document.world, outcome)
        check_replies(questions, document.schemas)
        for statement, question in zip(found, questions):
            statement.know(question, document, is_raw)
    elif package.logs:
        left: Dict[str, List[Entry]] = {log.process: list(reversed(log.entries)) for log in package.logs}
        for statement in found:
            entry = left[statement.process].pop() if left.get(statement.process) else None
            if entry is not None:
                statement.know(Question(statement.process, statement.step, 0, 0, entry.text, entry.params,
                                        entry.reply),
                               document, is_raw)
    else:
        know_written(package, found)
    return found


# ---- the parts

def table_json(package: Package, columns: Columns = UNKNOWN) -> List[Json]:
    return [{
        "name": table.name,
        "columns": [list(column) for column in shown.columns],
        "key": table.key,
        "foreign": [f"({', '.join(each.columns)}) refers to {each.parent}" for each in table.foreign],
        "next": table.next,
        "rows": [[row.number, row.statement, row.rule, *values_json(row.values)] for row in shown.rows],
    } for table, shown in zip(package.tables, tables_as_read(package.tables, columns))]


def process_json(package: Package, outcome: Optional[Outcome]) -> List[Json]:
    after = {process.name: process for process in outcome.processes} if outcome else {}
    found = []
    for name, script, first, last, status in lives(package):
        process = after.get(name)
        ended = process.status if process else status
        found.append({"name": name, "script": script, "first": first, "last": last, "status": ended,
                      "misuse": MISUSES.get(ended if ended is not None else -1),
                      "printed": process.printed if process else None,
                      "statements": len(process.replies) if process else None})
    return found


def writers(package: Package) -> Dict[str, List[Json]]:
    """Of each path that the run changed: by whom, how, and at which first and last step."""
    names = package.process_names()
    found: Dict[str, Dict[Tuple[str, str], List[int]]] = {}
    for run in package.runs:
        act = ACTS[run.first.act]
        if act.has_path and act.changes:
            last = run.first.step + (run.times - 1) * run.stride
            times = found.setdefault(run.first.path, {}).setdefault(
                (names[run.first.process], act.told), [run.first.step, last])
            times[1] = max(times[1], last)
    return {path: [[process, told, *times] for (process, told), times in ways.items()]
            for path, ways in found.items()}


def touched_json(package: Package, outcome: Optional[Outcome]) -> Json:
    """The files that the run left or removed, with those that wrote them."""
    by = {path: ways for path, ways in writers(package).items() if not path.startswith(FOLDER)}
    after = dict(without_digest(outcome).touched) if outcome else {}
    paths = list(after) if outcome else sorted(by, key=lambda path: path.encode())
    return [{"path": path, "known": path in after, "content": bytes_json(after.get(path)),
             "by": by.get(path, [])}
            for path in paths]


def marks_of(package: Package) -> Json:
    """The picture over steps: for each process and path the columns in which something happened,
    by its kind."""
    names = package.process_names()
    width = max(1, package.steps)
    lanes: Dict[Tuple[str, str], Dict[str, Set[int]]] = {}

    def mark(lane: Tuple[str, str], kind: str, first: int, times: int, stride: int) -> None:
        found = lanes.setdefault(lane, {}).setdefault(kind, set())
        for place in range(times) if times <= COLUMNS else range(0, times, max(1, times // (4 * COLUMNS))):
            found.add(min(COLUMNS - 1, (first + place * stride) * COLUMNS // (width + 1)))

    for run in package.runs:
        event, act = run.first, ACTS[run.first.act]
        lane = ("process", names[event.process])
        if act.has_path:
            mark(("path", event.path), "change" if act.changes else "look", event.step, run.times, run.stride)
        mark(lane, "ask" if event.act == ASKED else "act", event.step, run.times, run.stride)
    made = {name: place for place, name in enumerate(names)}
    ordered = sorted(lanes, key=lambda lane: (lane[0] == "path", made.get(lane[1], 0) if lane[0] != "path"
                                              else 0))
    return {"columns": COLUMNS, "steps": package.steps,
            "lanes": [[*lane, {kind: sorted(found) for kind, found in lanes[lane].items()}]
                      for lane in ordered]}


def graph_json(package: Package) -> Json:
    graph = graph_of(package)
    if len(graph.edges) > MAX_EDGES:
        return {"edges": len(graph.edges), "limit": MAX_EDGES}
    return {"nodes": [list(node) for node in graph.nodes],
            "edges": [[*ends, *times] for ends, times in graph.edges.items()]}


def page_json(package: Package, name: str, size: int, outcome: Optional[Outcome],
              verdict: Optional[str], file_digest: str = "", is_raw: bool = False) -> Json:
    """All that a page shows. Cells are as they were read, where the package says what its columns are, unless
    they are to be raw."""
    columns = UNKNOWN if is_raw else columns_of(package)
    statements = statements_of(package, outcome, is_raw)
    replies = [statement.reply for statement in statements if statement.reply is not None]
    processes = process_json(package, outcome)
    written: Dict[Written, int] = {}
    asked = [statement.json(written) for statement in statements]
    return {
        "name": name, "size": size, "kind": package.mode, "version": package.version,
        "digest": package.digest, "fileDigest": file_digest, "notes": list(columns.faults),
        "start": package.start, "seed": str(package.seed), "steps": package.steps,
        "events": package.event_count(), "verdict": verdict, "replayed": outcome is not None,
        "replies": len(replies), "refused": sum(reply.kind == "refused" for reply in replies),
        "misused": sum(process["misuse"] is not None for process in processes),
        "rules": RULE_TEXTS,
        "processes": processes,
        "files": [{"path": path, "content": bytes_json(content)} for path, content in package.files],
        "touched": touched_json(package, outcome),
        "statements": asked,
        "written": [[each.path, each.line, each.text, list(each.params)] for each in written],
        "tables": table_json(package, columns),
        "marks": marks_of(package),
        "graph": graph_json(package),
    }
