"""The graph of a trace: which node something went to, and when; and what a path came from.

docs/FORMATS.md has the events, and what `inspect depends` says.
"""
from __future__ import annotations

import heapq
from typing import Dict, Iterator, List, Optional, Tuple

from .language import ACTS, ASKED, ENDED, SPAWNED, STARTED, WAITED
from .packages import Asked, Event, Package, Run
from .values import escaped

LAST_TIME = 10_000_000
# ("path", PATH), ("process", NAME), ("row", TABLE, ROW, VERSION), ("ask", S) or ("reply", S).
Node = Tuple[object, ...]
KINDS = ("path", "process", "row", "ask", "reply")


class Graph:
    """Nodes in the order in which they come up, and edges from source to target with
    their first and last time."""

    def __init__(self, processes: List[str]) -> None:
        self.made = {name: place for place, name in enumerate(processes)}
        self.nodes: Dict[Node, int] = {}
        self.edges: Dict[Tuple[int, int], Tuple[int, int]] = {}

    def node(self, *node: object) -> int:
        return self.nodes.setdefault(node, len(self.nodes))

    def edge(self, source: int, target: int, first: int, last: int) -> None:
        known = self.edges.get((source, target))
        self.edges[source, target] = (min(first, known[0]), max(last, known[1])) if known else (first, last)

    def depends(self, path: str) -> Optional[List[str]]:
        """The lines of `inspect depends`, or None where no event names the path."""
        if ("path", path) not in self.nodes:
            return None
        latest = latest_times(self, self.nodes["path", path])
        names = list(self.nodes)
        return [" ".join(map(str, node))
                for node in sorted((names[place] for place in latest), key=self.in_order)]

    def in_order(self, node: Node) -> Tuple[object, ...]:
        """Paths by bytes, processes as they were made, rows, asks and replies by their numbers."""
        kind, name = KINDS.index(str(node[0])), str(node[1])
        if node[0] == "path":
            return kind, name.encode()
        return (kind, self.made[name]) if node[0] == "process" else (kind, *node[1:])


def latest_times(graph: Graph, target: int) -> Dict[int, int]:
    """For each node from which a way leads to the target, the latest time from which it does."""
    sources: Dict[int, List[Tuple[int, int, int]]] = {}
    for (source, end), (first, last) in graph.edges.items():
        sources.setdefault(end, []).append((source, first, last))
    found: Dict[int, int] = {}
    due: List[Tuple[int, int]] = []

    def look(node: int, time: int) -> None:
        for source, first, last in sources.get(node, ()):
            latest = min(last, time)
            if latest >= first and source not in found:
                heapq.heappush(due, (-latest, source))

    # The target itself is found only where it leads to itself.
    look(target, LAST_TIME)
    while due:
        time, node = heapq.heappop(due)
        if node not in found:
            found[node] = -time
            look(node, -time)
    return found


def graph_of(package: Package) -> Graph:
    """The graph of a package's trace."""
    names = package.process_names()
    graph = Graph(names)
    made = 1
    for run in package.runs:
        made = add_run(graph, run, names, made)
    return graph


def add_run(graph: Graph, run: Run, names: List[str], made: int) -> int:
    """Adds the edges of a run. `made` is the number of processes before it; gives that after it."""
    event = run.first
    act = ACTS[event.act]
    first, last = event.step, event.step + (run.times - 1) * run.stride
    process = graph.node("process", names[event.process])
    if act.has_path:
        path = graph.node("path", event.path)
        for place in range(run.times if event.act == SPAWNED else 0):
            # In the order in which the program names them.
            child, step = graph.node("process", names[made]), event.step + place * run.stride
            graph.edge(path, child, step, step)
            graph.edge(path, process, step, step)
            graph.edge(process, child, step, step)
            made += 1
        if act.looks:
            graph.edge(path, process, first, last)
        if act.changes:
            graph.edge(process, path, first, last)
    elif event.act == WAITED:
        graph.edge(graph.node("process", names[event.number]), process, first, last)
    elif event.act == ASKED and event.asked is not None:
        add_asked(graph, event.asked, process, event.step)
    return made


def add_asked(graph: Graph, asked: Asked, process: int, step: int) -> None:
    ask, reply = graph.node("ask", asked.statement), graph.node("reply", asked.statement)
    graph.edge(process, ask, step, step)
    graph.edge(ask, reply, step, step)
    graph.edge(reply, process, step, step)
    for table, needs in asked.reads:
        for need in needs:
            graph.edge(graph.node("row", table, need.row, need.version), reply, step, step)
    for table, versions in asked.made:
        for each in versions:
            version = graph.node("row", table, each.row, each.version)
            graph.edge(ask, version, step, step)
    for table, versions in asked.made:
        for each in versions:
            if each.version > 0:
                graph.edge(graph.node("row", table, each.row, each.version - 1),
                           graph.node("row", table, each.row, each.version), step, step)


def event_line(event: Event, names: List[str]) -> str:
    """An event as `inspect trace` has it."""
    act = ACTS[event.act]
    parts = [str(event.step), names[event.process], act.name]
    if act.has_flag:
        parts.append("found" if event.found else "absent")
    if act.has_path:
        parts.append(escaped(event.path))
    if event.act == WAITED:
        parts.append(names[event.number])
    if event.act == ENDED:
        parts.append(str(event.number))
    if event.asked is not None:
        asked = event.asked
        reads, made = sum(len(rows) for _, rows in asked.reads), sum(len(rows) for _, rows in asked.made)
        parts += [str(asked.statement), f"tables {len(asked.tables)} reads {reads} made {made}"]
    return " ".join(parts)


def lives(package: Package) -> Iterator[Tuple[str, str, int, int, Optional[int]]]:
    """Of each process its name, its script, the step at which it was made and that at
    which it ended, and its status."""
    names = package.process_names()
    scripts, begins = [""], [0]
    ends: Dict[int, Tuple[int, int]] = {}
    for run in package.runs:
        event = run.first
        if event.act == STARTED:
            scripts[0] = event.path
        for place in range(run.times if event.act == SPAWNED else 0):
            scripts.append(event.path)
            begins.append(event.step + place * run.stride)
        if event.act == ENDED:
            ends[event.process] = event.step, event.number
    for place, name in enumerate(names):
        end = ends.get(place)
        yield name, scripts[place], begins[place], end[0] if end else package.steps, end[1] if end else None
