"""Provenance documents of `ldv prov`: the graph of a document, and the document of a graph.

docs/FORMATS.md has the format. A document is read as strictly as `ldv prov depends` reads it.
"""
from __future__ import annotations

import json
import re
from typing import Dict, List, NamedTuple, Optional, Set, Tuple

from .errors import Malformed
from .file_kinds import PROVENANCE, told_kind
from .language import MAX_PATH, NAME, RESERVED
from .packages import Package
from .trace import LAST_TIME, Graph, graph_of

MAX_NUMBER = 2**32 - 1
# A number as an id and a name of an edge have it.
DIGITS = re.compile(r"(0|[1-9][0-9]{0,9})\Z")
EDGE_NAME = re.compile(r"ldv:e(0|[1-9][0-9]{0,19})\Z")
GROUP = {"path": "entity", "row": "entity", "reply": "entity", "process": "activity", "ask": "activity"}
Members = Dict[str, object]


class Node(NamedTuple):
    """A node by its kind and what names it: a path, a number, or a table with a row and a version."""

    kind: str
    name: str

    @property
    def id(self) -> str:
        return f"ldv:{self.kind}/{self.name}"

    @property
    def told(self) -> str:
        """As `inspect depends` has it, with processes by number."""
        return f"{self.kind} {self.name.replace('/', ' ') if self.kind == 'row' else self.name}"


class Edge(NamedTuple):
    """From the place of a node to that of another, from the first to the last step."""

    source: int
    target: int
    first: int
    last: int


class Relation(NamedTuple):
    """A relation of W3C PROV, and the members of an edge that name its source and its target."""

    name: str
    source: str
    target: str


RELATIONS = {
    ("entity", "activity"): Relation("used", "prov:entity", "prov:activity"),
    ("activity", "entity"): Relation("wasGeneratedBy", "prov:activity", "prov:entity"),
    ("entity", "entity"): Relation("wasDerivedFrom", "prov:usedEntity", "prov:generatedEntity"),
    ("activity", "activity"): Relation("wasInformedBy", "prov:informant", "prov:informed"),
}


class Provenance(NamedTuple):
    """The graph of a document: its nodes, and edges between their places."""

    nodes: List[Node]
    edges: List[Edge]

    def relation(self, edge: Edge) -> Relation:
        return RELATIONS[GROUP[self.nodes[edge.source].kind], GROUP[self.nodes[edge.target].kind]]

    def place(self, path: str) -> Optional[int]:
        """Of the node of a path."""
        node = Node("path", path)
        return self.nodes.index(node) if node in self.nodes else None

    def graph(self) -> Graph:
        """Its edges, for what looks for ways along them."""
        graph = Graph([])
        graph.edges = {(edge.source, edge.target): (edge.first, edge.last) for edge in self.edges}
        return graph


# ---- reading

def number_in(text: str, where: str) -> int:
    if not DIGITS.match(text) or int(text) > MAX_NUMBER:
        raise Malformed(f"{where}: {text!r} is no number of four bytes")
    return int(text)


def node_of(name: str) -> Node:
    """The node of an id."""
    kind, slash, rest = name[4:].partition("/")
    if not name.startswith("ldv:") or kind not in GROUP or not slash:
        raise Malformed(f"{name!r} is no id of a node")
    if kind == "path":
        code = rest.encode("utf-8", "surrogatepass")
        if not 1 <= len(code) <= MAX_PATH or any(byte < 32 or byte == 127 for byte in code):
            raise Malformed(f"{name!r}: the path is outside its rule")
    elif kind == "row":
        words = rest.split("/")
        if len(words) != 3 or not NAME.match(words[0]) or words[0] in RESERVED:
            raise Malformed(f"{name!r} is no table with a row and a version")
        for word in words[1:]:
            number_in(word, repr(name))
    else:
        number_in(rest, repr(name))
    return Node(kind, rest)


def members(value: object, where: str) -> Members:
    if not isinstance(value, dict):
        raise Malformed(f"{where} is no object")
    return value


def number_of(value: Members, name: str, limit: int, where: str) -> int:
    """A member that is a whole number of at most that."""
    number = value.get(name)
    if not isinstance(number, int) or isinstance(number, bool) or not 0 <= number <= limit:
        raise Malformed(f"{where}: {name} is no number from 0 to {limit}")
    return number


def nodes_in(document: Members) -> Tuple[List[Node], Dict[str, int]]:
    """The nodes by their places, and the place of each id."""
    groups = [(group, members(document.get(group), group)) for group in ("entity", "activity")]
    count = sum(len(ids) for _, ids in groups)
    found: List[Optional[Node]] = [None] * count
    places: Dict[str, int] = {}
    for group, ids in groups:
        for name, value in ids.items():
            node = node_of(name)
            if GROUP[node.kind] != group:
                raise Malformed(f"{name!r} stands under {group}")
            place = number_of(members(value, repr(name)), "ldv:place", count - 1, repr(name))
            if found[place] is not None:
                raise Malformed(f"{name!r}: a node before it has place {place}")
            found[place], places[name] = node, place
    return [node for node in found if node is not None], places


def edge_in(relation: Relation, value: Members, places: Dict[str, int], where: str) -> Edge:
    ends = []
    for member in (relation.source, relation.target):
        name = value.get(member)
        if not isinstance(name, str) or name not in places:
            raise Malformed(f"{where}: {member} names no node")
        ends.append(places[name])
    first = number_of(value, "ldv:first", LAST_TIME, where)
    last = number_of(value, "ldv:last", LAST_TIME, where)
    if first > last:
        raise Malformed(f"{where}: its first step comes after its last")
    return Edge(ends[0], ends[1], first, last)


def edges_in(document: Members, places: Dict[str, int]) -> List[Edge]:
    """The edges by their numbers."""
    groups = [(relation, members(document.get(relation.name), relation.name))
              for relation in RELATIONS.values()]
    found: List[Optional[Edge]] = [None] * sum(len(names) for _, names in groups)
    pairs: Set[Tuple[int, int]] = set()
    for relation, names in groups:
        for name, value in names.items():
            match = EDGE_NAME.match(name)
            number = int(match[1]) if match else len(found)
            if number >= len(found) or found[number] is not None:
                raise Malformed(f"{name!r}: edges are numbered from 0 on, each once")
            edge = edge_in(relation, members(value, repr(name)), places, repr(name))
            if (edge.source, edge.target) in pairs:
                raise Malformed(f"{name!r}: an edge before it is between the same nodes")
            pairs.add((edge.source, edge.target))
            found[number] = edge
    return [edge for edge in found if edge is not None]


def read_provenance(data: bytes) -> Provenance:
    """The graph whose document that is. Malformed exactly where `ldv prov depends` says that it is none."""
    try:
        text = data.decode()
        document = members(json.loads(text), "the document")
    except UnicodeDecodeError:
        raise Malformed(f"it is {told_kind(data)}" if told_kind(data) else "it isn't UTF-8") from None
    except RecursionError:
        raise Malformed("it nests too deep") from None
    except ValueError as fault:
        kind = told_kind(data)
        kind = None if kind == PROVENANCE else kind
        where = ""
        if isinstance(fault, json.JSONDecodeError):
            where = f": line {fault.lineno} column {fault.colno}"
        raise Malformed(f"it is {kind}" if kind else f"it isn't JSON{where}") from None
    nodes, places = nodes_in(document)
    provenance = Provenance(nodes, edges_in(document, places))
    due = document_text(provenance)
    if text != due:
        at = next((n for n, (a, b) in enumerate(zip(text, due)) if a != b), min(len(text), len(due)))
        raise Malformed(f"its graph is written otherwise, from character {at} on: blanks, the order of "
                        "members, a member too many, or another spelling")
    return provenance


# ---- writing

def document_text(provenance: Provenance) -> str:
    """The document of a graph, as `ldv prov` writes it."""
    document: Dict[str, Dict[str, object]] = {group: {} for group in ("activity", "entity")}
    document.update((relation.name, {}) for relation in RELATIONS.values())
    for place, node in enumerate(provenance.nodes):
        document[GROUP[node.kind]][node.id] = {"ldv:place": place}
    for number, edge in enumerate(provenance.edges):
        relation = provenance.relation(edge)
        document[relation.name][f"ldv:e{number}"] = {
            "ldv:first": edge.first, "ldv:last": edge.last,
            relation.source: provenance.nodes[edge.source].id,
            relation.target: provenance.nodes[edge.target].id,
        }
    return json.dumps(document, ensure_ascii=False, separators=(",", ":"), sort_keys=True)


# ---- of a package

def provenance_of(package: Package) -> Provenance:
    """The graph of a package's trace, of which `ldv prov` writes the document: nodes come in the order in
    which edges name them."""
    graph = graph_of(package)
    found = list(graph.nodes)
    places: Dict[int, int] = {}
    edges = [Edge(places.setdefault(source, len(places)), places.setdefault(target, len(places)), *times)
             for (source, target), times in graph.edges.items()]
    return Provenance([node_in(graph, *found[place]) for place in places], edges)


def node_in(graph: Graph, kind: object, *name: object) -> Node:
    """A node of a graph, whose processes have names, with the number of a process in place of that."""
    if kind == "process":
        return Node("process", str(graph.made[str(name[0])]))
    return Node(str(kind), "/".join(map(str, name)))
