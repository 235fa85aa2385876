"""Turns a provenance document of `ldv prov` into what other programs read, or draws what an output came from.

    ./ldv prov < world.package > world.prov
    tools/prov.py world.prov > world.json                 PROV-JSON, for the Python package prov and others
    tools/prov.py --provn world.prov > world.provn        PROV-N, the notation for people
    tools/prov.py --ancestry PATH world.prov              what the path came from, as a graph for Graphviz
    tools/prov.py --ancestry PATH --svg FILE world.prov   an image, by the program dot of Graphviz
    tools/prov.py --reply 2 world.prov                    the same of the reply to the statement 2, from 0
    tools/prov.py --replies world.prov                    what each reply came from, a line for each
    tools/prov.py --names world.package ..                processes by their names, as `inspect` shows them,
                                                          and statements by their texts, where replies were
                                                          recorded or --replayed names the replay's outcome
    tools/prov.py --namespace IRI ..                      the namespace of nodes and edges (default urn:ldv:)
    tools/prov.py --limit N ..                            a picture of at most N arrows (default 200)

A document of `ldv` has no namespaces, and its ids have paths as they are. PROV-JSON wants the member
`prefix`, and names of PROV-N are without blanks and most other marks. So each id becomes a name of the
namespace `ldv`, in which such bytes are written as %XX. A node also gets a label and a `prov:type`.
`ldv:place`, `ldv:first` and `ldv:last` stay: the place of a node, and the first and the last step at which
something went along an edge. Nothing else is added, and nothing is left out. The documents of two packages
have the same ids, so give each a namespace of its own before you merge them. docs/PROVENANCE.md has what maps
to what.

In the picture an arrow goes from what was there to what came of it, with the step, or the first and the last
one. It has the nodes that `prov depends PATH` lists and the ways that lead to the path. Four rows and more
with the same arrows are one node, such as `50 rows of pubs`.

Statuses: 0 written; 1 the input is no provenance document, no node is the path, the picture has more arrows
than the limit, a file can't be read or written, or dot isn't installed or fails; 2 wrong words.
"""
from __future__ import annotations

import argparse
import collections
import json
import re
import sys
from typing import Dict, Iterator, List, NamedTuple, Optional, Sequence, Tuple

from .errors import Malformed, Misused, Refused, TwoRuns, command, words_of
from .outcome import read_input, write_out
from .outcomes import read_outcome
from .packages import Package, read_package
from .page_data import statements_of
from .picture import add_image_words, quoted, write_graph
from .provenance import GROUP, Edge, Node, Provenance, Relation, provenance_of, read_provenance
from .trace import LAST_TIME, latest_times
from .values import counted, escaped

NAMESPACE = "urn:ldv:"
# Characters that a local name of PROV-N may have as they are; a dot not at its end.
PLAIN = re.compile(r"[A-Za-z0-9_/.-]")
# What an IRI between < and > can't have.
UNFIT = re.compile(r"[\x00-\x20<>\"{}|^`\\\x7f]")
# The arguments of a relation that a document doesn't have, where PROV-N has others after them: a time, or an
# activity with its generation and its usage.
GAPS = {"used": ", -", "wasGeneratedBy": ", -", "wasDerivedFrom": ", -, -, -", "wasInformedBy": ""}
SHAPES = {"path": "ellipse", "process": "box", "row": "note", "ask": 'box, style="rounded"',
          "reply": 'box, style="rounded"'}
SHOWN = 60
# So many rows with the same edges are drawn as one node.
FOLDED = 4


class Named(NamedTuple):
    """The names of processes, and the texts of statements, where they are known."""

    processes: List[str]
    statements: List[Optional[str]]


Names = Optional[Named]


# ---- names

def local_name(node: Node) -> str:
    """The id of a node without `ldv:`, with all but plain characters as %XX, byte by byte."""
    text = f"{node.kind}/{node.name}"
    plain = "".join(each if PLAIN.match(each) else "".join(f"%{byte:02X}" for byte in each.encode())
                    for each in text)
    return plain[:-1] + "%2E" if plain.endswith(".") else plain


def qualified(node: Node) -> str:
    return "ldv:" + local_name(node)


def label(node: Node, names: Names) -> str:
    """As `inspect depends` has it; a process by its number where names aren't given."""
    if node.kind == "process" and names is not None:
        return f"process {names.processes[int(node.name)]}"
    if node.kind in ("ask", "reply") and names is not None and int(node.name) < len(names.statements):
        text = names.statements[int(node.name)]
        if text is not None:
            shown = text if len(text) <= SHOWN else text[:SHOWN - 2] + ".."
            return f"{node.told}: {shown}"
    return node.told


def names_of(provenance: Provenance, data: bytes, outcome: Optional[bytes] = None) -> Named:
    """The names of the processes of a package, in the order in which they were made, and the texts of its
    statements, as far as its recorded replies or the outcome of its replay say them."""
    try:
        package = read_package(data)
    except TwoRuns:
        raise Refused("--names wants the package of which the document is; a joined package has two "
                      "runs: package.py --run K --package takes it apart") from None
    except Malformed as fault:
        raise Refused(f"--names: no package: {fault}") from None
    names = package.process_names()
    for node in provenance.nodes:
        if node.kind == "process" and int(node.name) >= len(names):
            raise Refused(f"the package has no process {node.name}: the document isn't of its trace")
    check_graph(provenance, package)
    found = statements_of(package, read_outcome(outcome) if outcome is not None else None)
    return Named(names, [statement.text for statement in found])


def links_of(provenance: Provenance) -> Dict[Tuple[Node, Node], Tuple[int, int]]:
    """The edges between nodes, whatever the order of these."""
    nodes = provenance.nodes
    return {(nodes[edge.source], nodes[edge.target]): (edge.first, edge.last) for edge in provenance.edges}


def check_graph(provenance: Provenance, package: Package) -> None:
    """Refuses a package whose trace has another graph than the document."""
    if links_of(provenance_of(package)) != links_of(provenance):
        raise Refused("the document isn't of the trace of this package: its graph is another one")


def later_first(relation: Relation) -> Tuple[str, str]:
    """The members of the two ends in the order of the standard: what came later is named first."""
    return relation.target, relation.source


# ---- PROV-JSON

def typed(number: int) -> Dict[str, str]:
    return {"$": str(number), "type": "xsd:int"}


def prov_json(provenance: Provenance, names: Names, namespace: str) -> str:
    made: Dict[str, Dict[str, object]] = {"prefix": {
        "ldv": namespace, "prov": "http://www.w3.org/ns/prov#", "xsd": "http://www.w3.org/2001/XMLSchema#"}}
    for place, node in enumerate(provenance.nodes):
        made.setdefault(GROUP[node.kind], {})[qualified(node)] = {
            "prov:label": label(node, names),
            "prov:type": {"$": f"ldv:{node.kind}", "type": "prov:QUALIFIED_NAME"},
            "ldv:place": typed(place),
        }
    for number, edge in enumerate(provenance.edges):
        relation = provenance.relation(edge)
        ends = {relation.source: qualified(provenance.nodes[edge.source]),
                relation.target: qualified(provenance.nodes[edge.target])}
        value: Dict[str, object] = {member: ends[member] for member in later_first(relation)}
        value.update({"ldv:first": typed(edge.first), "ldv:last": typed(edge.last)})
        made.setdefault(relation.name, {})[f"ldv:e{number}"] = value
    return json.dumps(made, indent=1, ensure_ascii=False) + "\n"


# ---- PROV-N

def literal(text: str) -> str:
    return '"' + text.replace("\\", "\\\\").replace('"', '\\"') + '"'


def prov_n(provenance: Provenance, names: Names, namespace: str) -> str:
    lines = ["document", f"  prefix ldv <{namespace}>", ""]
    for place, node in enumerate(provenance.nodes):
        times = ", -, -" if GROUP[node.kind] == "activity" else ""
        told = f"prov:label={literal(label(node, names))}, prov:type='ldv:{node.kind}', ldv:place={place}"
        lines.append(f"  {GROUP[node.kind]}({qualified(node)}{times}, [{told}])")
    for number, edge in enumerate(provenance.edges):
        name = provenance.relation(edge).name
        later, earlier = (qualified(provenance.nodes[end]) for end in (edge.target, edge.source))
        lines.append(f"  {name}(ldv:e{number}; {later}, {earlier}{GAPS[name]}, "
                     f"[ldv:first={edge.first}, ldv:last={edge.last}])")
    return "\n".join(lines + ["endDocument"]) + "\n"


# ---- what a path came from

def place_of(provenance: Provenance, path: Optional[str], reply: Optional[int]) -> int:
    """The place of a path, or of a reply by the number of its statement."""
    node = Node("path", path) if path is not None else Node("reply", str(reply))
    if node not in provenance.nodes:
        raise Refused(f"no node is the {node.kind} {node.name}")
    return provenance.nodes.index(node)


def ancestry(provenance: Provenance, place: int) -> Tuple[int, List[int], List[Edge]]:
    """The place of a node, those of the nodes from which something may have got to it, and the edges by
    which it may have."""
    found = latest_times(provenance.graph(), place)
    # An edge counts that begins before the last time at which its target leads on.
    edges = [edge for edge in provenance.edges if edge.target == place and edge.first <= LAST_TIME
             or edge.target in found and edge.first <= found[edge.target]]
    return place, sorted(found), edges


def folded(provenance: Provenance, found: Sequence[int],
           edges: Sequence[Edge]) -> Tuple[Dict[int, int], Dict[int, int]]:
    """The rows that have the same edges: of each the one that stands for it, and how many that one stands
    for."""
    around: Dict[int, List[Tuple[int, int, int, int]]] = {}
    for edge in edges:
        around.setdefault(edge.source, []).append((0, edge.target, edge.first, edge.last))
        around.setdefault(edge.target, []).append((1, edge.source, edge.first, edge.last))
    alike: Dict[Tuple[object, ...], List[int]] = {}
    for each in found:
        node = provenance.nodes[each]
        if node.kind == "row":
            alike.setdefault((node.name.partition("/")[0], *sorted(around.get(each, []))), []).append(each)
    groups = [group for group in alike.values() if len(group) >= FOLDED]
    return ({each: group[0] for group in groups for each in group},
            {group[0]: len(group) for group in groups})


def dot_text(provenance: Provenance, names: Names, target: int, limit: int) -> str:
    """The graph for dot. Nodes are n0, n1 and so on by their places, the target is marked, and rows with the
    same edges are one node."""
    place, found, edges = ancestry(provenance, target)
    first, counts = folded(provenance, [each for each in found if each != place], edges)
    edges = [edge for edge in edges if first.get(edge.source, edge.source) == edge.source
             and first.get(edge.target, edge.target) == edge.target]
    found = [each for each in found if first.get(each, each) == each]
    if len(edges) > limit:
        raise Refused(f"the picture would have {len(edges)} arrows, more than {limit}; --limit N takes N")
    lines = ["digraph provenance {", "  rankdir=LR;", '  node [fontname="Helvetica", fontsize=11];',
             '  edge [fontname="Helvetica", fontsize=9, arrowsize=0.7];']
    for each in sorted({place, *found}):
        node = provenance.nodes[each]
        mark = ', style="filled", fillcolor="#cfe8cf"' if each == place else ""
        text = node.name if node.kind == "path" else label(node, names)
        if each in counts:
            text = f"{counts[each]:,} rows of {node.name.partition('/')[0]}"
        lines.append(f"  n{each} [shape={SHAPES[node.kind]}{mark}, label={quoted([text])}];")
    for edge in edges:
        steps = f"{edge.first}" if edge.first == edge.last else f"{edge.first} to {edge.last}"
        lines.append(f'  n{edge.source} -> n{edge.target} [label="{steps}"];')
    return "\n".join(lines + ["}"]) + "\n"


# ---- what replies came from

def reply_lines(provenance: Provenance, names: Names) -> Iterator[str]:
    """A line for each reply: the rows of which it came, by table, the files, and the replies before it."""
    replies = sorted((int(node.name), place) for place, node in enumerate(provenance.nodes)
                     if node.kind == "reply")
    graph = provenance.graph()
    for number, place in replies:
        found = [provenance.nodes[each] for each in latest_times(graph, place) if each != place]
        tables = collections.Counter(table for table, _ in {
            (node.name.split("/")[0], node.name.split("/")[1]) for node in found if node.kind == "row"})
        parts = [counted(count, f"row of {table}", f"rows of {table}") for table,
                 count in sorted(tables.items())]
        paths = [escaped(node.name) for node in found if node.kind == "path"]
        others = sorted(int(node.name) for node in found if node.kind == "reply")
        parts += [f"files {', '.join(sorted(paths))}"] if paths else []
        parts += [f"replies {', '.join(map(str, others[:10]))}" + (" .." if len(others) > 10 else "")
                  ] if others else []
        yield f"{escaped(label(provenance.nodes[place], names))} came from {'; '.join(parts) or 'nothing'}"


# ---- the command

def given_words(words: Optional[Sequence[str]]) -> argparse.Namespace:
    parser = words_of(__doc__, "document", "what `prov` wrote")
    parser.add_argument("--names", metavar="PACKAGE", help="name processes as the package's trace does, and "
                        "statements by their texts, where replies were recorded")
    parser.add_argument("--replayed", metavar="OUTCOME", help="with --names: the outcome of the replay of a "
                        "package with rows, by which statements have their texts")
    parser.add_argument("--namespace", metavar="IRI", default=NAMESPACE,
                        help=f"of nodes and edges (default {NAMESPACE})")
    form = parser.add_mutually_exclusive_group()
    form.add_argument("--provn", action="store_true", help="write PROV-N in place of PROV-JSON")
    form.add_argument("--ancestry", metavar="PATH", help="draw what the path came from")
    form.add_argument("--reply", metavar="S", type=int, help="draw what the reply to the statement S, from "
                                                             "0, "
                      "came from")
    form.add_argument("--replies", action="store_true", help="say what each reply came from")
    add_image_words(parser, "with --ancestry: ")
    return parser.parse_args(words)


def work(words: Optional[Sequence[str]]) -> int:
    given = given_words(words)
    if given.svg and given.ancestry is None and given.reply is None:
        raise Misused("--svg goes with --ancestry or --reply")
    if given.replayed and not given.names:
        raise Misused("--replayed goes with --names")
    if UNFIT.search(given.namespace) or ":" not in given.namespace:
        raise Misused(f"{given.namespace!r} is no IRI")
    provenance = read_provenance(read_input(given.document))
    outcome = read_input(given.replayed) if given.replayed else None
    names = names_of(provenance, read_input(given.names), outcome) if given.names else None
    if given.replies:
        write_out("".join(line + "\n" for line in reply_lines(provenance, names)))
        return 0
    if given.ancestry is None and given.reply is None:
        write_out((prov_n if given.provn else prov_json)(provenance, names, given.namespace))
        return 0
    target = place_of(provenance, given.ancestry, given.reply)
    return write_graph(dot_text(provenance, names, target, given.limit), given)


def main(words: Optional[Sequence[str]] = None) -> int:
    return command(work, words, "provenance document")


if __name__ == "__main__":
    sys.exit(main())
