"""Provenance documents that are changed, for hostile.py, and what `prov depends` has to say of one."""
from __future__ import annotations

import random
from typing import Any, Optional

from hostile_packages import Answer, mutated_bytes
from ldvtools.errors import Malformed, Refused
from ldvtools.prov import ancestry, place_of
from ldvtools.provenance import Edge, Node, Provenance, document_text, read_provenance

NUMBERS = (0, 1, 2, 9, 10, 9_999_999, 10_000_000, 10_000_001, 2 ** 32 - 1, 2 ** 32, 2 ** 64 - 1, 2 ** 64,
           -1, 1.0)
TIMES = ((0, 0), (1, 5), (3, 2))
NODES = (Node('path', 'g'), Node('path', 'é'), Node('path', '"\\'), Node('path', ''),
         Node('path', 'x' * 256), Node('process', '0'), Node('process', '00'), Node('process', '4294967296'),
         Node('row', 't/0/0'), Node('row', 't/0/1'), Node('row', 'order/0/0'), Node('row', 't/0'),
         Node('ask', '1'), Node('reply', '1'))
# Texts of a document, each with another that means the same to most readers of JSON.
SPELLINGS = (('/', '\\/'), ('a', '\\u0061'), (':0', ':-0'), (':0', ':0.0'), (':1', ':1e0'), (',', ', '),
             ('}', '}\n'), ('{}', '{ }'), (':', ':\t'), ('"ldv:first"', '"ldv:first":5,"ldv:first"'),
             ('"used":', '"used":{},"used":'))


def changed_graph(rng: random.Random, nodes: list[Node], edges: list[Edge]) -> None:
    """Changes a list of nodes and one of edges. Only the last node is taken out, so that edges stay between
    nodes."""
    how = rng.randrange(8)
    if how == 0 and edges:
        at = rng.randrange(len(edges))
        change: Any = {rng.choice(('first', 'last')): rng.choice(NUMBERS)}
        edges[at] = edges[at]._replace(**change)
    elif how == 1 and edges:
        edges.append(rng.choice(edges)._replace(first=0))
    elif how == 2 and edges:
        del edges[rng.randrange(len(edges))]
    elif how == 3:
        rng.shuffle(edges)
    elif how == 4 and nodes:
        nodes[rng.randrange(len(nodes))] = rng.choice(NODES + tuple(nodes))
    elif how == 5 and nodes:
        ends = rng.randrange(len(nodes)), rng.randrange(len(nodes))
        edges.append(Edge(*ends, *rng.choice(TIMES)))
    elif how == 6:
        nodes.append(rng.choice(NODES))
    elif len(nodes) > 1:
        last = len(nodes) - 1
        edges[:] = [edge for edge in edges if last not in (edge.source, edge.target)]
        del nodes[last]


def mutated_provenance(rng: random.Random, data: bytes) -> bytes:
    if rng.random() < 0.05:
        return data
    try:
        provenance = read_provenance(data)
    except Malformed:
        return mutated_bytes(rng, data)
    if rng.random() < 0.3:
        return mutated_bytes(rng, data)
    nodes, edges = list(provenance.nodes), list(provenance.edges)
    for _ in range(rng.choice((0, 1, 1, 2, 4))):
        changed_graph(rng, nodes, edges)
    text = document_text(Provenance(nodes, edges))
    if rng.random() < 0.3:
        old, new = rng.choice(SPELLINGS)
        at = text.find(old, rng.randrange(len(text)))
        text = text[:at] + new + text[at + len(old):] if at >= 0 else text
    return text.encode()


def reads(data: bytes, path: str, answer: Answer) -> Optional[str]:
    """What isn't as it has to be in an answer of `prov depends PATH`, or None."""
    status, output, _ = answer
    try:
        provenance = read_provenance(data)
        _, found, _ = ancestry(provenance, place_of(provenance, path, None))
    except Malformed as fault:
        return None if status == 16 else 'status %r where the input is no document: %s' % (status, fault)
    except Refused:
        return None if status == 10 else 'status %r where no node is the path' % status
    lines = sorted(provenance.nodes[place].told.encode() for place in found)
    if status != 0 or sorted(output.split(b'\n')[:-1]) != lines:
        return 'status %r, and other lines than %r' % (status, lines)
    return None
