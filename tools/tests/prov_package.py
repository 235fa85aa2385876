"""Reads PROV-JSON by the Python package prov and says what it found.

It runs by itself, under an interpreter that has the package. Its input is lines, each a JSON array of texts
of PROV-JSON. For each it writes a line: an array that has, of each text, the lines of its PROV-N by the
package, whether it is the same after it was written in each format that the package has here and read again,
and how many nodes and edges a picture of it has.
"""
from __future__ import annotations

import json
import sys
from typing import Any, Optional

from prov.model import ProvDocument

FORMATS = ["json"]
for each, needed in (("xml", "lxml"), ("rdf", "rdflib")):
    try:
        __import__(needed)
        FORMATS.append(each)
    except ImportError:
        pass


def drawn(document: bytes) -> Optional[list[int]]:
    """How many nodes and edges a picture of it has, or None where the package can't draw here."""
    try:
        from prov.dot import prov_to_dot
    except ImportError:
        return None
    picture = prov_to_dot(document, show_element_attributes=False, show_relation_attributes=False)
    return [len(picture.get_nodes()), len(picture.get_edges())]


def looked_at(text: str) -> list[Any]:
    document = ProvDocument.deserialize(content=text, format="json")
    same = all(ProvDocument.deserialize(content=document.serialize(format=form), format=form) == document
               for form in FORMATS)
    return [document.get_provn().split("\n"), same, drawn(document)]


for line in sys.stdin:
    print(json.dumps([looked_at(text) for text in json.loads(line)]))
