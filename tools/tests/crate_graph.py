"""Reads the description of an archive by rdflib, with its context given as a file, and writes its triples.

It runs by itself, under an interpreter that has rdflib 6 or later. Its input is the description; its word
names the file that stands for the context of RO-Crate 1.1. It writes a JSON array of triples, each of three
texts, in which the folder of the description is `http://crate.invalid/`.
"""
from __future__ import annotations

import json
import sys

import rdflib

document = json.load(sys.stdin)
with open(sys.argv[1], encoding="utf-8") as file:
    known = json.load(file)["@context"]
wanted = "https://w3id.org/ro/crate/1.1/context"
if document["@context"][0] != wanted:
    sys.exit("the context isn't that of RO-Crate 1.1")
document["@context"][0] = known
graph = rdflib.Graph().parse(data=json.dumps(document), format="json-ld", base="http://crate.invalid/")
print(json.dumps(sorted([str(each) for each in triple] for triple in graph)))
