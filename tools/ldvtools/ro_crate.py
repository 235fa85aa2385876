"""The description of an archive for machines: `ro-crate-metadata.json`, after RO-Crate 1.1
(https://w3id.org/ro/crate/1.1)."""
from __future__ import annotations

import json
import re
from typing import Dict, List, NamedTuple, Optional, Sequence, Union
from urllib.parse import quote

from .bundle_parts import METADATA, PACKAGE, PROGRAM, Part
from .errors import Misused

PROFILE = "https://w3id.org/ro/crate/1.1"
# Version 1.1 has no word for a digest of this kind, so that the description says what it means by it.
CONTEXT = [f"{PROFILE}/context", {"sha256": "http://schema.org/sha256"}]
ORCID = re.compile(r"(?:https?://orcid\.org/)?(\d{4}-\d{4}-\d{4}-\d{3}[\dX])")
# Licences that data and texts often have, by their identifiers in the list of SPDX.
LICENCES = {
    "CC0-1.0": "Creative Commons Zero 1.0", "CC-BY-4.0": "Creative Commons Attribution 4.0",
    "CC-BY-SA-4.0": "Creative Commons Attribution-ShareAlike 4.0",
    "CC-BY-NC-4.0": "Creative Commons Attribution-NonCommercial 4.0",
    "ODbL-1.0": "Open Database License 1.0", "ODC-By-1.0": "Open Data Commons Attribution 1.0",
    "PDDL-1.0": "Open Data Commons Public Domain Dedication and Licence 1.0",
    "MIT": "MIT License", "Apache-2.0": "Apache License 2.0", "BSD-3-Clause": "BSD 3-Clause License",
    "GPL-3.0-or-later": "GNU General Public License 3.0 or later",
}
NO_LICENCE = "no licence is named: ask whoever made this archive before you copy or change what is in it"
Entity = Dict[str, object]


class Author(NamedTuple):
    """Who made the archive. `orcid` is an address, where one was given."""

    name: str
    orcid: Optional[str]


class Licence(NamedTuple):
    """What may be done with the archive: a name, and the address of its text where there is one."""

    name: str
    address: Optional[str]


class Description(NamedTuple):
    """What whoever makes an archive says of it."""

    title: str
    told: str
    date: str
    authors: List[Author]
    licence: Licence


class Instrument(NamedTuple):
    """The program that replayed the package."""

    version: str
    digest: str


# ---- words of the command line

def check_digit(digits: str) -> str:
    """The last character of an ORCID iD, by ISO 7064 with modulus 11 and radix 2."""
    total = 0
    for digit in digits:
        total = (total + int(digit)) * 2
    rest = (12 - total % 11) % 11
    return "X" if rest == 10 else str(rest)


def author_of(word: str) -> Author:
    """NAME, or NAME=ORCID."""
    name, equal, code = word.rpartition("=")
    if not equal:
        name = code
    if not name.strip():
        raise Misused(f"--author {word}: give NAME or NAME=ORCID")
    if not equal:
        return Author(name.strip(), None)
    found = ORCID.fullmatch(code.strip())
    digits = found[1].replace("-", "") if found else ""
    if found is None or check_digit(digits[:-1]) != digits[-1]:
        raise Misused(f"--author {word}: {code} is no ORCID iD, such as 0000-0002-1825-0097")
    return Author(name.strip(), f"https://orcid.org/{found[1]}")


def licence_of(word: Optional[str]) -> Licence:
    """An identifier of SPDX, an address, or a text."""
    if word is None:
        return Licence(NO_LICENCE, None)
    if re.fullmatch(r"https?://\S+", word):
        return Licence(word, word)
    if word in LICENCES:
        return Licence(f"{LICENCES[word]} ({word})", f"https://spdx.org/licenses/{word}")
    return Licence(word, None)


# ---- the description

def ref(name: str) -> Dict[str, str]:
    return {"@id": name}


def id_of(part: Part) -> str:
    """The path of a file as a reference relative to the description."""
    return quote(part.path)


def person(place: int, author: Author) -> Entity:
    return {"@id": author.orcid or f"#author-{place}", "@type": "Person", "name": author.name}


def licence_id(licence: Licence) -> str:
    return licence.address or "#licence"


def file_entity(part: Part, instrument: Instrument) -> Entity:
    made: Entity = {"@id": id_of(part), "@type": "File", "name": part.path, "description": part.told,
                    "encodingFormat": part.media, "contentSize": str(len(part.data)), "sha256": part.digest}
    if part.path == PROGRAM:
        made.update({"@type": ["File", "SoftwareApplication"], "version": instrument.version})
    return made


def program_entities(parts: Sequence[Part], instrument: Instrument) -> List[Entity]:
    """The program, where it isn't one of the files."""
    if any(part.path == PROGRAM for part in parts):
        return []
    return [{"@id": "#ldv", "@type": "SoftwareApplication", "name": "ldv", "version": instrument.version,
             "description": f"It isn't in this archive. Its SHA-256 is {instrument.digest}."}]


def action(run: int, parts: Sequence[Part]) -> Entity:
    """The replay of a run, with what it was given and what came of it."""
    tool = PROGRAM if any(part.path == PROGRAM for part in parts) else "#ldv"
    made = [ref(id_of(part)) for part in parts if part.run == run]
    return {"@id": f"#replay-{run}" if run else "#replay", "@type": "CreateAction",
            "name": f"replay of run {run}" if run else "replay", "instrument": ref(tool),
            "object": [ref(id_of(part)) for part in parts if part.path == PACKAGE], "result": made}


def root_entity(description: Description, parts: Sequence[Part], others: Sequence[Entity],
                actions: Sequence[Entity]) -> Entity:
    authors = [ref(str(person(place, each)["@id"])) for place, each in enumerate(description.authors, 1)]
    made: Entity = {"@id": "./", "@type": "Dataset", "name": description.title,
                    "description": description.told, "datePublished": description.date,
                    "license": ref(licence_id(description.licence))}
    if authors:
        made["author"] = authors
    made["hasPart"] = [ref(id_of(part)) for part in parts] + [ref(str(each["@id"])) for each in others]
    made["mentions"] = [ref(str(each["@id"])) for each in actions]
    return made


def metadata(description: Description, parts: Sequence[Part], sums: Entity, instrument: Instrument) -> bytes:
    """The description of an archive of these files, of the file of their sums and of itself."""
    actions = [action(run, parts) for run in sorted({part.run for part in parts if part.run is not None})]
    about: Entity = {"@id": METADATA, "@type": "CreativeWork", "conformsTo": ref(PROFILE),
                     "about": ref("./")}
    licence: Entity = {"@id": licence_id(description.licence), "@type": "CreativeWork",
                       "name": description.licence.name, "description": description.licence.name}
    graph: List[Entity] = [about, root_entity(description, parts, [sums], actions)]
    graph += [file_entity(part, instrument) for part in parts] + [sums, *actions]
    graph += program_entities(parts, instrument)
    graph += [person(place, each) for place, each in enumerate(description.authors, 1)] + [licence]
    whole: Dict[str, Union[object]] = {"@context": CONTEXT, "@graph": graph}
    return (json.dumps(whole, indent=1, ensure_ascii=False) + "\n").encode()
