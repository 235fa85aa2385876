#!/usr/bin/env python3
"""Writes the cases of packages: for each rule of a valid package some that break this rule only, each with a
right digest, beside some that come as close and are valid. encoder.py makes the bytes.

    python3 tools package_cases                writes rules.json, rules_version2.json, traces.json and
                                               migrate.json into crates/conformance/data/packages,
                                               sql/needs.json and joins/rules.json
    python3 tools package_cases --check        fails where one of them isn't what this script would write
    python3 tools package_cases --list         each rule with the names of its cases
    python3 tools package_cases --large DIR    writes the packages that are too long to be stored, each as
                                               a file in DIR, and DIR/large.json, where the input of a
                                               case is {"file": NAME}

A rule has a base, cases that break it and cases that don't. A case is its name, the base where it isn't that
of the rule, and the change of the base: from paths (`tables.0.next`) to new values, or to functions of the
old ones.
"""
from __future__ import annotations

import os
import sys
from typing import Iterable, Iterator, Optional

from .encoder import Part, case, check_encoder, described, encode, lines, tell
from .form_rules import FORM
from .join_cases import JOINED, join_cases, large_join_cases
from .length_rules import COUNTED, LARGE
from .need_cases import need_cases
from .package_versions import migrations
from .packages_in_runs import RUNS
from .table_rules import TABLES
from .trace_cases import CASES, trace_case
from .trace_rules import TRACES

HERE = os.path.dirname(os.path.abspath(__file__))
DATA = os.path.join(HERE, '..', '..', 'crates', 'conformance', 'data')
RULES = [*FORM, *TABLES, *TRACES, *COUNTED]


def replayed(rules: Iterable[Part]) -> str:
    """The cases of some rules. No name and no package is there twice."""
    check_encoder()
    cases: list[Part] = []
    names: dict[str, str] = {}
    inputs: dict[str, str] = {}
    for name, p, expect in described(rules):
        given = encode(p).hex()
        if name in names or given in inputs:
            raise SystemExit('twice: %s (%s)' % (name, inputs.get(given)))
        names[name], inputs[given] = given, name
        cases.append(case(name, {'hex': given}, p, expect))
    return lines(cases)


def stored() -> dict[str, str]:
    """The text of each file, by its name."""
    return {'packages/rules.json': replayed(RULES), 'packages/rules_version2.json': replayed(RUNS),
            'packages/traces.json': lines([trace_case(*given) for given in CASES]),
            'sql/needs.json': lines(list(need_cases(2))),
            'packages/migrate.json': lines(list(migrations())), 'joins/rules.json': lines(list(join_cases()))}


def differing() -> Iterator[str]:
    for name, text in stored().items():
        with open(os.path.join(DATA, name)) as there:
            if there.read() != text:
                yield name


def write_stored() -> None:
    for name, text in stored().items():
        with open(os.path.join(DATA, name), 'w') as out:
            out.write(text)


def write_large(folder: str) -> None:
    os.makedirs(folder, exist_ok=True)
    cases = []
    for n, (name, p, expect) in enumerate(described(LARGE)):
        place = 'large-%02d.package' % n
        with open(os.path.join(folder, place), 'wb') as out:
            out.write(encode(p))
        cases.append(case(name, {'file': place}, p, expect))
    for n, made in enumerate(large_join_cases()):
        place = 'large-join-%02d' % n
        with open(os.path.join(folder, place), 'wb') as out:
            out.write(bytes.fromhex(made['input']['hex']))
        cases.append({**made, 'input': {'file': place}})
    with open(os.path.join(folder, 'large.json'), 'w') as out:
        out.write(lines(cases))


def main(words: list[str]) -> Optional[str]:
    if words == ['--list']:
        tell([*RULES, *RUNS, *JOINED, *LARGE])
    elif len(words) == 2 and words[0] == '--large':
        write_large(words[1])
    elif words == ['--check']:
        others = list(differing())
        return '%s: not what package_cases.py writes' % ', '.join(others) if others else None
    elif words:
        return __doc__
    else:
        write_stored()
    return None


if __name__ == '__main__':
    sys.exit(main(sys.argv[1:]))
