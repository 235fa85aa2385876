"""Makes a page of a package: one file that any browser with JavaScript shows, without a network.

    tools/page.py world.package -o page.html
    tools/page.py world.package --ldv ./ldv -o page.html          with its replay, and what `audit` says
    tools/page.py world.package --replayed world.outcome -o ..    with an outcome that is there already
    tools/page.py --run 2 joined.package -o page.html             of a joined package, its second run

The page shows what the package is, the outcome, each statement with its reply and the rows that it needed,
the packed tables with all statements that needed a row, processes and files over time, and what an output
came from; files and tables can be saved from it. A package with rows has no statements and no replies in it:
--ldv replays it, or --replayed names the outcome of its replay. The page has all of the package in it, and is
as secret as that. Nothing of a package is taken for HTML, and a page runs no script but its own and loads
nothing.

Statuses: 0 made; 1 the input is no package, the outcome isn't that of its replay,
or a file can't be read or written; 2 wrong words.
"""
from __future__ import annotations

import argparse
import base64
import hashlib
import html
import json
import os
import pkgutil
import re
import sys
from typing import Optional, Sequence, Tuple

from .documents import write_file
from .errors import Misused, Refused, command, words_of
from .file_kinds import told_kind
from .outcome import read_input
from .outcomes import Outcome, read_outcome
from .package_bytes import package_bytes
from .packages import Package, read_package
from .page_data import Json, page_json
from .program import answer_of

TEMPLATE = """<!DOCTYPE html>
<html lang="en">
<head>
<meta charset="utf-8">
<meta http-equiv="Content-Security-Policy" content="default-src 'none'; style-src '{style_hash}'; \
script-src '{script_hash}'; img-src data:; base-uri 'none'; form-action 'none'">
<meta name="viewport" content="width=device-width, initial-scale=1">
<title>{title}</title>
<style>{style}</style>
</head>
<body>
<noscript>This page needs JavaScript to show the package.</noscript>
<script type="application/json" id="data">{data}</script>
<script>{script}</script>
</body>
</html>
"""


def resource(name: str) -> str:
    data = pkgutil.get_data(__package__ or "ldvtools", name)
    if data is None:
        raise Refused(f"{name} of ldvtools isn't there")
    return data.decode()


def source_hash(text: str) -> str:
    """What the page's policy calls a style or a script: no other one is taken."""
    return "sha256-" + base64.b64encode(hashlib.sha256(text.encode()).digest()).decode()


def page_text(data: Json) -> str:
    """The page of some data."""
    style, script = resource("page.css"), resource("page.js")
    # Within a script element only `<` could end it or begin a comment.
    spelled = json.dumps(data, ensure_ascii=False, separators=(",", ":")).replace("<", "\\u003c")
    return TEMPLATE.format(title=html.escape(f"{data['name']}: a package"), style=style, script=script,
                           style_hash=source_hash(style), script_hash=source_hash(script), data=spelled)


# ---- the program

def asked_program(program: str, data: bytes, package: Package, run: Optional[int],
                  budget: Sequence[str]) -> Tuple[Outcome, Optional[str]]:
    """The replay, and what `audit` says of a package with rows."""
    # A run of a joined package is taken apart, since a joined one isn't audited.
    data = package_bytes(package) if run else data
    status, output, error = answer_of(program, ["replay", *budget], data)
    if status != 0:
        raise Refused(f"{program} replay ends with {status}{f': {error}' if error else ' and says nothing'}")
    if not output:
        raise Refused(f"{program} replay wrote no outcome: it isn't the program ldv")
    verdict: Optional[str] = None
    if package.mode == "included":
        status, said, error = answer_of(program, ["audit", *budget], data)
        verdict = (verdict_in(said, f"the answer of {program} audit") if status == 0
                   else f"not audited: {error}")
    return read_outcome(output), verdict


VERDICT = re.compile(rb"(?:sound|unsound (?:0|[1-9][0-9]{0,9}))\n")


def verdict_in(data: bytes, path: str) -> str:
    """What `audit` wrote; anything else is refused, since a page would show it as a verdict."""
    if not VERDICT.fullmatch(data):
        kind = told_kind(data)
        raise Refused(f"{path} isn't what ldv audit writes, `sound` or `unsound N` and LF"
                      + (f", but {kind}" if kind else ""))
    return data.decode().strip()


# ---- the command

def given_words(words: Optional[Sequence[str]]) -> argparse.Namespace:
    parser = words_of(__doc__, "package", "the package")
    parser.add_argument("--replayed", metavar="OUTCOME", help="the outcome of its replay")
    parser.add_argument("--ldv", metavar="PROGRAM", help="replay and audit it by this program, such as ./ldv")
    parser.add_argument("--steps", metavar="N", type=int, help="with --ldv: the budget of the replay")
    parser.add_argument("--audit", metavar="FILE", help="what `audit` wrote of it")
    parser.add_argument("--run", type=int, choices=(1, 2), help="of a joined package: which of its runs")
    parser.add_argument("--raw", action="store_true", help="numbers and dates as the package carries them")
    parser.add_argument("--name", help="what the page calls it (default: the name of the file)")
    parser.add_argument("-o", "--output", metavar="FILE", help="the page (default: standard output)")
    given = parser.parse_args(words)
    if given.ldv and (given.replayed or given.audit):
        parser.error("--ldv makes what --replayed and --audit name")
    return given


def work(words: Optional[Sequence[str]]) -> int:
    given = given_words(words)
    if given.steps is not None and not given.ldv:
        raise Misused("--steps goes with --ldv")
    data = read_input(given.package)
    package = read_package(data, given.run)
    outcome = read_outcome(read_input(given.replayed)) if given.replayed else None
    verdict = verdict_in(read_input(given.audit), given.audit) if given.audit else None
    if given.ldv:
        budget = ["--steps", str(given.steps or max(package.steps, 1))]
        outcome, verdict = asked_program(given.ldv, data, package, given.run, budget)
    name = given.name or (os.path.basename(given.package) if given.package else "a package")
    digest = hashlib.sha256(data).hexdigest()
    text = page_text(page_json(package, name, len(data), outcome, verdict, digest, given.raw))
    write_file(text.encode(), given.output)
    return 0


def main(words: Optional[Sequence[str]] = None) -> int:
    return command(work, words, "package")


if __name__ == "__main__":
    sys.exit(main())
