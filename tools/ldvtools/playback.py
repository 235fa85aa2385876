"""Runs a Python program again over a package of what it asked, without its database.

    tools/playback.py study.package -- python3 analysis.py --year 2019
    tools/playback.py --expect study.out study.package -- python3 analysis.py --year 2019

The package comes from `ldv record`, with rows or with replies, of a world that tools/capture.py made.
`ldv replay` gives its replies, and the program gets them. Connecting opens nothing. Each statement has to be
the captured one, with its parameters, in the order of its connection. If it is another one, or one more than
were captured, the program gets an exception of the driver's own kind that says `diverged`, with both.

Statuses: that of the program; 9 if it diverged; 1 if its standard output isn't that of --expect, or if the
package can't be played; 2 if the words of the command line are wrong. """
from __future__ import annotations

import argparse
import marshal
import os
import sys
import tempfile
from typing import Any, Dict, List, Optional, Sequence

from .captured_file import read_seen
from .captured_run import program_of, run_program
from .captured_values import from_json, made_rows, params_from_json
from .captured_world import SEEN_FILE
from .dialect_queries import Part, Plan
from .errors import Malformed, Misused, Refused, command, program_name, words_of
from .outcomes import read_outcome
from .packages import read_package
from .program import answer_of
from .values import Reply
from .world_csv import read_file

DIVERGED = 9
STEPS = 1_000_000


def say(text: str) -> None:
    print(f"{program_name()}: {text}", file=sys.stderr)


# ---- the answers

def replies_of(program: str, data: bytes, steps: int) -> List[Reply]:
    """The replies of a package's replay."""
    words = ["--steps", str(steps)] if steps > STEPS else []
    status, out, error = answer_of(program, ["replay", *words], data)
    if status:
        raise Refused(f"{program} replay ends with {status}: {error}")
    return read_outcome(out).processes[0].replies


def rows_of(event: Dict[str, Any], reply: Reply) -> List[Any]:
    """The rows of an answer, made of those of a reply, in the order in which the program saw them."""
    parts = [Part(str(way), int(place), int(other)) for way, place, other in event["parts"]]
    plan = Plan("", [], parts, event["scales"], (), event.get("skip", 0))
    try:
        rows = made_rows(plan, event["kinds"], reply.rows)
        return [rows[place] for place in event["order"]] if "order" in event else rows
    except (ValueError, TypeError, IndexError, ArithmeticError):
        raise Malformed("the rows of an answer can't be made of those of its reply") from None


def played(event: Dict[str, Any], texts: Sequence[str], replies: Sequence[Reply]) -> Dict[str, Any]:
    """An event as the player has it."""
    many = event["way"] == "many"
    found: Dict[str, Any] = {
        "text": texts[event["text"]], "way": event["way"], "in": event["in"],
        "params": list(map(params_from_json, event["params"])) if many else params_from_json(event["params"])}
    for name in ("head", "types", "changed", "last"):
        if name in event:
            found[name] = event[name]
    if "fault" in event:
        module, name, arguments, codes = event["fault"]
        found["fault"] = (module, name, tuple(map(from_json, arguments)), codes)
    first, count = event.get("reply", (0, 0))
    own = replies[first:first + count]
    if len(own) < count:
        raise Malformed(f"it has no reply {first + count}")
    if "parts" in event:
        found["rows"] = rows_of(event, own[0])
    else:
        found["rows"] = [tuple(map(from_json, row)) for row in event.get("rows", ())]
        if own and "head" not in event and "fault" not in event and event.get("changed", -1) >= 0:
            found["changed"] = sum(reply.changed for reply in own)
    return found


def connections_of(seen: bytes, replies: Sequence[Reply]) -> List[Dict[str, Any]]:
    """The connections of what was captured, with their events."""
    try:
        given = read_seen(seen)
        return [{"driver": connection["driver"], "process": connection["process"],
                 "events": [played(event, given["texts"], replies) for event in connection["events"]]}
                for connection in given["connections"]]
    except Malformed as fault:
        raise Malformed(f"{SEEN_FILE} in it isn't what capture.py writes: {fault}") from None


def write_replies(folder: str, words: argparse.Namespace) -> int:
    """Writes what the player plays, and gives how many statements that are."""
    data = read_file(words.package)
    package = read_package(data)
    seen = dict(package.files).get(SEEN_FILE)
    if seen is None:
        raise Refused(f"{words.package}: it has no {SEEN_FILE}: it isn't of a world that capture.py made")
    connections = connections_of(seen, replies_of(program_of(words.ldv), data, package.steps))
    with open(os.path.join(folder, "replies"), "wb") as file:
        marshal.dump(connections, file, 2)
    return sum(len(connection["events"]) for connection in connections)


# ---- the program

def run_expected(words: argparse.Namespace, folder: str) -> int:
    """Runs the program, and compares its standard output where --expect gives it."""
    if words.expect is None:
        return run_program(words.program, "play", folder)
    expected = read_file(words.expect)
    path = os.path.join(folder, "output")
    with open(path, "wb") as file:
        status = run_program(words.program, "play", folder, file)
    found = read_file(path)
    sys.stdout.buffer.write(found)
    sys.stdout.buffer.flush()
    if found == expected:
        return status
    place = next((place for place, (one, other) in enumerate(zip(found, expected)) if one != other),
                 min(len(found), len(expected)))
    line = expected.count(b"\n", 0, place) + 1
    say(f"the output isn't that of {words.expect}: they differ at byte {place}, in line {line}")
    return status or 1


def conclude(folder: str, status: int, count: int) -> int:
    """Says where the program diverged, and how much it asked."""
    path = os.path.join(folder, "diverged")
    if os.path.exists(path):
        for line in dict.fromkeys(read_file(path).decode().splitlines()):
            say(f"diverged: {line}")
        return DIVERGED
    asked = sum(int(read_file(os.path.join(folder, name))) for name in os.listdir(folder)
                if name.startswith("asked-"))
    if asked < count:
        say(f"the program asked {asked} of the {count} statements that were captured")
    return status


# ---- the command line

def read_words(given: Optional[Sequence[str]]) -> argparse.Namespace:
    parser = words_of(__doc__)
    parser.add_argument("package", help="the package of a captured program")
    parser.add_argument("--expect", metavar="FILE", help="compare the standard output of the program with "
                        "this file")
    parser.add_argument("--ldv", metavar="PROGRAM", help="the program ldv (default: that of this checkout, "
                        "or the one on PATH)")
    parser.add_argument("program", nargs=argparse.REMAINDER, metavar="-- PROGRAM ..",
                        help="the Python program and its arguments")
    words = parser.parse_args(given)
    if words.program[:1] == ["--"]:
        del words.program[0]
    if not words.program:
        raise Misused("give the program after --")
    return words


def work(given: Optional[Sequence[str]]) -> int:
    words = read_words(given)
    with tempfile.TemporaryDirectory() as folder:
        count = write_replies(folder, words)
        return conclude(folder, run_expected(words, folder), count)


def main(given: Optional[Sequence[str]] = None) -> int:
    return command(work, given, "package of a captured program")


if __name__ == "__main__":
    sys.exit(main())
