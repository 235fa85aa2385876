"""Compares two outcomes, or two packages: processes, statements, replies, files and rows.

    tools/diff.py before.outcome after.outcome
    tools/diff.py monday.package tuesday.package
    tools/diff.py --world world.json before.outcome after.outcome     with statements of the first one's world
    tools/diff.py --all ..                                            all that differs, not 20 lines of a part

A line begins with - where it is of the first alone, and with + where it is of the second alone. Replies are
compared by process and number. Rows of a reply that are the same in another order are said to be so. Of
packages the rows of a table are compared by their numbers, and statements by what they needed; of recorded
replies, by text, parameters and reply. Statements are counted from 0 within their process, as in `diverged`
of `ldv`, replies from 1, as in outcome.py. Of two traces the first event that differs is shown.

Cells are shown as they were read where a package, or the world of --world, says what its columns are; --raw
shows them as they are carried.

Statuses: 0 no difference; 1 a difference; 2 wrong words, or the two can't be read or compared.
"""
from __future__ import annotations

import argparse
import collections
import difflib
import itertools
import sys
from typing import Dict, Iterator, List, Optional, Sequence, Tuple

from .errors import Malformed, Misused, Refused, command, program_name, words_of
from .language import ASKED
from .outcome import Asked, as_read, asked_in, named_document, read_input, write_out
from .outcomes import Outcome, read_outcome
from .package_tables import columns_of, tables_as_read
from .packages import Asked as AskedEvent
from .packages import Event, Package, PackedTable, Run, read_package
from .reply_columns import answers_of, shown_reply
from .trace import event_line
from .values import Reply, Row, cell, escaped, plain_count, reply_title
from .world_digest import digests_in, without_digest
from .worlds import have_numbers, read_world

SHOWN = 20


def cut(lines: Sequence[str], limit: int) -> Iterator[str]:
    """Lines, indented, up to a limit."""
    for line in lines[:limit]:
        yield "  " + line
    if len(lines) > limit:
        yield f"  .. and {plain_count(len(lines) - limit, 'line')} more (--all shows all)"


def text_differences(before: str, after: str, limit: int) -> Iterator[str]:
    """The lines that differ, and the places at which they stand."""
    lines = list(difflib.unified_diff(before.split("\n"), after.split("\n"), n=0, lineterm=""))[2:]
    yield from cut([escaped(line) for line in lines], limit)


def file_differences(path: str, before: Optional[bytes], after: Optional[bytes], limit: int) -> Iterator[str]:
    name = escaped(path)
    if before is None or after is None:
        what = {True: "has content", False: "has none"}
        yield f"file {name}: the first {what[before is not None]}, the second {what[after is not None]}"
        return
    yield f"file {name}: {plain_count(len(before), 'byte')}, and {plain_count(len(after), 'byte')}"
    try:
        yield from text_differences(before.decode(), after.decode(), limit)
    except UnicodeDecodeError:
        place = next((place for place, pair in enumerate(zip(before, after)) if pair[0] != pair[1]),
                     min(len(before), len(after)))
        yield f"  the first difference is at byte {place}"


def files_differences(before: Dict[str, Optional[bytes]], after: Dict[str, Optional[bytes]],
                      limit: int) -> Iterator[str]:
    for path in sorted({*before, *after}, key=lambda path: path.encode()):
        if path not in after:
            yield f"- file {escaped(path)}"
        elif path not in before:
            yield f"+ file {escaped(path)}"
        elif before[path] != after[path]:
            yield from file_differences(path, before[path], after[path], limit)


# ---- rows and replies

def row_line(row: Row) -> str:
    return " | ".join(cell(value) for value in row)


def rows_differences(before: Sequence[Row], after: Sequence[Row], limit: int) -> Iterator[str]:
    """The rows that one has oftener than the other."""
    left, right = (collections.Counter([tuple(row) for row in rows]) for rows in (before, after))
    gone, come = left - right, right - left
    if not gone and not come:
        yield "  the same rows in another order"
    yield from cut([f"{sign} {row_line(list(row))}" for sign, rows in (("-", gone), ("+", come))
                    for row in rows.elements()],
                   limit)


def reply_differences(name: str, before: Reply, after: Reply, limit: int) -> Iterator[str]:
    if before == after:
        return
    yield f"{name}: {reply_title(before)}, and {reply_title(after)}"
    if before.kind == after.kind == "rows":
        yield from rows_differences(before.rows, after.rows, limit)


# ---- outcomes

def outcome_differences(before: Outcome, after: Outcome, asked: Asked, limit: int) -> Iterator[str]:
    left, right = ({process.name: process for process in each.processes} for each in (before, after))
    for name in [*left, *(name for name in right if name not in left)]:
        if name not in right:
            yield f"- process {name}"
            continue
        if name not in left:
            yield f"+ process {name}"
            continue
        one, other = left[name], right[name]
        if one.status != other.status:
            yield f"process {name}: status {one.status}, and {other.status}"
        if one.printed != other.printed:
            yield f"process {name} prints something else"
            yield from text_differences(one.printed, other.printed, limit)
        yield from replies_differences(name, one.replies, other.replies, asked, limit)
    yield from files_differences(dict(without_digest(before).touched), dict(without_digest(after).touched),
                                 limit)


def replies_differences(name: str, before: List[Reply], after: List[Reply], asked: Asked,
                        limit: int) -> Iterator[str]:
    if len(before) != len(after):
        yield f"process {name} asked {plain_count(len(before), 'statement')}, and {len(after)}"
    for place, (one, other) in enumerate(zip(before, after)):
        found = asked.get((name, place))
        title = f"process {name} reply {place + 1}" + (f" ({escaped(found[0].text)})" if found else "")
        yield from reply_differences(title, one, other, limit)


# ---- packages

def shape(table: PackedTable) -> List[str]:
    """The columns of a table, its key, its foreign keys and the number of its next row, as texts."""
    foreign = [f"({', '.join(each.columns)}) refers to {each.parent}" for each in table.foreign]
    return [", ".join(f"{name} {kind}" for name, kind in table.columns), ", ".join(table.key) or "none",
            ", ".join(foreign) or "none", str(table.next)]


def table_differences(before: PackedTable, after: PackedTable, limit: int) -> Iterator[str]:
    for what, one, other in zip(("columns", "key", "foreign keys", "next row"), shape(before), shape(after)):
        if one != other:
            yield f"table {before.name}: {what} {one}, and {other}"
    left, right = ({row.number: row.values for row in table.rows} for table in (before, after))
    lines = []
    for number in sorted({*left, *right}):
        if left.get(number) != right.get(number):
            lines += [f"- row {number}: {row_line(left[number])}"] if number in left else []
            lines += [f"+ row {number}: {row_line(right[number])}"] if number in right else []
    if lines:
        yield f"table {before.name}: {plain_count(len(before.rows), 'packed row')}, and {len(after.rows)}"
        yield from cut(lines, limit)


def asked_of(package: Package) -> Dict[Tuple[str, int], AskedEvent]:
    """The statements of a trace, by process and number."""
    names, found = package.process_names(), {}
    places: Dict[str, int] = {}
    for run in package.runs:
        if run.first.act == ASKED and run.first.asked is not None:
            name = names[run.first.process]
            found[name, places.get(name, 0)] = run.first.asked
            places[name] = places.get(name, 0) + 1
    return found


def need_lines(asked: AskedEvent) -> List[str]:
    return [f"{table} {need.row} version {need.version} rule {need.rule}" for table, needs in asked.reads
            for need in needs]


def statement_differences(before: Package, after: Package, limit: int) -> Iterator[str]:
    left, right = asked_of(before), asked_of(after)
    for key in [*left, *(key for key in right if key not in left)]:
        title = f"process {key[0]} statement {key[1]}"
        if key not in right or key not in left:
            yield f"{'-' if key in left else '+'} {title}"
            continue
        one, other = set(need_lines(left[key])), set(need_lines(right[key]))
        if one != other:
            yield f"{title}: needs {plain_count(len(one), 'row')}, and {len(other)}"
            yield from cut([f"- {line}" for line in sorted(one - other)]
                           + [f"+ {line}" for line in sorted(other - one)], limit)


def log_differences(before: Package, after: Package, limit: int) -> Iterator[str]:
    left, right = ({log.process: log.entries for log in package.logs} for package in (before, after))
    for name in [name for name in left if name in right]:
        for place, (one, other) in enumerate(zip(left[name], right[name])):
            title = f"process {name} statement {place}"
            if one[:2] != other[:2]:
                yield f"{title} is another one"
                for sign, each in (("-", one), ("+", other)):
                    params = f" with {row_line(each.params)}" if each.params else ""
                    yield f"  {sign} {escaped(each.text)}{params}"
            yield from reply_differences(title, one.reply, other.reply, limit)


def package_differences(before: Package, after: Package, limit: int) -> Iterator[str]:
    for what in ("mode", "start", "seed", "steps"):
        one, other = getattr(before, what), getattr(after, what)
        if one != other:
            texts = [" ".join(map(escaped, each)) if what == "start" else each for each in (one, other)]
            yield f"{what}: {texts[0]}, and {texts[1]}"
    yield from files_differences(dict(before.files), dict(after.files), limit)
    left, right = ({table.name: table for table in package.tables} for package in (before, after))
    for name in sorted({*left, *right}):
        if name in left and name in right:
            yield from table_differences(left[name], right[name], limit)
        else:
            yield f"{'-' if name in left else '+'} table {name}"
    yield from statement_differences(before, after, limit)
    yield from log_differences(before, after, limit)
    if before.version == after.version:
        yield from trace_differences(before, after)


def trace_differences(before: Package, after: Package) -> Iterator[str]:
    """The first event that is another one, of each trace."""
    found = first_difference(before.runs, after.runs)
    if found is None:
        return
    yield (f"the traces differ: {plain_count(before.event_count(), 'event')}, and {after.event_count()}; "
           f"first at event {found[0]}, counted from 0")
    lines = [None if event is None else event_line(event, package.process_names())
             for event, package in zip(found[1:], (before, after))]
    for sign, line in zip("-+", lines):
        if line is not None:
            yield f"  {sign} {line}"
    if lines[0] == lines[1] and found[1] is not None and found[2] is not None:
        yield from asked_differences(found[1].asked, found[2].asked)


def asked_differences(before: Optional[AskedEvent], after: Optional[AskedEvent]) -> Iterator[str]:
    """What two statements needed and made that have the same numbers of these."""
    if before is None or after is None:
        return
    pairs = ((before.tables, after.tables), (need_lines(before), need_lines(after)),
             (made_lines(before), made_lines(after)))
    for one, other in pairs:
        found = next(((left, right) for left, right in itertools.zip_longest(one, other) if left != right),
                     None)
        if found is not None:
            yield f"    first in: {found[0] or 'nothing'}, and {found[1] or 'nothing'}"
            return


def made_lines(asked: AskedEvent) -> List[str]:
    return [f"{table} {each.row} made as version {each.version}" for table, made in asked.made
            for each in made]


def first_difference(before: Sequence[Run],
                     after: Sequence[Run]) -> Optional[Tuple[int, Optional[Event], Optional[Event]]]:
    """The first place at which two traces have other events, and these. A short run may stand for millions of
    events, which aren't made here."""
    place = 0
    for number, (one, other) in enumerate(itertools.zip_longest(before, after)):
        if one == other:
            place += one.times
            continue
        alike = 0
        if one and other and one.first == other.first:
            alike = min(one.times, other.times) if one.stride == other.stride else 1
        return place + alike, event_at(before, number, alike), event_at(after, number, alike)
    return None


def event_at(runs: Sequence[Run], number: int, place: int) -> Optional[Event]:
    """The event at a place of a run, or the first one after the run; None behind the last one."""
    if number < len(runs) and place < runs[number].times:
        first = runs[number].first
        return first._replace(step=first.step + place * runs[number].stride)
    return runs[number + 1].first if number + 1 < len(runs) else None


# ---- the command

def given_words(words: Optional[Sequence[str]]) -> argparse.Namespace:
    parser = words_of(__doc__)
    parser.add_argument("first")
    parser.add_argument("second")
    parser.add_argument("--world", metavar="FILE",
                        help="the world of the first outcome: names the statements")
    parser.add_argument("--run", type=int, choices=(1, 2), help="of joined packages: which of their runs")
    parser.add_argument("--raw", action="store_true", help="numbers and dates as they are carried")
    parser.add_argument("--all", action="store_true", help="show all lines that differ")
    return parser.parse_args(words)


def check_no_worlds(first: bytes, second: bytes) -> None:
    """A world document is JSON, and begins as no outcome and no package does."""
    are_worlds = [data.lstrip().startswith(b"{") for data in (first, second)]
    if any(are_worlds):
        which = "the first is a world" if are_worlds[0] else "the second is a world"
        which = "these are worlds" if all(are_worlds) else which
        raise Misused(f"{which}: compare the outcomes that ldv run makes, or the packages of ldv record")


def compared(given: argparse.Namespace, notes: List[str]) -> Iterator[str]:
    """The lines that say what differs. Adds what is said of how cells are shown."""
    first, second = (read_input(path) for path in (given.first, given.second))
    limit = sys.maxsize if given.all else SHOWN
    check_no_worlds(first, second)
    are_packages = [data.startswith(b"LDV") for data in (first, second)]
    if are_packages[0] != are_packages[1]:
        raise Misused("one is a package and the other isn't: replay the package, and compare its outcome")
    if are_packages[0]:
        if given.world:
            raise Misused("--world goes with outcomes")
        packages = [package_shown(read_package(data, given.run), given.raw, notes)
                    for data in (first, second)]
        return package_differences(packages[0], packages[1], limit)
    before, after = read_outcome(first), read_outcome(second)
    if digests_in(before) != digests_in(after) and digests_in(before) and digests_in(after):
        notes.append("the two are outcomes of two worlds, of other data or other statements")
    if not given.world:
        return outcome_differences(before, after, {}, limit)
    document = named_document(given.world, "world document", read_world)
    asked = asked_in(document, before)
    if not given.raw:
        notes += document.notes()
        before, after = (as_read(outcome, asked, document, {})[0] for outcome in (before, after))
    return outcome_differences(before, after, asked, limit)


def package_shown(package: Package, is_raw: bool, notes: List[str]) -> Package:
    """A package whose cells and replies are shown as they were read."""
    if is_raw:
        return package
    columns = columns_of(package)
    notes += columns.notes(have_numbers(table.columns for table in package.tables))
    tables = [table._replace(rows=shown.rows)
              for table, shown in zip(package.tables, tables_as_read(package.tables, columns))]
    logs = [log._replace(entries=[
        entry._replace(reply=shown_reply(entry.reply, answers_of(entry.text, columns, None)))
        for entry in log.entries]) for log in package.logs]
    return package._replace(tables=tables, logs=logs)


def work(words: Optional[Sequence[str]]) -> int:
    given = given_words(words)
    notes: List[str] = []
    try:
        lines = list(compared(given, notes))
    except (Malformed, Misused) as fault:
        raise Refused(str(fault)) from None
    for note in dict.fromkeys(notes if lines else ()):
        print(f"{program_name()}: {note}", file=sys.stderr)
    write_out("".join(line + "\n" for line in lines))
    return 1 if lines else 0


def main(words: Optional[Sequence[str]] = None) -> int:
    return command(work, words, "outcome", failed=2)


if __name__ == "__main__":
    sys.exit(main())
