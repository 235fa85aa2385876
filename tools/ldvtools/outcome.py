"""Shows an outcome, which `ldv run` and `ldv replay` write, as tables or as CSV.

    ./ldv run < world.json | tools/outcome.py --world world.json
    ./ldv run < world.json > world.outcome;  tools/outcome.py world.outcome
    tools/outcome.py --csv world.outcome                  one section for each reply, each with a header line
    tools/outcome.py --csv --reply 2 world.outcome        the second reply only
    tools/outcome.py --folder replies world.outcome       a file for each reply: replies/0-1.csv and so on
    tools/outcome.py --printed world.outcome              what process 0 printed, as it is, and nothing else
    tools/outcome.py --file report.txt world.outcome      the bytes of one file, and nothing else
    tools/outcome.py --scale tenths=1 --world ..          the column tenths as decimals: 3 is shown as 0.3

docs/FORMATS.md has the format. Replies are counted from 1 within their process. An outcome has no statements
and no names of columns. With --world or --package, of which it is the outcome, each reply has its statement
and its columns' names; else columns are counted. The outcome of a world that world.py made of statements
names this world, and any other one is refused. Else it is told by what the scripts print, write and end with,
by the number of statements, and of each statement by whether it is refused, whether it asks or changes, and
how many columns it has, and of which kinds. With another number in a WHERE it could then be either: make the
outcome anew if the questions change.

In CSV the first line has the columns' names, or their places where these aren't known. A change is a column
`changed` with the number of changed rows. A refused statement has no data: --reply K of it ends with status
1, and --folder makes no file of it.

In a table numbers stand right and texts left. A text stands in quotes where it would look like something
else: where it is empty, NULL or a number, has blanks at an end, or has characters that don't show. In CSV
NULL is an empty field (or what --null says) and the empty text is "".

A world that says what its columns are where they were read (docs/FORMATS.md), and a package that has it, show
them so by themselves: decimals, dates and times as they were, heads with their units. SUM, MIN and MAX of a
column are shown as the column is, a product with the decimals of both, and a COUNT as a number; what else is
computed is shown as it is carried, and its head says (raw). --raw shows all as it is carried.

--scale NAME=N shows the numbers of each column with this head as decimals with N digits after the point, as
`world.py --scale` carried them: at 2, 300 is 3.00. A column without a name has its place for a head, so
--scale 2=1 is such a second column. It holds for tables and CSV, and changes no outcome.

At the end it says how many statements were refused and how many processes ended by misuse, where there are
such; with --csv, --folder, --printed and --file it does so on standard error.

Statuses: 0 shown; 1 the input is no outcome, a file can't be read or written, the statement of --reply was
refused, or, with --strict, any statement was refused or a process ended by misuse; 2 wrong words.
"""
from __future__ import annotations

import argparse
import os
import re
import sys
from typing import Callable, Dict, List, Mapping, Optional, Sequence, Set, Tuple

from .agreement import check_replies
from .errors import Malformed, Misused, Refused, TwoRuns, command, program_name, words_of
from .language import MISUSES
from .outcomes import Outcome, read_outcome
from .packages import read_package
from .reply_columns import answers_of, heads_of_answers, shown_reply
from .rerun import Question, questions_of
from .sql import NoReading, Query, parse_statement
from .sql_check import judge
from .values import (
    Reply,
    Row,
    Scaled,
    Value,
    cell,
    csv_line,
    escaped,
    heads_of,
    plain_count,
    reply_title,
    table_lines,
)
from .world_digest import digests_in, without_digest
from .worlds import Document, read_world, world_of_package

Asked = Dict[Tuple[str, int], Tuple[Question, List[str]]]


def shown_lines(outcome: Outcome, asked: Optional[Asked] = None) -> List[str]:
    """The lines that show a whole outcome. `asked` has the statement and the names of each reply."""
    lines: List[str] = []
    for process in outcome.processes:
        meaning = f" ({MISUSES[process.status]})" if process.status in MISUSES else ""
        lines += [f"process {process.name} ended with status {process.status}{meaning}", ""]
        if process.printed:
            lines += ["  printed:"] + ["  | " + line for line in text_lines(process.printed)] + [""]
        for number, reply in enumerate(process.replies):
            lines += reply_lines(number, reply, (asked or {}).get((process.name, number))) + [""]
    for path, content in outcome.touched:
        lines += path_lines(path, content) + [""]
    return lines[:-1] + ["", *end_lines(outcome)] if end_lines(outcome) else lines[:-1]


def reply_lines(number: int, reply: Reply, asked: Optional[Tuple[Question, List[str]]]) -> List[str]:
    lines = [f"  reply {number + 1}: {reply_title(reply)}"]
    names: List[str] = []
    if asked is not None:
        question, names = asked
        lines += ["  > " + line for line in text_lines(question.text)]
        if question.params:
            lines.append("  > with " + ", ".join(cell(value) for value in question.params))
    if reply.kind == "rows" and reply.rows:
        lines += ["  " + line for line in table_lines(reply.rows, names)]
    return lines


def end_lines(outcome: Outcome) -> List[str]:
    """What is easily overlooked: refused statements and misuse."""
    replies = [reply for process in outcome.processes for reply in process.replies]
    refused = sum(reply.kind == "refused" for reply in replies)
    misused = sum(process.status in MISUSES for process in outcome.processes)
    lines = []
    if refused:
        lines.append(f"{refused} of {plain_count(len(replies), 'statement')} "
                     f"{'was' if refused == 1 else 'were'} refused")
    if misused:
        lines.append(f"{misused} {'process' if misused == 1 else 'processes'} ended by misuse")
    return lines


def path_lines(path: str, content: Optional[bytes]) -> List[str]:
    if content is None:
        return [f"file {escaped(path)} was removed"]
    lines = [f"file {escaped(path)} has {plain_count(len(content), 'byte')}"]
    try:
        return lines + ["  | " + line for line in text_lines(content.decode())]
    except UnicodeDecodeError:
        return lines + ["  hex " + content[:32].hex() + (" .." if len(content) > 32 else "")]


def text_lines(text: str) -> List[str]:
    """The lines of a text, with control characters as escapes."""
    lines = (text[:-1] if text.endswith("\n") else text).split("\n") if text else []
    return [escaped(line) for line in lines]


# ---- statements

def column_names(question: Question, document: Document) -> List[str]:
    """The names of a reply's columns, as far as they have one."""
    kinds = document.kinds or document.schemas
    names = judge(question.text, question.params, kinds).names
    return [name or str(place) for place, name in enumerate(names, 1)]


def check_world(document: Document, outcome: Outcome) -> None:
    """Malformed where an outcome names the digest of its world, and that is another one."""
    found = digests_in(outcome)
    if document.digest and found and document.digest not in found:
        raise Malformed(f"it is of a world with the digest {found[0][:16]}.., and this one has "
                        f"{document.digest[:16]}..: the world was edited since, or is another one; make the "
                        "outcome anew")


def asked_in(document: Document, outcome: Outcome) -> Asked:
    check_world(document, outcome)
    questions = questions_of(document.world, outcome)
    check_replies(questions, document.schemas)
    return {(question.process, question.place): (question, column_names(question, document))
            for question in questions}


def as_read(outcome: Outcome, asked: Asked, document: Document,
            scales: Mapping[str, int]) -> Tuple[Outcome, Asked]:
    """An outcome whose replies are shown as their columns were read, with heads that have their units. What
    --scale names is as that says."""
    heads = dict(asked)
    processes = []
    for process in outcome.processes:
        replies = []
        for number, reply in enumerate(process.replies):
            found = asked.get((process.name, number))
            answers = answers_of(found[0].text, document.columns, document.schemas) if found else []
            replies.append(shown_reply(reply, answers))
            if found:
                names = heads_of(found[1], len(answers))
                heads[process.name, number] = (found[0], heads_of_answers(names, answers, list(scales)))
        processes.append(process._replace(replies=replies))
    return outcome._replace(processes=processes), heads


# ---- decimals

def scales_of(words: Sequence[str]) -> Dict[str, int]:
    """The decimals of columns by their heads, as --scale names them."""
    found: Dict[str, int] = {}
    for word in words:
        name, _, number = word.rpartition("=")
        if not name or not re.fullmatch("[0-9]|1[0-8]", number):
            raise Misused(f"--scale {word}: give NAME=N, the head of a column and 0 to 18 decimals")
        found[name] = int(number)
    return found


def scaled(outcome: Outcome, asked: Optional[Asked], scales: Dict[str, int]) -> Outcome:
    """An outcome in which the numbers of some columns are shown as decimals."""
    heads: Set[str] = set()
    processes = []
    for process in outcome.processes:
        replies = []
        for number, reply in enumerate(process.replies):
            found = (asked or {}).get((process.name, number))
            width = max(map(len, reply.rows), default=0)
            names = heads_of(found[1] if found else [], width)
            heads |= set(names)
            rows = [[shown_at(value, scales.get(name)) for value, name in zip(row, names)]
                    for row in reply.rows]
            replies.append(reply._replace(rows=rows))
        processes.append(process._replace(replies=replies))
    for name in scales:
        if name not in heads:
            there = ", ".join(sorted(heads)) or "none"
            rest = "" if asked else "; --world or --package gives names"
            raise Misused(f"--scale {name}: no reply has a column with this head; there are {there}{rest}")
    return outcome._replace(processes=processes)


def scale_notes(scales: Dict[str, int], asked: Optional[Asked], document: Optional[Document]) -> List[str]:
    """That a head of --scale is one of several tables, or of a COUNT, which has no decimals."""
    notes: List[str] = []
    for name, scale in scales.items():
        shown = f"is shown with {plain_count(scale, 'decimal')} wherever it is a head"
        tables = [table for table, columns in ((document.schemas if document else None) or {}).items()
                  if name in [column for column, _ in columns]]
        if len(tables) > 1:
            notes.append(f"--scale {name}: {', '.join(tables)} have a column {name}, which {shown}; AS gives "
                         "another head")
        notes += [f"--scale {name}: in process {process} reply {number + 1} {name} is a COUNT, and {shown}; "
                  "AS gives another head" for (process, number), (question, _) in (asked or {}).items()
                  if name in count_heads(question.text)]
    return notes


def count_heads(text: str) -> List[str]:
    """The heads by which an answer calls a COUNT."""
    try:
        statement = parse_statement(text).statement
    except NoReading:
        return []
    items = statement.cores[0].items or [] if isinstance(statement, Query) else []
    return [item.name for item in items if item.name and (item.expr.form, item.expr.word) == (
        "aggregate", "count")]


def shown_at(value: Value, scale: Optional[int]) -> Value:
    return Scaled(value, scale) if isinstance(value, int) and scale is not None else value


# ---- a part alone

def printed_by(outcome: Outcome, name: str) -> bytes:
    for process in outcome.processes:
        if process.name == name:
            return process.printed.encode()
    raise Refused(f"there is no process {name}")


def content_of(outcome: Outcome, path: str) -> bytes:
    there = dict(outcome.touched)
    content = there.get(path)
    if content is None:
        paths = ", ".join(escaped(each) for each, found in outcome.touched if found is not None) or "none"
        what = "was removed" if path in there else "isn't there"
        raise Refused(f"the file {escaped(path)} {what}; the run left {paths}")
    return content


# ---- CSV

def csv_text(reply: Reply, null: str, names: Sequence[str] = ()) -> str:
    """A reply as CSV with a header line. A refused statement has no data."""
    if reply.kind == "refused":
        return ""
    rows: List[Row] = reply.rows if reply.kind == "rows" else [[reply.changed]]
    heads = heads_of(names, max(map(len, rows), default=0)) if reply.kind == "rows" else ["changed"]
    return "".join(csv_line(row, null) for row in ([heads] if heads else []) + rows)


def csv_sections(outcome: Outcome, null: str, asked: Optional[Asked]) -> str:
    parts = []
    for process in outcome.processes:
        for number, reply in enumerate(process.replies):
            found = (asked or {}).get((process.name, number))
            title = f"# process {process.name} reply {number + 1}: {reply_title(reply)}\n"
            title += "".join(f"# {line}\n" for line in text_lines(found[0].text)) if found else ""
            parts.append(title + csv_text(reply, null, found[1] if found else ()))
    return "\n".join(parts)


def null_notes(outcome: Outcome, words: argparse.Namespace) -> List[str]:
    """That a NULL is an empty line: in CSV a row of one empty field, which many readers leave out."""
    return [f"process {process.name} reply {number}: NULL of its only column is an empty line, which many "
            "readers of CSV leave out; --null WORD writes a word"
            for process in outcome.processes for number, reply in enumerate(process.replies, 1)
            if [None] in reply.rows and (words.reply is None or (words.process or "0", words.reply) == (
                process.name, number))]


def chosen_reply(outcome: Outcome, name: str, number: int) -> Reply:
    for process in outcome.processes:
        if process.name == name:
            if not 1 <= number <= len(process.replies):
                raise Refused(f"process {name} has {len(process.replies)} replies, and none is {number}")
            return process.replies[number - 1]
    raise Refused(f"there is no process {name}")


def write_folder(outcome: Outcome, folder: str, null: str, asked: Optional[Asked]) -> None:
    os.makedirs(folder, exist_ok=True)
    for process in outcome.processes:
        for number, reply in enumerate(process.replies):
            path = os.path.join(folder, f"{process.name}-{number + 1}.csv")
            found = (asked or {}).get((process.name, number))
            if reply.kind == "refused":
                print(f"no {path}: {reply_title(reply)}")
                continue
            with open(path, "w", encoding="utf-8", newline="") as file:
                file.write(csv_text(reply, null, found[1] if found else ()))
            print(f"{path}: {reply_title(reply)}")


# ---- the command line

def read_words(given: Optional[Sequence[str]]) -> argparse.Namespace:
    parser = words_of(__doc__, "outcome", "the outcome")
    parser.add_argument("--csv", action="store_true", help="the replies as CSV")
    parser.add_argument("--reply", type=int, metavar="K", help="with --csv: only the reply K")
    parser.add_argument("--process", metavar="NAME", help="with --reply or --printed: of which (default 0)")
    parser.add_argument("--folder", metavar="FOLDER", help="a CSV file for each reply, in this folder")
    parser.add_argument("--printed", action="store_true", help="only what a process printed, as it is")
    parser.add_argument("--file", metavar="PATH", help="only the bytes of the file at this path")
    parser.add_argument("--scale", metavar="NAME=N", action="append", default=[],
                        help="show the columns with this head as decimals with N digits after the point")
    parser.add_argument("--raw", action="store_true", help="numbers and dates as the world carries them")
    parser.add_argument("--null", default="", metavar="WORD", help="NULL in CSV (default: an empty field)")
    parser.add_argument("--world", metavar="FILE", help="the world of which it is the outcome")
    parser.add_argument("--package", metavar="FILE", help="the package of which it is the outcome")
    parser.add_argument("--run", type=int, choices=(1, 2), help="with a joined package: which of its runs")
    parser.add_argument("--strict", action="store_true",
                        help="end with status 1 where a statement was refused or a process ended by misuse")
    words = parser.parse_args(given)
    if words.reply is not None and not words.csv:
        parser.error("--reply goes with --csv")
    if sum(map(bool, (words.csv, words.folder, words.printed, words.file is not None))) > 1:
        parser.error("give one of --csv, --folder, --printed and --file")
    if words.process is not None and words.reply is None and not words.printed:
        parser.error("--process goes with --reply or --printed")
    if words.scale and (words.printed or words.file is not None):
        parser.error("--scale goes with replies")
    if words.world and words.package:
        parser.error("give either --world or --package")
    return words


def read_input(path: Optional[str]) -> bytes:
    if path is None:
        return sys.stdin.buffer.read()
    with open(path, "rb") as file:
        return file.read()


def write_out(text: str) -> None:
    write_bytes(text.encode())


def write_bytes(data: bytes) -> None:
    sys.stdout.buffer.write(data)
    sys.stdout.buffer.flush()


def document_of(words: argparse.Namespace) -> Optional[Document]:
    """The world that the words name, if they do."""
    if words.world:
        return named_document(words.world, "world document", lambda data: read_world(data))
    if words.package:
        return named_document(words.package, "package",
                              lambda data: world_of_package(read_package(data, words.run)))
    return None


def named_document(path: str, what: str, read: Callable[[bytes], Document]) -> Document:
    """The world of a file that isn't the outcome. A message names it."""
    data = read_input(path)
    try:
        return read(data)
    except TwoRuns:
        raise
    except Malformed as fault:
        raise Refused(f"{path}: no {what}: {fault}") from None


def work(given: Optional[Sequence[str]]) -> int:
    words = read_words(given)
    if words.run and not words.package:
        raise Misused("--run goes with --package")
    outcome = read_outcome(read_input(words.outcome))
    document = document_of(words)
    asked = asked_in(document, outcome) if document else None
    ends = end_lines(outcome)
    scales = scales_of(words.scale)
    notes = scale_notes(scales, asked, document)
    outcome = scaled(outcome, asked, scales) if scales else outcome
    if document is not None and asked is not None and not words.raw:
        outcome, asked = as_read(outcome, asked, document, scales)
        shows_replies = not (words.printed or words.file is not None)
        notes += document.notes() if shows_replies and not scales else list(document.columns.faults)
    show(outcome, asked, words)
    for note in notes + ([] if words.null or not (words.folder or words.csv) else null_notes(outcome, words)):
        print(f"{program_name()}: {note}", file=sys.stderr)
    if words.folder or words.csv or words.printed or words.file is not None:
        for line in ends:
            print(f"{program_name()}: {line}", file=sys.stderr)
    return 1 if words.strict and ends else 0


def show(outcome: Outcome, asked: Optional[Asked], words: argparse.Namespace) -> None:
    name = words.process or "0"
    if words.folder:
        write_folder(outcome, words.folder, words.null, asked)
    elif words.printed:
        write_bytes(printed_by(outcome, name))
    elif words.file is not None:
        write_bytes(content_of(outcome, words.file))
    elif words.reply is not None:
        found = (asked or {}).get((name, words.reply - 1))
        reply = chosen_reply(outcome, name, words.reply)
        if reply.kind == "refused":
            raise Refused(f"process {name} reply {words.reply}: {reply_title(reply)}")
        write_out(csv_text(reply, words.null, found[1] if found else ()))
    elif words.csv:
        write_out(csv_sections(outcome, words.null, asked))
    else:
        write_out("".join(line + "\n" for line in shown_lines(without_digest(outcome), asked)))


def main(given: Optional[Sequence[str]] = None) -> int:
    return command(work, given, "outcome")


if __name__ == "__main__":
    sys.exit(main())
