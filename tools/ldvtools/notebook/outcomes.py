"""The outcome of a run, for notebooks."""
from __future__ import annotations

from typing import Any, Callable, Dict, Iterator, List, NamedTuple, Optional

from ..language import MISUSES
from ..outcome import Asked, asked_in, end_lines
from ..outcomes import Process, read_outcome
from ..reply_columns import answers_of, shown_reply
from ..values import heads_of, plain_count, reply_title
from ..world_digest import without_digest
from ..worlds import Document
from .calls import Path, told, write_bytes
from .markup import MANY_ITEMS, MANY_ROWS, block_html, lines_html, list_html, table_html, text_html
from .tables import Table


class Known(NamedTuple):
    """The world of a run, and the statement and the names of columns of each reply."""

    document: Document
    asked: Asked


class Outcome:
    """What a run came to: the replies, printed text and status of each process, and the files that it opened
    for writing or removed.

    `data` has the bytes that the program wrote (docs/FORMATS.md); two outcomes are equal where these are.
    `processes` has each process with its `name`, `status`, `printed` and `replies`. A reply has its `kind`,
    which is "rows", "changed" or "refused", and its `rows`, `changed` or `code`, as they are carried.
    """

    def __init__(self, data: bytes, document: Optional[Callable[[], Document]] = None) -> None:
        """The outcome that bytes spell. `document` gives the world of its run: without it, statements and
        names of columns aren't known."""
        self.data = data
        with told():
            self._read = read_outcome(data)
        self._document = document
        self._known: Optional[Known] = None

    @property
    def processes(self) -> List[Process]:
        """The processes, by name: the first one is "0", its children "0.0", "0.1" and so on."""
        return self._read.processes

    @property
    def printed(self) -> Dict[str, str]:
        """What each process printed, by its name."""
        return {process.name: process.printed for process in self.processes}

    @property
    def files(self) -> Dict[str, Optional[bytes]]:
        """The files that the run opened for writing or removed, by path: their bytes, or None where one is
        gone."""
        return dict(self._read.touched)

    @property
    def messages(self) -> List[str]:
        """What is easily overlooked: how many statements were refused, and processes ended by misuse."""
        return end_lines(self._read)

    def tables(self, raw: bool = False) -> List[Table]:
        """The replies that have rows, in the order of the processes and their statements. Cells are as they
        were read, or with `raw` as they are carried."""
        return [reply_table(self._known_world(), process, number, raw) for process in self.processes
                for number, reply in enumerate(process.replies) if reply.kind == "rows"]

    def to_dataframes(self, raw: bool = False) -> List[Any]:
        """The same as data frames of pandas."""
        return [table.to_dataframe() for table in self.tables(raw)]

    def save(self, path: Path) -> None:
        """Writes the bytes into a file."""
        write_bytes(self.data, path)

    def _known_world(self) -> Optional[Known]:
        if self._known is None and self._document is not None:
            with told():
                document = self._document()
                self._known = Known(document, asked_in(document, self._read))
        return self._known

    def __eq__(self, other: object) -> bool:
        return isinstance(other, Outcome) and self.data == other.data

    def __hash__(self) -> int:
        return hash(self.data)

    def __repr__(self) -> str:
        replies = sum(len(process.replies) for process in self.processes)
        return (f"<Outcome: {plain_count(len(self.processes), 'process', 'processes')}, "
                f"{plain_count(replies, 'reply', 'replies')}, {plain_count(len(self.files), 'file')}>")

    def _repr_html_(self) -> str:
        parts = [part for process in self.processes[:MANY_ITEMS] for part in self._process_html(process)]
        if len(self.processes) > MANY_ITEMS:
            parts.append(f"<p>… and {len(self.processes) - MANY_ITEMS:,} more processes</p>")
        touched = without_digest(self._read).touched
        parts += list_html("files", [file_line(path, content) for path, content in touched])
        return block_html("an outcome", parts + list_html("to be looked at", self.messages))

    def _process_html(self, process: Process) -> Iterator[str]:
        meaning = f" ({MISUSES[process.status]})" if process.status in MISUSES else ""
        yield f"<p>process {process.name} ended with status {process.status}{text_html(meaning)}</p>"
        if process.printed:
            yield lines_html(process.printed)
        for number, reply in enumerate(process.replies[:MANY_ITEMS]):
            if reply.kind != "rows":
                yield f"<p><b>{title_of(process, number)}</b>: {text_html(reply_title(reply))}</p>"
                continue
            begin = reply_table(self._known_world(), process, number, False, MANY_ROWS)
            yield table_html(begin.columns, begin.rows, begin.name, begin.statement, len(reply.rows))
        if len(process.replies) > MANY_ITEMS:
            yield f"<p>… and {len(process.replies) - MANY_ITEMS:,} more replies</p>"


def title_of(process: Process, number: int) -> str:
    """What a reply is called: its place in its process, from 1."""
    return f"process {process.name} reply {number + 1}"


def reply_table(known: Optional[Known], process: Process, number: int, raw: bool,
                most: Optional[int] = None) -> Table:
    """The rows of a reply, or the first `most` of them, with the names of its columns and its statement where
    the world is known."""
    whole = process.replies[number]
    reply = whole._replace(rows=whole.rows[:most])
    found = known.asked.get((process.name, number)) if known is not None else None
    if known is None or found is None:
        width = max(map(len, reply.rows), default=0)
        return Table(title_of(process, number), heads_of((), width), reply.rows)
    question, names = found
    answers = answers_of(question.text, known.document.columns, known.document.schemas)
    heads = heads_of(names, len(names))
    if not raw:
        reply = shown_reply(reply, answers)
        marks = [answer.head("") if answer.is_raw else "" for answer in answers]
        heads = [head + mark for head, mark in zip(heads, marks)] + heads[len(marks):]
    return Table(title_of(process, number), heads, reply.rows, statement=question.text)


def file_line(path: str, content: Optional[bytes]) -> str:
    return f"{path} was removed" if content is None else f"{path}: {plain_count(len(content), 'byte')}"
