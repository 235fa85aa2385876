"""Worlds, made of data frames, CSV files and databases, for notebooks."""
from __future__ import annotations

import json
import os
import tempfile
from typing import Any, Dict, List, Mapping, Optional, Sequence, Tuple, Union

from .. import world
from ..documents import as_json, file_json
from ..errors import Malformed
from ..packages import PackedRow, PackedTable
from ..values import plain_count
from ..world_digest import digest_in_script, digest_line, digest_of_document
from ..world_frames import Given
from ..world_rules import broken_rule
from ..worlds import Document, read_world
from .calls import Path, budget_words, call, read_bytes, told, write_bytes
from .exceptions import MalformedError, RefusedError
from .markup import block_html, list_html
from .options import Option, words_of
from .outcomes import Outcome
from .packages import Package
from .tables import Table, tables_html, tables_of

Content = Union[str, bytes]
Texts = Union[str, Sequence[str]]
# The path of a script that is given as a text. The one that asks statements is called main.
SCRIPT = "main.ldv"
MAX_SEED = 2**64 - 1


class World:
    """A world: tables, files, and a script that asks questions. `document` has the bytes of the world
    document (docs/FORMATS.md), and `messages` what was said when it was made: what isn't carried, what looks
    like something else than it is, and a line for each table."""

    def __init__(self, document: bytes, messages: Sequence[str] = (), program: Optional[str] = None) -> None:
        """The world of a document. Whether it is one is what the program says, when it runs it. `program` is
        as `find_program` takes it."""
        self.document, self.messages, self.program = document, list(messages), program

    @classmethod
    def from_document(cls, path: Path, program: Optional[str] = None) -> World:
        """The world of a document in a file."""
        return cls(read_bytes(path), program=program)

    @classmethod
    def from_dataframes(cls, frames: Mapping[str, Any], ask: Texts = (), script: Optional[str] = None,
                        files: Optional[Mapping[str, Content]] = None, arguments: Sequence[str] = (),
                        seed: int = 0, program: Optional[str] = None, **options: Option) -> World:
        """A world with a table for each data frame of pandas, by its name, or for anything else that has
        `columns` and `rows`.

        `ask` has statements, which the script of the world asks one by one; `script` is the text of a script
        of your own (docs/SCRIPTS.md), which runs after them. `files` has more files by their paths, and
        `arguments` what the script is given. The options are those of tools/world.py, with _ for -, such as
        key={"visits": "id"} and scale={"visits.dose": 2}.

        RefusedError where a frame can't be a table of a world: docs/NOTEBOOKS.md says what is carried.
        """
        return cls(*made([], frames, ask, script, files, arguments, seed, options), program=program)

    @classmethod
    def from_csv(cls, paths: Union[Path, Sequence[Path], Mapping[str, Path]], ask: Texts = (),
                 script: Optional[str] = None, files: Optional[Mapping[str, Content]] = None,
                 arguments: Sequence[str] = (), seed: int = 0, program: Optional[str] = None,
                 **options: Option) -> World:
        """A world with a table for each CSV file: a path, several of them, or paths by the names of tables.
        The rest is as for `from_dataframes`."""
        if isinstance(paths, Mapping):
            given = [f"{name}={os.fspath(path)}" for name, path in paths.items()]
        else:
            several = [paths] if isinstance(paths, (str, os.PathLike)) else paths
            given = [os.fspath(path) for path in several]
        words = [f"--csv={path}" for path in given]
        return cls(*made(words, {}, ask, script, files, arguments, seed, options), program=program)

    @classmethod
    def from_sqlite(cls, path: Path, ask: Texts = (), script: Optional[str] = None,
                    files: Optional[Mapping[str, Content]] = None, arguments: Sequence[str] = (),
                    seed: int = 0, program: Optional[str] = None, **options: Option) -> World:
        """A world with the tables of an SQLite database, or with those that the option `table` names. The
        rest is as for `from_dataframes`."""
        words = [f"--sqlite={os.fspath(path)}"]
        return cls(*made(words, {}, ask, script, files, arguments, seed, options), program=program)

    def run(self, seed: Optional[int] = None, steps: Optional[int] = None) -> Outcome:
        """The outcome of its run, under its own seed or another one, within a budget of steps (1,000,000
        where none is given)."""
        document = self._seeded(seed)
        data = call(["run", *budget_words(steps)], document, self.program)
        # What the document's script says of its digest is no matter: it is this world that was run.
        return Outcome(data, lambda: read_world(document)._replace(digest=""))

    def record(self, excluded: bool = False, seed: Optional[int] = None,
               steps: Optional[int] = None) -> Package:
        """The package of its run: with the needed rows, or with `excluded` with the recorded replies in
        their place."""
        words = ["record", *(["--excluded"] if excluded else []), *budget_words(steps)]
        return Package(call(words, self._seeded(seed), self.program), self.program)

    def tables(self, raw: bool = False) -> Dict[str, Table]:
        """Its tables by their names, with cells as they were read, or with `raw` as they are carried."""
        with told():
            return tables_of(packed_tables(self.document), read_world(self.document).columns, raw)

    def to_dataframes(self, raw: bool = False) -> Dict[str, Any]:
        """The same as data frames of pandas."""
        return {name: table.to_dataframe() for name, table in self.tables(raw).items()}

    @property
    def files(self) -> Dict[str, bytes]:
        """Its files by their paths, the scripts among them."""
        return dict(self._read().world.files)

    def save(self, path: Path) -> None:
        """Writes the document into a file."""
        write_bytes(self.document, path)

    def _read(self) -> Document:
        with told():
            return read_world(self.document)

    def _seeded(self, seed: Optional[int]) -> bytes:
        return self.document if seed is None else seeded(self.document, seed)

    def __repr__(self) -> str:
        return f"<World: {plain_count(len(self.document), 'byte')}>"

    def _repr_html_(self) -> str:
        try:
            read = self._read()
            with told():
                tables = tables_html(packed_tables(self.document), read.columns)
        except MalformedError as fault:
            return block_html(f"no world: {fault}", [])
        start = " ".join(read.world.start)
        parts = list_html(f"starts {start} under the seed {read.world.seed}",
                          [f"{path}: {plain_count(len(content), 'byte')}"
                           for path, content in read.world.files.items()])
        return block_html("a world", parts + tables + list_html("said when it was made", self.messages))


def made(words: Sequence[str], frames: Mapping[str, Any], ask: Texts, script: Optional[str],
         files: Optional[Mapping[str, Content]], arguments: Sequence[str], seed: int,
         options: Mapping[str, Option]) -> Tuple[bytes, List[str]]:
    """The document that tools/world.py makes of these words, and of frames and files that are in memory, with
    what it says of it."""
    check_seed(seed)
    statements = [ask] if isinstance(ask, str) else list(ask)
    if not statements and script is None:
        raise RefusedError("a world has a script: give statements by ask, or a script's text by script")
    own = {path: bytes_of(content, path) for path, content in (files or {}).items()}
    given = [*words, *words_of(options), f"--seed={seed}", "--quiet",
             *(f"--ask={each}" for each in statements), *(f"--arg={each}" for each in arguments)]
    with tempfile.TemporaryDirectory() as folder, told():
        if script is not None:
            path = os.path.join(folder, SCRIPT)
            with open(path, "wb") as file:
                file.write(bytes_of(script, SCRIPT))
            given.append(f"--script={path}")
        read = world.read_words(given)
        found = world.made_world(read, Given(frames, own))
        world.check_strict(read, found)
    return found.data, [*found.notes, *found.warnings, *found.hints, *found.summaries]


def bytes_of(content: Content, path: str) -> bytes:
    """The bytes of a file that is given as a text or as bytes."""
    try:
        return content.encode() if isinstance(content, str) else content
    except UnicodeEncodeError:
        raise RefusedError(f"the file {path} has half a surrogate pair, which UTF-8 hasn't") from None


def check_seed(seed: int) -> None:
    if isinstance(seed, bool) or not isinstance(seed, int) or not 0 <= seed <= MAX_SEED:
        raise ValueError(f"seed is a whole number from 0 to {MAX_SEED}, and not {seed!r}")


def seeded(data: bytes, seed: int) -> bytes:
    """A document with another seed, and with the digest of that world where its script names its own. What
    is no document stays as it is, and the program says why it is none."""
    check_seed(seed)
    try:
        found = json.loads(data.decode())
        found["seed"] = seed
        changed = as_json(found).encode()
        read = read_world(changed)
        digest = digest_in_script(read.world.files[read.world.start[0]])
        if digest is None:
            return changed
        new = digest_of_document(changed, read.world.start, seed, read.world.files)
    except (Malformed, TypeError, ValueError, RecursionError):
        return data
    script = read.world.files[read.world.start[0]]
    script = script.replace(digest_line(digest).encode(), digest_line(new).encode())
    found["files"][read.world.start[0]] = json.loads(file_json(script))
    return as_json(found).encode()


def packed_tables(data: bytes) -> List[PackedTable]:
    """The tables of a document, with all their rows."""
    found = []
    try:
        for name, table in json.loads(data.decode()).get("tables", {}).items():
            rows = [PackedRow(number, 0, "", list(row)) for number, row in enumerate(table.get("rows", []))]
            columns = [(column, kind) for column, kind in table["columns"]]
            found.append(PackedTable(name, columns, table.get("key", []), [], len(rows), rows))
    except (AttributeError, KeyError, TypeError, ValueError, RecursionError):
        raise Malformed(str(broken_rule(data) or "it has no form of a world document")) from None
    return found
