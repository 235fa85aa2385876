"""Packages, for notebooks."""
from __future__ import annotations

import re
from typing import Any, Dict, List, NamedTuple, Optional, Tuple, Union

from ..language import RULE_TEXTS
from ..package import summary
from ..package_bytes import package_bytes
from ..package_tables import columns_of, tables_as_read
from ..packages import Package as ReadPackage
from ..packages import read_package
from ..worlds import world_of_package
from .calls import BUDGET, Path, budget_words, call, read_bytes, told, write_bytes
from .exceptions import MalformedError
from .markup import block_html, list_html
from .outcomes import Outcome
from .tables import Cell, Table, cell_of, tables_html, tables_of

WHY = re.compile(r"statement ([0-9]+) process ([0-9.]+) step ([0-9]+) rule ([LHKPC])\n")


class NeededRow(NamedTuple):
    """A row of a package: its table, its number there, its cells by the names of the columns, the statement
    that needed it first, from 0, and the rule by which it did (L, H, K, P or C)."""

    table: str
    number: int
    cells: Dict[str, Cell]
    statement: int
    rule: str


class Why(NamedTuple):
    """Why a row is in a package: the statement that needed it first, from 0 over the whole run, the process
    that asked it, the step, and the rule."""

    table: str
    number: int
    statement: int
    process: str
    step: int
    rule: str

    @property
    def meaning(self) -> str:
        """What the rule says of the row."""
        return f"the row {RULE_TEXTS[self.rule]}"

    def __str__(self) -> str:
        return (f"statement {self.statement} of process {self.process} needed row {self.number} of "
                f"{self.table} at step {self.step}: {self.meaning} (rule {self.rule})")


class Package:
    """The package of a run, with its rows or with its recorded replies. `data` has its bytes."""

    def __init__(self, data: bytes, program: Optional[str] = None) -> None:
        """The package that bytes spell. They are read when something of it is asked; whether it is valid is
        what the program says, when it replays it. `program` is as `find_program` takes it."""
        self.data, self.program = data, program
        self._found: Optional[ReadPackage] = None

    @classmethod
    def open(cls, path: Path, run: Optional[int] = None, program: Optional[str] = None) -> Package:
        """The package in a file. Of a joined package, that of the run 1 or 2."""
        data = read_bytes(path)
        with told():
            return cls(data if run is None else package_bytes(read_package(data, run)), program)

    def save(self, path: Path) -> None:
        """Writes the package into a file."""
        write_bytes(self.data, path)

    @property
    def is_excluded(self) -> bool:
        """Whether it has recorded replies in place of rows."""
        return self._read().mode == "excluded"

    @property
    def files(self) -> Dict[str, Optional[bytes]]:
        """The files that the run needed, by path: their bytes, or None where it only needed that one is
        there."""
        return dict(self._read().files)

    def tables(self, raw: bool = False) -> Dict[str, Table]:
        """The needed rows by their tables, with cells as they were read, or with `raw` as they are carried.
        A package of recorded replies has none."""
        read = self._read()
        return tables_of(read.tables, columns_of(read), raw)

    def to_dataframes(self, raw: bool = False) -> Dict[str, Any]:
        """The same as data frames of pandas."""
        return {name: table.to_dataframe() for name, table in self.tables(raw).items()}

    def rows(self, raw: bool = False) -> List[NeededRow]:
        """The needed rows, by table and number, each with the statement that needed it first and the
        rule."""
        read = self._read()
        shown = read.tables if raw else tables_as_read(read.tables, columns_of(read))
        return [NeededRow(table.name, row.number, dict(zip(table.names(), map(cell_of, row.values))),
                          row.statement, row.rule)
                for table, as_read in zip(read.tables, shown) for row in as_read.rows]

    def why(self, row: Union[NeededRow, Tuple[str, int]]) -> Why:
        """Why a row is in it, as `inspect why` says: one of `rows`, or its table and its number.
        NoSuchItemError where the package has no such row."""
        table, number = row[0], row[1]
        said = call(["inspect", "why", table, str(number)], self.data, self.program).decode()
        found = WHY.fullmatch(said)
        if found is None:
            raise MalformedError(f"inspect why says {said!r}: it isn't the program ldv")
        return Why(table, number, int(found[1]), found[2], int(found[3]), found[4])

    def depends(self, path: str) -> List[str]:
        """What the content of a path came from: the lines of `inspect depends`."""
        return call(["inspect", "depends", path], self.data, self.program).decode().splitlines()

    def replay(self, seed: Optional[int] = None, steps: Optional[int] = None) -> Outcome:
        """The outcome of the run that was recorded. With `seed`, which only a package of recorded replies
        takes, of its run under another seed. The budget of steps is 1,000,000, or what the recorded run took
        where that is more."""
        words = [] if seed is None else ["--seed", str(seed)]
        data = call(["replay", *words, *budget_words(self._budget(steps))], self.data, self.program)
        return Outcome(data, lambda: world_of_package(self._read()))

    def audit(self, steps: Optional[int] = None) -> str:
        """The verdict of `audit`: "sound" where the bytes are those of the package of its own world's run,
        else "unsound N" with the first place at which they differ. A package with rows has one."""
        words = budget_words(self._budget(steps))
        return call(["audit", *words], self.data, self.program).decode().strip()

    def _read(self) -> ReadPackage:
        if self._found is None:
            with told():
                self._found = read_package(self.data)
        return self._found

    def _budget(self, steps: Optional[int]) -> Optional[int]:
        """The budget that is given, or that of the recorded run where the program's own isn't enough."""
        if steps is not None:
            return steps
        try:
            taken = self._read().steps
        except MalformedError:
            return None
        return taken if taken > BUDGET else None

    def __eq__(self, other: object) -> bool:
        return isinstance(other, Package) and self.data == other.data

    def __hash__(self) -> int:
        return hash(self.data)

    def __repr__(self) -> str:
        return f"<Package: {len(self.data)} bytes>"

    def _repr_html_(self) -> str:
        try:
            read = self._read()
        except MalformedError as fault:
            return block_html(f"no package: {fault}", [])
        parts = list_html("what is in it", summary(read)) + tables_html(read.tables, columns_of(read))
        return block_html(f"a package of {len(self.data):,} bytes", parts)
