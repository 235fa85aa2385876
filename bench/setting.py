"""What a run is given: the programs, a folder of its own, the sizes, and how often each command is run."""
from __future__ import annotations

import os
from typing import Callable, Dict, List, Mapping, NamedTuple, Optional, Sequence, TypeVar

import harness
from harness import Took
from results import AGAINST, LDV

T = TypeVar('T')
# A command with what it reads and what it writes.
Job = Callable[[], Took]


class Setting(NamedTuple):
    """What a run is given. Names of files are those in its folder; each program has a folder for its own."""

    programs: Mapping[str, str]
    """The program that is measured, as LDV, and perhaps the one beside it, as AGAINST."""
    folder: str
    sizes: Sequence[int]
    runs: int
    """How often each command is run."""
    as_it_comes: bool
    """Whether each run counts, however busy the host is."""
    names: Sequence[str]
    """The names of the lines that are wanted, or none for all."""

    def path(self, name: str) -> str:
        return os.path.join(self.folder, name)

    def own(self, program: str, name: str) -> str:
        """The file of that name that a program wrote."""
        return os.path.join(self.folder, program, name)

    def wants(self, name: str) -> bool:
        return not self.names or name in self.names

    def turns(self, runs: Mapping[str, Callable[[], T]]) -> Dict[str, List[T]]:
        """What each run gave, in turn, by its name."""
        taken = harness.in_turn(list(runs.values()), self.runs, self.as_it_comes)
        return dict(zip(runs, taken))

    def job(self, argv: Sequence[str], source: str, target: str) -> Job:
        """A command that has to end with status 0; the files are paths."""
        return lambda: harness.measure_well(argv, source, target)

    def jobs(self, words: Sequence[str], source: str, target: str) -> Dict[str, Job]:
        """A call of each program. The source is the program's own file where it wrote one of that name."""
        found = {}
        for name, program in self.programs.items():
            own = self.own(name, source)
            path = own if os.path.exists(own) else self.path(source)
            found[name] = self.job([program, *words], path, self.own(name, target))
        return found

    def measured(self, words: Sequence[str], source: str, target: str, same: bool = False,
                 beside: Optional[Mapping[str, Job]] = None) -> Dict[str, List[Took]]:
        """What a call of each program takes, in turn, and what stands beside it. Where `same` says so, the
        programs have to write the same bytes."""
        taken = self.turns({**self.jobs(words, source, target), **(beside or {})})
        if same and AGAINST in self.programs:
            harness.check_same(self.own(LDV, target), self.own(AGAINST, target), ' '.join(words))
        return taken

    def size_of(self, program: str, name: str) -> int:
        """The bytes of a file that a program wrote, or that is there for all."""
        own = self.own(program, name)
        return os.path.getsize(own if os.path.exists(own) else self.path(name))
