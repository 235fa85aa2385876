"""The exceptions of the classes for notebooks: one for each status of the program (docs/COMMANDS.md)."""
from __future__ import annotations

from typing import Dict, Optional, Type


class LdvError(Exception):
    """What goes wrong here. `message` says what."""

    def __init__(self, message: str) -> None:
        super().__init__(message)
        self.message = message


class ProgramNotFoundError(LdvError):
    """The program ldv isn't where it was looked for."""


class RefusedError(LdvError):
    """Tables, files or statements can't be made into what was asked for. The message says why and where; an
    option in it, such as --scale visits.dose=2, is an argument here: scale={"visits.dose": 2}."""


class MalformedError(LdvError):
    """Bytes aren't those of a world, a package or an outcome, as the tools read them."""


class PandasMissingError(LdvError):
    """Data frames are asked for, and pandas isn't installed."""


class ProgramError(LdvError):
    """The program ended with another status than 0. `status` is this one, and `message` what it wrote to
    standard error. Each status of docs/COMMANDS.md has a class below this one; another status, as of a
    program that was killed by a signal, has none."""

    status: int = -1

    def __init__(self, message: str, status: Optional[int] = None) -> None:
        super().__init__(message)
        self.status = type(self).status if status is None else status


class UsageError(ProgramError):
    """The words are no command of the program."""

    status = 2


class ReadError(ProgramError):
    """The program couldn't read its input."""

    status = 3


class WriteError(ProgramError):
    """The program's output took only a part."""

    status = 4


class InputTooLongError(ProgramError):
    """A world or a package is longer than 64 MiB."""

    status = 5


class NotAWorldError(ProgramError):
    """The document is no world; the message has the kind of fault."""

    status = 6


class NotEndedError(ProgramError):
    """The run has more steps than its budget."""

    status = 7


class DamagedError(ProgramError):
    """The bytes are no package; the message has the kind of fault."""

    status = 8


class DivergedError(ProgramError):
    """A process asks another statement than the recorded one."""

    status = 9


class NoSuchItemError(ProgramError):
    """The package hasn't the row, the path or the rows that were asked for."""

    status = 10


class OutOfMemoryError(ProgramError):
    """The program's memory ran out."""

    status = 11


class PackageTooLongError(ProgramError):
    """The package would be longer than 64 MiB."""

    status = 12


class NotPrivateError(ProgramError):
    """A replay under another seed was asked for, and the order of processes may matter."""

    status = 14


class ClashError(ProgramError):
    """Two packages can't be joined."""

    status = 15


class NotProvenanceError(ProgramError):
    """The bytes are no provenance document."""

    status = 16


class NoWordsError(ProgramError):
    """The system didn't give the program its words."""

    status = 17


class NotBuiltError(ProgramError):
    """The script ./ldv couldn't compile the program."""

    status = 126


class NoKitError(ProgramError):
    """The script ./ldv found no rt to compile the program."""

    status = 127


BY_STATUS: Dict[int, Type[ProgramError]] = {each.status: each for each in ProgramError.__subclasses__()}


def error_of(status: int, message: str) -> ProgramError:
    """The exception of a status, with what the program wrote to standard error."""
    kind = BY_STATUS.get(status)
    if kind is not None:
        return kind(message)
    ended = f"ldv was ended by signal {-status}" if status < 0 else f"ldv ended with status {status}"
    return ProgramError(message or ended, status)
