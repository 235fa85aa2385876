"""Finds the program ldv, and calls it."""
from __future__ import annotations

import contextlib
import os
import shutil
from typing import Iterator, List, Optional, Sequence, Union

from ..documents import write_file
from ..errors import Malformed, Misused, Refused
from ..program import answer_of
from ..world_csv import read_file
from .exceptions import MalformedError, ProgramNotFoundError, RefusedError, error_of

Path = Union[str, "os.PathLike[str]"]
VARIABLE = "LDV"
# So many steps a run may have without --steps.
BUDGET = 1_000_000


def find_program(program: Optional[str] = None) -> str:
    """The path of the program ldv: `program` where it is given, else the one that the environment variable
    LDV names, else `ldv` on the PATH. ProgramNotFoundError where there is none."""
    given = program or os.environ.get(VARIABLE)
    found = shutil.which(given or "ldv")
    if found is not None:
        return found
    if given is None:
        raise ProgramNotFoundError("the program ldv isn't on the PATH: name it by the environment variable "
                                   "LDV or by the argument program")
    where = "the argument program" if program else "the environment variable LDV"
    raise ProgramNotFoundError(f"{where} is {given!r}, which is no program that can be run")


def call(words: Sequence[str], data: bytes = b"", program: Optional[str] = None) -> bytes:
    """What the program writes to standard output for some words (docs/COMMANDS.md) and an input. Where its
    status isn't 0, the exception of that status."""
    with told():
        status, output, message = answer_of(find_program(program), words, data)
    if status != 0:
        raise error_of(status, message)
    return output


def budget_words(steps: Optional[int]) -> List[str]:
    """The words for a budget of steps; none for the one that the program has by itself."""
    return [] if steps is None else ["--steps", str(steps)]


def read_bytes(path: Path) -> bytes:
    """The bytes of a file."""
    with told():
        return read_file(os.fspath(path))


def write_bytes(data: bytes, path: Path) -> None:
    """Writes a file whole or not at all."""
    with told():
        write_file(data, os.fspath(path))


@contextlib.contextmanager
def told() -> Iterator[None]:
    """Within it, what the tools refuse becomes an exception of these classes."""
    try:
        yield
    except (Refused, Misused) as fault:
        raise RefusedError(str(fault)) from None
    except Malformed as fault:
        raise MalformedError(str(fault)) from None
    except MemoryError:
        raise RefusedError("there isn't memory enough for this input") from None
    except RecursionError:
        raise MalformedError("an input nests too deep") from None
