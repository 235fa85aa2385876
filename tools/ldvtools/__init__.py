"""What is beside the program ldv: tools that make worlds, and that show outcomes and packages, and the same
as classes for notebooks (docs/NOTEBOOKS.md)."""
from __future__ import annotations

from typing import TYPE_CHECKING, Any, List

if TYPE_CHECKING:
    from .notebook import (ClashError, DamagedError, DivergedError, InputTooLongError, LdvError,
                           MalformedError, NeededRow, NoKitError, NoSuchItemError, NotAWorldError,
                           NotBuiltError, NotEndedError, NotPrivateError, NotProvenanceError, NoWordsError,
                           Outcome, OutOfMemoryError, Package, PackageTooLongError, PandasMissingError,
                           ProgramError, ProgramNotFoundError, ReadError, RefusedError, Table, UsageError,
                           Why, World, WriteError, call, find_program)

__version__ = "1.0.0"

# The names of `notebook`, whose modules are read when the first of them is asked for.
__all__ = [
    "ClashError", "DamagedError", "DivergedError", "InputTooLongError", "LdvError", "MalformedError",
    "NeededRow", "NoKitError", "NoSuchItemError", "NoWordsError", "NotAWorldError", "NotBuiltError",
    "NotEndedError", "NotPrivateError", "NotProvenanceError", "OutOfMemoryError", "Outcome", "Package",
    "PackageTooLongError", "PandasMissingError", "ProgramError", "ProgramNotFoundError", "ReadError",
    "RefusedError", "Table", "UsageError", "Why", "World", "WriteError", "call", "find_program"]


def __getattr__(name: str) -> Any:
    if name not in __all__:
        raise AttributeError(f"module {__name__!r} has no attribute {name!r}")
    from . import notebook
    return getattr(notebook, name)


def __dir__() -> List[str]:
    return sorted([*globals(), *__all__])
