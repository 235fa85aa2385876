"""Classes for notebooks and other programs in Python: worlds, outcomes and packages (docs/NOTEBOOKS.md).

    world = ldvtools.World.from_dataframes({"visits": frame}, ask="SELECT id FROM visits WHERE dose > 20")
    package = world.record()
    package.save("study.package")
    assert ldvtools.Package.open("study.package").replay() == world.run()

What runs, records and replays is the program ldv, which `find_program` finds. These classes make its inputs
and read its outputs, and no theorem is about them.
"""
from .calls import call, find_program
from .exceptions import (ClashError, DamagedError, DivergedError, InputTooLongError, LdvError,
                         MalformedError, NoKitError, NoSuchItemError, NotAWorldError, NotBuiltError,
                         NotEndedError, NotPrivateError, NotProvenanceError, NoWordsError, OutOfMemoryError,
                         PackageTooLongError, PandasMissingError, ProgramError, ProgramNotFoundError,
                         ReadError, RefusedError, UsageError, WriteError)
from .outcomes import Outcome
from .packages import NeededRow, Package, Why
from .tables import Table
from .worlds import World

__all__ = [
    "ClashError", "DamagedError", "DivergedError", "InputTooLongError", "LdvError", "MalformedError",
    "NeededRow", "NoKitError", "NoSuchItemError", "NoWordsError", "NotAWorldError", "NotBuiltError",
    "NotEndedError", "NotPrivateError", "NotProvenanceError", "OutOfMemoryError", "Outcome", "Package",
    "PackageTooLongError", "PandasMissingError", "ProgramError", "ProgramNotFoundError", "ReadError",
    "RefusedError", "Table", "UsageError", "Why", "World", "WriteError", "call", "find_program"]
