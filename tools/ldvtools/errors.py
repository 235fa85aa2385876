"""What goes wrong in the tools, how a command says it, and how its words are read."""
from __future__ import annotations

import argparse
import os
import sys
from typing import Callable, NoReturn, Optional, Sequence


class Malformed(Exception):
    """An input doesn't have the form of what it should be. The text says what is wrong and where."""


class TwoRuns(Malformed):
    """A joined package stands where a package of one run is wanted. The text says how to name one."""


class Refused(Exception):
    """What was given can't be made into what was asked for. The text says why and where."""


class Unfit(Exception):
    """A cell doesn't fit its column. The text says why."""


class Misused(Exception):
    """The words of the command line are wrong."""


def said(fault: OSError) -> str:
    """An error of the system in one line."""
    if isinstance(fault, BrokenPipeError):
        return "standard output: nobody reads it any more"
    if fault.strerror is None:
        return str(fault)
    return f"{fault.filename or 'standard output'}: {fault.strerror}"


def program_name() -> str:
    """The name by which the command was called, with which its messages begin: `world.py`, or `ldv-world`."""
    return os.path.basename(sys.argv[0])


def command(work: Callable[[Optional[Sequence[str]]], int], words: Optional[Sequence[str]], expected: str,
            failed: int = 1) -> int:
    """The status of a command: of its work, or `failed` or 2 where that fails, with one line on standard
    error.

    `expected` says what a malformed input should have been.
    """
    name, status = program_name(), failed
    try:
        status = work(words)
        sys.stdout.flush()
        return status
    except TwoRuns as fault:
        tell(f"{name}: {fault}")
    except Malformed as fault:
        tell(f"{name}: no {expected}: {fault}")
    except Refused as fault:
        tell(f"{name}: {fault}")
    except OSError as fault:
        leave_output()
        tell(f"{name}: {said(fault)}")
    except MemoryError:
        tell(f"{name}: there isn't memory enough for this input")
    except RecursionError:
        tell(f"{name}: an input nests too deep")
    except Misused as fault:
        tell(f"{name}: {fault} ({name} --help says more)")
        return 2
    return failed


def tell(line: str) -> None:
    """A line to standard error, where that can be written."""
    try:
        print(line, file=sys.stderr)
    except (OSError, ValueError):
        pass


def leave_output() -> None:
    """Gives up what standard output couldn't take: else it fails again at the end of the process, which then
    ends with a status of its own."""
    try:
        handle = sys.stdout.fileno()
        empty = os.open(os.devnull, os.O_WRONLY)
        os.dup2(empty, handle)
        os.close(empty)
    except (OSError, ValueError):
        pass


class Words(argparse.ArgumentParser):
    """Reads the words of a command. What is wrong with them is one line, and not the list of all words."""

    def error(self, message: str) -> NoReturn:
        self.exit(2, f"{self.prog}: {message} ({self.prog} --help says more)\n")


def words_of(told: Optional[str], given: str = "", what: str = "") -> argparse.ArgumentParser:
    """What reads the words of a command. Its --help shows `told` as it stands. `given` names the file that it
    reads, where it reads one or else standard input, and `what` says what that is."""
    parser = Words(prog=program_name(), description=told,
                   formatter_class=argparse.RawDescriptionHelpFormatter)
    if given:
        parser.add_argument(given, nargs="?", help=f"{what}; standard input where it isn't given")
    return parser
