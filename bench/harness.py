"""Runs commands and says what each took. The benches stand on it.

A command is a list of words with the file that it reads and the one that it writes. What it took is told by
wait4(2): seconds of a processor, of the command and of the system for it, and the peak of its memory; seconds
of the clock beside them. The system counts the memory of a child from before it becomes the command, so that
less than what this process has, some 15 MiB, shows as that. `apart` keeps this process small: what makes a
world or reads an outcome does so in a process of its own.

Commands that are compared run in turn, so that what else the machine does falls on each of them; quiet.py
says which runs count. `pinned` keeps all of them on one processor.
"""
from __future__ import annotations

import filecmp
import json
import os
import platform
import re
import statistics
import subprocess
import sys
import time
from typing import Any, Callable, List, NamedTuple, NoReturn, Optional, Sequence, TypeVar

import quiet

HERE = os.path.dirname(os.path.abspath(__file__))
ROOT = os.path.dirname(HERE)
# The program that is built here.
BUILT = os.path.join(ROOT, 'crates', 'ldv', 'out', 'ldv')
MIB = 1024.0

T = TypeVar('T')


class Took(NamedTuple):
    """What a command took."""

    processor: float
    """Seconds of a processor, of the command and of the system for it."""
    clock: float
    """Seconds of the clock."""
    memory: int
    """The peak of its memory, in KiB."""
    status: int
    """What it ended with, or the number of the signal that ended it, as a negative number."""


class Host(NamedTuple):
    """Where and with what is measured."""

    name: str
    system: str
    processor: str
    processors: int
    kit: str
    """The line of `rt version`, or nothing where there is no kit."""
    commit: str
    """The commit of the checkout, with a plus where the checkout has changes."""


def failed(text: str) -> NoReturn:
    """Ends the bench with a message."""
    sys.exit(f'bench: {text}')


# ---- a command

def measure(argv: Sequence[str], stdin_path: str, stdout_path: str) -> Took:
    """What a command took. Its messages aren't shown."""
    with open(stdin_path, 'rb') as source, open(stdout_path, 'wb') as target:
        start = time.perf_counter()
        child = subprocess.Popen(argv, stdin=source, stdout=target, stderr=subprocess.DEVNULL)
        _, status, usage = os.wait4(child.pid, 0)
        clock = time.perf_counter() - start
        child.returncode = os.WEXITSTATUS(status) if os.WIFEXITED(status) else -os.WTERMSIG(status)
    # Linux tells memory in KiB.
    return Took(usage.ru_utime + usage.ru_stime, clock, usage.ru_maxrss, child.returncode)


def measure_well(argv: Sequence[str], stdin_path: str, stdout_path: str) -> Took:
    """The same of a command that has to end with status 0."""
    took = measure(argv, stdin_path, stdout_path)
    if took.status != 0:
        failed(f'{" ".join(argv)} ended with {took.status}')
    return took


def least(runs: Sequence[Took]) -> float:
    """The least seconds of a processor."""
    return min(run.processor for run in runs)


def median(runs: Sequence[Took]) -> float:
    """The median seconds of a processor."""
    return statistics.median(run.processor for run in runs)


def mebibytes(runs: Sequence[Took]) -> float:
    """The greatest memory."""
    return max(run.memory for run in runs) / MIB


def ratio(a: float, b: float) -> float:
    """`a` as a multiple of `b`, of which less than a thousandth counts as a thousandth."""
    return a / max(b, 0.001)


# ---- runs in turn

def in_turn(runs: Sequence[Callable[[], T]], count: int, as_it_comes: bool = False) -> List[List[T]]:
    """What each run gave so often, of the times that count. A turn has each run that is wanted again, once;
    every second turn has them in the other order. All times count if they are taken as they come, and in
    turns after ten times as many as are wanted."""
    taken: List[List[T]] = [[] for _ in runs]
    turns, most = 0, 0 if as_it_comes else quiet.TRIES * count
    wanted = list(range(len(runs)))
    while wanted:
        turns += 1
        for place in wanted if turns % 2 else reversed(wanted):
            gave, counts = quiet.judged(runs[place]) if turns <= most else (runs[place](), True)
            if counts:
                taken[place].append(gave)
        wanted = [place for place in wanted if len(taken[place]) < count]
    if not as_it_comes and turns > most:
        quiet.say_withheld()
    return taken


def pace(tries: int = 20) -> float:
    """Nanoseconds of a processor for a turn of a fixed loop: the least of some tries."""
    return min(quiet.pace() for _ in range(tries)) / quiet.TURNS * 1e9


def usual_pace() -> float:
    """Nanoseconds of a turn in the median, by which quiet.py judges the runs that follow."""
    return round(quiet.settle() / quiet.TURNS * 1e9, 1)


def pinned() -> Optional[int]:
    """Keeps this process and its children on one processor, and says on which; nothing where that isn't
    allowed."""
    try:
        processor = max(os.sched_getaffinity(0))
        os.sched_setaffinity(0, {processor})
    except (AttributeError, OSError):
        return None
    return processor


# ---- work apart

def apart(function: Callable[..., Any], *arguments: Any) -> Any:
    """What a function gives, as JSON has it, from a process of its own: its memory isn't this one's."""
    reader, writer = os.pipe()
    sys.stdout.flush()
    child = os.fork()
    if child == 0:
        status = 1
        try:
            os.close(reader)
            with os.fdopen(writer, 'w', encoding='utf-8') as target:
                json.dump(function(*arguments), target)
            status = 0
        except SystemExit as end:
            print(end.code, file=sys.stderr)
        except BaseException:                                           # pylint: disable=broad-except
            sys.excepthook(*sys.exc_info())
        finally:
            sys.stderr.flush()
            os._exit(status)
    os.close(writer)
    with os.fdopen(reader, encoding='utf-8') as source:
        text = source.read()
    _, ended = os.waitpid(child, 0)
    if ended != 0:
        failed(f'{getattr(function, "__name__", function)} failed')
    return json.loads(text)


def check_same(one: str, other: str, what: str) -> None:
    """Ends the bench where two files aren't the same bytes."""
    if not filecmp.cmp(one, other, shallow=False):
        failed(f'{what}: {os.path.basename(one)} and {os.path.basename(other)} have other bytes')


# ---- the host

def said(words: Sequence[str]) -> str:
    """What a command says, or nothing where it isn't there or fails."""
    try:
        done = subprocess.run(words, cwd=ROOT, stdin=subprocess.DEVNULL, stdout=subprocess.PIPE,
                              stderr=subprocess.DEVNULL, check=False)
    except OSError:
        return ''
    return done.stdout.decode(errors='replace').strip() if done.returncode == 0 else ''


def processor_name(path: str = '/proc/cpuinfo') -> str:
    """The name of the processor, as the system tells it."""
    try:
        with open(path, encoding='utf-8', errors='replace') as file:
            found = re.search(r'^model name\s*:\s*(.*)$', file.read(), re.M)
    except OSError:
        found = None
    return found[1].strip() if found else platform.machine()


def version() -> str:
    """The version of this checkout, as its citation has it."""
    with open(os.path.join(ROOT, 'CITATION.cff'), encoding='utf-8') as file:
        found = re.search(r'^version: (\S+)$', file.read(), re.M)
    return found[1] if found else failed('CITATION.cff has no version')


def host() -> Host:
    """This host, its kit and the commit of this checkout."""
    commit = said(['git', 'rev-parse', 'HEAD'])
    changed = said(['git', 'status', '--porcelain', '--untracked-files=no'])
    return Host(platform.node(), f'{platform.system()} {platform.release()}', processor_name(),
                os.cpu_count() or 1, said(['rt', 'version']), commit + ('+' if changed else ''))
