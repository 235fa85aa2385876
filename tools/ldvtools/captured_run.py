"""Runs a program with the recorder or the player in it, and the world of what it asked."""
from __future__ import annotations

import errno
import os
import re
import shutil
import signal
import subprocess
import sys
from typing import Any, Dict, List, Optional, Sequence

from .captured import Event
from .errors import Refused, program_name
from .outcomes import read_outcome
from .program import answer_of
from .values import Reply

HERE = os.path.dirname(os.path.abspath(__file__))
INSIDE = os.path.join(HERE, "inside")
BUILT = os.path.join(os.path.dirname(os.path.dirname(HERE)), "crates", "ldv", "out", "ldv")
KEYS_ON = re.compile(r"pragma\s+(?:main\.)?foreign_keys\s*[=(]\s*(?:on|1|true|yes)", re.IGNORECASE)
STEPS, MOST_STEPS = 1_000_000, 10_000_000


def environment(mode: str, folder: str) -> Dict[str, str]:
    """The variables by which Python imports what stands inside before the program."""
    before = os.environ.get("PYTHONPATH", "")
    path = INSIDE + (os.pathsep + before if before else "")
    return {**os.environ, "PYTHONPATH": path, "LDV_INSIDE": mode, "LDV_FOLDER": folder}


def check_program(name: str) -> None:
    """Refuses a program that isn't there, before anything is done for it."""
    if shutil.which(name) is None:
        is_there = os.sep in name and os.path.exists(name)
        raise Refused(f"{name}: {os.strerror(errno.EACCES if is_there else errno.ENOENT)}")


def run_program(program: Sequence[str], mode: str, folder: str, output: Optional[Any] = None) -> int:
    """Runs a program to its end: its status, or 128 and the number of the signal that killed it. What the
    keyboard sends to both is for the program."""
    try:
        child = subprocess.Popen(list(program), env=environment(mode, folder), stdout=output)
    except OSError as fault:
        raise Refused(f"{program[0]}: {fault.strerror}") from None
    before = signal.signal(signal.SIGINT, signal.SIG_IGN)
    try:
        status = child.wait()
    finally:
        signal.signal(signal.SIGINT, before)
    return status if status >= 0 else 128 - status


def program_of(given: Optional[str]) -> str:
    """The program ldv."""
    found = given or (BUILT if os.access(BUILT, os.X_OK) else shutil.which("ldv"))
    if found is None:
        raise Refused("the program ldv isn't built: ./ldv builds it, and --ldv PROGRAM names another one")
    check_program(found)
    return found


def replies_of(program: str, data: bytes, count: int) -> List[Reply]:
    """The replies of the run of a world."""
    steps = ["--steps", str(min(MOST_STEPS, 2 * count + 1000))] if 2 * count + 1000 > STEPS else []
    status, out, error = answer_of(program, ["run", *steps], data)
    if status:
        raise Refused(f"{program} run ends with {status}: {error}")
    if steps:
        print(f"{program_name()}: so many statements need ldv record {' '.join(steps)}", file=sys.stderr)
    return read_outcome(out).processes[0].replies


def has_foreign_keys(events: Sequence[Event]) -> bool:
    """Whether SQLite looks at foreign keys: it does where it is told. Where nothing is changed they say
    only what belongs together."""
    changes = any(event.kind == "asked" and event.head is None and event.changed > 0 for event in events)
    return not changes or any(KEYS_ON.search(event.text) for event in events)
