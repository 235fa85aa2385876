"""Calls the program ldv."""
from __future__ import annotations

import re
import subprocess
from typing import Optional, Sequence, Tuple

from .errors import Refused


def answer_of(program: str, words: Sequence[str], data: bytes) -> Tuple[int, bytes, str]:
    """What the program ends with, and what it writes to standard output and to standard error."""
    try:
        done = subprocess.run([program, *words], input=data, stdout=subprocess.PIPE, stderr=subprocess.PIPE,
                              check=False)
    except OSError as fault:
        raise Refused(f"{program}: {fault.strerror}") from None
    return done.returncode, done.stdout, done.stderr.decode(errors="replace").strip()


# The names of versions of the C library that a program was linked for.
LIBC = re.compile(rb"\0GLIBC_(\d+(?:\.\d+)+)(?=\0)")


def least_libc(program: bytes) -> Optional[str]:
    """From which version of the GNU C library on a program runs, or None where it names none."""
    found = [tuple(map(int, version.split(b"."))) for version in LIBC.findall(program)]
    return ".".join(map(str, max(found))) if found else None
