"""Lines on a terminal while something takes long."""
from __future__ import annotations

import sys
import time

SECONDS = 2.0


def is_terminal() -> bool:
    return sys.stderr.isatty()


class Progress:
    """Says what is being done, if two seconds went by since the last line, or since the start. A file or a
    pipe in the terminal's place gets no such line, so what a tool writes there doesn't depend on the host."""

    def __init__(self, name: str, is_quiet: bool = False) -> None:
        self.name, self.is_quiet, self.last = name, is_quiet or not is_terminal(), time.monotonic()

    def tell(self, text: str) -> None:
        now = time.monotonic()
        if not self.is_quiet and now - self.last >= SECONDS:
            self.last = now
            print(f"{self.name}: {text}", file=sys.stderr, flush=True)
