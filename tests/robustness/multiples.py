"""What a hard input takes as a multiple of a usual one, and how many of the multiples are too large."""
from __future__ import annotations

import harness

ratio = harness.ratio


def least(words: list[str], source: str, target: str, runs: int) -> tuple[int, float, float]:
    """Status, the least seconds of a processor and the greatest MiB of some runs that count."""
    took, = harness.in_turn([lambda: harness.measure(words, source, target)], runs)
    return took[0].status, harness.least(took), harness.mebibytes(took)


class Tally:
    """Counts multiples, and those that are more than they may be."""

    def __init__(self) -> None:
        self.all = self.missed = 0

    def noted(self, value: float, most: float) -> str:
        """What a multiple may be at most, once it is noted whether it is more. Two decimals of it count."""
        self.all += 1
        self.missed += round(value, 2) > most
        return f'{most:.2f}'

    def last_line(self) -> str:
        return f'aims missed: {self.missed} of {self.all}'
