"""The three figures of bench/PAPER.md: bars for each query, on a logarithmic axis, by matplotlib."""
from __future__ import annotations

import json
import subprocess
import sys
from typing import Dict, List, NamedTuple, Optional

from plots import DEBIAN

COLORS = ('#1f4e9c', '#c4622d', '#3d8b5f', '#8a6fb0', '#777777', '#c9a227')


class Figure(NamedTuple):
    """A figure: what its axis has, the queries, and for each series a value a query, or None for none."""

    axis: str
    names: List[str]
    series: Dict[str, List[Optional[float]]]
    limit: Optional[float] = None
    """Where a line is drawn across, with a cross for each value that is missing."""


def drawn(path: str, figure: Figure) -> bool:
    """Whether a figure was drawn: it isn't if matplotlib isn't there, which is said."""
    try:
        import matplotlib  # noqa: F401
    except ImportError:
        return drawn_by_debian(path, figure)
    draw(path, figure)
    return True


def drawn_by_debian(path: str, figure: Figure) -> bool:
    try:
        has = subprocess.run([DEBIAN, '-c', 'import matplotlib'], stderr=subprocess.DEVNULL, check=False)
    except OSError:
        has = None
    if has is None or has.returncode != 0:
        print("paper_report: matplotlib isn't installed (python3-matplotlib), so there is no figure",
              file=sys.stderr)
        return False
    subprocess.run([DEBIAN, __file__, path], input=json.dumps(figure).encode(), check=True)
    return True


def draw(path: str, figure: Figure) -> None:
    import matplotlib
    matplotlib.use('Agg')
    # The same bytes for the same numbers.
    matplotlib.rcParams['svg.hashsalt'] = 'ldv'
    matplotlib.rcParams['svg.fonttype'] = 'none'
    from matplotlib import pyplot
    drawing, axes = pyplot.subplots(figsize=(12, 3.6), layout='constrained')
    width = 0.85 / len(figure.series)
    for number, (name, values) in enumerate(figure.series.items()):
        color = COLORS[number % len(COLORS)]
        places = [query + (number - (len(figure.series) - 1) / 2) * width for query in range(len(values))]
        there = [(place, value) for place, value in zip(places, values) if value is not None]
        axes.bar([place for place, _ in there], [value for _, value in there], width, color=color, label=name)
        missing = [place for place, value in zip(places, values) if value is None]
        if figure.limit is not None and missing:
            axes.plot(missing, [figure.limit] * len(missing), 'x', markersize=4, color=color)
    if figure.limit is not None:
        axes.axhline(figure.limit, linewidth=0.5, color='black')
    axes.set_xticks(range(len(figure.names)), figure.names, rotation=45, ha='right')
    axes.set(yscale='log', ylabel=figure.axis)
    axes.grid(True, axis='y', linewidth=0.3)
    axes.legend(fontsize='small', ncols=3)
    drawing.savefig(path, format='svg', metadata={'Date': None})
    pyplot.close(drawing)


if __name__ == '__main__':
    draw(sys.argv[1], Figure(*json.load(sys.stdin)))
