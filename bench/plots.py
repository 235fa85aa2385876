"""Plots of time against rows, on logarithmic axes, by matplotlib."""
from __future__ import annotations

import json
import subprocess
import sys
from typing import Dict, List, Mapping

# Debian's Python, which has its libraries where this one is another.
DEBIAN = '/usr/bin/python3'
# What the script ends with if matplotlib isn't there.
NONE = 3
COLUMNS = 6
# Less than that is no time that was measured.
LEAST = 0.0005
COLORS = {'ldv': '#1f4e9c', 'sqlite3': '#c4622d'}

Cases = Mapping[str, Mapping[str, Mapping[int, float]]]


def drawn(path: str, sizes: List[int], cases: Cases) -> bool:
    """Whether a plot was drawn: not if matplotlib isn't there, which is said, or if nothing was measured."""
    if not sizes:
        return False
    try:
        import matplotlib  # noqa: F401
    except ImportError:
        return drawn_by_debian(path, sizes, cases)
    draw(path, sizes, cases)
    return True


def drawn_by_debian(path: str, sizes: List[int], cases: Cases) -> bool:
    try:
        given = json.dumps([sizes, cases]).encode()
        status = subprocess.run([DEBIAN, __file__, path], input=given, check=False).returncode
    except OSError:
        status = NONE
    if status == NONE:
        print("report: matplotlib isn't installed (python3-matplotlib), so there is no plot", file=sys.stderr)
    elif status != 0:
        sys.exit(f'report: {DEBIAN} drew no plot')
    return status == 0


def draw(path: str, sizes: List[int], cases: Cases) -> None:
    """A small plot for each case, all with the same axes."""
    import matplotlib
    matplotlib.use('Agg')
    # The same bytes for the same numbers.
    matplotlib.rcParams['svg.hashsalt'] = 'ldv'
    matplotlib.rcParams['svg.fonttype'] = 'none'
    from matplotlib import pyplot
    rows = -(-len(cases) // COLUMNS)
    figure, axes = pyplot.subplots(rows, COLUMNS, figsize=(15, 2.4 * rows), sharex=True, sharey=True,
                                   squeeze=False, layout='constrained')
    places = [each for row in axes for each in row]
    for place in places[len(cases):]:
        place.set_visible(False)
    for place, (case, programs) in zip(places, cases.items()):
        for program, seconds in programs.items():
            place.plot(list(seconds), [max(each, LEAST) for each in seconds.values()], marker='o',
                       markersize=3, color=COLORS.get(program), label=program)
        place.set(xscale='log', yscale='log', title=case)
        place.grid(True, linewidth=0.3)
    places[0].legend()
    figure.supxlabel('rows')
    figure.supylabel('seconds asked')
    figure.savefig(path, format='svg', metadata={'Date': None})
    pyplot.close(figure)


def main() -> None:
    try:
        import matplotlib  # noqa: F401
    except ImportError:
        sys.exit(NONE)
    sizes, given = json.load(sys.stdin)
    cases: Dict[str, Dict[str, Dict[int, float]]] = {
        case: {program: {int(size): seconds for size, seconds in each.items()}
               for program, each in programs.items()} for case, programs in given.items()}
    draw(sys.argv[1], sizes, cases)


if __name__ == '__main__':
    main()
