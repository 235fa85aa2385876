"""Says whether the order in which the processes of a run step can change what it comes to.

    ./ldv record --excluded < world.json > world.replies
    tools/orders.py --ldv ./ldv world.replies                  tries it under the seeds 0 to 99
    tools/orders.py --ldv ./ldv --seeds 1000 world.replies     under the seeds 0 to 999
    tools/orders.py world.replies                              only what its processes share

A package is private where no process names a path that another one changes, so that each finds its files as
it left them, whoever steps between. It is read off the trace, without a run. Where it isn't so, these paths
are told, each with what every process did to it.

A private package of recorded replies is replayed within the steps of the recorded run, under its own seed and
then under each of the others, and the outcomes are compared byte by byte. Of what `ldv record --excluded`
writes they are all the same: it is proved. A package that was changed by hand may diverge under a seed, and
this seed is told. docs/ORDERS.md says what to do where the order matters.

Statuses: 0 the order doesn't matter; 1 it may, or a seed leads elsewhere; 2 wrong words, the input is no
package, or the program can't be run.
"""
from __future__ import annotations

import argparse
import sys
from typing import Dict, Iterator, List, NamedTuple, Optional, Sequence, Tuple

from .diff import cut, outcome_differences
from .errors import Malformed, Misused, Refused, program_name, said, words_of
from .language import ACTS, MAX_PROCESSES, SPAWNED
from .outcome import read_input, write_out
from .outcomes import read_outcome
from .packages import Joined, Package, read_any
from .program import answer_of
from .progress import Progress
from .values import escaped, plain_count

SEEDS, MAX_SEED, SHOWN = 100, 2**64 - 1, 20
# The statuses of a replay that came to something.
DONE, NOT_ENDED, DIVERGED = 0, 7, 9

# By process, the acts by which it names a path, in the order of the trace.
Users = Dict[int, List[int]]


class Result(NamedTuple):
    """What a replay ended with and wrote."""

    status: int
    output: bytes
    error: str


# ---- what processes share

def users_of_paths(package: Package) -> Dict[str, Users]:
    """Who names each path, and how. Equal events of a run count once."""
    found: Dict[str, Users] = {}
    for run in package.runs:
        event = run.first
        if ACTS[event.act].has_path:
            acts = found.setdefault(event.path, {}).setdefault(event.process, [])
            if event.act not in acts:
                acts.append(event.act)
    return found


def is_shared(users: Users) -> bool:
    """Whether one process changes the path and another names it."""
    return len(users) > 1 and any(ACTS[act].changes for acts in users.values() for act in acts)


def shared_paths(package: Package) -> List[Tuple[str, Users]]:
    found = [(path, users) for path, users in users_of_paths(package).items() if is_shared(users)]
    return sorted(found, key=lambda each: each[0].encode())


def process_count(package: Package) -> int:
    return 1 + sum(run.times for run in package.runs if run.first.act == SPAWNED)


def user_lines(users: Users, names: Sequence[str], limit: int) -> Iterator[str]:
    if max(users) >= len(names):
        raise Malformed(f"an event of a process {max(users)}, which nothing made")
    yield from cut([f"process {names[process]}: {', '.join(ACTS[act].told for act in acts)}"
                    for process, acts in users.items()], limit)


def sharing_lines(package: Package, limit: int) -> Iterator[str]:
    """Why the order of steps may matter; nothing where it can't."""
    if package.mode == "included":
        yield ("it has rows, and its processes share these tables: a package of `ldv record --excluded` has "
               "the replies in their place")
    count = process_count(package)
    if count >= MAX_PROCESSES:
        yield f"{count} processes were made, so that one more is refused to whoever asks for it last"
    shared = shared_paths(package)
    if shared:
        yield f"{plain_count(len(shared), 'path')} that one process changes and another one names"
        names = package.process_names()
        for path, users in shared[:limit]:
            yield f"file {escaped(path)}"
            yield from user_lines(users, names, limit)
        if len(shared) > limit:
            yield f".. and {plain_count(len(shared) - limit, 'path')} more (--all shows all)"


# ---- other orders

class Trial(NamedTuple):
    """A package, and the program that replays it."""

    program: str
    data: bytes
    steps: int

    def replayed(self, seed: Optional[int]) -> Result:
        """Under a seed, or under the package's own. Each order of a private run has as many steps."""
        words = [] if seed is None else ["--seed", str(seed)]
        result = Result(*answer_of(self.program, ["replay", *words, "--steps", str(max(1, self.steps))],
                                   self.data))
        if result.status not in (DONE, NOT_ENDED, DIVERGED):
            raise Refused(f"{self.program} replay ends with {result.status}: {result.error}")
        return result


def elsewhere_lines(name: str, own: Result, other: Result, limit: int) -> Iterator[str]:
    """Where an order leads that doesn't lead to the recorded outcome."""
    if other.status != DONE:
        yield f"{name}: {other.error}"
    else:
        yield f"{name}: another outcome"
        if own.status == DONE:
            before, after = read_outcome(own.output), read_outcome(other.output)
            yield from cut(list(outcome_differences(before, after, {}, limit)), limit)


def trial_lines(trial: Trial, seeds: int, limit: int, progress: Progress) -> Iterator[Tuple[str, bool]]:
    """What comes of each seed that leads elsewhere, and how many don't; each line with whether it is good."""
    own = trial.replayed(None)
    if own.status != DONE:
        for line in elsewhere_lines("its own seed", own, own, limit):
            yield line, False
    agree, told = 0, 0
    for seed in range(seeds):
        progress.tell(f"{seed} of {plain_count(seeds, 'seed')}")
        other = trial.replayed(seed)
        if other == own and own.status == DONE:
            agree += 1
            continue
        told += 1
        if told <= limit:
            for line in elsewhere_lines(f"seed {seed}", own, other, limit):
                yield line, False
    if told > limit:
        yield f".. and {plain_count(told - limit, 'seed')} more (--all shows all)", False
    which = f"{agree} of {plain_count(seeds, 'seed')}" if told else plain_count(seeds, "seed")
    steps = plain_count(trial.steps, "step")
    yield f"{which}: the outcome of the recorded run, after no more than its {steps}", told == 0


def private_line(package: Package) -> str:
    count = process_count(package)
    if count == 1:
        return "private: one process, which has one order of steps"
    return (f"private: {plain_count(count, 'process', 'processes')}, and none names a path that another one "
            "changes")


# ---- the command

def seed_count(text: str) -> int:
    count = int(text) if text.isascii() and text.isdigit() else 0
    if not 1 <= count <= MAX_SEED:
        raise argparse.ArgumentTypeError(f"{text!r} is no number of seeds from 1 on")
    return count


def given_words(words: Optional[Sequence[str]]) -> argparse.Namespace:
    parser = words_of(__doc__, "package", "the package")
    parser.add_argument("--ldv", metavar="PROGRAM",
                        help="replay it under other seeds by this program, such as ./ldv")
    parser.add_argument("--seeds", metavar="N", type=seed_count, default=None,
                        help=f"with --ldv: how many seeds, from 0 on (default: {SEEDS})")
    parser.add_argument("--all", action="store_true", help="show all paths, processes and seeds")
    given = parser.parse_args(words)
    if given.seeds is not None and not given.ldv:
        parser.error("--seeds goes with --ldv")
    return given


def work(given: argparse.Namespace) -> int:
    data = read_input(given.package)
    package = read_any(data)
    if isinstance(package, Joined):
        raise Refused("a joined package has rows, and isn't replayed under other seeds")
    limit = sys.maxsize if given.all else SHOWN
    lines = list(sharing_lines(package, limit))
    if lines:
        write_out("".join(line + "\n" for line in ["not private", *lines]))
        return 1
    write_out(private_line(package) + "\n")
    if not given.ldv:
        return 0
    status = 0
    trial = Trial(given.ldv, data, package.steps)
    for line, is_good in trial_lines(trial, given.seeds or SEEDS, limit, Progress(program_name())):
        write_out(line + "\n")
        status = status if is_good else 1
    return status


def main(words: Optional[Sequence[str]] = None) -> int:
    given = given_words(words)
    try:
        return work(given)
    except Malformed as fault:
        print(f"{program_name()}: no package: {fault}", file=sys.stderr)
    except (Misused, Refused) as fault:
        print(f"{program_name()}: {fault}", file=sys.stderr)
    except OSError as fault:
        print(f"{program_name()}: {said(fault)}", file=sys.stderr)
    return 2


if __name__ == "__main__":
    sys.exit(main())
