"""The two texts of an archive for who gets it: README.txt, and replay.sh, which checks and replays it."""
from __future__ import annotations

import textwrap
from typing import List, NamedTuple, Optional, Sequence, Tuple

from .bundle_parts import METADATA, OUTCOME, PACKAGE, PROGRAM, REPLAY, SUMS, Part
from .packages import Package
from .ro_crate import Description
from .values import counted, escaped

COLUMNS = 78


class Recorded(NamedTuple):
    """What the texts say of a package. `runs` has the number of each run, 0 where there is one, and its
    package; `verdict` is what `audit` says of it."""

    runs: Sequence[Tuple[int, Package]]
    verdict: Optional[str]
    has_program: bool
    version: str
    libc: Optional[str]

    @property
    def first(self) -> Package:
        return self.runs[0][1]


def prefix_of(run: int) -> str:
    """The folder of what a run left."""
    return f"run-{run}/" if run else ""


def replay_words(run: int, package: Package) -> List[str]:
    """The words by which the program replays a run."""
    return ["replay", *(["--run", str(run)] if run else []), "--steps", str(max(package.steps, 1))]


# ---- replay.sh

SCRIPT = """#!/bin/sh
# Checks that the files of this folder are as they were made, replays what was recorded, and compares the
# outcome with the recorded one, byte by byte.
#
#     sh replay.sh [PROGRAM]
#
# PROGRAM is the ldv that replays: by default {default}.
# Statuses: 0 the same bytes; 1 a file was changed, or there are other bytes; 2 it can't be tried here.
PATH=${{PATH:-/usr/local/bin:/usr/bin:/bin}}
LC_ALL=C
export PATH LC_ALL
program=${{1:-{program}}}
given=${{1:+yes}}
case $program in
    /*) ;;
    */*) [ -z "$given" ] || program=$(pwd)/$program ;;
esac
case $0 in
    */*) cd -- "${{0%/*}}" || exit 2 ;;
esac
if ! command -v sha256sum >/dev/null; then
    echo "replay.sh: there is no sha256sum here" >&2
    exit 2
fi

changed=0
count=0
tell() {{
    echo "replay.sh: $1" >&2
    changed=$((changed + 1))
}}
# A file whose own sum stands in {metadata} is as it was made, and then {sums} isn't.
while IFS= read -r line || [ -n "$line" ]; do
    name=${{line#*  }}
    count=$((count + 1))
    if ! [ -f "$name" ]; then
        tell "$name isn't there, which {sums} names"
        continue
    fi
    sum=$(sha256sum <"$name")
    sum=${{sum%% *}}
    if [ "$sum  $name" != "$line" ]; then
        if grep -qF "\\"$sum\\"" {metadata}; then
            tell "{sums} was changed: it has another sum for $name"
        elif [ "$name" = {metadata} ]; then
            tell "$name was changed, or {sums} was"
        else
            tell "$name was changed"
        fi
    fi
done <{sums}
if [ "$changed" -ne 0 ]; then
    exit 1
fi
echo "all $count files are as they were made"

{prepare}
# same OUTCOME WORDS..: whether the program writes this outcome.
same() {{
    outcome=$1
    shift
    if [ "$("$program" "$@" <{package} | sha256sum)" != "$(sha256sum <"$outcome")" ]; then
        echo "replay.sh: other bytes than in $outcome" >&2
        exit 1
    fi
    echo "$outcome is replayed"
}}
{runs}
echo "the same bytes"
"""

PREPARE = """if [ -z "$given" ] && ! [ -x {program} ] && ! chmod +x {program}; then
    echo "replay.sh: {program} can't be made a program here: copy this folder" >&2
    exit 2
fi
"""
FOUND = """if ! command -v "$program" >/dev/null; then
    echo "replay.sh: there is no $program here: sh replay.sh PROGRAM says where it is" >&2
    exit 2
fi
"""


def replay_script(recorded: Recorded) -> bytes:
    runs = [f"same {prefix_of(run)}{OUTCOME} {' '.join(replay_words(run, package))}"
            for run, package in recorded.runs]
    here = recorded.has_program
    return SCRIPT.format(
        default="the one of this folder" if here else "the one on the path",
        program=f"./{PROGRAM}" if here else "ldv", metadata=METADATA, sums=SUMS, package=PACKAGE,
        prepare=PREPARE.format(program=PROGRAM) if here else FOUND, runs="\n".join(runs)).encode()


# ---- README.txt

def folded(text: str, begin: str = "", after: str = "", most: int = 60) -> List[str]:
    """A text in lines, cut off after so many."""
    lines = textwrap.wrap(escaped(text), COLUMNS, initial_indent=begin, subsequent_indent=after or begin,
                          max_lines=most, placeholder=" ..")
    return lines or [begin]


def recorded_text(recorded: Recorded) -> str:
    """What a package has beside its scripts and files."""
    if recorded.first.mode == "excluded":
        asked = sum(len(log.entries) for log in recorded.first.logs)
        return f"the recorded {'reply' if asked == 1 else 'replies'} to {counted(asked, 'statement')}"
    rows = [sum(len(table.rows) for table in package.tables) for _, package in recorded.runs]
    if len(rows) == 1:
        return f"the {counted(rows[0], 'row')} that it needed" if rows[0] else "no row, since it needed none"
    return f"the rows that they needed, {rows[0]:,} of run 1 and {rows[1]:,} of run 2"


def title_lines(description: Description) -> List[str]:
    lines = folded(description.title, most=2)
    names = "; ".join(each.name + (f" ({each.orcid})" if each.orcid else "")
                      for each in description.authors)
    return [*lines, "=" * max(map(len, lines)), *(folded(names, most=4) if names else []), description.date,
            *folded(f"Licence: {description.licence.name}", most=3)]


def what_lines(recorded: Recorded, description: Description) -> List[str]:
    runs, they, again = (("the scripts of two runs", "they", "them") if len(recorded.runs) > 1
                         else ("the script of a run", "it", "it"))
    return [*folded(description.told, most=8), "",
            *folded(f"{PACKAGE} has {runs} over a database, the files that {they} read, and "
                    f"{recorded_text(recorded)}. The program `ldv` runs {again} again without the database, "
                    "and writes the same outcome, byte by byte.")]


def command_lines(recorded: Recorded) -> List[str]:
    libc = f" with glibc {recorded.libc} or later" if recorded.libc else ""
    need = (f"On Linux on x86-64{libc}:" if recorded.has_program else
            f"On Linux, with the program ldv, version {recorded.version}, which isn't in here, on the path:")
    return [*folded(need), "", "    unzip NAME.zip -d NAME", "    sh NAME/replay.sh", "",
            *folded("It compares the files with their sums, replays, and compares the outcome with the "
                    "recorded one. Its last line is then: the same bytes")]


def proved_lines(recorded: Recorded) -> List[str]:
    verdict = f" `ldv audit` says of this one: {recorded.verdict}." if recorded.verdict else ""
    if recorded.verdict == "sound":
        verdict = " `ldv audit` found that this one is, byte by byte, the package of its own run."
    return folded("Proved, by machine, of the program's own code: whatever `ldv record` packed, `ldv replay` "
                  f"writes exactly what the run wrote.{verdict}") + folded(
        "Not proved: that the data is true, or who made this; that the file ldv is the program whose code "
        "was proved (build it, or compare its sum with that of a release); and what other tools made of the "
        "outcome: tables, page, provenance and picture.")


def gives_lines(recorded: Recorded) -> List[str]:
    if recorded.first.mode == "excluded":
        what = ("the scripts and files, each statement with its reply, the names of the tables that were "
                "asked, and the numbers of the rows that each statement needed")
    else:
        what = ("the scripts and files, the needed rows with all their columns and their numbers, which "
                "statement needed which, the names of their tables, and how many rows each table has had")
    return folded(f"It isn't secret. Whoever has it can read {what}.")


TOLD = (
    (OUTCOME, "what the run left, as ldv writes it"), ("outcome.txt", "the same for people"),
    ("tables/", "each reply as CSV: 0-1.csv is the first of process 0"),
    ("files/", "the files that the run wrote"), ("page.html", "all of it, for a browser with JavaScript"),
    ("provenance.json", "what came from what, as PROV-JSON"), ("provenance.provn", "the same as PROV-N"),
    ("picture.svg", "who read and wrote what, and when"))


def file_lines(recorded: Recorded, parts: Sequence[Part]) -> List[str]:
    """A line for each file or folder that is there."""
    own = [(PACKAGE, "the package"), (PROGRAM, f"the program, version {recorded.version}"),
           (REPLAY, "checks and replays"), (SUMS, "the sums of the files"),
           (METADATA, "a description for machines (RO-Crate 1.1)")]
    paths = [part.path for part in parts] + [REPLAY, SUMS, METADATA]
    shown = [(name, told) for name, told in own if name in paths]
    shown += [(name, told) for name, told in TOLD
              if any(path.startswith(prefix_of(run) + name) for path in paths for run, _ in recorded.runs)]
    more = ["  in run-1 and run-2, of each run:"] if len(recorded.runs) > 1 else []
    lines = [f"  {name:<24}{told}" for name, told in shown]
    count = len(shown) - sum(name in (each for each, _ in TOLD) for name, _ in shown)
    return ["Files:", *lines[:count], *more, *lines[count:]]


def readme(recorded: Recorded, description: Description, parts: Sequence[Part]) -> bytes:
    """The text for somebody who has never heard of `ldv`. It has at most 60 lines."""
    sections = [title_lines(description), what_lines(recorded, description), command_lines(recorded),
                proved_lines(recorded), gives_lines(recorded), file_lines(recorded, parts)]
    return "\n\n".join("\n".join(section) for section in sections).encode() + b"\n"
