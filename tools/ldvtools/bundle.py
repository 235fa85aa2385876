"""Makes an archive of a package that replays by itself: for a deposit, a supplement, or a reader without ldv.

    tools/bundle.py world.package -o world.zip
    tools/bundle.py world.package -o world.zip --title "Cold days" --licence CC-BY-4.0 \\
        --author "Ada Lovelace=0000-0002-1825-0097" --author "Bo Ek" --date 2026-11-30
    tools/bundle.py --without-program world.package -o ..      for a reader who has ldv
    tools/bundle.py --world world.json world.package -o ..     says what the world takes beside it
    tools/bundle.py --ldv PROGRAM ..                           the program (default: ./ldv of the checkout, or
                                                               the one that was installed with this tool)

The archive has the package, the program, README.txt for somebody who has never heard of ldv, and replay.sh,
which compares each file with its sum, replays, and compares the outcome with the recorded one. Beside them
stand what the run left: the outcome as the program writes it and as a text, each reply as CSV, and the files
that the run wrote; a page, the provenance document as PROV-JSON and PROV-N, and a picture of the trace where
dot is installed and the picture has at most 200 arrows. Of a joined package it has all that for both runs.
ro-crate-metadata.json describes it for machines, after RO-Crate 1.1.

--licence takes an identifier of SPDX such as CC-BY-4.0, an address, or a text. The date is that of --date, of
the variable SOURCE_DATE_EPOCH, or of today. The same package, program, words and date give the same bytes. It
has all of the package in it, and is as secret as that.

Statuses: 0 made; 1 the input is no package, the program can't be run or refuses it, the archive is there
already, or a file can't be read or written; 2 wrong words.
"""
from __future__ import annotations

import argparse
import contextlib
import datetime
import hashlib
import io
import os
import re
import shutil
import sys
import tempfile
import zipfile
from typing import Callable, List, NamedTuple, Optional, Sequence, Tuple, Union

from . import __version__, outcome, page, picture, prov
from .bundle_parts import (
    BINARY,
    METADATA,
    OUTCOME,
    PACKAGE,
    PROGRAM,
    README,
    REPLAY,
    SUMS,
    TEXT,
    Part,
    in_order,
    media_of,
    places_of,
    sum_lines,
    sums_size,
)
from .bundle_texts import Recorded, prefix_of, readme, replay_script, replay_words
from .errors import Malformed, Misused, Refused, command, program_name, words_of
from .outcome import read_input
from .outcomes import read_outcome
from .packages import Joined, Package, read_any
from .program import answer_of, least_libc
from .prov import NAMESPACE
from .provenance import document_text, provenance_of
from .ro_crate import Description, Entity, Instrument, author_of, licence_of, metadata
from .trace import event_line
from .values import counted

# Of a trace with more events no picture is tried.
MAX_DRAWN = 20_000
# The dates that an entry of an archive may have.
FIRST_DAY, LAST_DAY = datetime.date(1980, 1, 1), datetime.date(2107, 12, 31)


# ---- the program

def default_program() -> str:
    """The script ./ldv above the tools, the program beside the installed ones, or that of the path."""
    here = os.path.dirname(os.path.abspath(sys.argv[0]))
    for path in (os.path.join(here, "ldv"), os.path.join(os.path.dirname(here), "ldv")):
        if os.path.isfile(path) and os.access(path, os.X_OK):
            return path
    found = shutil.which("ldv")
    if found is None:
        raise Refused("there is no ldv here; --ldv PROGRAM says where it is")
    return found


def compiled(program: str) -> str:
    """The program that the script ./ldv of a checkout runs, where it is built of the sources of now; another
    program is itself."""
    program = shutil.which(program) or program
    crate = os.path.join(os.path.dirname(os.path.realpath(program)), "crates/ldv")
    with open(program, "rb") as file:
        is_script = file.read(2) == b"#!"
    if not is_script or not os.path.isdir(os.path.join(crate, "src")):
        return program
    said = answer_of(program, ["--version"], b"")[1].decode()
    path, due = os.path.join(crate, "out/ldv"), re.search(r"(?m)^program ([0-9a-f]{64})$", said)
    if due is None or not os.path.exists(path) or hashlib.sha256(read_input(path)).hexdigest() != due[1]:
        raise Refused(f"{program} isn't built of these sources; any command of it builds it, and --ldv "
                      "PROGRAM names another one")
    return path


def answered(program: str, words: Sequence[str], data: bytes) -> bytes:
    """What the program writes; refused where it doesn't succeed."""
    status, output, error = answer_of(program, words, data)
    if status != 0:
        raise Refused(f"{program} {' '.join(words)} ends with {status}: {error}")
    return output


# ---- what a run left

class Source(NamedTuple):
    """A package, the program that replays it, and a folder for files that tools read and write."""

    data: bytes
    program: str
    folder: str

    def put(self, name: str, data: bytes) -> str:
        path = os.path.join(self.folder, name)
        with open(path, "wb") as file:
            file.write(data)
        return path


def written(work: Callable[[Optional[Sequence[str]]], int], words: Sequence[str]) -> bytes:
    """What another tool writes to standard output. What it says on standard error is said by this one."""
    raw, told = io.BytesIO(), io.StringIO()
    out = io.TextIOWrapper(raw, "utf-8")
    with contextlib.redirect_stdout(out), contextlib.redirect_stderr(told):
        work(words)
    out.flush()
    for line in told.getvalue().splitlines():
        print(f"{program_name()}: {line.partition(': ')[2] or line}", file=sys.stderr)
    return raw.getvalue()


def outcome_parts(source: Source, run: int, package: Package) -> List[Part]:
    """The outcome, the same as a text, its replies as CSV, and the files that the run wrote."""
    prefix = prefix_of(run)
    data = answered(source.program, replay_words(run, package), source.data)
    try:
        left = read_outcome(data)
    except Malformed as fault:
        raise Refused(f"what {source.program} replays is no outcome: {fault}") from None
    path, folder = source.put(f"outcome{run}", data), os.path.join(source.folder, f"tables{run}")
    words = ["--package", os.path.join(source.folder, PACKAGE), *which(run), path]
    text = written(outcome.work, words)
    written(outcome.work, ["--folder", folder, *words])
    parts = [Part(prefix + OUTCOME, data, "the outcome, as ldv writes it", BINARY, run),
             Part(prefix + "outcome.txt", text, "the outcome for people", TEXT, run)]
    for name in sorted(os.listdir(folder)):
        process, _, number = name[:-len(".csv")].rpartition("-")
        parts.append(Part(f"{prefix}tables/{name}", read_input(os.path.join(folder, name)),
                          f"reply {number} of process {process}", "text/csv", run))
    wrote = {path: content for path, content in left.touched if content is not None}
    places = places_of(list(wrote))
    return parts + [Part(f"{prefix}files/{places[path]}", content, f"the file {path} that the run wrote",
                         media_of(path, content), run) for path, content in wrote.items()]


def which(run: int) -> List[str]:
    return ["--run", str(run)] if run else []


def page_part(source: Source, run: int, title: str, verdict: Optional[str]) -> Part:
    target = os.path.join(source.folder, f"page{run}.html")
    words = [os.path.join(source.folder, PACKAGE), *which(run), "--name", title, "-o", target,
             "--replayed", os.path.join(source.folder, f"outcome{run}")]
    if verdict is not None:
        words += ["--audit", source.put("audit", verdict.encode() + b"\n")]
    written(page.work, words)
    return Part(prefix_of(run) + "page.html", read_input(target), "the package as a page", "text/html", run)


def provenance_parts(source: Source, run: int, package: Package, digest: str) -> List[Part]:
    """By the program; of a run of a joined package, which `ldv prov` doesn't read, by this tool, with
    processes by their numbers."""
    data = (document_text(provenance_of(package)).encode() if run
            else answered(source.program, ["prov"], source.data))
    words = ["--namespace", f"{NAMESPACE}{digest}:{str(run) + ':' if run else ''}",
             *([] if run else ["--names", os.path.join(source.folder, PACKAGE)]),
             source.put(f"provenance{run}", data)]
    prefix = prefix_of(run)
    return [Part(prefix + "provenance.json", written(prov.work, words),
                 "what came from what, as PROV-JSON", "application/json", run),
            Part(prefix + "provenance.provn", written(prov.work, ["--provn", *words]),
                 "what came from what, as PROV-N", "text/provenance-notation", run)]


def picture_of(source: Source, package: Package) -> bytes:
    """The trace as an image; refused where dot isn't installed or the picture would be too large."""
    if package.event_count() > MAX_DRAWN:
        raise Refused(f"the trace has more than {counted(MAX_DRAWN, 'event')}")
    names = package.process_names()
    trace = "".join(event_line(event, names) + "\n" for event in package.events)
    rows = "".join(f"{table.name} {row.number} {row.statement} {row.rule}\n"
                   for table in package.tables for row in table.rows)
    path = os.path.join(source.folder, "picture.svg")
    picture.write_svg(picture.drawn(trace, rows, None, picture.LIMIT), path, "dot")
    return read_input(path)


def run_parts(source: Source, run: int, package: Package, title: str, verdict: Optional[str],
              digest: str) -> List[Part]:
    """All that is made of a run."""
    parts = outcome_parts(source, run, package)
    parts.append(page_part(source, run, title, verdict))
    parts += provenance_parts(source, run, package, digest)
    try:
        parts.append(Part(prefix_of(run) + "picture.svg", picture_of(source, package),
                          "the trace as a picture", "image/svg+xml", run))
    except Refused as fault:
        print(f"{program_name()}: no picture: {fault}", file=sys.stderr)
    return parts


# ---- the archive

def verdict_of(source: Source, run: int, package: Package) -> Optional[str]:
    """What `audit` says of a package with rows; it reads no joined one."""
    if package.mode == "excluded" or run:
        return None
    said = answered(source.program, ["audit", *replay_words(run, package)[1:]], source.data)
    return page.verdict_in(said, f"the answer of {source.program} audit")


def all_parts(source: Source, given: argparse.Namespace, description: Description) -> List[Part]:
    """The files of the archive, in their order."""
    found = read_any(source.data)
    runs = runs_of(found)
    verdict = verdict_of(source, *runs[0])
    source.put(PACKAGE, source.data)
    parts = [Part(PACKAGE, source.data, "the package", BINARY)]
    for run, package in runs:
        parts += run_parts(source, run, package, description.title, verdict, found.digest)
    binary = read_input(source.program)
    if not given.without_program:
        parts.append(Part(PROGRAM, binary, f"the program ldv, version {__version__}",
                          "application/x-executable"))
    recorded = Recorded(runs, verdict, not given.without_program, __version__, least_libc(binary))
    parts.append(Part(REPLAY, replay_script(recorded), "checks the files and replays the package",
                      "application/x-sh"))
    parts.append(Part(README, readme(recorded, description, parts), "what this is", TEXT))
    digest = hashlib.sha256(binary).hexdigest()
    return with_sums(in_order(parts), description, Instrument(__version__, digest))


def runs_of(found: Union[Package, Joined]) -> List[Tuple[int, Package]]:
    """The runs of a package, each with its number: 0 where it isn't a joined one."""
    return [(run, found.run(run)) for run in (1, 2)] if isinstance(found, Joined) else [(0, found)]


def with_sums(parts: List[Part], description: Description, instrument: Instrument) -> List[Part]:
    """The parts with the description and the sums. The description has no sum of the file of sums, which has
    one of the description."""
    size = sums_size([*(part.path for part in parts), METADATA])
    sums: Entity = {"@id": SUMS, "@type": "File", "name": SUMS, "encodingFormat": TEXT,
                    "contentSize": str(size), "description": "the sums of the other files, for sha256sum"}
    whole = [*parts, Part(METADATA, metadata(description, parts, sums, instrument), "", "")]
    return in_order([*whole, Part(SUMS, sum_lines(whole), "", TEXT)])


def entry_of(part: Part, date: datetime.date) -> zipfile.ZipInfo:
    """The same for each system and user: the date is that of the archive, as far as the format has it."""
    day = min(max(date, FIRST_DAY), LAST_DAY)
    entry = zipfile.ZipInfo(part.path, (day.year, day.month, day.day, 0, 0, 0))
    entry.create_system = 3
    entry.external_attr = (0o100755 if part.may_run else 0o100644) << 16
    entry.compress_type = zipfile.ZIP_DEFLATED
    return entry


def check_output(path: str) -> None:
    """Refuses a name that is there already, or a folder in which nothing can be written."""
    folder = os.path.dirname(path) or "."
    if os.path.lexists(path):
        raise Refused(f"{path} is there already")
    if not os.path.isdir(folder):
        raise Refused(f"{path}: there is no folder {folder}")
    if not os.access(folder, os.W_OK | os.X_OK):
        raise Refused(f"{path}: nothing can be written in {folder}")


def write_archive(parts: Sequence[Part], date: datetime.date, path: str) -> None:
    """Writes a file that isn't there yet, whole or not at all."""
    new = ""
    try:
        handle, new = tempfile.mkstemp(dir=os.path.dirname(path) or ".", prefix=os.path.basename(path)[:200])
        with os.fdopen(handle, "wb") as file, zipfile.ZipFile(file, "w") as archive:
            for part in parts:
                archive.writestr(entry_of(part, date), part.data, compresslevel=9)
        mask = os.umask(0)
        os.umask(mask)
        os.chmod(new, 0o666 & ~mask)
        place_archive(new, path)
    except FileExistsError:
        raise Refused(f"{path} is there already") from None
    except OSError as fault:
        raise Refused(f"{path}: {fault.strerror}") from None
    finally:
        if os.path.exists(new):
            os.remove(new)


def place_archive(new: str, path: str) -> None:
    """Gives a file its name, which no other file may have by now."""
    try:
        os.link(new, path)
    except FileExistsError:
        raise
    except OSError:
        # A file system without links.
        os.close(os.open(path, os.O_CREAT | os.O_EXCL))
        os.replace(new, path)


# ---- the command

def given_words(words: Optional[Sequence[str]]) -> argparse.Namespace:
    parser = words_of(__doc__, "package", "the package")
    parser.add_argument("-o", "--output", metavar="FILE", required=True,
                        help="the archive, which isn't there yet")
    parser.add_argument("--title", help="what it is called (default: the name of the package)")
    parser.add_argument("--author", metavar="NAME[=ORCID]", action="append", default=[],
                        help="who made it; may be given several times")
    parser.add_argument("--licence", "--license", metavar="LICENCE", help="what may be done with it")
    parser.add_argument("--description", metavar="TEXT", help="what it is about")
    parser.add_argument("--date", metavar="YYYY-MM-DD", help="when it was made public (default: today)")
    parser.add_argument("--without-program", action="store_true", help="leave the program out")
    parser.add_argument("--world", metavar="FILE", help="the world that was recorded, for its size")
    parser.add_argument("--ldv", metavar="PROGRAM", help="the program that replays the package")
    return parser.parse_args(words)


def date_of(word: Optional[str]) -> datetime.date:
    if word is None:
        epoch = os.environ.get("SOURCE_DATE_EPOCH", "")
        now = datetime.datetime.now(datetime.timezone.utc)
        return (datetime.datetime.fromtimestamp(int(epoch), datetime.timezone.utc)
                if re.fullmatch("[0-9]{1,10}", epoch) else now).date()
    try:
        return datetime.datetime.strptime(word, "%Y-%m-%d").date()
    except ValueError:
        raise Misused(f"--date {word}: give a day as YYYY-MM-DD") from None


def description_of(given: argparse.Namespace, date: datetime.date) -> Description:
    authors = [author_of(word) for word in given.author]
    codes = [author.orcid for author in authors if author.orcid]
    if len(set(codes)) < len(codes):
        raise Misused("--author: two of them have one ORCID iD")
    stem = os.path.splitext(os.path.basename(given.package or "a package"))[0]
    title = given.title or f"{stem}: a recorded run of a database script"
    told = given.description or "A script that asks a database, packed with what its run needed of it."
    return Description(title, told, date.isoformat(), authors, licence_of(given.licence))


def check_world(given: argparse.Namespace, source: Source, parts: Sequence[Part]) -> Optional[int]:
    """The size of the world, whose run has to have the outcome of the package."""
    if given.world is None:
        return None
    data = read_input(given.world)
    runs = runs_of(read_any(source.data))
    steps = max(package.steps for _, package in runs)
    found = answered(source.program, ["run", "--steps", str(max(steps, 1))], data)
    outcomes = [prefix_of(run) + OUTCOME for run, _ in runs]
    if all(part.data != found for part in parts if part.path in outcomes):
        raise Refused(f"{given.world}: its run has another outcome than the package")
    return len(data)


def size_lines(given: argparse.Namespace, parts: Sequence[Part], world: Optional[int]) -> List[str]:
    sizes = {part.path: len(part.data) for part in parts}
    lines = [f"{given.output}: {counted(os.path.getsize(given.output), 'byte')}, "
             f"{counted(len(parts), 'file')} of {counted(sum(sizes.values()), 'byte')} together"]
    beside = [f"the package has {counted(sizes[PACKAGE], 'byte')}"]
    beside += [f"the program {sizes[PROGRAM]:,}"] if PROGRAM in sizes else []
    beside += [f"the world {world:,}"] if world is not None else []
    return [*lines, ", ".join(beside)]


def work(words: Optional[Sequence[str]]) -> int:
    given = given_words(words)
    date = date_of(given.date)
    description = description_of(given, date)
    check_output(given.output)
    data = read_input(given.package)
    read_any(data)
    with tempfile.TemporaryDirectory() as folder:
        source = Source(data, compiled(given.ldv or default_program()), folder)
        parts = all_parts(source, given, description)
        world = check_world(given, source, parts)
        write_archive(parts, date, given.output)
    for line in size_lines(given, parts, world):
        print(line)
    return 0


def main(words: Optional[Sequence[str]] = None) -> int:
    return command(work, words, "package")


if __name__ == "__main__":
    sys.exit(main())
