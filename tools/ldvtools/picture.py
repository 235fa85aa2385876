"""Draws the trace of a package: which process read and wrote what, and when.

    ./ldv inspect trace < world.package | tools/picture.py > world.dot
    tools/picture.py --svg world.svg trace.txt            an image, by the program dot of Graphviz
    tools/picture.py --depends FILE ..                    marks what an output came from: FILE has what
                                                          `inspect depends PATH` writes
    tools/picture.py --rows FILE ..                       the packaged rows too, each at the statement that
                                                          needed it first: FILE has what `inspect rows` writes
    tools/picture.py --limit N ..                         a picture of at most N arrows (default 200)

Paths are drawn as ovals, processes as boxes, statements with their replies as boxes with round corners, rows
as notes. An arrow goes from what was read to what read it, with the step, or the first and the last one, at
which something went along it. docs/FORMATS.md has the events. The trace doesn't say which versions a
statement made, so arrows between changes of a row aren't drawn.

Statuses: 0 drawn; 1 an input doesn't have this form, the trace has more arrows than the limit, a file can't
be read or written, or dot isn't installed or fails; 2 wrong words.
"""
from __future__ import annotations

import argparse
import re
import shutil
import subprocess
import sys
from typing import Dict, Iterable, List, Optional, Sequence, Set, Tuple

from .errors import Malformed, Refused, command, words_of
from .language import ACT_NAMED, RULES
from .outcome import read_input, write_out

LIMIT = 200
# No number of a report has more digits than 64 bits have.
NUMBER = re.compile(r"0|[1-9][0-9]{0,19}")
NAME = re.compile(r"0(\.(0|[1-9]\d*))*")
ASKED = re.compile(r"([0-9]{1,20}) tables (\d+) reads (\d+) made (\d+)")
Node = Tuple[str, str]


class TooMany(Refused):
    """More arrows than the limit."""


class Picture:
    """Nodes and arrows in the order in which they came up, no more arrows than a limit.
    A node is its kind and name."""

    def __init__(self, limit: int) -> None:
        # Node -> the lines of its label. Arrow -> its first and its last step.
        self.nodes: Dict[Node, List[str]] = {}
        self.arrows: Dict[Tuple[Node, Node], Tuple[int, int]] = {}
        self.limit = limit

    def node(self, kind: str, name: str) -> Node:
        self.nodes.setdefault((kind, name), [f"{kind} {name}" if kind != "path" else name])
        return kind, name

    def add_line(self, node: Node, line: str) -> None:
        self.nodes[node].append(line)

    def arrow(self, source: Node, target: Node, step: int) -> None:
        first, last = self.arrows.get((source, target), (step, step))
        self.arrows[source, target] = min(first, step), max(last, step)
        if len(self.arrows) > self.limit:
            raise TooMany(f"the picture would have more than {self.limit} arrows; --limit N takes N")


# ---- the reports

def lines_of(text: str, report: str) -> List[Tuple[str, str]]:
    """The lines of a report, each with what names it in a message."""
    if text and not text.endswith("\n"):
        raise Malformed(f"{report}: the last line doesn't end")
    return [(f"{report}, line {number}", line) for number, line in enumerate(text.split("\n")[:-1], 1)]


def number_in(word: str, where: str) -> int:
    if not NUMBER.fullmatch(word):
        raise Malformed(f"{where}: {word!r} is no number")
    return int(word)


class Trace:
    """Events, line by line, as a picture."""

    def __init__(self, limit: int) -> None:
        self.picture, self.step = Picture(limit), 0
        self.children: Dict[str, int] = {"0": 0}
        self.statements: Dict[str, int] = {}

    def process(self, name: str, where: str) -> Node:
        if not NAME.fullmatch(name) or name not in self.children:
            raise Malformed(f"{where}: there is no process {name}")
        return self.picture.node("process", name)

    def add(self, line: str, where: str) -> None:
        word, name, act, fields = (line.split(" ", 3) + ["", "", ""])[:4]
        step = number_in(word, where)
        if act not in ACT_NAMED or step < self.step:
            raise Malformed(f"{where}: no event: {line!r}")
        self.step = step
        process = self.process(name, where)
        if act == "ended":
            self.picture.add_line(process, f"ended with {number_in(fields, where)}")
        elif act == "waited":
            self.picture.arrow(self.process(fields, where), process, step)
        elif act == "asked":
            self.add_statement(process, step, fields, where)
        else:
            self.add_path(process, step, act, fields, where)

    def add_path(self, process: Node, step: int, act: str, fields: str, where: str) -> None:
        if ACT_NAMED[act].has_flag:
            flag, _, fields = fields.partition(" ")
            if flag not in ("found", "absent"):
                raise Malformed(f"{where}: {act} has no flag")
        if not fields:
            raise Malformed(f"{where}: {act} has no path")
        path = self.picture.node("path", fields)
        if ACT_NAMED[act].looks:
            self.picture.arrow(path, process, step)
        if ACT_NAMED[act].changes:
            self.picture.arrow(process, path, step)
        if act == "spawned":
            child = self.picture.node("process", f"{process[1]}.{self.children[process[1]]}")
            self.children[process[1]] += 1
            self.children[child[1]] = 0
            self.picture.arrow(path, child, step)
            self.picture.arrow(process, child, step)

    def add_statement(self, process: Node, step: int, fields: str, where: str) -> None:
        found = ASKED.fullmatch(fields)
        if not found or int(found[1]) != len(self.statements):
            raise Malformed(f"{where}: no statement: {fields!r}")
        statement = self.picture.node("statement", found[1])
        self.statements[found[1]] = step
        self.picture.add_line(statement, f"needs {found[3]}, makes {found[4]}")
        self.picture.arrow(process, statement, step)
        self.picture.arrow(statement, process, step)


def read_trace(text: str, limit: int) -> Trace:
    trace = Trace(limit)
    lines = lines_of(text, "trace")
    if not lines:
        raise Malformed("trace: it has no event")
    for where, line in lines:
        try:
            trace.add(line, where)
        except TooMany as fault:
            raise TooMany(f"{where}: {fault}") from None
    return trace


def add_rows(trace: Trace, text: str) -> Dict[Tuple[str, str], Node]:
    """Groups of rows, by the statement that needed them first and by table. Gives the group of each row."""
    groups: Dict[Tuple[str, str], Node] = {}
    for where, line in lines_of(text, "rows"):
        words = line.split(" ")
        if len(words) != 4 or words[2] not in trace.statements or words[3] not in RULES.values():
            raise Malformed(f"{where}: no row that a statement of the trace needed: {line!r}")
        number_in(words[1], where)
        group = trace.picture.node("rows", f"of {words[0]} for {words[2]}")
        if (words[0], words[1]) in groups:
            raise Malformed(f"{where}: the row is there twice")
        groups[words[0], words[1]] = group
        trace.picture.nodes[group][0] = words[0]
        trace.picture.add_line(group, f"row {words[1]}, rule {words[3]}")
        trace.picture.arrow(group, ("statement", words[2]), trace.statements[words[2]])
    return groups


def marked(trace: Trace, groups: Dict[Tuple[str, str], Node], text: str) -> Set[Node]:
    """The nodes that `inspect depends` names. Rows that aren't drawn are left out."""
    found: Set[Node] = set()
    for where, line in lines_of(text, "depends"):
        kind, _, rest = line.partition(" ")
        words = rest.split(" ")
        if kind == "row" and len(words) == 3:
            if (words[0], words[1]) in groups:
                found.add(groups[words[0], words[1]])
            continue
        node = ("statement" if kind in ("ask", "reply") else kind, rest)
        if kind not in ("path", "process", "ask", "reply") or node not in trace.picture.nodes:
            raise Malformed(f"{where}: the trace has no {line!r}")
        found.add(node)
    return found


# ---- the graph for dot

SHAPES = {"path": "ellipse", "process": "box", "statement": 'box, style="rounded"', "rows": "note"}
MARKED = {"path": "filled", "process": "filled", "statement": "rounded,filled", "rows": "filled"}


def quoted(lines: Iterable[str]) -> str:
    """Lines of a label, each shown as it is.
    In the language of dot a backslash begins an escape, `&` an entity."""
    return '"' + "\\n".join(line.replace("\\", "\\\\").replace('"', '\\"').replace("&", "&amp;")
                            for line in lines) + '"'


def dot_text(picture: Picture, found: Set[Node]) -> str:
    """The graph. Nodes are n0, n1 and so on: a name can't have each character there, and a label can."""
    lines = ["digraph trace {", "  rankdir=LR;", '  node [fontname="Helvetica", fontsize=11];',
             '  edge [fontname="Helvetica", fontsize=9, arrowsize=0.7];']
    names = {node: f"n{place}" for place, node in enumerate(picture.nodes)}
    for node, texts in picture.nodes.items():
        shape = SHAPES[node[0]]
        if node in found:
            shape = shape.split(",")[0] + f', style="{MARKED[node[0]]}", fillcolor="#cfe8cf"'
        lines.append(f"  {names[node]} [shape={shape}, label={quoted(texts)}];")
    for (source, target), (first, last) in picture.arrows.items():
        steps = f"{first}" if first == last else f"{first} to {last}"
        lines.append(f'  {names[source]} -> {names[target]} [label="{steps}"];')
    return "\n".join(lines + ["}"]) + "\n"


def write_svg(text: str, path: str, program: str) -> None:
    """By the program dot."""
    if shutil.which(program) is None:
        raise Refused(f"{program} isn't installed: it is in the package graphviz. Without --svg the graph "
                      "is written "
                      "for it")
    done = subprocess.run([program, "-Tsvg"], input=text.encode(), stdout=subprocess.PIPE,
                          stderr=subprocess.PIPE, check=False)
    if done.returncode != 0:
        raise Refused(f"{program} ended with {done.returncode}: "
                      f"{done.stderr.decode(errors='replace').strip()}")
    with open(path, "wb") as file:
        file.write(done.stdout)


def add_image_words(parser: argparse.ArgumentParser, begin: str = "") -> None:
    """The words of a command that writes a graph. `begin` says with which other word they go."""
    parser.add_argument("--svg", metavar="FILE", help=f"{begin}write an image to this file, and no graph")
    parser.add_argument("--dot", metavar="PROGRAM", default="dot",
                        help="the program that makes it (default dot)")
    parser.add_argument("--limit", type=int, metavar="N", default=LIMIT,
                        help=f"of arrows of a picture (default {LIMIT})")


def write_graph(text: str, given: argparse.Namespace) -> int:
    """Writes a graph, or the image of it where --svg was given. Gives the status of the command."""
    if given.svg:
        write_svg(text, given.svg, given.dot)
    else:
        write_out(text)
    return 0


# ---- the command

def drawn(trace_text: str, rows_text: Optional[str], depends_text: Optional[str], limit: int) -> str:
    """The graph for dot, of the texts of the reports. The last two may be None."""
    trace = read_trace(trace_text, limit)
    groups = add_rows(trace, rows_text) if rows_text is not None else {}
    found = marked(trace, groups, depends_text) if depends_text is not None else set()
    return dot_text(trace.picture, found)


def read(path: Optional[str]) -> str:
    try:
        return read_input(path).decode()
    except UnicodeDecodeError:
        raise Malformed(f"{path or 'standard input'} isn't UTF-8") from None


def given_words(words: Optional[Sequence[str]]) -> argparse.Namespace:
    parser = words_of(__doc__, "trace", "what `inspect trace` wrote")
    parser.add_argument("--rows", metavar="FILE", help="what `inspect rows` wrote")
    parser.add_argument("--depends", metavar="FILE", help="what `inspect depends PATH` wrote")
    add_image_words(parser)
    return parser.parse_args(words)


def work(words: Optional[Sequence[str]]) -> int:
    given = given_words(words)
    rows, depends = (read(path) if path else None for path in (given.rows, given.depends))
    return write_graph(drawn(read(given.trace), rows, depends, given.limit), given)


def main(words: Optional[Sequence[str]] = None) -> int:
    return command(work, words, "report")


if __name__ == "__main__":
    sys.exit(main())
