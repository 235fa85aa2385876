"""Says what is wrong in the scripts and statements of a world, before it is run or after.

    tools/check.py world.json                             bad lines, and statements that will be refused
    tools/check.py --outcome world.outcome world.json     of a run: each refused statement and each misuse,
                                                          with its cause
    tools/check.py --statement "SELECT .." world.json     one statement, over the tables of the world

For a bad line it says which rule of docs/SCRIPTS.md it breaks. For a statement that the database will refuse
(docs/SQL.md) it says which word can't be read and what to write instead, or which table, column or kind
doesn't fit. It looks at the start script and at those that a script starts by a path that is written in it;
where one starts a script by a path that it computes, at all files whose name ends with .ldv or .script too. A
statement whose text is computed is judged with --outcome only, and so is one that rests on what a parameter
is. A comparison with NULL isn't refused and is never true: that is said too. With --outcome statements are
numbered over the whole run, from 0, as `inspect` of `ldv` numbers them. What can't be the outcome of this
world is refused, as far as `tools/outcome.py --help` says that it can be told.

The world is judged as `ldv` judges it (docs/FORMATS.md): the first rule that it breaks is said, with the
place. Where it says what its columns are where they were read, it is said of constants of statements that are
written in another form than the column is carried in, such as '1.2.2024' beside 2024-02-01, and what numbers
mean.

Statuses: 0 nothing found; 1 something found, or the input is no world document; 2 wrong words.
"""
from __future__ import annotations

import argparse
import sys
from typing import List, Optional, Sequence, Tuple

from .agreement import check_replies
from .errors import Malformed, Misused, command, program_name, words_of
from .findings import Finding, findings_of, unjudged
from .language import MISUSES
from .outcome import check_world, read_input
from .outcomes import Outcome, read_outcome
from .rerun import Question, rerun
from .sql import never_true
from .sql_check import UNKNOWN, Schemas, judge
from .values import cell, plain_count, reply_title
from .world_carried import carried_findings
from .world_rules import broken_rule
from .worlds import Document, read_world, tables_in

# ---- after a run

def cause_of(question: Question, schemas: Optional[Schemas]) -> Tuple[str, int]:
    """Why a statement was refused, and the place in its text."""
    reply = question.reply
    if reply is None or reply.code > 4:
        return reply_title(reply) if reply else "", 0
    found = judge(question.text, question.params, schemas).finding
    return (f"refused with code {reply.code}: {found.cause}", found.at) if found else (reply_title(reply), 0)


def run_lines(document: Document, outcome: Outcome) -> List[str]:
    """Each refused statement and each misuse of a run, with its cause."""
    check_world(document, outcome)
    schemas = document.schemas
    machine = rerun(document.world, outcome)
    check_replies(machine.questions, schemas)
    lines: List[str] = []
    for question in machine.questions:
        if question.reply is not None and question.reply.kind == "refused":
            cause, at = cause_of(question, schemas)
            lines.append(f"statement {question.statement}: process {question.process} at step "
                         f"{question.step}: {cause}")
            lines += Finding("", 0, 1, "", False, question.text, at).excerpt()
            if question.params:
                lines.append("    with " + ", ".join(cell(value) for value in question.params))
    for process in machine.processes:
        here = process.next()
        if process.status in MISUSES and process.misused and here is not None:
            lines.append(f"process {process.name}: line {here.line} of its script is "
                         f"{MISUSES[process.status or 0]}: "
                         + process.values_of(here))
    return lines


# ---- the command

def given_words(words: Optional[Sequence[str]]) -> argparse.Namespace:
    parser = words_of(__doc__, "world", "the world document")
    parser.add_argument("--outcome", metavar="FILE",
                        help="the outcome of its run: says why statements were refused")
    parser.add_argument("--raw", action="store_true",
                        help="say nothing of constants beside columns that are carried in another form")
    parser.add_argument("--statement", metavar="TEXT", help="judge this statement, and no script")
    return parser.parse_args(words)


def finding_lines(findings: Sequence[Finding]) -> List[str]:
    return [line for finding in findings for line in finding.lines()]


def statement_lines(text: str, schemas: Optional[Schemas]) -> List[str]:
    """What is wrong with one statement, whose parameters aren't known."""
    count = text.count("?")
    result = judge(text, [UNKNOWN] * count, schemas)
    found = [f"refused with code {result.finding.code}: {result.finding.cause}"] if result.finding else []
    if result.finding:
        found += Finding("", 0, 1, "", False, text, result.finding.at).excerpt()
    for at, cause in never_true(text) if not result.finding else []:
        found += [cause, *Finding("", 0, -1, "", False, text, at).excerpt()]
    return result.warnings + found


def carried_lines(document: Document, data: bytes) -> List[str]:
    """What constants of statements mean beside columns that are carried in another form than they were read
    in. What only says what a number means goes to standard error, and is no finding."""
    lines: List[str] = []
    tables = tables_in(data, document.columns)
    for finding, is_meaning in carried_findings(document.world.files, document.world.start[0], tables):
        if is_meaning:
            print(f"{program_name()}: {finding.text}", file=sys.stderr)
        else:
            lines += finding.lines()
    for note in document.columns.faults:
        print(f"{program_name()}: {note}", file=sys.stderr)
    return lines


def work(words: Optional[Sequence[str]]) -> int:
    given = given_words(words)
    if given.outcome and given.statement:
        raise Misused("give either --outcome or --statement")
    data = read_input(given.world)
    broken = broken_rule(data)
    if broken is not None and not broken.rule.startswith("bad script line"):
        raise Malformed(str(broken))
    document = read_world(data)
    world, schemas = document.world, document.schemas
    if given.statement is not None:
        lines = statement_lines(given.statement, schemas)
    elif given.outcome:
        lines = run_lines(document, read_outcome(read_input(given.outcome)))
    else:
        lines = finding_lines(findings_of(world.files, world.start[0], schemas))
        lines += [] if given.raw else carried_lines(document, data)
    for line in lines:
        print(line)
    if not lines and not given.outcome and given.statement is None:
        written, computed = unjudged(world.files, world.start[0])
        rest = f"; {plain_count(computed, 'text')} of a statement is computed" if computed else ""
        print(f"no bad line, and no refused statement among {written}{rest}", file=sys.stderr)
    return 1 if lines else 0


def main(words: Optional[Sequence[str]] = None) -> int:
    return command(work, words, "world")


if __name__ == "__main__":
    sys.exit(main())
