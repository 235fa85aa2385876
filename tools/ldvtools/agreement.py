"""Whether the replies of an outcome may be those to the statements of a world.

An outcome has no statements. What can be told is whether each statement is refused or not, whether it asks
or changes, and how many columns its answer has, and of which kinds. Rows of the same columns can't be told
apart.
"""
from __future__ import annotations

from typing import Optional, Sequence

from .errors import Malformed
from .rerun import Question
from .sql import Query, parse_statement
from .sql_check import INT, TEXT, Schemas, core_kinds, judge
from .values import Reply, Value, plain_count, reply_title


def check_replies(questions: Sequence[Question], schemas: Optional[Schemas]) -> None:
    """Malformed where a reply can't be one to its statement."""
    for question in questions:
        fault = fault_of(question, question.reply, schemas) if question.reply is not None else None
        if fault is not None:
            raise Malformed(f"process {question.process} reply {question.place + 1}: {fault}: the outcome "
                            "isn't of this world")


def fault_of(question: Question, reply: Reply, schemas: Optional[Schemas]) -> Optional[str]:
    """Why a reply can't be one to its statement, or None where it can."""
    judged = judge(question.text, question.params, schemas)
    code = judged.finding.code if judged.finding is not None else 0
    given = reply.code if reply.code <= (1 if schemas is None else 4) else 0
    if code != given or code and reply.kind != "refused":
        due = f"refused with code {code}" if code else "not refused"
        return f"the statement is {due}, and the reply is {reply_title(reply)}"
    if reply.kind == "refused":
        return None
    statement = parse_statement(question.text).statement
    if isinstance(statement, Query) != (reply.kind == "rows"):
        what = "asks for rows" if isinstance(statement, Query) else "changes rows"
        return f"the statement {what}, and the reply is {reply_title(reply)}"
    if not isinstance(statement, Query) or not reply.rows or not judged.names:
        return None
    width = len(reply.rows[0])
    if width != len(judged.names):
        return f"the statement has {plain_count(len(judged.names), 'column')}, and the reply {width}"
    return fault_of_kinds([core_kinds(core, schemas, question.params) for core in statement.cores], reply
                          ) if schemas is not None else None


def fault_of_kinds(kinds: Sequence[Sequence[str]], reply: Reply) -> Optional[str]:
    """That a column has a number where texts are due, or a text where numbers are due."""
    for place, of_cores in enumerate(zip(*kinds)):
        due = next((kind for kind in of_cores if kind in (INT, TEXT)), None)
        if any(due is not None and kind_of(row[place]) not in (None, due) for row in reply.rows):
            return f"column {place + 1} of the statement is {due}, and of the reply it isn't"
    return None


def kind_of(value: Value) -> Optional[str]:
    return None if value is None else INT if isinstance(value, int) else TEXT
