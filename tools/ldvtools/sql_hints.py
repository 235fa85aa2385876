"""What to write in place of what other dialects have."""
from __future__ import annotations

from typing import Protocol, Sequence

from .language import RESERVED

PARTNERS = "docs/SCRIPTS.md, Rows without a partner"
OUTER = ("an outer join is left out; the rows without a partner are found by a script: for each row "
         f"SELECT COUNT(*) of its partners ({PARTNERS})")
JOIN_WORDS = {
    "left": OUTER,
    "right": OUTER,
    "full": OUTER,
    "outer": OUTER,
    "cross": "write a comma between the tables",
    "natural": "write JOIN .. ON with the columns that have to be equal",
}
NO_PARTNER = ("the rows without a partner are found by a script: for each row SELECT COUNT(*) of its "
              f"partners ({PARTNERS})")
HOW = "take the word away: how rows are found is no matter of a statement here"
ONE_PARTNER = "SELECT DISTINCT of the columns of one table gives each row once that has a partner"
# Words before JOIN of still other dialects, which are names anywhere else.
OTHER_JOINS = {
    "anti": NO_PARTNER, "semi": ONE_PARTNER, "any": ONE_PARTNER, "all": ONE_PARTNER,
    "asof": "write ON with the columns that have to be equal, and let a script take the last row before each",
    "hash": HOW, "merge": HOW, "loop": HOW, "broadcast": HOW, "shuffle": HOW, "lookup": HOW, "remote": HOW,
    "global": HOW, "paste": HOW, "positional": "join by a column that numbers the rows",
    "lateral": "there are no subqueries: ask in two statements, and give the second the first one's value",
    "array": "there are no arrays: a table of their elements, and a join",
}
OR = "write x = 1 OR x = 2; for many values a table of them and a join"
AGGREGATE_WORDS = ("count", "sum", "min", "max")
UNION = "one SELECT for each case, with UNION ALL between them"
SCRIPT = "let the script do it, with the rows that fetch gives"
SUBQUERY = "there are no subqueries: ask in two statements, and give the second the value of the first by ?"
LIKE = ("texts are compared whole, and with the case of their letters, which LIKE of SQLite ignores: "
        "x >= 'ab' AND x < 'ac' are those that begin with ab; a part inside: cut in a script")

# By the word at which the reading ends, or the word before it.
HINTS = {
    "avg": "ask SUM(x) and COUNT(x); their quotient is the average",
    "total": "SUM(x) is the sum",
    "in": OR,
    "between": "write x >= 1 AND x <= 5",
    "like": LIKE,
    "ilike": LIKE,
    "glob": LIKE,
    "regexp": LIKE,
    "case": UNION,
    "when": UNION,
    "iif": UNION,
    "if": UNION,
    "coalesce": "one SELECT with x IS NOT NULL and one with x IS NULL, with UNION ALL between them",
    "ifnull": "one SELECT with x IS NOT NULL and one with x IS NULL, with UNION ALL between them",
    "nvl": "one SELECT with x IS NOT NULL and one with x IS NULL, with UNION ALL between them",
    "offset": "ask for all rows, and pass over the first ones with fetch",
    "exists": "there are no subqueries: a join with SELECT DISTINCT asks whether a partner is there",
    "with": SUBQUERY,
    "except": "there is no EXCEPT: count both SELECT DISTINCT, or let the script compare the rows",
    "intersect": "there is no INTERSECT: join both on all columns, with SELECT DISTINCT",
    "using": "write ON a.x = b.x",
    "cast": "a column keeps its kind; in a script, let n = int v makes a number of a text",
    "concat": SCRIPT,
    "substr": SCRIPT,
    "substring": SCRIPT,
    "lower": SCRIPT,
    "upper": SCRIPT,
    "length": SCRIPT,
    "trim": SCRIPT,
    "round": SCRIPT,
    "abs": "one SELECT with x >= 0 and one with x < 0 and -x, with UNION ALL between them",
    "date": "a date is a text such as 2019-01-31, which compares as the date does",
    "strftime": "a date is a text such as 2019-01-31, which compares as the date does",
    "over": "there are no windows: ORDER BY, and let the script go through the rows",
    "true": "write 1 = 1",
    "false": "write 1 = 0",
    "create": "tables come with the world, from CSV files or databases",
    "drop": "tables come with the world, from CSV files or databases",
    "alter": "tables come with the world, from CSV files or databases",
    "begin": "each statement is its own transaction",
    "commit": "each statement is its own transaction",
    "rollback": "each statement is its own transaction",
    "pragma": "there are no settings",
    "replace": "UPDATE, and INSERT where it changed no row",
    "returning": "ask the rows in a SELECT after it",
    "top": "write LIMIT at the end",
    "collate": "texts compare by their bytes",
}
SIGN_HINTS = {
    "'\"'": "a text stands in '; names have no quotes",
    "'`'": "names have no quotes",
    "'['": "names have no quotes",
    "'/'": "there is no division: SUM and COUNT, and divide in the script (docs/SCRIPTS.md, Division)",
    "'/*'": "comments are -- .., and stand before a statement of --sql or --ask; in a script # ..",
    "'%'": "there is no remainder",
    "'|'": "++ in a script joins texts: let x = v ++ w",
    "'||'": "++ in a script joins texts: let x = v ++ w",
    "':'": "parameters are written ?",
    "'$'": "parameters are written ?",
    "'@'": "parameters are written ?",
    "'!'": "unequal is <>",
    "'#'": "there are no comments in a statement",
    "'“'": "a text stands in straight quotes: '",
    "'‘'": "a text stands in straight quotes: '",
    "'’'": "a text stands in straight quotes: '",
}


class HasText(Protocol):
    """A token of a statement."""

    @property
    def kind(self) -> str: ...

    @property
    def text(self) -> str: ...


def hint_at(tokens: Sequence[HasText], place: int) -> str:
    """What to write in place of what stands at a token that can't be read, or nothing."""
    token = tokens[place]
    before = tokens[place - 1] if place else token
    after = tokens[place + 1] if place + 1 < len(tokens) else token
    if token.kind == "bad":
        return SIGN_HINTS.get(token.text, "")
    if token.kind == "end":
        return end_hint(tokens)
    return word_hint(token, before, after) if token.kind == "word" else sign_hint(token, before, after)


def end_hint(tokens: Sequence[HasText]) -> str:
    """What is missing where a text ends too early."""
    words = [token.text for token in tokens if token.kind == "word"]
    if words[:1] == ["select"] and "from" not in words:
        return "each SELECT has FROM"
    return next((JOIN_WORDS[word] for word in words if word in JOIN_WORDS), "")


def word_hint(token: HasText, before: HasText, after: HasText) -> str:
    word = token.text
    if word == "not" and after.text in ("in", "like", "between", "exists"):
        if after.text == "in":
            return ("a count of SELECT DISTINCT taken off says how many aren't in; a script says which "
                    f"aren't in ({PARTNERS})")
        return "put NOT before the whole: NOT (" + HINTS[after.text] + ")"
    if word == "select":
        if before.text in ("(", "union"):
            return SUBQUERY
        return "INSERT takes VALUES: fetch the rows and insert them one by one"
    if word == "distinct":
        return "there is no DISTINCT in an aggregate: ask SELECT DISTINCT and count its rows"
    if word in JOIN_WORDS:
        return JOIN_WORDS[word]
    if before.kind == "word" and before.text in JOIN_WORDS:
        return JOIN_WORDS[before.text]
    if word in HINTS or before.kind == "word" and before.text in HINTS:
        return HINTS[word] if word in HINTS else HINTS[before.text]
    if before.text == ";":
        return "each statement is an instruction of its own"
    if word in ("union", "order", "limit") or before.text == "limit":
        return "ORDER BY and LIMIT stand once, at the end of the whole query"
    if word in AGGREGATE_WORDS and before.text in ("by", ","):
        return ("ORDER BY takes the name or the place of an answer column, and GROUP BY columns: name the "
                f"item with AS, as {word.upper()}(x) AS y, and write ORDER BY y")
    if (word in AGGREGATE_WORDS and before.kind == "word" and before.text not in RESERVED
            or word in RESERVED and before.text in ("as", "from", "join", ",", ".", "(")):
        return f"{word} is a reserved word, and no name"
    if word not in RESERVED and (before.kind in ("number", "text") or before.text in (")",)
                                 or before.kind == "word" and before.text not in RESERVED):
        return f"another name follows AS: .. AS {word}"
    return ""


def sign_hint(token: HasText, before: HasText, after: HasText) -> str:
    sign = token.text
    if sign == "-" and (before.text == "-" or after.text == "-"):
        return "there are no comments in a statement: -- is two minuses"
    if sign == "(" and before.kind == "word":
        return HINTS.get(before.text,
                         f"there is no function {before.text}" if before.text not in RESERVED else "")
    if sign == "=" and before.text in ("=", "!", "<>"):
        return "equal is one ="
    if sign in ("=", "<>", "<", "<=", ">", ">="):
        return "comparisons don't follow one another, and are no values: write AND between them"
    if sign == ".":
        return ("there are no decimals: carry them as whole numbers, such as cents" if before.kind == "number"
                else "ORDER BY takes the name or the place of an answer column: name it with AS")
    if sign == "*" and before.text == ".":
        return "write the columns, or * for those of all tables"
    if sign == "," and before.kind == "number":
        return "LIMIT takes one number"
    if sign in ("+", "-", "*", "("):
        return "ORDER BY and GROUP BY take columns: name the item with AS, and order by that name"
    return "" if sign != ";" else "each statement is an instruction of its own"
