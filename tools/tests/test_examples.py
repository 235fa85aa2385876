"""The examples, and the worlds of the tutorial, against SQLite."""
from __future__ import annotations

import glob
import json
import os
import re
import shlex
import sqlite3
from typing import Any, Iterator

from ldvtools import outcome, world
from ldvtools.outcomes import read_outcome

from .support import EXAMPLES, LIBRARY, ROOT, TUTORIAL, WEATHER, InFolder, make_database, match_in, read, tool


def asked(script: str) -> Iterator[tuple[str, list[Any]]]:
    """The statements of a plain script, with their parameters."""
    for line in script.split("\n"):
        words = re.findall(r'"(?:\\.|[^"\\])*"|\S+', line)
        if words[:1] == ["sql"]:
            # These texts have no escapes but those that JSON has too.
            yield json.loads(words[2]), [json.loads(word) for word in words[3:]]


def in_sqlite(tables: Any) -> sqlite3.Connection:
    """The tables of a world in an SQLite database."""
    base = sqlite3.connect(":memory:", isolation_level=None)
    for name, table in tables.items():
        parts = [" ".join(column) for column in table["columns"]]
        if table.get("key"):
            parts.append(f"PRIMARY KEY ({', '.join(table['key'])})")
        base.execute(f"CREATE TABLE {name} ({', '.join(parts)})")
        for row in table["rows"]:
            base.execute(f"INSERT INTO {name} VALUES ({', '.join('?' * len(row))})", row)
    return base


def value_text(value: Any) -> str:
    if value is None:
        return "null\n"
    return f"int {value}\n" if isinstance(value, int) else f"text {len(value.encode())}\n{value}\n"


def reply_text(rows: Any) -> str:
    texts = (f"row {len(row)}\n" + "".join(map(value_text, row)) for row in rows)
    return f"rows {len(rows)}\n" + "".join(texts)


# What the examples ask whose scripts aren't a list of statements: the process, the first word of its
# statement, and the parameters. Worked out by hand; the two imports of the night as their log says.
NORTH, SOUTH = "0.0", "0.1"


ASKED: dict[str, Any] = {
    "orders": [("0", "INSERT", (13, 3, "cap")), ("0", "INSERT", (10, 2, "pen")), ("0.0", "SELECT", (1,))],
    "nightly": [
        (SOUTH, "INSERT", (201, "south", "nib", 5)), (SOUTH, "UPDATE", (5, "nib")),
        (SOUTH, "INSERT", (102, "south", "ink", 4)), (SOUTH, "UPDATE", (4, "ink")),
        (NORTH, "INSERT", (101, "north", "pen", 3)), (NORTH, "UPDATE", (3, "pen")),
        (NORTH, "INSERT", (102, "north", "ink", 1)),
        (NORTH, "INSERT", (103, "north", "cap", 2)), (NORTH, "UPDATE", (2, "cap")),
        ("0", "SELECT", (4,))],
    "apart": [("0.0", "SELECT", (sku,)) for sku in ("pen", "ink", "cap")] + [
        ("0.1", "SELECT", (sku,)) for sku in ("ink", "pen", "nib", "cap")],
    "handed": [("0.0", "SELECT", ())],
    # In turn, both look for a free job before one of them takes it.
    "jobs": [each for job, takes, waits, name in ((1, "0.0", "0.1", "ada"), (2, "0.1", "0.0", "bob"),
                                                  (3, "0.0", "0.1", "ada"), (4, "0.1", "0.0", "bob"))
             for other in [{"ada": "bob", "bob": "ada"}[name]]
             for each in ((takes, "SELECT", ()), (waits, "SELECT", ()), (takes, "UPDATE", (name, job)),
                          (waits, "UPDATE", (other, job)))] + [("0.0", "SELECT", ()), ("0.1", "SELECT", ())],
    "hours": [("0", "SELECT", (project, "2024-05")) for project in ("bridge", "tower", "harbour")],
}


KEY_TAKEN = 6


class Examples(InFolder):
    def names(self) -> list[str]:
        names = [path[:-len(".json")] for path in sorted(glob.glob(EXAMPLES + "/*.json"))]
        self.assertGreaterEqual(len(names), 8)
        return names

    def test_scripts(self) -> None:
        """The script beside each document is the document's, and so are all files of a folder beside it."""
        for name in self.names():
            made = json.loads(read(name + ".json"))
            if os.path.isdir(name):
                for path, content in made["files"].items():
                    self.assertEqual(read(os.path.join(name, path)).decode(), content, name)
            else:
                self.assertEqual(read(name + ".script").decode(), made["files"][made["start"][0]], name)

    def test_documents(self) -> None:
        """The commands of the page make the documents of the examples that have a folder."""
        page = read(os.path.join(EXAMPLES, "README.md")).decode().replace("\\\n", " ")
        made = set()
        for line in re.findall(r"(?m)^    (.*)$", page):
            words = [self.placed(word) for word in shlex.split(line)]
            if words[0] == "sqlite3":
                make_database(words[1], read(words[3]).decode())
            elif words[0].endswith("world.py") and ">" in words:
                status, out, err = tool(world, *words[1:-2])
                self.assertEqual(status, 0, err)
                self.assertEqual(out, read(words[-1]), line)
                made.add(words[-1][:-len(".json")])
        self.assertEqual(made, {name for name in self.names() if os.path.isdir(name)})

    def placed(self, word: str) -> str:
        """A word of a command that is typed at the top of the checkout, with a path that is right here."""
        word = re.sub(r"^((?:\w+=)?)((?:examples|tools)/)", rf"\g<1>{ROOT}/\g<2>", word)
        return os.path.join(self.folder, word) if word.endswith(".db") else word

    def test_rows(self) -> None:
        """The rows in each outcome are those that SQLite gives."""
        for name in self.names():
            if os.path.isdir(name) or not os.path.exists(name + ".outcome"):
                continue
            self.assertEqual(tool(outcome, name + ".outcome")[0], 0, name)
            replies = self.replies(name)
            base = in_sqlite(json.loads(read(name + ".json"))["tables"])
            statements = list(asked(read(name + ".script").decode()))
            self.assertEqual(len(statements), len(replies), name)
            for (text, parameters), reply in zip(statements, replies):
                if not reply.startswith("refused"):
                    self.assertEqual(reply_text(base.execute(text, parameters).fetchall()), reply, text)

    def test_changes(self) -> None:
        """The replies in the outcomes of the others are those that SQLite gives to the same statements."""
        for path in filter(os.path.isdir, self.names()):
            name, made = os.path.basename(path), json.loads(read(path + ".json"))
            processes, _ = read_outcome(read(path + ".outcome"))
            replies = {process.name: list(process.replies) for process in processes}
            texts = re.findall(r'(?m)^sql \w+ "(.*)"', "\n".join(made["files"].values()))
            base = in_sqlite(made["tables"])
            for process, word, parameters in ASKED[name]:
                text, = (text for text in texts if text.startswith(word))
                self.assertEqual(self.reply(base, text, parameters), replies[process].pop(0).brief(),
                                 (name, text))
            self.assertFalse(any(replies.values()), name)

    @staticmethod
    def reply(base: sqlite3.Connection, text: str, parameters: Any) -> Any:
        """What SQLite replies, as `read_outcome` gives replies; of a refusal, its code only."""
        try:
            done = base.execute(text, parameters)
        except sqlite3.IntegrityError:
            return "refused", KEY_TAKEN
        if done.description is None:
            return "changed", done.rowcount
        return "rows", [list(row) for row in done.fetchall()]

    def replies(self, name: str) -> list[str]:
        """The replies of an outcome of one process, each as its text."""
        text = read(name + ".outcome").decode()
        head = match_in(r"\Aoutcome 1 0\nprocess 0 \d+ (\d+) \d+\n", text)
        rest = text.encode()[len(head.group().encode()) + int(head.group(1)) + 1:].decode()
        return re.split(r"(?m)^(?=rows |refused )", rest)[1:]

    def test_tutorial_notes(self) -> None:
        """What world.py says of the tutorial's database is what the page shows, line by line."""
        path = os.path.join(self.folder, "library.db")
        make_database(path, read(TUTORIAL + "/library.sql").decode())
        err = tool(world, "--sqlite", path, *LIBRARY)[2].replace(ROOT + os.sep, "")
        said = [line for line in err.split("\n") if line and " rows; " not in line]
        self.assertEqual(sum(line.startswith("world.py: note: ") for line in said), 5)
        page = read(os.path.join(ROOT, "docs/TUTORIAL.md")).decode()
        noted = "What the database has and a world hasn't is noted by name:\n\n"
        block = page.partition(noted)[2].partition("\n\n")[0]
        self.assertEqual([line[4:] for line in block.split("\n")], said)

    def test_tutorial(self) -> None:
        """The tutorial's worlds give what SQLite gives for the same questions."""
        path = os.path.join(self.folder, "library.db")
        make_database(path, read(TUTORIAL + "/library.sql").decode())
        for words, name in ((WEATHER, "weather"), (["--sqlite", path] + LIBRARY, "library")):
            status, out, err = tool(world, *words)
            self.assertEqual(status, 0, err)
            made = json.loads(out)
            base = in_sqlite(made["tables"])
            questions = [text for text, _ in asked(made["files"]["main"])]
            replies = [reply_text(base.execute(text).fetchall()) for text in questions]
            expected = f"outcome 1 0\nprocess 0 0 0 {len(replies)}\n\n{''.join(replies)}"
            self.assertEqual(expected, read(f"{TUTORIAL}/{name}.outcome").decode())
