"""picture.py, with dot where it is installed."""
from __future__ import annotations

import html
import os
import re
import shutil
from typing import Any

from checks import check_page
from ldvtools import picture

from .support import EXAMPLES, InFolder, read, tool

# A script that tests a file, starts a child with an argument, waits for it and removes a file; the child asks
# twice.
TRACE = """0 0 started main
1 0 tested absent a "b" \\ c & &lt;
2 0 spawned w
3 0.0 openedread in
4 0 openednew log
5 0.0 asked 0 tables 2 reads 2 made 0
6 0.0 read in
7 0.0 asked 1 tables 1 reads 0 made 1
8 0.0 openedappend found log
9 0.0 ended 3
10 0 waited 0.0
11 0 removed log
12 0 ended 0
"""


DRAWN = r"""digraph trace {
  rankdir=LR;
  node [fontname="Helvetica", fontsize=11];
  edge [fontname="Helvetica", fontsize=9, arrowsize=0.7];
  n0 [shape=box, label="process 0\nended with 0"];
  n1 [shape=ellipse, style="filled", fillcolor="#cfe8cf", label="main"];
  n2 [shape=ellipse, label="a \"b\" \\ c &amp; &amp;lt;"];
  n3 [shape=ellipse, label="w"];
  n4 [shape=box, style="filled", fillcolor="#cfe8cf", label="process 0.0\nended with 3"];
  n5 [shape=ellipse, label="in"];
  n6 [shape=ellipse, label="log"];
  n7 [shape=box, style="rounded,filled", fillcolor="#cfe8cf", label="statement 0\nneeds 2, makes 0"];
  n8 [shape=box, style="rounded", label="statement 1\nneeds 0, makes 1"];
  n9 [shape=note, style="filled", fillcolor="#cfe8cf", label="t\nrow 0, rule L\nrow 7, rule H"];
  n1 -> n0 [label="0"];
  n2 -> n0 [label="1"];
  n3 -> n0 [label="2"];
  n3 -> n4 [label="2"];
  n0 -> n4 [label="2"];
  n5 -> n4 [label="3 to 6"];
  n6 -> n0 [label="4 to 11"];
  n0 -> n6 [label="4 to 11"];
  n4 -> n7 [label="5"];
  n7 -> n4 [label="5"];
  n4 -> n8 [label="7"];
  n8 -> n4 [label="7"];
  n4 -> n6 [label="8"];
  n4 -> n0 [label="10"];
  n9 -> n7 [label="5"];
}
"""


def shown_names(image: Any) -> list[tuple[str, list[str]]]:
    """The lines of each node of an image that dot made, and each arrow by the places of its nodes."""
    found = []
    for name, body in re.findall(r"(?s)class=\"(?:node|edge)\">\s*<title>(.*?)</title>(.*?)</g>", image):
        texts = [html.unescape(text).replace("\xa0", " ")
                 for text in re.findall(r"<text[^>]*>(.*?)</text>", body)]
        found.append((html.unescape(name), texts))
    return sorted(found)


def drawn_names(graph: Any) -> list[tuple[str, list[str]]]:
    """The same of the graph that it was made of."""
    found = []
    for name, label in re.findall(r'(?m)^  (n\d+(?: -> n\d+)?) \[.*label="(.*)"\];$', graph):
        text = re.sub(r"\\(.)", lambda each: "\n" if each[1] == "n" else each[1], label)
        found.append((name.replace(" ", ""), html.unescape(text).split("\n")))
    return sorted(found)


class Pictures(InFolder):
    def words(self) -> list[str]:
        rows, depends = "t 0 0 L\nt 7 0 H\n", "path main\nprocess 0.0\nrow t 7 2\nrow u 1 0\nask 0\nreply 0\n"
        return ["--rows", self.put("rows", rows), "--depends", self.put("depends", depends)]

    def test_drawn(self) -> None:
        self.assertEqual(tool(picture, *self.words(), given=TRACE.encode()), (0, DRAWN.encode(), ""))
        alone = tool(picture, self.put("trace", TRACE))
        self.assertEqual((alone[0], alone[2]), (0, ""))
        self.assertNotIn(b"filled", alone[1])
        self.assertNotIn(b"note", alone[1])

    def test_limit(self) -> None:
        self.assertEqual(tool(picture, "--limit", "13", given=TRACE.encode())[0], 1)
        self.assertEqual(tool(picture, "--limit", "14", given=TRACE.encode())[0], 0)
        self.assertEqual(tool(picture, "--limit", "14", *self.words(), given=TRACE.encode())[0], 1)
        many = "0 0 started m\n" + "".join(f"{n} 0 openedwrite f{n}\n" for n in range(1, 200))
        self.assertEqual(tool(picture, given=many.encode())[0], 0)
        many += "200 0 openedwrite g\nno event is read any more\n"
        self.assertEqual(tool(picture, given=many.encode()), (
            1, b"",
            "picture.py: trace, line 201: the picture would have more than 200 arrows; --limit N takes N\n"))

    def test_malformed(self) -> None:
        for old, new, message in (
                ("0 0 started", "0 1 started", "line 1: there is no process 1"),
                ("3 0.0 opened", "3 0.1 opened", "line 4: there is no process 0.1"),
                ("3 0.0 opened", "1 0.0 opened", "line 4: no event"),
                ("3 0.0 opened", "03 0.0 opened", "line 4: '03' is no number"),
                ("openedread", "openread", "line 4: no event"),
                ("openedread in", "openedread", "line 4: openedread has no path"),
                ("absent a", "a", "line 2: tested has no flag"),
                ("asked 1", "asked 2", "line 8: no statement"),
                ("waited 0.0", "waited 0.1", "line 11: there is no process 0.1"),
                ("ended 3", f"ended {'9' * 5000}", "line 10: '999"),
                ("asked 0", f"asked {'9' * 5000}", "line 6: no statement: '999"),
                ("ended 0\n", "ended 0", "the last line doesn't end")):
            self.assertIn(old, TRACE)
            status, out, err = tool(picture, given=TRACE.replace(old, new, 1).encode())
            self.assertEqual((status, out), (1, b""), new)
            self.assertIn(message, err)
        self.assertIn("it has no event", tool(picture)[2])
        self.assertIn("isn't UTF-8", tool(picture, given=b"\xff")[2])
        for word, text, message in (
                ("--rows", "t 0 2 L\n", "rows, line 1: no row that a statement of the trace needed"),
                ("--rows", "t 0 0 L\nt 0 0 H\n", "rows, line 2: the row is there twice"),
                ("--depends", "path x\n", "depends, line 1: the trace has no 'path x'"),
                ("--depends", "reply 2\n", "depends, line 1: the trace has no")):
            status, _, err = tool(picture, word, self.put("other", text), given=TRACE.encode())
            self.assertEqual(status, 1)
            self.assertIn(message, err)

    def test_image(self) -> None:
        """By a program in place of dot, by one that fails, by none, and by dot where it is installed."""
        path, script = os.path.join(self.folder, "t.svg"), self.put("fake", '#!/bin/sh\necho "$@"; cat\n')
        os.chmod(script, 0o755)
        words = ["--svg", path, "--dot"]
        self.assertEqual(tool(picture, *words, script, *self.words(), given=TRACE.encode()), (0, b"", ""))
        self.assertEqual(read(path), b"-Tsvg\n" + DRAWN.encode())
        self.put("fake", "#!/bin/sh\necho no >&2; exit 3\n")
        self.assertIn("fake ended with 3: no", tool(picture, *words, script, given=TRACE.encode())[2])
        status, out, err = tool(picture, *words, "no-such-dot", given=TRACE.encode())
        self.assertEqual((status, out), (1, b""))
        self.assertIn("no-such-dot isn't installed", err)
        if shutil.which("dot"):
            self.assertEqual(tool(picture, "--svg", path, *self.words(), given=TRACE.encode())[0], 0)
            self.assertEqual(shown_names(read(path).decode()), drawn_names(DRAWN))
            self.assertIn((['a "b" \\ c & &lt;']), [texts for _, texts in shown_names(read(path).decode())])

    def test_stored_image(self) -> None:
        """The image of the page on packages is of the reports that the page shows."""
        page = read(check_page.PAGE).decode()
        shown = {each.command: "".join(line + "\n" for line in each.lines)
                 for each in check_page.commands(page)}
        trace, rows, depends = (shown[f"./ldv inspect {words} < orders.package"]
                                for words in ("trace", "rows", "depends report.txt"))
        graph = picture.drawn(trace, rows, depends, picture.LIMIT)
        image = read(os.path.join(EXAMPLES, "orders.svg")).decode()
        self.assertEqual(shown_names(image), drawn_names(graph))
        self.assertEqual(image.count("#cfe8cf"), graph.count("#cfe8cf"))
