"""page.py: what is in the page, and in Chromium, where it is installed, what it shows."""
from __future__ import annotations

import hashlib
import json
import os
import re
import time
import unittest
from typing import Any, Optional

from cases import encoder
from ldvtools import package, page
from ldvtools.packages import Joined, read_any, read_package
from ldvtools.trace import graph_of

from . import chromium, version2
from .support import EXAMPLES, ROOT, InFolder, match_in, read, tool

HOSTILE = "</script><img src=x onerror=alert(1)><!--'\"&amp;"


def orders(mode: int = 1) -> bytes:
    """The package of examples/orders.json, whose bytes stand in the cases."""
    from .test_check import cases
    words = ["record"] if mode == 1 else ["record", "--excluded"]
    document = json.loads(read(f"{EXAMPLES}/orders.json"))
    for given, data, status, output, _ in cases():
        if (given == words and status == 0 and json.loads(data)["start"] == document["start"]
                and b"report.ldv" in data):
            if json.loads(data)["files"] == document["files"]:
                return bytes(output)
    raise unittest.SkipTest("no case records the orders world")


def large(count: int) -> bytes:
    """A package of many rows, each needed by one of two statements."""
    columns = [encoder.column("k", "INT NOT NULL"), encoder.column("g", "TEXT")]
    rows = [encoder.row(n, n, f"row {n}") for n in range(count)]
    needs = [encoder.group("t", *(encoder.read(n) for n in range(count)))]
    trace = [encoder.started(), encoder.asked(0, tables=["t"], reads=needs), encoder.ended(2)]
    return encoder.encode(encoder.package(steps=2, tables=[encoder.table("t", columns, [0], count, rows)],
                                            trace=trace))


def hostile() -> bytes:
    """Names and texts that would be HTML, and numbers that JavaScript doesn't carry exactly."""
    columns = [encoder.column("k"), encoder.column("g", "TEXT")]
    rows = [encoder.row(0, 9223372036854775807, HOSTILE), encoder.row(1, None, "")]
    trace = [encoder.started(HOSTILE), encoder.act("wrote", HOSTILE, 1),
             encoder.asked(0, 2, tables=["t"], reads=[encoder.group("t", encoder.read(0))]),
             encoder.ended(3)]
    return encoder.encode(encoder.package(start=[HOSTILE], steps=3,
                                            files=[encoder.file(HOSTILE, "exit 0")],
                                            tables=[encoder.table("t", columns, next=2, rows=rows)],
                                            trace=trace))


class PageMaker(InFolder):
    def made(self, data: bytes, *words: str, outcome: Optional[bytes] = None) -> str:
        path = os.path.join(self.folder, "page.html")
        given = ["--replayed", self.put("o", outcome)] if outcome is not None else []
        status, out, err = tool(page, self.put("p.package", data), *given, *words, "-o", path)
        self.assertEqual((status, out, err), (0, b"", ""))
        return path

    def data_of(self, path: str) -> Any:
        found = match_in(r'(?s)<script type="application/json" id="data">(.*?)</script>',
                          read(path).decode())
        return json.loads(found[1])


class Pages(PageMaker):
    def test_kinds(self) -> None:
        """Both kinds, both versions and joined packages have a page."""
        outcome = read(f"{EXAMPLES}/orders.outcome")
        for data in (orders(), version2.spelled(read_package(orders()))):
            shown = self.data_of(self.made(data, outcome=outcome))
            self.assertEqual((shown["refused"], shown["replies"], shown["kind"]), (1, 3, "included"))
            self.assertEqual([each["text"][:6] for each in shown["statements"]],
                             ["INSERT", "INSERT", "SELECT"])
            self.assertEqual(shown["statements"][2]["columns"], ["name", "2"])
            # The file may be a new one, which a package doesn't say.
            self.assertEqual([each[1] for each in shown["touched"][0]["by"]],
                             ["opened it for writing, empty at first", "wrote it"])
        shown = self.data_of(self.made(orders(2)))
        self.assertEqual((shown["refused"], shown["kind"], shown["tables"]), (1, "excluded", []))
        self.assertEqual(shown["statements"][2]["params"], ["1"])
        first = read_package(orders())
        other = first._replace(start=[*first.start, "again"], seed=7)
        joined = version2.joined(first, other)
        both = read_any(joined)
        assert isinstance(both, Joined)
        self.assertEqual(both.run(2).start, other.start)
        for run, seed in (("1", "0"), ("2", "7")):
            shown = self.data_of(self.made(joined, "--run", run))
            self.assertEqual((shown["seed"], len(shown["tables"]), shown["replayed"]), (seed, 3, False))
        self.assertEqual(tool(page, given=joined), (1, b"", "page.py: it is a joined package, which has two "
                                                    "runs; --run 1 or --run 2 says which one\n"))
        self.assertIn("page.py: it isn't a joined package", tool(page, "--run", "1", given=orders())[2])

    def test_safe(self) -> None:
        """Nothing of a package ends the data or begins an element,
        and the policy takes the page's own script alone."""
        text = read(self.made(hostile())).decode()
        self.assertEqual(text.count("<script"), 2)
        self.assertEqual(text.count("</script>"), 2)
        self.assertNotIn("<img", text)
        self.assertNotIn("http://", text.replace("http://www.w3.org/2000/svg", ""))
        policy = match_in(r'Content-Security-Policy" content="([^"]*)"', text)[1]
        self.assertIn("default-src 'none'", policy)
        script = match_in(r"(?s)<script>(.*?)</script>", text)[1]
        self.assertIn(page.source_hash(script), policy)
        self.assertEqual(self.data_of(self.made(hostile()))["tables"][0]["rows"][0][3],
                         {"i": "9223372036854775807"})

    def test_program(self) -> None:
        """--ldv replays and audits the package by a program."""
        outcome = read(f"{EXAMPLES}/orders.outcome")
        self.put("outcome", outcome)
        program = self.put("fake",
                           '#!/bin/sh\ncat > /dev/null\n[ $1 = audit ] && echo sound || cat '
                           f'{self.folder}/outcome\n')
        os.chmod(program, 0o755)
        shown = self.data_of(self.made(orders(), "--ldv", program))
        self.assertEqual((shown["verdict"], shown["replayed"]), ("sound", True))
        self.put("fake", "#!/bin/sh\ncat > /dev/null\necho 'ldv: damaged: form' >&2; exit 8\n")
        status, _, err = tool(page, os.path.join(self.folder, "p.package"), "--ldv", program)
        self.assertEqual((status, err), (1, f"page.py: {program} replay ends with 8: ldv: damaged: form\n"))

    def test_not_audited(self) -> None:
        """Without a program a page is made of what the bytes say, also where rows are out of order, which
        `replay` refuses. It says that nobody audited it, and so do the documents."""
        table = encoder.table("t", [encoder.column("k")], rows=[encoder.row(2, 1), encoder.row(0, 2)])
        trace = [encoder.started(), encoder.asked(0), encoder.ended()]
        data = encoder.encode(encoder.package(tables=[table], trace=trace))
        path = self.made(data)
        shown = self.data_of(path)
        self.assertEqual((shown["verdict"], [row[0] for row in shown["tables"][0]["rows"]]), (None, [2, 0]))
        self.assertIn(b'if (!D.verdict) return el("span", {class: "badge"}, "not audited");', read(path))
        for name in ("docs/PACKAGES.md", "SECURITY.md"):
            text = " ".join(read(os.path.join(ROOT, name)).decode().split())
            self.assertIn("says that it wasn't audited", text, name)

    def test_refused(self) -> None:
        path = self.put("p", orders())
        status, out, err = tool(page, path, "--replayed", self.put("o", "outcome 1 0\nprocess 0 0 0 0\n\n"))
        self.assertEqual((status, out), (1, b""))
        self.assertIn("it isn't of this world", err)
        self.assertEqual(tool(page, given=b"x")[0], 1)


@unittest.skipUnless(chromium.program(), "chromium isn't installed")
class Browsers(PageMaker):
    """The page in a real browser."""

    def opened(self, data: bytes, *words: str, outcome: Optional[bytes] = None) -> chromium.Browser:
        browser = chromium.Browser(self.made(data, *words, outcome=outcome))
        self.addCleanup(browser.close)
        return browser

    def test_clicks(self) -> None:
        """What is shown after clicks is what the package has."""
        whole = read_package(orders())
        browser = self.opened(orders(), outcome=read(f"{EXAMPLES}/orders.outcome"))
        self.assertEqual(browser.texts("#refused"), ["1 of 3 statements was refused"])
        self.assertEqual(browser.named("tr.needed[data-row]", "data-row"), [])
        browser.click('tr[data-statement="2"]')
        asked = [event.asked for event in whole.events if event.asked][2]
        needs = [f"{table} {need.row} {need.rule}" for table, rows in asked.reads for need in rows]
        self.assertEqual(browser.named("tr[data-need]", "data-need"), needs)
        for table in whole.tables:
            browser.click(f'button[data-table="{table.name}"]')
            self.assertEqual(browser.texts("#packed"), [f"{len(table.rows)} of {table.next} rows packed"])
            wanted = [f"{table.name} {row.number}" for row in table.rows
                      if any(name == table.name and any(need.row == row.number for need in rows)
                             for name, rows in asked.reads)]
            self.assertEqual(browser.named("tr.needed[data-row]", "data-row"), wanted)
        self.assertEqual(browser.named("li[data-rule]", "data-rule"), ["L", "H"])
        browser.click('tr[data-statement="1"]')
        self.assertEqual(browser.texts("#detail"), ["Statement 1, which process 0 asked at step 14"])
        self.assertEqual(browser.problems(), [])

    def test_all_kinds(self) -> None:
        """Packages of each kind and version, with each act, and without a statement or a file are shown."""
        first = read_package(orders())
        acts = encoder.encode(encoder.changed("acts", {}))
        trace = [encoder.started(), encoder.spawned(1, 0), encoder.spawned(2, 1), encoder.spawned(3, 0),
                 encoder.act("read", "\uffee", 4, 3), encoder.act("read", "\U0001f600", 4, 2),
                 encoder.waited(1, 5), encoder.waited(2, 5, 1), encoder.waited(3, 6),
                 encoder.waited(1, 6), encoder.act("wrote", "out", 7),
                 encoder.ended(8)]
        order = encoder.encode(encoder.package(steps=8, trace=trace))
        self.assertEqual(graph_of(read_package(order)).depends("out"), [
            "path f", "path main", "path \uffee", "path \U0001f600", "process 0", "process 0.0",
            "process 0.0.0", "process 0.1"])
        kinds: list[tuple[bytes, list[str]]] = [
                 (order, []), (orders(2), []), (version2.spelled(first), []), (acts, []),
                 (version2.joined(first, first), ["--run", "2"]), (encoder.encode(encoder.package()), []),
                 (encoder.encode(encoder.changed("logs", {})), [])]
        for data, words in kinds:
            browser = self.opened(data, *words)
            self.assertEqual(browser.problems(), [])
            for statement in browser.named("tr[data-statement]", "data-statement"):
                browser.click(f'tr[data-statement="{statement}"]')
            graph = graph_of(read_package(data, int(words[1]) if words else None))
            for kind, *name in list(graph.nodes):
                if kind == "path":
                    browser.value(f"choosePath({json.dumps(name[0])})")
                    self.assertEqual(browser.named("li[data-node]", "data-node"), graph.depends(str(name[0])),
                                     name)
            self.assertEqual(browser.problems(), [])

    def test_came_from(self) -> None:
        """The list of what a file came from is that of `inspect depends`, for each path."""
        graph = graph_of(read_package(orders()))
        browser = self.opened(orders(), outcome=read(f"{EXAMPLES}/orders.outcome"))
        for path in ("report.txt", "new.csv", "main.ldv"):
            browser.value(f"choosePath({json.dumps(path)})")
            self.assertEqual(browser.named("li[data-node]", "data-node"), graph.depends(path), path)
        browser.value("choosePath('report.txt')")
        self.assertIn("path report.txt", browser.named("g.node", "data-box"))
        browser.click('g[data-box="path new.csv"] rect')
        self.assertEqual(browser.texts("#came-none"), ["It came from nothing: the run never wrote it."])
        self.assertEqual(browser.problems(), [])

    def test_came_first(self) -> None:
        """Files that the run wrote are the first that can be chosen, then come replies, then other files; and
        what the first of all came from is there without a click."""
        browser = self.opened(orders(), outcome=read(f"{EXAMPLES}/orders.outcome"))
        found = browser.texts("#came-path option")
        self.assertEqual(found[:1], ["report.txt (written)"])
        self.assertEqual([text[:9] for text in found[1:4]], [f"reply {number}: " for number in range(3)])
        self.assertEqual(found[4:], ["main.ldv", "new.csv", "report.ldv"])
        self.assertEqual(browser.value("document.getElementById('came-path').value"), "path:report.txt")
        self.assertEqual(browser.named("li[data-node]", "data-node"),
                         graph_of(read_package(orders())).depends("report.txt"))
        self.assertEqual(browser.problems(), [])

    def test_came_replies(self) -> None:
        """Where no file was written, it is shown of each reply what it came from: its statement and rows, the
        replies that its process had before, and what these came from."""
        rows = [encoder.row(number, number, statement=number // 2) for number in range(3)]
        needs = [[encoder.read(0), encoder.read(1)], [encoder.read(2)]]
        trace = [encoder.started(), *(encoder.asked(place, 1 + place, tables=["t"],
                                                      reads=[encoder.group("t", *each)])
                                       for place, each in enumerate(needs)), encoder.ended(3)]
        data = encoder.encode(encoder.package(
            steps=3, files=[encoder.file("main", 'sql q "SELECT k FROM t WHERE k < 2"\n'
                                          'sql q "SELECT k FROM t WHERE k = 2"\n')],
            tables=[encoder.table("t", [encoder.column("k")], next=3, rows=rows)], trace=trace))
        browser = self.opened(data)
        self.assertEqual(browser.texts("#came-path option"), [
            "reply 0: SELECT k FROM t WHERE k < 2", "reply 1: SELECT k FROM t WHERE k = 2", "main"])
        first = ["path main", "process 0", "row t 0 0", "row t 1 0", "ask 0"]
        self.assertEqual(browser.named("li[data-node]", "data-node"), first)
        browser.value("document.getElementById('came-path').selectedIndex = 1; showCame()")
        self.assertEqual(browser.named("li[data-node]", "data-node"),
                         [*first[:4], "row t 2 0", "ask 0", "ask 1", "reply 0"])
        self.assertEqual(browser.problems(), [])

    def test_saved(self) -> None:
        """Tables and files are saved as they are."""
        browser = self.opened(orders(), outcome=read(f"{EXAMPLES}/orders.outcome"))
        browser.value("window.saved = []; URL.createObjectURL = blob => { saved.push(blob); return "
                      "'blob:none'; }; "
                      "HTMLAnchorElement.prototype.click = function () { saved.push(this.download); }; 1")
        browser.click('button[data-table="orders"]')
        browser.value("[...document.querySelectorAll('#tables button')].pop().click()")
        folder = os.path.join(self.folder, "tables")
        self.assertEqual(tool(package, "--csv", folder, self.put("p", orders()))[0], 0)
        self.assertEqual(browser.value("saved[0].text()"), read(f"{folder}/orders.csv").decode())
        self.assertEqual(browser.value("saved[1]"), "orders.csv")
        for section, path in (("#files", "new.csv"), ("#outcome", "report.txt")):
            browser.value(f"saved.length = 0; [...document.querySelectorAll('{section} tr')].find("
                          "row => row.cells[0].textContent === "
                          f"'{path}').querySelector('button:last-of-type').click()")
            self.assertEqual(browser.value("saved[1]"), path)
        self.assertEqual(browser.value("saved[0].text()"), "Ada 14\n")
        self.assertEqual(browser.problems(), [])

    def test_hostile(self) -> None:
        """Texts that would be HTML are shown as they are, and great numbers exactly."""
        browser = self.opened(hostile())
        cells = browser.texts("tr[data-row] td")
        self.assertEqual(cells[:8], ["0", "9223372036854775807", HOSTILE, "0 L", "1", "NULL", "(empty)", ""])
        self.assertIn(HOSTILE, browser.texts("[data-file] td a"))
        self.assertEqual(browser.value("document.querySelectorAll('img').length"), 0)
        self.assertEqual(browser.problems(), [])

    def test_many_rows(self) -> None:
        """Of ten thousand rows a hundred are made at a time, and another page is there at once."""
        browser = self.opened(large(10_000))
        self.assertEqual(browser.value("document.querySelectorAll('tr[data-row]').length"), 100)
        start = time.monotonic()
        browser.click('tr[data-statement="0"]')
        browser.value("[...document.querySelectorAll('#tables .pager button')].pop().click()")
        self.assertEqual(browser.named("tr.needed[data-row]", "data-row")[0], "t 100")
        self.assertLess(time.monotonic() - start, 20)
        self.assertEqual(browser.problems(), [])


    def test_without_program(self) -> None:
        """Without the program the page shows statements as they are written, and rows; of a package of
        replies each statement as it was asked, and its reply."""
        browser = self.opened(orders())
        texts = browser.texts('tr[data-statement="0"] div.written > *')
        self.assertEqual(texts, ["INSERT INTO orders VALUES (?, ?, ?, 1)", "with id, who, line",
                                 "as written in main.ldv, line 9"])
        self.assertEqual(len(browser.texts("tr[data-statement] code")), 3)
        browser.click('tr[data-statement="2"]')
        self.assertEqual(browser.texts("#detail ~ div.written div.params"), ["with arg1"])
        self.assertEqual(browser.texts("tr[data-row] td")[:3], ["0", "1", "Ada"])
        self.assertEqual(browser.problems(), [])
        browser = self.opened(orders(2))
        self.assertEqual(browser.texts('tr[data-statement="2"] .params'), ["with 1"])
        self.assertEqual(browser.texts('tr[data-statement="2"] table.preview tr')[1:], ["Ada14"])
        self.assertEqual(browser.texts("div.written"), [])

    def test_order(self) -> None:
        """Processes stand in the order in which they were made, whoever of them acts first."""
        trace = [encoder.started(), *(encoder.spawned(step, 0) for step in range(1, 12)),
                 *(encoder.act("read", "f", 12 + 11 - child, child) for child in range(11, 0, -1)),
                 encoder.ended(30)]
        browser = self.opened(encoder.encode(encoder.package(steps=30, trace=trace)))
        names = ["0", *(f"0.{number}" for number in range(11))]
        lanes = [name for name in browser.named("svg#time text[data-lane]", "data-lane")
                 if name.startswith("process ")]
        self.assertEqual(lanes, [f"process {name}" for name in names])
        tops = browser.value("[...document.querySelectorAll('svg#time text[data-lane^=process]')]"
                             ".map(each => each.getBoundingClientRect().top)")
        self.assertEqual(tops, sorted(tops))
        self.assertEqual(browser.named("div[data-process]", "data-process"), names)


@unittest.skipUnless(chromium.program(), "chromium isn't installed")
class Looks(PageMaker):
    """How a page looks: a package that says what its columns are, with its replies, at three widths."""

    # Which cells have numbers or short texts over several lines; which lie beyond their picture or the page.
    BROKEN = """[...document.querySelectorAll('td.number, td.short')].filter(cell => {
      const range = document.createRange(), tops = new Set();
      const walker = document.createTreeWalker(cell, NodeFilter.SHOW_TEXT);
      while (walker.nextNode()) {
        range.selectNodeContents(walker.currentNode);
        for (const box of range.getClientRects()) if (box.width > 0) tops.add(Math.round(box.top));
      }
      return tops.size > 1; }).map(cell => cell.textContent)"""
    CUT = """[...document.querySelectorAll('svg#time text.axis')].filter(text => {
      const box = text.getBoundingClientRect(), all = text.ownerSVGElement.getBoundingClientRect();
      return box.right > all.right + 1 || box.left < all.left - 1; }).map(text => text.textContent)"""
    # What a key reaches, in the order of the page.
    REACHED = "a[href], button:enabled, input:enabled, select, summary, [tabindex='0']"
    # The roles that a screen reader reads out by their names, as Chromium calls them.
    NAMED = {"button", "link", "checkbox", "spinbutton", "combobox", "ComboBoxSelect", "textbox", "image",
             "img", "columnheader", "DisclosureTriangle", "navigation", "heading", "option"}

    def page_at(self, width: int) -> chromium.Browser:
        path = self.made(self.data, outcome=self.outcome)
        browser = chromium.Browser(path, width=width)
        self.addCleanup(browser.close)
        return browser

    def setUp(self) -> None:
        from .test_as_read import OUTCOME, ROWS, SCRIPT, packed
        super().setUp()
        self.data, self.outcome = packed(ROWS, script=SCRIPT), OUTCOME.encode()

    def test_widths(self) -> None:
        """No number or date is broken over two lines, and no number of the axis is cut."""
        for width in (480, 900, 1600):
            browser = self.page_at(width)
            browser.click('tr[data-statement="0"]')
            self.assertGreater(len(browser.texts("td.number")), 10)
            self.assertIn("1890,75", browser.texts("td.number"))
            self.assertIn("27.7.2024", browser.texts("td.short"))
            self.assertEqual(browser.value(self.BROKEN), [], width)
            self.assertEqual(browser.value(self.CUT), [], width)
            self.assertEqual(browser.texts("svg#time text.axis")[-1], "2")
            self.assertEqual(browser.problems(), [])

    def test_without_clicks(self) -> None:
        """Replies with their units are there at once, and both digests under their names."""
        browser = self.page_at(1280)
        self.assertEqual(browser.texts("tr[data-statement] table.preview th")[:2], ["s (€)", "n"])
        self.assertEqual(browser.texts("tr[data-statement] table.preview td")[:2], ["1903,25", "3"])
        text = " ".join(browser.texts("header"))
        self.assertIn("SHA-256 of the file, as sha256sum writes it " + hashlib.sha256(self.data).hexdigest(),
                      text)
        self.assertIn("digest within it, of the bytes before its end " + self.data[-32:].hex(), text)
        self.assertEqual(browser.texts("#came-path option")[0], "reply 0: SELECT SUM(cost) AS s, COUNT(*) AS "
                                                                "n FROM t")
        self.assertIn("3 rows", browser.texts("#came-count")[0])

    def press(self, browser: chromium.Browser, key: str, code: int) -> None:
        for kind in ("rawKeyDown", "char", "keyUp"):
            text = {"text": "\r"} if kind == "char" and key == "Enter" else {}
            if kind != "char" or text:
                browser.send("Input.dispatchKeyEvent", type=kind, key=key, code=key,
                             windowsVirtualKeyCode=code, **text)

    def test_keyboard(self) -> None:
        """By the keyboard alone: Tab reaches each control, in the order of the page and with a frame around
        it; Enter shows a statement, and what a file came from."""
        browser = self.page_at(1280)
        browser.send("Emulation.setFocusEmulationEnabled", enabled=True)
        browser.value(f"window.controls = [...document.querySelectorAll({json.dumps(self.REACHED)})]"
                      ".filter(each => each.checkVisibility()); 1")
        count, reached, framed = browser.value("controls.length"), [], set()
        for _ in range(2 * count):
            self.press(browser, "Tab", 9)
            place, style = browser.value("[controls.indexOf(document.activeElement), "
                                         "getComputedStyle(document.activeElement).outlineStyle]")
            if place >= 0:
                reached.append(place)
                framed.add(style)
            if place == count - 1:
                break
        self.assertEqual(reached, list(range(count)))
        self.assertGreater(count, 10)
        self.assertEqual(framed, {"solid"})
        browser.value("document.querySelector('tr[data-statement=\"0\"] button').focus()")
        self.press(browser, "Enter", 13)
        self.assertEqual(browser.named("tr:has(button[aria-expanded=true])", "data-statement"), ["0"])
        self.assertEqual(len(browser.texts("#detail")), 1)
        self.assertEqual(browser.value("document.activeElement.getAttribute('aria-label')"), "statement 0")
        self.press(browser, "Enter", 13)
        self.assertEqual(browser.texts("#detail"), [])
        browser.value("document.querySelector('g[data-box^=\"path main\"]').focus()")
        self.press(browser, "Enter", 13)
        self.assertEqual(browser.value("document.getElementById('came-path').value"), "path:main")
        self.assertEqual(browser.value("document.activeElement.id"), "came-path")
        self.assertEqual(browser.problems(), [])

    def names_of(self, browser: chromium.Browser) -> list[tuple[str, str]]:
        """The role and the name of all that a screen reader finds, as the browser gives them to it."""
        found = browser.send("Accessibility.getFullAXTree")["nodes"]
        return [(node["role"]["value"], node.get("name", {}).get("value", "").strip())
                for node in found if not node["ignored"]]

    def test_read_out(self) -> None:
        """Each control, picture and head has a name that is read out, and no two buttons for other things
        have one; and the rules of read_out.js hold, before and after a statement is chosen."""
        rules = read(os.path.join(os.path.dirname(__file__), "read_out.js")).decode()
        for data, outcome in ((self.data, self.outcome), (orders(), None), (orders(2), None)):
            browser = chromium.Browser(self.made(data, outcome=outcome))
            self.addCleanup(browser.close)
            browser.send("Accessibility.enable")
            for selector in ("h1", 'tr[data-statement="0"]'):
                browser.click(selector)
                self.assertEqual(browser.value(rules), [])
                found = self.names_of(browser)
                self.assertEqual([role for role, name in found if role in self.NAMED and not name], [])
                names = {name for role, name in found if role == "button"}
                self.assertIn("statement 0", names)
                self.assertFalse(names & {"save", "content"}, names)
            self.assertEqual(browser.problems(), [])


class WithoutProgram(PageMaker):
    def test_texts(self) -> None:
        """Without a replay, the statements of a script that asks one after the other have their texts."""
        from .test_as_read import ROWS, packed
        path = self.made(packed(ROWS, script='sql q "SELECT cost FROM t WHERE id > ?" 1\nopen f r "x" else '
                                             'a\na:\n'))
        shown = self.data_of(path)
        self.assertEqual([(each["text"], each["params"]) for each in shown["statements"]],
                         [("SELECT cost FROM t WHERE id > ?", ["1"])])
        self.assertEqual(shown["tables"][0]["columns"][2], ["cost (€)", "INT"])
        self.assertEqual(shown["tables"][0]["rows"][1][3:6], [2, "3.12.2024", {"i": "12,50"}])
        path = self.made(packed(ROWS, script='let x = 1\nif x = 2 goto a\nsql q "SELECT cost FROM t"\na:\n'))
        self.assertEqual([each["text"] for each in self.data_of(path)["statements"]], [None])
        shown = self.data_of(self.made(packed(ROWS), "--raw"))
        self.assertEqual(shown["tables"][0]["rows"][1][3:6], [2, "2024-12-03", 1250])

    def test_loops(self) -> None:
        """Of a script that loops the statements are shown that it has, each with its parameters as they are
        written; a statement of other tables is none of them."""
        shown = self.data_of(self.made(orders()))
        files = json.loads(read(f"{EXAMPLES}/orders.json"))["files"]
        written = [shown["written"][place] for each in shown["statements"] for place in each["written"]]
        self.assertEqual([(path, params) for path, _, _, params in written],
                         [("main.ldv", ["id", "who", "line"])] * 2 + [("report.ldv", ["arg1"])])
        for path, line, text, params in written:
            self.assertRegex(files[path].split("\n")[line - 1].strip(),
                             rf'^sql \w+ "{re.escape(text)}" {" ".join(params)}$')
        self.assertEqual({each["text"] for each in shown["statements"]}, {None})

    def test_several(self) -> None:
        """Where a statement may be one of several, it is told which: of the tables that the trace names."""
        number = encoder.column("k", "INT NOT NULL")
        tables = [encoder.table("c", [number], foreign=[encoder.foreign([0], "p")]),
                  encoder.table("p", [number], [0]), encoder.table("t", [number])]
        lines = ["a:", 'sql q "SELECT k FROM t"', 'sql q "SELECT k FROM t WHERE k = ?" x',
                 'sql q "DELETE FROM t"', 'sql q "SELECT k FROM p"', 'sql q "SELECT k FROM absent"',
                 'sql q "SELEC"', "sql q x", 'sql q "SELECT k FROM c"', 'sql q "SELECT k FROM t"', "goto a"]
        trace = [encoder.started(), encoder.asked(0, 2, tables=["t"]), encoder.asked(1, 3, tables=["p"]),
                 encoder.asked(2, 4), encoder.asked(3, 5, tables=["c", "p"]), encoder.ended(6)]
        data = encoder.encode(encoder.package(2, steps=6, files=[encoder.file("main", "\n".join(lines))],
                                                tables=tables, trace=trace))
        shown = self.data_of(self.made(data))
        found = [[shown["written"][place][1] for place in each["written"]] for each in shown["statements"]]
        # The one of a computed text, on line 8, may be each.
        self.assertEqual(found, [[2, 3, 4, 8], [5, 8], [6, 7, 8], [8, 9]])
