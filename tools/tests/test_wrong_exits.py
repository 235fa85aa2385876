"""The wrong exits that are planted, and how the verdicts on them are judged."""
from __future__ import annotations

import contextlib
import io
import os
import tempfile
import unittest
from typing import Any, Optional
from unittest import mock

from checks import wrong_exits

from .support import read

SOURCE = """fn write_response<K: Sink>(sink: &mut K, response: Response) -> Exit
    ensures { Responds }
{
    match response {
        Response::Written(bytes) => write_output(sink, bytes.as_slice()),
        Response::NoSuch => Exit::NoSuch,
    }
}
"""


def all_refused() -> dict[str, str]:
    """The verdicts where each wrong body is refused, and the one without a change is proved."""
    return {**{wrong_exits.name_of(each): "not proved" for each in wrong_exits.WRONG},
            "write_response_unchanged": "proved"}


def judged(verdicts: Any) -> tuple[bool, str]:
    """Whether these verdicts are well, and what is printed of them."""
    with contextlib.redirect_stdout(io.StringIO()) as told:
        well = wrong_exits.judge(verdicts)
    return well, told.getvalue()


# In place of the kit's module: two libraries below the crate, each in a folder of its own.
KIT = """
import os

class Crate:
    def __init__(self, top, name, used=()):
        self.folder, self.name, self.used = os.path.join(top, 'crates', name), name, used
        self.rlib = os.path.join(self.folder, 'out', 'rlib', name + '.rlib')

    def stamp(self):
        return 'sum of ' + self.name

    def below(self):
        return self.used

    def is_built(self):
        try:
            with open(os.path.join(self.folder, 'out', 'rlib', 'stamp')) as file:
                return os.path.isdir(self.rlib) and file.read() == self.stamp()
        except OSError:
            return False

def crates_below(top):
    below = [Crate(top, 'low'), Crate(top, 'lower')]
    return [*below, Crate(top, 'ldv_top', below)]
"""


class Built(unittest.TestCase):
    """The check takes the libraries that `rt ci` left, and where one is missing nothing is checked."""

    def setUp(self) -> None:
        room = tempfile.TemporaryDirectory()
        self.addCleanup(room.cleanup)
        self.top = room.name
        for name, text in (("rt", ""), ("rtlib.py", KIT)):
            with open(os.path.join(self.top, name), "w", encoding="utf-8") as file:
                file.write(text)
        os.chmod(os.path.join(self.top, "rt"), 0o755)
        path = mock.patch.dict(os.environ, {"PATH": self.top + os.pathsep + os.environ["PATH"]})
        path.start()
        self.addCleanup(path.stop)

    def built(self, name: str, mark: Optional[str] = None) -> str:
        """Makes the folder of a library, with a sum beside it where one is given; the path of the sum."""
        out = os.path.join(self.top, "crates", name, "out", "rlib")
        os.makedirs(os.path.join(out, name + ".rlib"))
        if mark is not None:
            with open(os.path.join(out, "stamp"), "w", encoding="utf-8") as file:
                file.write(mark)
        return os.path.join(out, "stamp")

    def test_marked(self) -> None:
        one, other = self.built("low"), self.built("lower", "sum of lower")
        wrong_exits.mark_built(self.top)
        self.assertEqual(read(one), b"sum of low")
        self.assertEqual(read(other), b"sum of lower")

    def test_of_another_text(self) -> None:
        """A sum that `rt check` wrote stays, so that a library of another text counts as not built."""
        self.built("low")
        mark = self.built("lower", "sum of something else")
        with self.assertRaisesRegex(SystemExit, "not built.*: lower$"):
            wrong_exits.mark_built(self.top)
        self.assertEqual(read(mark), b"sum of something else")

    def test_missing(self) -> None:
        self.built("lower")
        with self.assertRaisesRegex(SystemExit, "not built.*: low$"):
            wrong_exits.mark_built(self.top)


class Planted(unittest.TestCase):
    def test_each_exit(self) -> None:
        self.assertEqual(set(wrong_exits.exits()), {*wrong_exits.WRONG, "NoMemory"})

    def test_of_the_program(self) -> None:
        planted = wrong_exits.planted(wrong_exits.read("src", "top.rt"))
        for each in wrong_exits.WRONG:
            self.assertEqual(planted.count(f"fn {wrong_exits.name_of(each)}<"), 1)

    def test_one_line_each(self) -> None:
        unchanged, *wrong = wrong_exits.planted(SOURCE)[len(SOURCE):].split("\nfn ")[1:]
        self.assertEqual(len(wrong), len(wrong_exits.WRONG))
        for body in wrong:
            pairs = zip(body.splitlines()[1:], unchanged.splitlines()[1:])
            differ = [one for one, other in pairs if one != other]
            self.assertEqual(len(differ), 1)
            self.assertIn("Response::Written(bytes) => { let _ = &bytes; ", differ[0])

    def test_another_form(self) -> None:
        with self.assertRaises(SystemExit):
            wrong_exits.planted(SOURCE.replace("bytes.as_slice()", "&bytes"))


class Said(unittest.TestCase):
    def test_help(self) -> None:
        with contextlib.redirect_stdout(io.StringIO()) as told:
            self.assertEqual(wrong_exits.main(["--help"]), 0)
        self.assertIn("python3 tools wrong_exits [CHECK ..]", told.getvalue())


class Judged(unittest.TestCase):
    def test_all_refused(self) -> None:
        well, told = judged(all_refused())
        self.assertTrue(well)
        self.assertEqual(told.count(": refused\n"), len(wrong_exits.WRONG))

    def test_open_goals(self) -> None:
        """An open goal of its own clause is a refusal, one of something else isn't."""
        name = wrong_exits.name_of("Damaged")
        said = "no proof: expected answers in ./proofs/top/%s/Answers.antt; `search` did not prove `%s`"
        self.assertTrue(judged({**all_refused(), name: said % (name, "returns-in-Written")})[0])
        for other in (said % (name, "overflow_1"), "no proof: it calls `top::ldv`, which is not proved"):
            self.assertFalse(judged({**all_refused(), name: other})[0], other)

    def test_one_proved(self) -> None:
        well, told = judged({**all_refused(), wrong_exits.name_of("Damaged"): "proved"})
        self.assertFalse(well)
        self.assertIn("Damaged always: PROVED\n", told)

    def test_one_not_judged(self) -> None:
        verdicts = all_refused()
        del verdicts[wrong_exits.name_of("Clash")]
        well, told = judged(verdicts)
        self.assertFalse(well)
        self.assertIn("Clash always: NOT JUDGED\n", told)

    def test_nothing_proved(self) -> None:
        self.assertFalse(judged({**all_refused(), "write_response_unchanged": "not proved"})[0])

    def test_verdicts(self) -> None:
        said = ("fn top::write_response_clash: not proved\nfn top::ldv: proved\n"
                "fn top::write_response_unchanged: proved\n")
        self.assertEqual(wrong_exits.verdicts(said), {
            "write_response_clash": "not proved", "write_response_unchanged": "proved"})
