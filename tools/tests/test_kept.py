"""The file of a recorder that stays when its process is killed."""
from __future__ import annotations

import mmap
import os
import signal
import subprocess
import sys
import threading
import unittest
import unittest.mock
from typing import Any

from ldvtools.inside import kept
from ldvtools.inside.kept import HEAD, WINDOW, Kept, kept_records

from .support import TOOLS, InFolder, read

KILLED = """import os, signal
from ldvtools.inside.kept import Kept
file = Kept("log")
for number in range(10_000):
    file.append(b"record %d" % number)
os.kill(os.getpid(), signal.SIGKILL)
"""


class Records(InFolder):
    def path(self) -> str:
        return os.path.join(self.folder, "log")

    def records(self) -> list[bytes]:
        return list(kept_records(read(self.path())))

    def test_sizes(self) -> None:
        """Records of all sizes come back in their order: short ones, those that fill a window to a byte, and
        those that are longer."""
        expected = [b"a", b"", b"b" * (WINDOW - HEAD.size), b"c", b"d" * (WINDOW - 2 * HEAD.size - 1), b"e",
                    b"f" * (3 * WINDOW + 5), b"g", *(b"h%d" % number for number in range(70_000))]
        file = Kept(self.path())
        for record in expected:
            if record:
                file.append(record)
        self.assertEqual(self.records(), [record for record in expected if record])

    def test_rests(self) -> None:
        """A window of which a few bytes are left, before records of any length."""
        file, expected = Kept(self.path()), []
        for left in range(12):
            for length in (1, 255, 256, 65_536):
                expected += [b"a" * (WINDOW - HEAD.size - left), b"b" * length, b"c" * (WINDOW - 1)]
        for record in expected:
            file.append(record)
        self.assertEqual(self.records(), expected)

    def test_cut_off(self) -> None:
        """A record that wasn't written to its end is no record."""
        file = Kept(self.path())
        for record in (b"first", b"second" * 20):
            file.append(record)
        data = read(self.path())
        place = data.index(b"second")
        for lost in range(place, place + 120):
            for end in (lost + 1, place + 120):
                cut = data[:lost] + bytes(end - lost) + data[end:]
                self.assertEqual(list(kept_records(cut)), [b"first"])
        self.assertEqual(list(kept_records(data[:place + 50])), [b"first"])

    def test_killed(self) -> None:
        """What was appended is there when the process is killed."""
        done = subprocess.run([sys.executable, "-c", KILLED], cwd=self.folder, check=False,
                              env={**os.environ, "PYTHONPATH": TOOLS})
        self.assertEqual(done.returncode, -signal.SIGKILL)
        self.assertEqual(self.records(), [b"record %d" % number for number in range(10_000)])

    def appended_by_threads(self, count: int) -> list[tuple[int, ...]]:
        """The records of four threads, each with its name and its number there."""
        file = Kept(self.path())
        raised = []

        def append(name: int) -> None:
            try:
                for number in range(count):
                    file.append(b"%d %d" % (name, number) + b" " * 100)
            except Exception as error:
                raised.append(error)
        threads = [threading.Thread(target=append, args=(name,)) for name in range(4)]
        for thread in threads:
            thread.start()
        for thread in threads:
            thread.join()
        self.assertEqual(raised, [])
        return [tuple(map(int, record.split())) for record in self.records()]

    def test_threads(self) -> None:
        """Records of several threads are all there, those of each in their order."""
        found = self.appended_by_threads(5_000)
        for name in range(4):
            self.assertEqual([number for own, number in found if own == name], list(range(5_000)))

    def test_threads_at_a_window(self) -> None:
        """The same if windows are so small that a thread fills the one that another has just opened before
        that one's turn comes again."""
        with unittest.mock.patch.object(kept, "WINDOW", mmap.ALLOCATIONGRANULARITY):
            found = self.appended_by_threads(5_000)
        for name in range(4):
            self.assertEqual([number for own, number in found if own == name], list(range(5_000)))

    def test_handler(self) -> None:
        """A signal's handler appends too, wherever it interrupts the program's own records or another
        handler's."""
        file = Kept(self.path())
        handled: list[int] = []

        def append(_number: Any, _frame: Any) -> None:
            handled.append(len(handled))
            file.append(b"handler %d" % handled[-1] + b" " * 1_000)
        self.addCleanup(signal.signal, signal.SIGALRM, signal.signal(signal.SIGALRM, append))
        with unittest.mock.patch.object(kept, "WINDOW", mmap.ALLOCATIONGRANULARITY):
            for number in range(3_000):
                signal.setitimer(signal.ITIMER_REAL, 1e-6 * (1 + number % 100))
                file.append(b"program %d" % number + b" " * 1_000)
            signal.setitimer(signal.ITIMER_REAL, 0)
            found = [tuple(record.split()) for record in self.records()]
        self.assertEqual([int(number) for own, number in found if own == b"program"], list(range(3_000)))
        self.assertGreater(len(handled), 0)
        self.assertEqual(sum(own == b"handler" for own, _number in found), len(handled))

    def test_not_mapped(self) -> None:
        """Where a file can't be mapped, it is written to."""
        with unittest.mock.patch.object(mmap, "mmap", side_effect=OSError("no such device")):
            file = Kept(self.path())
            expected = [b"0", b"1" * (WINDOW - 1), b"2", b"3" * (WINDOW - 3 * HEAD.size), b"4"]
            for record in expected:
                file.append(record)
        self.assertEqual(self.records(), expected)

    def test_there(self) -> None:
        """A file that is there isn't written over."""
        Kept(self.path())
        with self.assertRaises(FileExistsError):
            Kept(self.path())
