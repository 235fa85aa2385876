"""A file of records that stays when its process is killed. It is mapped into memory, so a record costs no
call of the system.

The file grows by windows of WINDOW bytes that are zeros before they are mapped. A record stands in one
window, or from the beginning of one over the next ones if it is longer. It is eight bytes, the length and
the Adler-32 of what follows, and the data. Zeros in place of a length, and a rest of a window that has no
room for eight bytes, say that the next record is at the beginning of the next window. A record that was
being written when the process was killed has another sum, and is the last one.
"""
from __future__ import annotations

import mmap
import os
import struct
import zlib
from collections import deque
from threading import RLock

TYPE_CHECKING = False
if TYPE_CHECKING:
    from typing import Any, Callable, Iterator

WINDOW = 1 << 18
# In the form of this machine, which is made quickest.
HEAD = struct.Struct("@II")
pack, sum_of = HEAD.pack, zlib.adler32


class Kept:
    """A file to which records are appended, by any thread. One call writes a record and moves on, so no
    lock is wanted within a window, and a signal's handler may append too."""

    def __init__(self, path: str) -> None:
        os.close(os.open(path, os.O_RDWR | os.O_CREAT | os.O_EXCL, 0o600))
        self.path, self.lock = path, RLock()
        self.end = 0
        self.window: Any = None
        self.write: Callable[[bytes], Any] = refuse
        self.waiting: deque[bytes] = deque()
        self.is_growing = False

    def append(self, data: bytes) -> None:
        try:
            self.write(pack(len(data), sum_of(data)) + data)
        except ValueError:
            self.grow(pack(len(data), sum_of(data)) + data)

    def grow(self, record: bytes) -> None:
        """Writes a record that the window has no room for, in a new one."""
        with self.lock:
            self.waiting.append(record)
            # A signal's handler that interrupts this call leaves its record to it.
            while self.waiting and not self.is_growing:
                self.is_growing = True
                try:
                    self.write_or_open(self.waiting.popleft())
                finally:
                    self.is_growing = False

    def write_or_open(self, record: bytes) -> None:
        try:
            # Another thread may have opened a window meanwhile.
            self.write(record)
        except ValueError:
            self.open(record)

    def open(self, record: bytes) -> None:
        """Opens the file for its next window, in which the record is the first: other threads write to the
        window as soon as they know it, and may fill it. The file isn't kept open, since a program may close
        what it doesn't know."""
        size = -(-len(record) // WINDOW) * WINDOW
        file = os.open(self.path, os.O_RDWR)
        os.lseek(file, self.end, os.SEEK_SET)
        # Zeros are written first, so a full disk is an exception here and no signal later.
        zeros = memoryview(bytes(size))
        while zeros:
            zeros = zeros[os.write(file, zeros):]
        try:
            window: Any = mmap.mmap(file, size, offset=self.end)
        except OSError:
            os.lseek(file, self.end, os.SEEK_SET)
            window = Written(file, size)
        else:
            os.close(file)
        self.end += size
        window.write(record)
        self.window, self.write = window, window.write


class Written:
    """A window that is written to, if the file can't be mapped."""

    def __init__(self, file: int, room: int) -> None:
        self.file, self.room = file, room

    def write(self, record: bytes) -> None:
        if len(record) > self.room:
            raise ValueError
        self.room -= len(record)
        os.write(self.file, record)


def refuse(record: bytes) -> None:
    """There is no window yet."""
    raise ValueError


def kept_records(data: bytes) -> Iterator[bytes]:
    """The records of a file."""
    place = 0
    while place + HEAD.size <= len(data):
        length, expected = HEAD.unpack_from(data, place)
        if length == 0 or WINDOW - place % WINDOW < HEAD.size:
            place = (place // WINDOW + 1) * WINDOW
            continue
        place += HEAD.size
        record = data[place:place + length]
        if len(record) < length or sum_of(record) != expected:
            return
        yield record
        place += length
