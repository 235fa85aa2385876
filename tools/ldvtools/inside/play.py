"""Plays what was captured: each connection of the program gets the answers of one that was captured, in
order.

`replies` in the folder has them: a list of connections in marshal, each with its driver and its events. A
connection of the program plays the first that isn't played yet and begins with the statement that it asks
first. What isn't as it was captured is an exception of the driver's own kind that says `diverged`, and is
noted in `diverged` in the folder. """
from __future__ import annotations

import atexit
import builtins
import marshal
import os
import sys
import threading
import types
from typing import Any, Dict, List, Optional

from .record import library_folders

Event = Dict[str, Any]


def shown(text: str, params: Any) -> str:
    """A statement with its parameters, for a message."""
    line = " ".join(text.split())
    line = line if len(line) <= 200 else line[:198] + ".."
    return f"{line!r}" + (f" with {params!r}" if params else "")


# The calls by which a statement is asked.
CALLS = {"one": "execute", "many": "executemany", "script": "executescript"}


def difference(event: Event, way: str, text: str, params: Any) -> str:
    """How a statement differs from the captured one, with each text once."""
    asked, captured = f"the program asks {shown(text, params)}", event["params"]
    if event["text"] != text:
        return f"{asked}, and what was captured is {shown(event['text'], captured)}"
    if event["way"] != way:
        return f"{asked} by {CALLS[way]}, and it was captured by {CALLS.get(event['way'], event['way'])}"
    return f"{asked}, and it was captured with {captured!r}"


class Player:
    """What was captured, and what of it is played."""

    def __init__(self, folder: str) -> None:
        self.folder, self.lock = folder, threading.RLock()
        self.libraries = library_folders()
        with open(os.path.join(folder, "replies"), "rb") as file:
            self.free: List[Dict[str, Any]] = marshal.load(file)
        self.count = sum(len(connection["events"]) for connection in self.free)
        self.asked = 0
        self.has_diverged = False
        self.owner = os.getpid()
        atexit.register(self.end)

    def take(self, driver: str, way: str, text: str, params: Any) -> Optional[List[Event]]:
        """The events of the connection that begins with a statement; else of the first one; None where none
        is left."""
        with self.lock:
            own = [each for each in self.free if each["driver"] == driver and each["events"]]
            for connection in own:
                if is_same(connection["events"][0], way, text, params):
                    break
            else:
                if not own:
                    return None
                connection = own[0]
            self.free.remove(connection)
            return list(connection["events"])

    def diverged(self, what: str) -> str:
        """Notes that the program isn't as it was captured, with its line."""
        frame: Optional[types.FrameType] = sys._getframe(1)
        while frame is not None and (frame.f_code.co_filename.startswith(self.libraries)
                                     or "-packages" in frame.f_code.co_filename):
            frame = frame.f_back
        place = ""
        if frame is not None:
            place = f"{os.path.basename(frame.f_code.co_filename)} line {frame.f_lineno}: "
        with self.lock, open(os.path.join(self.folder, "diverged"), "a", encoding="utf-8",
                             errors="backslashreplace") as file:
            file.write(place + what + "\n")
        return f"diverged: {what}"

    def end(self) -> None:
        """Notes how many statements were asked."""
        if os.getpid() == self.owner and self.asked:
            with open(os.path.join(self.folder, f"asked-{self.owner}"), "w", encoding="ascii") as file:
                file.write(f"{self.asked}")

    # ---- the drivers

    def change_sqlite(self, module: types.ModuleType) -> None:
        from . import play_sqlite
        play_sqlite.change(module, self)

    def change_psycopg2(self, module: types.ModuleType) -> None:
        from . import play_psycopg2
        play_psycopg2.change(module, self)


class Line:
    """The events of a connection of the program, and how far they were played."""

    def __init__(self, player: Player, driver: str) -> None:
        self.player, self.driver, self.place = player, driver, 0
        self.events: Optional[List[Event]] = None

    def next(self, way: str, text: str, params: Any, error: Any) -> Event:
        """What was captured of the next statement. Where it is another one, or there is no other, raises
        `error`."""
        if self.events is None:
            self.events = self.player.take(self.driver, way, text, params)
        events = self.events or []
        if self.place >= len(events):
            what = f"the program asks {shown(text, params)}, and no more was captured of this connection"
            raise error(self.player.diverged(what))
        event = events[self.place]
        if not is_same(event, way, text, params):
            raise error(self.player.diverged(difference(event, way, text, params)))
        self.place += 1
        self.player.asked += 1
        return event


    def act(self, act: str) -> Optional[Event]:
        """What was captured of an act, where it ended with an exception."""
        events = self.events or []
        if self.place >= len(events) or events[self.place]["way"] != act:
            return None
        self.place += 1
        self.player.asked += 1
        return events[self.place - 1]


def is_same(event: Event, way: str, text: str, params: Any) -> bool:
    """Whether a statement is the captured one. Of many that ended with an exception the last ones weren't
    noted."""
    if event["way"] != way or event["text"] != text:
        return False
    if way == "many" and event.get("fault"):
        params = params[:len(event["params"])]
    return same(event["params"], params)


def same(one: Any, other: Any) -> bool:
    """Whether parameters are the same, by their kinds too: 1 isn't 1.0, and no truth."""
    if type(one) is not type(other):
        return False
    if isinstance(one, dict):
        return one.keys() == other.keys() and all(same(one[name], other[name]) for name in one)
    if isinstance(one, (tuple, list)):
        return len(one) == len(other) and all(map(same, one, other))
    return bool(one == other) or one != one and other != other


def fault_of(fault: Any, modules: Dict[str, Any]) -> BaseException:
    """The exception that the program got. `modules` are those of the driver, by their names."""
    module, name, arguments, codes = fault
    kind = getattr(modules.get(module, builtins), name, None)
    if not (isinstance(kind, type) and issubclass(kind, BaseException)):
        kind = next(iter(modules.values())).Error
    found: BaseException = kind(*arguments)
    if hasattr(found, "__setstate__") and "pgcode" in codes:
        found.__setstate__(dict(codes))
    else:
        for code, value in codes.items():
            setattr(found, code, value)
    return found
