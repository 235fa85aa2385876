"""Changes the drivers of databases when the program imports them: to recorders of what it asks, or to
players of what was recorded. LDV_INSIDE says which, `record` or `play`, and LDV_FOLDER where the log or the
replies are."""
from __future__ import annotations

import importlib.machinery
import os
import sys

# For a check of types alone: a program starts sooner without.
TYPE_CHECKING = False
if TYPE_CHECKING:
    import types
    from importlib.abc import Loader as PlainLoader
    from importlib.abc import MetaPathFinder as PlainFinder
    from typing import Callable, Dict, Optional, Sequence

    Change = Callable[[types.ModuleType], None]
else:
    PlainLoader = PlainFinder = object

# Drivers that aren't watched: the report names one that a program imports.
OTHERS = ("psycopg", "asyncpg", "pg8000", "MySQLdb", "pymysql", "mysql.connector", "duckdb", "apsw",
          "oracledb",
          "pyodbc", "pymssql")


class Loader(PlainLoader):
    """Loads a module as another loader does, and changes it then."""

    def __init__(self, inner: PlainLoader, change: Change) -> None:
        self.inner, self.change = inner, change

    def create_module(self, spec: importlib.machinery.ModuleSpec) -> Optional[types.ModuleType]:
        return self.inner.create_module(spec)

    def exec_module(self, module: types.ModuleType) -> None:
        self.inner.exec_module(module)
        if module.__spec__ is not None:
            module.__spec__.loader = self.inner
        module.__loader__ = self.inner
        self.change(module)


class Finder(PlainFinder):
    """Finds the modules that are to be changed."""

    def __init__(self, changes: Dict[str, Change]) -> None:
        self.changes = changes

    def find_spec(self, name: str, path: Optional[Sequence[str]],
                  target: Optional[types.ModuleType] = None) -> Optional[importlib.machinery.ModuleSpec]:
        change = self.changes.pop(name, None)
        if change is None:
            return None
        spec = importlib.machinery.PathFinder.find_spec(name, path, target)
        if spec is not None and spec.loader is not None:
            spec.loader = Loader(spec.loader, change)
        return spec


def changes_of(mode: str, folder: str) -> Dict[str, Change]:
    """What becomes of each driver."""
    if mode == "play":
        from . import play
        player = play.Player(folder)
        return {"sqlite3.dbapi2": player.change_sqlite, "psycopg2": player.change_psycopg2}
    from . import record
    log = record.Log(folder)
    found: Dict[str, Change] = {name: log.note_driver for name in OTHERS}
    found.update({"sqlite3.dbapi2": log.change_sqlite, "psycopg2": log.change_psycopg2})
    return found


def watch() -> None:
    """Has the drivers changed when they are imported."""
    changes = changes_of(os.environ["LDV_INSIDE"], os.environ["LDV_FOLDER"])
    sys.meta_path.insert(0, Finder(changes))
    for name in [name for name in changes if name in sys.modules]:
        changes.pop(name)(sys.modules[name])
