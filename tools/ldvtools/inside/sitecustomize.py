"""Python imports this before a program, since its folder is the first of PYTHONPATH: it watches the drivers
of databases, or plays them, and then is as if it weren't there."""
import importlib
import os
import sys

HERE = os.path.dirname(os.path.abspath(__file__))
TOOLS = os.path.dirname(os.path.dirname(HERE))


def begin() -> None:
    """Watches the drivers. The variables stay as they are for Python programs that this one starts."""
    sys.path[:] = [path for path in sys.path if os.path.abspath(path or ".") != HERE]
    sys.path.insert(0, TOOLS)
    try:
        from ldvtools.inside import drivers
    finally:
        sys.path.remove(TOOLS)
    drivers.watch()


def go_on() -> None:
    """Imports the sitecustomize that Python would have imported."""
    own = sys.modules.pop("sitecustomize")
    try:
        importlib.import_module("sitecustomize")
    except ImportError:
        sys.modules["sitecustomize"] = own


if os.environ.get("LDV_INSIDE") and __name__ == "sitecustomize":
    begin()
    go_on()
