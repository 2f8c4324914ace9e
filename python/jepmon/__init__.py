"""jepmon: judges histories of clients of a database, a lock, a queue or a set, and says why one is not linearizable.

The verdict is always that of the program `jepmon`, which is proved. Everything that this package adds around it (other forms of histories,
the live Monitor, causes in words, pages) is tested, and not proved.
"""
import os
import sys

if sys.version_info < (3, 9):  # an older Python must be able to parse this file and __main__.py
    _SAID = "jepmon needs Python 3.9 or later, and this is {}.{}: {}".format(sys.version_info[0], sys.version_info[1], sys.executable)
    _CALLED = os.path.basename(sys.argv[0])  # it is "-m" under `python -m`, and "-c" in Python 2
    if _CALLED in ("-m", "-c", "explain", "from-jepsen") or _CALLED.startswith("jepmon"):
        sys.stderr.write(_SAID + "\n")
        sys.exit(3)  # not 1: status 1 means that a history is illegal
    raise ImportError(_SAID)

TYPE_CHECKING = False  # like typing.TYPE_CHECKING: an older Python has no module typing

if TYPE_CHECKING:
    from .history.kinds import ABSENT
    from .live.keys import Keys
    from .live.monitor import Monitor
    from .live.operation import Operation
    from .live.verdicts import Failed, Illegal, JepmonError, NotLegal, Refused, Unknown
    from .long import LongMonitor

__version__ = "1.7.1"
__all__ = ["ABSENT", "Failed", "Illegal", "JepmonError", "Keys", "LongMonitor", "Monitor", "NotLegal", "Operation", "Refused", "Unknown"]

# The module of each name. A module is loaded at first use, so that the tools start fast.
_MODULES = {"ABSENT": "history.kinds", "Keys": "live.keys", "LongMonitor": "long", "Monitor": "live.monitor", "Operation": "live.operation"}
_MODULES.update(dict.fromkeys(("Failed", "Illegal", "JepmonError", "NotLegal", "Refused", "Unknown"), "live.verdicts"))


def __getattr__(name):
    # type: (str) -> object
    if name not in _MODULES:
        raise AttributeError("module 'jepmon' has no attribute {!r}".format(name))
    import importlib

    found = getattr(importlib.import_module("jepmon." + _MODULES[name]), name)  # type: object
    globals()[name] = found
    return found
