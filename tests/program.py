"""The program that is tested: the one that JEPMON names, as ./check does; else the one that was built here, else the released one."""
import os
import pathlib

TOP = pathlib.Path(__file__).resolve().parent.parent
BUILT = TOP / "crates" / "jepmon" / "out" / "jepmon"
RELEASED = TOP / "dist" / "jepmon"


def program() -> pathlib.Path:
    named = os.environ.get("JEPMON")
    return pathlib.Path(named) if named else BUILT if BUILT.exists() else RELEASED


PROGRAM = program()
# Python keeps what it compiles where ./check says, and else nowhere: the repository has none of it.
COMPILED = {} if "PYTHONPYCACHEPREFIX" in os.environ else {"PYTHONDONTWRITEBYTECODE": "1"}
