#!/usr/bin/env python3
"""Runs the tests of the libraries in clients/, each of which has the scenarios of clients/conformance among its own. Ends with
'N passed, M failed', or 'N passed, M failed, K skipped'.

A library whose language is not installed is skipped, and counts as one: tests/setup installs the languages. With words, it runs the
libraries of these names alone. The tests of a library say what they came to, and its last line is 'N passed, M failed'.
"""
import os
import pathlib
import re
import shutil
import subprocess
import sys
import time
from typing import Dict, List, NamedTuple, Tuple

from program import PROGRAM

TOP = pathlib.Path(__file__).resolve().parent.parent
LIMIT = 900  # seconds for one library, on a machine that is busy
COUNTS = re.compile(r"(\d+) passed, (\d+) failed")


class Language(NamedTuple):
    """A library: the commands that its tests need, and files that Debian's packages have."""

    commands: Tuple[str, ...]
    files: Tuple[str, ...] = ()

    def missing(self) -> List[str]:
        return [name for name in self.commands if shutil.which(name) is None] + [name for name in self.files if not os.path.exists(name)]


JARS = "/usr/share/java/"
JAVA = ("javac", "jar", "java")

LANGUAGES: Dict[str, Language] = {
    "go": Language(("go",)),
    "java": Language(JAVA, (JARS + "junit-jupiter-engine.jar", JARS + "junit-platform-console.jar")),
    "rust": Language(("cargo",)),
    "clojure": Language(JAVA, (JARS + "clojure.jar", JARS + "spec.alpha.jar", JARS + "junit-jupiter-api.jar")),
    "erlang": Language(("erlc", "erl")),
    "c": Language(("cc",)),
}


def environment() -> Dict[str, str]:
    """The program that is tested, and no cause: each one would start Python."""
    kept = {name: value for name, value in os.environ.items() if not name.startswith("JEPMON")}
    return dict(kept, JEPMON=str(PROGRAM), JEPMON_JUDGE="no")


def run(name: str) -> Tuple[int, int]:
    """Runs the tests of a library: how many passed, and how many failed."""
    begun = time.monotonic()
    try:
        ran = subprocess.run([str(TOP / "clients" / name / "run-tests")], stdin=subprocess.DEVNULL, stdout=subprocess.PIPE,
                             stderr=subprocess.STDOUT, env=environment(), timeout=LIMIT, universal_newlines=True)
    except (subprocess.TimeoutExpired, OSError) as fault:
        print(f"clients {name}: FAILED: {fault}")
        return 0, 1
    found = COUNTS.search((ran.stdout.splitlines() or [""])[-1])
    passed, failed = (int(found.group(1)), int(found.group(2))) if found else (0, 1)
    failed = max(failed, int(ran.returncode != 0))
    print(f"clients {name}: {passed} passed, {failed} failed, in {time.monotonic() - begun:.0f} seconds", flush=True)
    if failed:
        print(ran.stdout)
    return passed, failed


def main(names: List[str]) -> int:
    unknown = sorted(set(names) - set(LANGUAGES))
    for name in unknown:
        print(f"clients {name}: there is no such library")
    passed, failed, skipped = 0, len(unknown), 0
    for name, language in LANGUAGES.items():
        if names and name not in names:
            continue
        missing = language.missing()
        if missing:
            print(f"clients {name}: skipped, since this is not installed: {', '.join(missing)}")
            skipped += 1
            continue
        good, bad = run(name)
        passed, failed = passed + good, failed + bad
    print(f"{passed} passed, {failed} failed" + (f", {skipped} skipped" if skipped else ""))
    return 1 if failed else 0


if __name__ == "__main__":
    sys.exit(main(sys.argv[1:]))
