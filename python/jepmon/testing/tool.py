"""`jepmon-test SERVER`: from the command line to the exit status."""
from __future__ import annotations

import pathlib
import signal
import sys
import threading
from types import FrameType
from typing import TYPE_CHECKING, List, Optional, Tuple

from ..live.verdicts import NotLegal
from ..tools import command
from ..tools.errors import OutputError, ProgramError
from . import report, cli_options as words
from .cli_options import NAME
from .errors import ServerError, where
from .run import Given, Test

if TYPE_CHECKING:
    from ..long import LongMonitor


def main(arguments: Optional[List[str]] = None) -> int:
    """Tests the server that the command line names. Returns the exit status."""
    try:
        for number in (signal.SIGTERM, signal.SIGHUP):
            if threading.current_thread() is threading.main_thread():
                signal.signal(number, _terminated)
        given = words.given(arguments)
        if given is None:
            command.write_output([(pathlib.Path(__file__).parent / "template.py").read_text()])
            return 0
        return _test(given)[0] if given.times == 1 else _tests(given)
    except (ServerError, ProgramError, OutputError, FileNotFoundError) as fault:
        command.say(NAME, str(fault))
    except NotLegal as fault:
        command.say(NAME, str(fault).split("\n")[0])
    except KeyboardInterrupt:
        command.say(NAME, "interrupted: no server is left")
        return command.INTERRUPTED
    except OSError as fault:
        command.say(NAME, f"{fault.filename or 'a file'}: {fault.strerror}")
    except Exception as fault:
        command.say(NAME, f"a fault of the test itself: {where(fault)}")
    return command.REFUSED


def _terminated(number: int, _frame: Optional[FrameType]) -> None:
    sys.exit(128 + number)


VERDICTS, NO_VERDICT = ("legal", "illegal", "lost", "crashed", "unknown", "no"), "without a verdict"  # the first words of verdicts
WORST = (1, 3, 2, 0)  # statuses, the worst one first: the status of several tests is the first of these that occurs


def _tests(given: Given) -> int:
    """Runs tests with one seed after another, and prints a line for each at the end. After Ctrl-C the lines are those of the finished
    tests."""
    lines, statuses = [], []
    try:
        for number in range(given.times):
            one = given._replace(seed=given.seed + number)
            try:
                status, verdict = _test(one)
            except ServerError as fault:  # only this test fails; the next one may start
                status, verdict = command.REFUSED, f"no verdict: {fault}"
                command.say(NAME, str(fault))
            statuses.append(status)
            lines.append(f"seed {one.seed}: {verdict}\n")
    finally:
        command.write_output(["\n", *lines, f"{len(statuses)} of {given.times} tests: {counted(lines)}\n"])
    return next(status for status in WORST if status in statuses)


def counted(lines: List[str]) -> str:
    """The number of these lines, `seed 1: legal (FOLDER)`, with each verdict."""
    words = [line.partition(": ")[2].split()[0] for line in lines]
    return ", ".join(f"{words.count(word)} {NO_VERDICT if word == 'no' else word}" for word in VERDICTS if word in words) or "none ended"


def _test(given: Given) -> Tuple[int, str]:
    """Runs one test. Returns its status, and its verdict with the folder."""
    given.server.test_installed()
    progress = Progress()
    test = Test(given, progress.show)
    command.write_output([report.heading(given, test.plan, test.network)])
    try:
        outcome = test.run()
    except (KeyboardInterrupt, SystemExit):
        progress.end()
        if test.broken_off is not None:
            command.write_output([report.text(test.broken_off)])
        raise
    finally:
        progress.end()
    for line in report.cause(outcome):
        command.write_error(line)
    command.write_output([report.text(outcome)])
    if outcome.reason:
        command.say(NAME, outcome.reason)
    return outcome.status, f"{outcome.verdict or 'no verdict'} ({outcome.folder})"


class Progress:
    """A line on a terminal, renewed each second."""

    def __init__(self) -> None:
        self._shown = 0.0
        self._is_on = sys.stderr is not None and sys.stderr.isatty()

    def show(self, seconds: float, monitor: LongMonitor, strikes: int) -> None:
        if self._is_on and seconds - self._shown >= 1.0:
            self._shown = seconds
            sys.stderr.write(f"\r\x1b[K{seconds:4.0f} s: {monitor.length:,} events, {strikes} strikes, "
                             + ("legal so far" if monitor.failure is None else "not legal"))
            sys.stderr.flush()

    def end(self) -> None:
        if self._shown:
            self._shown = 0.0
            sys.stderr.write("\r\x1b[K")
            sys.stderr.flush()
