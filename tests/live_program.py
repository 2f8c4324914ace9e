"""The exchange with the program: options it refuses, its end, its silence, and Ctrl-C."""
import gc
import io
import os
import pathlib
import signal
import subprocess
import sys
import time
from typing import Set

from live_base import PROGRAM, THREADS, TOP, another_program, child_of, raised, refused_at_once
from jepmon import Monitor, NotLegal, Refused


def what_is_refused() -> None:
    def model() -> None:
        with Monitor(PROGRAM) as monitor:
            monitor.set_model(0, "stack")

    assert str(raised(Refused, model)).startswith("refused 5 BadValue: [:model 0 :stack]")


def options_out_of_their_limits() -> None:
    """The monitor's constructor reports an option that jepmon does not take, with its own words and the limits."""
    error = str(raised(Refused, lambda: Monitor(PROGRAM, model="stack")))
    assert f"{PROGRAM} script --concurrency 64 --model stack --budget 4096 has ended, with status 3: error: --model" in error, error
    for concurrency in (0, 65):
        error = str(raised(Refused, lambda: Monitor(PROGRAM, concurrency=concurrency)))
        assert error.endswith("3: refused 10 BadConcurrency\nthe concurrency is a number from 1 to 64"), error
    for budget in (0, 65537):
        error = str(raised(Refused, lambda: Monitor(PROGRAM, budget=budget)))
        assert error.endswith("3: refused 9 BadBudget\na budget is a number from 1 to 65536"), error


def programs_that_are_no_jepmon() -> None:
    """Each way in which the first reply does not come, or is invalid, raises at once."""
    words = "PROGRAM script --concurrency 64 --model register --budget 4096"
    for script, error in (
        ("exit 0", f"{words} has ended, with status 0"),
        ("echo not proved >&2; exit 3", f"{words} has ended, with status 3: not proved"),
        ("kill -TERM $$", f"{words} has ended, by signal 15"),
        ("cat", f"{words} is no jepmon: its first reply was '[:verdict]'"),
        ("printf leg", f"{words} has ended, with status 0"),
        ("read line; echo building >&2; sleep 60", f"{words} gave no reply for 1.5 seconds: building"),
        ("dd if=/dev/zero bs=1M count=1 >&2; exit 5", f"{words} has ended, with status 5: "),
    ):
        told = refused_at_once(script, timeout=1.5 if "sleep" in script else 60.0)
        assert told == error or error.endswith(": ") and told.startswith(error), (script, told[:300])
    raised(PermissionError, lambda: Monitor("/"))


def the_program_ends() -> None:
    monitor = Monitor(PROGRAM)
    with monitor.write(0, 1):
        pass
    os.kill(child_of(monitor).pid, signal.SIGKILL)
    operation = monitor.write(0, 2).__enter__()  # its invocation is sent with its completion
    error = raised(Refused, lambda: operation.__exit__(None, None, None))
    assert str(error).endswith("--budget 4096 has ended, by signal 9"), error
    assert monitor.close() == str(error)
    assert isinstance(error, NotLegal)


def the_program_wants_memory() -> None:
    """It ends within the test, and the exception has its last words, with advice."""
    with another_program("ulimit -v 10000; exec $jepmon \"$@\"") as program:
        monitor = Monitor(program)

        def fill() -> None:
            for key in range(65536):
                for number in range(20):
                    with monitor.write(key, number):
                        pass

        error = str(raised(Refused, fill))
        assert "has ended, with status 3: refused 13 NoMemory\nthe memory did not suffice" in error, error
        monitor.close()


def the_program_gives_no_reply() -> None:
    """One that hangs is killed after the time that a reply may take: in the thread that waits, and then in each other one."""
    monitor = Monitor(PROGRAM, timeout=0.5)
    with monitor.write(0, 1):
        pass
    os.kill(child_of(monitor).pid, signal.SIGSTOP)
    begin = time.monotonic()
    error = str(raised(Refused, lambda: monitor.run(lambda number: monitor.write(number, 2).__enter__(), THREADS)))
    assert error.endswith("gave no reply for 0.5 seconds"), error
    assert monitor.close() == error and child_of(monitor).returncode == -signal.SIGKILL
    assert time.monotonic() - begin < 5


def a_line_longer_than_a_pipe() -> None:
    """Is sent whole, or not for ever where nobody reads it."""
    members = range(10 ** 9, 10 ** 9 + 5900)  # some 65,000 bytes
    monitor = Monitor(PROGRAM, model="set", timeout=0.5)
    with monitor.add(0, 1):
        pass
    operation = monitor.read(0).__enter__()
    os.kill(child_of(monitor).pid, signal.SIGSTOP)
    monitor._telling._exchange._script._input.write(b" " * (1 << 20))  # as much as the pipe takes
    operation.value = members
    assert "gave no reply" in str(raised(Refused, lambda: operation.__exit__(None, None, None)))
    monitor.close()

    def read_too_many() -> None:
        with Monitor(PROGRAM, model="set") as monitor:
            with monitor.read(0) as op:
                op.value = list(members) * 2 + list(range(900))

    error = raised(Refused, read_too_many)
    assert str(error).startswith("refused 22 TooLong: {:type :ok, ") and len(str(error)) < 100000, str(error)[:300]
    assert "let the sets that are read be smaller" in str(error)


def an_exchange_that_is_broken_off() -> None:
    """As by Ctrl-C while a reply is awaited: a later reply can't be distinguished from the one that may come yet."""
    class Broken(io.StringIO):
        def write(self, text: str) -> int:
            raise KeyboardInterrupt

    monitor = Monitor(PROGRAM)
    monitor._telling._record.log = Broken()
    raised(KeyboardInterrupt, monitor.read(0).__enter__)
    monitor._telling._record.log = None
    assert str(raised(Refused, monitor.read(0).__enter__)) == "the exchange with jepmon was broken off"
    assert monitor.close() == "the exchange with jepmon was broken off"
    assert child_of(monitor).returncode == 0


def a_test_that_is_interrupted() -> None:
    """Ctrl-C while clients go on for ever ends them at their next operation, and the test."""
    script = f"""
import sys
from jepmon import Monitor
def client(number):
    while True:
        with monitor.write(number, 1):
            print(flush=True)
with Monitor({PROGRAM!r}) as monitor:
    monitor.run(client, 4)
"""
    for _ in range(10):  # it comes at one moment or another, also while threads start
        child = subprocess.Popen([sys.executable, "-B", "-c", script], stdout=subprocess.PIPE, stderr=subprocess.PIPE,
                                 env=dict(os.environ, PYTHONPATH=str(TOP / "python")))
        assert child.stdout is not None and child.stdout.readline() == b"\n"
        child.send_signal(signal.SIGINT)
        _, errors = child.communicate(timeout=30)
        assert child.returncode != 0 and errors.rstrip().endswith(b"KeyboardInterrupt"), errors


def nothing_is_left_open() -> None:
    """However a monitor ends, its files are closed, and no child is left."""
    def files() -> Set[str]:
        gc.collect()  # what earlier tests have left
        return set(os.listdir("/proc/self/fd"))

    before = files()
    monitor = Monitor(PROGRAM)
    child = child_of(monitor)
    assert monitor.close() == "legal" and child.returncode == 0
    raised(Refused, lambda: Monitor(PROGRAM, concurrency=0))
    raised(FileNotFoundError, lambda: Monitor("/nowhere/jepmon"))
    with another_program("cat") as program:
        raised(Refused, lambda: Monitor(program))
    assert files() == before, (files(), before)


def a_session_of_its_own() -> None:
    with Monitor(PROGRAM) as monitor:
        child = child_of(monitor)
        assert os.getsid(child.pid) == child.pid != os.getsid(0)


def a_closed_monitor() -> None:
    monitor = Monitor(PROGRAM)
    assert monitor.close() == "legal"
    raised(ValueError, monitor.read(0).__enter__)


def no_program() -> None:
    raised(FileNotFoundError, lambda: Monitor("/nowhere/jepmon"))
    raised(FileNotFoundError, lambda: Monitor(pathlib.Path("/nowhere/jepmon")))


TESTS = [what_is_refused, options_out_of_their_limits, programs_that_are_no_jepmon, the_program_ends, the_program_wants_memory,
         the_program_gives_no_reply, a_line_longer_than_a_pipe, an_exchange_that_is_broken_off, a_test_that_is_interrupted,
         nothing_is_left_open, a_session_of_its_own, a_closed_monitor, no_program]
