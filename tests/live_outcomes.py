"""How operations end, by timeouts and failures, and keys over their budget."""
import asyncio
import io
import subprocess
from typing import List, Tuple

from live_base import PROGRAM, THREADS, kinds_told, raised
from jepmon import Failed, Illegal, Monitor, Refused, Unknown


def a_timeout_is_an_info() -> None:
    """A write that timed out may be read later on, and its thread of jepmon goes on with the next process."""
    log = io.StringIO()
    with Monitor(PROGRAM, concurrency=3, expected=(TimeoutError,), log=log) as monitor:
        for number in range(3):
            with monitor.write(0, number) as op:
                raise TimeoutError
            assert op.outcome == "info"
            with monitor.read(0) as op:
                op.value = number
            assert op.outcome == "ok"
    assert kinds_told(log, "write") == ["ok", "info", "info", "info"], log.getvalue()
    assert ":process 9, :f :read, :value [0 2]" in log.getvalue(), log.getvalue()


def an_unexpected_exception_goes_on() -> None:
    log = io.StringIO()
    with Monitor(PROGRAM, log=log) as monitor:

        def fail() -> None:
            with monitor.write(0, 1):
                raise KeyError("of the test")

        raised(KeyError, fail)
        raised(KeyError, lambda: monitor.run(lambda number: fail(), 1))
    assert kinds_told(log, "write") == ["ok", "info", "info"]


def what_failed_did_not_take_place() -> None:
    log = io.StringIO()

    def read_what_failed() -> None:
        with Monitor(PROGRAM, log=log) as monitor:
            with monitor.write(0, 1):
                raise Failed("the store refused it")
            with monitor.write(0, 2) as op:
                op.fail()
            with monitor.write(0, 3) as op:
                op.info()
            with monitor.read(0) as op:
                op.value = 3
            with monitor.read(0) as op:
                op.value = 2

    error = raised(Illegal, read_what_failed)
    assert kinds_told(log, "write") == ["ok", "fail", "fail", "info"]
    assert str(error).endswith("\n2 was written by process 0 in events 4-5, recorded as a fail: did it take place? Then it is an info, "
                               "or the store's fault"), error


def counts_of_outcomes() -> None:
    """The number of judged operations shows it: a lock that is never granted is legal."""
    with Monitor(PROGRAM, model="mutex", expected=(TimeoutError,)) as monitor:
        assert monitor.counts == {}
        for key in range(3):
            with monitor.acquire(key):
                raise Failed
        with monitor.acquire(0):
            raise TimeoutError
        monitor.set_model(7, "register")
        with monitor.write(7, 1):
            pass
    assert monitor.counts == {"acquire": {"fail": 3, "info": 1}, "write": {"ok": 1}}, monitor.counts
    assert monitor.counts["acquire"]["ok"] == 0


def too_many_at_once() -> None:
    with Monitor(PROGRAM, concurrency=2) as monitor:
        with monitor.write(0, 1), monitor.write(0, 2):
            raised(ValueError, monitor.read(0).__enter__)


def a_key_over_its_budget() -> None:
    def two_at_once() -> None:
        with Monitor(PROGRAM, by_ends=True, budget=1) as monitor:
            with monitor.write(0, 1), monitor.write(0, 2):
                pass

    error = raised(Unknown, two_at_once)
    assert isinstance(error, Unknown) and error.reply == f"unknown key 0 index {error.index}" and len(error.events) == 2, error
    assert str(error).endswith("or raise the budget"), error


def a_key_that_is_dropped() -> None:
    """The others go on, and are judged; the end of the block raises nothing, and close tells it."""
    log = io.StringIO()

    def write_two_at_once(key: int) -> Tuple[bool, bool]:
        with monitor.write(key, 1) as first, monitor.write(key, 2) as second:
            pass
        return first.told, second.told

    with Monitor(PROGRAM, by_ends=True, budget=3, unknown="drop", log=log) as monitor:
        assert write_two_at_once(0) == (True, True) and list(monitor.dropped) == [0]
        assert monitor.dropped[0].reply == "unknown key 0 index 4" and monitor.dropped[0].index == 4
        length = monitor.length
        assert write_two_at_once(0) == (False, False)
        with monitor.read(0) as op:
            op.value = 77
        assert (op.outcome, op.told, monitor.length) == ("ok", False, length)
        with monitor.write(1, 1):
            pass
        assert write_two_at_once(2) == (True, True) and list(monitor.dropped) == [0, 2]
        with monitor.read(1) as op:
            op.value = 1
        assert monitor.counts == {"write": {"info": 4, "ok": 1}, "read": {"ok": 1}}, monitor.counts
    assert monitor.failure is None and monitor.close() == "unknown key 0 index 4"
    ran = subprocess.run([PROGRAM, "script", "--concurrency", "64", "--budget", "3"], input=log.getvalue().encode(),
                         stdout=subprocess.PIPE)
    replies = ran.stdout.decode().splitlines()
    assert replies[-1] == "legal" and sum(reply.startswith("unknown key") for reply in replies) == 2, replies

    def lose_a_write() -> None:
        with monitor.write(1, 2):
            pass
        with monitor.read(1) as op:
            op.value = 1

    monitor = Monitor(PROGRAM, by_ends=True, budget=3, unknown="drop")
    write_two_at_once(0)
    error = raised(Illegal, lose_a_write)
    assert monitor.close() == str(error).splitlines()[0] and error.args[1] == 1
    with Monitor(PROGRAM, by_ends=True, budget=1, unknown="drop") as monitor:
        assert write_two_at_once(5) == (False, False) and 5 in monitor.dropped  # by the write that begins it
    raised(ValueError, lambda: Monitor(PROGRAM, unknown="ignore"))


def what_timed_out_is_counted() -> None:
    with Monitor(PROGRAM, expected=(TimeoutError,)) as monitor:
        for operation in (monitor.write(1, 2), monitor.read(1), monitor.write(1, 3), monitor.write(2, 4)):
            with operation:
                raise TimeoutError
        assert [monitor.timeouts(key) for key in range(4)] == [0, 2, 1, 0]


def a_client_that_raises() -> None:
    """It ends the others at their next operation; its exception is raised; and the monitor may be used again."""
    ended: List[str] = []

    def client(number: int) -> None:
        value = 0
        try:
            while True:
                with monitor.write(number, value):
                    value += 1
                if number == 2 and value == 5:
                    raise KeyError("of the test")
        except Refused as error:
            ended.append(str(error))
            raise

    with Monitor(PROGRAM) as monitor:
        raised(KeyError, lambda: monitor.run(client, THREADS))
        assert len(ended) == THREADS - 1, ended
        assert all("another client has raised KeyError('of the test'" in text for text in ended), ended
        with monitor.write(9, 1):
            pass
    assert monitor.close() == "legal"


def a_queue_over_its_budget() -> None:
    """A backlog of messages that were sent two at a time: no timeout is at fault, and the hint says so."""
    def no_consumer() -> None:
        with Monitor(PROGRAM, model="fifo-queue", by_ends=True) as monitor:
            for value in range(0, 100, 2):
                with monitor.enqueue(0, value), monitor.enqueue(0, value + 1):
                    pass

    error = raised(Unknown, no_consumer)
    assert isinstance(error, Unknown) and error.index == 42, error
    assert error.hint.startswith("20 enqueues and 0 dequeues had completed: let the queue be shorter"), error


def coroutines() -> None:
    """Share a monitor in one thread, each with an operation open at a time."""
    async def client(monitor: Monitor, number: int) -> None:
        for value in range(10):
            with monitor.write(number, value):
                await asyncio.sleep(0)
            with monitor.read(number) as op:
                await asyncio.sleep(0)
                op.value = value

    async def clients() -> None:
        with Monitor(PROGRAM, concurrency=5) as monitor:
            await asyncio.gather(*(client(monitor, number) for number in range(5)))
            assert monitor.length == 5 * 42

    loop = asyncio.new_event_loop()
    try:
        loop.run_until_complete(clients())
    finally:
        loop.close()


def each_block_has_its_operation() -> None:
    with Monitor(PROGRAM) as monitor:
        operation = monitor.write(0, 1)
        with operation:
            pass
        assert "call Monitor.write for each block" in str(raised(ValueError, operation.__enter__))


TESTS = [a_timeout_is_an_info, an_unexpected_exception_goes_on, what_failed_did_not_take_place, counts_of_outcomes,
         too_many_at_once, a_key_over_its_budget, a_key_that_is_dropped, what_timed_out_is_counted, a_client_that_raises,
         a_queue_over_its_budget, coroutines, each_block_has_its_operation]
