"""The Monitor's verdicts on stores of each kind, right ones and wrong ones."""
import io
import subprocess
from typing import Callable, List, Set, Tuple

from live_base import KEYS, PROGRAM, THREADS, ForgetfulLock, Store, kinds_told, raised, reads_and_writes
from jepmon import ABSENT, Failed, Illegal, Monitor, Refused, Unknown


def a_linearizable_store_is_legal() -> None:
    monitor = Monitor(PROGRAM)
    reads_and_writes(monitor, Store(), 250)
    assert monitor.close() == "legal" == monitor.close()
    assert monitor.length == 2 * (THREADS * 250 + KEYS), monitor.length


def a_stale_read_is_illegal() -> None:
    monitor = Monitor(PROGRAM)
    error = raised(Illegal, lambda: reads_and_writes(monitor, Store(writes_until_cut=50), 250))
    assert isinstance(error, Illegal) and isinstance(error, AssertionError)
    assert error.key in range(KEYS) and error.index is not None and error.index < monitor.length <= error.index + 2 * THREADS
    assert str(error).startswith(f"illegal key {error.key} index {error.index}\n"), str(error)
    assert error.events[-1].startswith(f"  {error.index} <-- {{:type :ok, "), error.events
    assert monitor.close() == error.reply


def each_thread_is_stopped() -> None:
    """The others learn it at their next operation, and the end of the monitor's block raises it once more."""
    store = Store(writes_until_cut=0)
    stopped: List[str] = []

    def client(thread: int) -> None:
        try:
            while True:
                with monitor.write(thread, 1):
                    store.put(thread, 1)
                with monitor.read(thread) as op:
                    op.value = store.get(thread)
        except Illegal as error:
            stopped.append(error.reply)

    monitor = Monitor(PROGRAM)
    raised(Illegal, lambda: monitor.run(client, THREADS))
    assert len(stopped) == THREADS and len(set(stopped)) == 1, stopped
    raised(Illegal, lambda: monitor.__exit__(None, None, None))


def lost_writes_are_illegal() -> None:
    def lose_a_write() -> None:
        with Monitor(PROGRAM) as monitor:
            with monitor.write(7, 1):
                pass
            with monitor.read(7) as op:
                op.value = None

    assert "[7 ABSENT]" in str(raised(Illegal, lose_a_write))


def a_missing_key_is_legal() -> None:
    with Monitor(PROGRAM) as monitor:
        with monitor.read(7) as op:
            op.value = None
        monitor.begin(8, 5)
        with monitor.read(8) as op:
            op.value = 5
        with monitor.write(8, ABSENT):
            pass
        with monitor.read(8) as op:
            op.value = None
        raised(ValueError, lambda: monitor.begin(8, 5))


def where_an_answer_comes_from() -> None:
    """A value that no operation wrote, or only a failed one, is named with advice."""
    def hint(model: str, work: Callable[[Monitor], object]) -> str:
        def acts() -> None:
            with Monitor(PROGRAM, model=model) as monitor:
                work(monitor)

        error = raised(Illegal, acts)
        assert isinstance(error, Illegal)
        return error.hint

    def read(value: object, name: str = "read") -> Callable[[Monitor], object]:
        def act(monitor: Monitor) -> None:
            with getattr(monitor, name)(3) as op:
                op.value = value
        return act

    def fails(name: str, *values: int) -> Callable[[Monitor], object]:
        def act(monitor: Monitor) -> None:
            with getattr(monitor, name)(3, *values):
                raise Failed
            read({values[-1]} if name == "add" else values[-1], "dequeue" if name == "enqueue" else "read")(monitor)
        return act

    assert hint("register", read(77)) == (
        "no recorded operation wrote 77: did key 3 hold it before? monitor.begin(3, value)")
    assert hint("unordered-queue", read(5, "dequeue")) == "no recorded operation wrote 5: did key 3 hold it before?"
    assert hint("set", read({-4})).startswith("no recorded operation wrote -4: ")
    assert hint("cas-register", fails("cas", 1, 2)).startswith("2 was set by process 0 in events 2-3, recorded as a fail: did it take")
    assert hint("fifo-queue", fails("enqueue", 9)).startswith("9 was enqueued by process 0 in events 0-1, recorded as a fail: did")
    assert hint("set", fails("add", 8)).startswith("8 was added by process 0 in events 0-1, recorded as a fail: did it take place?")


def a_cas_register() -> None:
    store = Store()
    store.put(0, 0)

    def client(thread: int) -> None:
        for number in range(60):
            with monitor.read(0) as op:
                op.value = seen = store.get(0)
            with monitor.cas(0, seen, (number + thread) % 5) as op:
                if not store.cas(0, seen or 0, (number + thread) % 5):
                    op.fail()

    with Monitor(PROGRAM, model="cas-register") as monitor:
        monitor.begin(0, 0)
        monitor.run(client, 3)


def a_lock_that_two_hold() -> None:
    lock = ForgetfulLock()

    def client(thread: int) -> None:
        for _ in range(20):
            with monitor.acquire() as op:
                if not lock.take():
                    op.fail()
            if op.outcome == "ok":
                with monitor.release():
                    lock.give()

    with Monitor(PROGRAM, model="mutex") as monitor:
        monitor.run(client, 1)
    monitor = Monitor(PROGRAM, model="mutex")
    with monitor.acquire():
        lock.take()
    error = raised(Illegal, lambda: monitor.run(client, 2))
    assert monitor.close().startswith("illegal key 0 index ")
    assert ":fail" not in str(error) and len(str(error).splitlines()) in (5, 6), error  # one more may be open


def queues_and_sets() -> None:
    queue: List[int] = []
    members: Set[int] = set()
    with Monitor(PROGRAM, model="fifo-queue") as monitor:
        monitor.set_model(1, "set")
        monitor.set_model(2, "unordered-queue")
        monitor.set_budget(2, 100)
        with monitor.dequeue(0) as op:
            op.value = None  # an empty queue
        assert op.outcome == "fail"
        for number in range(3):
            with monitor.enqueue(0, number):
                queue.append(number)
            with monitor.enqueue(2, number):
                pass
            with monitor.add(1, number):
                members.add(number)
            with monitor.read(1) as op:
                op.value = members
        for number in range(3):
            with monitor.dequeue(0) as op:
                op.value = queue.pop(0)
            with monitor.dequeue(2) as op:
                op.value = 2 - number
        with monitor.read(3) as op:
            raise Failed("key 3 is a queue")
        monitor.set_model(3, "set")
        with monitor.read(3) as op:
            op.value = None  # nothing was added


def what_is_no_integer() -> None:
    """Keys and values that jepmon does not take are faults of the test, before any line is sent; answers too."""
    log = io.StringIO()
    with Monitor(PROGRAM, log=log) as monitor:
        for key in (-1, 65536, "x", True, None):
            raised(ValueError, lambda key=key: monitor.read(key))  # type: ignore[misc]
        for value in ("5", b"5", 1.5, True):
            raised(TypeError, lambda value=value: monitor.write(0, value))  # type: ignore[misc]
        raised(ValueError, lambda: monitor.write(0, 1 << 63))
        assert log.getvalue() == ""

        def read(*answer: object) -> None:
            with monitor.read(0) as op:
                if answer:
                    op.value = answer[0]  # type: ignore[assignment]

        raised(TypeError, lambda: read(b"5"))
        raised(TypeError, lambda: read({5}))
        raised(ValueError, lambda: read())
        assert kinds_told(log, "read") == ["info", "info", "info"]
        five, six = monitor.number("five"), monitor.number("six")
        assert five != six and five == monitor.number("five")


def another_model() -> None:
    """Where a key is illegal, the model that may have been meant is named: it has the operations, or what was seen is legal."""
    def act(model: str, work: Callable[[Monitor], object]) -> Tuple[str, str]:
        def acts() -> None:
            with Monitor(PROGRAM, model=model) as monitor:
                work(monitor)

        error = raised(Illegal, acts)
        assert isinstance(error, Illegal) and str(error).endswith(error.hint)
        return error.reply, error.hint

    def locks(monitor: Monitor) -> None:
        with monitor.acquire(4):
            pass

    def locks_and_adds(monitor: Monitor) -> None:
        with monitor.add(4, 1), monitor.acquire(4):
            pass

    def queues_out_of_order(monitor: Monitor) -> None:
        for value in (5, 6):
            with monitor.enqueue(1, value):
                pass
        with monitor.dequeue(1) as op:
            op.value = 6

    def delivers_twice(monitor: Monitor) -> None:
        with monitor.enqueue(1, 5):
            pass
        for _ in range(2):
            with monitor.dequeue(1) as op:
                op.value = 5

    def swaps(monitor: Monitor) -> None:
        with monitor.cas(1, None, 5):
            pass

    assert act("register", locks) == ("illegal key 4 index 3",
                                      "key 4 is judged as a register, where no acquire can take place: was mutex meant?")
    assert act("set", locks_and_adds)[1] == ("key 4 is judged as a set, where no acquire can take place: "
                                             "no model has acquire and add together")
    assert act("register", swaps)[1].endswith("where no cas can take place: was cas-register meant?")
    assert act("fifo-queue", queues_out_of_order) == (
        "illegal key 1 index 5", "key 1 is judged as a fifo-queue, and is legal as unordered-queue: was that meant?")
    assert act("fifo-queue", delivers_twice) == ("illegal key 1 index 5", "")
    assert act("unordered-queue", delivers_twice) == ("illegal key 1 index 5", "")


def the_log_is_judged_again() -> None:
    log = io.StringIO()
    monitor = Monitor(PROGRAM, log=log)
    error = raised(Illegal, lambda: reads_and_writes(monitor, Store(writes_until_cut=20), 100))
    monitor.close()
    ran = subprocess.run([PROGRAM, "script", "--concurrency", "64"], input=log.getvalue().encode(), stdout=subprocess.PIPE)
    assert isinstance(error, Illegal) and ran.stdout.decode().splitlines()[-1] == error.reply and ran.returncode == 1


def exit_statuses() -> None:
    """Each exception has the exit status that jepmon has for it."""
    assert (Illegal("").status, Unknown("").status, Refused("").status) == (1, 2, 3)


TESTS = [a_linearizable_store_is_legal, a_stale_read_is_illegal, each_thread_is_stopped, lost_writes_are_illegal,
         a_missing_key_is_legal, where_an_answer_comes_from, a_cas_register, a_lock_that_two_hold, queues_and_sets,
         what_is_no_integer, another_model, the_log_is_judged_again, exit_statuses]
