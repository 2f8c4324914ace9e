#!/usr/bin/env python3
"""A live test of this many events, with a fault among the last: `long_run.py [EVENTS] [--threads N]`, 20,000,000 and 5 unless given.

Clients read and write 60 registers of a LongMonitor, that lie in a dict of this process; one write of two thousand times out, and is put
all the same, or not. When the last thousand events begin, one read answers the first value of its register. After each further twentieth it
prints the seconds, the events, the programs so far, and the resident memory of this process and of the programs that run. At the end it
prints whether the fault was found, after how many events, and the processor time. Status: 0 where it was found.
"""
import argparse
import os
import pathlib
import random
import sys
import time

TOP = pathlib.Path(__file__).resolve().parent.parent
sys.path.insert(0, str(TOP / "python"))

from jepmon import Illegal, LongMonitor  # noqa: E402

REGISTERS, LAST = 60, 1000


class Store:
    """Registers by name: what each holds, and what was written to it first."""

    def __init__(self):
        self.held, self.first, self.is_wrong = {}, {}, False

    def put(self, name, value):
        self.first.setdefault(name, value)
        self.held[name] = value

    def get(self, name):
        held = self.held.get(name)
        if self.is_wrong and held is not None and self.first[name] != held:
            self.is_wrong = False
            return self.first[name]
        return held

    def forget(self, name):
        self.held.pop(name, None)
        self.first.pop(name, None)


def resident(pid):
    """Megabytes of memory of a process that are resident."""
    try:
        return int(pathlib.Path(f"/proc/{pid}/statm").read_text().split()[1]) * 4096 >> 20
    except OSError:
        return 0


def programs():
    """The processes that this one has started, and that run."""
    return [pid for task in pathlib.Path("/proc/self/task").iterdir() for pid in (task / "children").read_text().split()]


def words():
    parser = argparse.ArgumentParser(description=__doc__, formatter_class=argparse.RawDescriptionHelpFormatter)
    parser.add_argument("events", nargs="?", type=int, default=20_000_000)
    parser.add_argument("--threads", type=int, default=5)
    parser.add_argument("--out", metavar="DIR", help="also keep folders of the run there; of legal parts the newest two")
    parser.add_argument("--jepmon", metavar="PROGRAM", help="its path, where it is not that of this repository")
    return parser.parse_args()


def main():
    given, store, begin, faults = words(), Store(), time.monotonic(), []
    monitor = LongMonitor(given.jepmon, expected=(TimeoutError,), forget=store.forget, out=given.out, keep=2, unknown="drop")
    registers = [monitor.fresh() for _ in range(REGISTERS)]
    told = [0] * given.threads

    def client(number):
        draws, value = random.Random(number), number << 40
        while True:
            register, drawn = registers[draws.randrange(REGISTERS)], draws.random()
            if drawn < 0.5:
                value += 1
                with register.write(value) as op:
                    if drawn < 0.00025:
                        if drawn < 0.000125:
                            store.put(op.name, value)
                        raise TimeoutError
                    store.put(op.name, value)
            else:
                with register.read() as op:
                    op.value = store.get(op.name)
            told[number] += 2
            if number == 0 and told[0] % 1000 == 0:
                watch(sum(told))

    def watch(events):
        if events >= given.events - LAST and not faults:
            faults.append(monitor.length)
            store.is_wrong = True
        if events * 20 // given.events > shown[0]:
            shown[0] = events * 20 // given.events
            print(f"{time.monotonic() - begin:6.0f} s: {monitor.length:,} events, {monitor.parts} programs; {resident(os.getpid())} MB "
                  f"here, {', '.join(str(resident(pid)) for pid in programs())} MB in jepmon", flush=True)

    shown = [0]
    try:
        with monitor:
            monitor.run(client, given.threads)
    except Illegal as found:
        print(found)
    used = os.times()
    print(f"{time.monotonic() - begin:.0f} s by the clock, {used.user + used.system:.0f} s of the processor here and "
          f"{used.children_user + used.children_system:.0f} s in jepmon: {monitor.length:,} events in {monitor.parts} programs, a fault "
          f"planted after {faults[0] if faults else 0:,}; {monitor.counts}")
    print(monitor.close())
    return 0 if monitor.failure is not None and monitor.failure.status == 1 else 1


if __name__ == "__main__":
    sys.exit(main())
