"""The number of threads of a history: the least number with which its processes keep the process rule.

After an :info of process p its thread continues as process p + n, where n is the number of threads. So n fits if each process q that is at
least n begins after an :info of process q - n. If n fits a history, it fits each prefix of the history. So if the least number for a prefix
fits the whole history, it is the least number for the whole history.
"""
from __future__ import annotations

import bisect
from typing import Dict, List, Optional


class Lives:
    """The event at which each process of a history began, and the event at which it crashed, by the numbers of these events."""

    def __init__(self) -> None:
        self._begun: Dict[int, int] = {}
        self._crashed: Dict[int, int] = {}
        self._is_broken = False  # whether a process has an event after its crash, which no number of threads allows
        self._count = 0

    def tell(self, process: int, crashes: bool) -> None:
        """Takes the next event of a client."""
        self._count += 1
        if process not in self._begun:
            self._begun[process] = self._count
        if process in self._crashed:
            self._is_broken = True
        if crashes:
            self._crashed[process] = self._count

    def fewest(self) -> Optional[int]:
        """The least number of threads that fits; None if no number fits. The greatest process is below this number, or exceeds a crashed
        process by this number."""
        if self._is_broken:
            return None
        processes = sorted(self._begun)
        greatest = processes[-1] if processes else 0
        found = sorted({greatest - process for process in self._crashed if process < greatest})
        return next((threads for threads in found if self._fits(processes, threads)), greatest + 1)

    def _fits(self, processes: List[int], threads: int) -> bool:
        begun, crashed, count = self._begun, self._crashed, self._count
        later = range(bisect.bisect_left(processes, threads), len(processes))
        return all(crashed.get(processes[at] - threads, count) < begun[processes[at]] for at in later)
