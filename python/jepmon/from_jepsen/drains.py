"""Drains of a queue, `:drain`, whose :ok has a list of the dequeued values. Each drain becomes several dequeues.

Each of these dequeues took place at some moment between the drain's invocation and its :ok. The moment is not known, and the order of the
list means little: a test may have put each value at its front, or into a set. The dequeues are written one after another, each invoked and
completed, at the place of the :ok. For an unordered queue this is exact. The history is linearizable with these dequeues if and only if it
is linearizable with dequeues that are open from the drain's invocation to its :ok:

- Earlier invocations allow more orders. So a history that is linearizable with the later invocations is linearizable with the earlier ones.
- Suppose that an order shows the history linearizable with dequeues that are open all the time. Take the drain's dequeues out of this
  order, and put them in again at one place: just after the last of these dequeues and of the operations that had completed before the
  :ok. No operation that was invoked after the :ok is before that place, since each of those dequeues and operations precedes it. Up to
  the place the queue now holds all that it held before, and more, so that each dequeue there finds its value as before. At the place
  the queue holds the values that it held there before, and the drain's values. So the drain's dequeues take place there, in any order,
  and leave the values that it held before. So the order shows the history linearizable with dequeues that are invoked and completed
  one by one at the :ok.

For a FIFO queue this is not exact: a delayed dequeue delays the dequeues behind it. So a key with a drain is judged as an unordered queue,
like in Jepsen's checkers of such tests (total-queue and others).

A drain that failed took nothing. A drain that timed out may have taken any values. It is left out, and this changes no verdict: the drain
may have taken nothing, and a history that is linearizable with some values taken is also linearizable if these values stay in the queue.
"""
from __future__ import annotations

from typing import Sequence

from ..edn import Many, Value, shown
from .refusal import refuse

LEFT_OUT = {":fail": "nothing came out", ":info": "what came out is not known, which changes no verdict"}


def values_of(line: int, drained: Value) -> Sequence[Value]:
    """Returns the values that a drain returned."""
    if drained == "nil":
        return ()
    if not isinstance(drained, Many) or drained.opened not in ("[", "#{"):
        refuse(line, f"this :drain is answered by {shown(drained)}, which is not a list of the values that came out")
    return drained.members
