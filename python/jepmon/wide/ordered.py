"""Replaces the proved program for checking an order: the same test in Python. It is not proved."""
from __future__ import annotations

from typing import Dict, Sequence

from ..history import Operation
from ..history.kinds import ANSWERED, REGISTERS
from ..objects.replay import OBJECTS, Wanted


def is_order(operations: Sequence[Operation], model: str, order: Sequence[int]) -> bool:
    """Whether this is an order of the operations of one key, named by the index of their invocations. An order has each ok operation, and
    no failed one. It agrees with real time, and each operation takes place at its place with its own answer."""
    by_id: Dict[int, Operation] = {operation.invocation.index: operation for operation in operations}
    listed = frozenset(order)
    if len(listed) != len(order) or not listed <= by_id.keys():
        return False
    if any(operation.outcome == "ok" and id not in listed for id, operation in by_id.items()):
        return False
    replayed, moment = OBJECTS[model](), -1
    for id in order:
        operation = by_id[id]
        moment = max(moment, id)
        if operation.outcome == "fail":
            return False
        if operation.outcome == "ok" and operation.completion is not None and operation.completion.index < moment:
            return False
        if replayed.take(operation.invocation.name, operation.invocation.value, wanted(operation, model)) is None:
            return False
    return True


def wanted(operation: Operation, model: str) -> Wanted:
    """Returns the answer that the operation has to find. None if every answer fits."""
    completion = operation.completion
    if operation.outcome != "ok" or completion is None or operation.invocation.name not in ANSWERED:
        return None
    return None if completion.value is None and model in REGISTERS else (completion.value,)
