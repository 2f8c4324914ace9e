"""A history of registers as etcd's robustness tests record it, and as Porcupine's Operation structs."""
from __future__ import annotations

import json
from typing import Any, Dict, List, Sequence

from .fields import Variations
from .histories import Op

NEVER = (1 << 63) - 1  # the return of an operation that never returned


def etcd(ops: Sequence[Op], _ways: Variations) -> str:
    return _lines(ops, [_etcd_input(op) for op in ops], [_etcd_output(op) for op in ops])


def _etcd_input(op: Op) -> Dict[str, Any]:
    key = f"k{op.key}"
    if op.name == "read":
        return {"Type": "range", "Range": {"RangeOptions": {"Start": key}}}
    return {"Type": "txn", "Txn": {"OperationsOnSuccess": [{"Type": "put-operation", "Put": {"Key": key, "Value": {"Value": f"v{op.part}"}}}]}}


def _etcd_output(op: Op) -> Dict[str, Any]:
    if op.outcome == "info":
        return {"Error": "timeout"}
    if op.name != "read":
        return {}
    return {"Range": {"KVs": [] if op.answer is None else [{"Key": f"k{op.key}", "Value": {"Value": f"v{op.answer}"}}]}}


def porcupine(ops: Sequence[Op], ways: Variations) -> str:
    return _lines(ops, [_porcupine_input(op) for op in ops], [_porcupine_output(op, ways) for op in ops])


def _porcupine_input(op: Op) -> Dict[str, Any]:
    asked = {"op": "get" if op.name == "read" else "put", "key": f"k{op.key}"}
    return asked if op.part is None else {**asked, "value": f"v{op.part}"}


def _porcupine_output(op: Op, ways: Variations) -> Dict[str, Any]:
    output: Dict[str, Any] = {}
    if op.name == "read" and op.outcome == "ok":
        output["value"] = f"v{op.answer}" if op.answer is not None else "" if ways.get("gozero") else None
    if ways.get("unknown"):
        output["unknown"] = op.outcome == "info"
    elif op.outcome == "info":
        output["error"] = "timeout"
    return output


def _lines(ops: Sequence[Op], inputs: List[Dict[str, Any]], outputs: List[Dict[str, Any]]) -> str:
    return "".join(json.dumps({"ClientId": op.client, "Input": asked, "Call": op.call, "Output": answered,
                               "Return": NEVER if op.end is None else op.end}) + "\n" for op, asked, answered in zip(ops, inputs, outputs))
