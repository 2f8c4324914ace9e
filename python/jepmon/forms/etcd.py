"""Operations of etcd as its robustness tests record them for Porcupine: puts, deletes and ranges of one key each.

Transactions with conditions or over several keys, ranges over several keys or of old revisions, and leases are not judged: these operations
need another model, which etcd's own tests check. The tool refuses such operations by name. Defragmentations and compactions change no key,
and are skipped.
"""
from __future__ import annotations

from typing import Any, Dict, List, NoReturn, Optional

from . import Refused
from .rows import Row
from .vocabulary import plain
from .written import Writer

LEFT_OUT = ("defragment", "compact")
TYPES = ("range", "txn", "leasegrant", "leaserevoke") + LEFT_OUT
CHECKED = "etcd's robustness tests check these by Porcupine"


def named(fields: Dict[str, Any]) -> Dict[str, Any]:
    """The fields by their plain names."""
    return {plain(name): value for name, value in fields.items()}


def is_one(row: Row) -> bool:
    """Whether the row is one of these operations."""
    asked = row.fields.get("Input", row.fields.get("input"))
    return (isinstance(asked, dict) and str(asked.get("Type", asked.get("type", ""))).lower() in TYPES
            and any(plain(name) == "clientid" for name in row.fields))


def turned(row: Row, writer: Writer) -> Optional[Row]:
    """The row as an operation on a register. None if it changes no key."""
    own = named(row.fields)
    asked, came = named(own["input"]), _inner(row, own, "output")
    kind = str(asked["type"]).lower()
    if kind in LEFT_OUT:
        writer.counts[f"operations left out, which change no key: {kind}"] += 1
        return None
    fields: Dict[str, Any] = {name: own.get(name) for name in ("clientid", "call", "return")}
    error = _error(row, came)
    if error is not None:
        fields["error"] = error
    if kind == "range":
        fields.update(_read(row, _inner(row, asked, "range"), came))
    elif kind == "txn":
        fields.update(_write(row, _inner(row, asked, "txn")))
    else:
        _refuse(row, "a lease")
    return Row(row.line, fields)


def _error(row: Row, came: Dict[str, Any]) -> Any:
    """Returns the error of an operation; the operation may have taken place in spite of the error. None if there is no error."""
    told = [came.get(name) for name in ("error", "clienterror", "err")] + [_inner(row, came, "txn").get("error")]
    error = next((error for error in told if error not in (None, "", False)), None)
    if _inner(row, came, "txn").get("failure"):
        _refuse(row, "a transaction that took its other branch")
    return error if error is not None else "its response was lost" if came.get("persisted") else None


def _refuse(row: Row, what: str) -> NoReturn:
    raise Refused(f"line {row.line}: {what} of etcd, which jepmon does not judge ({CHECKED})")


def _inner(row: Row, fields: Dict[str, Any], name: str) -> Dict[str, Any]:
    """The object in a field, an empty one if there is none."""
    inner = fields.get(name) or {}
    if not isinstance(inner, dict):
        raise Refused(f"line {row.line}: its {name} is not an object")
    return named(inner)


def _list(row: Row, fields: Dict[str, Any], name: str) -> List[Dict[str, Any]]:
    """The objects in a field."""
    inner = fields.get(name) or []
    if not isinstance(inner, list) or not all(isinstance(member, dict) for member in inner):
        raise Refused(f"line {row.line}: its {name} is not a list of objects")
    return [named(member) for member in inner]


def _read(row: Row, asked: Dict[str, Any], came: Dict[str, Any]) -> Dict[str, Any]:
    options = _inner(row, asked, "rangeoptions") or asked
    key = options.get("key", options.get("start"))
    if options.get("end") or key is None:
        _refuse(row, "a range over several keys")
    if asked.get("revision"):
        _refuse(row, "a range of an old revision")
    if any(named(one).get(name) for one in (options, asked) for name in ("countonly", "keysonly")):
        _refuse(row, "a range without values")
    found = _list(row, _inner(row, came, "range"), "kvs")
    if len(found) > 1:
        _refuse(row, "a range over several keys")
    return {"f": "read", "key": key, "answer": _value(found[0].get("value")) if found else None}


def _write(row: Row, asked: Dict[str, Any]) -> Dict[str, Any]:
    done = _list(row, asked, "operationsonsuccess")
    if asked.get("conditions") or asked.get("operationsonfailure"):
        _refuse(row, "a transaction with conditions")
    if len(done) != 1:
        _refuse(row, "a transaction of several operations")
    operation = done[0]
    kind = str(operation.get("type", "")).replace("-operation", "").lower()
    if kind == "put":
        put = _inner(row, operation, "put")
        if any(put.get(name) for name in ("lease", "leaseid")):
            _refuse(row, "a put with a lease")
        return {"f": "write", "key": put.get("key"), "value": _value(put.get("value"))}
    if kind == "delete":
        return {"f": "delete", "key": _inner(row, operation, "delete").get("key")}
    _refuse(row, f"a transaction of one {kind or 'operation without a type'}")


def _value(value: Any) -> Any:
    """A value, or the hash of a long one."""
    if not isinstance(value, dict):
        return value
    fields = named(value)
    return fields["value"] if fields.get("value") not in (None, "") else f"hash {fields.get('hash', 0)}"
