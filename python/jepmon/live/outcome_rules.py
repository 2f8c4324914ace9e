"""How an exception in the block of an operation ends the operation: as a :fail or as an :info, and whether it is raised again."""
from __future__ import annotations

from typing import NamedTuple, Optional, Tuple, Type

from .verdicts import Failed

Exceptions = Tuple[Type[BaseException], ...]
CUT = (ConnectionResetError, ConnectionAbortedError, BrokenPipeError)  # the connection may have been cut while the client waited for the answer


class Endings(NamedTuple):
    """The exceptions that end an operation and are not raised again."""

    expected: Exceptions  # these end it as an :info
    failed: Exceptions  # these end it as a :fail


def endings(expected: Exceptions, failed: Exceptions) -> Endings:
    """The named classes. They must be different, since a class in both lists would have both outcomes."""
    for name, classes in (("expected", expected), ("failed", failed)):
        if not isinstance(classes, tuple) or not all(isinstance(one, type) and issubclass(one, BaseException) for one in classes):
            raise TypeError(f"{name} is a tuple of classes of exceptions, such as (TimeoutError,), not {classes!r}")
    both = [one.__name__ for one in failed if one in expected]
    if both:
        raise ValueError(f"{both[0]} is in expected and in failed: name it in `failed` if the operation certainly did not take place, "
                         "otherwise in `expected`")
    return Endings(expected, failed)


def outcome_of(error: BaseException, ends: Endings) -> Optional[str]:
    """The outcome of an operation that this exception ends, if the exception is not raised again: "fail" or "info". None if it is raised
    again.

    If both `failed` and `expected` cover the exception, the more special class decides: with failed=(ConnectionRefusedError,) and
    expected=(OSError,) a refused connection is a "fail". If no class of `failed` is more special, the outcome is "info". This is the
    cautious choice, since an :info makes no false alarm. A timeout, or a connection that was cut, is an "info" unless `failed` names its
    class itself: with failed=(OSError,) a TimeoutError is an "info", and with failed=(TimeoutError,) a "fail"."""
    if isinstance(error, Failed):
        return "fail"
    as_info = [one for one in ends.expected if isinstance(error, one)]
    as_fail = [one for one in ends.failed if isinstance(error, one)]
    if any(all(issubclass(one, other) for other in as_info) and (is_unsure(one) or not is_unsure(type(error))) for one in as_fail):
        return "fail"
    return "info" if as_info or as_fail else None


def is_unsure(kind: Type[BaseException]) -> bool:
    """Whether, after an exception of this class, the request may or may not have been carried out."""
    return any(one in CUT or "timeout" in one.__name__.lower() for one in kind.__mro__)
