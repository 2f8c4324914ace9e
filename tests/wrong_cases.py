#!/usr/bin/env python3
"""Tries wrong bodies of known ends, tests/wrong/cases, by the prover that is here: so the runner of wrong bodies reads it rightly. They are
bodies of the crate `processes`, one of the lowest. Ends with 'N passed, M failed'. Words name the cases to run.
"""
import pathlib
import sys
import tempfile
from typing import List

TOP = pathlib.Path(__file__).resolve().parent.parent
sys.path.insert(0, str(TOP))
from tests.case_loop import Case, differing, run_cases  # noqa: E402 (the folder of the repository is found first)
from tests.wrong.edit import Wrong  # noqa: E402
from tests.wrong.prover import CLAUSE, INAPPLICABLE, NAME, PROVED, UNREADABLE, Crates, Prover  # noqa: E402

CRATE = "processes"
ENDS = {
    "breaks_a_clause": CLAUSE,
    "a_caller_refuses": CLAUSE,  # the function alone is proved
    "a_name_is_gone": NAME,
    "means_the_same": PROVED,
    "names_nothing": UNREADABLE,
    "does_not_apply": INAPPLICABLE,
}


def faults(prover: Prover, name: str, kept: str) -> List[str]:
    outcome = prover.tried(Wrong(CRATE, TOP / "tests" / "wrong" / "cases" / f"{name}.edit"), kept)
    return [f"{fault}: {outcome.told}" for fault in differing(f"the end of {name}", outcome.kind, ENDS[name])]


def main() -> int:
    prover = Prover(Crates(TOP))
    with tempfile.TemporaryDirectory(prefix="wrong-cases-") as kept:
        cases: List[Case] = [(name, lambda name=name: faults(prover, name, kept)) for name in ENDS]  # type: ignore[misc]
        return run_cases("wrong bodies of known ends", cases, sys.argv[1:])


if __name__ == "__main__":
    sys.exit(main())
