#!/usr/bin/env python3
"""Lets the prover refuse the wrong bodies: `tests/wrong_bodies.py --help` says how."""
import pathlib
import sys

sys.path.insert(0, str(pathlib.Path(__file__).resolve().parent.parent))
from tests.wrong.bodies import main  # noqa: E402 (the folder of the repository is found first)

if __name__ == "__main__":
    sys.exit(main())
