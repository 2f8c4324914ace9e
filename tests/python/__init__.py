"""Tests of the package, run by: python3 -m unittest discover -s tests/python -t .

They import `jepmon` from python/ of this repository.
"""
import pathlib
import sys

TOP = pathlib.Path(__file__).resolve().parents[2]
if str(TOP / "python") not in sys.path:
    sys.path.insert(0, str(TOP / "python"))
