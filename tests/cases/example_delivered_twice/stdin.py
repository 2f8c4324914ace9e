"""A recorded script of the guide."""
import pathlib

print((pathlib.Path(__file__).resolve().parents[3] / "examples" / "delivered-twice.edn").read_text(), end="")
