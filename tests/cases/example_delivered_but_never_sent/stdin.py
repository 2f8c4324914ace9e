"""A recorded script of the guide."""
import pathlib

print((pathlib.Path(__file__).resolve().parents[3] / "examples" / "delivered-but-never-sent.edn").read_text(), end="")
