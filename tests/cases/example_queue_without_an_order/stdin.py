"""A recorded script of the guide."""
import pathlib

print((pathlib.Path(__file__).resolve().parents[3] / "examples" / "queue-out-of-order.edn").read_text(), end="")
