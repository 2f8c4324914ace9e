"""A recorded script of the guide."""
import pathlib

print((pathlib.Path(__file__).resolve().parents[3] / "examples" / "read-of-a-pending-write.edn").read_text(), end="")
