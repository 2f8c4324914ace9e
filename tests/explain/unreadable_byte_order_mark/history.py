"""A history with a byte order mark at its front."""
import sys

sys.stdout.buffer.write("{}".encode("utf-8-sig"))
