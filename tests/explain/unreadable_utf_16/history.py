"""A history in UTF-16."""
import sys

sys.stdout.buffer.write("{}".encode("utf-16"))
