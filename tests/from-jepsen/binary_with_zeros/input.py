"""Bytes that are UTF-8, and no text."""
import sys

sys.stdout.buffer.write(b"\0\0{:type :invoke}")
