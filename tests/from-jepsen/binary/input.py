"""Bytes that are not text."""
import sys

sys.stdout.buffer.write(b"{:type :invoke}\n\x89PNG\r\n")
