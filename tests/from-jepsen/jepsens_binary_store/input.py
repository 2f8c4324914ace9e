"""How a test.jepsen of Jepsen 0.3 begins."""
import sys

sys.stdout.buffer.write(b"JEPSEN\0\0\0\1\0\0")
