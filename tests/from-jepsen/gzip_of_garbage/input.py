"""The first two bytes are those of gzip, and what follows is nothing."""
import sys
sys.stdout.buffer.write(b"\x1f\x8bgarbage")
