"""A compressed history."""
import gzip
import sys

sys.stdout.buffer.write(gzip.compress(b"{}", mtime=0))
