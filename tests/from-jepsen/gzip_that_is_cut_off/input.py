"""A compressed history whose end is missing."""
import gzip
import sys

event = "{:type :invoke, :process 0, :f :write, :value [0 1]}\n"
sys.stdout.buffer.write(gzip.compress(event.encode(), mtime=0)[:-12])
