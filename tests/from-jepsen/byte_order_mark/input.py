"""A history with a byte order mark at its front."""
import sys

event = "{:type :invoke, :process 0, :f :write, :value [0 1]}\n"
sys.stdout.buffer.write(event.encode("utf-8-sig"))
