"""A history in UTF-16, as Windows writes it."""
import sys

event = "{:type :invoke, :process 0, :f :write, :value [0 1]}\n"
sys.stdout.buffer.write(event.encode("utf-16"))
