"""A history that is compressed, in two members as from two files."""
import gzip
import sys

event = "{{:index {}, :type :{}, :process 0, :f :write, :value [0 1]}}\n"
for index, kind in enumerate(("invoke", "ok")):
    sys.stdout.buffer.write(gzip.compress(event.format(index, kind).encode(), mtime=0))
