"""A history that is compressed by gzip."""
import gzip
import pathlib

EVENTS = b"{:type :invoke, :process 0, :f :read, :value [7 nil]}\n{:type :ok, :process 0, :f :read, :value [7 4]}\n"
pathlib.Path("history.edn.gz").write_bytes(gzip.compress(EVENTS, mtime=0))
