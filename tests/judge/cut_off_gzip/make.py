"""A history that is compressed by gzip, and cut off."""
import gzip
import pathlib

pathlib.Path("history.edn.gz").write_bytes(gzip.compress(b"{:type :invoke, :process 0, :f :read, :value [7 nil]}\n", mtime=0)[:-9])
