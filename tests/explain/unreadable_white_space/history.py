"""A space that does not break, as text that was copied from a page may have."""
import sys
sys.stdout.buffer.write("{:type :invoke,\u00a0:process 0, :f :read, :value [1 nil]}\n".encode())
