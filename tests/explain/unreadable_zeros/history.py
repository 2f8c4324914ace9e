"""UTF-16 without a mark of its byte order."""
import sys
sys.stdout.buffer.write("{:type :invoke}".encode("utf-16-be"))
