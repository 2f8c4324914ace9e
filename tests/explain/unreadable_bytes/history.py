"""A string that is not UTF-8."""
import sys

sys.stdout.buffer.write(b'{}\n{:error "\xff"}')
