# a comment of 128 MiB
import sys

sys.stdout.write(";" * (128 << 20))
