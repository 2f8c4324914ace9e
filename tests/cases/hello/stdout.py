"""The replies, with the version that the case `version` has."""
import pathlib

version = (pathlib.Path(__file__).resolve().parent.parent / "version" / "stdout").read_text().split()[1]
hello = (f'{{:jepmon "{version}" :kinds [:register :cas-register :mutex :fifo-queue :set :unordered-queue :wide-register :wide-cas-register'
         " :wide-set :wide-fifo-queue :wide-unordered-queue] :max-clients 64 :max-keys 65536 :max-events 1048576 :max-budget 65536"
         " :max-line 65536}")
print("\n".join([hello, "legal", "legal", hello, "legal", "illegal key 7 index 3", hello, "illegal key 7 index 3"]))
