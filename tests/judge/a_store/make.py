"""The link that Jepsen keeps to its newest run. It is made here, since the toolchain takes no link in a repository."""
import os

os.symlink("etcd/20240502T100000.000Z", "store/latest")
