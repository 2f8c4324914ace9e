"""Network namespaces: one for the clients and one for each node, each with its own address.

A namespace here has no name. It disappears with the last process and the last open file in it. So a killed test leaves nothing behind.
"""
from __future__ import annotations

import contextlib
import ctypes
import fcntl
import os
import socket
import struct
from typing import Iterator, Optional

NEW_NETWORK = 0x40000000  # CLONE_NEWNET
HERE = "/proc/thread-self/ns/net"
TUN, DEVICE = "/dev/net/tun", b"jepmon"
MASK, PACKET = "255.255.255.0", 9000  # the network mask, and the greatest number of bytes of a packet
SET_TUN, IS_TUN = 0x400454CA, 0x1001  # IFF_TUN, and IFF_NO_PI: a file of packets of IP
SET_FLAGS, SET_ADDRESS, SET_MASK, SET_MTU = 0x8914, 0x8916, 0x891C, 0x8922
IS_UP = 0x41  # IFF_UP and IFF_RUNNING


class Place:
    """A network namespace. Its packets to others are read from the file `packets`, and the packets of others are written to it. An OSError
    says that this machine or this user may not make one."""

    def __init__(self, address: str) -> None:
        self.address = address
        with contextlib.ExitStack() as made:
            with _back():
                _called("unshare", NEW_NETWORK)
                self._namespace = os.open(HERE, os.O_RDONLY)
                made.callback(os.close, self._namespace)
                self.packets = os.open(TUN, os.O_RDWR | os.O_NONBLOCK)
                made.callback(os.close, self.packets)
                fcntl.ioctl(self.packets, SET_TUN, struct.pack("16sH22x", DEVICE, IS_TUN))
                _set_up(address)
            made.pop_all()

    @contextlib.contextmanager
    def inside(self) -> Iterator[None]:
        """Moves this thread into the namespace for the block, with the processes that it starts meanwhile."""
        with _back():
            _called("setns", self._namespace, NEW_NETWORK)
            yield

    def leave_packets(self) -> None:
        """Closes the file of packets here: another process has it now."""
        os.close(self.packets)

    def end(self) -> None:
        os.close(self._namespace)


def why_not() -> Optional[str]:
    """Why this machine allows no namespaces. None if it allows them."""
    try:
        place = Place("10.0.0.1")
    except (OSError, AttributeError) as fault:
        return f"{fault.filename}: {fault.strerror}" if isinstance(fault, OSError) and fault.strerror else str(fault)
    place.leave_packets()
    place.end()
    return None


@contextlib.contextmanager
def _back() -> Iterator[None]:
    """Moves this thread back to its namespace after the block."""
    home, name = os.open(HERE, os.O_RDONLY), os.readlink(HERE)
    try:
        yield
    finally:
        try:
            if os.readlink(HERE) != name:
                _called("setns", home, NEW_NETWORK)
        finally:
            os.close(home)


def _called(name: str, *numbers: int) -> None:
    """A call of the C library that Python 3.9 does not have."""
    library = ctypes.CDLL(None, use_errno=True)
    if getattr(library, name)(*map(ctypes.c_int, numbers)) != 0:
        raise OSError(ctypes.get_errno(), os.strerror(ctypes.get_errno()), f"{name} of a network namespace")


def _set_up(address: str) -> None:
    """Gives the device its address, and starts it and the loopback."""
    with socket.socket(socket.AF_INET, socket.SOCK_DGRAM) as asked:
        for number, name, value in ((SET_FLAGS, b"lo", struct.pack("H", IS_UP)), (SET_ADDRESS, DEVICE, _address(address)),
                                    (SET_MASK, DEVICE, _address(MASK)), (SET_MTU, DEVICE, struct.pack("i", PACKET)),
                                    (SET_FLAGS, DEVICE, struct.pack("H", IS_UP))):
            fcntl.ioctl(asked, number, struct.pack("16s24s", name, value))


def _address(text: str) -> bytes:
    return struct.pack("HH4s", socket.AF_INET, 0, socket.inet_aton(text))
