"""Mounting by FUSE: a process reads the requests of a file system from a file of /dev/fuse, and writes the answers there. It needs root, on
Linux."""
from __future__ import annotations

import ctypes
import os
import pathlib
import tempfile
from typing import List, Optional

DEVICE = "/dev/fuse"
NO_SUID, NO_DEVICES = 2, 4  # MS_NOSUID, MS_NODEV
DETACH = 2  # MNT_DETACH: also if files in it are still open
MOUNTS = "/proc/self/mounts"


def mounted(point: str, name: str) -> int:
    """Mounts a file system at this folder. Returns the file of its requests. An OSError says that this machine or this user may not
    mount."""
    requests = os.open(DEVICE, os.O_RDWR)
    try:
        options = f"fd={requests},rootmode=40000,user_id=0,group_id=0,allow_other,default_permissions"
        _called("mount", name.encode(), os.fsencode(point), b"fuse", ctypes.c_ulong(NO_SUID | NO_DEVICES), options.encode())
    except BaseException:
        os.close(requests)
        raise
    return requests


def unmount(point: str) -> None:
    _called("umount2", os.fsencode(point), DETACH)


def unmount_below(folder: str) -> None:
    """Unmounts all file systems in the folder, if there are any."""
    for point in reversed(points_below(folder)):
        try:
            unmount(point)
        except OSError:
            pass


def points_below(folder: str) -> List[str]:
    try:
        lines = pathlib.Path(MOUNTS).read_text(errors="surrogateescape").splitlines()
    except OSError:
        return []
    points = [line.split(" ")[1].replace("\\040", " ") for line in lines]
    return [point for point in points if point.startswith(f"{folder}/")]


def flush(point: str) -> None:
    """Makes the kernel write to the file system what it still holds, such as pages that a process changed in its memory."""
    folder = os.open(point, os.O_RDONLY)
    try:
        _called("syncfs", folder)
    finally:
        os.close(folder)


def why_not() -> Optional[str]:
    """Returns the reason why nothing can be mounted here. None if mounting is possible."""
    with tempfile.TemporaryDirectory(prefix="jepmon-mount-") as point:
        try:
            requests = mounted(point, "jepmon")
        except OSError as fault:
            return f"{fault.filename}: {fault.strerror}"
        except AttributeError as fault:
            return str(fault)
        unmount(point)
        os.close(requests)
    return None


def _called(name: str, *given: object) -> None:
    """A call of the C library that Python 3.9 does not have."""
    library = ctypes.CDLL(None, use_errno=True)
    if getattr(library, name)(*given) != 0:
        raise OSError(ctypes.get_errno(), os.strerror(ctypes.get_errno()), f"{name} by FUSE")
