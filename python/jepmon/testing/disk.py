"""A disk that can lose power: a file system over a folder (FUSE) that can lose or tear unsynced blocks, sector by sector.

    python -m jepmon.testing.disk BACKING POINT      serves POINT from the folder BACKING, until standard input ends

It needs only /dev/fuse, and root. Names (create, rename, unlink) are durable at once. Contents and lengths are durable when they are
synced: by fsync or fdatasync, or at once if the file was opened with O_SYNC or O_DSYNC. It reads commands, one in each line, and answers
each with a line:

    sync         makes all data durable                               ok
    lose         loses all data that is not durable                   lost FILES BYTES
    tear SEED    keeps or loses each sector of such data, by a coin   lost FILES BYTES
"""
from __future__ import annotations

import errno
import os
import random
import resource
import select
import stat
import struct
import sys
from typing import Callable, Dict, List, Optional, Tuple

from .mounts import mounted, unmount
from .unsynced import Unsynced

HEADER, ANSWER = struct.Struct("<IIQQIIII"), struct.Struct("<IiQ")  # the headers of a request and of an answer
ATTRIBUTES = struct.Struct("<QQQQQQIIIIIIIIII")
ENTRY, KEPT = struct.Struct("<QQQQII"), 3600  # 3600: the kernel may keep a name for so many seconds, since nobody else changes it
READ = struct.Struct("<QQIIQII")  # of read and of write
SET = struct.Struct("<IIQQQQQQIIIIIIII")
REQUEST, MOST = 1 << 18, 1 << 17  # the greatest number of bytes of a request, and of the data of one write
BIG_WRITES, TRUNCATES = 1 << 5, 1 << 3  # features that are requested from the kernel at its beginning
SYNCED = os.O_SYNC | os.O_DSYNC
SETS_MODE, SETS_USER, SETS_GROUP, SETS_SIZE, SETS_ATIME, SETS_MTIME = 1, 2, 4, 8, 16, 32
ROOT = 1  # the number of the folder itself
PUNCHES = 0x02 | 0x10 | 0x08 | 0x20  # modes of fallocate that change existing data


class Inode:
    """A file or a folder in the backing folder. `path` is open with O_PATH, so that it can be renamed or unlinked."""

    def __init__(self, number: int, path: int) -> None:
        self.number, self.path = number, path
        self.known = 0  # the number of references that the kernel has to it
        self.opened = 0
        self.file = -1  # open for reading and writing, if it is in use or has unsynced data
        self.unsynced: Optional[Unsynced] = None
        found = os.fstat(path)
        self.key = found.st_dev, found.st_ino

    @property
    def name(self) -> str:
        return f"/proc/self/fd/{self.path}"

    def contents(self) -> int:
        if self.file < 0:
            self.file = os.open(self.name, os.O_RDWR)
        return self.file

    def changing(self) -> Unsynced:
        self.unsynced = self.unsynced or Unsynced(self.contents())
        return self.unsynced


class Disk:
    """Answers requests of the kernel."""

    def __init__(self, backing: str) -> None:
        self._inodes: Dict[int, Inode] = {}
        self._numbers: Dict[Tuple[int, int], int] = {}
        self._folders: Dict[int, List[Tuple[str, int, int]]] = {}  # the entries of open folders
        self._count = 0
        self._user = self._group = 0  # the user and group of the present request
        self._found(os.open(backing, os.O_PATH | os.O_DIRECTORY)).known = 1
        self._answers: Dict[int, Callable[[Inode, bytes], bytes]] = {
            1: self._lookup, 3: self._get, 4: self._set, 5: lambda inode, _: os.fsencode(os.readlink("", dir_fd=inode.path)), 6: self._symlink,
            8: self._node, 9: self._folder, 10: self._unlink, 11: self._remove, 12: lambda inode, body: self._rename(inode, body, 8),
            13: self._link, 14: self._open, 15: self._read, 16: self._write, 17: self._space, 18: self._release, 20: self._sync,
            25: lambda inode, _: b"", 26: self._begin, 27: self._open_folder, 28: self._list, 29: self._close_folder,
            30: lambda inode, _: b"", 35: self._create, 43: self._allocate, 45: lambda inode, body: self._rename(inode, body, 16),
        }

    def handle(self, request: bytes) -> Optional[bytes]:
        """The answer to a request, if it has one."""
        _, code, number, node, self._user, self._group, _, _ = HEADER.unpack_from(request)
        body = request[HEADER.size:]
        if code in (2, 42):
            self._forget(code, node, body)
            return None
        if code in (36, 38):  # interrupt, and end
            return None
        answer = self._answers.get(code)
        fault, given = errno.ENOSYS, b""
        if answer is not None:
            try:
                fault, given = 0, answer(self._inodes[node or ROOT], body)
            except OSError as error:
                fault = error.errno or errno.EIO
            except KeyError:
                fault = errno.ESTALE
        return ANSWER.pack(ANSWER.size + len(given), -fault, number) + given

    # --- Inodes ---

    def _found(self, path: int) -> Inode:
        """The inode that is open here with O_PATH: a known one, or a new one."""
        found = os.fstat(path)
        number = self._numbers.get((found.st_dev, found.st_ino))
        if number is not None:
            os.close(path)
            return self._inodes[number]
        self._count += 1
        inode = Inode(self._count, path)
        self._inodes[inode.number], self._numbers[inode.key] = inode, inode.number
        return inode

    def _entry(self, folder: Inode, name: str) -> bytes:
        inode = self._found(os.open(name, os.O_PATH | os.O_NOFOLLOW, dir_fd=folder.path))
        inode.known += 1
        return ENTRY.pack(inode.number, 0, KEPT, 0, 0, 0) + attributes(os.fstat(inode.path))

    def _made(self, folder: Inode, name: str) -> bytes:
        """Makes a new file or folder belong to the caller."""
        os.chown(name, self._user, self._group, dir_fd=folder.path, follow_symlinks=False)
        return self._entry(folder, name)

    def _forget(self, code: int, node: int, body: bytes) -> None:
        for number, times in [(node, *struct.unpack_from("<Q", body))] if code == 2 else struct.iter_unpack("<QQ", body[8:]):
            inode = self._inodes.get(number)
            if inode is not None and number != ROOT:
                inode.known -= times
                self._leave(inode)

    def _leave(self, inode: Inode) -> None:
        """Closes the files that nobody needs any more. The unsynced blocks of such a file can still be lost, unless the file has no
        name."""
        if inode.opened or inode.unsynced is not None and os.fstat(inode.path).st_nlink:
            return
        if inode.file >= 0:
            os.close(inode.file)
            inode.file, inode.unsynced = -1, None
        if inode.known <= 0:
            os.close(inode.path)
            del self._inodes[inode.number], self._numbers[inode.key]

    # --- Names ---

    def _lookup(self, folder: Inode, body: bytes) -> bytes:
        return self._entry(folder, text(body))

    def _node(self, folder: Inode, body: bytes) -> bytes:
        mode, device = struct.unpack_from("<II", body)
        name = text(body[16:])
        os.mknod(name, mode, device, dir_fd=folder.path)
        return self._made(folder, name)

    def _folder(self, folder: Inode, body: bytes) -> bytes:
        name = text(body[8:])
        os.mkdir(name, struct.unpack_from("<I", body)[0], dir_fd=folder.path)
        return self._made(folder, name)

    def _symlink(self, folder: Inode, body: bytes) -> bytes:
        name, target = body.split(b"\0")[:2]
        os.symlink(target, os.fsdecode(name), dir_fd=folder.path)
        return self._made(folder, os.fsdecode(name))

    def _unlink(self, folder: Inode, body: bytes) -> bytes:
        os.unlink(text(body), dir_fd=folder.path)
        return b""

    def _remove(self, folder: Inode, body: bytes) -> bytes:
        os.rmdir(text(body), dir_fd=folder.path)
        return b""

    def _rename(self, folder: Inode, body: bytes, names: int) -> bytes:
        flags = struct.unpack_from("<I", body, 8)[0] if names > 8 else 0
        old, new = body[names:].split(b"\0")[:2]
        to = self._inodes[struct.unpack_from("<Q", body)[0]]
        if flags & ~1:
            raise OSError(errno.EINVAL, "only the flag that forbids to replace a file is supported")
        if flags and os.path.lexists(f"{to.name}/{os.fsdecode(new)}"):
            raise OSError(errno.EEXIST, "it is there")
        os.rename(old, new, src_dir_fd=folder.path, dst_dir_fd=to.path)
        return b""

    def _link(self, folder: Inode, body: bytes) -> bytes:
        inode, name = self._inodes[struct.unpack_from("<Q", body)[0]], text(body[8:])
        os.link(inode.name, name, dst_dir_fd=folder.path, follow_symlinks=True)
        return self._entry(folder, name)

    # --- Attributes ---

    def _get(self, inode: Inode, body: bytes) -> bytes:
        return struct.pack("<QII", 0, 0, 0) + attributes(os.fstat(inode.path))

    def _set(self, inode: Inode, body: bytes) -> bytes:
        given = SET.unpack_from(body)
        which, size, (atime, mtime), (atime_rest, mtime_rest), mode, user, group = (
            given[0], given[3], given[5:7], given[8:10], given[11], given[13], given[14])
        if which & SETS_MODE:
            os.chmod(inode.name, stat.S_IMODE(mode))
        if which & (SETS_USER | SETS_GROUP):
            os.chown(inode.name, user if which & SETS_USER else -1, group if which & SETS_GROUP else -1)
        if which & SETS_SIZE:
            inode.changing().before_length(size)
            os.ftruncate(inode.contents(), size)
        if which & (SETS_ATIME | SETS_MTIME):
            now = os.fstat(inode.path)
            os.utime(inode.name, ns=(atime * 10**9 + atime_rest if which & SETS_ATIME else now.st_atime_ns,
                                     mtime * 10**9 + mtime_rest if which & SETS_MTIME else now.st_mtime_ns))
        return self._get(inode, body)

    def _space(self, inode: Inode, body: bytes) -> bytes:
        found = os.statvfs(inode.name)
        return struct.pack("<QQQQQIIII24x", found.f_blocks, found.f_bfree, found.f_bavail, found.f_files, found.f_ffree, found.f_bsize,
                           found.f_namemax, found.f_frsize, 0)

    # --- Contents ---

    def _open(self, inode: Inode, body: bytes) -> bytes:
        inode.contents()
        if struct.unpack_from("<I", body)[0] & os.O_TRUNC:
            inode.changing().before_length(0)
            os.ftruncate(inode.file, 0)
        inode.opened += 1
        return struct.pack("<QII", 0, 0, 0)

    def _create(self, folder: Inode, body: bytes) -> bytes:
        flags, mode = struct.unpack_from("<II", body)
        name = text(body[16:])
        os.close(os.open(name, os.O_CREAT | os.O_WRONLY | flags & os.O_EXCL, mode, dir_fd=folder.path))
        entry = self._made(folder, name)
        return entry + self._open(self._inodes[ENTRY.unpack_from(entry)[0]], body)

    def _read(self, inode: Inode, body: bytes) -> bytes:
        _, at, size, *_ = READ.unpack_from(body)
        return os.pread(inode.contents(), size, at)

    def _write(self, inode: Inode, body: bytes) -> bytes:
        _, at, size, _, _, flags, _ = READ.unpack_from(body)
        inode.changing().before(at, size)
        written = os.pwrite(inode.contents(), body[READ.size:READ.size + size], at)
        if flags & SYNCED:
            inode.unsynced = None
        return struct.pack("<II", written, 0)

    def _allocate(self, inode: Inode, body: bytes) -> bytes:
        _, at, size, mode, _ = struct.unpack_from("<QQQII", body)
        if mode & PUNCHES:
            raise OSError(errno.EOPNOTSUPP, "only room is made")
        end = os.fstat(inode.path).st_size
        inode.changing().before(max(at, end), max(0, at + size - max(at, end)) if not mode else 0)
        if not mode and at + size > end:
            os.ftruncate(inode.contents(), at + size)
        return b""

    def _sync(self, inode: Inode, body: bytes) -> bytes:
        inode.unsynced = None
        return b""

    def _release(self, inode: Inode, body: bytes) -> bytes:
        inode.opened -= 1
        self._leave(inode)
        return b""

    # --- Folders ---

    def _open_folder(self, inode: Inode, body: bytes) -> bytes:
        with os.scandir(inode.name) as entries:
            found = [(one.name, one.inode(), kind_of(one)) for one in entries]
        self._count += 1
        self._folders[self._count] = [(".", inode.key[1], stat.S_IFDIR >> 12), ("..", inode.key[1], stat.S_IFDIR >> 12), *found]
        return struct.pack("<QII", self._count, 0, 0)

    def _list(self, inode: Inode, body: bytes) -> bytes:
        number, begin, size, *_ = READ.unpack_from(body)
        given = b""
        for place, (name, file, kind) in enumerate(self._folders[number][begin:], begin + 1):
            encoded = os.fsencode(name)
            entry = struct.pack("<QQII", file, place, len(encoded), kind) + encoded
            entry = entry.ljust(-len(entry) // 8 * -8, b"\0")
            if len(given) + len(entry) > size:
                break
            given += entry
        return given

    def _close_folder(self, inode: Inode, body: bytes) -> bytes:
        self._folders.pop(struct.unpack_from("<Q", body)[0], None)
        return b""

    def _begin(self, inode: Inode, body: bytes) -> bytes:
        _, _, ahead, flags = struct.unpack_from("<IIII", body)
        return struct.pack("<IIIIHHIIHH8I", 7, 31, ahead, flags & (BIG_WRITES | TRUNCATES), 16, 12, MOST, 1, 0, 0, *[0] * 8)

    # --- Commands ---

    def obey(self, words: List[str]) -> str:
        changed = [inode for inode in list(self._inodes.values()) if inode.unsynced is not None]
        lost = sum(inode.unsynced.size for inode in changed if inode.unsynced is not None)
        draws = random.Random(words[-1])
        for inode in changed:
            if inode.unsynced is not None and words[0] == "lose":
                inode.unsynced.lose()
            elif inode.unsynced is not None and words[0] == "tear":
                inode.unsynced.tear(draws)
            inode.unsynced = None
            self._leave(inode)
        return "ok" if words[0] == "sync" else f"lost {len(changed)} {lost}"


def text(body: bytes) -> str:
    return os.fsdecode(body.split(b"\0", 1)[0])


def kind_of(entry: "os.DirEntry[str]") -> int:
    if entry.is_symlink():
        return stat.S_IFLNK >> 12
    return (stat.S_IFDIR if entry.is_dir() else stat.S_IFREG if entry.is_file() else 0) >> 12


def attributes(found: os.stat_result) -> bytes:
    times = [divmod(time, 10**9) for time in (found.st_atime_ns, found.st_mtime_ns, found.st_ctime_ns)]
    return ATTRIBUTES.pack(found.st_ino, found.st_size, found.st_blocks, *(second for second, _ in times), *(rest for _, rest in times),
                           found.st_mode, found.st_nlink, found.st_uid, found.st_gid, found.st_rdev, 4096, 0)


def serve(backing: str, point: str) -> None:
    """Serves until standard input ends. Then the test has ended, and the mount is removed."""
    os.umask(0)
    most = resource.getrlimit(resource.RLIMIT_NOFILE)[1]
    resource.setrlimit(resource.RLIMIT_NOFILE, (most, most))
    disk, requests, commands, rest = Disk(backing), mounted(point, "jepmon-disk"), sys.stdin.fileno(), b""
    print("ok", flush=True)
    poll = select.poll()
    poll.register(requests, select.POLLIN)
    poll.register(commands, select.POLLIN | select.POLLHUP)
    try:
        while True:
            ready = [file for file, _ in poll.poll()]
            if requests in ready:  # requests come first: the writes before a command belong to it
                answer = disk.handle(os.read(requests, REQUEST))
                if answer is not None:
                    give(requests, answer)
                continue
            given = os.read(commands, 1 << 16)
            if not given:
                return
            *lines, rest = (rest + given).split(b"\n")
            for line in lines:
                print(disk.obey(line.decode().split()), flush=True)
    except OSError as fault:
        if fault.errno != errno.ENODEV:  # somebody else has unmounted it
            raise
    finally:
        try:
            unmount(point)
        except OSError:
            pass


def give(requests: int, answer: bytes) -> None:
    try:
        os.write(requests, answer)
    except FileNotFoundError:
        pass  # the process that asked was killed


if __name__ == "__main__":
    serve(sys.argv[1], sys.argv[2])
