"""Runs a built program with one of its allocations refused: `run(program, words, stdin, nth)`.

Every growth of a program goes through its functions `rattle_alloc` and `rattle_realloc`. This module traces the program and counts the
calls of the two functions over all threads. The nth call answers that there is no memory, as it does if memory has run out. Everything else
runs as it stands, at its full speed. It wants Linux on x86-64, a machine that lets a parent trace its child, and a program with its
symbols, as the toolchain builds it.
"""
import ctypes
import functools
import os
import signal
import struct
import tempfile
from dataclasses import dataclass

GROWTHS = ("rattle_alloc", "rattle_realloc")
NO_EFFECT = b"\xf3\x0f\x1e\xfa"  # endbr64, with which each of the two begins
BREAKPOINT = b"\xcc"
TRACEME, PEEKTEXT, CONT, GETREGS, SETREGS, SETOPTIONS = 0, 1, 7, 12, 13, 0x4200
TRACECLONE, EXITKILL, WALL = 0x8, 0x100000, 0x40000000
RAX, RDX, RIP, RSP, REGISTERS = 10, 12, 16, 19, 27  # places in the kernel's user_regs_struct
LIBC = ctypes.CDLL(None, use_errno=True)
LIBC.ptrace.restype = ctypes.c_long
LIBC.ptrace.argtypes = [ctypes.c_long, ctypes.c_long, ctypes.c_void_p, ctypes.c_void_p]


class CannotTrace(Exception):
    """This machine, or this program, does not allow it."""


@dataclass
class Run:
    """How a run ended: its exit status, its standard output, and the number of its allocations."""
    status: int
    written: bytes
    allocations: int


def ptrace(request, thread, at=None, value=None):
    ctypes.set_errno(0)
    result = LIBC.ptrace(request, thread, at, value)
    if result == -1 and ctypes.get_errno():
        raise CannotTrace(f"ptrace {request}: {os.strerror(ctypes.get_errno())}")
    return result


@functools.lru_cache
def symbols(path):
    """The addresses of a program's symbols, before it is loaded: the entries of the symbol tables of an ELF file of 64 bits."""
    with open(path, "rb") as file:
        data = file.read()
    start, = struct.unpack_from("<Q", data, 40)
    size, count = struct.unpack_from("<HH", data, 58)
    sections = [struct.unpack_from("<IIQQQQIIQQ", data, start + place * size) for place in range(count)]
    found = {}
    for _, kind, _, _, offset, length, names, *_ in sections:
        if kind != 2:
            continue
        for at in range(offset, offset + length, 24):
            name, _, _, _, value, _ = struct.unpack_from("<IBBHQQ", data, at)
            begin = sections[names][4] + name
            found[data[begin:data.index(b"\0", begin)].decode()] = value
    if not {*GROWTHS, "nothing"} <= found.keys():
        raise CannotTrace(f"{path} names no functions that give memory")
    return found


def base_of(process, path):
    """Where the program was loaded."""
    real = os.path.realpath(path)
    with open(f"/proc/{process}/maps") as maps:
        for line in maps:
            if line.rstrip().endswith(real):
                return int(line.split("-")[0], 16)
    raise CannotTrace(f"{real} is not mapped")


def start(program, words, given, written):
    """The program with these streams, stopped before its first instruction."""
    process = os.fork()
    if process == 0:
        try:
            os.dup2(given.fileno(), 0)
            os.dup2(written.fileno(), 1)
            os.dup2(os.open(os.devnull, os.O_WRONLY), 2)
            if LIBC.ptrace(TRACEME, 0, None, None) == 0:
                os.execv(program, [program, *words])
        finally:
            os._exit(127)
    _, what = os.waitpid(process, 0)
    if not os.WIFSTOPPED(what):
        raise CannotTrace("a child can't be traced here")
    ptrace(SETOPTIONS, process, None, TRACECLONE | EXITKILL)
    return process


def set_breakpoints(process, places):
    """Stops the program wherever it comes to one of these places."""
    with open(f"/proc/{process}/mem", "r+b", buffering=0) as memory:
        for place in places:
            memory.seek(place)
            if memory.read(len(NO_EFFECT)) != NO_EFFECT:
                raise CannotTrace("a function that gives memory begins otherwise than is known here")
            memory.seek(place)
            memory.write(BREAKPOINT)


class Growths:
    """Runs at each stop of a thread: counts the growths, and refuses the nth."""

    def __init__(self, process, program, nth):
        base, table = base_of(process, program), symbols(program)
        self.places = {base + table[name] for name in GROWTHS}
        self.nothing = base + table["nothing"]
        self.nth, self.count = nth, 0
        set_breakpoints(process, self.places)

    def stopped(self, thread):
        registers = (ctypes.c_ulonglong * REGISTERS)()
        ptrace(GETREGS, thread, None, ctypes.addressof(registers))
        if registers[RIP] - 1 not in self.places:
            return  # a new thread, or its parent
        self.count += 1
        if self.count == self.nth:
            # returns to the caller with the value that both functions give if there is no memory
            registers[RAX], registers[RDX] = 0, self.nothing
            registers[RIP] = ptrace(PEEKTEXT, thread, registers[RSP]) % 2**64
            registers[RSP] += 8
        else:
            registers[RIP] += len(NO_EFFECT) - len(BREAKPOINT)
        ptrace(SETREGS, thread, None, ctypes.addressof(registers))


def follow(process, growths):
    """Lets the program run to its end, all its threads. Its exit status, or minus the signal that ended it."""
    ptrace(CONT, process)
    while True:
        thread, what = os.waitpid(-1, WALL)
        if os.WIFEXITED(what) or os.WIFSIGNALED(what):
            if thread == process:
                return os.waitstatus_to_exitcode(what)
            continue
        signal_to_pass = os.WSTOPSIG(what)
        if signal_to_pass in (signal.SIGTRAP, signal.SIGSTOP):
            signal_to_pass = 0
            growths.stopped(thread)
        ptrace(CONT, thread, None, signal_to_pass)


def run(program, words, stdin, nth):
    """Runs it with the nth allocation refused, counted from 1, or none for 0."""
    program = os.fspath(program)
    with tempfile.TemporaryFile() as given, tempfile.TemporaryFile() as written:
        given.write(stdin)
        given.seek(0)
        process = start(program, words, given, written)
        try:
            growths = Growths(process, program, nth)
            status = follow(process, growths)
        except BaseException:
            os.kill(process, signal.SIGKILL)
            raise
        written.seek(0)
        return Run(status, written.read(), growths.count)
