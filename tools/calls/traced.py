"""A program under ptrace: of it and of all that it starts, the calls that change what lies below some folders are counted, and at one of them all
is killed, or the call fails. For Linux on x86_64."""

from __future__ import annotations

import ctypes
import errno
import os
import platform
import signal
import struct
import sys
import tempfile
from dataclasses import dataclass, field

# ptrace and seccomp: words of Linux.
TRACEME, CONT, GETREGS, SETREGS, SETOPTIONS = 0, 7, 12, 13, 0x4200
FORK, VFORK, CLONE, EXEC, SECCOMP, EXITKILL = 2, 4, 8, 16, 128, 1 << 20
SECCOMP_EVENT = 7
NO_NEW_PRIVS, SET_SECCOMP, FILTER = 38, 22, 2
TRACE, ALLOW = 0x7FF00000, 0x7FFF0000
ALL_CHILDREN = 0x40000000
HERE = -100  # AT_FDCWD
REGISTERS = 27
MOST_SECONDS = 300  # of a run
NUMBER, ANSWER = 15, 10  # of the call, and what it gives
ARGUMENTS = (14, 13, 12, 7)  # rdi, rsi, rdx, r10

# Calls by their number: which argument is a descriptor, or which are a folder's descriptor (None: the own folder) and a path.
BY_DESCRIPTOR = {1: 0, 18: 0, 20: 0, 74: 0, 75: 0, 77: 0, 285: 0, 326: 2}
BY_PATH = {
    2: ((None, 0),), 76: ((None, 0),), 82: ((None, 0), (None, 1)), 83: ((None, 0),), 84: ((None, 0),), 85: ((None, 0),), 86: ((None, 1),),
    87: ((None, 0),), 88: ((None, 1),), 90: ((None, 0),), 257: ((0, 1),), 258: ((0, 1),), 263: ((0, 1),), 264: ((0, 1), (2, 3)), 265: ((2, 3),),
    266: ((1, 2),), 268: ((0, 1),), 316: ((0, 1), (2, 3)),
}  # fmt: skip
OPENING = {2: 1, 257: 2}  # where the flags are
READING = {0: 0, 17: 0, 217: 0}  # read, pread64, getdents64
CHANGING_FLAGS = os.O_WRONLY | os.O_RDWR | os.O_CREAT
NAMES = {
    0: "read", 1: "write", 2: "open", 17: "pread64", 18: "pwrite64", 20: "writev", 74: "fsync", 75: "fdatasync", 76: "truncate", 77: "ftruncate", 82: "rename",
    83: "mkdir", 84: "rmdir", 85: "creat", 86: "link", 87: "unlink", 88: "symlink", 90: "chmod", 217: "getdents64", 257: "openat", 258: "mkdirat",
    263: "unlinkat", 264: "renameat", 265: "linkat", 266: "symlinkat", 268: "fchmodat", 285: "fallocate", 316: "renameat2", 326: "copy_file_range",
}  # fmt: skip

libc = ctypes.CDLL(None, use_errno=True)
libc.ptrace.argtypes = [ctypes.c_long, ctypes.c_long, ctypes.c_void_p, ctypes.c_void_p]
libc.ptrace.restype = ctypes.c_long


def is_possible() -> bool:
    """Whether this machine lets a program be traced so."""
    if platform.machine() != "x86_64" or sys.platform != "linux":
        return False
    try:
        return run(["true"], Strike(below=["/"])).status == 0
    except OSError:
        return False


@dataclass(frozen=True)
class Strike:
    """What is counted, and what happens at the call of this number: nothing without one; `error` lets it fail so, and all calls that follow too
    where it is to last; without an error all is killed before the call. With `reads` the calls that read are counted, and the others not."""

    below: list[str]
    at: int = 0
    error: int = 0
    lasts: bool = False
    reads: bool = False

    def hits(self, count: int) -> bool:
        """Whether the call of this number is struck."""
        return count == self.at or self.lasts and count > self.at > 0


@dataclass
class Outcome:
    """How a run ended: its status, 137 where it was killed and 124 where it did not end; what it wrote; the calls that were counted."""

    status: int = 0
    out: bytes = b""
    err: bytes = b""
    calls: list[str] = field(default_factory=list)


def trace(request: int, process: int, data: object = None) -> None:
    """A request to ptrace. A process that is gone is passed over."""
    if libc.ptrace(request, process, None, data) < 0 and ctypes.get_errno() != errno.ESRCH:
        raise OSError(ctypes.get_errno(), "ptrace")


def program_of_filter(numbers: list[int]) -> bytes:
    """The filter that stops at these calls."""
    lines = [(0x20, 0, 0, 0)]  # the number of the call
    lines += [(0x15, len(numbers) - index, 0, number) for index, number in enumerate(numbers)]
    lines += [(0x06, 0, 0, ALLOW), (0x06, 0, 0, TRACE)]
    return b"".join(struct.pack("<HBBI", *line) for line in lines)


def begin(command: list[str], numbers: list[int], files: list[int], folder: str | None, variables: dict[str, str]) -> None:
    """In the new process: waits for the tracer, and becomes the command."""
    try:
        for target, source in enumerate(files):
            os.dup2(source, target)
        os.chdir(folder or ".")
        os.setsid()
        trace(TRACEME, 0)
        os.kill(os.getpid(), signal.SIGSTOP)
        code = ctypes.create_string_buffer(program_of_filter(numbers))
        program = struct.pack("<HxxxxxxQ", len(code) // 8, ctypes.addressof(code))
        if libc.prctl(NO_NEW_PRIVS, 1, 0, 0, 0) or libc.prctl(SET_SECCOMP, FILTER, program, 0, 0):
            os._exit(99)
        os.execvpe(command[0], command, {**os.environ, **variables})
    finally:
        os._exit(98)


class Tracer:
    """Traces one run."""

    def __init__(self, strike: Strike) -> None:
        self.strike = strike
        self.below = [os.path.realpath(folder).rstrip("/") + "/" for folder in strike.below]
        self.calls: list[str] = []
        self.living: set[int] = set()

    def numbers(self) -> list[int]:
        """The calls at which the run stops."""
        return sorted(READING) if self.strike.reads else sorted({*BY_DESCRIPTOR, *BY_PATH})

    def is_below(self, path: str) -> bool:
        """Whether a path lies below the folders."""
        return any((path + "/").startswith(folder) for folder in self.below)

    def text_at(self, process: int, address: int) -> str:
        """The text at an address of a process."""
        with open(f"/proc/{process}/mem", "rb", buffering=0) as memory:
            memory.seek(address)
            return memory.read(4096 - address % 4096).split(b"\0")[0].decode(errors="replace")

    def open_path(self, process: int, descriptor: int) -> str:
        """What a descriptor of a process leads to."""
        try:
            return os.readlink(f"/proc/{process}/fd/{descriptor}")
        except OSError:
            return ""

    def path_of(self, process: int, values: list[int], folder: int | None, path: int) -> str:
        """The path that two arguments of a call name."""
        text = self.text_at(process, values[path])
        base = HERE if folder is None else ctypes.c_int(values[folder] & 0xFFFFFFFF).value
        top = os.readlink(f"/proc/{process}/cwd") if base == HERE else self.open_path(process, base)
        return os.path.normpath(os.path.join(top, text))

    def paths_of(self, process: int, number: int, values: list[int]) -> list[str]:
        """The paths that a call is about; none where it changes nothing."""
        descriptors = READING if self.strike.reads else BY_DESCRIPTOR
        if number in descriptors:
            return [self.open_path(process, values[descriptors[number]])]
        if number in OPENING and not values[OPENING[number]] & CHANGING_FLAGS:
            return []
        return [self.path_of(process, values, folder, path) for folder, path in BY_PATH[number]]

    def at_call(self, process: int) -> None:
        """A call begins: it is counted, and struck where it is its turn."""
        registers = (ctypes.c_ulonglong * REGISTERS)()
        trace(GETREGS, process, ctypes.byref(registers))
        number, values = registers[NUMBER], [registers[index] for index in ARGUMENTS]
        try:
            path = next((path for path in self.paths_of(process, number, values) if self.is_below(path)), None)
        except OSError:
            return
        if path is None:
            return
        self.calls.append(f"{NAMES[number]} {path}")
        if not self.strike.hits(len(self.calls)):
            return
        if not self.strike.error:
            self.kill_all()
            return
        registers[NUMBER], registers[ANSWER] = 2**64 - 1, 2**64 - self.strike.error
        trace(SETREGS, process, ctypes.byref(registers))

    def kill_all(self) -> None:
        """Kills all that is traced."""
        for process in self.living:
            try:
                os.kill(process, signal.SIGKILL)
            except ProcessLookupError:
                pass

    def go_on(self, process: int, status: int) -> None:
        """A process has stopped: it goes on."""
        self.living.add(process)
        stop = os.WSTOPSIG(status)
        if status >> 16 == SECCOMP_EVENT:
            self.at_call(process)
        given = 0 if status >> 16 or stop in (signal.SIGSTOP, signal.SIGTRAP) else stop
        trace(CONT, process, given)

    def follow(self, first: int) -> int:
        """Follows all processes to their end. Gives the status of the first."""
        answer = 124
        while True:
            try:
                process, status = os.waitpid(-1, ALL_CHILDREN)
            except ChildProcessError:
                return answer
            if os.WIFSTOPPED(status):
                self.go_on(process, status)
                continue
            self.living.discard(process)
            if process == first:
                answer = os.WEXITSTATUS(status) if os.WIFEXITED(status) else 128 + os.WTERMSIG(status)


def run(command: list[str], strike: Strike, given: bytes = b"", folder: str | None = None, variables: dict[str, str] | None = None) -> Outcome:
    """Runs a command so, with this input, in a folder and with these variables besides. What does not end in time is killed."""
    tracer = Tracer(strike)
    with tempfile.TemporaryFile() as source, tempfile.TemporaryFile() as out, tempfile.TemporaryFile() as err:
        source.write(given)
        source.seek(0)
        process = os.fork()
        if process == 0:
            begin(command, tracer.numbers(), [source.fileno(), out.fileno(), err.fileno()], folder, variables or {})
        os.waitpid(process, os.WUNTRACED)
        trace(SETOPTIONS, process, FORK | VFORK | CLONE | EXEC | SECCOMP | EXITKILL)
        tracer.living.add(process)
        signal.signal(signal.SIGALRM, lambda *_: tracer.kill_all())
        signal.alarm(MOST_SECONDS)
        trace(CONT, process)
        status = tracer.follow(process)
        left = signal.alarm(0)
        out.seek(0), err.seek(0)
        return Outcome(status if left else 124, out.read(), err.read(), tracer.calls)
