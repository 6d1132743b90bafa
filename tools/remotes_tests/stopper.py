#!/usr/bin/python3
"""In place of hail: runs the program that SERVER names, and kills it at one of its system calls.

Calls are counted, at their begin and at their end, from the last program that the process turned into (a launcher is none of it). KILL_AT in the
environment says at which count it is killed; without it the whole count is written to the file that COUNT_TO names. It ends as the
program does, with 128 and the signal where it was killed.
"""
from __future__ import annotations

import ctypes
import os
import signal
import sys

TRACE_ME, SYSTEM_CALL, SET_OPTIONS = 0, 24, 0x4200
TELL_CALLS, TELL_EXEC, KILL_WITH_ME = 1, 16, 0x100000
EXEC_EVENT = 4
LIBC = ctypes.CDLL(None, use_errno=True)
LIBC.ptrace.argtypes = [ctypes.c_long, ctypes.c_long, ctypes.c_void_p, ctypes.c_void_p]


def ptrace(request: int, pid: int, data: int = 0) -> None:
    """The system's ptrace."""
    if LIBC.ptrace(request, pid, None, data) == -1:
        raise OSError(ctypes.get_errno(), 'ptrace')


def begin(words: list[str]) -> int:
    """Begins the program, which is stopped before its first call."""
    pid = os.fork()
    if pid == 0:
        signal.signal(signal.SIGPIPE, signal.SIG_DFL)
        ptrace(TRACE_ME, 0)
        os.kill(os.getpid(), signal.SIGSTOP)
        os.execv(words[0], words)
    os.waitpid(pid, 0)
    ptrace(SET_OPTIONS, pid, TELL_CALLS | TELL_EXEC | KILL_WITH_ME)
    return pid


def is_script(pid: int) -> bool:
    """Whether a process is still a launcher."""
    return os.path.basename(os.readlink(f'/proc/{pid}/exe')).rstrip('0123456789.') in ('sh', 'dash', 'bash', 'python', 'busybox')


def go_on(pid: int, kill_at: int) -> tuple[int, int]:
    """Lets it run to its end, or to the count at which it is killed. Gives its status and the count."""
    count, give, counts = 0, 0, False
    while not kill_at or count < kill_at:
        ptrace(SYSTEM_CALL, pid, give)
        _, status = os.waitpid(pid, 0)
        if not os.WIFSTOPPED(status):
            return status, count
        what, give = os.WSTOPSIG(status), 0
        if status >> 16 == EXEC_EVENT:
            count, counts = 0, not is_script(pid)
        elif what == signal.SIGTRAP | 0x80:
            count += counts
        elif what != signal.SIGTRAP:
            give = what
    os.kill(pid, signal.SIGKILL)
    return os.waitpid(pid, 0)[1], count


def main(words: list[str]) -> None:
    """Runs, and ends as the program."""
    status, count = go_on(begin([os.environ['SERVER'], *words]), int(os.environ.get('KILL_AT', '0')))
    if 'COUNT_TO' in os.environ:
        with open(os.environ['COUNT_TO'], 'w', encoding='ascii') as file:
            file.write(str(count))
    sys.exit(128 + os.WTERMSIG(status) if os.WIFSIGNALED(status) else os.WEXITSTATUS(status))


if __name__ == '__main__':
    main(sys.argv[1:])
