"""Far ends of remote providers: the lines of HOME/remotes, and their processes, of which none is left. Run with the path of that file, seconds and
numbers, it tells which of these providers give no answer in that time."""

from __future__ import annotations

import ctypes
import os
import re
import select
import signal
import stat
import subprocess
import sys
import time
from typing import NamedTuple

LIMIT = 60  # seconds that an answer may take
SET_CHILD_SUBREAPER = 36  # of prctl
PIECE = 1 << 16  # bytes that are read at a time
NOBODYS = b"\2" + b"\xff" * 8 + bytes(4) + b"\6"  # the fetch of a block that nobody has: no put has this number
NOT_THERE, THERE = b"\0", b"\1"  # what answers begin with


class NoRemotes(Exception):
    """HOME/remotes is not as it should be."""


class Remote(NamedTuple):
    """A line of HOME/remotes."""

    number: int
    limit: int
    command: str


# ---- HOME/remotes


def read_line(line: str, path: str) -> Remote | None:
    """The far end that a line names, if it names one."""
    if re.fullmatch(r"[ \t]*(#.*)?", line):
        return None
    parts = re.fullmatch(r"[ \t]*([0-9]|1[0-5])[ \t]+(?:([1-9][0-9]{0,6})s[ \t]+)?([^ \t\0][^\0]*)", line, re.ASCII)
    if parts is None:
        raise NoRemotes(f"no number of a provider and command in {path}: {line}")
    return Remote(int(parts[1]), int(parts[2] or LIMIT), parts[3])


def read_remotes(path: str) -> list[Remote]:
    """The far ends that HOME/remotes names."""
    try:
        with open(path, encoding="utf-8", errors="surrogateescape", newline="\n") as file:
            if os.fstat(file.fileno()).st_mode & (stat.S_IWGRP | stat.S_IWOTH):
                raise NoRemotes(f"others may write {path}, whose commands would be run")
            lines = file.read().split("\n")
    except OSError:
        raise NoRemotes(f"{path} can't be read") from None
    remotes: dict[int, Remote] = {}
    for line in lines:
        remote = read_line(line, path)
        if remote is not None:
            if remote.number in remotes:
                raise NoRemotes(f"provider {remote.number} stands twice in {path}")
            remotes[remote.number] = remote
    return [remotes[number] for number in sorted(remotes)]


# ---- who holds a pipe


def adopt_orphans() -> None:
    """What leaves its parents becomes a child of this program, and so can be told from what it did not begin."""
    try:
        ctypes.CDLL(None).prctl(SET_CHILD_SUBREAPER, 1, 0, 0, 0)
    except (OSError, AttributeError):
        pass


def pipe_of(descriptor: int) -> str:
    """The name of the pipe that a descriptor is open on."""
    return os.readlink(f"/proc/self/fd/{descriptor}")


def holds(pid: int, pipes: set[str]) -> bool:
    """Whether a process holds one of these pipes open."""
    try:
        for name in os.listdir(f"/proc/{pid}/fd"):
            try:
                if os.readlink(f"/proc/{pid}/fd/{name}") in pipes:
                    return True
            except OSError:
                pass
    except OSError:
        pass
    return False


def parent_of(pid: int) -> int:
    """The parent of a process; 0 where there is none."""
    try:
        with open(f"/proc/{pid}/stat", "rb") as file:
            return int(file.read().rpartition(b")")[2].split()[1])
    except (OSError, IndexError):
        return 0


def descends(pid: int, parents: dict[int, int]) -> bool:
    """Whether a process comes from this program."""
    for _ in parents:
        pid = parents.get(pid, 0)
        if pid == os.getpid():
            return True
    return False


def kill_holders(pipes: set[str]) -> None:
    """Kills what far ends began that holds one of these pipes open: no shared connection of ssh that was there before."""
    if not os.path.isdir("/proc/self/fd"):
        return
    parents = {int(pid): parent_of(int(pid)) for pid in os.listdir("/proc") if pid.isdigit()}
    for pid in parents:
        if descends(pid, parents) and holds(pid, pipes):
            try:
                os.kill(pid, signal.SIGKILL)
            except OSError:
                pass


# ---- a process


class Process:
    """A far end that runs, with a session of its own, and this program's ends of its three pipes, which don't block."""

    def __init__(self, command: str) -> None:
        pipe = subprocess.PIPE
        self.process = subprocess.Popen(
            ["bash", "-c", command], stdin=pipe, stdout=pipe, stderr=pipe, start_new_session=True, bufsize=0
        )
        streams = (self.process.stdin, self.process.stdout, self.process.stderr)
        self.input, self.output, self.errors = (os.dup(stream.fileno()) for stream in streams if stream)
        for stream in streams:
            if stream:
                stream.close()
        for descriptor in (self.input, self.output, self.errors):
            os.set_blocking(descriptor, False)
        self.pipes = {pipe_of(descriptor) for descriptor in (self.input, self.output, self.errors)}
        self.open = {self.input, self.output, self.errors}
        self.was_killed = False

    def close(self, descriptor: int) -> None:
        """Closes one of the three, if it is open."""
        if descriptor in self.open:
            self.open.remove(descriptor)
            os.close(descriptor)

    def close_all(self) -> None:
        """Closes those that are open."""
        for descriptor in list(self.open):
            self.close(descriptor)

    def has_ended(self) -> bool:
        """Whether it has ended."""
        return self.process.poll() is not None

    def kill(self) -> None:
        """Kills it and its group."""
        self.was_killed = True
        try:
            os.killpg(self.process.pid, signal.SIGKILL)
        except OSError:
            pass
        if not self.has_ended():
            self.process.kill()


# ---- whether far ends answer


def begin(remote: Remote) -> Process | None:
    """Asks a far end for a block that nobody has, if it can be begun."""
    try:
        process = Process(remote.command)
    except OSError:
        return None
    try:
        os.write(process.input, NOBODYS)
    except OSError:
        pass
    return process


def hear(asked: dict[int, Process], until: float) -> set[int]:
    """The numbers of those that answer by then. What they tell is passed over."""
    outputs = {process.output: number for number, process in asked.items()}
    telling = {process.errors for process in asked.values()}
    well = set()
    while outputs and (left := until - time.monotonic()) > 0:
        for descriptor in select.select([*outputs, *telling], [], [], left)[0]:
            data = os.read(descriptor, PIECE)
            if descriptor not in outputs:
                telling -= set() if data else {descriptor}
            elif data[:1] in (NOT_THERE, THERE):
                well.add(outputs.pop(descriptor))
            else:
                del outputs[descriptor]
    return well


def end(processes: list[Process]) -> None:
    """Lets those whose input is at its end come to their own, for a second, and kills the others."""
    for process in processes:
        process.close(process.input)
    until = time.monotonic() + 1
    while time.monotonic() < until and not all(process.has_ended() for process in processes):
        time.sleep(0.01)
    for process in processes:
        process.kill()
    kill_holders({pipe for process in processes for pipe in process.pipes})
    for process in processes:
        process.close_all()


def silent(remotes: list[Remote], seconds: float) -> list[int]:
    """The far ends that do not answer in that time. All are asked at once."""
    adopt_orphans()
    begun = {remote.number: begin(remote) for remote in remotes}
    asked = {number: process for number, process in begun.items() if process}
    try:
        well = hear(asked, time.monotonic() + seconds)
    finally:
        end(list(asked.values()))
    return [remote.number for remote in remotes if remote.number not in well]


def main(path: str, seconds: str, *numbers: str) -> None:
    """Tells which of these far ends do not answer."""
    try:
        remotes = [remote for remote in read_remotes(path) if str(remote.number) in numbers]
    except NoRemotes as why:
        sys.exit(str(why))
    for number in silent(remotes, float(seconds)):
        print(number)


if __name__ == "__main__":
    main(*sys.argv[1:])
