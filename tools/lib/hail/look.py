"""Whether providers answer, and what they hold of the files. Each is looked at by a process of its own, since a mount that hangs holds it."""

from __future__ import annotations

import json
import os
import re
import stat
import subprocess
import sys
import time
from dataclasses import dataclass
from typing import Any

from .blocks import blocks_of
from .homes import environment, folder_of, is_remote, is_stacked
from .journal import StoredFile
from .shapes import Shape, block_bytes


@dataclass(frozen=True)
class Holding:
    """Of a file at a provider: how many blocks it has there, how many are due, and when the newest was written."""

    there: int
    due: int
    newest: int


@dataclass(frozen=True)
class Looked:
    """What a provider showed. `why` tells why it does not answer; of one that is remote the blocks are not looked at."""

    place: int
    kind: str
    why: str | None
    free: int | None
    holdings: list[Holding] | None

    def missing(self) -> int:
        """How many blocks are not there."""
        return sum(holding.due - holding.there for holding in self.holdings or [])

    def blocks(self) -> int:
        """How many are there."""
        return sum(holding.there for holding in self.holdings or [])

    def newest(self) -> int:
        """When the newest was written, or 0."""
        return max((holding.newest for holding in self.holdings or []), default=0)


def kind_of(home: str, place: int) -> str:
    """What a provider is."""
    if is_remote(home, place):
        return "remote"
    return "stacked" if is_stacked(home, place) else "folder"


def remote_command(home: str, place: int) -> str | None:
    """The command that serves a remote provider, by HOME/remotes; none where others may write that, or it names none."""
    path = os.path.join(home, "remotes")
    try:
        with open(path, encoding="utf-8") as file:
            rights, lines = os.fstat(file.fileno()).st_mode, file.read().splitlines()
    except (OSError, UnicodeError):
        return None
    found = [re.fullmatch(rf"[ \t]*{place}[ \t]+(?:[1-9][0-9]{{0,6}}s[ \t]+)?([^ \t].*)", line) for line in lines]
    commands = [match[1] for match in found if match]
    return commands[0] if commands and not rights & (stat.S_IWGRP | stat.S_IWOTH) else None


def _start(home: str, place: int, files: list[list[int]]) -> subprocess.Popen[bytes]:
    """Starts what looks at a provider."""
    kind = kind_of(home, place)
    command = [sys.executable, "-B", "-m", "hail.look", home, str(place)]
    if kind == "remote":
        command = ["bash", "-c", remote_command(home, place) or "exit 2"]
    variables = {**environment(), "PYTHONPATH": os.path.dirname(os.path.dirname(__file__))}
    pipe, none = subprocess.PIPE, subprocess.DEVNULL
    process = subprocess.Popen(command, stdin=pipe, stdout=pipe, stderr=none, env=variables, start_new_session=True)
    try:
        assert process.stdin
        process.stdin.write(b"" if kind == "remote" else json.dumps(files).encode())
        process.stdin.close()
    except BrokenPipeError:
        pass
    process.stdin = None
    return process


def _answer(process: subprocess.Popen[bytes], end: float) -> tuple[str | None, bytes]:
    """Why a process does not answer by a time, if it does not, and its output."""
    try:
        output, _ = process.communicate(timeout=max(0.01, end - time.monotonic()))
    except subprocess.TimeoutExpired:
        try:
            os.killpg(process.pid, 9)  # it may hang in a mount: nobody waits for its end
        except ProcessLookupError:
            pass
        return "no answer in time", b""
    return (f"ended with {process.returncode}", b"") if process.returncode else (None, output)


def _looked(home: str, place: int, why: str | None, output: bytes) -> Looked:
    kind = kind_of(home, place)
    if why or kind == "remote":
        return Looked(place, kind, why, None, None)
    told: dict[str, Any] = json.loads(output)
    holdings = [Holding(*holding) for holding in told["holdings"]]
    return Looked(place, kind, told["why"], told["free"], holdings if told["why"] is None else None)


def look(home: str, shape: Shape, files: list[StoredFile], seconds: float) -> list[Looked]:
    """What each provider of the shape shows within so many seconds, the files by number."""
    asked = [[file.number, shape.stripes(file.length, file.profile), block_bytes(file.profile)] for file in files]
    end = time.monotonic() + seconds
    processes = [_start(home, place, asked) for place in range(shape.providers)]
    return [_looked(home, place, *_answer(process, end)) for place, process in enumerate(processes)]


def _holdings(home: str, place: int, files: list[list[int]]) -> list[list[int]]:
    """Of each file, which is NUMBER STRIPES BYTES: how many blocks there are, how many are due, and when the newest was written."""
    by_number = {number: index for index, (number, _, _) in enumerate(files)}
    held = [[0, stripes, 0] for _, stripes, _ in files]
    for block in blocks_of(home, place):
        index = by_number.get(block.number)
        if index is not None and block.stripe < files[index][1] and block.size == files[index][2]:
            held[index][0] += 1
            held[index][2] = max(held[index][2], block.written)
    return held


def _main(home: str, place: int) -> None:
    """The process that looks at a provider's folder."""
    files = json.load(sys.stdin)
    told: dict[str, Any] = {"why": None, "free": None, "holdings": []}
    try:
        told["holdings"] = _holdings(home, place, files)
        room = os.statvfs(folder_of(home, place))
        told["free"] = room.f_bavail * room.f_frsize
    except OSError as fault:
        told["why"] = fault.strerror or "can't be read"
    json.dump(told, sys.stdout)


if __name__ == "__main__":
    _main(sys.argv[1], int(sys.argv[2]))
