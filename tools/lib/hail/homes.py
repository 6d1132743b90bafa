"""A home: its path, its lock, the kinds of its providers, and the program over it."""

from __future__ import annotations

import fcntl
import os
import subprocess
import sys
import time
from collections.abc import Iterator
from contextlib import contextmanager
from typing import NoReturn

from .paper import NoKey, read_key
from .shapes import JOURNAL_BYTES, PLACES

READERS = ("get", "list", "row", "serve")  # of the commands: they leave the journal as it is
REFUSED = (2, 3, 6, 7, 8, 9, 10, 17, 18, 19, 20, 23, 24, 26)  # of the statuses: of commands that did not begin
KEEPS = "HAIL_KEEPS"  # is set for a command behind which its caller copies the journal, which else the launcher and hail-remote do
TOOLS = os.path.dirname(os.path.dirname(os.path.dirname(os.path.realpath(__file__))))


def refuse(why: str, status: int = 1) -> NoReturn:
    """Tells why on standard error, and ends with a status."""
    print(f"{os.path.basename(sys.argv[0])}: {why}", file=sys.stderr)
    raise SystemExit(status)


def program() -> str:
    """The program: what HAIL names, or that of the repository which this folder lies in, or the one on the path."""
    if named := os.environ.get("HAIL"):
        return named
    beside = os.path.join(os.path.dirname(TOOLS), "hail")
    return beside if os.path.isfile(beside) else "hail"


def companion(name: str) -> str:
    """The path of another companion."""
    return os.path.join(TOOLS, name)


def environment() -> dict[str, str]:
    """What other companions are to see: the program that is used here."""
    return {**os.environ, "HAIL": program()}


def hail_over(home: str, *words: str, seconds: int | None = None) -> list[str]:
    """The command that is hail with these words over a home, with its remote providers, which are given up behind so many seconds."""
    if not stands(os.path.join(home, "remotes")):
        return [program(), home, *words]
    return [companion("hail-remote"), *(["-t", str(seconds)] if seconds else []), home, *words]


def run_hail(home: str, *words: str, given: bytes = b"") -> subprocess.CompletedProcess[bytes]:
    """What hail says to these words over a home, with its remote providers."""
    return subprocess.run(hail_over(home, *words), input=given, capture_output=True, env=environment(), check=False)


def is_to_copy(words: list[str]) -> bool:
    """Whether HOME WORD .. may change the journal of a home that names places for its copies, and the caller does not copy it."""
    return KEEPS not in os.environ and len(words) > 1 and words[1] not in READERS and stands(os.path.join(words[0], "copies"))


def said(answer: subprocess.CompletedProcess[bytes]) -> str:
    """What a program told on standard error, on one line."""
    return " ".join(answer.stderr.decode(errors="replace").split()) or f"it ended with {answer.returncode}"


def given_key() -> bytes:
    """The key on standard input; ends with 2 where it is none. At a terminal it is asked for, and ends with an empty line."""
    if sys.stdin.isatty():
        print("the key, and then an empty line:", file=sys.stderr)
        text = "".join(iter(sys.stdin.readline, "\n")).encode()
    else:
        text = sys.stdin.buffer.read(4_096)
    try:
        return read_key(text)
    except NoKey as fault:
        refuse(str(fault), 2)


def is_set_up(home: str) -> bool:
    """Whether a home has a store: a journal of more than nine bytes."""
    try:
        return os.path.getsize(os.path.join(home, "journal")) > 9
    except OSError:
        return False


def enter(home: str) -> str:
    """The path of the folder of a store; ends with 2 where there is none."""
    if not is_set_up(home):
        refuse(f"no store in {home}", 2)
    return os.path.realpath(home)


def journal_bytes(home: str) -> bytes:
    """The bytes of a home's journal that hail reads."""
    with open(os.path.join(home, "journal"), "rb") as file:
        return file.read(JOURNAL_BYTES)


@contextmanager
def held(home: str, alone: bool = False) -> Iterator[int]:
    """Holds the home's lock, which each command of hail takes too: alone, or beside readers. It waits with the journal locked, as each
    command does, so that it waits only for those that came before. Gives the home's descriptor."""
    path = os.path.join(home, "journal")
    queue = os.open(path, os.O_RDONLY) if os.path.isfile(path) and not os.path.islink(path) else None
    lock = os.open(home, os.O_RDONLY)
    try:
        if queue is not None:
            fcntl.flock(queue, fcntl.LOCK_EX)
        fcntl.flock(lock, fcntl.LOCK_EX if alone else fcntl.LOCK_SH)
        if queue is not None:
            os.close(queue)
            queue = None
        yield lock
    finally:
        os.close(lock)
        if queue is not None:
            os.close(queue)


def is_busy(home: str, seconds: float = 2) -> bool:
    """Whether a command has the home alone for longer than so many seconds."""
    lock = os.open(home, os.O_RDONLY)
    end = time.monotonic() + seconds
    try:
        while True:
            try:
                fcntl.flock(lock, fcntl.LOCK_SH | fcntl.LOCK_NB)
                return False
            except BlockingIOError:
                if time.monotonic() > end:
                    return True
                time.sleep(0.05)
    finally:
        os.close(lock)


def stands(path: str) -> bool:
    """Whether anything stands at a path, as hail asks: also a link that leads nowhere, and what can't be looked at."""
    try:
        os.lstat(path)
    except (FileNotFoundError, NotADirectoryError):
        return False
    except OSError:
        return True
    return True


def is_remote(home: str, place: int) -> bool:
    """Whether hail takes a provider as remote."""
    return stands(os.path.join(home, f"remote-{place}"))


def is_stacked(home: str, place: int) -> bool:
    """Whether a provider's folder has one file an object."""
    return stands(os.path.join(home, f"stack-{place}"))


def folder_of(home: str, place: int) -> str:
    """The path of a provider's folder."""
    return os.path.join(home, f"provider-{place}")


def remote_places(home: str) -> list[int]:
    """The places of a home's remote providers."""
    return [place for place in range(PLACES) if is_remote(home, place)]
