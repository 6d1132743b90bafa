#!/usr/bin/python3
"""relay.py MILLISECONDS COMMAND ..: runs a command, and hands its standard input and output on, each byte so many milliseconds later, as a line does
that is far away and broad. Ends as the command does."""

from __future__ import annotations

import os
import queue
import subprocess
import sys
import threading
import time
from collections.abc import Callable

Piece = tuple[float, bytes]


def take(source: int, pieces: queue.SimpleQueue[Piece], delay: float) -> None:
    """Reads to the end, and notes of each piece when it is due."""
    while piece := os.read(source, 1 << 16):
        pieces.put((time.monotonic() + delay, piece))
    pieces.put((0, b""))


def give(target: int, pieces: queue.SimpleQueue[Piece]) -> None:
    """Writes each piece once it is due, and closes behind the last."""
    while True:
        due, piece = pieces.get()
        if not piece:
            break
        time.sleep(max(0.0, due - time.monotonic()))
        try:
            while piece:
                piece = piece[os.write(target, piece) :]
        except OSError:  # nobody reads it any more
            break
    os.close(target)


def start(task: Callable[..., None], *words: object) -> threading.Thread:
    """A thread that does a task, and holds up nobody's end."""
    thread = threading.Thread(target=task, args=words, daemon=True)
    thread.start()
    return thread


def main(words: list[str]) -> int:
    delay = float(words[0]) / 1_000
    command = subprocess.Popen(words[1:], stdin=subprocess.PIPE, stdout=subprocess.PIPE)
    assert command.stdin and command.stdout
    there: queue.SimpleQueue[Piece] = queue.SimpleQueue()
    back: queue.SimpleQueue[Piece] = queue.SimpleQueue()
    start(take, 0, there, delay)
    start(give, os.dup(command.stdin.fileno()), there)
    command.stdin.close()
    start(take, command.stdout.fileno(), back, delay)
    start(give, 1, back).join()
    return command.wait()


if __name__ == "__main__":
    sys.exit(main(sys.argv[1:]))
