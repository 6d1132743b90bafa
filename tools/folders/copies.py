"""Copies of the journals behind what was stored, by hail-keep: to the places that HOME/copies names.

Each hail-keep is a process of its own, which ends its work also where this program is killed: restic waits for its end two seconds alone.
"""
from __future__ import annotations

import os
import subprocess
import threading
import time
from pathlib import Path
from typing import Sequence

from .home import Home, program, say

SECONDS = 60
"""How long what was stored may be without a copy of its journal while more comes."""


class Copies:
    """The homes whose journals have changed since they were copied."""

    def __init__(self, homes: Sequence[Home]) -> None:
        self._homes = [home for home in homes if os.path.exists(f'{home.path}/copies')]
        self._changed: set[str] = set()
        self._running: list[tuple[Home, subprocess.Popen[bytes]]] = []
        self._last = time.monotonic()
        self._guard = threading.Lock()

    def changed(self, home: Home) -> None:
        """The journal of a home has changed. Behind a while all that have changed are copied, beside what is under way."""
        with self._guard:
            self._changed.add(home.path)
            is_due = time.monotonic() - self._last > SECONDS and all(process.poll() is not None for _, process in self._running)
        if is_due:
            self._end()
            self.start()

    def start(self) -> None:
        """Begins to copy what has changed."""
        with self._guard:
            self._last = time.monotonic()
            due = [home for home in self._homes if home.path in self._changed]
            self._changed.clear()
            self._running += [(home, process) for home in due for process in started(home)]

    def _end(self) -> None:
        """Waits for what is under way, and tells what goes wrong; hail-watch tells it too."""
        with self._guard:
            running, self._running = self._running, []
        for home, process in running:
            lines = process.communicate()[1].decode(errors='replace').splitlines()
            for line in lines or [f'{home.path}: no copy of the journal: hail-keep ends with {process.returncode}'] * (process.returncode != 0):
                say(line.removeprefix('hail-keep: '))

    def close(self) -> None:
        """Waits for what is under way, and copies what has changed since."""
        self._end()
        self.start()
        self._end()


def started(home: Home) -> list[subprocess.Popen[bytes]]:
    """The process that copies the journal of a home; none where it can't be started, which is told."""
    command = [str(Path(__file__).resolve().parents[1] / 'hail-keep'), home.path]
    none = subprocess.DEVNULL
    try:
        return [subprocess.Popen(command, stdin=none, stdout=none, stderr=subprocess.PIPE, env={**os.environ, 'HAIL': program()})]
    except OSError as fault:
        say(f'{home.path}: no copy of the journal: {fault}')
        return []
