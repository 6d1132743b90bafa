"""A file that is being written, from its front on."""
from __future__ import annotations

import contextlib
import threading
import time
from concurrent.futures import Future

from .home import Doubt, Refused, Unsupported, say
from .manifest import PIECE, Piece
from .pieces import SPARE, SPARE_OF_ONE
from .store import Content, Status, Store, is_small

EARLY = 64 << 20
"""Bytes that may come before those in front of them."""


class Writer:
    """Takes the bytes of a file, stores pieces as they are full, and makes the file at its close. What comes early waits; no place is written
    twice: then the close is refused."""

    def __init__(self, store: Store, path: str) -> None:
        self._store, self.path = store, path
        self.mtime: int | None = None
        self.size = 0
        self._rest = bytearray()
        self._early: dict[int, bytes] = {}
        self._stored: list[Future[Piece]] = []
        self._broken = ''
        self._guard = threading.Lock()
        self._tell()

    def _tell(self) -> None:
        self._store.being_written[self.path] = Status(False, self.size, self.mtime or 0)

    def set_time(self, mtime: int) -> None:
        """The file has this time once it is closed."""
        self.mtime = mtime
        self._tell()

    def write(self, offset: int, data: bytes) -> None:
        """Takes bytes of this place. Unsupported where the place was passed, or is too far ahead."""
        with self._guard:
            self._take(offset, data)

    def _take(self, offset: int, data: bytes) -> None:
        if self._broken:
            raise Refused(self._broken)
        if not data:
            return
        if offset < self.size or offset in self._early:
            self._break('a file is written from its front on, no place twice')
        if offset > self.size:
            if sum(map(len, self._early.values())) + len(data) > EARLY:
                self._break('a file is written from its front on: this is too far ahead')
            self._early[offset] = data
            return
        self._append(data)
        self._tell()

    def _break(self, fault: str) -> None:
        self._broken = fault
        raise Unsupported(fault)

    def _append(self, data: bytes) -> None:
        while data:
            self._rest += data
            self.size += len(data)
            data = self._early.pop(self.size, b'')
        while len(self._rest) >= PIECE:
            self._cut(PIECE, SPARE)

    def _cut(self, size: int, spare: int) -> None:
        data = bytes(self._rest[:size])
        del self._rest[:size]
        self._stored.append(self._store.room.put(data, spare))

    def finish(self) -> None:
        """The close: without a fault once hail said `stored` of all. Else the file is as before; where it can't be said, Doubt."""
        try:
            with self._guard:
                self._end()
            pieces = tuple(stored.result() for stored in self._stored)
            mtime = int(time.time()) if self.mtime is None else self.mtime
            self._store.write(self.path, Content(self.size, mtime, pieces, bytes(self._rest)))
        except BaseException as fault:
            say(f'{self.path}: {fault}')
            if isinstance(fault, Refused) and not isinstance(fault, Doubt):
                self._clear()   # else the manifest may be in effect
            raise
        finally:
            self._leave()

    def _end(self) -> None:
        """The last piece is cut, and nothing is taken any more."""
        broken, self._broken = self._broken, 'the file is closed'
        if broken or self._early:
            raise Refused(broken or 'the file has gaps')
        if self._rest and not (is_small(self.size) and not self._stored):
            self._cut(len(self._rest), SPARE if self._stored else SPARE_OF_ONE)

    def abort(self) -> None:
        """The file is not made, and what was stored of it goes."""
        self._clear()
        self._leave()

    def _clear(self) -> None:
        """Drops the pieces, which no manifest names."""
        for stored in self._stored:
            with contextlib.suppress(Exception):
                self._store.room.drop(stored.result().key)

    def _leave(self) -> None:
        self._store.being_written.pop(self.path, None)
