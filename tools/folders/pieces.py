"""Bytes under names of their own, spread over the homes of a set: stored in the home that has most room, read once and kept in memory."""
from __future__ import annotations

import collections
import contextlib
import secrets
import threading
from concurrent.futures import Future, ThreadPoolExecutor
from typing import Iterator, Sequence, Union

from .copies import Copies
from .home import MOST_NAMES, Doubt, Home, Refused, say
from .manifest import PIECE, Key, Manifest, Piece, digest_of

SPARE = 24
"""Names of each home that the pieces of a long file leave free, for manifests: without one nothing can be renamed."""

SPARE_OF_ONE = 8
"""Names that a file of one piece leaves free: so an index can still be written where the store is full."""

KEPT = 24
"""Pieces kept in memory once they are read."""


class Places:
    """Stores and drops files in the homes, and knows how many names each has."""

    def __init__(self, homes: Sequence[Home], users: int) -> None:
        self.homes = list(homes)
        self.users = users
        self.copies = Copies(homes)
        self.used = [0] * len(homes)
        self.held: set[Key] = set()
        self._full = [False] * len(homes)
        self._busy = [0] * len(homes)
        self._guard = threading.Lock()

    def listed(self, names: Sequence[dict[str, int]]) -> None:
        """Takes over what each home says that it has."""
        with self._guard:
            self.held = {Key(place, name) for place, held in enumerate(names) for name in held}
            self.used = [len(held) for held in names]
            self._full = [False] * len(names)

    def free(self) -> int:
        """Pieces of long files that still fit."""
        return sum(max(0, MOST_NAMES - SPARE - used) for used in self.used)

    def put(self, data: bytes, kind: str, spare: int, lock: Sequence[int] = ()) -> Key:
        """Stores bytes under a new name, in the home that is least busy and least full, or in the next where that one refuses.

        Doubt where a home does not say whether it has them. The locks stay held until the command's end.
        """
        fault, tried = 'no home has a name free', set[int]()
        for place in self._turns(spare, tried):
            key = Key(place, f'sftp1-{kind}-{secrets.token_hex(10)}')
            fault = self.homes[place].put(key.name, data, [self.users, *lock])
            self.copies.changed(self.homes[place])
            if not fault:
                with self._guard:
                    self.held.add(key)
                return key
            say(fault)
            self._undo(key, fault, lock)
        raise Refused(fault)

    def _turns(self, spare: int, tried: set[int]) -> Iterator[int]:
        """The homes with room, each once: it counts as busy, and its name as used, until the next is asked for."""
        while True:
            with self._guard:
                fit = [p for p, used in enumerate(self.used) if p not in tried and not self._full[p] and used < MOST_NAMES - spare]
                if not fit:
                    return
                place = min(fit, key=lambda p: (self._busy[p], self.used[p]))
                self._busy[place] += 1
                self.used[place] += 1
            tried.add(place)
            try:
                yield place
            finally:
                with self._guard:
                    self._busy[place] -= 1

    def _undo(self, key: Key, fault: str, lock: Sequence[int]) -> None:
        """Behind a put that went wrong: the name is not in effect. A home whose names or journal are full is passed over from now on."""
        try:
            self._drop(key, lock)
        except Doubt as doubt:
            raise Doubt(f'{fault}; {doubt}') from doubt
        with self._guard:
            self.used[key.place] -= 1
            self._full[key.place] = self._full[key.place] or any(f'status {status} ' in fault for status in (11, 21))

    def _drop(self, key: Key, lock: Sequence[int]) -> bool:
        try:
            return self.homes[key.place].drop(key.name, [self.users, *lock])
        finally:
            self.copies.changed(self.homes[key.place])

    def drop(self, key: Key, lock: Sequence[int] = ()) -> None:
        """Removes a file. Doubt where its home does not say that it is gone."""
        there = self._drop(key, lock)
        with self._guard:
            self.held.discard(key)
            self.used[key.place] -= there
            self._full[key.place] = False

    def put_piece(self, data: bytes, spare: int) -> Piece:
        """Stores a piece."""
        return Piece(self.put(data, 'piece', spare), len(data), digest_of(data))


Found = Union[bytes, 'Future[bytes]']


class Reading:
    """Reads pieces, each once for all who ask, and the next one ahead."""

    def __init__(self, homes: Sequence[Home]) -> None:
        self._homes = list(homes)
        self._workers = ThreadPoolExecutor(max(4, 2 * len(homes)))
        self._kept: collections.OrderedDict[str, bytes] = collections.OrderedDict()
        self._coming: dict[str, Future[bytes]] = {}
        self._guard = threading.Lock()

    def close(self) -> None:
        """Waits for what is being read."""
        self._workers.shutdown(wait=True)

    def is_near(self, name: str) -> bool:
        """Whether the bytes under a name are in memory."""
        return name in self._kept

    def bytes_of(self, key: Key, digest: str = '') -> bytes:
        """The bytes under a name. Refused where they have another SHA-256 than this one, if one is given, or do not come back."""
        found = self._ask(key, digest)
        return found if isinstance(found, bytes) else found.result()

    def _ask(self, key: Key, digest: str) -> Found:
        with self._guard:
            if key.name in self._kept:
                self._kept.move_to_end(key.name)
                return self._kept[key.name]
            if key.name not in self._coming:
                self._coming[key.name] = self._workers.submit(self._load, key, digest)
            return self._coming[key.name]

    def _load(self, key: Key, digest: str) -> bytes:
        try:
            data = self._homes[key.place].get(key.name)
            if digest and digest_of(data) != digest:
                raise Refused(f'{key.name} has other bytes than its manifest says')
            with self._guard:
                self._kept[key.name] = data
                while len(self._kept) > KEPT:
                    self._kept.popitem(last=False)
            return data
        finally:
            with self._guard:
                self._coming.pop(key.name, None)

    def read(self, manifest: Manifest, offset: int, length: int) -> bytes:
        """These bytes of a file in pieces: fewer at its end alone, since clients take a short answer for that."""
        found = bytearray()
        length = min(length, manifest.size - offset)
        while len(found) < length:
            at, skip = divmod(offset + len(found), PIECE)
            piece = manifest.pieces[at]
            data = self.bytes_of(piece.key, piece.digest)
            if len(data) != piece.size:
                raise Refused(f'{piece.key.name} is not as long as its manifest says')
            found += data[skip:skip + length - len(found)]
            if skip > PIECE // 2 and at + 1 < len(manifest.pieces):
                following = manifest.pieces[at + 1]
                self._ask(following.key, following.digest)
        return bytes(found)


class Room:
    """At most so many pieces wait in memory to be stored, each by a worker."""

    def __init__(self, places: Places) -> None:
        self._places = places
        self._workers = ThreadPoolExecutor(max(2, 2 * len(places.homes)))
        self._free = threading.BoundedSemaphore(2 * len(places.homes) + 2)

    def close(self) -> None:
        """Waits for what is being stored or dropped."""
        self._workers.shutdown(wait=True)

    def put(self, data: bytes, spare: int) -> Future[Piece]:
        """Stores a piece while others go on; waits for room in memory first."""
        self._free.acquire()
        return self._workers.submit(self._put, data, spare)

    def _put(self, data: bytes, spare: int) -> Piece:
        try:
            return self._places.put_piece(data, spare)
        finally:
            self._free.release()

    def drop(self, key: Key) -> None:
        """Drops a piece out of effect, soon. One that stays is a leftover, which goes at a later start."""
        self._workers.submit(self._drop, key)

    def _drop(self, key: Key) -> None:
        with contextlib.suppress(Refused):
            self._places.drop(key)
