"""Files and folders over a set of homes. The put of a manifest is the commit of a change: before it the old file is there, behind it the new.

What hail stored and no manifest in effect names is a leftover; it goes at the next start that is alone. Changes go one after the other, over
all programs of the set, and each begins with what the others left.
"""
from __future__ import annotations

import contextlib
import fcntl
import json
import posixpath
import threading
from concurrent.futures import ThreadPoolExecutor
from dataclasses import dataclass
from pathlib import Path
from typing import Iterable, Iterator, Mapping, NamedTuple, Sequence

from .home import Doubt, Home, Missing, NoAnswer, ReadOnly, Refused, Unsupported, say
from .manifest import INLINE, MANIFEST_NAME, PIECE_NAME, Key, Manifest, Piece, decode, digest_of, encode, from_json, is_path, to_json
from .pieces import Places, Reading, Room
from .shared import Shared


class Entry(NamedTuple):
    """A file in effect: where its manifest is, and what that says."""

    key: Key
    manifest: Manifest


class Status(NamedTuple):
    """What is at a path: a folder or a file, its bytes, its time in seconds."""

    is_folder: bool
    size: int
    mtime: int


@dataclass(frozen=True)
class Content:
    """What a file is to have: bytes, time, pieces stored already, or the bytes of a small file."""

    size: int
    mtime: int
    pieces: tuple[Piece, ...]
    inline: bytes


class Store:
    """The files of a set of homes, as `homes.open_set` gives them."""

    def __init__(self, homes: Sequence[Home]) -> None:
        self.homes = list(homes)
        self._shared = Shared(Path(homes[0].path) / 'folders')
        self.places = Places(homes, self._shared.users)
        self.reading = Reading(homes)
        self.room = Room(self.places)
        self.being_written: dict[str, Status] = {}
        self._workers = ThreadPoolExecutor(max(4, 2 * len(homes)))
        self._known = _recall(self._shared)
        self._files: dict[str, Entry] = {}
        self._folders: set[str] = set()
        self._unread = ''
        self._seen: int | None = None
        self._view, self._turn = threading.RLock(), threading.Lock()
        with self._shared.arriving() as alone:
            self._arrive(alone)
        _keep(self._shared, self._known)

    def _arrive(self, alone: bool) -> None:
        with self._shared.locked(fcntl.LOCK_SH):
            self._refresh()
        if alone and not self._unread:
            try:
                self._collect()
            except Refused as fault:
                say(f'leftovers stay: {fault}')

    def close(self) -> None:
        """Waits for what is being dropped, copies journals, keeps what was read of manifests, and is no user of the set any more."""
        self.places.copies.start()
        self.room.close()
        self.places.copies.close()
        self.reading.close()
        self._workers.shutdown(wait=True)
        _keep(self._shared, self._known)
        self._shared.close()

    # What the manifests in effect say. It holds for a count of changes.

    def look(self) -> None:
        """Takes over what other programs changed."""
        if self._seen != self._shared.count():
            with self._shared.locked(fcntl.LOCK_SH):
                self._refresh()

    def _refresh(self) -> None:
        """Lists all homes, and reads the manifests that are not known yet. Under the lock: no change is half done."""
        with self._view:
            count = self._shared.count()
            names = list(self._workers.map(Home.names, self.homes))
            self.places.listed(names)
            keys = {key for key in self.places.held if MANIFEST_NAME.fullmatch(key.name)}
            self._known = {key: manifest for key, manifest in self._known.items() if key in keys}
            self._unread = self._learn(sorted(keys - set(self._known)))
            self._files = in_effect(self._known)
            folders = self._shared.load('folders')
            self._folders = {path for path in folders if isinstance(path, str) and is_path(path)} if isinstance(folders, list) else set()
            self._seen = count

    def _learn(self, keys: Sequence[Key]) -> str:
        """Reads these manifests. Returns which can't be read, if one can't."""
        unread = ''
        for key, found in zip(keys, self._workers.map(self._read_manifest, keys)):
            if isinstance(found, Manifest):
                self._known[key] = found
            else:
                unread = f'nothing is written while {key.name} in {self.homes[key.place].path} is not read, or dropped by hand: {found}'
                say(unread)
        return unread

    def _read_manifest(self, key: Key) -> Manifest | str:
        try:
            manifest, _ = decode(self.homes[key.place].get(key.name))
        except Refused as fault:
            return str(fault)
        if any(p.key.place >= len(self.homes) for p in manifest.pieces):
            return 'it names a home that the set has not'
        return manifest

    # Changes.

    @contextlib.contextmanager
    def _change(self) -> Iterator[int]:
        """The time of a change, alone over all programs of the set. It is counted before it begins: so whoever looks meanwhile waits."""
        with self._turn, self._shared.locked(fcntl.LOCK_EX) as lock:
            try:
                if self._seen != self._shared.count():
                    self._refresh()
                if self._unread:
                    raise ReadOnly(self._unread)
                self._seen = self._shared.begin()
                yield lock
            except BaseException as fault:
                if not isinstance(fault, Refused) or isinstance(fault, (Doubt, NoAnswer, ReadOnly)):
                    self._seen = None   # it may be half done: the next look lists anew
                raise

    def _commit(self, path: str, content: Content, over: Sequence[Entry], lock: int) -> None:
        """The file is there from the put of its manifest on; then what it takes the place of goes."""
        turn = 1 + max((entry.manifest.turn for entry in self._files.values()), default=0)
        manifest = Manifest(path, content.size, content.mtime, turn, content.pieces, tuple(entry.key for entry in over))
        key = self.places.put(encode(manifest, content.inline), 'file', 0, [lock])
        gone = {entry.manifest.path for entry in over}
        with self._view:
            self._known[key] = manifest
            self._files = {**{p: e for p, e in self._files.items() if p not in gone}, path: Entry(key, manifest)}
        self._clean(over, {piece.key for piece in content.pieces}, lock)

    def _clean(self, over: Sequence[Entry], stay: set[Key], lock: int) -> None:
        """Drops manifests out of effect and, once they are gone, their pieces but for those that stay."""
        try:
            self._retire([entry.key for entry in over], lock)
        except Refused as fault:
            say(f'a leftover stays: {fault}')
            return
        for entry in over:
            for piece in entry.manifest.pieces:
                if piece.key not in stay:
                    self.room.drop(piece.key)

    def _retire(self, keys: Iterable[Key], lock: int) -> None:
        """Drops manifests: each behind those that it took the place of, which would else be in effect again."""
        for key in keys:
            if key not in self.places.held:
                continue
            if key in self._known:
                self._retire(self._known[key].over, lock)
            self.places.drop(key, [lock])
            with self._view:
                self._known.pop(key, None)

    def _collect(self) -> None:
        """Removes leftovers: nobody else is at work, and every manifest is read. Files of other names are not touched."""
        doubts = list(self._doubts())
        if doubts:
            raise Refused('; '.join(doubts))
        with self._change() as lock:
            live = {entry.key for entry in self._files.values()}
            named = {piece.key for entry in self._files.values() for piece in entry.manifest.pieces}
            self._retire([key for key in list(self._known) if key not in live], lock)
            gone = [key for key in self.places.held if PIECE_NAME.fullmatch(key.name) and key not in named]
            for key in gone:
                self.places.drop(key, [lock])
            if gone:
                say(f'leftover pieces removed: {len(gone)}')

    def _doubts(self) -> Iterator[str]:
        """Why what no manifest names may be no leftover: a journal may be an older copy, in which the manifest has no name."""
        lost = [m.path for _, m in self._files.values() if any(piece.key not in self.places.held for piece in m.pieces)]
        if lost:
            yield f'{lost[0]} has lost pieces, one of {len(lost)} files: is a journal an older copy?'
        for home in self.homes:
            if home.has_nameless():
                yield f'{home.path}/restored tells what has no name there since its journal was lost: salvage that, then remove this file'

    # What is asked. A path is a full one in its shortest form.

    def status(self, path: str) -> Status:
        """What is at a path; a file that is being written as far as it is. Missing where there is nothing."""
        entry = self._files.get(path)
        if path in self.being_written:
            return self.being_written[path]
        if entry:
            return Status(False, entry.manifest.size, entry.manifest.mtime)
        if self._is_folder(path):
            return Status(True, 0, 0)
        raise Missing(path)

    def _paths(self) -> set[str]:
        with self._view:
            return {*self._files, *self._folders, *list(self.being_written)}

    def _is_folder(self, path: str) -> bool:
        front = path.rstrip('/') + '/'
        return path == '/' or path in self._folders or any(p.startswith(front) for p in self._paths())

    def children(self, path: str) -> list[str]:
        """The names in a folder. Missing where there is none."""
        if path in self._files or not self._is_folder(path):
            raise Missing(path)
        front = path.rstrip('/') + '/'
        return sorted({p[len(front):].split('/')[0] for p in self._paths() if p.startswith(front) and p != front})

    def entry(self, path: str) -> Entry:
        """The file at a path, as it is now: what it is later has another manifest. Missing where there is none."""
        self.look()
        entry = self._files.get(path)
        if not entry:
            raise Missing(path)
        return entry

    def may_be_written(self, path: str, create: bool, alone: bool, anew: bool) -> None:
        """Refused where a file can't be written here: there is none and none is to be made, or one and none may be; it is not anew."""
        if self._unread:
            self._seen = None   # it may be read by now
        self.look()
        entry = self._files.get(path)
        if self._unread:
            raise ReadOnly(self._unread)
        if path in self.being_written:
            raise Refused(f'{path} is being written')
        if not entry and self._is_folder(path):
            raise Refused(f'{path} is a folder')
        if entry and alone:
            raise Refused(f'{path} is there')
        if not entry and not create:
            raise Missing(path)
        self._needs_folder(path)
        if entry and entry.manifest.size and not anew:
            raise Unsupported('a file is written anew, not in place')

    def _needs_folder(self, path: str) -> None:
        above = posixpath.dirname(path)
        if above in self._files or not self._is_folder(above):
            raise Missing(above)

    def write(self, path: str, content: Content) -> None:
        """The file at a path has this content from now on."""
        with self._change() as lock:
            before = self._files.get(path)
            if not before and self._is_folder(path):
                raise Refused(f'{path} is a folder')
            if posixpath.dirname(path) in self._files:
                raise Refused(f'{posixpath.dirname(path)} is a file')
            self._commit(path, content, [before] if before else [], lock)

    def remove(self, path: str) -> None:
        """Removes a file. Its folder stays."""
        with self._change() as lock:
            entry = self._files.get(path)
            if not entry:
                raise Unsupported(f'{path} is a folder') if self._is_folder(path) else Missing(path)
            self._keep_folder(path)
            self._retire([entry.key], lock)
            with self._view:
                self._files = {p: e for p, e in self._files.items() if p != path}
            for piece in entry.manifest.pieces:
                self.room.drop(piece.key)

    def rename(self, old: str, new: str, over_it: bool) -> None:
        """A file gets another path, over the file there where that is asked. Both change at once."""
        with self._change() as lock:
            entry, there = self._files.get(old), self._files.get(new)
            if not entry:
                raise Unsupported('a folder is not renamed: it would be many files') if self._is_folder(old) else Missing(old)
            if (there and not over_it) or (not there and self._is_folder(new)):
                raise Refused(f'{new} is there')
            self._needs_folder(new)
            if old != new:
                self._keep_folder(old)
                self._commit(new, self._content(entry), [entry, there] if there else [entry], lock)

    def set_time(self, path: str, mtime: int) -> None:
        """A file gets another time."""
        with self._change() as lock:
            entry = self._files.get(path)
            if not entry:
                raise Missing(path)
            if mtime != entry.manifest.mtime:
                old = self._content(entry)
                self._commit(path, Content(old.size, mtime, old.pieces, old.inline), [entry], lock)

    def _content(self, entry: Entry) -> Content:
        manifest = entry.manifest
        return Content(manifest.size, manifest.mtime, manifest.pieces, self._inline(entry))

    # Folders without files are named on this disk alone.

    def make_folder(self, path: str) -> None:
        """Makes a folder. Refused where something is there."""
        with self._change():
            if path in self._files or self._is_folder(path):
                raise Refused(f'{path} is there')
            self._needs_folder(path)
            self._name_folders(self._folders | {path})

    def remove_folder(self, path: str) -> None:
        """Removes a folder without files."""
        with self._change():
            if self.children(path):
                raise Refused(f'{path} is not empty')
            self._name_folders(self._folders - {path})

    def _keep_folder(self, path: str) -> None:
        """The folder of a file that goes stays: from now on it is named by itself."""
        above = posixpath.dirname(path)
        if above not in self._folders and above != '/':
            self._name_folders(self._folders | {above})

    def _name_folders(self, folders: set[str]) -> None:
        self._folders = folders
        self._shared.keep('folders', sorted(folders))

    # Reading.

    def is_near(self, entry: Entry, offset: int) -> bool:
        """Whether the byte at this place is read without a command of hail."""
        manifest = entry.manifest
        if offset >= manifest.size:
            return True
        return self.reading.is_near(manifest.pieces[offset // manifest.pieces[0].size].key.name if manifest.pieces else entry.key.name)

    def read(self, entry: Entry, offset: int, length: int) -> bytes:
        """These bytes of a file, fewer at its end alone. Refused where they do not come back as they were stored."""
        if entry.manifest.pieces:
            return self.reading.read(entry.manifest, offset, length)
        return self._inline(entry)[offset:offset + length]

    def _inline(self, entry: Entry) -> bytes:
        if entry.manifest.pieces or not entry.manifest.size:
            return b''
        found, inline = decode(self.reading.bytes_of(entry.key))
        if found != entry.manifest:
            raise Refused(f'{entry.key.name} is not what it was')
        return inline


def in_effect(known: Mapping[Key, Manifest]) -> dict[str, Entry]:
    """The files of these manifests: no manifest that another took the place of, and of two of one path the later."""
    over = {key for manifest in known.values() for key in manifest.over}
    files: dict[str, Entry] = {}
    for key, manifest in sorted(known.items(), key=lambda item: (item[1].turn, item[0].name)):
        if key not in over:
            if manifest.path in files:
                say(f'two manifests of {manifest.path}: the later one holds')
            files[manifest.path] = Entry(key, manifest)
    return files


def is_small(size: int) -> bool:
    """Whether a file of so many bytes is in its manifest."""
    return size <= INLINE


def _keep(shared: Shared, known: Mapping[Key, Manifest]) -> None:
    """Keeps manifests on this disk, so that the next start need not read them again, with a checksum."""
    text = json.dumps([[key.place, key.name, to_json(manifest)] for key, manifest in sorted(known.items())])
    shared.keep('manifests', [digest_of(text.encode()), text])


def _recall(shared: Shared) -> dict[Key, Manifest]:
    """The manifests that were kept; none where that is not what was written."""
    try:
        digest, text = shared.load('manifests')
        if digest_of(text.encode()) != digest:
            return {}
        return {Key(place, name): from_json(fields) for place, name, fields in json.loads(text)}
    except (Refused, TypeError, ValueError, AttributeError):
        return {}
