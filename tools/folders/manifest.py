"""The form in which a file is kept: pieces, and one manifest that names them. The manifest's put is the commit.

A manifest is a hail file: a line `hail-file-1 SHA256 LENGTH` over the rest; a line of JSON; then the bytes of a small file.
"""
from __future__ import annotations

import hashlib
import json
import posixpath
import re
from dataclasses import dataclass
from typing import Any, NamedTuple

from .home import LONGEST, Refused

PIECE = LONGEST
"""Bytes of each piece but the last."""

INLINE = 65_536
"""A file of at most so many bytes is in its manifest."""

PIECE_NAME = re.compile(r'sftp1-piece-[0-9a-f]{20}')
MANIFEST_NAME = re.compile(r'sftp1-file-[0-9a-f]{20}')
_DIGEST = re.compile(r'[0-9a-f]{64}')
_MAGIC = b'hail-file-1'


class Key(NamedTuple):
    """A hail file of a set: the place of its home, and its name. No name is ever used again: so what is once read under it stays true."""

    place: int
    name: str


class Piece(NamedTuple):
    """A piece of a file: where it is, its bytes, their SHA-256."""

    key: Key
    size: int
    digest: str


@dataclass(frozen=True)
class Manifest:
    """A file: its path, bytes, time in seconds, pieces in order (none: its bytes are in the manifest), and the manifests that this one takes
    the place of. Of two of one path the later turn holds."""

    path: str
    size: int
    mtime: int
    turn: int
    pieces: tuple[Piece, ...]
    over: tuple[Key, ...]


def digest_of(data: bytes) -> str:
    """SHA-256 in hexadecimal."""
    return hashlib.sha256(data).hexdigest()


def to_json(manifest: Manifest) -> dict[str, Any]:
    """The fields as JSON has them."""
    return {
        'path': manifest.path, 'size': manifest.size, 'mtime': manifest.mtime, 'turn': manifest.turn,
        'pieces': [[p.key.place, p.key.name, p.size, p.digest] for p in manifest.pieces],
        'over': [[k.place, k.name] for k in manifest.over],
    }


def from_json(fields: Any) -> Manifest:
    """The manifest of these fields. Refused where they are not those of one."""
    try:
        pieces = tuple(Piece(Key(place, name), size, digest) for place, name, size, digest in fields['pieces'])
        over = tuple(Key(place, name) for place, name in fields['over'])
        found = Manifest(fields['path'], fields['size'], fields['mtime'], fields['turn'], pieces, over)
        right = _is_right(found)
    except (KeyError, TypeError, ValueError) as fault:
        raise Refused('its fields are not those of a manifest') from fault
    if not right:
        raise Refused('its fields do not fit one another')
    return found


def _is_right(manifest: Manifest) -> bool:
    counts = [manifest.size, manifest.turn, *(p.size for p in manifest.pieces), *(k.place for k in manifest.over)]
    counts += [p.key.place for p in manifest.pieces]
    return (
        all(type(count) is int and count >= 0 for count in counts) and type(manifest.mtime) is int
        and is_path(manifest.path) and manifest.path != '/'
        and all(PIECE_NAME.fullmatch(p.key.name) and _DIGEST.fullmatch(p.digest) for p in manifest.pieces)
        and all(MANIFEST_NAME.fullmatch(k.name) for k in manifest.over)
        and _sizes_fit(manifest)
    )


def _sizes_fit(manifest: Manifest) -> bool:
    if not manifest.pieces:
        return manifest.size <= INLINE
    *front, last = manifest.pieces
    return all(p.size == PIECE for p in front) and 0 < last.size <= PIECE and manifest.size == PIECE * len(front) + last.size


def is_path(path: str) -> bool:
    """A full path in its shortest form, of names that UTF-8 can write."""
    return path.startswith('/') and '\0' not in path and normal(path) == path and not any('\ud800' <= letter <= '\udfff' for letter in path)


def normal(path: str) -> str:
    """The shortest form of a path, from the root on."""
    return posixpath.normpath('/' + path.lstrip('/'))


def encode(manifest: Manifest, inline: bytes) -> bytes:
    """The bytes of a manifest with those of a small file. Refused where its fields do not fit: such a one could not be read again."""
    from_json(to_json(manifest))
    if len(inline) != (0 if manifest.pieces else manifest.size):
        raise Refused('its bytes are not as many as it says')
    body = json.dumps(to_json(manifest), separators=(',', ':')).encode() + b'\n' + inline
    return b'%s %s %d\n%s' % (_MAGIC, digest_of(body).encode(), len(body), body)


def decode(data: bytes) -> tuple[Manifest, bytes]:
    """The manifest, and the bytes of a small file. Refused where these bytes are not what `encode` made of some manifest."""
    head, _, body = data.partition(b'\n')
    if head != b'%s %s %d' % (_MAGIC, digest_of(body).encode(), len(body)):
        raise Refused('it is not what was stored: its checksum is another')
    text, _, inline = body.partition(b'\n')
    try:
        fields = json.loads(text)
    except ValueError as fault:
        raise Refused('its fields are not JSON') from fault
    manifest = from_json(fields)
    if len(inline) != (0 if manifest.pieces else manifest.size):
        raise Refused('its bytes are not as many as it says')
    return manifest, inline
