"""The blocks in providers' folders, of either form: a file for each block, or one for each object."""

from __future__ import annotations

import os
import re
import stat
import struct
from collections.abc import Iterator
from dataclasses import dataclass

from .homes import folder_of, is_stacked
from .shapes import block_bytes

MAGIC = b"HAILstk1"
HEADER_BYTES = 16
MARK_BYTES = 8
MOST_BYTES = HEADER_BYTES + 131_072 * (block_bytes(0) + MARK_BYTES)  # of the longest file, at any profile; behind it may be a hole
_BLOCK = re.compile(r"(0|[1-9][0-9]{0,19})-(0|[1-9][0-9]{0,9})")
_OBJECT = re.compile(r"0|[1-9][0-9]{0,19}")


@dataclass(frozen=True)
class Block:
    """A block that a provider shows: of which object and stripe, its bytes, and the second at which its file was written last."""

    number: int
    stripe: int
    size: int
    written: int


def _plain(entry: os.DirEntry[str]) -> Iterator[Block]:
    name = _BLOCK.fullmatch(entry.name)
    if name and entry.is_file(follow_symlinks=False):
        status = entry.stat(follow_symlinks=False)
        yield Block(int(name[1]), int(name[2]), status.st_size, int(status.st_mtime))


def size_in_header(header: bytes) -> int | None:
    """The bytes of a block by the first bytes of an object's file; none where these are no header."""
    if len(header) < HEADER_BYTES or header[:8] != MAGIC:
        return None
    (size,) = struct.unpack("<Q", header[8:HEADER_BYTES])
    return size if size % 16 == 0 and 16 <= size <= 2_048 else None


def marked(data: bytes, size: int) -> list[int]:
    """The stripes of an object's file whose mark is right, where a block has so many bytes."""
    step = size + MARK_BYTES
    count = (len(data) - HEADER_BYTES) // step
    found = []
    for stripe in range(count):
        end = HEADER_BYTES + (stripe + 1) * step
        if data[end - MARK_BYTES : end] == b"hail" + struct.pack("<I", stripe):
            found.append(stripe)
    return found


def stripes_in(data: bytes) -> tuple[int, list[int]]:
    """The bytes of a block in an object's file, and the stripes there. Where the header is damaged the marks tell."""
    size = size_in_header(data[:HEADER_BYTES])
    if size is not None:
        return size, marked(data, size)
    tries = [(size, marked(data, size)) for size in map(block_bytes, range(5))]
    return max(tries, key=lambda one: len(one[1]))


def _stacked(entry: os.DirEntry[str]) -> Iterator[Block]:
    if not _OBJECT.fullmatch(entry.name) or not entry.is_file(follow_symlinks=False):
        return
    descriptor = os.open(entry.path, os.O_RDONLY | os.O_NOFOLLOW | os.O_NONBLOCK)
    with open(descriptor, "rb") as file:
        status = os.fstat(descriptor)
        data = file.read(MOST_BYTES) if stat.S_ISREG(status.st_mode) else b""
    size, stripes = stripes_in(data)
    for stripe in stripes:
        yield Block(int(entry.name), stripe, size, int(status.st_mtime))


def is_misread(home: str, place: int) -> bool:
    """Whether a provider's folder has files of the form alone that is not in effect. Raises OSError where it can't be read."""
    own, other = (_OBJECT, _BLOCK) if is_stacked(home, place) else (_BLOCK, _OBJECT)
    with os.scandir(folder_of(home, place)) as entries:
        names = [entry.name for entry in entries if entry.is_file(follow_symlinks=False)]
    return any(map(other.fullmatch, names)) and not any(map(own.fullmatch, names))


def blocks_of(home: str, place: int) -> Iterator[Block]:
    """Each block in a provider's folder. Raises OSError where the folder can't be read."""
    shown = _stacked if is_stacked(home, place) else _plain
    with os.scandir(folder_of(home, place)) as entries:
        for entry in entries:
            yield from shown(entry)
