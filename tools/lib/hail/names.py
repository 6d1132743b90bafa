"""The list of a store's files, kept as one of them, so that names and lengths come back with a rebuilt journal. Its last line is a code under
the master key, so that no other file passes for it."""

from __future__ import annotations

import hashlib
import hmac
from dataclasses import dataclass

from .journal import NoJournal, StoredFile, is_name

NAME = "hail-names"
HEAD = b"hail-names 1\n"


@dataclass(frozen=True)
class NameList:
    """The files that a list tells, and its own length."""

    files: tuple[StoredFile, ...]
    length: int


def _code(key: bytes, text: bytes) -> bytes:
    return b"code " + hmac.new(key, b"names of hail\n" + text, hashlib.sha256).hexdigest().encode() + b"\n"


def write_list(key: bytes, files: list[StoredFile]) -> bytes:
    """The list of these files, itself left out: a line NUMBER LENGTH PROFILE NAME for each."""
    chosen = sorted((file for file in files if file.name != NAME), key=lambda file: file.number)
    lines = (f"{file.number} {file.length} {file.profile} {file.name}\n".encode() for file in chosen)
    text = HEAD + b"".join(lines)
    return text + _code(key, text)


def _file_of(line: bytes) -> StoredFile:
    number, length, profile, name = line.split(b" ")
    if not is_name(name):
        raise NoJournal("a list has a name that is none")
    return StoredFile(int(number), int(length), int(profile), name.decode("ascii"))


def read_list(key: bytes, data: bytes) -> NameList | None:
    """The list that bytes begin with, whatever stands behind it; none where they begin with none under this key."""
    end = data.find(b"\ncode ") + 1
    if not data.startswith(HEAD) or end < len(HEAD):
        return None
    text, code = data[:end], _code(key, data[:end])
    if not hmac.compare_digest(data[end : end + len(code)], code):
        return None
    files = tuple(_file_of(line) for line in text[len(HEAD) :].splitlines())
    return NameList(files, end + len(code))
