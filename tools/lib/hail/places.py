"""The places that get copies of a home's journal, as HOME/copies names them: a line for each, a folder by its whole path, or `|` and a command."""

from __future__ import annotations

import hashlib
import os
import stat
from dataclasses import dataclass

from .homes import refuse, stands
from .journal import Journal, NoJournal, read_journal
from .shapes import JOURNAL_BYTES

COPIES = ("journal", "journal.new")  # in a folder; one of the two is whole at any moment


@dataclass(frozen=True)
class Place:
    """A line of HOME/copies."""

    text: str

    @property
    def command(self) -> str | None:
        """The command that takes a copy on its standard input."""
        return self.text[1:].strip() if self.text.startswith("|") else None


def places_of(home: str) -> list[Place]:
    """The places of a home; ends with 2 where its file `copies` is not as it should be. A home without one has none."""
    path = os.path.join(home, "copies")
    try:
        with open(path, encoding="utf-8") as file:
            status = os.fstat(file.fileno())
            lines = [line.strip() for line in file]
    except FileNotFoundError as fault:
        if stands(path):
            refuse(f"{path} can't be read: {fault}", 2)
        return []
    except (OSError, UnicodeError) as fault:
        refuse(f"{path} can't be read: {fault}", 2)
    if status.st_mode & (stat.S_IWGRP | stat.S_IWOTH) or status.st_uid not in (0, os.geteuid()):
        refuse(f"others may write {path}, whose commands would be run", 2)
    places = [Place(line) for line in lines if line and not line.startswith("#")]
    for place in places:
        if not place.text.startswith("/") and not place.command:
            refuse(f"neither the whole path of a folder nor | and a command in {path}: {place.text}", 2)
    return places


def sum_line(data: bytes) -> bytes:
    """The checksum of a copy, as sha256sum writes it and hail-restore wants it."""
    return hashlib.sha256(data).hexdigest().encode() + b"  journal\n"


def read_front(path: str, size: int = JOURNAL_BYTES) -> bytes | None:
    """The first bytes of a file; none where it is not there or can't be read."""
    try:
        with open(path, "rb") as file:
            return file.read(size)
    except OSError:
        return None


def is_whole(folder: str, name: str, data: bytes) -> bool:
    """Whether a folder has this copy under a name, with its checksum."""
    told = read_front(os.path.join(folder, name + ".sum"), 256)
    return told is not None and told[:64] == sum_line(data)[:64] and read_front(os.path.join(folder, name)) == data


def copies_in(folder: str) -> list[Journal]:
    """The journals of a folder, whole by their checksum or not."""
    found = []
    for name in COPIES:
        data = read_front(os.path.join(folder, name))
        try:
            found.append(read_journal(data or b""))
        except NoJournal:
            continue
    return found
