"""Reads a journal, and writes one as a pack does. It judges spellings; whether a record may follow those before it, the program says."""

from __future__ import annotations

import struct
from dataclasses import dataclass, field

from .shapes import AREA_BYTES, Setup, Shape

MAGIC = b"HAILJRN"
LETTERS = frozenset(b"ABCDEFGHIJKLMNOPQRSTUVWXYZabcdefghijklmnopqrstuvwxyz0123456789._-")


class NoJournal(Exception):
    """The bytes are no journal."""


@dataclass(frozen=True)
class StoredFile:
    """A file in effect."""

    number: int
    length: int
    profile: int
    name: str


@dataclass(frozen=True)
class Audit:
    """What an audit found: its number, its undecided rounds, and for each provider in how many it was counted."""

    number: int
    undecided: int
    counts: tuple[int, ...]

    def flagged(self, tolerance: int) -> list[int]:
        """The providers that it flags."""
        return [place for place, count in enumerate(self.counts) if count > tolerance]


@dataclass
class Journal:
    """What follows from the records of a journal."""

    setup: Setup
    version: int = 1
    next_put: int = 1
    next_audit: int = 1
    files: dict[str, StoredFile] = field(default_factory=dict)
    audit: Audit | None = None  # the last one that ended
    due: bool = False  # a repair is due
    text: bytes = b""  # the records behind their gates, with the closed gate
    second_area: bool = False

    def reached(self) -> tuple[int, int]:
        """How far it has come: the numbers of the next put and of the next audit."""
        return self.next_put, self.next_audit

    def compact(self) -> bytes:
        """A journal with the same records in the first area, and nothing else."""
        return MAGIC + b"1" + self.text


def is_name(text: bytes) -> bool:
    """Whether hail takes it as the name of a file."""
    return 1 <= len(text) <= 64 and LETTERS.issuperset(text)


class _Reader:
    """Takes numbers and names off the bytes, one after the other."""

    def __init__(self, text: bytes, at: int) -> None:
        self.text = text
        self.at = at

    def take(self, size: int) -> bytes:
        part = self.text[self.at : self.at + size]
        if len(part) < size:
            raise NoJournal(f"it ends early at byte {len(self.text)}")
        self.at += size
        return part

    def number(self, size: int) -> int:
        return int.from_bytes(self.take(size), "little")

    def name(self) -> str:
        size = self.number(1)
        text = self.take(size)
        if not is_name(text):
            raise NoJournal(f"a name is none at byte {self.at - size}")
        return text.decode("ascii")

    def profile(self) -> int:
        own = self.number(1)
        if own > 4:
            raise NoJournal(f"a profile is unknown at byte {self.at - 1}")
        return own

    def counts(self) -> tuple[int, ...]:
        return tuple(self.number(4) for _ in range(self.number(1)))

    def setup(self) -> Setup:
        n, l, b, profile, rounds, picks = self.take(6)
        tolerance = self.number(2)
        return Setup(Shape(n, l, b), profile, rounds, picks, tolerance, self.take(32))


class _Records:
    """Follows the records behind the setup."""

    def __init__(self, source: _Reader, setup: Setup) -> None:
        self.source = source
        self.journal = Journal(setup)
        self.started: dict[int, str] = {}

    def follow(self, kind: int) -> None:
        """Takes the fields of a record of this kind, and does what it says."""
        steps = {2: self._started, 3: self._done, 4: self._dropped, 5: self._audit_started, 6: self._audited, 7: self._repaired}
        later = {8: self._done_at, 9: self._upgraded, 10: self._resumed, 11: self._held, 12: self._due}
        step = {**steps, **later}.get(kind)
        if step is None:
            raise NoJournal(f"a kind of record is unknown at byte {self.source.at - 1}")
        step()

    def _started(self) -> None:
        number = self.source.number(8)
        self.started[number] = self.source.name()
        self.journal.next_put = number + 1

    def _end(self, number: int, length: int, profile: int) -> None:
        name = self.started.pop(number, None)
        if name is None:
            raise NoJournal(f"a put that was not started ends at byte {self.source.at}")
        self.journal.files[name] = StoredFile(number, length, profile, name)

    def _done(self) -> None:
        self._end(self.source.number(8), self.source.number(4), self.journal.setup.profile)

    def _done_at(self) -> None:
        self._end(self.source.number(8), self.source.number(4), self.source.profile())

    def _dropped(self) -> None:
        self.journal.files.pop(self.source.name(), None)

    def _audit_started(self) -> None:
        self.journal.next_audit = self.source.number(8) + 1

    def _judge(self, audit: Audit) -> None:
        self.journal.audit = audit
        self.journal.due = bool(audit.flagged(self.journal.setup.tolerance))

    def _audited(self) -> None:
        self._judge(Audit(self.source.number(8), self.source.number(4), self.source.counts()))

    def _repaired(self) -> None:
        self.source.number(8)
        self.journal.due = False

    def _upgraded(self) -> None:
        if self.source.number(1) != 2:
            raise NoJournal(f"a version is unknown at byte {self.source.at - 1}")
        self.journal.version = 2

    def _resumed(self) -> None:
        self.journal.next_put = self.source.number(8)
        self.journal.next_audit = self.source.number(8)

    def _held(self) -> None:
        number, length = self.source.number(8), self.source.number(4)
        own, name = self.source.profile(), self.source.name()
        self.journal.files[name] = StoredFile(number, length, own, name)

    def _due(self) -> None:
        self._judge(Audit(self.source.number(8), 0, self.source.counts()))


def read_journal(data: bytes) -> Journal:
    """What follows from the journal that these bytes are. Raises NoJournal where they are none."""
    if len(data) <= 9:
        raise NoJournal("no store is set up")
    if data[:7] != MAGIC:
        raise NoJournal("it does not begin as one")
    second = data[7:8] == b"2"
    begin = AREA_BYTES if second else 8
    source = _Reader(data, begin)
    if source.number(1) != 1 or source.number(1) != 1:
        raise NoJournal(f"no setup stands at byte {begin}")
    records = _Records(source, source.setup())
    while source.number(1) == 1:
        records.follow(source.number(1))
    journal = records.journal
    journal.second_area = second
    journal.text = data[begin : source.at - 1] + b"\0"
    return journal


def packed(setup: Setup, next_put: int, next_audit: int, files: list[StoredFile]) -> bytes:
    """A journal of the second version, as a pack writes it: the setup, the upgrade, the next numbers, each file in byte order of the names."""
    shape = setup.shape
    numbers = (shape.providers, shape.primaries, shape.wrong, setup.profile, setup.rounds, setup.picks, setup.tolerance)
    records = [struct.pack("<B6BH", 1, *numbers) + setup.key, bytes([9, 2]), struct.pack("<BQQ", 10, next_put, next_audit)]
    for file in sorted(files, key=lambda file: file.name):
        name = file.name.encode("ascii")
        records.append(struct.pack("<BQIBB", 11, file.number, file.length, file.profile, len(name)) + name)
    return MAGIC + b"1" + b"".join(b"\1" + record for record in records) + b"\0"
