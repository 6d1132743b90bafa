"""HOME/history: what was done to a store, and when. A line is TIME WORD STATUS, and what it found; hail-keep writes it."""

from __future__ import annotations

import os
import re
import time
from dataclasses import dataclass

from .homes import journal_bytes
from .journal import NoJournal, read_journal

LONGEST = 65_536  # bytes: a longer one loses its older half
_LINE = re.compile(r"([0-9]{4}-[0-9]{2}-[0-9]{2}T[0-9:]{8}Z) ([a-z]+) ([0-9]+) ?(.*)")


@dataclass(frozen=True)
class Event:
    """A line."""

    time: str
    word: str
    status: int
    found: str


def _found_by_audit(home: str) -> str:
    try:
        journal = read_journal(journal_bytes(home))
    except (OSError, NoJournal):
        return ""
    if journal.audit is None:
        return ""
    flagged = " ".join(map(str, journal.audit.flagged(journal.setup.tolerance))) or "none"
    return f"undecided {journal.audit.undecided} flagged {flagged}"


def _found_by_scrub(output: str) -> str:
    wrong = re.findall(r"^provider ([0-9]+) symbols [0-9]+ blocks (?!0$)[0-9]+$", output, re.MULTILINE)
    return f"wrong {' '.join(wrong) or 'none'}"


def note(home: str, word: str, status: int, output: str) -> None:
    """Adds a line for a command that ended with a status and this output. A home that takes no line has none."""
    found = ""
    if status == 0 and word == "audit":
        found = _found_by_audit(home)
    elif status == 0 and word == "scrub":
        found = _found_by_scrub(output)
    line = f"{time.strftime('%Y-%m-%dT%H:%M:%SZ', time.gmtime())} {word} {status} {found}".rstrip() + "\n"
    path = os.path.join(home, "history")
    try:
        with open(os.open(path, os.O_WRONLY | os.O_CREAT | os.O_APPEND | os.O_NOFOLLOW, 0o600), "ab") as file:
            file.write(line.encode())
        if os.path.getsize(path) > LONGEST:
            _shorten(path)
    except OSError:
        return


def _shorten(path: str) -> None:
    with open(path, "rb") as file:
        lines = file.read().splitlines(keepends=True)
    part = path + ".part"
    with open(os.open(part, os.O_WRONLY | os.O_CREAT | os.O_TRUNC | os.O_NOFOLLOW, 0o600), "wb") as file:
        file.write(b"".join(lines[len(lines) // 2 :]))
    os.rename(part, path)


def last_of(home: str, word: str) -> Event | None:
    """The last line of a command."""
    try:
        with open(os.path.join(home, "history"), encoding="utf-8", errors="replace") as file:
            parts = [_LINE.fullmatch(line.rstrip("\n")) for line in file]
    except OSError:
        return None
    events = [Event(part[1], part[2], int(part[3]), part[4]) for part in parts if part and part[2] == word]
    return events[-1] if events else None
