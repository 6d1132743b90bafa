"""How far a command of hail is, by what the system says of its process. Of providers' folders nothing is asked: one that hangs would hold this."""

from __future__ import annotations

import os
import re
import sys

from .homes import folder_of, journal_bytes
from .journal import Journal, NoJournal, read_journal
from .shapes import PLACES

_BLOCK = re.compile(r"(.*)/((?:0|[1-9][0-9]{0,19})(?:-(?:0|[1-9][0-9]{0,9}))?)")


def put_line(text: str) -> None:
    """A line on standard error, in place of the one before; an empty one takes it away."""
    try:
        width = os.get_terminal_size(2).columns or 80
        os.write(2, f"\r{text[: max(width - 1, 20)]}\033[K".encode())
    except OSError:
        sys.exit(0)  # there is no terminal any more


def amount(count: int) -> str:
    """Bytes, short, and never more than they are."""
    for size, unit in ((1_000_000_000, "GB"), (1_000_000, "MB"), (1_000, "kB")):
        if count >= size:
            return f"{count * 10 // size / 10:.1f} {unit}"
    return f"{count} B"


def _journal_of(home: str) -> Journal | None:
    try:
        return read_journal(journal_bytes(home))
    except (OSError, NoJournal):
        return None


class Watched:
    """A process that does a command over a home. What can't be known is left out."""

    def __init__(self, process: int, home: str, words: list[str]) -> None:
        self._process, self._home, self._word, self._name = process, home, words[0], "".join(words[1:2])
        self._journal = _journal_of(home)
        self._places = self._folders()
        self._at = ""

    def _folders(self) -> dict[str, int]:
        """The paths of providers' folders as the system tells them, without a look into them."""
        home, found = os.path.realpath(self._home), {}
        for place in range(PLACES):
            path = folder_of(home, place)
            try:
                path = os.path.join(home, os.readlink(path))
            except OSError:
                pass
            found[os.path.normpath(path)] = place
        return found

    def _counted(self, field: str) -> int:
        """A count of bytes that the system keeps for the process: rchar or wchar."""
        with open(f"/proc/{self._process}/io", encoding="ascii") as file:
            return next(int(line.split()[1]) for line in file if line.startswith(f"{field}:"))

    def line(self) -> str:
        """How far it is; nothing where that can't be known."""
        tellers = {"put": self._put, "get": self._get, "scrub": self._scrub, "repair": self._repair}
        try:
            return f"hail: {self._word}, {tellers[self._word]()}"
        except (OSError, ValueError, StopIteration):
            return ""

    def _put(self) -> str:
        """Of a file how much is read; of a pipe that can't be told."""
        source = f"/proc/{self._process}/fd/0"
        status = os.stat(source)
        if not os.path.isfile(source):
            return f"{amount(self._counted('wchar'))} written"
        with open(f"/proc/{self._process}/fdinfo/0", encoding="ascii") as file:
            position = next(int(line.split()[1]) for line in file if line.startswith("pos:"))
        return f"{amount(position)} of {amount(status.st_size)} read"

    def _get(self) -> str:
        """A get reads blocks and its journal first, and writes nothing but its output."""
        file = self._journal.files.get(self._name) if self._journal else None
        of = f" of {amount(file.length)}" if file else ""
        return f"{amount(self._counted('rchar'))} read, {amount(self._counted('wchar'))}{of} written"

    def _block_bytes(self, journal: Journal, count: int) -> int:
        """The bytes of all blocks at so many providers."""
        shape, files = journal.setup.shape, journal.files.values()
        return sum(shape.stored_bytes(file.length, file.profile) for file in files) // shape.providers * count

    def _scrub(self) -> str:
        """A scrub reads every block, and its journal."""
        journal = self._journal
        due = f", and the blocks have {amount(self._block_bytes(journal, journal.setup.shape.providers))}" if journal else ""
        return f"{amount(self._counted('rchar'))} read{due}{self._block()}"

    def _repair(self) -> str:
        """A repair writes the blocks of those that the last audit flagged."""
        journal, due = self._journal, ""
        if journal and journal.audit:
            flagged = len(journal.audit.flagged(journal.setup.tolerance))
            due = f" of {amount(self._block_bytes(journal, flagged))}"
        return f"{amount(self._counted('wchar'))}{due} written{self._block()}"

    def _block(self) -> str:
        """The block that it has open or, where it has none open now, had open last."""
        folder = f"/proc/{self._process}/fd"
        for descriptor in os.listdir(folder):
            try:
                match = _BLOCK.fullmatch(os.readlink(f"{folder}/{descriptor}"))
            except OSError:
                continue
            if match and match[1] in self._places:
                self._at = f", at {match[2]} of provider {self._places[match[1]]}"
        return self._at
