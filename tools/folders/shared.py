"""What the programs over one set of homes share on this machine: locks, a count of changes, and what can be found again where it is lost.

All is in the folder `folders` of the first home. Nothing there is needed to read a file.
"""
from __future__ import annotations

import contextlib
import fcntl
import json
import os
from pathlib import Path
from typing import Any, Iterator

from .home import Refused


class Shared:
    """The folder of a set, made where it is missing. `users` is a descriptor whose lock each program holds while it works."""

    def __init__(self, folder: Path) -> None:
        self.folder = folder
        try:
            folder.mkdir(mode=0o700, exist_ok=True)
            self.users = self._open('users')
            os.close(self._open('lock'))
        except OSError as fault:
            raise Refused(f'no locks can be had in {folder}: {fault}') from fault

    def _open(self, name: str) -> int:
        return os.open(self.folder / name, os.O_RDWR | os.O_CREAT, 0o600)

    def close(self) -> None:
        """This program is no user any more; the commands that it started may still be."""
        os.close(self.users)

    @contextlib.contextmanager
    def arriving(self) -> Iterator[bool]:
        """The time of a start: whether this program is alone. Behind it, it is one of the users until it ends, and so are the commands that
        it started."""
        alone = True
        try:
            fcntl.flock(self.users, fcntl.LOCK_EX | fcntl.LOCK_NB)
        except OSError:
            alone = False
            fcntl.flock(self.users, fcntl.LOCK_SH)
        try:
            yield alone
        finally:
            fcntl.flock(self.users, fcntl.LOCK_SH)

    @contextlib.contextmanager
    def locked(self, how: int) -> Iterator[int]:
        """The lock of changes: LOCK_EX for one who changes, LOCK_SH for those who look. Its descriptor is for the commands of the change.

        Refused where somebody removed this folder, or what is in it: then others take no notice of this program, and remove what it stores."""
        if not self._is_user():
            raise Refused(f'{self.folder} was removed meanwhile: nothing more is done here until a new start')
        lock = self._open('lock')
        try:
            fcntl.flock(lock, how)
            yield lock
        finally:
            os.close(lock)

    def _is_user(self) -> bool:
        try:
            return os.path.samestat(os.fstat(self.users), os.stat(self.folder / 'users'))
        except OSError:
            return False

    def count(self) -> int:
        """How many changes were begun; 0 where that is lost, as behind a cut of the power."""
        try:
            return int((self.folder / 'count').read_text() or 0)
        except (OSError, ValueError):
            return 0

    def begin(self) -> int:
        """Counts a change that is about to begin, under the lock."""
        count = self.count() + 1
        self._write('count', str(count))
        return count

    def load(self, name: str) -> Any:
        """What was kept under a name; None where it is lost or spoilt."""
        try:
            return json.loads((self.folder / f'{name}.json').read_text())
        except (OSError, ValueError):
            return None

    def keep(self, name: str, value: Any) -> None:
        """Keeps a value, as far as there is room: all that is kept can be missed."""
        with contextlib.suppress(Refused):
            self._write(f'{name}.json', json.dumps(value))

    def _write(self, name: str, text: str) -> None:
        new = self.folder / f'{name}.{os.getpid()}'
        try:
            new.write_text(text)
            new.replace(self.folder / name)
        except OSError as fault:
            with contextlib.suppress(OSError):
                new.unlink()
            raise Refused(f'{self.folder}: {fault}') from fault
