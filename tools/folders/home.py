"""One home of hail, by its commands alone: no journal and no block is read here."""
from __future__ import annotations

import os
import subprocess
import sys
from dataclasses import dataclass
from pathlib import Path
from typing import BinaryIO, Sequence

LONGEST = 4_194_304
"""Bytes of the longest file of hail."""

MOST_NAMES = 1024
"""Files of a home, at most."""


class Refused(Exception):
    """What was asked is not done; the text says why."""


class Missing(Refused):
    """There is no such file or folder."""


class Unsupported(Refused):
    """It is never done here, whatever the state."""


class ReadOnly(Refused):
    """Nothing is written now, since something can't be read."""


class Doubt(Refused):
    """It cannot be said whether it is done."""


class NoAnswer(Refused):
    """A home did not answer, or hail can't be run."""


@dataclass(frozen=True)
class Answer:
    """What a command of hail said: its status (negative: the signal that ended it), its bytes, its last line on standard error."""

    status: int
    out: bytes
    err: str


_program = ''


def program() -> str:
    """The program: what HAIL names, or that of the repository which this folder lies in, built once, or the one on the path."""
    global _program
    if not _program:
        _program = os.environ.get('HAIL', '') or _program_of_repository() or 'hail'
    return _program


def _program_of_repository() -> str:
    root = Path(__file__).resolve().parents[2]
    launcher = root / 'hail'
    if not launcher.is_file():
        return ''
    built = subprocess.run([launcher, '-', 'row', '4', '1', '1', '7', '7', '7', '9'], stdin=subprocess.DEVNULL, stdout=subprocess.PIPE)
    if built.returncode:
        raise NoAnswer('hail is not built')
    return str(root / 'out/hail' if os.access(root / 'out/hail', os.X_OK) else launcher)


def say(text: str) -> None:
    """One line on standard error, behind the name of the program."""
    print(f'{Path(sys.argv[0]).name}: {text}', file=sys.stderr, flush=True)


def in_memory(data: bytes) -> BinaryIO:
    """A nameless file with these bytes, at its begin. hail reads it whole also where this program is killed meanwhile."""
    file = os.fdopen(os.memfd_create('hail'), 'w+b')
    file.write(data)
    file.seek(0)
    return file


class Home:
    """A home, by its full path, so that links to one home are one home."""

    def __init__(self, path: str) -> None:
        self.path = os.path.realpath(path)

    def is_set_up(self) -> bool:
        """Whether the journal has more than a header: hail itself says the rest."""
        try:
            return os.stat(f'{self.path}/journal').st_size > 9
        except OSError:
            return False

    def has_nameless(self) -> bool:
        """Whether an older journal was put back, or one made anew, and something has no name since: hail-restore and hail-rebuild say so."""
        return os.path.lexists(f'{self.path}/restored')

    def words(self, *words: str) -> list[str]:
        """The command with these words: where providers are on other machines, by hail-remote."""
        if os.path.exists(f'{self.path}/remotes'):
            return [str(Path(__file__).resolve().parents[1] / 'hail-remote'), self.path, *words]
        return [program(), self.path, *words]

    def start(self, words: Sequence[str], source: BinaryIO | None, keep: Sequence[int] = ()) -> subprocess.Popen[bytes]:
        """Starts a command. The descriptors `keep` stay open in it: so a lock outlives a program that is killed."""
        try:
            return subprocess.Popen(self.words(*words), stdin=source or subprocess.DEVNULL, stdout=subprocess.PIPE, stderr=subprocess.PIPE,
                                    pass_fds=keep, env={**os.environ, 'HAIL': program(), 'HAIL_KEEPS': '1'})    # `copies` copies the journal
        except OSError as fault:
            raise NoAnswer(f'hail cannot be run: {fault}') from fault

    def run(self, *words: str, source: BinaryIO | None = None, keep: Sequence[int] = ()) -> Answer:
        """Runs a command to its end."""
        return answer_of(self.start(words, source, keep))

    def names(self) -> dict[str, int]:
        """The files by their names, with their lengths in bytes."""
        answer = self.run('list')
        if answer.status:
            raise NoAnswer(f'{self.path}: list: {told(answer)}')
        pairs = (line.split(' ') for line in answer.out.decode('ascii').splitlines())
        return {name: int(length) for name, length in pairs}

    def get(self, name: str) -> bytes:
        """The bytes of a file. Missing where the home says that it has no such name."""
        answer = self.run('get', name)
        if answer.status == 0:
            return answer.out
        kind = Missing if answer.status == 3 else Refused
        raise kind(f'{self.path}: {name}: {told(answer)}')

    def drop(self, name: str, keep: Sequence[int] = ()) -> bool:
        """Removes a file; false where there was none. Doubt where hail does not say that it is gone."""
        answer = self.run('drop', name, keep=keep)
        if answer.status in (0, 3, 15):
            return answer.status != 3
        raise Doubt(f'{self.path}: {name} is not dropped: {told(answer)}')

    def put(self, name: str, data: bytes, keep: Sequence[int] = ()) -> str:
        """Stores bytes under a name, and returns '' once hail said `stored`, or what it said else."""
        with in_memory(data) as source:
            answer = self.run('put', name, source=source, keep=keep)
        return '' if is_stored(answer, name, len(data)) else f'{self.path}: {name} is not stored: {told(answer)}'


def answer_of(running: subprocess.Popen[bytes]) -> Answer:
    """Waits for a command's end."""
    out, err = running.communicate()
    lines = err.decode(errors='replace').strip().splitlines()
    return Answer(running.returncode, out, lines[-1] if lines else '')


def told(answer: Answer) -> str:
    """What a command that went wrong said, for a person."""
    return f'status {answer.status} {answer.err}'.strip()


def is_stored(answer: Answer, name: str, length: int) -> bool:
    """Whether hail said that all these bytes are in effect under the name."""
    return answer.status == 0 and answer.out == f'stored {name} {length}\n'.encode()

