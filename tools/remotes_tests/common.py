"""What the tests share: programs under test, homes with far ends in folders of their own, and cases that run beside one another."""
from __future__ import annotations

import os
import secrets
import shutil
import signal
import subprocess
import sys
import tempfile
import time
import unittest
from concurrent.futures import ThreadPoolExecutor
from pathlib import Path
from typing import Callable, Iterable, NamedTuple, Sequence, TypeVar

TOOLS = Path(os.environ.get('TOOLS') or Path(__file__).resolve().parents[1])
sys.path.insert(0, str((TOOLS / 'hail-remote').resolve().parent / 'lib'))
from hail.blocks import HEADER_BYTES, MARK_BYTES, stripes_in

HAIL = os.environ.get('HAIL') or str(TOOLS.parent / 'hail')
HERE = Path(__file__).resolve().parent

FULL = bool(os.environ.get('FULL'))
"""Whether all is tried; else a part, in bounded time."""

HANG = 900.0 if FULL else 90.0
"""Seconds behind which a command hangs, on a busy machine too."""

Case = TypeVar('Case')


class Done(NamedTuple):
    """How a command ended."""

    status: int
    out: bytes
    err: str
    seconds: float

    @property
    def text(self) -> str:
        """What it wrote."""
        return self.out.decode(errors='replace')


def start(command: Sequence[str], **env: str) -> subprocess.Popen[bytes]:
    """Begins a command in a group of its own."""
    pipe = subprocess.PIPE
    return subprocess.Popen(command, stdin=pipe, stdout=pipe, stderr=pipe, start_new_session=True, env={**os.environ, 'SERVER': HAIL, **env})


def run(command: Sequence[str], data: bytes = b'', **env: str) -> Done:
    """Runs a command to its end. One that hangs is killed with its group, and has the status -1."""
    begun = time.monotonic()
    running = start(command, **env)
    try:
        out, err = running.communicate(data, timeout=HANG)
        status = running.returncode
    except subprocess.TimeoutExpired:
        os.killpg(running.pid, signal.SIGKILL)
        out, err = running.communicate()
        status = -1
    return Done(status, out, err.decode(errors='replace'), time.monotonic() - begun)


def stacked_blocks(number: int, path: Path) -> dict[str, bytes]:
    """The blocks in the file of an object in a stack."""
    data = path.read_bytes()
    size, stripes = stripes_in(data)
    places = {stripe: HEADER_BYTES + stripe * (size + MARK_BYTES) for stripe in stripes}
    return {f'{number}/{path.name}-{stripe}': data[at : at + size] for stripe, at in places.items()}


def object_of(place: str) -> str:
    """The number of the object at a place of `blocks`."""
    return place.split('/')[1].split('-')[0]


class Home:
    """A home in a folder of its own, beside which far ends keep their blocks in `far-J`."""

    def __init__(self, place: Path) -> None:
        self.place = place
        self.path = place / 'home'

    def hail(self, *words: str, data: bytes = b'') -> Done:
        """hail alone."""
        return run([HAIL, str(self.path), *words], data)

    def remote(self, *words: str, data: bytes = b'', **env: str) -> Done:
        """hail-remote over it."""
        return run([str(TOOLS / 'hail-remote'), str(self.path), *words], data, **{'HAIL': HAIL, **env})

    def make_plain(self, shape: str) -> None:
        """A new store, whose providers are folders with a file for each block."""
        self.path.mkdir(mode=0o700, parents=True)
        made = self.hail('init', *shape.split(' '), data=secrets.token_hex(32).encode())
        assert made.out == b'ready\n', made

    def make(self, shape: str) -> None:
        """A new store, whose providers are stacks."""
        self.place.mkdir(parents=True, exist_ok=True)
        made = run([str(TOOLS / 'hail-init'), str(self.path), *shape.split(' ')], secrets.token_hex(32).encode(), HAIL=HAIL)
        assert made.out == b'ready\n', made
        for number in range(int(shape.split(' ')[0])):
            (self.path / f'stack-{number}').touch()

    def put(self, **files: bytes) -> None:
        """Stores files over plain folders."""
        for name, data in files.items():
            done = self.hail('put', name, data=data)
            assert done.status == 0, done

    def move_away(self, *numbers: int) -> None:
        """These providers are at far ends from now on."""
        for number in numbers:
            far = self.place / f'far-{number}'
            far.mkdir(mode=0o700)
            for name in (f'provider-{number}', f'stack-{number}'):
                if (self.path / name).exists():
                    os.rename(self.path / name, far / name)
            folder = self.path / f'remote-{number}'
            folder.mkdir()
            os.symlink(f'/dev/fd/{100 + number}', folder / 'requests')
            os.symlink(f'/dev/fd/{120 + number}', folder / 'answers')

    def far_ends(self, **commands: str) -> None:
        """Writes HOME/remotes: of each provider, named p2 and so on, the command, perhaps behind its seconds. SERVE stands for the server."""
        lines = []
        for name, command in commands.items():
            number = name[1:]
            serve = f"'{HAIL}' '{self.place}/far-{number}' serve {number}"
            lines.append(f'{number} {command.replace("SERVE", serve)}\n')
        (self.path / 'remotes').write_text(''.join(lines))
        (self.path / 'remotes').chmod(0o600)

    def lying(self, kind: str, number: int = 2, honest: int = 0, limit: str = '') -> str:
        """The command of a far end that lies."""
        return f"{limit}{HERE}/far.py {kind} '{self.place}/far-{number}' {number} {honest}"

    def copy(self, place: Path) -> Home:
        """The same at another place."""
        place.mkdir(parents=True)
        for name in os.listdir(self.place):
            if name == 'home' or name.startswith('far-'):
                shutil.copytree(self.place / name, place / name, symlinks=True)
        return Home(place)

    def without(self, number: int) -> Home:
        """A copy of the home in which a remote provider's place is an empty folder."""
        place = self.place / f'without-{number}'
        shutil.copytree(self.path, place / 'home', symlinks=True)
        shutil.rmtree(place / 'home' / f'remote-{number}', ignore_errors=True)
        return Home(place)

    def gathered(self) -> Home:
        """A copy of the home in which the far ends' folders are its own."""
        place = self.place / 'gathered'
        shutil.rmtree(place, ignore_errors=True)
        home = self.copy(place)
        for far in place.glob('far-*'):
            number = far.name.split('-')[1]
            shutil.rmtree(home.path / f'remote-{number}')
            for name in (f'provider-{number}', f'stack-{number}'):
                if (far / name).exists():
                    os.rename(far / name, home.path / name)
        return home

    def blocks(self, *numbers: int) -> dict[str, bytes]:
        """What these providers hold here: the bytes of each block by `PLACE/OBJECT-STRIPE`, and of what else lies in their folders."""
        found = {}
        for number in numbers:
            stacked = (self.path / f'stack-{number}').exists()
            for path in (self.path / f'provider-{number}').glob('*'):
                found.update(stacked_blocks(number, path) if stacked else {f'{number}/{path.name}': path.read_bytes()})
        return found


class InFolder(unittest.TestCase):
    """A test in a folder of its own, which goes at the end."""

    def setUp(self) -> None:
        self.place = Path(tempfile.mkdtemp())
        self.addCleanup(shutil.rmtree, self.place, ignore_errors=True)

    def each(self, cases: Iterable[Case], look: Callable[[Case], str]) -> None:
        """Runs cases beside one another. Each tells what goes otherwise, or nothing."""
        with ThreadPoolExecutor(os.cpu_count() or 1) as workers:
            told = [found for found in workers.map(look, cases) if found]
        self.assertEqual(told, [], '\n'.join(told))
