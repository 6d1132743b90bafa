"""What the tests share: the programs under test, homes in a folder of their own, and a client of SFTP that is not ours (paramiko)."""
from __future__ import annotations

import importlib
import os
import secrets
import select
import shutil
import struct
import subprocess
import sys
import tempfile
import unittest
from pathlib import Path
from typing import Any, Sequence

TOOLS = Path(os.environ.get('TOOLS') or Path(__file__).resolve().parents[1])
sys.path.insert(0, str((TOOLS / 'hail-sftp').resolve().parent))

from folders import home as home_module
from folders.home import Home

BRIDGE = str(TOOLS / 'hail-sftp')


def _module_or_none(name: str) -> Any:
    try:
        return importlib.import_module(name)
    except ImportError:
        return None


paramiko: Any = _module_or_none('paramiko')
"""None where it is not installed. Untyped, as in `folders`."""


def hail(*words: str, data: bytes = b'') -> subprocess.CompletedProcess[bytes]:
    """A command of hail."""
    return subprocess.run([home_module.program(), *words], input=data, stdout=subprocess.PIPE, stderr=subprocess.PIPE)


def make_home(path: Path, shape: str = '4 1 1 4 4 8 0') -> str:
    """A new home at a path."""
    path.mkdir(mode=0o700)
    made = hail(str(path), 'init', *shape.split(' '), data=secrets.token_hex(32).encode())
    assert made.stdout == b'ready\n', made
    return str(path)


def fill(home: str, count: int) -> None:
    """So many empty files of others, named full1 and so on."""
    lines = ['reopen', *(f'begin put full{k} -\nrun {k}' for k in range(1, count + 1)), '']
    done = hail(home, 'replay', data='\n'.join(lines).encode())
    assert done.returncode == 0, done


def names_in(homes: Sequence[str]) -> list[str]:
    """The names of a set's files in its homes, without the tags."""
    found = [name for home in homes for name in Home(home).names() if name.startswith('sftp1-') and name != 'sftp1-set']
    return sorted(found)


def word(number: int) -> bytes:
    """A field of SFTP: a number of four bytes."""
    return struct.pack('>I', number)


def long(number: int) -> bytes:
    """A field of SFTP: a number of eight bytes."""
    return struct.pack('>Q', number)


def string(data: bytes | str) -> bytes:
    """A field of SFTP: bytes, or text, behind their count."""
    data = data.encode() if isinstance(data, str) else data
    return word(len(data)) + data


INIT = string(b'\1' + word(3))
"""The first packet of a client."""


class InFolder(unittest.TestCase):
    """A test in a folder of its own, which goes at the end."""

    def setUp(self) -> None:
        self.place = Path(tempfile.mkdtemp())
        self.addCleanup(shutil.rmtree, self.place, ignore_errors=True)

    def homes(self, count: int) -> list[str]:
        """New homes that are a set."""
        paths = [make_home(self.place / f'h{k}') for k in range(count)]
        self.assertEqual(self.bridge('--init', *paths)[0], 0)
        return paths

    def bridge(self, *words: str, data: bytes = b'') -> tuple[int, str]:
        """hail-sftp with these words: its status, and what it told."""
        ran = subprocess.run([BRIDGE, *words], input=data, stdout=subprocess.PIPE, stderr=subprocess.PIPE)
        return ran.returncode, ran.stderr.decode()

    def refuse_writes(self, home: str, place: int = 3) -> None:
        """A provider takes no writes: a file stands in the place of its folder."""
        os.rename(f'{home}/provider-{place}', f'{home}/aside')
        Path(f'{home}/provider-{place}').touch()

    def take_writes(self, home: str, place: int = 3) -> None:
        """It takes them again."""
        os.remove(f'{home}/provider-{place}')
        os.rename(f'{home}/aside', f'{home}/provider-{place}')


class Pipes:
    """A running hail-sftp, as paramiko takes a channel."""

    closed = False

    def __init__(self, homes: Sequence[str], **env: str) -> None:
        self.running = subprocess.Popen([BRIDGE, *homes], stdin=subprocess.PIPE, stdout=subprocess.PIPE, stderr=subprocess.PIPE,
                                        env={**os.environ, **env})

    def send(self, data: bytes) -> int:
        return os.write(self.running.stdin.fileno(), data)  # type: ignore[union-attr]

    def recv(self, count: int) -> bytes:
        return os.read(self.running.stdout.fileno(), count)  # type: ignore[union-attr]

    def recv_ready(self) -> bool:
        return bool(select.select([self.running.stdout], [], [], 0)[0])

    def receive(self) -> bytes:
        """The next packet, without its length."""
        return self._whole(int.from_bytes(self._whole(4), 'big'))

    def _whole(self, count: int) -> bytes:
        found = b''
        while len(found) < count:
            part = self.recv(count - len(found))
            assert part, 'hail-sftp says no more'
            found += part
        return found

    def get_name(self) -> str:
        return 'pipes'

    def settimeout(self, seconds: float) -> None:
        pass

    def close(self) -> int:
        """Ends the session; returns the status of hail-sftp. What it told on standard error is in `told` then."""
        self.running.stdin.close()  # type: ignore[union-attr]
        self.told = self.running.stderr.read().decode()  # type: ignore[union-attr]
        status = self.running.wait()
        self.running.stdout.close()  # type: ignore[union-attr]
        self.running.stderr.close()  # type: ignore[union-attr]
        return status


def client_of(homes: Sequence[str], **env: str) -> Any:
    """A client of paramiko's over a new hail-sftp, which is at `pipes`."""
    pipes = Pipes(homes, **env)
    client = paramiko.SFTPClient(pipes)
    client.pipes = pipes
    return client


def close_file(client: Any, file: Any) -> None:
    """Closes a file, and looks at the answer, as paramiko does not."""
    file.flush()
    if file.pipelined:
        file.set_pipelined(False)
    file._closed = True
    client._request(paramiko.sftp.CMD_CLOSE, file.handle)


def put(client: Any, path: str, data: bytes) -> None:
    """Stores a file by SFTP."""
    file = client.open(path, 'w')
    file.write(data)
    close_file(client, file)


def get(client: Any, path: str) -> bytes:
    """Reads a file by SFTP."""
    with client.open(path, 'r') as file:
        return bytes(file.read())
