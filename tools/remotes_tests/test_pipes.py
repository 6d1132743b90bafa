"""All commands over six far ends whose pipes, and hail's, hold one page: nothing waits for what waits for it."""
from __future__ import annotations

import os
import shutil

from .common import HERE, Home, InFolder

PLACES = range(6)
MIB = 1 << 20


class SmallPipes(InFolder):
    """Files of 1 and of 4 MiB."""

    def home(self, size: int) -> Home:
        """A store whose providers are all far away, behind the smallest pipes."""
        home = Home(self.place / f'of-{size}')
        home.make('6 3 1 4 16 64 0')
        home.move_away(*PLACES)
        home.far_ends(**{f'p{place}': f'exec {HERE}/small.py SERVE' for place in PLACES})
        return home

    def does(self, home: Home, *words: str, data: bytes = b'') -> bytes:
        """A command that ends with 0."""
        done = home.remote(*words, data=data, HAIL=str(HERE / 'small.py'))
        self.assertEqual(done.status, 0, f'{words}: {done.status}, {done.err} behind {done.seconds} seconds')
        return done.out

    def look(self, size: int) -> str:
        """What goes otherwise with a file of so many bytes."""
        home = self.home(size)
        data, other = os.urandom(size), os.urandom(size)
        self.does(home, 'put', 'file', data=data)
        got = [self.does(home, 'get', 'file') == data]
        got.append(self.does(home, 'scrub').count(b' blocks 0\n') == 6)
        shutil.rmtree(home.place / 'far-2' / 'provider-2')
        got.append(b'provider 2 count 16 flagged' in self.does(home, 'audit'))
        self.does(home, 'repair')
        shutil.rmtree(home.place / 'far-4' / 'provider-4')
        got.append(self.does(home, 'scrub').count(b' blocks 0\n') == 5)
        self.does(home, 'put', 'file', data=other)
        got.append(self.does(home, 'get', 'file') == other)
        got.append(self.does(home, 'list') == f'file {size}\n'.encode())
        self.does(home, 'drop', 'file')
        return '' if all(got) else f'{size} bytes: {got}'

    def test_smallest_pipes(self) -> None:
        """put, get, scrub clean and mending, audit, repair, put over, list and drop."""
        self.each([MIB, 4 * MIB], self.look)
