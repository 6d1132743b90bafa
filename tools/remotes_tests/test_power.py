"""Power fails at the machine of a far end, by model: the calls of its server are recorded by strace, and between any two of them a cut leaves what was
synced, and of the rest a part that a seed draws (tools/test-cuts). Each block that the server said yes to is there then."""
from __future__ import annotations

import importlib.machinery
import importlib.util
import random
import shutil
import sys
from pathlib import Path
from typing import Any, NamedTuple

from .common import FULL, HERE, InFolder

DRAWS = 40 if FULL else 4
"""So many cuts at each moment."""

YES = b'\1'


class Block(NamedTuple):
    """A block, and where it belongs."""

    number: int
    stripe: int
    data: bytes

    def request(self) -> bytes:
        """That by which it is stored."""
        return YES + self.number.to_bytes(8, 'little') + self.stripe.to_bytes(4, 'little') + bytes([len(self.data) // 16]) + self.data


def cuts() -> Any:
    """The program test-cuts, whose recorder takes each yes for an answer."""
    loader = importlib.machinery.SourceFileLoader('test_cuts', str(HERE.parent / 'test-cuts'))
    spec = importlib.util.spec_from_loader('test_cuts', loader)
    assert spec
    module = sys.modules['test_cuts'] = importlib.util.module_from_spec(spec)
    loader.exec_module(module)
    setattr(module, 'ANSWERS', (YES,))
    return module


class Power(InFolder):
    """A server over a folder, and over a stack."""

    def setUp(self) -> None:
        if not shutil.which('strace'):
            self.skipTest('there is no strace')
        super().setUp()
        self.cuts = cuts()
        self.draw = random.Random(7)
        self.blocks = [Block(number, stripe, self.draw.randbytes(16 * number)) for number in (1, 2, 128) for stripe in (0, 1, 2, 5)]

    def has(self, image: Path, block: Block) -> bool:
        """Whether a block is there, in either form."""
        folder = image / 'provider-3'
        if (image / 'stack-3').exists():
            path = folder / str(block.number)
            return path.exists() and self.cuts.blocks(path.read_bytes()).get(block.stripe) == block.data
        path = folder / f'{block.number}-{block.stripe}'
        return path.exists() and path.read_bytes() == block.data

    def lost(self, home: Path, disk: Any, yes: int) -> list[Block]:
        """Which of the blocks that were answered by yes are not there behind some cut."""
        found = []
        for _ in range(DRAWS):
            image = home.parent / 'image'
            disk.top.cut(self.draw, image)
            found += [block for block in self.blocks[:yes] if not self.has(image, block)]
            shutil.rmtree(image)
        return found

    def cut(self, home: Path, disk: Any, events: list[Any], syncs: bool) -> tuple[int, list[Block]]:
        """How many yeses there were, and what was lost at any moment. Syncs count, or not."""
        yes, lost = 0, self.lost(home, disk, 0)
        for event in events:
            if event[0] == 'say':
                yes += len(event[3])
            elif event[0] != 'sync' or syncs:
                disk.apply(event)
            lost += self.lost(home, disk, yes)
        return yes, lost

    def look(self, form: str) -> str:
        """What goes otherwise over a home of this form."""
        home = self.place.resolve() / form / 'far'
        home.mkdir(parents=True, mode=0o700)
        if form == 'stack':
            (home / 'stack-3').touch()
        disk, again = self.cuts.Disk(home), self.cuts.Disk(home)
        status, events = self.cuts.Recorder(home, home.parent / 'trace').run(['serve', '3'], b''.join(block.request() for block in self.blocks))
        yes, lost = self.cut(home, disk, events, True)
        if (status, yes, lost) != (0, len(self.blocks), []):
            return f'{form}: status {status}, {yes} yeses, and lost are {[block[:2] for block in lost]}'
        return '' if self.cut(home, again, events, False)[1] else f'{form}: nothing is lost where no sync counts'

    def test_yes_is_kept(self) -> None:
        """Of what was answered by yes nothing is lost; where no sync counted, something would be."""
        for form in ('folder', 'stack'):
            self.assertEqual(self.look(form), '')
