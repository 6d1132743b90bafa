"""`serve` by whoever sends: whole requests, such as are changed, cut or none at all, at once or in pieces. Answers, status, what is told and the blocks
that are left are those of the model; over memory, over links, over folders and stacks."""
from __future__ import annotations

import os
import random
import subprocess
import threading
from typing import NamedTuple

from .common import FULL, HAIL, HANG, Done, Home, InFolder, run
from .model import ASK, FETCH, REMOVE, STORE, Model, product, stream
from hail.blocks import blocks_of

SESSIONS = 400 if FULL else 5
"""Sessions at each place."""


class Session(NamedTuple):
    """What a client sends to a provider at a place."""

    place: str
    seed: int


def request(draw: random.Random) -> bytes:
    """A request as it should be, of few objects, so that it meets what others left."""
    number = draw.choice([0, 1, 2, 2**64 - 1]).to_bytes(8, 'little')
    stripe = draw.choice([0, 1, 2, 3]).to_bytes(4, 'little')
    size = draw.choice([1, 1, 2, 3, 128])
    kind = draw.choice([STORE, STORE, STORE, FETCH, FETCH, ASK, ASK, REMOVE])
    front = bytes([kind]) + number
    if kind == STORE:
        return front + stripe + bytes([size]) + draw.randbytes(16 * size)
    if kind == FETCH:
        return front + stripe + bytes([size])
    if kind == ASK:
        rows = draw.choice([1, size, 2 * size, 4 * size, 5, 2**32])
        return front + draw.randbytes(32) + rows.to_bytes(8, 'little') + bytes([size, draw.choice([1, 1, 2, 2, 3, 64])])
    return front


def wild(draw: random.Random) -> bytes:
    """What is mostly no request: one with a byte changed, noise, a front, or one with a byte too many."""
    way, whole = draw.randrange(4), request(draw)
    if way == 0:
        at = draw.randrange(min(len(whole), 60))
        return whole[:at] + draw.randbytes(1) + whole[at + 1 :]
    if way == 1:
        return draw.randbytes(draw.randrange(1, 300))
    return whole[: draw.randrange(len(whole))] if way == 2 else whole + draw.choice([b'\0', b'\5', b'\x09', b'\xff'])


def session(draw: random.Random) -> bytes:
    """What is sent in one session."""
    sent = [request(draw) for _ in range(draw.randrange(1, 200))]
    if draw.random() < 0.8:
        sent += [wild(draw), *(request(draw) for _ in range(draw.randrange(3)))]
    return b''.join(sent)


def feed(target: int, data: bytes, draw: random.Random) -> None:
    """Writes bytes in pieces, as long as they are read, and closes."""
    at = 0
    try:
        while at < len(data):
            at += os.write(target, data[at : at + draw.choice([1, 7, 100, 5000])])
    except BrokenPipeError:
        pass
    os.close(target)


def in_pieces(words: list[str], data: bytes, draw: random.Random) -> Done:
    """Runs a command whose input comes in pieces."""
    source, target = os.pipe()
    running = subprocess.Popen(words, stdin=source, stdout=subprocess.PIPE, stderr=subprocess.PIPE)
    os.close(source)
    feeding = threading.Thread(target=feed, args=(target, data, draw))
    feeding.start()
    out, err = running.communicate(timeout=HANG)
    feeding.join()
    return Done(running.returncode, out, err.decode(), 0)


class Requests(InFolder):
    """Random sessions."""

    def test_model(self) -> None:
        """The model by itself: products that docs/formats.md names, and the first words of RFC 8439's first test vector."""
        for a, b, wanted in ((2, 2, 3), (4, 4, 6), (8, 8, 13), (16, 16, 24), (5, 3, 15)):
            self.assertEqual(product(a, b), wanted)
        self.assertEqual(stream(bytes(32), 17)[:2], [0xADE0B876, 0x903DF1A0])
        self.assertEqual(stream(bytes(32), 17)[16], 0xBEE7079F)
        self.assertEqual(Model(False).serve(b'\4' + bytes(8) + b'\5'), (25, 'hail: bad frame at 9\n', b'\1'))

    def home(self, kind: str) -> Home:
        """An empty home, whose provider 3 is a folder or a stack."""
        home = Home(self.place / kind)
        home.path.mkdir(parents=True, mode=0o700)
        if kind.startswith('stack'):
            (home.path / 'stack-3').touch()
        return home

    def left(self, home: Home) -> dict[tuple[int, int], int]:
        """The bytes of each block that provider 3 of a home holds. The first store makes its folder."""
        if not (home.path / 'provider-3').exists():
            return {}
        return {(block.number, block.stripe): block.size for block in blocks_of(str(home.path), 3)}

    def look(self, case: Session) -> str:
        """What goes otherwise in a session."""
        draw = random.Random(f'{case.place} {case.seed}')
        data = session(draw)
        home = self.home(f'{case.place}-{case.seed}') if len(case.place) > 1 else None
        words = [HAIL, str(home.path) if home else case.place, 'serve', '3']
        done = in_pieces(words, data, draw) if draw.random() < 0.3 else run(words, data)
        model = Model(case.place == 'stack')
        wanted = model.serve(data)
        if (done.status, done.err, done.out) != wanted:
            return f'{case}: {done.status} {done.err} {len(done.out)} bytes, not {wanted[0]} {wanted[1]} {len(wanted[2])}: {data[:200].hex()}'
        held = {place: len(block) for place, block in model.blocks.items()}
        left = held if home is None else self.left(home)
        return '' if left == held else f'{case}: leaves {left}, not {held}'

    def test_sessions(self) -> None:
        """Each place, as often as it is asked."""
        places = ('-', '+', 'folder', 'stack')
        self.each([Session(place, seed) for seed in range(SESSIONS) for place in places], self.look)
