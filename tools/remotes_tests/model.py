"""What `hail PLACE serve J` answers to bytes, by docs/formats.md: the reference that random requests are held against."""
from __future__ import annotations

import struct

STORE, FETCH, ASK, REMOVE = 1, 2, 3, 4
DONE, NONE = b'\1', b'\0'
BAD = 25
"""The status where bytes are no request."""


def product(a: int, b: int, width: int = 128) -> int:
    """The product of two symbols."""
    if width == 1 or a == 0 or b == 0:
        return a & b
    half = width // 2
    a1, a0, b1, b0 = a >> half, a & ((1 << half) - 1), b >> half, b & ((1 << half) - 1)
    high, low = product(a1, b1, half), product(a0, b0, half)
    middle = product(a1 ^ a0, b1 ^ b0, half) ^ low
    return middle << half | low ^ product(high, 1 << (half - 1), half)


def turned(word: int, by: int) -> int:
    """A word of 32 bits, rotated."""
    return (word << by | word >> (32 - by)) & 0xFFFFFFFF


def quarter(words: list[int], a: int, b: int, c: int, d: int) -> None:
    """A quarter round of ChaCha20."""
    for x, y, z, by in ((a, b, d, 16), (c, d, b, 12), (a, b, d, 8), (c, d, b, 7)):
        words[x] = (words[x] + words[y]) & 0xFFFFFFFF
        words[z] = turned(words[z] ^ words[x], by)


def stream(key: bytes, count: int) -> list[int]:
    """The first words of stream 0 under a key (RFC 8439)."""
    found: list[int] = []
    while len(found) < count:
        start = [*struct.unpack('<4I', b'expand 32-byte k'), *struct.unpack('<8I', key), len(found) // 16, 0, 0, 0]
        words = start[:]
        for _ in range(10):
            for k in range(4):
                quarter(words, k, k + 4, k + 8, k + 12)
            for k in range(4):
                quarter(words, k, 4 + (k + 1) % 4, 8 + (k + 2) % 4, 12 + (k + 3) % 4)
        found += [(a + b) & 0xFFFFFFFF for a, b in zip(words, start)]
    return found[:count]


class Refused(Exception):
    """Bytes are no request."""


class Reader:
    """Bytes, read from their front."""

    def __init__(self, data: bytes) -> None:
        self.data = data
        self.at = 0

    def take(self, count: int) -> bytes:
        """The next bytes."""
        if self.at + count > len(self.data):
            raise Refused
        self.at += count
        return self.data[self.at - count : self.at]

    def number(self, count: int, least: int = 0, most: int = 1 << 64) -> int:
        """A number of so many bytes, between bounds."""
        found = int.from_bytes(self.take(count), 'little')
        if not least <= found <= most:
            raise Refused
        return found

    def size(self) -> int:
        """The bytes of a block."""
        return 16 * self.number(1, 1, 128)


class Model:
    """A provider. A stack keeps blocks of one size for each object."""

    def __init__(self, stacked: bool) -> None:
        self.stacked = stacked
        self.blocks: dict[tuple[int, int], bytes] = {}

    def remove(self, number: int) -> None:
        """Nothing is held of an object any more."""
        self.blocks = {place: block for place, block in self.blocks.items() if place[0] != number}

    def store(self, number: int, stripe: int, block: bytes) -> None:
        """A block is held."""
        others = [held for place, held in self.blocks.items() if place[0] == number]
        if self.stacked and others and len(others[0]) != len(block):
            self.remove(number)
        self.blocks[number, stripe] = block

    def block(self, number: int, stripe: int, size: int) -> bytes | None:
        """A block of this size, if it is held."""
        block = self.blocks.get((number, stripe))
        return block if block is not None and len(block) == size else None

    def sum_of(self, number: int, seed: bytes, rows: int, size: int, picks: int) -> bytes:
        """The answer to a question."""
        words = stream(seed, 4 + 2 * picks)
        weight = sum(word << (32 * k) for k, word in enumerate(words[:4])) or 1
        total, power = 0, 1
        for k in range(picks):
            row = (words[4 + 2 * k] | words[5 + 2 * k] << 32) % rows
            block = self.block(number, row // (size // 16), size)
            if block is None:
                return NONE
            at = 16 * (row % (size // 16))
            power = product(power, weight)
            total ^= product(power, int.from_bytes(block[at : at + 16], 'little'))
        return DONE + total.to_bytes(16, 'little')

    def answer(self, source: Reader) -> bytes:
        """The answer to the next request."""
        kind, number = source.number(1, STORE, REMOVE), source.number(8)
        if kind == STORE:
            stripe, size = source.number(4), source.size()
            self.store(number, stripe, source.take(size))
        elif kind == FETCH:
            stripe, size = source.number(4), source.size()
            block = self.block(number, stripe, size)
            return NONE if block is None else DONE + block
        elif kind == ASK:
            seed, rows, size, picks = source.take(32), source.number(8, 1, 1 << 32), source.size(), source.number(1, 1, 64)
            return self.sum_of(number, seed, rows, size, picks)
        else:
            self.remove(number)
        return DONE

    def serve(self, data: bytes) -> tuple[int, str, bytes]:
        """The status, what is told, and the answers."""
        source, answers = Reader(data), b''
        while source.at < len(data):
            begin = source.at
            try:
                answers += self.answer(source)
            except Refused:
                return BAD, f'hail: bad frame at {begin}\n', answers
        return 0, '', answers
