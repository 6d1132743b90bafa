"""The numbers of a store: its shape, the profiles of the code within a block, and what follows from them."""

from __future__ import annotations

from dataclasses import dataclass

PLACES = 16  # of providers in a home
FILE_BYTES = 4_194_304  # at most, of a file
STORE_FILES = 1_024  # at most, of a store
AREA_BYTES = 8_388_608  # where the second area of a journal begins
JOURNAL_BYTES = 16_777_216  # at most, of a journal
SYMBOL_BYTES = 16
BLOCK_SYMBOLS = (6, 16, 32, 64, 128)  # by profile
KEPT_SYMBOLS = (2, 8, 24, 48, 96)  # by profile: those of them that are a file's own


def block_bytes(profile: int) -> int:
    """The bytes of a block at a profile."""
    return SYMBOL_BYTES * BLOCK_SYMBOLS[profile]


def profile_of_block(size: int) -> int | None:
    """The profile whose blocks have so many bytes, if any has."""
    sizes = [block_bytes(profile) for profile in range(5)]
    return sizes.index(size) if size in sizes else None


@dataclass(frozen=True)
class Shape:
    """N providers, of which L hold the files' own bytes and B may be wrong."""

    providers: int
    primaries: int
    wrong: int

    def is_one(self) -> bool:
        """Whether hail takes it."""
        fits = self.primaries + 2 * self.wrong + 1 <= self.providers
        return 4 <= self.providers <= PLACES and self.primaries >= 1 and self.wrong >= 1 and fits

    def stripe_bytes(self, profile: int) -> int:
        """The bytes of a file that one stripe has."""
        return SYMBOL_BYTES * self.primaries * KEPT_SYMBOLS[profile]

    def stripes(self, length: int, profile: int) -> int:
        """The stripes of a file of so many bytes."""
        return -(-length // self.stripe_bytes(profile))

    def stored_bytes(self, length: int, profile: int) -> int:
        """The bytes of all blocks of a file of so many bytes."""
        return self.stripes(length, profile) * self.providers * block_bytes(profile)


@dataclass(frozen=True)
class Setup:
    """What an init fixes, and the master key."""

    shape: Shape
    profile: int
    rounds: int
    picks: int
    tolerance: int
    key: bytes

    def is_one(self) -> bool:
        """Whether hail takes it."""
        asks = 1 <= self.rounds <= 64 and 1 <= self.picks <= 64 and 0 <= self.tolerance <= 4_096
        return self.shape.is_one() and 0 <= self.profile <= 4 and asks and len(self.key) == 32
