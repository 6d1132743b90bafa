"""Chances: what audits miss, and how likely a file is lost. Losses are taken as independent of one another."""

from __future__ import annotations

import math

from .shapes import Shape

YEAR = 365


def at_least_once(chance: float, times: float) -> float:
    """That of so many independent events of a chance at least one comes; exact also where the chance is tiny."""
    if chance >= 1:
        return 1.0 if times > 0 else 0.0
    return -math.expm1(times * math.log1p(-chance))


def exactly(count: int, chance: float, wanted: int) -> float:
    """That of `count` independent events of a chance exactly so many come."""
    return math.comb(count, wanted) * chance**wanted * (1 - chance) ** (count - wanted)


def more_than(count: int, chance: float, bound: int) -> float:
    """That of `count` independent events of a chance more than `bound` come."""
    return math.fsum(exactly(count, chance, wanted) for wanted in range(bound + 1, count + 1))


def missed(share: float, rounds: int, picks: int, tolerance: int) -> float:
    """That an audit does not flag a provider at which this share of a file's rows is lost."""
    met = at_least_once(share, picks)
    return math.fsum(exactly(rounds, met, count) for count in range(min(tolerance, rounds) + 1))


def blocks_read(stripes: int, rounds: int, picks: int) -> float:
    """The blocks of a file that an audit reads in a folder, on average: in each round a picked one once; of a file of at most 8 stripes all
    rounds together each once."""
    if stripes <= 8:
        return stripes * at_least_once(1 / stripes, rounds * picks) if stripes else 0.0
    return rounds * stripes * at_least_once(1 / stripes, picks)


def lost_within(shape: Shape, stripes: int, days: float, loss: float, rot: float) -> float:
    """That within so many days some stripe has more than B blocks lost: providers that lose all, and of the others single blocks. `loss` and
    `rot` are the chances of these within a year."""
    away, spoilt = at_least_once(loss, days / YEAR), at_least_once(rot, days / YEAR)
    chances = [more_than(shape.providers, away, shape.wrong)]
    for gone in range(shape.wrong + 1):
        others = more_than(shape.providers - gone, spoilt, shape.wrong - gone)
        chances.append(exactly(shape.providers, away, gone) * at_least_once(others, stripes))
    return math.fsum(chances)


def lost_in_a_year(shape: Shape, stripes: int, days: float, loss: float, rot: float) -> float:
    """The same within a year, with a scrub every so many days, behind which all is as it should be again."""
    return at_least_once(lost_within(shape, stripes, days, loss, rot), YEAR / days)


def copies(count: int) -> Shape:
    """So many plain copies with checksums, of which one that is right is enough: no shape of hail's, but counted alike."""
    return Shape(count, 1, count - 1)
