"""Where factions begin, by the club's dice: docs/FORMATS.md, "Dice"."""

from __future__ import annotations

import secrets

MULTIPLIER = 6364136223846793005
MASK = 2**64 - 1
JOINING_STREAM = 10_000
MOST_TRIES = 100_000


def first_word(seed: int, stream: int) -> int:
    """The first word of PCG XSH RR 64/32 for this seed and stream."""
    increment = (stream << 1 | 1) & MASK
    state = ((seed + increment) * MULTIPLIER + increment) & MASK
    mixed = ((state >> 18 ^ state) >> 27) & 0xFFFFFFFF
    turn = state >> 59
    return (mixed >> turn | mixed << (-turn & 31)) & 0xFFFFFFFF


def first_regions(seed: int, factions: int, land: int) -> list[int]:
    """For each faction from 1 on, which of the `land` regions of land it begins in, counted from 0."""
    return [first_word(seed, JOINING_STREAM + faction) % land for faction in range(1, factions + 1)]


def random_seed() -> int:
    return secrets.randbits(64)


def seed_with_factions_apart(factions: int, land: int) -> int | None:
    """A random seed with which this number of factions begin in regions of their own. None where none was found."""
    for _ in range(MOST_TRIES):
        seed = random_seed()
        if len(set(first_regions(seed, factions, land))) == factions:
            return seed
    return None
