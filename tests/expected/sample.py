"""Pseudo-random bytes, for tiles and texts of which there are too many to type."""

from itertools import islice


def numbers(seed):
    """The pseudo-random numbers after the seed, without end."""
    while True:
        seed = (seed * 1664525 + 1013904223) % 2**32
        yield seed


def change_of(s):
    """A byte that is not zero, from a pseudo-random number."""
    return s // 65536 % 255 + 1


def sample(seed, count):
    """So many bytes, from the numbers after the seed."""
    return [s // 65536 % 256 for s in islice(numbers(seed), count)]
