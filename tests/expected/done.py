"""What is done to the tiles of the sample reels, in words for their pages, and to the bytes."""

from collections.abc import Callable
from typing import NamedTuple

from expected.sample import sample
from expected.tile import place, places


class Done(NamedTuple):
    """What was done to a tile: in words, and as a function of its size and its bytes."""

    words: str
    to: Callable


def nothing():
    """The tile is as written."""
    return Done("nothing", lambda p, tile: tile)


def cells(change, *hurt):
    """These cells, each a row and a column, are changed by a byte."""
    words = " and ".join(f"({i}, {j})" for i, j in hurt)

    def to(p, tile):
        changed = {place(p, i, j) for i, j in hurt}
        return [byte ^ change if k in changed else byte for k, byte in enumerate(tile)]

    return Done(f"{words} XOR {change:02X}", to)


def named(hurt, verb):
    """Some lines in words, with what is said of them: one reads, two read."""
    words = " and ".join(f"{kind} {n}" for kind, n in hurt)
    return f"{words} {verb}s" if len(hurt) == 1 else f"{words} {verb}"


def overlaid(p, tile, other, hurt):
    """The tile with what another one has on these lines."""
    lost = {k for line in hurt for k in places(p, line)}
    return [other[k] if k in lost else byte for k, byte in enumerate(tile)]


def lines(byte, *hurt):
    """Every byte of these lines reads as one byte: a scratch 00, a splice FF."""
    return Done(f"{named(hurt, 'read')} {byte:02X}", lambda p, tile: overlaid(p, tile, [byte] * len(tile), hurt))


def garbage(*hurt):
    """On these lines stand pseudo-random bytes."""
    return Done(f"{named(hurt, 'hold')} garbage", lambda p, tile: overlaid(p, tile, sample(p, len(tile)), hurt))


def both(first, second):
    """One thing, and then the other."""
    return Done(f"{first.words}, {second.words}", lambda p, tile: second.to(p, first.to(p, tile)))
