"""What the cases about reels are made of: tiles with each kind of damage, records of them, and named reels."""

from functools import cache
from typing import NamedTuple

from expected.flag import flag_of
from expected.reel import HEADER, record
from expected.sample import change_of, numbers, sample
from expected.sizes import HOUSE, NEW, OLD, OLD_SLOPES
from expected.tile import place, places, text_length, tile_length, write


class Case(NamedTuple):
    """A reel with a name. What its listing ends with is said where the reel was made for that; the whole listing is worked out from
    the reel each time."""

    name: str
    reel: bytes
    ends: str | None = None


# For each kind of damage what is hurt of a tile of size p: lines, or a cell by its row and its column.
DAMAGE = {
    "nothing": lambda p: (),
    "a cell": lambda p: (("cell", p - 2, p // 3),),
    "a column": lambda p: (("column", p // 2),),
    "a row": lambda p: (("row", p // 3),),
    "two columns": lambda p: (("column", 0), ("column", p - 2)),
    "two rows": lambda p: (("row", 1), ("row", p - 3)),
    "a row with a column": lambda p: (("row", p - 2), ("column", 1)),
}


class Lost(NamedTuple):
    """What a scanner lost of a tile: the lines that its two flags tell of, with None for none, and what is hurt beside them; and what is
    said of the tile."""

    first: tuple | None
    second: tuple | None
    beside: tuple = ()
    said: str = "filled"


# For each kind of a flagged tile what was lost of one of size p. Beside a row with a column a hurt cell is seen only if it stands on one of
# the two diagonals through their crossing (SPEC 5.8): from (0, 0) slope 1 leads to (2, p-2), and neither slope to (1, 1).
LOST = {
    "a row with a column": lambda p: Lost(("row", p - 2), ("column", 1)),
    "the first flag alone": lambda p: Lost(("column", p // 2), None),
    "no line, and a cell": lambda p: Lost(None, None, (("cell", p - 2, p // 3),), f"cell {p - 2} {p // 3}"),
    "the second flag alone": lambda p: Lost(None, ("row", p // 3)),
    "a line, and a cell beside it": lambda p: Lost(("row", 0), None, (("cell", p - 2, p // 3),), "refused 5"),
    "one line twice": lambda p: Lost(("row", 0), ("row", 0)),
    "two columns": lambda p: Lost(("column", p - 2), ("column", 0)),
    "two rows, and a cell": lambda p: Lost(("row", 1), ("row", p - 3), (("cell", 0, 0),)),
    "a row with a column, and a cell that is seen": lambda p: Lost(("row", 0), ("column", 0), (("cell", 2, p - 2),), "refused 5"),
    "a row with a column, and a cell that is not": lambda p: Lost(("column", 0), ("row", 0), (("cell", 1, 1),)),
}
# The sorts of records (SPEC 7.1): what `record` is told of each beside what all have. The flags are of lines that every tile has.
SORTS = {"NEW": {"kind": NEW}, "OLD": {"kind": OLD}, "FLAGGED": {"flags": (flag_of(("row", 0)), flag_of(("column", 0)))}}


@cache
def good(p, l, seed=1):
    """A tile written from pseudo-random text. An old one takes every slope, and is like a new one where the slope is allowed (SPEC 2.5)."""
    answer, tile = write(OLD, p, l, sample(seed, text_length(p)), [0] * tile_length(p))
    assert answer == "done"
    return bytes(tile)


def places_of(p, part):
    """The places of the cells of a row or a column, or the place of a cell."""
    kind, *where = part
    return [place(p, *where)] if kind == "cell" else places(p, part)


def hurt(tile, p, *parts):
    """The tile with every byte of these lines or cells changed."""
    tile = list(tile)
    for seed, part in enumerate(parts, start=1):
        drawn = numbers(seed)
        for k in places_of(p, part):
            tile[k] ^= change_of(next(drawn))
    return bytes(tile)


def one_byte_hurt(tile, k, change=0x41):
    """The tile with its k-th byte changed."""
    return tile[:k] + bytes([tile[k] ^ change]) + tile[k + 1 :]


def damaged(kind, p, l, seed=1):
    """A tile with a kind of damage."""
    return hurt(good(p, l, seed), p, *DAMAGE[kind](p))


def flagged(n, p, l, lost, seed=1):
    """A flagged record of which this was lost: on the flagged lines stands garbage."""
    first, second, beside, _ = lost
    lines = [line for line in (first, second) if line]
    return record(n, p, l, hurt(good(p, l, seed), p, *lines, *beside), flags=(flag_of(first), flag_of(second)))


def record_length(p, header=HEADER):
    """How many bytes a record of size p has."""
    return header + tile_length(p)


def made_record(n, p, l, kind):
    """The n-th record of a sound reel: the damage is of one kind after the other."""
    damage = list(DAMAGE)[n % len(DAMAGE)]
    return record(n, p, l, damaged(damage, p, l, seed=n % 60), kind)


def made_new(n, p):
    """A new one."""
    return made_record(n, p, HOUSE[p], NEW)


def made_old(n, p):
    """An old one, at the largest slope that is not allowed, where there is one."""
    return made_record(n, p, (OLD_SLOPES[p] or [HOUSE[p]])[-1], OLD)


def made_flagged(n, p):
    """A flagged one."""
    lost = list(LOST.values())[n % len(LOST)]
    return flagged(n, p, HOUSE[p], lost(p), seed=n % 60)


def in_turn(sizes, *makers):
    """A sound reel of records of these sizes, numbered from 0, each made by the next of the makers."""
    return b"".join(makers[n % len(makers)](n, p) for n, p in enumerate(sizes))


def joined(sizes):
    """A sound reel of new records."""
    return in_turn(sizes, made_new)


def mixed(sizes):
    """The same with every second record an old one, the first one among them."""
    return in_turn(sizes, made_old, made_new)


def all_sorts(sizes):
    """A sound reel of records that are flagged, old and new in turn."""
    return in_turn(sizes, made_flagged, made_old, made_new)
