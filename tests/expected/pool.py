"""Records to make large reels of: for each size and each sort of record some tiles in each state that there is, made once. Large reels are
made of copies of these, with other numbers."""

from functools import cache
from random import Random

from expected.flag import flag_of
from expected.quick import written
from expected.reel import record
from expected.sizes import HOUSE, NEW, OLD, OLD_SLOPES, SIZES, SLOPES
from expected.tile import place, places, text_length, tile_length

SORTS = ("new", "old", "flagged")


def hurt(p, tile, drawn, *lines, cells=()):
    """The tile with every byte of the lines changed, and of the cells."""
    made = bytearray(tile)
    for k in {k for line in lines for k in places(p, line)} | {place(p, *cell) for cell in cells}:
        made[k] ^= drawn.randrange(1, 256)
    return bytes(made)


def doubtful(p, l, tile, change):
    """SPEC 10 has this at 7: of row 0 the cells o, l o, l² o and so on are changed, which column 0 explains too, by the cells with these
    numbers. At a slope that is not allowed there is such a run of cells that does not pass the added one, p-1."""
    for o in range(1, p):
        run = {o * pow(l, k, p) % p for k in range(p - 1)}
        if p - 1 not in run:
            made = bytearray(tile)
            for j in run:
                made[j] ^= change
            return bytes(made)
    raise AssertionError(f"{l} is allowed at {p}")


def lines_of(p, drawn):
    """A row, another row, a column and another column."""
    (r, s), (c, d) = drawn.sample(range(p - 1), 2), drawn.sample(range(p - 1), 2)
    return ("row", r), ("row", s), ("column", c), ("column", d)


def unflagged(p, l, tile, drawn):
    """Tiles without flags: clean, a cell, a column, a row, two lines, garbage."""
    row, other_row, column, other_column = lines_of(p, drawn)
    cell = drawn.randrange(p - 1), drawn.randrange(p - 1)
    yield tile
    yield hurt(p, tile, drawn, cells=[cell])
    yield hurt(p, tile, drawn, column)
    yield hurt(p, tile, drawn, row)
    yield hurt(p, tile, drawn, row, column)
    yield hurt(p, tile, drawn, row, other_row)
    yield hurt(p, tile, drawn, column, other_column)
    yield drawn.randbytes(tile_length(p))


def flagged(p, tile, drawn):
    """Flags, and tiles for them: filled in one line and in two, refused, and with no flag but room for them."""
    row, other_row, column, other_column = lines_of(p, drawn)
    for first, second in ((row, column), (column, row), (other_row, row), (column, other_column), (row, row)):
        yield (first, second), hurt(p, tile, drawn, first, second)
    yield (None, column), hurt(p, tile, drawn, column)
    yield (row, None), hurt(p, tile, drawn, other_column)
    yield (row, column), drawn.randbytes(tile_length(p))
    yield (row, column), tile
    yield (None, None), tile
    yield (None, None), hurt(p, tile, drawn, row)


def records_of(sort, p):
    """The records of a size, with number 0."""
    drawn = Random(p)
    l = drawn.choice(SLOPES[p])
    tile = written(p, l, drawn.randbytes(text_length(p)))
    if sort == "new":
        return [record(0, p, l, made) for made in unflagged(p, l, tile, drawn)]
    if sort == "flagged":
        return [record(0, p, l, made, flags=map(flag_of, lost)) for lost, made in flagged(p, tile, drawn)]
    made = [record(0, p, HOUSE[p], written(p, HOUSE[p], drawn.randbytes(text_length(p))), OLD)]
    if OLD_SLOPES[p]:
        l = drawn.choice(OLD_SLOPES[p])
        tile = written(p, l, drawn.randbytes(text_length(p)))
        made += [record(0, p, l, one, OLD) for one in unflagged(p, l, tile, drawn)]
        made.append(record(0, p, l, doubtful(p, l, tile, drawn.randrange(1, 256)), OLD))
    return made


@cache
def pool(sort, p):
    """The same, made once."""
    return records_of(sort, p)


def numbered(number, laid):
    """The record with another number (FORMATS: four bytes from 6 on)."""
    return laid[:6] + number.to_bytes(4, "big") + laid[10:]


def drawn_record(drawn, p, sort=None):
    """Some record of a size, with some number."""
    number = drawn.choice((drawn.randrange(20), drawn.randrange(2**32), 2**32 - 1))
    return numbered(number, drawn.choice(pool(sort or drawn.choice(SORTS), p)))


def run_of(length, drawn, most=257, leave=336):
    """Records of exactly so many bytes together, an even number from 336 on, or 0. Every even number from there on is a sum of 26s and 30s,
    with which the run ends."""
    assert length % 2 == 0 and (length == 0 or length >= leave)
    laid = []
    while length >= 3000:
        fitting = [p for p in SIZES if p <= most and (p - 1) ** 2 + 14 <= length - leave]
        one = drawn_record(drawn, drawn.choice(fitting[-20:]))
        laid.append(one)
        length -= len(one)
    thirties = next(n for n in range(26) if length >= 30 * n and (length - 30 * n) % 26 == 0)
    sorts = ["flagged"] * thirties + ["new"] * ((length - 30 * thirties) // 26)
    drawn.shuffle(sorts)
    laid += [drawn_record(drawn, 5, sort) for sort in sorts]
    return b"".join(laid)


def each_state(p, first=0):
    """All records of a size, one behind the other, numbered."""
    laid = [one for sort in SORTS for one in pool(sort, p)]
    return b"".join(numbered(first + n, one) for n, one in enumerate(laid))


assert NEW is not OLD and len(SIZES) == 53
