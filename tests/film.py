"""A film's reel with damage of every sort, for a picture of it: docs/map.svg is the map of the one with 71 tiles.

    python3 tests/film.py 71 >film.reel                                       # writes it to standard output
    python3 tests/film.py 71 | counterfrost map - | cmp - docs/map.svg        # is the stored picture this one?

A scratch drifts slowly from tile to tile, splices take a row here and there, dust hurts single bytes, and in one place the film was burnt.
Where the scanner knew what it had lost, it flagged that. The film ends with a few tiles of an old print, and within a record."""

import sys

sys.dont_write_bytecode = True  # leave no files beside the sources

from functools import cache  # noqa: E402
from math import sin  # noqa: E402

from expected.caption import captioned  # noqa: E402
from expected.done import cells, garbage, lines, nothing  # noqa: E402
from expected.flag import flag_of  # noqa: E402
from expected.flags_reel import CAPTIONS  # noqa: E402
from expected.reel import record  # noqa: E402
from expected.sizes import NEW, OLD  # noqa: E402

P, L = 41, 6
OLD_P, OLD_L = 31, 2  # the powers of 2 leave 1, 2, 4, 8 and 16 there, so that it is not allowed
DOUBTFUL = tuple((r, 0) for r in (1, 2, 4, 8, 16))  # cells that a column explains, and a row by another tile (SPEC 10, tile 14)


@cache
def whole(kind, p, l, caption):
    """The tile of a caption as it was printed."""
    return captioned(kind, p, l, CAPTIONS[caption])


def burnt(depth):
    """A round hole in the middle of the tile."""
    middle = P // 2
    hole = [(i, j) for i in range(P - 1) for j in range(P - 1) if (i - middle) ** 2 + (j - middle) ** 2 <= depth**2]
    return cells(0xA5, *hole)


def of(k, count):
    """What was done to the k-th tile of so many, and the lines that its flags tell of, or None."""
    part = k / count
    scratch = "column", round(14 + 26 * part + 5 * sin(9 * part))
    splice = "row", 7 * k % (P - 1)
    scratched, spliced = 0.08 < part < 0.45, k % 13 == 11
    if 0.55 < part < 0.62:
        return burnt(3 + k % 5), None
    if scratched and spliced:
        # Two lines at once: on some tiles the scanner flagged them, on others it did not.
        return lines(0x00, scratch, splice), (scratch, splice) if k % 2 else None
    if 0.7 < part < 0.77:
        return garbage(scratch), (scratch, None)
    if scratched:
        return lines(0x00, scratch), None
    if spliced:
        return lines(0xFF, splice), None
    if k % 7 == 3:
        return cells(0x20, (11 * k % (P - 1), 17 * k % (P - 1))), None
    return nothing(), None


def old(k):
    """What was done to a tile of the old print."""
    if k % 3 == 0:
        return cells(0x01, *DOUBTFUL)
    return cells(0x40, (k % 29, 5 * k % 29)) if k % 3 == 1 else nothing()


def film(count):
    """The reel, of so many tiles, and one more that is cut."""
    records, print_from = [], count - max(4, count // 20)
    for k in range(count):
        if k < print_from:
            done, lost = of(k, count)
            flags = None if lost is None else tuple(map(flag_of, lost))
            records.append(record(k, P, L, done.to(P, whole(NEW, P, L, k % len(CAPTIONS))), NEW, flags))
        else:
            records.append(record(k, OLD_P, OLD_L, old(k).to(OLD_P, whole(OLD, OLD_P, OLD_L, 0)), OLD))
    return b"".join(records) + records[0][:700]


if __name__ == "__main__":
    sys.stdout.buffer.write(film(int(sys.argv[1])))
