"""The edge between a cell and a line (SPEC 5.3, step 3): good tiles of which one byte was hurt, or two, or a whole line that had most of
its new bytes already. The script must ask for each of them, of these bytes. What was done to a tile is known here, so that what has to be
answered is too; the rules must give that answer, and the tile from before."""

from expected.sizes import NEW
from expected.tile import parsed, place, places, sums, text_length, tile_length, write
from expected.tiles import WRITTEN

# Of each size the slope, and the text of a good tile: that of worked tile 3, or the numbers from 0 on.
TEXTS = {
    5: (2, parsed(WRITTEN[3][0])),
    **{p: (l, [k % 256 for k in range(text_length(p))]) for p, l in ((7, 3), (11, 2))},
}
# Size, the cells with what each is changed by, and the answer.
HURT = (
    (5, {(1, 0): 0x40}, "cell 1 0"),  # in the text
    (5, {(0, 2): 0x01}, "cell 0 2"),  # in a check column
    (5, {(2, 3): 0xFF}, "cell 2 3"),
    (5, {(3, 1): 0x80}, "cell 3 1"),  # in the last row
    (5, {(3, 3): 0x02}, "cell 3 3"),
    (5, {(0, 1): 0x40, (3, 1): 0x40}, "column 1"),  # alike
    (5, {(0, 3): 0x40, (1, 3): 0x02}, "column 3"),
    (5, {(2, 0): 0x40, (2, 3): 0x40}, "row 2"),
    (5, {(3, 2): 0x01, (3, 3): 0x02}, "row 3"),
    (7, {(0, 5): 0x10}, "cell 0 5"),
    (7, {(0, 2): 0x10, (5, 2): 0x10}, "column 2"),
    (11, {(9, 6): 0x10}, "cell 9 6"),
    (11, {(4, 0): 0x10, (4, 9): 0x10}, "row 4"),
)
# At size 5, a line that reads one byte throughout, and the answer. Column 1 was 2 0 2 2, row 3 was 2 2 3 2, column 0 was 1 2 0 2.
READS = (
    (("column", 1), 0x02, "cell 1 1"),
    (("row", 3), 0x02, "cell 3 2"),
    (("column", 0), 0x02, "column 0"),
)


def good(p):
    """The good tile of a size, and its slope. The one byte of its sums is not 0."""
    l, text = TEXTS[p]
    answer, tile = write(NEW, p, l, text, [0] * tile_length(p))
    assert answer == "done" and sums(p, 1, tile)[0] != 0
    return l, tile


def changed(p, tile, changes):
    """The tile with these cells changed."""
    at = {place(p, i, j): change for (i, j), change in changes.items()}
    return [byte ^ at.get(k, 0) for k, byte in enumerate(tile)]


def cases():
    """For each case its size and slope, the hurt tile, the answer, and the good tile."""
    for p, changes, answer in HURT:
        l, tile = good(p)
        yield p, l, changed(p, tile, changes), answer, tile
    l, tile = good(5)
    for line, byte, answer in READS:
        yield 5, l, [byte if k in places(5, line) else old for k, old in enumerate(tile)], answer, tile


def hold(says):
    """All of them."""
    for p, l, hurt, answer, tile in cases():
        says("mend", p, l, hurt, [], answer, tile)
