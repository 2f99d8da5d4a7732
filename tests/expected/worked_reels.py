"""The worked reels, with the listing of each, and what a reader finds at the places of its records: the tiles that are listed, with their
lost lines and the offsets of their bytes, and the refusal or the end. The script must ask for each of these places."""

from expected.flag import flag_of, to_fill
from expected.reel import listing, record, tile_at
from expected.sizes import OLD
from expected.tiles import FILLED, OLD_L, OLD_P, OLD_REPAIRED, REPAIRED, L, P, ones

# The whole reel of SPEC 10. FORMATS has it byte by byte.
WHOLE_REEL = (
    record(7, 5, 2, bytes(16))
    + record(8, 5, 2, bytes(2 * 4 + 3) + bytes.fromhex("41") + bytes(16 - (2 * 4 + 3) - 1))
    + bytes(1)
)
WHOLE_LISTING = """\
7 5 2 clean
8 5 2 cell 2 3
stopped 7 52
"""
assert len(WHOLE_REEL) == 53 and listing(WHOLE_REEL) == WHOLE_LISTING
WHOLE_PLACES = {0: "tile 7 5 2 at 10 ", 26: "tile 8 5 2 at 36 ", 52: "refused 7 at 52 "}

# A reel of both kinds: worked tile 16 of SPEC 10, which is old, zeros on a new tile, and worked tile 14, which is old and doubtful. Slope 2
# is not allowed at 7.
MIXED_REEL = (
    record(16, OLD_P, OLD_L, ones(OLD_REPAIRED[16][0], OLD_P), kind=OLD)
    + record(17, 5, 2, bytes(16))
    + record(14, OLD_P, OLD_L, ones(OLD_REPAIRED[14][0], OLD_P), kind=OLD)
)
assert listing(MIXED_REEL) == "16 7 2 cell 1 1\n17 5 2 clean\n14 7 2 refused 8\nend 3\n"
MIXED_PLACES = {0: "old tile 16 7 2 at 10 ", 46: "tile 17 5 2 at 56 ", 72: "old tile 14 7 2 at 82 ", 118: "end "}


def flagged(number, first, second, tile):
    """A flagged record of the worked tiles' size and slope. Its flags are given by their lines."""
    return record(number, P, L, tile, flags=(flag_of(first), flag_of(second)))


# The reel with flags of SPEC 10, of the worked tiles 9, 6, 4 and 10 and of zeros. FORMATS has it byte by byte.
ROW_0, COLUMN_0 = ("row", 0), ("column", 0)
FLAGS_REEL = (
    flagged(9, ROW_0, COLUMN_0, ones([FILLED[9][0]]))
    + flagged(10, None, ROW_0, ones(REPAIRED[6][0]))
    + flagged(11, ("column", 3), None, ones([]))
    + flagged(12, None, None, ones(REPAIRED[4][0]))
    + record(13, P, L, ones(REPAIRED[6][0]))
    + flagged(14, ROW_0, COLUMN_0, ones([FILLED[10][0]]))
    + flagged(15, ("row", 4), None, b"")
)
FLAGS_LISTING = """\
9 5 2 filled
10 5 2 filled
11 5 2 filled
12 5 2 cell 2 3
13 5 2 row 0
14 5 2 refused 5
stopped 4 176
"""
assert len(FLAGS_REEL) == 190 and listing(FLAGS_REEL) == FLAGS_LISTING
FLAGS_PLACES = {
    0: "tile 9 5 2 first flag row 0 second flag column 0 at 14 ",
    30: "tile 10 5 2 second flag row 0 at 44 ",
    60: "tile 11 5 2 first flag column 3 at 74 ",
    90: "tile 12 5 2 at 104 ",
    120: "tile 13 5 2 at 130 ",
    146: "tile 14 5 2 first flag row 0 second flag column 0 at 160 ",
    176: "refused 4 at 176 ",
    190: "end ",
}


def hold_places(says):
    """What stands at each place."""
    for reel, places in ((WHOLE_REEL, WHOLE_PLACES), (MIXED_REEL, MIXED_PLACES), (FLAGS_REEL, FLAGS_PLACES)):
        for at, stands in places.items():
            says("place", at, 0, list(reel), [], left=list(reel), begins=stands)


def hold_restored(says):
    """The tiles of the reel with flags: the script fills those that have a flag and repairs the others, and both are answered as listed."""
    *lines, _ = FLAGS_LISTING.splitlines()
    at = 0
    for line in lines:
        tile = tile_at(FLAGS_REEL, at)
        at = tile.end
        answer = line.removeprefix(f"{tile.number} {P} {L} ").replace("filled", "done")
        lost = to_fill(tile.flags)
        says("fill" if lost else "mend", P, L, list(FLAGS_REEL[tile.start : at]), [], answer, lines=lost)


def hold(says):
    """All of them."""
    hold_places(says)
    hold_restored(says)
