"""The sample reel samples/long.reel: captions on tiles of many sizes, what was done to each tile, and the line that it must give. Each
line is held against the listing that is worked out from the bytes (tests/expected/reel.py)."""

from expected.done import Done, cells, lines, nothing
from expected.reel import HEADER, listing, record
from expected.sizes import NEW, SIZES
from expected.tile import text_length, tile_length, write
from expected.tiles import REPAIRED, ones

# Invented for this reel.
CAPTIONS = (
    "Is the harbour light still burning?",
    "It went out before the frost came.",
    "[a door closes below]",
    "Then we walk. Mind the third step.",
    "You said that there were only two.",
    "Nobody has lived here since the thaw.",
    "And yet somebody keeps the clock wound.",
    "[a bell, far off]",
    "That is not our bell.",
    "Count the windows again, from the left.",
    "Forty-six. There should be forty-seven.",
    "[footsteps on gravel]",
)
CUT = 5  # how many bytes the last record has lost


def worked(n):
    """A worked tile of SPEC 10 in place of the captions."""
    before, answer, _ = REPAIRED[n]
    words = " and ".join(f"({i}, {j})" for i, j in before)
    return Done(f"worked tile {n}: 1 in {words}, 0 elsewhere", lambda p, tile: ones(before)), answer


# Tile number, p, l, what was done, and what repair must answer.
TILES = (
    (1, 5, 2, nothing(), "clean"),
    (2, 5, 3, cells(0xFF, (1, 2)), "cell 1 2"),
    (3, 7, 3, lines(0x00, ("column", 4)), "column 4"),
    (4, 7, 5, lines(0xFF, ("row", 2)), "row 2"),
    (5, 11, 2, nothing(), "clean"),
    (5, 11, 8, lines(0x00, ("column", 9)), "column 9"),
    (5, 11, 2, cells(0x20, (6, 0), (6, 7)), "row 6"),
    (6, 13, 6, lines(0x00, ("column", 2), ("column", 7)), "refused 5"),
    (0, 17, 3, lines(0xFF, ("row", 0)), "row 0"),
    (4294967295, 19, 2, cells(0x01, (17, 17)), "cell 17 17"),
    (7, 23, 10, nothing(), "clean"),
    (8, 5, 2, *worked(8)),
    (9, 5, 2, cells(0x20, (0, 0), (1, 1)), "column 3"),
    (10, 29, 2, lines(0xFF, ("row", 27)), "row 27"),
    (11, 31, 11, lines(0xFF, ("row", 4), ("row", 5)), "refused 5"),
    (12, 37, 2, lines(0x00, ("column", 34)), "column 34"),
    (13, 41, 7, lines(0x00, ("row", 12), ("column", 20)), "refused 5"),
    (14, 43, 3, nothing(), "clean"),
    (15, 47, 5, lines(0x00, ("column", 45)), "column 45"),
    (70000, 101, 2, nothing(), "clean"),
    (70000, 101, 3, lines(0xFF, ("row", 63)), "row 63"),
    (7, 5, 2, *worked(7)),
    (1988, 23, 5, nothing(), None),  # the one that is cut short
)
assert {p for _, p, *_ in TILES} == {p for p in SIZES if p <= 47} | {101}


def text(first, length):
    """So many bytes of captions, a line each: all of them from the first one on, again and again."""
    told = "".join(f"{caption}\n" for caption in CAPTIONS[first:] + CAPTIONS[:first]).encode()
    return (told * (length // len(told) + 1))[:length]


def written(n, p, l):
    """The tile of the n-th record before anything was done to it."""
    answer, tile = write(NEW, p, l, text(n % len(CAPTIONS), text_length(p)), [0] * tile_length(p))
    assert answer == "done"
    return tile


def records():
    """The bytes of each record."""
    made = [record(number, p, l, done.to(p, written(n, p, l))) for n, (number, p, l, done, _) in enumerate(TILES)]
    return [*made[:-1], made[-1][:-CUT]]


def reel():
    """The whole reel."""
    return b"".join(records())


def rows():
    """For each record its place in the reel, its fields, what was done, and its line."""
    at, found = 0, []
    for n, ((number, p, l, done, answer), made) in enumerate(zip(TILES, records(), strict=True), start=1):
        words = done.words if answer else f"cut: its last {CUT} bytes are lost"
        line = f"{number} {p} {l} {answer}" if answer else f"stopped 7 {at}"
        assert len(made) == HEADER + tile_length(p) - (0 if answer else CUT)
        found.append((n, at, number, p, l, words, line))
        at += len(made)
    assert listing(reel()) == "".join(f"{line}\n" for *_, line in found)
    return found
